/*
 * calls COMMAND [ARGUMENT..]: does what `bootimg COMMAND ARGUMENT..` does, by a call of the library. It calls with a buffer of the
 * right size, with one byte more and one less, and with none, and checks what each call leaves. A failed check ends the program with
 * status 3.
 */
#define _GNU_SOURCE
#include "guarded.h"

#include <bootimg.h>

#include <pthread.h>

/* What is called, and on what. */
struct call {
    const char *command;
    const char *paths[2];
    struct memory files[2];
    uint32_t form;
    uint32_t kinds;
    uint32_t limit;
    uint32_t number;
    uint32_t field;
    uint32_t changes;
    uint32_t time;
    int is_quiet;
    int is_json;
    int is_deep;
    uint32_t layout;
    /* What is extracted: a part, or by the name of an image, of a configuration or of none. */
    int selection;
    struct memory name;
    uint32_t key;
    uint32_t index;
    /* Where a single value is, and how it is written. */
    struct memory place, property;
    uint32_t value_form;
    /* What comparing leaves out. */
    struct memory words;
    bootimg_region regions[8];
    size_t regions_count;
    /* What is edited. The words and the payloads are in the input. */
    struct memory input;
    bootimg_edit_element edits[16];
    size_t edits_count;
};

enum { PART = 1, IMAGE, CONFIG, DEFAULT };

static uint32_t make(const struct call *call, uint8_t *buffer, size_t size, bootimg_result *answer)
{
    const uint8_t *one = call->files[0].bytes, *other = call->files[1].bytes;
    size_t one_size = call->files[0].size, other_size = call->files[1].size;
    uint32_t limit = call->limit, depth = BOOTIMG_DEPTH;
    if (strcmp(call->command, "normalise") == 0)
        return bootimg_normalise(one, one_size, call->form, limit, depth, buffer, size, answer);
    if (strcmp(call->command, "update") == 0)
        return bootimg_update(one, one_size, call->changes, call->time, call->form, limit, depth, buffer, size, answer);
    if (strcmp(call->command, "edit") == 0)
        return bootimg_edit(one, one_size, call->input.bytes, call->input.size, call->edits, call->edits_count, call->form, limit, depth,
                            buffer, size, answer);
    if (strcmp(call->command, "list") == 0)
        return (call->is_json ? bootimg_list_json : bootimg_list)(one, one_size, limit, depth, buffer, size, answer);
    if (strcmp(call->command, "describe") == 0 && call->is_deep)
        return (call->is_json ? bootimg_describe_deep_json : bootimg_describe_deep)(one, one_size, limit, depth, buffer, size, answer);
    if (strcmp(call->command, "describe") == 0)
        return (call->is_json ? bootimg_describe_json : bootimg_describe)(one, one_size, limit, depth, buffer, size, answer);
    if (strcmp(call->command, "scan") == 0)
        return (call->is_json ? bootimg_scan_json : bootimg_scan)(one, one_size, limit, depth, buffer, size, answer);
    if (strcmp(call->command, "show") == 0)
        return call->is_json ? bootimg_show_json(one, one_size, limit, depth, buffer, size, answer)
                             : bootimg_show(one, one_size, call->layout, limit, depth, buffer, size, answer);
    if (strcmp(call->command, "verify") == 0)
        return (call->is_json ? bootimg_verify_json : bootimg_verify)(one, one_size, limit, depth, buffer, size, answer);
    if (strcmp(call->command, "check") == 0)
        return (call->is_json ? bootimg_check_json : bootimg_check)(one, one_size, call->kinds, limit, depth, buffer, size, answer);
    if (strcmp(call->command, "convert") == 0)
        return bootimg_convert(one, one_size, limit, depth, buffer, size, answer);
    if (strcmp(call->command, "compare") == 0 && call->is_deep)
        return (call->is_json ? bootimg_compare_deep_json : bootimg_compare_deep)(
            one, one_size, other, other_size, call->words.bytes, call->words.size, call->regions, call->regions_count, limit, depth, buffer,
            size, answer);
    if (strcmp(call->command, "compare") == 0 && call->regions_count != 0)
        return (call->is_json ? bootimg_compare_ignoring_json : bootimg_compare_ignoring)(
            one, one_size, other, other_size, call->words.bytes, call->words.size, call->regions, call->regions_count, limit, depth, buffer,
            size, answer);
    if (strcmp(call->command, "compare") == 0)
        return (call->is_json ? bootimg_compare_json : bootimg_compare)(one, one_size, other, other_size, limit, depth, buffer, size,
                                                                        answer);
    if (strcmp(call->command, "get") == 0)
        return bootimg_get(one, one_size, call->place.bytes, call->place.size, call->property.bytes, call->property.size,
                           call->value_form, limit, depth, buffer, size, answer);
    if (strcmp(call->command, "code-name") == 0)
        return bootimg_code_name(call->field, call->number, buffer, size, answer);
    if (strcmp(call->command, "cause") == 0)
        return bootimg_cause_name(call->number, buffer, size, answer);
    if (strcmp(call->command, "sentence") == 0)
        return bootimg_explain(call->number, buffer, size, answer);
    CHECK(strcmp(call->command, "version") == 0);
    return bootimg_version(buffer, size, answer);
}

/* Calls with a buffer of this size whose bytes are 0xa5. The struct has no zeros, and nothing after it is written. */
static uint32_t make_with(const struct call *call, struct memory *buffer, size_t size, bootimg_result *answer)
{
    struct {
        bootimg_result answer;
        uint64_t after;
    } room;
    uint32_t status;
    *buffer = take(size);
    memset(buffer->bytes, 0xa5, size);
    memset(&room, 0xc3, sizeof room);
    status = make(call, buffer->bytes, size, &room.answer);
    CHECK(room.after == 0xc3c3c3c3c3c3c3c3u);
    *answer = room.answer;
    return status;
}

/* The refused file as the program names it, and why it is refused. */
static void tell(const struct call *call, const bootimg_result *answer)
{
    uint8_t name[64];
    bootimg_result named;
    CHECK(bootimg_cause_name(answer->cause, name, sizeof name, &named) == BOOTIMG_OK);
    CHECK(answer->file == 1 || answer->file == 2);
    if (!call->is_quiet)
        fprintf(stderr, "bootimg: %s: %.*s at %u\n", call->paths[answer->file - 1], (int)named.size, name, (unsigned)answer->offset);
}

/* Writes the notes of the program. */
static void print_notes(const struct call *call, bootimg_edit_note_numbers notes)
{
    if (call->is_quiet)
        return;
    if (notes.signatures != 0)
        fprintf(stderr, "bootimg: note: %zu signature nodes carried, not checked\n", notes.signatures);
    if (notes.inside != 0)
        fprintf(stderr, "bootimg: note: %zu payloads are inside the blob now, see --external\n", notes.inside);
    if (notes.lost_alignment != 0)
        fprintf(stderr, "bootimg: note: payloads are no longer aligned to %u bytes, see --align\n", (unsigned)notes.lost_alignment);
    if (notes.lost_positions != 0)
        fprintf(stderr, "bootimg: note: %zu fixed positions of payloads were not kept\n", notes.lost_positions);
}

/* The notes on what is edited. A struct of the notes is overwritten, and nothing after it. */
static bootimg_edit_note_numbers notes_of_edits(const struct call *call, const bootimg_result *made)
{
    struct {
        bootimg_edit_note_numbers notes;
        uint64_t after;
    } room;
    bootimg_result answer;
    memset(&room, 0xc3, sizeof room);
    CHECK(bootimg_edit_notes(call->files[0].bytes, call->files[0].size, call->input.bytes, call->input.size, call->edits,
                             call->edits_count, call->form, call->limit, BOOTIMG_DEPTH, &room.notes, &answer) == BOOTIMG_OK);
    CHECK(room.after == 0xc3c3c3c3c3c3c3c3u && room.notes.signatures == made->value);
    CHECK(answer.size == 0 && answer.value == 0 && answer.cause == 0 && answer.offset == 0 && answer.file == 0 && answer.reason == 0);
    return room.notes;
}

/* The notes on an update, which are those on the same edits. */
static bootimg_edit_note_numbers notes_of_update(const struct call *call, const bootimg_result *made)
{
    struct call edits = *call;
    edits.edits_count = 0;
    if (call->changes & BOOTIMG_CHANGE_TIME)
        edits.edits[edits.edits_count++] = (bootimg_edit_element){.kind = BOOTIMG_EDIT_TIME, .number = call->time};
    if (call->changes & BOOTIMG_CHANGE_HASHES)
        edits.edits[edits.edits_count++] = (bootimg_edit_element){.kind = BOOTIMG_EDIT_HASHES};
    return notes_of_edits(&edits, made);
}

/* Writes the notes on a normal form or an update. A struct of the notes is overwritten, and nothing after it. It has not how many payloads
 * are inside the blob now, which the program says of an update. */
static void note(const struct call *call, const bootimg_result *made)
{
    struct {
        bootimg_note_numbers notes;
        uint64_t after;
    } room;
    bootimg_edit_note_numbers all = {0, 0, 0, 0};
    bootimg_result answer;
    int is_update = strcmp(call->command, "update") == 0;
    memset(&room, 0xc3, sizeof room);
    CHECK(bootimg_notes(call->files[0].bytes, call->files[0].size, is_update ? call->changes : 0, call->time, call->form, call->limit,
                        BOOTIMG_DEPTH, &room.notes, &answer) == BOOTIMG_OK);
    CHECK(room.after == 0xc3c3c3c3c3c3c3c3u && room.notes.signatures == made->value);
    CHECK(answer.size == 0 && answer.value == 0 && answer.cause == 0 && answer.offset == 0 && answer.file == 0 && answer.reason == 0);
    if (is_update)
        all = notes_of_update(call, made);
    CHECK(!is_update || (all.lost_alignment == room.notes.lost_alignment && all.lost_positions == room.notes.lost_positions));
    all.signatures = room.notes.signatures;
    all.lost_positions = room.notes.lost_positions;
    all.lost_alignment = room.notes.lost_alignment;
    print_notes(call, all);
}

/* The same on what cannot be edited: the struct is as it was, and the status and the answer are the same. */
static void note_no_edits(const struct call *call, uint32_t status, const bootimg_result *failed)
{
    bootimg_edit_note_numbers notes, before;
    bootimg_result answer;
    memset(&notes, 0xc3, sizeof notes);
    before = notes;
    CHECK(bootimg_edit_notes(call->files[0].bytes, call->files[0].size, call->input.bytes, call->input.size, call->edits,
                             call->edits_count, call->form, call->limit, BOOTIMG_DEPTH, &notes, &answer) == status);
    CHECK(memcmp(&answer, failed, sizeof answer) == 0 && memcmp(&notes, &before, sizeof notes) == 0);
}

/* The notes on what cannot be made: the struct is as it was, and the status and the answer are the same. */
static void note_nothing(const struct call *call, uint32_t status, const bootimg_result *failed)
{
    bootimg_note_numbers notes, before;
    bootimg_result answer;
    uint32_t changes = strcmp(call->command, "update") == 0 ? call->changes : 0;
    memset(&notes, 0xc3, sizeof notes);
    before = notes;
    CHECK(bootimg_notes(call->files[0].bytes, call->files[0].size, changes, call->time, call->form, call->limit, BOOTIMG_DEPTH, &notes,
                        &answer) == status);
    CHECK(memcmp(&answer, failed, sizeof answer) == 0 && memcmp(&notes, &before, sizeof notes) == 0);
}

/* Why there is no value, or no extracted payload. */
static const char *const reasons[] = {
    "", "the selection does not fit this kind of image", "no such part", "no such image", "no such configuration",
    "no such key", "bad list", "missing image", "no such entry", "no payload", "no such node", "no such property", "no text", "no number",
    "no name", "no code",
};

/* Writes why an edit finds nothing. */
static void tell_edit(const struct call *call, size_t index)
{
    const bootimg_edit_element *edit = &call->edits[index];
    CHECK(index < call->edits_count && edit->kind <= BOOTIMG_EDIT_PAYLOAD && edit->kind != BOOTIMG_EDIT_SET);
    if (edit->kind == BOOTIMG_EDIT_REMOVE) {
        fprintf(stderr, "bootimg: %s: nothing to remove %.*s\n", call->paths[0], (int)edit->word.size,
                call->input.bytes + edit->word.offset);
        return;
    }
    bootimg_result answer;
    uint32_t status = bootimg_kind(call->files[0].bytes, call->files[0].size, &answer);
    CHECK(status == BOOTIMG_OK);
    fprintf(stderr, "bootimg: %s: %s\n", call->paths[0], answer.value == BOOTIMG_FIT ? "no such image" : "no such part");
}

/* Without words the program describes no files that mean the same thing, and bootimg_compare_deep does: it finds no difference, or that
 * one is too long. */
static void skip_deep_if_same(struct call *call)
{
    bootimg_result answer;
    if (bootimg_same_meaning(call->files[0].bytes, call->files[0].size, call->files[1].bytes, call->files[1].size, call->limit,
                             BOOTIMG_DEPTH, &answer) != BOOTIMG_OK || answer.value == 0)
        return;
    if (make(call, NULL, 0, &answer) == BOOTIMG_REFUSED)
        CHECK(answer.cause == BOOTIMG_CAUSE_TOO_LARGE && answer.offset == call->limit && answer.file == 1);
    else
        CHECK(answer.value == 1 && answer.size == (call->is_json ? strlen("{\"same\":true,\"differences\":[]}\n") : 0));
    call->is_deep = 0;
}

/* Calls with buffers of several sizes, and writes the output. Returns the exit status of the program. */
static int run(const struct call *call, FILE *output)
{
    struct memory buffer, exact;
    bootimg_result answer, again;
    int has_notes = strcmp(call->command, "normalise") == 0 || strcmp(call->command, "update") == 0;
    int is_edit = strcmp(call->command, "edit") == 0;
    uint32_t status = make_with(call, &buffer, 0, &answer);
    give_back(buffer);
    CHECK((answer.reason != 0) == (status == BOOTIMG_NOT_FOUND || status == BOOTIMG_WRONG_ARGUMENT));
    CHECK(make(call, NULL, 0, &again) == status && memcmp(&answer, &again, sizeof answer) == 0);
    if (status != BOOTIMG_OK && status != BOOTIMG_NO_ROOM) {
        const uint32_t reason = status == BOOTIMG_NOT_FOUND ? answer.reason : 0;
        CHECK(answer.size == 0);
        CHECK(answer.value == 0 || answer.value < (reason == BOOTIMG_BAD_WORD ? call->regions_count : call->edits_count));
        CHECK(make_with(call, &buffer, 100, &again) == status);
        CHECK(memcmp(&answer, &again, sizeof answer) == 0);
        CHECK(is_unchanged(buffer.bytes, 100));
        give_back(buffer);
        if (has_notes)
            note_nothing(call, status, &answer);
        if (is_edit)
            note_no_edits(call, status, &answer);
        if (status == BOOTIMG_REFUSED)
            tell(call, &answer);
        else
            CHECK(answer.cause == 0 && answer.offset == 0 && answer.file == 0);
        if (reason == BOOTIMG_BAD_WORD || reason == BOOTIMG_BAD_EDIT) {
            fputs("bootimg: usage: bad value\n", stderr);
        } else if (reason == BOOTIMG_FINDS_NOTHING) {
            tell_edit(call, answer.value);
        } else if (reason != 0 && !call->is_quiet) {
            CHECK(is_edit ? reason == BOOTIMG_WRONG_KIND
                          : strcmp(call->command, "get") == 0 ? reason <= BOOTIMG_NO_NUMBER : reason == BOOTIMG_NO_NAME);
            fprintf(stderr, "bootimg: %s: %s\n", call->paths[0], reasons[reason]);
        }
        return status == BOOTIMG_REFUSED || status == BOOTIMG_NOT_FOUND ? 2 : 10 + (int)status;
    }
    CHECK(status == (answer.size == 0 ? BOOTIMG_OK : BOOTIMG_NO_ROOM));
    CHECK(answer.cause == 0 && answer.offset == 0 && answer.file == 0);
    CHECK(make_with(call, &exact, answer.size, &again) == BOOTIMG_OK);
    CHECK(memcmp(&answer, &again, sizeof answer) == 0);
    CHECK(make_with(call, &buffer, answer.size + 9, &again) == BOOTIMG_OK);
    CHECK(memcmp(&answer, &again, sizeof answer) == 0);
    CHECK(memcmp(buffer.bytes, exact.bytes, answer.size) == 0 && is_unchanged(buffer.bytes + answer.size, 9));
    give_back(buffer);
    if (answer.size != 0) {
        CHECK(make_with(call, &buffer, answer.size - 1, &again) == BOOTIMG_NO_ROOM);
        CHECK(memcmp(&answer, &again, sizeof answer) == 0);
        CHECK(is_unchanged(buffer.bytes, answer.size - 1));
        give_back(buffer);
    }
    CHECK(fwrite(exact.bytes, 1, answer.size, output) == answer.size);
    give_back(exact);
    if (has_notes)
        note(call, &answer);
    if (is_edit)
        print_notes(call, notes_of_edits(call, &answer));
    if (strcmp(call->command, "scan") == 0)
        return answer.size == (call->is_json ? strlen("{\"images\":[]}\n") : 0);
    if (strcmp(call->command, "compare") == 0 && call->regions_count == 0) {
        CHECK(bootimg_same_meaning(call->files[0].bytes, call->files[0].size, call->files[1].bytes, call->files[1].size,
                                   call->limit, BOOTIMG_DEPTH, &again) == BOOTIMG_OK);
        CHECK(again.value == answer.value && again.size == 0);
    }
    if (strcmp(call->command, "verify") == 0 || strcmp(call->command, "check") == 0 || strcmp(call->command, "compare") == 0)
        return answer.value == 1 ? 0 : 1;
    return 0;
}

static uint32_t make_extract(const struct call *call, bootimg_result *answer)
{
    const uint8_t *file = call->files[0].bytes, *name = call->name.bytes;
    size_t size = call->files[0].size, name_size = call->name.size;
    uint32_t limit = call->limit, depth = BOOTIMG_DEPTH;
    switch (call->selection) {
    case PART:
        return bootimg_extract_part(file, size, call->index, limit, depth, answer);
    case IMAGE:
        return bootimg_extract_image(file, size, name, name_size, limit, depth, answer);
    case CONFIG:
        return bootimg_extract_config(file, size, name, name_size, call->key, call->index, limit, depth, answer);
    default:
        CHECK(call->selection == DEFAULT);
        return bootimg_extract_default(file, size, call->key, call->index, limit, depth, answer);
    }
}

/* Writes what is extracted out of the file, or why there is nothing. Returns the exit status of the program. */
static int extract(const struct call *call, FILE *output)
{
    struct {
        bootimg_result answer;
        uint64_t after;
    } room;
    const bootimg_result *answer = &room.answer;
    uint32_t status;
    memset(&room, 0xc3, sizeof room);
    status = make_extract(call, &room.answer);
    CHECK(room.after == 0xc3c3c3c3c3c3c3c3u);
    if (status == BOOTIMG_REFUSED) {
        CHECK(answer->size == 0 && answer->value == 0 && answer->reason == 0);
        tell(call, answer);
        return 2;
    }
    CHECK(answer->cause == 0 && answer->offset == 0 && answer->file == 0);
    if (status == BOOTIMG_NOT_FOUND) {
        CHECK(answer->size == 0 && answer->reason >= BOOTIMG_WRONG_KIND && answer->reason <= BOOTIMG_NO_PAYLOAD);
        CHECK(answer->value == 0 || answer->reason == BOOTIMG_MISSING);
        if (!call->is_quiet) {
            fprintf(stderr, "bootimg: %s: %s", call->paths[0], reasons[answer->reason]);
            if (answer->reason == BOOTIMG_MISSING)
                fprintf(stderr, " %zu", answer->value);
            fputc('\n', stderr);
        }
        return 2;
    }
    CHECK((answer->reason != 0) == (status == BOOTIMG_WRONG_ARGUMENT));
    if (status != BOOTIMG_OK)
        return 10 + (int)status;
    CHECK(answer->value <= call->files[0].size && answer->size <= call->files[0].size - answer->value);
    CHECK(fwrite(call->files[0].bytes + answer->value, 1, answer->size, output) == answer->size);
    return 0;
}

/* The calls on one file that have a buffer. */
static const struct {
    const char *command;
    int is_json, is_deep;
} of_one[] = {
    {"normalise", 0, 0}, {"update", 0, 0}, {"convert", 0, 0}, {"list", 0, 0}, {"list", 1, 0}, {"describe", 0, 0}, {"describe", 1, 0},
    {"describe", 0, 1}, {"describe", 1, 1}, {"verify", 0, 0}, {"verify", 1, 0}, {"check", 0, 0}, {"check", 1, 0}, {"show", 0, 0},
    {"show", 1, 0}, {"get", 0, 0}, {"scan", 0, 0}, {"scan", 1, 0}, {"edit", 0, 0},
};

enum { CALLS_OF_ONE = sizeof of_one / sizeof of_one[0] };

/* A call fails with this status since the argument with this number is wrong, and, if it is an array, its element with this index. */
static void names(uint32_t status, const bootimg_result *answer, uint32_t argument, size_t index)
{
    CHECK(status == BOOTIMG_WRONG_ARGUMENT && answer->reason == argument && answer->value == index);
    CHECK(answer->size == 0 && answer->cause == 0 && answer->offset == 0 && answer->file == 0);
}

/* A call of bootimg_edit on a file, with one byte of room, that fails with this status and this reason. */
static void try_edit(const struct memory file, const char *input, const bootimg_edit_element *edits, size_t count, uint32_t form,
                     uint32_t limit, uint32_t depth, uint32_t status, uint32_t reason, size_t value)
{
    bootimg_edit_note_numbers notes = {1, 2, 3, 4};
    bootimg_result answer;
    uint8_t byte = 0xa5;
    size_t size = strlen(input);
    CHECK(bootimg_edit(file.bytes, file.size, (const uint8_t *)input, size, edits, count, form, limit, depth, &byte, 1, &answer) == status);
    CHECK(byte == 0xa5 && answer.size == 0 && answer.value == value && answer.reason == reason);
    CHECK(bootimg_edit_notes(file.bytes, file.size, (const uint8_t *)input, size, edits, count, form, limit, depth, &notes, &answer) ==
          status);
    CHECK(notes.signatures == 1 && notes.lost_positions == 2 && notes.inside == 3 && notes.lost_alignment == 4);
    CHECK(answer.size == 0 && answer.value == value && answer.reason == reason);
}

/* What is no edit is a wrong argument, even after an edit whose word is for none. That one is found before the file is read. */
static void try_edits(const struct call *call)
{
    static const uint32_t limits[] = {0, 63, 0x80000000u}, depths[] = {0, 65, 257}, forms[] = {3, 5, 4097, 0x200000};
    const struct memory file = call->files[0], none = {.bytes = NULL, .size = 0};
    const bootimg_edit_element time = {{0, 0}, {0, 0}, BOOTIMG_EDIT_TIME, 5}, bad = {{0, 1}, {0, 0}, BOOTIMG_EDIT_REMOVE, 0};
    const bootimg_edit_element wrong[] = {
        {{0, 0}, {0, 0}, BOOTIMG_EDIT_COMPRESSION + 1, 0}, {{0, 0}, {0, 0}, 0xffffffffu, 0},  {{0, 0}, {0, 0}, BOOTIMG_EDIT_OS, 256},
        {{0, 0}, {0, 0}, BOOTIMG_EDIT_ARCH, 256},          {{0, 0}, {0, 0}, BOOTIMG_EDIT_COMPRESSION, 256},
        {{0, 3}, {0, 0}, BOOTIMG_EDIT_TIME, 5},            {{0, 0}, {3, 0}, BOOTIMG_EDIT_HASHES, 0},
        {{0, 1}, {2, (size_t)-1}, BOOTIMG_EDIT_PAYLOAD, 0}, {{(size_t)-1, 2}, {0, 0}, BOOTIMG_EDIT_REMOVE, 0},
    };
    for (size_t i = 0; i < 3; i++) {
        try_edit(file, "", &time, 1, 0, limits[i], 64, BOOTIMG_WRONG_ARGUMENT, BOOTIMG_ARGUMENT_LIMIT, 0);
        try_edit(file, "", &time, 1, 0, call->limit, depths[i], BOOTIMG_WRONG_ARGUMENT, BOOTIMG_ARGUMENT_DEPTH, 0);
    }
    for (size_t i = 0; i < sizeof forms / sizeof forms[0]; i++)
        try_edit(file, "", &time, 1, forms[i], call->limit, 64, BOOTIMG_WRONG_ARGUMENT, BOOTIMG_ARGUMENT_FORM, 0);
    for (size_t i = 0; i < sizeof wrong / sizeof wrong[0]; i++) {
        const bootimg_edit_element edits[] = {time, bad, wrong[i], bad};
        try_edit(file, "xy", edits, 4, 0, call->limit, 64, BOOTIMG_WRONG_ARGUMENT, BOOTIMG_ARGUMENT_EDITS, 2);
        try_edit(none, "xy", edits, 2, BOOTIMG_KEEP_FORM, 64, 1, BOOTIMG_NOT_FOUND, BOOTIMG_BAD_EDIT, 1);
    }
    try_edit(none, "", &time, 1, 0, call->limit, 64, BOOTIMG_REFUSED, 0, 0);
}

/* Calls whose numbers are out of their ranges leave the buffer as it is. */
static int try_arguments(struct call *call)
{
    static const uint32_t limits[] = {0, 63, 0x80000000u, 0xffffffffu}, depths[] = {0, 65, 257, 0xffffffffu};
    bootimg_result answer;
    uint8_t byte = 0xa5;
    for (int i = 0; i < 4; i++) {
        struct call wrong = *call;
        wrong.limit = limits[i];
        for (int j = 0; j < CALLS_OF_ONE; j++) {
            wrong.command = of_one[j].command;
            wrong.is_json = of_one[j].is_json;
            wrong.is_deep = of_one[j].is_deep;
            names(make(&wrong, &byte, 1, &answer), &answer, BOOTIMG_ARGUMENT_LIMIT, 0);
            CHECK(byte == 0xa5);
        }
        names(bootimg_list(call->files[0].bytes, call->files[0].size, call->limit, depths[i], &byte, 1, &answer), &answer,
              BOOTIMG_ARGUMENT_DEPTH, 0);
        names(bootimg_same_meaning(call->files[0].bytes, call->files[0].size, call->files[0].bytes, call->files[0].size,
                                   call->limit, depths[i], &answer), &answer, BOOTIMG_ARGUMENT_DEPTH, 0);
    }
    for (int i = 0; i < 8; i++) {
        static const uint32_t forms[] = {2, 3, 5, 12, 4095, 0x180000, 0x200000, 0x80000000u};
        names(bootimg_normalise(call->files[0].bytes, call->files[0].size, forms[i], call->limit, 64, &byte, 1, &answer), &answer,
              BOOTIMG_ARGUMENT_FORM, 0);
        names(bootimg_update(call->files[0].bytes, call->files[0].size, 0, 0, forms[i], call->limit, 64, &byte, 1, &answer), &answer,
              BOOTIMG_ARGUMENT_FORM, 0);
    }
    for (int shift = 2; shift <= 20; shift++) {
        uint32_t status = bootimg_normalise(call->files[0].bytes, call->files[0].size, (uint32_t)1 << shift, call->limit, 64, NULL, 0,
                                            &answer);
        CHECK(status == BOOTIMG_NO_ROOM || status == BOOTIMG_REFUSED);
    }
    names(bootimg_check(call->files[0].bytes, call->files[0].size, 2 * BOOTIMG_SIGNED, call->limit, 64, &byte, 1, &answer), &answer,
          BOOTIMG_ARGUMENT_KINDS, 0);
    names(bootimg_check_json(call->files[0].bytes, call->files[0].size, 2 * BOOTIMG_SIGNED, call->limit, 64, &byte, 1, &answer), &answer,
          BOOTIMG_ARGUMENT_KINDS, 0);
    names(bootimg_update(call->files[0].bytes, call->files[0].size, 4, 0, 0, call->limit, 64, &byte, 1, &answer), &answer,
          BOOTIMG_ARGUMENT_CHANGES, 0);
    /* Of several that are wrong, the first is named. */
    names(bootimg_update(call->files[0].bytes, call->files[0].size, 4, 0, 3, call->limit, 64, &byte, 1, &answer), &answer,
          BOOTIMG_ARGUMENT_FORM, 0);
    names(bootimg_update(call->files[0].bytes, call->files[0].size, 4, 0, 3, call->limit, 65, &byte, 1, &answer), &answer,
          BOOTIMG_ARGUMENT_DEPTH, 0);
    names(bootimg_update(call->files[0].bytes, call->files[0].size, 4, 0, 3, 63, 65, &byte, 1, &answer), &answer,
          BOOTIMG_ARGUMENT_LIMIT, 0);
    names(bootimg_show(call->files[0].bytes, call->files[0].size, 2, call->limit, 64, &byte, 1, &answer), &answer,
          BOOTIMG_ARGUMENT_LAYOUT, 0);
    names(bootimg_get(call->files[0].bytes, call->files[0].size, (const uint8_t *)"/", 1, (const uint8_t *)"x", 1, 4, call->limit, 64,
                      &byte, 1, &answer), &answer, BOOTIMG_ARGUMENT_FORM, 0);
    names(bootimg_get(call->files[0].bytes, call->files[0].size, (const uint8_t *)"size", 4, NULL, 0, BOOTIMG_VALUE_RAW, call->limit, 64,
                      &byte, 1, &answer), &answer, BOOTIMG_ARGUMENT_PLACE, 0);
    for (int i = 0; i < 2; i++) {
        const bootimg_region outside[] = {{0, 4}, {1 + (size_t)i, 4}};
        names(bootimg_compare_ignoring(call->files[0].bytes, call->files[0].size, call->files[0].bytes, call->files[0].size,
                                       (const uint8_t *)"time", 4, outside, 2, i == 0 ? call->limit : 63, 64, &byte, 1, &answer), &answer,
              i == 0 ? BOOTIMG_ARGUMENT_WORDS : BOOTIMG_ARGUMENT_LIMIT, i == 0 ? 1 : 0);
        names(bootimg_compare_deep(call->files[0].bytes, call->files[0].size, call->files[0].bytes, call->files[0].size,
                                   (const uint8_t *)"time", 4, outside, 2, i == 0 ? call->limit : 63, 64, &byte, 1, &answer), &answer,
              i == 0 ? BOOTIMG_ARGUMENT_WORDS : BOOTIMG_ARGUMENT_LIMIT, i == 0 ? 1 : 0);
    }
    try_edits(call);
    for (int selection = PART; selection <= DEFAULT; selection++) {
        struct call wrong = *call;
        wrong.selection = selection;
        wrong.name = call->files[0];
        for (int i = 0; i < 4; i++) {
            wrong.limit = limits[i];
            names(make_extract(&wrong, &answer), &answer, BOOTIMG_ARGUMENT_LIMIT, 0);
        }
        wrong.limit = call->limit;
        wrong.key = BOOTIMG_SCRIPT + 1;
        if (selection >= CONFIG)
            names(make_extract(&wrong, &answer), &answer, BOOTIMG_ARGUMENT_KEY, 0);
        else
            CHECK(make_extract(&wrong, &answer) != BOOTIMG_WRONG_ARGUMENT);
    }
    names(bootimg_code_name(4, 256, &byte, 1, &answer), &answer, BOOTIMG_ARGUMENT_FIELD, 0);
    names(bootimg_code_name(BOOTIMG_CODE_OS, 256, &byte, 1, &answer), &answer, BOOTIMG_ARGUMENT_CODE, 0);
    names(bootimg_code_number(4, (const uint8_t *)"linux", 5, &answer), &answer, BOOTIMG_ARGUMENT_FIELD, 0);
    names(bootimg_cause_name(0, &byte, 1, &answer), &answer, BOOTIMG_ARGUMENT_NUMBER, 0);
    names(bootimg_cause_name(27, &byte, 1, &answer), &answer, BOOTIMG_ARGUMENT_NUMBER, 0);
    names(bootimg_explain(0, &byte, 1, &answer), &answer, BOOTIMG_ARGUMENT_NUMBER, 0);
    names(bootimg_explain(27, &byte, 1, &answer), &answer, BOOTIMG_ARGUMENT_NUMBER, 0);
    CHECK(byte == 0xa5);
    return 0;
}

/* A file or a name of no bytes may be at a null pointer. */
static void try_null(const struct call *call)
{
    const struct memory null = {.bytes = NULL, .size = 0};
    struct memory none = take(0);
    bootimg_result answer, again;
    for (int i = 0; i < CALLS_OF_ONE; i++) {
        struct call one = *call, other = *call;
        one.command = other.command = of_one[i].command;
        one.is_json = other.is_json = of_one[i].is_json;
        one.is_deep = other.is_deep = of_one[i].is_deep;
        one.files[0] = none;
        other.files[0] = null;
        CHECK(make(&one, NULL, 0, &answer) == make(&other, NULL, 0, &again) && memcmp(&answer, &again, sizeof answer) == 0);
        CHECK(strcmp(one.command, "scan") == 0 ? answer.cause == 0 : answer.cause == BOOTIMG_CAUSE_TRUNCATED && answer.file == 1);
    }
    for (int i = 0; i < 2; i++) {
        struct call one = *call, other = *call;
        one.command = other.command = "compare";
        one.files[0] = one.files[1] = other.files[0] = other.files[1] = call->files[0];
        one.files[i] = none;
        other.files[i] = null;
        CHECK(make(&one, NULL, 0, &answer) == make(&other, NULL, 0, &again) && memcmp(&answer, &again, sizeof answer) == 0);
    }
    for (int selection = PART; selection <= DEFAULT; selection++) {
        struct call one = *call, other = *call;
        one.selection = other.selection = selection;
        one.name = none;
        other.name = null;
        CHECK(make_extract(&one, &answer) == make_extract(&other, &again) && memcmp(&answer, &again, sizeof answer) == 0);
        other.files[0] = null;
        CHECK(make_extract(&other, &again) == BOOTIMG_REFUSED);
    }
    CHECK(bootimg_kind(NULL, 0, &answer) == BOOTIMG_REFUSED && answer.cause == BOOTIMG_CAUSE_TRUNCATED);
    CHECK(bootimg_version(NULL, 0, &answer) == BOOTIMG_NO_ROOM && answer.size != 0);
    CHECK(bootimg_code_number(BOOTIMG_CODE_OS, NULL, 0, &answer) == BOOTIMG_NOT_FOUND && answer.reason == BOOTIMG_NO_CODE);
    CHECK(bootimg_code_name(BOOTIMG_CODE_OS, 5, NULL, 0, &answer) == BOOTIMG_NO_ROOM && answer.size == 5);
    CHECK(bootimg_cause_name(BOOTIMG_CAUSE_UNSUPPORTED, NULL, 0, &answer) == BOOTIMG_NO_ROOM && answer.size == 11);
    give_back(none);
}

/* Writes what all calls on one file write. */
static void run_all(const struct call *call, FILE *output)
{
    for (int i = 0; i < CALLS_OF_ONE; i++) {
        struct call one = *call;
        one.command = of_one[i].command;
        one.is_json = of_one[i].is_json;
        one.is_deep = of_one[i].is_deep;
        one.is_quiet = 1;
        one.changes = BOOTIMG_CHANGE_TIME | BOOTIMG_CHANGE_HASHES;
        fprintf(output, "%s %d\n", one.command, run(&one, output));
    }
    for (int selection = PART; selection <= DEFAULT; selection++) {
        struct call one = *call;
        one.is_quiet = 1;
        one.selection = selection;
        fprintf(output, "extract %d\n", extract(&one, output));
    }
}

struct turn {
    const struct call *call;
    const char *wanted;
    size_t size;
};

static void *run_turn(void *argument)
{
    const struct turn *turn = argument;
    for (int i = 0; i < 20; i++) {
        char *text;
        size_t size;
        FILE *output = open_memstream(&text, &size);
        run_all(turn->call, output);
        fclose(output);
        CHECK(size == turn->size && memcmp(text, turn->wanted, size) == 0);
        free(text);
    }
    return NULL;
}

/* Four threads make all calls on one file at the same time. */
static int try_threads(const struct call *call)
{
    pthread_t threads[4];
    char *text;
    struct turn turn;
    FILE *output = open_memstream(&text, &turn.size);
    run_all(call, output);
    fclose(output);
    turn.call = call;
    turn.wanted = text;
    for (int i = 0; i < 4; i++)
        CHECK(pthread_create(&threads[i], NULL, run_turn, &turn) == 0);
    for (int i = 0; i < 4; i++)
        CHECK(pthread_join(threads[i], NULL) == 0);
    free(text);
    return 0;
}

/* Prints each code with a name: the number of the field, the name and the code, which is found by the name and by no other bytes. */
static int print_codes(void)
{
    for (uint32_t field = BOOTIMG_CODE_OS; field <= BOOTIMG_CODE_COMPRESSION; field++)
        for (uint32_t code = 0; code <= 255; code++) {
            uint8_t name[33];
            bootimg_result named, found;
            uint32_t status = bootimg_code_name(field, code, name, 32, &named);
            if (status == BOOTIMG_NOT_FOUND) {
                CHECK(named.reason == BOOTIMG_NO_NAME && named.size == 0 && named.value == 0);
                continue;
            }
            CHECK(status == BOOTIMG_OK && named.value == 0 && named.size != 0);
            CHECK(bootimg_code_number(field, name, named.size, &found) == BOOTIMG_OK && found.value == code && found.size == 0);
            printf("%u %.*s %u\n", (unsigned)field, (int)named.size, name, (unsigned)code);
            name[named.size] = 0xff;
            CHECK(bootimg_code_number(field, name, named.size + 1, &found) == BOOTIMG_NOT_FOUND && found.reason == BOOTIMG_NO_CODE);
            name[0] ^= 1;
            CHECK(bootimg_code_number(field, name, named.size, &found) == BOOTIMG_NOT_FOUND && found.value == 0);
        }
    return 0;
}

/* The bytes of a word. */
static struct memory bytes_of(const char *word)
{
    struct memory bytes = take(strlen(word));
    memcpy(bytes.bytes, word, bytes.size);
    return bytes;
}

/* Adds a word for what comparing leaves out. */
static void add_word(struct call *call, const char *word)
{
    struct memory more = take(call->words.size + strlen(word));
    CHECK(call->regions_count < sizeof call->regions / sizeof call->regions[0]);
    if (call->words.size != 0)
        memcpy(more.bytes, call->words.bytes, call->words.size);
    memcpy(more.bytes + call->words.size, word, strlen(word));
    call->regions[call->regions_count++] = (bootimg_region){call->words.size, strlen(word)};
    if (call->words.map != NULL)
        give_back(call->words);
    call->words = more;
}

/* Adds bytes to the input of edits, and returns where they are. */
static bootimg_region add_input(struct call *call, const uint8_t *bytes, size_t size)
{
    struct memory more = take(call->input.size + size);
    const bootimg_region region = {call->input.size, size};
    if (call->input.size != 0)
        memcpy(more.bytes, call->input.bytes, call->input.size);
    if (size != 0)
        memcpy(more.bytes + call->input.size, bytes, size);
    if (call->input.map != NULL)
        give_back(call->input);
    call->input = more;
    return region;
}

/* Adds an edit with a word, and the file of its payload, if there is one. */
static void add_edit(struct call *call, uint32_t kind, const char *word, uint32_t number, const char *path)
{
    bootimg_edit_element *edit = &call->edits[call->edits_count++];
    CHECK(call->edits_count <= sizeof call->edits / sizeof call->edits[0]);
    edit->kind = kind;
    edit->number = number;
    edit->word = add_input(call, (const uint8_t *)word, strlen(word));
    if (path != NULL) {
        struct memory payload = read_file(path);
        edit->payload = add_input(call, payload.bytes, payload.size);
        give_back(payload);
    }
}

/* The number of a form of values. */
static uint32_t form_of(const char *word)
{
    static const char *const forms[] = {"shown", "text", "number", "raw"};
    uint32_t form = BOOTIMG_VALUE_SHOWN;
    while (form < BOOTIMG_VALUE_RAW && strcmp(word, forms[form]) != 0)
        form++;
    return form;
}

/* The number of a key. */
static uint32_t key_of(const char *word)
{
    static const char *const keys[] = {"kernel", "fdt", "ramdisk", "firmware", "loadables", "script"};
    uint32_t key = BOOTIMG_KERNEL;
    while (key < BOOTIMG_SCRIPT && strcmp(word, keys[key]) != 0)
        key++;
    return key;
}

int main(int count, char **words)
{
    struct call call;
    int files = 0, status;
    memset(&call, 0, sizeof call);
    call.limit = BOOTIMG_LIMIT;
    call.place = bytes_of("load");
    CHECK(count > 1);
    call.command = words[1];
    for (int i = 2; i < count; i++) {
        if (strcmp(words[i], "--external") == 0) {
            call.form = call.form == BOOTIMG_EMBEDDED ? BOOTIMG_EXTERNAL : call.form;
        } else if (strcmp(words[i], "--align") == 0) {
            call.form = (uint32_t)strtoul(words[++i], NULL, 0);
        } else if (strcmp(words[i], "--json") == 0) {
            call.is_json = 1;
        } else if (strcmp(words[i], "--deep") == 0) {
            call.is_deep = 1;
        } else if (strcmp(words[i], "--layout") == 0) {
            call.layout = 1;
        } else if (strcmp(words[i], "--limit") == 0) {
            call.limit = (uint32_t)strtoul(words[++i], NULL, 10);
        } else if (strcmp(words[i], "--kinds") == 0) {
            call.kinds |= (uint32_t)strtoul(words[++i], NULL, 10);
        } else if (strcmp(words[i], "--signed") == 0) {
            call.kinds |= BOOTIMG_SIGNED;
        } else if (strcmp(words[i], "--number") == 0) {
            call.number = (uint32_t)strtoul(words[++i], NULL, 10);
        } else if (strcmp(words[i], "--field") == 0) {
            call.field = (uint32_t)strtoul(words[++i], NULL, 10);
        } else if (strcmp(words[i], "--time") == 0) {
            call.changes |= BOOTIMG_CHANGE_TIME;
            call.time = (uint32_t)strtoul(words[++i], NULL, 0);
        } else if (strcmp(words[i], "--hashes") == 0) {
            call.changes |= BOOTIMG_CHANGE_HASHES;
        } else if (strcmp(words[i], "--part") == 0) {
            call.selection = PART;
            call.index = (uint32_t)strtoul(words[++i], NULL, 0);
        } else if (strcmp(words[i], "--image") == 0 || strcmp(words[i], "--config") == 0) {
            call.selection = strcmp(words[i], "--image") == 0 ? IMAGE : CONFIG;
            call.name = bytes_of(words[++i]);
        } else if (strcmp(words[i], "--default") == 0) {
            call.selection = DEFAULT;
        } else if (strcmp(words[i], "--key") == 0) {
            call.key = key_of(words[++i]);
        } else if (strcmp(words[i], "--as") == 0) {
            call.value_form = form_of(words[++i]);
        } else if (strcmp(words[i], "--place") == 0) {
            give_back(call.place);
            call.place = bytes_of(words[++i]);
        } else if (strcmp(words[i], "--property") == 0) {
            call.property = bytes_of(words[++i]);
        } else if (strcmp(words[i], "--ignore") == 0) {
            add_word(&call, words[++i]);
        } else if (strcmp(words[i], "--edit") == 0) {
            add_edit(&call, (uint32_t)strtoul(words[i + 1], NULL, 10), words[i + 2], (uint32_t)strtoul(words[i + 3], NULL, 0), NULL);
            i += 3;
        } else if (strcmp(words[i], "--payload") == 0) {
            add_edit(&call, BOOTIMG_EDIT_PAYLOAD, words[i + 1], 0, words[i + 2]);
            i += 2;
        } else if (strcmp(words[i], "--keep-form") == 0) {
            call.form = BOOTIMG_KEEP_FORM;
        } else if (strcmp(words[i], "--index") == 0) {
            call.index = (uint32_t)strtoul(words[++i], NULL, 0);
        } else {
            CHECK(files < 2);
            call.paths[files] = words[i];
            call.files[files++] = read_file(words[i]);
        }
    }
    if (strcmp(call.command, "kind") == 0) {
        bootimg_result answer;
        uint32_t kind = bootimg_kind(call.files[0].bytes, call.files[0].size, &answer);
        status = kind == BOOTIMG_REFUSED ? 2 : 0;
        if (kind == BOOTIMG_REFUSED)
            tell(&call, &answer);
        else
            printf("kind %s\n", answer.value == BOOTIMG_LEGACY ? "legacy" : "fit");
    } else if (strcmp(call.command, "arguments") == 0) {
        try_null(&call);
        status = try_arguments(&call);
    } else if (strcmp(call.command, "codes") == 0) {
        status = print_codes();
    } else if (strcmp(call.command, "threads") == 0) {
        status = try_threads(&call);
    } else if (strcmp(call.command, "sizes") == 0) {
        printf("%zu %zu %zu %zu %zu %zu %zu\n", sizeof(bootimg_result), offsetof(bootimg_result, size),
               offsetof(bootimg_result, value), offsetof(bootimg_result, cause), offsetof(bootimg_result, offset),
               offsetof(bootimg_result, file), offsetof(bootimg_result, reason));
        status = 0;
    } else if (strcmp(call.command, "extract") == 0) {
        status = extract(&call, stdout);
    } else {
        if (strcmp(call.command, "compare") == 0 && call.is_deep && call.regions_count == 0)
            skip_deep_if_same(&call);
        status = run(&call, stdout);
    }
    if (call.name.map != NULL)
        give_back(call.name);
    if (call.property.map != NULL)
        give_back(call.property);
    if (call.words.map != NULL)
        give_back(call.words);
    if (call.input.map != NULL)
        give_back(call.input);
    give_back(call.place);
    while (files > 0)
        give_back(call.files[--files]);
    CHECK(fflush(stdout) == 0);
    return status;
}
