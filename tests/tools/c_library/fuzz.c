/*
 * A target of libFuzzer over each call of the library. The first bytes of an input choose numbers and a name, and the others are a file.
 * The file and the name end before a page that may not be touched, and so do the buffers. A call is made with no room, with the room that
 * it needs, and with less, and what it leaves is checked, and so is what calls say of the same file. A failed check ends the program.
 * The checksums of a legacy image are made right in every second input, so that mutations pass them.
 */
#define _GNU_SOURCE
#include "arrays.h"

enum { HEAD = 8, MOST = 1 << 16, ROOM = 1 << 22 };

/* What an input chooses. */
struct choice {
    const uint8_t *file;
    size_t size;
    const uint8_t *name;
    size_t name_size;
    uint32_t limit, depth, number, time;
};

int LLVMFuzzerTestOneInput(const uint8_t *data, size_t size);

static struct memory file_room, name_room, output_room;

/* The last bytes of some memory. */
static uint8_t *end_of(struct memory memory, size_t size)
{
    CHECK(size <= memory.size);
    return memory.bytes + memory.size - size;
}

static uint32_t crc32_of(const uint8_t *bytes, size_t size)
{
    uint32_t crc = 0xffffffffu;
    for (size_t i = 0; i < size; i++) {
        crc ^= bytes[i];
        for (int bit = 0; bit < 8; bit++)
            crc = crc & 1 ? crc >> 1 ^ 0xedb88320u : crc >> 1;
    }
    return ~crc;
}

static uint32_t number_at(const uint8_t *bytes)
{
    return (uint32_t)bytes[0] << 24 | (uint32_t)bytes[1] << 16 | (uint32_t)bytes[2] << 8 | bytes[3];
}

static void put_number(uint8_t *bytes, uint32_t number)
{
    for (int i = 0; i < 4; i++)
        bytes[i] = (uint8_t)(number >> (24 - 8 * i));
}

/* Makes the checksums of a legacy image right. */
static void repair(uint8_t *file, size_t size)
{
    uint32_t length;
    if (size < 64 || number_at(file) != 0x27051956u)
        return;
    length = number_at(file + 12);
    if (length > size - 64)
        put_number(file + 12, length = (uint32_t)(size - 64));
    put_number(file + 24, crc32_of(file + 64, length));
    put_number(file + 4, 0);
    put_number(file + 4, crc32_of(file, 64));
}

/* The calls with a buffer, after those with an array. */
enum {
    NORMALISE = ARRAYS, UPDATE, EDIT, CONVERT, LIST, LIST_JSON, SCAN, SCAN_JSON, DESCRIBE, DESCRIBE_JSON, SHOW, SHOW_JSON, VERIFY, VERIFY_JSON,
    CHECK_LINES, CHECK_JSON, COMPARE, COMPARE_JSON, IGNORING, IGNORING_JSON, DEEP, DEEP_JSON, COMPARE_DEEP, COMPARE_DEEP_JSON, GET, CODE_NAME, CAUSE_NAME, EXPLAIN, VERSION, CALLS
};

/* Numbers of forms, and two that are those of none. */
static const uint32_t forms[] = {BOOTIMG_EMBEDDED, BOOTIMG_EXTERNAL, 2, 4, 8, 64, 4096, 4097};

static size_t element_size(int call)
{
    return call < ARRAYS ? element_sizes[call] : 1;
}

/* Three edits whose words are of the name, or the name itself. A few are those of none. */
static const bootimg_edit_element *edits_of(const struct choice *c)
{
    static bootimg_edit_element edits[3];
    for (uint32_t i = 0; i < 3; i++) {
        const uint32_t bits = c->time >> (8 * i);
        edits[i].word = (bootimg_region){bits & 16 ? c->name_size / 2 : 0, bits & 16 ? c->name_size - c->name_size / 2 : c->name_size};
        edits[i].payload = (bootimg_region){0, bits >> 5 & 3};
        edits[i].kind = bits % 12;
        edits[i].number = c->number + (bits & 128);
    }
    return edits;
}

/* The form of edits. */
static uint32_t edit_form(const struct choice *c)
{
    return forms[c->number / 8 % 8];
}

static uint32_t make_text(const struct choice *c, int call, uint8_t *to, size_t room, bootimg_result *answer)
{
    const bootimg_region words[] = {{0, c->name_size}, {c->time >> 24, c->time >> 16 & 15}};
    switch (call) {
    case NORMALISE:
        return bootimg_normalise(c->file, c->size, forms[c->number % 8], c->limit, c->depth, to, room, answer);
    case UPDATE:
        return bootimg_update(c->file, c->size, c->number % 5, c->time, forms[c->number / 8 % 8], c->limit, c->depth, to, room, answer);
    case EDIT:
        return bootimg_edit(c->file, c->size, c->name, c->name_size, edits_of(c), c->number % 4, edit_form(c), c->limit, c->depth, to, room,
                            answer);
    case CONVERT:
        return bootimg_convert(c->file, c->size, c->limit, c->depth, to, room, answer);
    case LIST:
        return bootimg_list(c->file, c->size, c->limit, c->depth, to, room, answer);
    case LIST_JSON:
        return bootimg_list_json(c->file, c->size, c->limit, c->depth, to, room, answer);
    case SCAN:
        return bootimg_scan(c->file, c->size, c->limit, c->depth, to, room, answer);
    case SCAN_JSON:
        return bootimg_scan_json(c->file, c->size, c->limit, c->depth, to, room, answer);
    case DESCRIBE:
        return bootimg_describe(c->file, c->size, c->limit, c->depth, to, room, answer);
    case DESCRIBE_JSON:
        return bootimg_describe_json(c->file, c->size, c->limit, c->depth, to, room, answer);
    case SHOW:
        return bootimg_show(c->file, c->size, c->number % 3, c->limit, c->depth, to, room, answer);
    case SHOW_JSON:
        return bootimg_show_json(c->file, c->size, c->limit, c->depth, to, room, answer);
    case VERIFY:
        return bootimg_verify(c->file, c->size, c->limit, c->depth, to, room, answer);
    case VERIFY_JSON:
        return bootimg_verify_json(c->file, c->size, c->limit, c->depth, to, room, answer);
    case CHECK_LINES:
        return bootimg_check(c->file, c->size, c->number, c->limit, c->depth, to, room, answer);
    case CHECK_JSON:
        return bootimg_check_json(c->file, c->size, c->number, c->limit, c->depth, to, room, answer);
    case COMPARE:
        return bootimg_compare(c->file, c->size, c->name, c->name_size, c->limit, c->depth, to, room, answer);
    case COMPARE_JSON:
        return bootimg_compare_json(c->file, c->size, c->file, c->size, c->limit, c->depth, to, room, answer);
    case IGNORING:
        return bootimg_compare_ignoring(c->file, c->size, c->file, c->size, c->name, c->name_size, words, c->number % 3, c->limit, c->depth,
                                        to, room, answer);
    case IGNORING_JSON:
        return bootimg_compare_ignoring_json(c->file, c->size, c->name, c->name_size, (const uint8_t *)"time,signatures", 15,
                                             &(bootimg_region){0, c->number & 1 ? 15 : 4}, 1, c->limit, c->depth, to, room, answer);
    case DEEP:
        return bootimg_describe_deep(c->file, c->size, c->limit, c->depth, to, room, answer);
    case DEEP_JSON:
        return bootimg_describe_deep_json(c->file, c->size, c->limit, c->depth, to, room, answer);
    case COMPARE_DEEP:
        return bootimg_compare_deep(c->file, c->size, c->file, c->size, c->name, c->name_size, words, c->number % 3, c->limit, c->depth, to,
                                    room, answer);
    case COMPARE_DEEP_JSON:
        return bootimg_compare_deep_json(c->file, c->size, c->name, c->name_size, (const uint8_t *)"/images/a// x", 13,
                                         &(bootimg_region){0, c->number & 1 ? 13 : 9}, 1, c->limit, c->depth, to, room, answer);
    case GET:
        return bootimg_get(c->file, c->size, (const uint8_t *)"/", 1, c->name, c->name_size, c->number % 5, c->limit, c->depth, to, room,
                           answer);
    case CODE_NAME:
        return bootimg_code_name(c->number % 5, c->time % 300, to, room, answer);
    case CAUSE_NAME:
        return bootimg_cause_name(c->number % 29, to, room, answer);
    case EXPLAIN:
        return bootimg_explain(c->number % 29, to, room, answer);
    default:
        return bootimg_version(to, room, answer);
    }
}

static uint32_t make(const struct choice *c, int call, void *to, size_t room, bootimg_result *answer)
{
    const struct memory file = {.bytes = (uint8_t *)c->file, .size = c->size}, name = {.bytes = (uint8_t *)c->name, .size = c->name_size};
    const struct call made = {.call = call, .file = file, .name = name, .key = c->number % 7, .kinds = c->number};
    return call < ARRAYS ? fill_array(&made, c->limit, c->depth, to, room, answer) : make_text(c, call, to, room, answer);
}

/* The numbers of the struct are those that the status has. */
static void check_answer(uint32_t status, const bootimg_result *answer)
{
    CHECK(status <= BOOTIMG_NOT_FOUND);
    CHECK((answer->cause != 0) == (status == BOOTIMG_REFUSED) && answer->cause <= BOOTIMG_CAUSE_UNSUPPORTED);
    CHECK((answer->file != 0) == (status == BOOTIMG_REFUSED) && answer->file <= 2);
    CHECK(answer->offset == 0 || status == BOOTIMG_REFUSED);
    CHECK((answer->reason != 0) == (status == BOOTIMG_NOT_FOUND || status == BOOTIMG_WRONG_ARGUMENT));
    CHECK(answer->reason <= (status == BOOTIMG_NOT_FOUND ? (uint32_t)BOOTIMG_FINDS_NOTHING : (uint32_t)BOOTIMG_ARGUMENT_CONFIGURATIONS));
    CHECK(answer->size == 0 || status == BOOTIMG_OK || status == BOOTIMG_NO_ROOM);
}

/* A region that an element has is inside the file. */
static void check_region(const struct choice *c, bootimg_region region)
{
    CHECK(region.offset <= c->size && region.size <= c->size - region.offset);
}

/* The regions of elements are inside the file, and their numbers in their ranges. */
static void check_elements(const struct choice *c, int call, const void *elements, size_t count)
{
    for (size_t i = 0; i < count; i++) {
        if (call == IMAGES) {
            const bootimg_image *image = (const bootimg_image *)elements + i;
            check_region(c, image->name);
            check_region(c, image->payload);
            CHECK(image->place <= BOOTIMG_PLACE_DATA_POSITION);
        } else if (call == VERDICTS) {
            const bootimg_hash *hash = (const bootimg_hash *)elements + i;
            check_region(c, hash->image);
            check_region(c, hash->node);
            check_region(c, hash->algorithm);
            check_region(c, hash->value);
            CHECK(hash->verdict <= BOOTIMG_VERDICT_MALFORMED);
        } else if (call == CONCERNS) {
            const bootimg_concern *concern = (const bootimg_concern *)elements + i;
            check_region(c, concern->name);
            check_region(c, concern->node);
            check_region(c, concern->algorithm);
            CHECK(concern->kind != 0 && concern->kind <= BOOTIMG_CONCERN_UNIT_ADDRESS && (concern->kind & (concern->kind - 1)) == 0);
            CHECK((concern->kind & c->number) == 0);
            CHECK(concern->verdict <= BOOTIMG_VERDICT_MALFORMED && concern->key <= BOOTIMG_SCRIPT);
        } else if (call == NODES) {
            const bootimg_tree_element *element = (const bootimg_tree_element *)elements + i;
            check_region(c, element->name);
            check_region(c, element->value);
            CHECK(element->kind == BOOTIMG_ELEMENT_NODE || element->kind == BOOTIMG_ELEMENT_PROPERTY);
            CHECK(i == 0 ? element->depth == 0 : element->depth != 0 && element->depth <= element[-1].depth + 1);
        } else if (call == PROPERTIES) {
            const bootimg_property *property = (const bootimg_property *)elements + i;
            check_region(c, property->name);
            check_region(c, property->value);
        } else if (call == PARTS || call == CONFIGURATIONS || call == CHILDREN) {
            check_region(c, ((const bootimg_region *)elements)[i]);
        }
    }
}

/* Makes a call with no room, with one element less than it needs, and with the room that it needs. */
static uint32_t try_call(const struct choice *c, int call, bootimg_result *answer)
{
    const size_t size = element_size(call);
    bootimg_result again;
    uint32_t status = make(c, call, NULL, 0, answer);
    uint8_t *to;
    check_answer(status, answer);
    if (status != BOOTIMG_NO_ROOM) {
        CHECK(status != BOOTIMG_OK || answer->size == 0);
        return status;
    }
    CHECK(answer->size != 0);
    if (answer->size > output_room.size / size)
        return status;
    to = end_of(output_room, (answer->size - 1) * size);
    memset(to, 0xa5, (answer->size - 1) * size);
    CHECK(make(c, call, to, answer->size - 1, &again) == BOOTIMG_NO_ROOM && memcmp(answer, &again, sizeof again) == 0);
    CHECK(is_unchanged(to, (answer->size - 1) * size));
    to = end_of(output_room, answer->size * size);
    CHECK(make(c, call, to, answer->size, &again) == BOOTIMG_OK && memcmp(answer, &again, sizeof again) == 0);
    check_elements(c, call, to, answer->size);
    return BOOTIMG_OK;
}

/* A normal form is the normal form of itself, and means what its file means. */
static void try_normal_form(const struct choice *c, const bootimg_result *answer)
{
    struct memory copy = take(answer->size);
    struct choice other = *c;
    bootimg_result again;
    memcpy(copy.bytes, end_of(output_room, answer->size), answer->size);
    other.file = copy.bytes;
    other.size = copy.size;
    CHECK(try_call(&other, NORMALISE, &again) == BOOTIMG_OK && again.size == copy.size && again.value == answer->value);
    CHECK(memcmp(copy.bytes, end_of(output_room, copy.size), copy.size) == 0);
    CHECK(bootimg_same_meaning(c->file, c->size, copy.bytes, copy.size, c->limit, c->depth, &again) == BOOTIMG_OK && again.value == 1);
    give_back(copy);
}

/* Regions build a FIT with a plan, or one of them, or a range, is outside. */
static void try_plan(const struct choice *c, const bootimg_build_image *images, const bootimg_region *any)
{
    const bootimg_range ranges[3] = {{0, c->number % 4}, {c->number % 5, c->time % 3}, {c->time, c->size}};
    const uint32_t algorithms[2] = {c->number % 7, c->time % 7};
    bootimg_build_options options;
    bootimg_build_texts texts;
    bootimg_build_configuration configurations[2];
    bootimg_result answer;
    memset(&options, 0, sizeof options);
    memset(&texts, 0, sizeof texts);
    memset(configurations, 0, sizeof configurations);
    options.size = sizeof options - c->time % 17 / 16;
    options.description = options.default_name = configurations[0].name = texts.os = any[0];
    options.form = forms[c->number % 8];
    options.limit = c->limit;
    options.depth = c->depth;
    options.given = c->time % 2;
    texts.description = texts.image_type = configurations[0].description = any[1];
    texts.given = c->number % 5;
    configurations[0].kernel = ranges[0];
    configurations[0].compatible = configurations[0].script = ranges[1];
    configurations[0].given = c->number % 2;
    configurations[1] = configurations[0];
    configurations[1].fdt = ranges[c->time % 3];
    check_answer(bootimg_build_fit_as(c->file, c->size, &options, images, c->number % 3, &texts, c->time % 2, configurations, c->time % 3, any,
                                      2, algorithms, c->number % 3, NULL, 0, &answer), &answer);
}

/* What is read of a legacy image builds its normal form. Other regions build an image, or are outside the input. */
static void try_build(const struct choice *c)
{
    bootimg_legacy_fields fields;
    bootimg_result answer, built;
    bootimg_region any[2] = {{c->time >> 16, c->time & 0xffff}, {c->number, c->size}};
    struct memory parts;
    memset(&fields, 0, sizeof fields);
    fields.image_type = (uint8_t)(c->number % 9);
    fields.name = any[0];
    bootimg_build_image images[2];
    memset(images, 0, sizeof images);
    images[0].name = images[1].payload = any[0];
    images[1].name = images[0].payload = any[1];
    images[0].image_type = images[1].image_type = (uint8_t)(c->number % 9);
    images[0].os = images[0].arch = images[1].os = images[1].arch = (uint8_t)(c->time % 23);
    images[0].addresses = c->time % 5;
    check_answer(bootimg_build_fit(c->file, c->size, c->name, c->name_size, c->time, images, c->number % 3, forms[c->number % 8], c->limit,
                                   c->depth, NULL, 0, &answer), &answer);
    try_plan(c, images, any);
    check_answer(bootimg_build_legacy(c->file, c->size, &fields, any, c->number % 3, c->limit, c->depth, NULL, 0, &answer), &answer);
    if (bootimg_legacy(c->file, c->size, c->limit, c->depth, &fields, &answer) != BOOTIMG_OK || try_call(c, PARTS, &answer) != BOOTIMG_OK)
        return;
    parts = take(answer.size * sizeof(bootimg_region));
    memcpy(parts.bytes, end_of(output_room, parts.size), parts.size);
    check_answer(bootimg_build_legacy(c->file, c->size, &fields, (const bootimg_region *)(const void *)parts.bytes, answer.size, c->limit,
                                      c->depth, NULL, 0, &built), &built);
    CHECK(bootimg_normalise(c->file, c->size, BOOTIMG_EMBEDDED, c->limit, c->depth, NULL, 0, &answer) == BOOTIMG_NO_ROOM);
    CHECK(answer.size == built.size);
    give_back(parts);
}

/* What is extracted is inside the file. */
static void check_extracted(const struct choice *c, uint32_t status, const bootimg_result *answer)
{
    const bootimg_region region = {answer->value, answer->size};
    CHECK(status <= BOOTIMG_NOT_FOUND && status != BOOTIMG_NO_ROOM);
    if (status == BOOTIMG_OK)
        check_region(c, region);
}

/* The notes are on what an update writes. The number of signature nodes is the one that it returns. */
static void try_notes(const struct choice *c)
{
    bootimg_note_numbers notes = {0, 0, 0};
    bootimg_result updated, answer;
    const uint32_t form = forms[c->number / 8 % 8], status = try_call(c, UPDATE, &updated);
    const uint32_t noted = bootimg_notes(c->file, c->size, c->number % 5, c->time, form, c->limit, c->depth, &notes, &answer);
    check_answer(noted, &answer);
    CHECK(noted == (status == BOOTIMG_NO_ROOM ? BOOTIMG_OK : status));
    CHECK(notes.signatures == updated.value && (notes.lost_alignment & (notes.lost_alignment - 1)) == 0);
    CHECK(form == BOOTIMG_EXTERNAL || (notes.lost_alignment == 0 && notes.lost_positions == 0));
}

/* The notes are on what is edited. */
static void try_edit_notes(const struct choice *c)
{
    bootimg_edit_note_numbers notes = {0, 0, 0, 0};
    bootimg_result edited, answer;
    const uint32_t form = edit_form(c), status = try_call(c, EDIT, &edited);
    const uint32_t noted = bootimg_edit_notes(c->file, c->size, c->name, c->name_size, edits_of(c), c->number % 4, form, c->limit, c->depth,
                                              &notes, &answer);
    check_answer(noted, &answer);
    CHECK(noted == (status == BOOTIMG_NO_ROOM ? BOOTIMG_OK : status));
    CHECK(noted == BOOTIMG_OK ? notes.signatures == edited.value : notes.signatures == 0);
    CHECK((notes.lost_alignment & (notes.lost_alignment - 1)) == 0);
    CHECK(form == BOOTIMG_EXTERNAL || notes.lost_alignment == 0);
    CHECK(form == BOOTIMG_EXTERNAL || form == BOOTIMG_KEEP_FORM || notes.lost_positions == 0);
    CHECK(form == BOOTIMG_EMBEDDED || notes.inside == 0);
}

/* Makes the calls without a buffer. */
static void try_others(const struct choice *c)
{
    bootimg_result answer;
    bootimg_legacy_fields legacy;
    bootimg_fit_fields fit;
    const uint32_t key = c->number % 7;
    check_answer(bootimg_kind(c->file, c->size, &answer), &answer);
    check_answer(bootimg_code_number(c->number % 5, c->name, c->name_size, &answer), &answer);
    check_answer(bootimg_same_meaning(c->file, c->size, c->name, c->name_size, c->limit, c->depth, &answer), &answer);
    check_extracted(c, bootimg_extract_part(c->file, c->size, c->number % 4, c->limit, c->depth, &answer), &answer);
    check_extracted(c, bootimg_extract_image(c->file, c->size, c->name, c->name_size, c->limit, c->depth, &answer), &answer);
    check_extracted(c, bootimg_extract_config(c->file, c->size, c->name, c->name_size, key, c->number % 3, c->limit, c->depth, &answer),
                    &answer);
    check_extracted(c, bootimg_extract_default(c->file, c->size, key, c->number % 3, c->limit, c->depth, &answer), &answer);
    check_extracted(c, bootimg_property_value(c->file, c->size, c->name, c->name_size, (const uint8_t *)"data", 4, c->limit, c->depth, &answer),
                    &answer);
    if (bootimg_legacy(c->file, c->size, c->limit, c->depth, &legacy, &answer) == BOOTIMG_OK)
        check_region(c, legacy.name);
    check_answer(bootimg_fit(c->file, c->size, c->limit, c->depth, &fit, &answer), &answer);
}

/* The verdicts are those of the report. */
static void try_verdicts(const struct choice *c)
{
    bootimg_result report, answer;
    const bootimg_hash *hashes;
    size_t bad = 0;
    if (try_call(c, VERIFY, &report) != BOOTIMG_OK || try_call(c, VERDICTS, &answer) != BOOTIMG_OK)
        return;
    hashes = (const bootimg_hash *)(const void *)end_of(output_room, answer.size * sizeof *hashes);
    for (size_t i = 0; i < answer.size; i++)
        bad += hashes[i].verdict != BOOTIMG_VERDICT_GOOD;
    CHECK((bad == 0) == (report.value == 1));
}

/* There is a concern for each line. */
static void try_concerns(const struct choice *c)
{
    bootimg_result lines, answer;
    const uint8_t *text;
    size_t count = 0;
    const uint32_t status = try_call(c, CHECK_LINES, &lines);
    if (status == BOOTIMG_OK && lines.size != 0) {
        text = end_of(output_room, lines.size);
        for (size_t i = 0; i < lines.size; i++)
            count += text[i] == '\n';
    }
    CHECK(try_call(c, CONCERNS, &answer) == status && (status != BOOTIMG_OK || answer.size == count));
}

int LLVMFuzzerTestOneInput(const uint8_t *data, size_t size)
{
    static const uint32_t limits[] = {BOOTIMG_LIMIT, BOOTIMG_LIMIT, BOOTIMG_LIMIT, 1 << 20, 4096, 256, 64, 63};
    static const uint32_t depths[] = {BOOTIMG_DEPTH, BOOTIMG_DEPTH, BOOTIMG_DEPTH, 5, 4, 3, 1, 0};
    struct choice c;
    uint8_t *file;
    if (file_room.map == NULL) {
        file_room = take(MOST);
        name_room = take(MOST);
        output_room = take(ROOM);
    }
    if (size < HEAD || size > MOST)
        return 0;
    c.limit = limits[data[0] % 8];
    c.depth = depths[data[1] % 8];
    c.number = data[2];
    c.time = number_at(data + 2);
    c.name_size = data[3] % (size - HEAD + 1);
    c.size = size - HEAD - c.name_size;
    c.name = memcpy(end_of(name_room, c.name_size), data + HEAD, c.name_size);
    c.file = file = memcpy(end_of(file_room, c.size), data + HEAD + c.name_size, c.size);
    if (data[0] & 8)
        repair(file, c.size);
    for (int call = 0; call < CALLS; call++) {
        bootimg_result answer;
        const uint32_t status = try_call(&c, call, &answer);
        if (call == NORMALISE && status == BOOTIMG_OK && answer.size <= c.limit)
            try_normal_form(&c, &answer);
        if (call == COMPARE_JSON && status == BOOTIMG_OK)
            CHECK(answer.value == 1);
    }
    try_verdicts(&c);
    try_concerns(&c);
    try_notes(&c);
    try_edit_notes(&c);
    try_build(&c);
    try_others(&c);
    return 0;
}
