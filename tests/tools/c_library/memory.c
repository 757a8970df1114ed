/*
 * memory FILE: makes each call on a file with each of its allocations failing in turn. It has to do what it does with memory, or say that
 * memory ran out, and leave the buffer as it was. To be linked with --wrap=malloc and --wrap=realloc. Prints how many allocations failed.
 */
#include <bootimg.h>

#include <stdio.h>
#include <stdlib.h>
#include <string.h>

static long allocations, failing = -1;

void *__real_malloc(size_t size);
void *__real_realloc(void *old, size_t size);
void *__wrap_malloc(size_t size);
void *__wrap_realloc(void *old, size_t size);

void *__wrap_malloc(size_t size)
{
    return allocations++ == failing ? NULL : __real_malloc(size);
}

void *__wrap_realloc(void *old, size_t size)
{
    return allocations++ == failing ? NULL : __real_realloc(old, size);
}

static uint8_t file[1 << 20];
/* A buffer may also be an array of structs. */
static uint8_t text[1 << 21] __attribute__((aligned(16))), wanted[1 << 21] __attribute__((aligned(16)));
static size_t size;

static uint32_t make(int call, uint8_t *buffer, bootimg_result *answer)
{
    const uint8_t *name = (const uint8_t *)"conf-1";
    switch (call) {
    case 0: return bootimg_normalise(file, size, BOOTIMG_EMBEDDED, BOOTIMG_LIMIT, 64, buffer, sizeof text, answer);
    case 1: return bootimg_normalise(file, size, BOOTIMG_EXTERNAL, BOOTIMG_LIMIT, 64, buffer, sizeof text, answer);
    case 2: return bootimg_update(file, size, 3, 7, BOOTIMG_EMBEDDED, BOOTIMG_LIMIT, 64, buffer, sizeof text, answer);
    case 3: return bootimg_list(file, size, BOOTIMG_LIMIT, 64, buffer, sizeof text, answer);
    case 4: return bootimg_describe(file, size, BOOTIMG_LIMIT, 64, buffer, sizeof text, answer);
    case 5: return bootimg_verify(file, size, BOOTIMG_LIMIT, 64, buffer, sizeof text, answer);
    case 6: return bootimg_check(file, size, 0, BOOTIMG_LIMIT, 64, buffer, sizeof text, answer);
    case 7: return bootimg_convert(file, size, BOOTIMG_LIMIT, 64, buffer, sizeof text, answer);
    case 8: return bootimg_compare(file, size, file, size - 1, BOOTIMG_LIMIT, 64, buffer, sizeof text, answer);
    case 9: return bootimg_same_meaning(file, size, file, size, BOOTIMG_LIMIT, 64, answer);
    case 10: return bootimg_extract_part(file, size, 0, BOOTIMG_LIMIT, 64, answer);
    case 11: return bootimg_extract_image(file, size, (const uint8_t *)"kernel-1", 8, BOOTIMG_LIMIT, 64, answer);
    case 12: return bootimg_extract_config(file, size, name, 6, BOOTIMG_KERNEL, 0, BOOTIMG_LIMIT, 64, answer);
    case 13: return bootimg_extract_default(file, size, BOOTIMG_FDT, 0, BOOTIMG_LIMIT, 64, answer);
    case 14: return bootimg_list_json(file, size, BOOTIMG_LIMIT, 64, buffer, sizeof text, answer);
    case 15: return bootimg_verify_json(file, size, BOOTIMG_LIMIT, 64, buffer, sizeof text, answer);
    case 16: return bootimg_check_json(file, size, 0, BOOTIMG_LIMIT, 64, buffer, sizeof text, answer);
    case 17: return bootimg_describe_json(file, size, BOOTIMG_LIMIT, 64, buffer, sizeof text, answer);
    case 18: return bootimg_compare_json(file, size, file, size - 1, BOOTIMG_LIMIT, 64, buffer, sizeof text, answer);
    case 19: return bootimg_parts(file, size, BOOTIMG_LIMIT, 64, (void *)buffer, 100, answer);
    case 20: return bootimg_images(file, size, BOOTIMG_LIMIT, 64, (void *)buffer, 100, answer);
    case 21: return bootimg_fit(file, size, BOOTIMG_LIMIT, 64, (void *)buffer, answer);
    case 22: return bootimg_reservations(file, size, BOOTIMG_LIMIT, 64, (void *)buffer, 100, answer);
    case 23: return bootimg_configurations(file, size, BOOTIMG_LIMIT, 64, (void *)buffer, 100, answer);
    case 24: return bootimg_children(file, size, (const uint8_t *)"/images", 7, BOOTIMG_LIMIT, 64, (void *)buffer, 100, answer);
    case 25: return bootimg_properties(file, size, (const uint8_t *)"/images", 7, BOOTIMG_LIMIT, 64, (void *)buffer, 100, answer);
    case 26: return bootimg_property_value(file, size, (const uint8_t *)"/", 1, name, 6, BOOTIMG_LIMIT, 64, answer);
    case 27: return bootimg_show(file, size, 1, BOOTIMG_LIMIT, 64, buffer, sizeof text, answer);
    case 28: return bootimg_verdicts(file, size, BOOTIMG_LIMIT, 64, (void *)buffer, 100, answer);
    case 29:
        return bootimg_build_legacy(file, size, &(bootimg_legacy_fields){.name = {0, 4}, .image_type = 2},
                                    &(bootimg_region){0, size}, 1, BOOTIMG_LIMIT, 64, buffer, sizeof text, answer);
    case 30:
        return bootimg_build_fit(file, size, name, 6, 7,
                                 &(bootimg_build_image){.name = {0, 1}, .payload = {0, size}, .os = 5, .arch = 22, .image_type = 2}, 1,
                                 BOOTIMG_EMBEDDED, BOOTIMG_LIMIT, 64, buffer, sizeof text, answer);
    case 31: return bootimg_concerns(file, size, 0, BOOTIMG_LIMIT, 64, (void *)buffer, 100, answer);
    case 32:
        return bootimg_get(file, size, (const uint8_t *)"/", 1, (const uint8_t *)"timestamp", 9, BOOTIMG_VALUE_NUMBER, BOOTIMG_LIMIT,
                           64, buffer, sizeof text, answer);
    case 33: return bootimg_scan(file, size, BOOTIMG_LIMIT, 64, buffer, sizeof text, answer);
    case 34: return bootimg_scan_json(file, size, BOOTIMG_LIMIT, 64, buffer, sizeof text, answer);
    case 35: return bootimg_show_json(file, size, BOOTIMG_LIMIT, 64, buffer, sizeof text, answer);
    case 36: return bootimg_nodes(file, size, BOOTIMG_LIMIT, 64, (void *)buffer, 1000, answer);
    case 37:
        return bootimg_compare_ignoring(file, size, file, size, (const uint8_t *)"time/images/x y", 15,
                                        (const bootimg_region[]){{0, 4}, {4, 11}}, 2, BOOTIMG_LIMIT, 64, buffer, sizeof text, answer);
    case 38:
        return bootimg_compare_ignoring_json(file, size, file, size - 1, (const uint8_t *)"/images", 7, &(bootimg_region){0, 7}, 1,
                                             BOOTIMG_LIMIT, 64, buffer, sizeof text, answer);
    case 39: return bootimg_notes(file, size, 3, 7, BOOTIMG_EXTERNAL, BOOTIMG_LIMIT, 64, (void *)buffer, answer);
    case 40:
        return bootimg_build_fit_as(file, size,
                                    &(bootimg_build_options){.size = 64, .description = {0, 2}, .default_name = {0, 1}, .time = 7,
                                                             .limit = BOOTIMG_LIMIT, .depth = 64, .given = BOOTIMG_HAS_DEFAULT},
                                    &(bootimg_build_image){.name = {0, 1}, .payload = {0, size}}, 1,
                                    &(bootimg_build_texts){.description = {0, 2}, .image_type = {0, 2}, .arch = {0, 2}, .os = {0, 2},
                                                           .compression = {0, 2}, .given = BOOTIMG_HAS_DESCRIPTION + BOOTIMG_HAS_TEXTS},
                                    1,
                                    &(bootimg_build_configuration){.name = {0, 1}, .compatible = {0, 1}, .kernel = {1, 1}}, 1,
                                    (const bootimg_region[]){{0, 2}, {0, 1}}, 2,
                                    (const uint32_t[]){BOOTIMG_ALGORITHM_MD5, BOOTIMG_ALGORITHM_SHA384}, 2, buffer, sizeof text, answer);
    case 41:
        return bootimg_edit(file, size, (const uint8_t *)"/images/x y 0x001name", 21,
                            (const bootimg_edit_element[]){
                                {{0, 16}, {0, 0}, BOOTIMG_EDIT_SET, 0},
                                {{0, 0}, {0, 0}, BOOTIMG_EDIT_TIME, 7},
                                {{0, 0}, {0, 0}, BOOTIMG_EDIT_HASHES, 0},
                            },
                            3, BOOTIMG_KEEP_FORM, BOOTIMG_LIMIT, 64, buffer, sizeof text, answer);
    case 42:
        return bootimg_edit_notes(file, size, (const uint8_t *)"/images/x y 0x001name", 21,
                                  (const bootimg_edit_element[]){
                                      {{17, 4}, {0, 0}, BOOTIMG_EDIT_NAME, 0},
                                      {{16, 1}, {0, 21}, BOOTIMG_EDIT_PAYLOAD, 0},
                                      {{0, 0}, {0, 0}, BOOTIMG_EDIT_OS, 17},
                                  },
                                  3, BOOTIMG_EXTERNAL, BOOTIMG_LIMIT, 64, (void *)buffer, answer);
    case 43:
        return bootimg_edit(file, size, (const uint8_t *)"/configurations/conf-1kernel-1", 30,
                            (const bootimg_edit_element[]){
                                {{0, 22}, {0, 0}, BOOTIMG_EDIT_REMOVE, 0},
                                {{22, 8}, {0, 3}, BOOTIMG_EDIT_PAYLOAD, 0},
                            },
                            2, BOOTIMG_EMBEDDED, BOOTIMG_LIMIT, 64, buffer, sizeof text, answer);
    case 44: return bootimg_describe_deep(file, size, BOOTIMG_LIMIT, 64, buffer, sizeof text, answer);
    case 45: return bootimg_describe_deep_json(file, size, BOOTIMG_LIMIT, 64, buffer, sizeof text, answer);
    case 46:
        return bootimg_compare_deep(file, size, file, size, (const uint8_t *)"time/images/fdt-1//", 19,
                                    (const bootimg_region[]){{0, 4}, {4, 15}}, 2, BOOTIMG_LIMIT, 64, buffer, sizeof text, answer);
    case 47:
        return bootimg_compare_deep_json(file, size, file, size, NULL, 0, NULL, 0, BOOTIMG_LIMIT, 64, buffer, sizeof text, answer);
    default: return bootimg_listed(file, size, name, 6, BOOTIMG_KERNEL, BOOTIMG_LIMIT, 64, (void *)buffer, 100, answer);
    }
}

/* Makes a call with the allocation of this number failing, and returns whether it got that far. */
static int fails(int call, long number, uint32_t status, const bootimg_result *expected)
{
    static const bootimg_result none;
    bootimg_result answer;
    uint32_t got;
    memset(text, 0xa5, sizeof text);
    memset(&answer, 0xc3, sizeof answer);
    allocations = 0;
    failing = number;
    got = make(call, text, &answer);
    failing = -1;
    if (got == BOOTIMG_OUT_OF_MEMORY && allocations > number) {
        for (size_t i = 0; i < sizeof text; i++)
            if (text[i] != 0xa5)
                exit(3);
        if (memcmp(&answer, &none, sizeof answer) != 0)
            exit(4);
    } else if (got != status || memcmp(&answer, expected, sizeof answer) != 0 || memcmp(text, wanted, sizeof text) != 0) {
        exit(5);
    }
    return allocations > number;
}

int main(int count, char **words)
{
    FILE *input = fopen(words[count - 1], "rb");
    long failed = 0;
    size = input == NULL ? 0 : fread(file, 1, sizeof file, input);
    if (size == 0)
        return 2;
    for (int call = 0; call <= 48; call++) {
        bootimg_result expected;
        uint32_t status;
        memset(wanted, 0xa5, sizeof wanted);
        status = make(call, wanted, &expected);
        for (long number = 0; fails(call, number, status, &expected); number++)
            failed++;
    }
    printf("%ld\n", failed);
    return 0;
}
