/* SPDX-License-Identifier: MIT */
/* Copyright (c) 2026 the bootimg authors */
/*
 * Boot images of U-Boot: legacy images and FITs (flattened image trees).
 *
 * A file here is an image in memory; no call opens a file of the system. A call keeps nothing
 * between calls, and returns nothing allocated: there is nothing to free. Several threads may make
 * calls at the same time, if no call writes to memory that another call uses.
 *
 * A pointer and the number after it are the first element of some memory and the number of its
 * elements, which are bytes if they are of the type uint8_t. The pointer may be null if the number
 * is 0; a pointer to a struct without a number after it must not be null. What a call writes must
 * overlap neither what else it writes nor what it reads. Structs are aligned as in any C program.
 *
 * `limit` is the greatest number of bytes of a file, and of an image, payload or description that
 * is made: 64 to BOOTIMG_LIMIT. Every call with `limit` that reads an image refuses a longer file
 * with TooLarge, and then a file that fails a check of its format with the cause of the first check
 * that fails (docs/FORMATS.md). The comment of a call says what else it refuses.
 * `depth` is the greatest depth of a FIT, including the root: 1 to BOOTIMG_DEPTH. The program
 * `bootimg` uses BOOTIMG_DEPTH, and BOOTIMG_LIMIT by default.
 *
 * A call returns its status, and sets all numbers of the struct `answer`:
 *
 *   BOOTIMG_OK              The call succeeded. `size` is the size of the output, and `value` the
 *                           number that the comment of the call names.
 *   BOOTIMG_REFUSED         A file is refused: the call fails with a cause. `cause` is its number
 *                           (see bootimg_cause_name). `offset` is its offset in the file in bytes,
 *                           and for TooLarge the limit. `file` is 1 for the first file of the call,
 *                           and 2 for the second.
 *   BOOTIMG_OUT_OF_MEMORY   An allocation failed (that it did is tested, and not proved).
 *   BOOTIMG_NO_ROOM         The output is larger than the buffer. `size` and `value` are as for
 *                           BOOTIMG_OK.
 *   BOOTIMG_WRONG_ARGUMENT  An argument is out of its range. `reason` is its number, one of
 *                           BOOTIMG_ARGUMENT_*; of several that are, it is the least. `value` is
 *                           the index of the first wrong element if the argument is an array, and
 *                           otherwise 0.
 *   BOOTIMG_NOT_FOUND       What the call looks for is not there. `reason` is one of
 *                           BOOTIMG_WRONG_KIND to BOOTIMG_FINDS_NOTHING. `value` is an index: of
 *                           the first name that no image has for BOOTIMG_MISSING, of the first word
 *                           that names nothing for BOOTIMG_BAD_WORD, and of an edit for
 *                           BOOTIMG_BAD_EDIT and BOOTIMG_FINDS_NOTHING. Otherwise it is 0.
 *
 * Numbers without meaning for the status or the call are 0. If the status is BOOTIMG_OK, the
 * output is at the beginning of the buffer, and the bytes after it are unchanged. After any other
 * status the whole buffer is unchanged. No output is NUL-terminated. A buffer of length 0 is enough
 * to learn the size.
 */
#ifndef BOOTIMG_H
#define BOOTIMG_H

#include <stddef.h>
#include <stdint.h>

#ifdef __cplusplus
extern "C" {
#endif

/* The version of this header and of the library. */
#define BOOTIMG_VERSION "0.4.0"

/* What a call returns. */
#define BOOTIMG_OK 0u
#define BOOTIMG_REFUSED 1u
#define BOOTIMG_OUT_OF_MEMORY 2u
#define BOOTIMG_NO_ROOM 3u
#define BOOTIMG_WRONG_ARGUMENT 4u
#define BOOTIMG_NOT_FOUND 5u

/* The causes for which a file is refused: `cause` of bootimg_result, and `number` of
 * bootimg_cause_name. */
enum bootimg_cause {
    BOOTIMG_CAUSE_TRUNCATED = 1,
    BOOTIMG_CAUSE_BAD_MAGIC = 2,
    BOOTIMG_CAUSE_BAD_HEADER_CRC = 3,
    BOOTIMG_CAUSE_BAD_DATA_CRC = 4,
    BOOTIMG_CAUSE_BAD_PART_TABLE = 5,
    BOOTIMG_CAUSE_BAD_PART = 6,
    BOOTIMG_CAUSE_BAD_TOTAL_SIZE = 7,
    BOOTIMG_CAUSE_BAD_VERSION = 8,
    BOOTIMG_CAUSE_BAD_OFFSET = 9,
    BOOTIMG_CAUSE_BAD_TOKEN = 10,
    BOOTIMG_CAUSE_BAD_NAME = 11,
    BOOTIMG_CAUSE_BAD_NAME_OFFSET = 12,
    BOOTIMG_CAUSE_PROPERTY_AFTER_CHILD = 13,
    BOOTIMG_CAUSE_DUPLICATE_PROPERTY = 14,
    BOOTIMG_CAUSE_DUPLICATE_NODE = 15,
    BOOTIMG_CAUSE_TOO_DEEP = 16,
    BOOTIMG_CAUSE_NO_IMAGES = 17,
    BOOTIMG_CAUSE_BAD_CELL = 18,
    BOOTIMG_CAUSE_NO_SIZE = 19,
    BOOTIMG_CAUSE_OUTSIDE_FILE = 20,
    BOOTIMG_CAUSE_TOO_LARGE = 21,
    BOOTIMG_CAUSE_NO_CODE_NAME = 22,
    BOOTIMG_CAUSE_TOO_MANY_PARTS = 23,
    BOOTIMG_CAUSE_EMPTY_PART = 24,
    BOOTIMG_CAUSE_BAD_FIELD = 25,
    BOOTIMG_CAUSE_UNSUPPORTED = 26
};

/* The greatest `limit` and the greatest `depth`. */
#define BOOTIMG_LIMIT 0x7fffffffu
#define BOOTIMG_DEPTH 64u

/* The kinds of boot images: `value` of bootimg_kind. */
#define BOOTIMG_LEGACY 1u
#define BOOTIMG_FIT 2u

/* `form`: where the payloads in the normal form of a FIT are: inside the blob, or after it. A power
 * of two from 4 to 1048576 is a form, too: the payloads are after the blob, and each of them begins
 * at a multiple of this number of bytes, as with `--external --align` of the program. With
 * BOOTIMG_EXTERNAL they begin at multiples of 4. */
#define BOOTIMG_EMBEDDED 0u
#define BOOTIMG_EXTERNAL 1u

/* `form` of bootimg_edit and bootimg_edit_notes can also be this: the payloads are where the file
 * has them, as with `--keep-form` of the program. */
#define BOOTIMG_KEEP_FORM 2u

/* `kind` of an edit: what it does.
 *
 *   BOOTIMG_EDIT_REMOVE    Removes a node of a FIT and all nodes below it, or a property. `word` is
 *                          the path of the node; of a property it is the path of its node, a space
 *                          and its name. Path and name are as bootimg_describe prints them. Neither
 *                          the root nor the node `images` can be removed, and no image has one of
 *                          the four properties that hold or place its payload.
 *   BOOTIMG_EDIT_SET       Sets a property of a FIT, or adds it. `word` is the path of its node, a
 *                          space, its name, and, unless the value is empty, a space and the value,
 *                          as bootimg_describe prints it, or `0x` and two hexadecimal digits for
 *                          every byte. Nodes of the path that are not there are added.
 *   BOOTIMG_EDIT_PAYLOAD   Gives an image of a FIT, or a part of a legacy image, the bytes of
 *                          `payload`. `word` is the name of the image or the number of the part, as
 *                          bootimg_list prints it.
 *   BOOTIMG_EDIT_TIME      Sets the time of creation to `number`, in seconds since 1970.
 *   BOOTIMG_EDIT_HASHES    Recomputes the digests in the hash nodes of a FIT.
 *
 * The others are of a legacy image. They set a field of its header: the name to the bytes of
 * `word`, an address, or a code of U-Boot, 0 to 255, to `number`. */
#define BOOTIMG_EDIT_REMOVE 0u
#define BOOTIMG_EDIT_SET 1u
#define BOOTIMG_EDIT_PAYLOAD 2u
#define BOOTIMG_EDIT_TIME 3u
#define BOOTIMG_EDIT_HASHES 4u
#define BOOTIMG_EDIT_NAME 5u
#define BOOTIMG_EDIT_LOAD 6u
#define BOOTIMG_EDIT_ENTRY 7u
#define BOOTIMG_EDIT_OS 8u
#define BOOTIMG_EDIT_ARCH 9u
#define BOOTIMG_EDIT_COMPRESSION 10u

/* `changes` of bootimg_update and bootimg_notes. */
#define BOOTIMG_CHANGE_TIME 1u
#define BOOTIMG_CHANGE_HASHES 2u

/* `key`: the properties of a configuration that list images. */
#define BOOTIMG_KERNEL 0u
#define BOOTIMG_FDT 1u
#define BOOTIMG_RAMDISK 2u
#define BOOTIMG_FIRMWARE 3u
#define BOOTIMG_LOADABLES 4u
#define BOOTIMG_SCRIPT 5u

/* `reason` with BOOTIMG_NOT_FOUND: what is not there. */
#define BOOTIMG_WRONG_KIND 1u
#define BOOTIMG_NO_PART 2u
#define BOOTIMG_NO_IMAGE 3u
#define BOOTIMG_NO_CONFIG 4u
#define BOOTIMG_NO_KEY 5u
#define BOOTIMG_BAD_LIST 6u
#define BOOTIMG_MISSING 7u
#define BOOTIMG_NO_INDEX 8u
#define BOOTIMG_NO_PAYLOAD 9u
#define BOOTIMG_NO_NODE 10u
#define BOOTIMG_NO_PROPERTY 11u
#define BOOTIMG_NO_TEXT 12u
#define BOOTIMG_NO_NUMBER 13u
#define BOOTIMG_NO_NAME 14u
#define BOOTIMG_NO_CODE 15u
#define BOOTIMG_BAD_WORD 16u
#define BOOTIMG_BAD_EDIT 17u
#define BOOTIMG_FINDS_NOTHING 18u

/* `reason` with BOOTIMG_WRONG_ARGUMENT: the parameter of the call with this name.
 * BOOTIMG_ARGUMENT_PLACE is `place` or `name` of bootimg_get, and BOOTIMG_ARGUMENT_FIELDS is the
 * region of the name. `form`, `limit` and `depth` of bootimg_build_options have their own numbers,
 * and BOOTIMG_ARGUMENT_OPTIONS is the struct or one of its other members. */
enum bootimg_argument {
    BOOTIMG_ARGUMENT_OPTIONS = 1,
    BOOTIMG_ARGUMENT_LIMIT = 2,
    BOOTIMG_ARGUMENT_DEPTH = 3,
    BOOTIMG_ARGUMENT_FORM = 4,
    BOOTIMG_ARGUMENT_CHANGES = 5,
    BOOTIMG_ARGUMENT_LAYOUT = 6,
    BOOTIMG_ARGUMENT_KINDS = 7,
    BOOTIMG_ARGUMENT_KEY = 8,
    BOOTIMG_ARGUMENT_FIELD = 9,
    BOOTIMG_ARGUMENT_CODE = 10,
    BOOTIMG_ARGUMENT_NUMBER = 11,
    BOOTIMG_ARGUMENT_PLACE = 12,
    BOOTIMG_ARGUMENT_FIELDS = 13,
    BOOTIMG_ARGUMENT_PARTS = 14,
    BOOTIMG_ARGUMENT_WORDS = 15,
    BOOTIMG_ARGUMENT_EDITS = 16,
    BOOTIMG_ARGUMENT_IMAGES = 17,
    BOOTIMG_ARGUMENT_TEXTS = 18,
    BOOTIMG_ARGUMENT_LISTS = 19,
    BOOTIMG_ARGUMENT_ALGORITHMS = 20,
    BOOTIMG_ARGUMENT_CONFIGURATIONS = 21
};

/* `field`: a field of the header of a legacy image that contains a code. */
#define BOOTIMG_CODE_OS 0u
#define BOOTIMG_CODE_ARCH 1u
#define BOOTIMG_CODE_IMAGE_TYPE 2u
#define BOOTIMG_CODE_COMPRESSION 3u

/* `form` of a value. */
#define BOOTIMG_VALUE_SHOWN 0u
#define BOOTIMG_VALUE_TEXT 1u
#define BOOTIMG_VALUE_NUMBER 2u
#define BOOTIMG_VALUE_RAW 3u

/* `addresses` of an image to be built: whether `load` and `entry` are given. */
#define BOOTIMG_HAS_LOAD 1u
#define BOOTIMG_HAS_ENTRY 2u

/* `given` of the structs of bootimg_build_fit_as: what is given. BOOTIMG_HAS_DESCRIPTION is for
 * bootimg_build_texts and bootimg_build_configuration, BOOTIMG_HAS_TEXTS for the first of them, and
 * BOOTIMG_HAS_DEFAULT for bootimg_build_options. */
#define BOOTIMG_HAS_DESCRIPTION 1u
#define BOOTIMG_HAS_TEXTS 2u
#define BOOTIMG_HAS_DEFAULT 1u

/* The algorithms of hash nodes of bootimg_build_fit_as. */
#define BOOTIMG_ALGORITHM_CRC32 0u
#define BOOTIMG_ALGORITHM_MD5 1u
#define BOOTIMG_ALGORITHM_SHA1 2u
#define BOOTIMG_ALGORITHM_SHA256 3u
#define BOOTIMG_ALGORITHM_SHA384 4u
#define BOOTIMG_ALGORITHM_SHA512 5u

/* `place` of an image: the property that places its payload. */
#define BOOTIMG_PLACE_ABSENT 0u
#define BOOTIMG_PLACE_DATA 1u
#define BOOTIMG_PLACE_DATA_OFFSET 2u
#define BOOTIMG_PLACE_DATA_POSITION 3u

/* `kind` of an element of a tree: a node, or a property of the last node before it. */
#define BOOTIMG_ELEMENT_NODE 1u
#define BOOTIMG_ELEMENT_PROPERTY 2u

/* `verdict` of a hash node: its value is the digest of the payload, or it is not; its algorithm is
 * not a known one; its image has no payload; or the node has no algorithm or no value. */
#define BOOTIMG_VERDICT_GOOD 0u
#define BOOTIMG_VERDICT_BAD 1u
#define BOOTIMG_VERDICT_UNKNOWN_ALGORITHM 2u
#define BOOTIMG_VERDICT_NO_PAYLOAD 3u
#define BOOTIMG_VERDICT_MALFORMED 4u

/* `kind` of a concern: a thing in a file that is not protected. */
enum bootimg_concern_kind {
    /* The verdict on a hash node is not good. */
    BOOTIMG_CONCERN_BAD_HASH = 1,
    /* An image has a payload and no good verdict, apart from hash nodes that U-Boot skips. */
    BOOTIMG_CONCERN_UNHASHED = 2,
    /* An image has a payload and good verdicts, but none of SHA-256, SHA-384 or SHA-512, apart
     * from hash nodes that U-Boot skips. */
    BOOTIMG_CONCERN_WEAK_HASH = 4,
    /* The value of a key of a configuration is not a list of names. */
    BOOTIMG_CONCERN_BAD_LIST = 8,
    /* A key of a configuration lists a name that no image has. */
    BOOTIMG_CONCERN_MISSING = 16,
    /* There are configurations, and the default names none of them. */
    BOOTIMG_CONCERN_BAD_DEFAULT = 32,
    /* A byte after the image is not zero. */
    BOOTIMG_CONCERN_TRAILING = 64,
    /* U-Boot skips a hash node. */
    BOOTIMG_CONCERN_SKIPPED_HASH = 128,
    /* A configuration has no signature, or there is no configuration. Only with BOOTIMG_SIGNED. */
    BOOTIMG_CONCERN_UNSIGNED = 256,
    /* A signature of a configuration does not say which nodes it covers. */
    BOOTIMG_CONCERN_NO_NODES = 512,
    /* The configuration of a signature names no image. */
    BOOTIMG_CONCERN_NO_IMAGES = 1024,
    /* A signature of a configuration does not cover a node that it must cover. */
    BOOTIMG_CONCERN_UNCOVERED = 2048,
    /* A signature of a configuration covers a node that it need not cover. */
    BOOTIMG_CONCERN_FOREIGN = 4096,
    /* A signature of a configuration does not cover the names of all properties of its nodes. */
    BOOTIMG_CONCERN_STRINGS = 8192,
    /* There is a signature of a configuration, and the name of a node contains an @. */
    BOOTIMG_CONCERN_UNIT_ADDRESS = 16384
};

/* `kinds` of bootimg_check and bootimg_concerns: the concerns that are left out, by the numbers of
 * enum bootimg_concern_kind. BOOTIMG_SIGNED asks for signatures: without it no concern is
 * BOOTIMG_CONCERN_UNSIGNED. */
#define BOOTIMG_ALLOW_BAD_HASH 1u
#define BOOTIMG_ALLOW_UNHASHED 2u
#define BOOTIMG_ALLOW_WEAK_HASH 4u
#define BOOTIMG_ALLOW_BAD_LIST 8u
#define BOOTIMG_ALLOW_MISSING 16u
#define BOOTIMG_ALLOW_BAD_DEFAULT 32u
#define BOOTIMG_ALLOW_TRAILING 64u
#define BOOTIMG_ALLOW_SKIPPED_HASH 128u
#define BOOTIMG_ALLOW_UNSIGNED 256u
#define BOOTIMG_ALLOW_NO_NODES 512u
#define BOOTIMG_ALLOW_NO_IMAGES 1024u
#define BOOTIMG_ALLOW_UNCOVERED 2048u
#define BOOTIMG_ALLOW_FOREIGN 4096u
#define BOOTIMG_ALLOW_STRINGS 8192u
#define BOOTIMG_ALLOW_UNIT_ADDRESS 16384u
#define BOOTIMG_SIGNED 32768u

/* What a call returns in addition to its status. */
typedef struct bootimg_result {
    size_t size;
    size_t value;
    uint32_t cause;
    uint32_t offset;
    uint32_t file;
    uint32_t reason;
} bootimg_result;

/* Where bytes of a file are: the offset of the first one, and their number. */
typedef struct bootimg_region {
    size_t offset;
    size_t size;
} bootimg_region;

/* The fields of the header of a legacy image. `time` is in seconds since 1970, and `load` and
 * `entry` are addresses. The others are codes of U-Boot. */
typedef struct bootimg_legacy_fields {
    bootimg_region name;
    uint32_t time;
    uint32_t load;
    uint32_t entry;
    uint8_t os;
    uint8_t arch;
    uint8_t image_type;
    uint8_t compression;
} bootimg_legacy_fields;

/* What a user should know about a normal form beyond what it means: the numbers in the notes that
 * the program prints. `signatures` is the number of signature nodes, which are kept and not
 * checked. With BOOTIMG_EXTERNAL, `lost_positions` is the number of payloads that `data-position`
 * gives in the file, which `data-offset` gives instead, and `lost_alignment` is the alignment in
 * bytes that the payloads after the blob have in the file, if one of them loses it. Empty payloads
 * do not count. The last two are otherwise 0, and for a legacy image all numbers are. */
typedef struct bootimg_note_numbers {
    size_t signatures;
    size_t lost_positions;
    uint32_t lost_alignment;
} bootimg_note_numbers;

/* An edit of a boot image. `word` and `payload` are regions of the input. `kind` is one of
 * BOOTIMG_EDIT_REMOVE to BOOTIMG_EDIT_COMPRESSION. What the kind does not use has no effect. */
typedef struct bootimg_edit_element {
    bootimg_region word;
    bootimg_region payload;
    uint32_t kind;
    uint32_t number;
} bootimg_edit_element;

/* What a user should know about a file after edits beyond what it means: the numbers in the notes
 * that the program prints. `signatures` is the number of signature nodes, which are kept and not
 * checked. With BOOTIMG_EXTERNAL or BOOTIMG_KEEP_FORM, `lost_positions` is the number of payloads
 * that `data-position` gives in the file, which `data-offset` gives instead. With BOOTIMG_EMBEDDED,
 * `inside` is the number of payloads after the blob of the file that are inside it now. With
 * BOOTIMG_EXTERNAL, `lost_alignment` is the alignment in bytes that the payloads after the blob
 * have in the file, if one of them loses it. Payloads that were empty, or whose image has none
 * after the edits, do not count, and for `inside` neither do those that are empty then. The last
 * three are otherwise 0, and for a legacy image all numbers are. */
typedef struct bootimg_edit_note_numbers {
    size_t signatures;
    size_t lost_positions;
    size_t inside;
    uint32_t lost_alignment;
} bootimg_edit_note_numbers;

/* The fields of the blob of a FIT: the number of the boot processor, and its size in bytes. */
typedef struct bootimg_fit_fields {
    uint32_t boot_cpu;
    uint32_t total_size;
} bootimg_fit_fields;

/* A memory reservation of a FIT: an address, and a size in bytes. */
typedef struct bootimg_reservation {
    uint64_t address;
    uint64_t size;
} bootimg_reservation;

/* An image of a FIT. `place` is one of BOOTIMG_PLACE_ABSENT to BOOTIMG_PLACE_DATA_POSITION. If the
 * image has no payload (an empty one counts as one), it is the first, and both numbers of `payload`
 * are 0. */
typedef struct bootimg_image {
    bootimg_region name;
    bootimg_region payload;
    uint32_t place;
} bootimg_image;

/* A property of a node of a FIT. */
typedef struct bootimg_property {
    bootimg_region name;
    bootimg_region value;
} bootimg_property;

/* A node of a FIT, or a property of the last node before it. `kind` is BOOTIMG_ELEMENT_NODE or
 * BOOTIMG_ELEMENT_PROPERTY. `depth` is the number of nodes that contain it: 0 for the root. The
 * numbers of `value` are 0 for a node. */
typedef struct bootimg_tree_element {
    bootimg_region name;
    bootimg_region value;
    uint32_t depth;
    uint32_t kind;
} bootimg_tree_element;

/* A hash node of an image of a FIT: the names of the image, the node and the algorithm, and the
 * value. The numbers of a region are 0 if it is not there. `verdict` is one of BOOTIMG_VERDICT_GOOD
 * to BOOTIMG_VERDICT_MALFORMED. */
typedef struct bootimg_hash {
    bootimg_region image;
    bootimg_region node;
    bootimg_region algorithm;
    bootimg_region value;
    uint32_t verdict;
} bootimg_hash;

/* A concern about a boot image. `kind` is one of BOOTIMG_CONCERN_*, with these members:
 *
 *   BOOTIMG_CONCERN_BAD_HASH     `name` of the image, `node`, `algorithm` and `verdict`.
 *   BOOTIMG_CONCERN_UNHASHED     `name` of the image.
 *   BOOTIMG_CONCERN_WEAK_HASH    `name` of the image. Its algorithms are in the elements of
 *                                bootimg_verdicts with this region as `image` and with
 *                                BOOTIMG_VERDICT_GOOD, except for the nodes of the elements of
 *                                BOOTIMG_CONCERN_SKIPPED_HASH.
 *   BOOTIMG_CONCERN_BAD_LIST     `name` of the configuration, and `key`.
 *   BOOTIMG_CONCERN_MISSING      `name` of the configuration, `key`, and `index`, counted from 0,
 *                                of the first listed name that no image has.
 *   BOOTIMG_CONCERN_BAD_DEFAULT  `name`, which is the default.
 *   BOOTIMG_CONCERN_TRAILING     `size`: the number of bytes after the image.
 *   BOOTIMG_CONCERN_SKIPPED_HASH `name` of the image, and `node`.
 *   Any other kind               None. The line of bootimg_check with the same index gives the
 *                                names and the path.
 *
 * `node` is the name of the hash node. `verdict` is one of BOOTIMG_VERDICT_BAD to
 * BOOTIMG_VERDICT_MALFORMED, and `key` one of BOOTIMG_KERNEL to BOOTIMG_SCRIPT. The numbers of a
 * region are 0 if it is not there. All other members are 0. */
typedef struct bootimg_concern {
    bootimg_region name;
    bootimg_region node;
    bootimg_region algorithm;
    size_t index;
    size_t size;
    uint32_t kind;
    uint32_t verdict;
    uint32_t key;
} bootimg_concern;

/* An image of a FIT to be built. The name and the payload are regions of the input. `addresses` is
 * a sum of BOOTIMG_HAS_*, or 0. The codes are the same as in a legacy header. */
typedef struct bootimg_build_image {
    bootimg_region name;
    bootimg_region payload;
    uint32_t load;
    uint32_t entry;
    uint32_t addresses;
    uint8_t os;
    uint8_t arch;
    uint8_t image_type;
    uint8_t compression;
} bootimg_build_image;

/* Some of the elements of an array, one after another: the index of the first one, counted from 0,
 * and their number. */
typedef struct bootimg_range {
    size_t first;
    size_t count;
} bootimg_range;

/* What is given of an image of a FIT to be built in addition to its bootimg_build_image: a
 * description, and texts for its node instead of the names of its codes. All are regions of the
 * input. `given` is a sum of BOOTIMG_HAS_DESCRIPTION and BOOTIMG_HAS_TEXTS, which stands for all
 * four texts, or 0. A region that is not given is ignored, but must be inside the input. */
typedef struct bootimg_build_texts {
    bootimg_region description;
    bootimg_region image_type;
    bootimg_region arch;
    bootimg_region os;
    bootimg_region compression;
    uint32_t given;
} bootimg_build_texts;

/* A configuration of a FIT to be built. The name and the description are regions of the input.
 * `given` is BOOTIMG_HAS_DESCRIPTION, or 0 if there is no description, whose region must then be
 * inside the input, too. The other members are ranges of the regions in `lists` of the call: the
 * texts of `compatible`, and for each key the names of the images that it lists. */
typedef struct bootimg_build_configuration {
    bootimg_region name;
    bootimg_region description;
    bootimg_range compatible;
    bootimg_range kernel;
    bootimg_range fdt;
    bootimg_range ramdisk;
    bootimg_range firmware;
    bootimg_range loadables;
    bootimg_range script;
    uint32_t given;
} bootimg_build_configuration;

/* The options of bootimg_build_fit_as. `size` is sizeof(bootimg_build_options), which is 64. The
 * description and the name of the default configuration are regions of the input. `time` is the
 * time of creation, in seconds since 1970. `form`, `limit` and `depth` are as for all calls.
 * `given` is BOOTIMG_HAS_DEFAULT, or 0 if the first configuration is the default; the region of the
 * name must then be inside the input, too. */
typedef struct bootimg_build_options {
    size_t size;
    bootimg_region description;
    bootimg_region default_name;
    uint32_t time;
    uint32_t form;
    uint32_t limit;
    uint32_t depth;
    uint32_t given;
} bootimg_build_options;

/* Returns the kind of a file in `value`, by its first four bytes: BOOTIMG_LEGACY or BOOTIMG_FIT.
 * The other bytes are not examined. The call fails with Truncated at 0 for a file of fewer than
 * four bytes, and with BadMagic at 0 for one without a magic number. */
uint32_t bootimg_kind(const uint8_t *file, size_t file_size, bootimg_result *answer);

/* Writes the normal form of a file. `form` changes nothing for a legacy image. `value` is the
 * number of signature nodes, which are kept and not checked. The call fails with TooLarge if the
 * normal form is longer than `limit`. */
uint32_t bootimg_normalise(const uint8_t *file, size_t file_size, uint32_t form, uint32_t limit,
                           uint32_t depth, uint8_t *buffer, size_t buffer_size,
                           bootimg_result *answer);

/* Writes the normal form of a file with changes. `changes` is a sum of BOOTIMG_CHANGE_*, or 0.
 * BOOTIMG_CHANGE_TIME sets the time of creation to `time`, in seconds since 1970.
 * BOOTIMG_CHANGE_HASHES recomputes the digests in the hash nodes of a FIT. Without
 * BOOTIMG_CHANGE_TIME, `time` is ignored. The checksums of a legacy image are always computed.
 * `form` and `value` are as for bootimg_normalise. The call fails with TooLarge if the output is
 * longer than `limit`, or, with BOOTIMG_CHANGE_HASHES, if the payloads together are longer. */
uint32_t bootimg_update(const uint8_t *file, size_t file_size, uint32_t changes, uint32_t time,
                        uint32_t form, uint32_t limit, uint32_t depth, uint8_t *buffer,
                        size_t buffer_size, bootimg_result *answer);

/* Sets the numbers in the notes that the program prints after it has written the normal form with
 * these changes, or, if `changes` is 0, the normal form. After an update the program can print one
 * more note, on payloads that are inside the blob now: bootimg_edit_notes counts them. The numbers
 * are unchanged unless the status is BOOTIMG_OK. The arguments are those of bootimg_update, and the
 * call fails as it does. The output is made in memory that the call allocates. */
uint32_t bootimg_notes(const uint8_t *file, size_t file_size, uint32_t changes, uint32_t time,
                       uint32_t form, uint32_t limit, uint32_t depth, bootimg_note_numbers *notes,
                       bootimg_result *answer);

/* Writes the normal form of a file after edits, as `bootimg update` does with its options. The
 * words and payloads of the edits are regions of `input`, which may be anywhere in it. The edits
 * are made in this order, whatever their order in the array: removals, new values and fields,
 * payloads, the time, the digests. Edits of one of these kinds are made in their order in the
 * array. Whatever no edit names is as it was. Without edits the output is the normal form. `form`
 * is as for bootimg_normalise, or BOOTIMG_KEEP_FORM, and `value` is the number of signature nodes
 * of the output.
 *
 * The status is BOOTIMG_WRONG_ARGUMENT if a region of an edit is not inside the input, even one
 * that its kind does not use; if a kind is not one of these; or if a code is greater than 255.
 * Otherwise it can be BOOTIMG_OUT_OF_MEMORY, or BOOTIMG_NOT_FOUND with the first of these reasons
 * that applies:
 *
 *   BOOTIMG_BAD_EDIT        The word of an edit does not have the form above, or names a node or a
 *                           property that cannot be removed or set. `value` is the index of the
 *                           first such edit. The file is not examined before.
 *   BOOTIMG_WRONG_KIND      An edit is for the other kind of image, or for a part by a word that is
 *                           not a number. This reason and the next one come after the causes of
 *                           reading.
 *   BOOTIMG_FINDS_NOTHING   There is nothing to remove, no such image or no such part. `value` is
 *                           the index of the first such edit, in the order in which they are made.
 *
 * The call fails with TooDeep at 0, before BOOTIMG_FINDS_NOTHING, if a property is set of a node
 * with `depth` names or more in its path; after it with TooLarge if the output is longer than
 * `limit`, or, with BOOTIMG_EDIT_HASHES, if the payloads after the edits together are longer; and
 * for a legacy image with the causes of bootimg_build_legacy. */
uint32_t bootimg_edit(const uint8_t *file, size_t file_size, const uint8_t *input,
                      size_t input_size, const bootimg_edit_element *edits, size_t edits_count,
                      uint32_t form, uint32_t limit, uint32_t depth, uint8_t *buffer,
                      size_t buffer_size, bootimg_result *answer);

/* Sets the numbers in the notes on what bootimg_edit writes with these arguments. They are
 * unchanged unless the status is BOOTIMG_OK. The call fails as bootimg_edit does. The output is
 * made in memory that the call allocates. */
uint32_t bootimg_edit_notes(const uint8_t *file, size_t file_size, const uint8_t *input,
                            size_t input_size, const bootimg_edit_element *edits,
                            size_t edits_count, uint32_t form, uint32_t limit, uint32_t depth,
                            bootimg_edit_note_numbers *notes, bootimg_result *answer);

/* The calls that extract copy nothing. `value` is the offset in the file of the first selected
 * byte, and `size` is the number of selected bytes. All of them are inside the file. No hash node
 * is checked: bootimg_verify does that. If nothing is selected, the status is BOOTIMG_NOT_FOUND,
 * and `reason` is the first of these that applies:
 *
 *   BOOTIMG_WRONG_KIND   The call selects a part and the file is a FIT, or the call selects a
 *                        payload and the file is a legacy image.
 *   BOOTIMG_NO_PART      The legacy image has no part with the given index.
 *   BOOTIMG_NO_IMAGE     No image has the given name.
 *   BOOTIMG_NO_CONFIG    No configuration has the given name, or no default is named.
 *   BOOTIMG_NO_KEY       The configuration lacks the key.
 *   BOOTIMG_BAD_LIST     The value of the key is not a list of names.
 *   BOOTIMG_MISSING      The list names an image that does not exist. `value` is the index of the
 *                        first such name, counted from 0.
 *   BOOTIMG_NO_INDEX     The list has no entry with the given index.
 *   BOOTIMG_NO_PAYLOAD   The image has no payload (an empty one counts as one).
 */

/* Selects the part with the given index, counted from 0, of a legacy image. An image of a type
 * other than multi and script has one part. */
uint32_t bootimg_extract_part(const uint8_t *file, size_t file_size, uint32_t index, uint32_t limit,
                              uint32_t depth, bootimg_result *answer);

/* Selects the payload of the image with the given name in a FIT. The name is not NUL-terminated. */
uint32_t bootimg_extract_image(const uint8_t *file, size_t file_size, const uint8_t *name,
                               size_t name_size, uint32_t limit, uint32_t depth,
                               bootimg_result *answer);

/* Selects a payload that the configuration with the given name lists under a key, one of
 * BOOTIMG_KERNEL to BOOTIMG_SCRIPT. `index` is its index in the list, counted from 0. The name is
 * not NUL-terminated. */
uint32_t bootimg_extract_config(const uint8_t *file, size_t file_size, const uint8_t *name,
                                size_t name_size, uint32_t key, uint32_t index, uint32_t limit,
                                uint32_t depth, bootimg_result *answer);

/* Selects a payload that the default configuration lists, as bootimg_extract_config does. */
uint32_t bootimg_extract_default(const uint8_t *file, size_t file_size, uint32_t key,
                                 uint32_t index, uint32_t limit, uint32_t depth,
                                 bootimg_result *answer);

/* The calls that take an image apart copy nothing: names and payloads are regions of the caller's
 * file, and inside it. Each call reads the whole file again. An array of the caller's is a buffer:
 * it is followed by its length, and `size` is the number of elements. The output is at its
 * beginning, and the elements after it are unchanged. If there is no room for all elements, the
 * status is BOOTIMG_NO_ROOM, and the array is unchanged. */

/* Sets the fields of the header of a legacy image. They are unchanged unless the status is
 * BOOTIMG_OK. The call fails with BadMagic at 0 for a file that is not a legacy image. */
uint32_t bootimg_legacy(const uint8_t *file, size_t file_size, uint32_t limit, uint32_t depth,
                        bootimg_legacy_fields *fields, bootimg_result *answer);

/* Writes where the parts of a legacy image are, in their order. `value` is the number of bytes of
 * the file after the last part, or after the part table if there are no parts. The call fails as
 * bootimg_legacy does. */
uint32_t bootimg_parts(const uint8_t *file, size_t file_size, uint32_t limit, uint32_t depth,
                       bootimg_region *parts, size_t parts_count, bootimg_result *answer);

/* Sets the fields of the blob of a FIT. They are unchanged unless the status is BOOTIMG_OK. The
 * call fails with BadMagic at 0 for a file that is not a FIT. The calls after it do, too. */
uint32_t bootimg_fit(const uint8_t *file, size_t file_size, uint32_t limit, uint32_t depth,
                     bootimg_fit_fields *fields, bootimg_result *answer);

/* Writes the memory reservations of a FIT, in their order. */
uint32_t bootimg_reservations(const uint8_t *file, size_t file_size, uint32_t limit, uint32_t depth,
                              bootimg_reservation *reservations, size_t reservations_count,
                              bootimg_result *answer);

/* Writes the images of a FIT, in their order. */
uint32_t bootimg_images(const uint8_t *file, size_t file_size, uint32_t limit, uint32_t depth,
                        bootimg_image *images, size_t images_count, bootimg_result *answer);

/* Writes where the names of the configurations of a FIT are, in their order. `value` is the index
 * of the default configuration, or the number of configurations if there is none. */
uint32_t bootimg_configurations(const uint8_t *file, size_t file_size, uint32_t limit,
                                uint32_t depth, bootimg_region *names, size_t names_count,
                                bootimg_result *answer);

/* Writes the indices of the images that the configuration with the given name lists under a key,
 * one of BOOTIMG_KERNEL to BOOTIMG_SCRIPT, in the order of the list. An index is a place in the
 * array of bootimg_images, counted from 0. The name is not NUL-terminated. If nothing is listed,
 * the status is BOOTIMG_NOT_FOUND, and `reason` is one of BOOTIMG_NO_CONFIG to BOOTIMG_MISSING. */
uint32_t bootimg_listed(const uint8_t *file, size_t file_size, const uint8_t *name,
                        size_t name_size, uint32_t key, uint32_t limit, uint32_t depth,
                        size_t *images, size_t images_count, bootimg_result *answer);

/* Writes the hash nodes of a FIT with the verdicts on them, image by image, in their order. A
 * region of the file is read once for every algorithm that its hash nodes name. */
uint32_t bootimg_verdicts(const uint8_t *file, size_t file_size, uint32_t limit, uint32_t depth,
                          bootimg_hash *hashes, size_t hashes_count, bootimg_result *answer);

/* Writes the concerns about a file of either kind, in the order of the lines of bootimg_check.
 * `kinds` is a sum of BOOTIMG_ALLOW_* and BOOTIMG_SIGNED, or 0: concerns of these kinds are left
 * out. The call fails as bootimg_check does. */
uint32_t bootimg_concerns(const uint8_t *file, size_t file_size, uint32_t kinds, uint32_t limit,
                          uint32_t depth, bootimg_concern *concerns, size_t concerns_count,
                          bootimg_result *answer);

/* The calls that look at a node of a FIT take its path: `/` for the root, and else a `/` before the
 * name of every node from a child of the root down to it, for example `/images/kernel-1`. The names
 * are bytes of the file, and the whole names: no alias is followed. The path is not NUL-terminated.
 * If no node has the path, the status is BOOTIMG_NOT_FOUND and `reason` is BOOTIMG_NO_NODE. */

/* Writes where the names of the children of a node are, in their order. */
uint32_t bootimg_children(const uint8_t *file, size_t file_size, const uint8_t *path,
                          size_t path_size, uint32_t limit, uint32_t depth, bootimg_region *names,
                          size_t names_count, bootimg_result *answer);

/* Writes the properties of a node, in their order. */
uint32_t bootimg_properties(const uint8_t *file, size_t file_size, const uint8_t *path,
                            size_t path_size, uint32_t limit, uint32_t depth,
                            bootimg_property *properties, size_t properties_count,
                            bootimg_result *answer);

/* Selects the value of the property of a node with the given name, as the calls that extract do:
 * `value` is its offset in the file, and `size` its size. The name is not NUL-terminated. If the
 * node has no such property, the status is BOOTIMG_NOT_FOUND and `reason` is BOOTIMG_NO_PROPERTY.
 */
uint32_t bootimg_property_value(const uint8_t *file, size_t file_size, const uint8_t *path,
                                size_t path_size, const uint8_t *name, size_t name_size,
                                uint32_t limit, uint32_t depth, bootimg_result *answer);

/* Writes all nodes of a FIT, from the root on: every node, its properties, and then the nodes below
 * it, in their order. The whole tree is read once. */
uint32_t bootimg_nodes(const uint8_t *file, size_t file_size, uint32_t limit, uint32_t depth,
                       bootimg_tree_element *elements, size_t elements_count,
                       bootimg_result *answer);

/* Writes a single value, as `bootimg get` prints it. `place` and `name` are the path of a node of a
 * FIT and the name of one of its properties, both as bootimg_describe prints them. For a field of a
 * legacy image `place` is its word, one of name, time, load, entry, os, arch, type and compression,
 * and `name` is empty. Neither is NUL-terminated. `form` is one of:
 *
 *   BOOTIMG_VALUE_SHOWN    A line: the value as bootimg_describe or bootimg_list prints it.
 *   BOOTIMG_VALUE_TEXT     A line for every text, without quotes. A field is as shown.
 *   BOOTIMG_VALUE_NUMBER   A line: `0x`, and 8 or 16 hexadecimal digits of a property of 4 or 8
 *                          bytes, or the digits of a field.
 *   BOOTIMG_VALUE_RAW      The bytes and no newline: of a property or a field. Of the name, they
 *                          end before its first zero.
 *
 * The status is BOOTIMG_WRONG_ARGUMENT if the words do not name one value. BOOTIMG_NOT_FOUND comes
 * after the causes of reading. Its `reason` is one of:
 *
 *   BOOTIMG_WRONG_KIND    A field is named of a FIT, or a property of a legacy image.
 *   BOOTIMG_NO_PROPERTY   No node has the path, or the node has no such property. No image has one
 *                         of the four properties that hold or place its payload.
 *   BOOTIMG_NO_TEXT       The value is not one or more texts.
 *   BOOTIMG_NO_NUMBER     The value has another size, or the field is the name.
 */
uint32_t bootimg_get(const uint8_t *file, size_t file_size, const uint8_t *place, size_t place_size,
                     const uint8_t *name, size_t name_size, uint32_t form, uint32_t limit,
                     uint32_t depth, uint8_t *buffer, size_t buffer_size, bootimg_result *answer);

/* Returns in `value` whether two files mean the same thing: 1 if they do, otherwise 0. */
uint32_t bootimg_same_meaning(const uint8_t *one, size_t one_size, const uint8_t *other,
                              size_t other_size, uint32_t limit, uint32_t depth,
                              bootimg_result *answer);

/* Writes the listing of a file, as `bootimg list` prints it. */
uint32_t bootimg_list(const uint8_t *file, size_t file_size, uint32_t limit, uint32_t depth,
                      uint8_t *buffer, size_t buffer_size, bootimg_result *answer);

/* Writes a line for every boot image inside a file, as `bootimg scan` prints it: the offset, the
 * kind, the size in bytes, and the name of a legacy image or the number of images of a FIT. An
 * image may begin at any offset. Nothing is written if there is no image. The call fails with
 * TooLarge if the file, or what the headers of its images claim together, is longer than `limit`,
 * and for no other cause. */
uint32_t bootimg_scan(const uint8_t *file, size_t file_size, uint32_t limit, uint32_t depth,
                      uint8_t *buffer, size_t buffer_size, bootimg_result *answer);

/* Writes the description of what a file means. It does not depend on the layout of the file. The
 * call fails with TooLarge if the description, or the payloads together, are longer than `limit`.
 */
uint32_t bootimg_describe(const uint8_t *file, size_t file_size, uint32_t limit, uint32_t depth,
                          uint8_t *buffer, size_t buffer_size, bootimg_result *answer);

/* Writes the description of what a file means, with the devicetrees inside its payloads, as
 * `bootimg describe --deep` prints it. A payload or part is read as a devicetree under the same
 * `limit` and `depth`. One that is not a devicetree, or is over them, or has a node `/images`, has
 * only the lines of bootimg_describe. The call fails with TooLarge if the deep description, or
 * the payloads together, are longer than `limit`. */
uint32_t bootimg_describe_deep(const uint8_t *file, size_t file_size, uint32_t limit,
                               uint32_t depth, uint8_t *buffer, size_t buffer_size,
                               bootimg_result *answer);

/* Writes the page of a file, for a person: tables of what it is, of its images or parts with the
 * verdicts on hash nodes, of its configurations and signature nodes, and the lines of
 * bootimg_check. With `layout` 1 the page also shows the regions of the file by their offsets, with
 * 0 it does not. Its form may change with the version. The call fails with TooLarge if the payloads
 * together are longer than `limit`. */
uint32_t bootimg_show(const uint8_t *file, size_t file_size, uint32_t layout, uint32_t limit,
                      uint32_t depth, uint8_t *buffer, size_t buffer_size, bootimg_result *answer);

/* Writes the report on the checksums and digests of a file. `value` is 1 if all verdicts in it are
 * good, even if there is none, and otherwise 0. */
uint32_t bootimg_verify(const uint8_t *file, size_t file_size, uint32_t limit, uint32_t depth,
                        uint8_t *buffer, size_t buffer_size, bootimg_result *answer);

/* Writes a line for every concern about a file: everything in it that is not protected. No
 * signature is verified. `kinds` is a sum of BOOTIMG_ALLOW_* and BOOTIMG_SIGNED, or 0: lines of
 * these kinds are left out. `value` is 1 if there is no line, otherwise 0. The call fails with
 * TooLarge if the payloads together, or the paths that signatures must cover, are longer than
 * `limit`. */
uint32_t bootimg_check(const uint8_t *file, size_t file_size, uint32_t kinds, uint32_t limit,
                       uint32_t depth, uint8_t *buffer, size_t buffer_size, bootimg_result *answer);

/* Writes the differences between what two files mean. `value` is 1 if they mean the same thing,
 * and nothing is then written; otherwise 0. If they do not mean the same thing, the call fails
 * with TooLarge for the first file whose description, or payloads together, are longer than
 * `limit`. */
uint32_t bootimg_compare(const uint8_t *one, size_t one_size, const uint8_t *other,
                         size_t other_size, uint32_t limit, uint32_t depth, uint8_t *buffer,
                         size_t buffer_size, bootimg_result *answer);

/* Writes the differences between what two files mean, as bootimg_compare does, once something is
 * left out of both. The words for it are regions of `input`, which may be anywhere in it: every
 * region is one value of the option `--ignore` of `bootimg compare`. `value` is 1 if the files then
 * mean the same thing, and otherwise 0. Nothing is left out of files of different kinds. If a
 * region is not inside the input, the status is BOOTIMG_WRONG_ARGUMENT. If a word names nothing, it
 * is BOOTIMG_NOT_FOUND, `reason` is BOOTIMG_BAD_WORD, and `value` is the index of the first such
 * word. The call fails with TooLarge for the first file whose description, or payloads together,
 * are longer than `limit`, even if the files mean the same thing. */
uint32_t bootimg_compare_ignoring(const uint8_t *one, size_t one_size, const uint8_t *other,
                                  size_t other_size, const uint8_t *input, size_t input_size,
                                  const bootimg_region *words, size_t words_count, uint32_t limit,
                                  uint32_t depth, uint8_t *buffer, size_t buffer_size,
                                  bootimg_result *answer);

/* Writes what bootimg_compare_ignoring does, but of the deep descriptions of both files, as
 * `bootimg compare --deep` prints it. A word for something inside a payload opens it, if it is a
 * devicetree in both files: then it is compared without what the words leave out, and not by its
 * bytes. `words_count` may be 0. Both files are described even if they mean the same thing: the
 * call fails with TooLarge for the first file whose deep description, or payloads together, are
 * longer than `limit`, which `bootimg compare --deep` without `--ignore` does only for files that
 * differ. */
uint32_t bootimg_compare_deep(const uint8_t *one, size_t one_size, const uint8_t *other,
                              size_t other_size, const uint8_t *input, size_t input_size,
                              const bootimg_region *words, size_t words_count, uint32_t limit,
                              uint32_t depth, uint8_t *buffer, size_t buffer_size,
                              bootimg_result *answer);

/* The calls `.._json` write what the call without `_json` writes, as one JSON text (RFC 8259) in
 * ASCII and a newline. Arguments, `value` and errors are the same as for that call. There is always
 * an output, even if there are no concerns. bootimg_show_json does not take `layout`, and writes
 * nothing about the regions of the file. */
uint32_t bootimg_list_json(const uint8_t *file, size_t file_size, uint32_t limit, uint32_t depth,
                           uint8_t *buffer, size_t buffer_size, bootimg_result *answer);

uint32_t bootimg_scan_json(const uint8_t *file, size_t file_size, uint32_t limit, uint32_t depth,
                           uint8_t *buffer, size_t buffer_size, bootimg_result *answer);

uint32_t bootimg_show_json(const uint8_t *file, size_t file_size, uint32_t limit, uint32_t depth,
                           uint8_t *buffer, size_t buffer_size, bootimg_result *answer);

uint32_t bootimg_describe_json(const uint8_t *file, size_t file_size, uint32_t limit,
                               uint32_t depth, uint8_t *buffer, size_t buffer_size,
                               bootimg_result *answer);

uint32_t bootimg_describe_deep_json(const uint8_t *file, size_t file_size, uint32_t limit,
                                    uint32_t depth, uint8_t *buffer, size_t buffer_size,
                                    bootimg_result *answer);

uint32_t bootimg_verify_json(const uint8_t *file, size_t file_size, uint32_t limit, uint32_t depth,
                             uint8_t *buffer, size_t buffer_size, bootimg_result *answer);

uint32_t bootimg_check_json(const uint8_t *file, size_t file_size, uint32_t kinds, uint32_t limit,
                            uint32_t depth, uint8_t *buffer, size_t buffer_size,
                            bootimg_result *answer);

uint32_t bootimg_compare_json(const uint8_t *one, size_t one_size, const uint8_t *other,
                              size_t other_size, uint32_t limit, uint32_t depth, uint8_t *buffer,
                              size_t buffer_size, bootimg_result *answer);

uint32_t bootimg_compare_ignoring_json(const uint8_t *one, size_t one_size, const uint8_t *other,
                                       size_t other_size, const uint8_t *input, size_t input_size,
                                       const bootimg_region *words, size_t words_count,
                                       uint32_t limit, uint32_t depth, uint8_t *buffer,
                                       size_t buffer_size, bootimg_result *answer);

uint32_t bootimg_compare_deep_json(const uint8_t *one, size_t one_size, const uint8_t *other,
                                   size_t other_size, const uint8_t *input, size_t input_size,
                                   const bootimg_region *words, size_t words_count,
                                   uint32_t limit, uint32_t depth, uint8_t *buffer,
                                   size_t buffer_size, bootimg_result *answer);

/* Writes the FIT that a legacy image is converted to. The call fails with BadMagic at 0 for a file
 * that is not a legacy image, for example a FIT; with NoCodeName at the offset of the first code
 * without a name, 28 to 31; with EmptyPart at 64 if there is no part; with TooManyParts at 64 if a
 * multi-file image has more than three parts or a script more than one; and with TooLarge if the
 * output is longer than `limit`. */
uint32_t bootimg_convert(const uint8_t *file, size_t file_size, uint32_t limit, uint32_t depth,
                         uint8_t *buffer, size_t buffer_size, bootimg_result *answer);

/* Writes the legacy image with these fields and parts. The name and the parts are regions of
 * `input`, which may be anywhere in it. What bootimg_legacy and bootimg_parts return of a file
 * builds its normal form, with the file as the input. If a region is not inside the input, the
 * status is BOOTIMG_WRONG_ARGUMENT. The call fails, with the offset in the image, with BadField at
 * 32 if the name is longer than 32 bytes or contains a zero byte; with BadField at 30 if there is
 * not exactly one part and the type is neither multi nor script; with TooLarge if the image is
 * longer than `limit`; and with EmptyPart at the size of the first empty part of a multi-file image
 * or script. */
uint32_t bootimg_build_legacy(const uint8_t *input, size_t input_size,
                              const bootimg_legacy_fields *fields, const bootimg_region *parts,
                              size_t parts_count, uint32_t limit, uint32_t depth, uint8_t *buffer,
                              size_t buffer_size, bootimg_result *answer);

/* Writes a FIT with these images, the SHA-256 of their payloads, and one configuration, `conf-1`,
 * which lists the images by their types. The tree, the images and the configuration get the
 * description. `time` is the time of creation, in seconds since 1970. If a region is not inside the
 * input, or `addresses` is not such a sum, the status is BOOTIMG_WRONG_ARGUMENT. The call fails
 * with TooLarge if there are more images than `limit`; with BadField at 0 if the description
 * contains a zero byte; for the images in order, at their index: with BadField if the name is empty
 * or contains a zero byte or a `/`, or the type is multi, with NoCodeName if a code has no name,
 * and with DuplicateNode if an earlier image has its name; and with TooLarge if the FIT is longer
 * than `limit`. */
uint32_t bootimg_build_fit(const uint8_t *input, size_t input_size, const uint8_t *description,
                           size_t description_size, uint32_t time,
                           const bootimg_build_image *images, size_t images_count, uint32_t form,
                           uint32_t limit, uint32_t depth, uint8_t *buffer, size_t buffer_size,
                           bootimg_result *answer);

/* Writes a FIT with these images, configurations and hash nodes. All names and texts are regions of
 * `input`, which may be anywhere in it.
 *
 * `texts` contains an element for each image, in the order of the images. Images without an element
 * get the names of their codes and the description of the tree, and elements without an image are
 * ignored. An image or a configuration without a description gets the one of the tree. A
 * configuration contains the property `compatible`, and the list of names under a key, if the range
 * is not empty. If there is no configuration, one, `conf-1`, lists the images by their types. Every
 * image gets a hash node for each of `algorithms`, which are BOOTIMG_ALGORITHM_*, in their order:
 * `hash-1`, `hash-2` and so on. Without texts, configurations and a default, and with
 * BOOTIMG_ALGORITHM_SHA256, the call writes the same FIT as bootimg_build_fit.
 *
 * The status is BOOTIMG_WRONG_ARGUMENT if a number is out of its range, a region is not inside the
 * input, or a range is not inside `lists`. The call fails with the first of these that applies:
 *
 *   TooLarge       There are more images, or more configurations, than `limit`.
 *   BadField       At 0: the description contains a zero byte.
 *   For the images in order, at their index:
 *   BadField       The name is empty or contains a zero byte or a `/`, or a text contains a zero
 *                  byte, or there are no texts and the type is multi.
 *   NoCodeName     There are no texts, and a code has no name.
 *   DuplicateNode  An earlier image has the name.
 *   For the configurations in order, at their index:
 *   BadField       The name is empty or contains a zero byte or a `/`, or it lists a name that no
 *                  image has.
 *   DuplicateNode  An earlier configuration has the name.
 *   After that:
 *   BadField       At the number of configurations: no configuration has the name of the default.
 *   BadField       At the index of the image: its own description contains a zero byte.
 *   BadField       At the index of the configuration: its own description, or one of its texts of
 *                  `compatible`, contains a zero byte.
 *   TooLarge       The FIT is longer than `limit`. */
uint32_t bootimg_build_fit_as(const uint8_t *input, size_t input_size,
                              const bootimg_build_options *options,
                              const bootimg_build_image *images, size_t images_count,
                              const bootimg_build_texts *texts, size_t texts_count,
                              const bootimg_build_configuration *configurations,
                              size_t configurations_count, const bootimg_region *lists,
                              size_t lists_count, const uint32_t *algorithms,
                              size_t algorithms_count, uint8_t *buffer, size_t buffer_size,
                              bootimg_result *answer);

/* Writes the name of a code, 0 to 255, of a field, one of BOOTIMG_CODE_OS to
 * BOOTIMG_CODE_COMPRESSION: the name that `bootimg build-legacy` takes. It is the name in
 * bootimg_list, if there is one. If the code has no name, the status is BOOTIMG_NOT_FOUND and
 * `reason` is BOOTIMG_NO_NAME. */
uint32_t bootimg_code_name(uint32_t field, uint32_t code, uint8_t *buffer, size_t buffer_size,
                           bootimg_result *answer);

/* Returns in `value` the code of a field that has the given name. The name is one that `bootimg
 * build-legacy` takes, and is not NUL-terminated. If no code has the name, the status is
 * BOOTIMG_NOT_FOUND and `reason` is BOOTIMG_NO_CODE. */
uint32_t bootimg_code_number(uint32_t field, const uint8_t *name, size_t name_size,
                             bootimg_result *answer);

/* Writes the name of the cause with the given number, 1 to 26, for example `Truncated`. The status
 * is BOOTIMG_WRONG_ARGUMENT for any other number. */
uint32_t bootimg_cause_name(uint32_t number, uint8_t *buffer, size_t buffer_size,
                            bootimg_result *answer);

/* Writes what the cause with the given number means, and what a user can do, as `bootimg explain`
 * does, but without a newline. The status is as for bootimg_cause_name. */
uint32_t bootimg_explain(uint32_t number, uint8_t *buffer, size_t buffer_size,
                         bootimg_result *answer);

/* Writes the version of the library. */
uint32_t bootimg_version(uint8_t *buffer, size_t buffer_size, bootimg_result *answer);

#ifdef __cplusplus
}
#endif

#endif
