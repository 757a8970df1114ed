/* Chooses names in a strings block whose hashes are close together.
 *
 *     chosen_offsets COUNT KEY < STRINGS
 *
 * Prints the offsets of COUNT names: those of all names of the block whose hashes come first in a table of 65,536 groups, in
 * ascending order of the groups. The hash of a name is SipHash-1-3 of KEY, which is 32 bytes in hexadecimal, then of eight zero
 * bytes, then of the name. Each name has fewer than 128 bytes. */
#include <stdint.h>
#include <stdio.h>
#include <stdlib.h>
#include <string.h>

static uint64_t turned(uint64_t word, int bits)
{
    return word << bits | word >> (64 - bits);
}

static void round_of(uint64_t v[4])
{
    v[0] += v[1];
    v[1] = turned(v[1], 13) ^ v[0];
    v[0] = turned(v[0], 32);
    v[2] += v[3];
    v[3] = turned(v[3], 16) ^ v[2];
    v[0] += v[3];
    v[3] = turned(v[3], 21) ^ v[0];
    v[2] += v[1];
    v[1] = turned(v[1], 17) ^ v[2];
    v[2] = turned(v[2], 32);
}

/* SipHash-1-3 under a key of zeros. */
static uint64_t hash(const uint8_t *bytes, size_t length)
{
    uint64_t v[4] = {0x736f6d6570736575, 0x646f72616e646f6d, 0x6c7967656e657261, 0x7465646279746573};
    uint8_t last[8] = {0};
    uint64_t word;
    size_t at = 0;

    for (; at + 8 <= length; at += 8) {
        memcpy(&word, bytes + at, 8);
        v[3] ^= word;
        round_of(v);
        v[0] ^= word;
    }
    memcpy(last, bytes + at, length - at);
    last[7] = (uint8_t)length;
    memcpy(&word, last, 8);
    v[3] ^= word;
    round_of(v);
    v[0] ^= word;
    v[2] ^= 0xff;
    round_of(v);
    round_of(v);
    round_of(v);
    return v[0] ^ v[1] ^ v[2] ^ v[3];
}

/* A group in the upper half, and an offset in the lower one. */
static int compare(const void *one, const void *other)
{
    uint64_t a = *(const uint64_t *)one, b = *(const uint64_t *)other;
    return (a > b) - (a < b);
}

int main(int count, char **words)
{
    static uint8_t strings[1 << 26];
    uint8_t message[40 + 128] = {0};
    size_t length = fread(strings, 1, sizeof strings, stdin);
    size_t wanted = count == 3 ? strtoul(words[1], NULL, 10) : 0;
    uint64_t *places = malloc((length + 1) * sizeof *places);
    size_t found = 0;

    for (int byte = 0; byte < 32 && count == 3; byte++)
        sscanf(words[2] + 2 * byte, "%2hhx", &message[byte]);
    for (size_t at = 0; at < length; at++) {
        const uint8_t *end = memchr(strings + at, 0, length - at);
        size_t name = end ? (size_t)(end - strings) - at : 0;
        if (name == 0 || name >= 128)
            continue;
        memcpy(message + 40, strings + at, name);
        uint64_t hashed = hash(message, 40 + name);
        places[found++] = (((hashed ^ hashed >> 32) & 0xffff) << 32) | at;
    }
    qsort(places, found, sizeof *places, compare);
    for (size_t index = 0; index < found && index < wanted; index++)
        printf("%u\n", (unsigned)places[index]);
    free(places);
    return 0;
}
