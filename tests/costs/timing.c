/*
 * timing FILE ROUNDS: reads a file, and normalises it by the library this many times. Prints a line for each round: the seconds of a call
 * with a buffer of the right size, of one with no buffer, and of copying as many bytes.
 */
#define _POSIX_C_SOURCE 200809L
#include <bootimg.h>

#include <fcntl.h>
#include <stdio.h>
#include <stdlib.h>
#include <string.h>
#include <sys/stat.h>
#include <time.h>
#include <unistd.h>

static double now(void)
{
    struct timespec time;
    clock_gettime(CLOCK_MONOTONIC, &time);
    return (double)time.tv_sec + (double)time.tv_nsec / 1e9;
}

static uint32_t normalise(const uint8_t *file, size_t size, uint8_t *buffer, size_t room, bootimg_result *answer)
{
    return bootimg_normalise(file, size, BOOTIMG_EMBEDDED, BOOTIMG_LIMIT, BOOTIMG_DEPTH, buffer, room, answer);
}

int main(int count, char **words)
{
    struct stat status;
    bootimg_result answer, again;
    uint8_t *file, *buffer;
    size_t size, room, done = 0;
    int input = open(words[count - 2], O_RDONLY), rounds = atoi(words[count - 1]);
    if (input < 0 || fstat(input, &status) != 0)
        return 2;
    size = (size_t)status.st_size;
    room = size + 4096;
    file = malloc(size);
    buffer = malloc(room);
    if (file == NULL || buffer == NULL)
        return 2;
    while (done < size) {
        ssize_t some = read(input, file + done, size - done);
        if (some <= 0)
            return 2;
        done += (size_t)some;
    }
    memset(buffer, 0, room);
    while (rounds-- > 0) {
        double begin = now(), filled, counted, copied;
        if (normalise(file, size, buffer, room, &answer) != BOOTIMG_OK)
            return 2;
        filled = now();
        if (normalise(file, size, buffer, 0, &again) != BOOTIMG_NO_ROOM || again.size != answer.size)
            return 2;
        counted = now();
        memcpy(buffer, file, answer.size < size ? answer.size : size);
        copied = now();
        printf("%.6f %.6f %.6f\n", filled - begin, counted - filled, copied - counted);
    }
    return 0;
}
