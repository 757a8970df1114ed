/*
 * The functions in C that the program calls and that the kit has only for x86-64: ./package compiles them for other processors. They do
 * what the kit declares of them (rattle/libc/src/heap.rt and rattle/os/src/c.rt). Nothing proves C code: tests/tools/package.sh tries
 * these with the program.
 */
#include <errno.h>
#include <stddef.h>
#include <stdint.h>
#include <stdlib.h>
#include <string.h>
#include <sys/types.h>

/* The result of an allocation: 1 and the address, or 0 and an address that is never read. */
struct tried {
    uint64_t ok;
    void *address;
};

static struct tried tried(void *address)
{
    static max_align_t nothing;
    return (struct tried){address != NULL, address != NULL ? address : &nothing};
}

/* Allocates memory of this size. The alignment is at most that of malloc. No address is that of a block of size 0. */
struct tried rattle_alloc(size_t size, size_t alignment)
{
    return tried(malloc(size != 0 ? size : alignment));
}

/* Gives a block another size, and keeps its first bytes. If that fails, the block is as it was. */
struct tried rattle_realloc(void *block, size_t kept, size_t size, size_t alignment)
{
    (void)kept;
    return tried(realloc(block, size != 0 ? size : alignment));
}

void rattle_dealloc(void *block)
{
    free(block);
}

int rattle_errno(void)
{
    return errno;
}

void rattle_set_errno(int error)
{
    errno = error;
}

/* The arguments of the program, which glibc passes to the functions that it calls before `main`. */
static int argument_count;
static char **arguments;

static void keep_arguments(int count, char **words)
{
    argument_count = count;
    arguments = words;
}

__attribute__((section(".init_array"), used)) static void (*const before_main)(int, char **) = keep_arguments;

/* Writes an argument to the start of the buffer and returns its length, or -1 if there is no such argument. If it is longer than the
 * buffer, fills the buffer and returns -2. */
ssize_t rattle_arg(size_t index, uint8_t *buffer, size_t buffer_size)
{
    size_t length;
    if (index >= (size_t)argument_count)
        return -1;
    length = strlen(arguments[index]);
    memcpy(buffer, arguments[index], length < buffer_size ? length : buffer_size);
    return length <= buffer_size ? (ssize_t)length : -2;
}
