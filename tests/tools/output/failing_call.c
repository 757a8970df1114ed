/* Loaded before the C library: the call that the environment variable FAILING_CALL names fails, as on a file system that is full. With
 * SUCCEEDING_CALLS this many calls of the name succeed first, and one fails after them. With KILLED the program is killed there. With
 * WRITES a line is appended to the file of this name for each write: the number of the file, and how many bytes were given. */
#define _GNU_SOURCE
#include <dlfcn.h>
#include <errno.h>
#include <fcntl.h>
#include <signal.h>
#include <stdio.h>
#include <stdlib.h>
#include <string.h>
#include <sys/stat.h>
#include <sys/types.h>
#include <unistd.h>

static int fails(const char *name)
{
    const char *failing = getenv("FAILING_CALL");
    if (failing == NULL || strcmp(failing, name) != 0) {
        return 0;
    }
    static int calls = 0;
    const char *succeeding = getenv("SUCCEEDING_CALLS");
    if (succeeding != NULL && calls++ != atoi(succeeding)) {
        return 0;
    }
    if (getenv("KILLED") != NULL) {
        raise(SIGKILL);
    }
    errno = ENOSPC;
    return 1;
}

/* A call that has these parameters, and these arguments. */
#define CALL(result, name, parameters, arguments) \
    result name parameters \
    { \
        result (*next) parameters = (result(*) parameters)dlsym(RTLD_NEXT, #name); \
        return fails(#name) ? -1 : next arguments; \
    }

static void record(int file, size_t size)
{
    const char *name = getenv("WRITES");
    FILE *writes = name == NULL ? NULL : fopen(name, "a");
    if (writes != NULL) {
        fprintf(writes, "%d %zu\n", file, size);
        fclose(writes);
    }
}

/* Standard error can be written. */
ssize_t write(int file, const void *bytes, size_t size)
{
    ssize_t (*next)(int, const void *, size_t) = (ssize_t(*)(int, const void *, size_t))dlsym(RTLD_NEXT, "write");
    record(file, size);
    return file > 2 && fails("write") ? -1 : next(file, bytes, size);
}

CALL(int, fsync, (int file), (file))
CALL(int, fchmod, (int file, mode_t mode), (file, mode))
CALL(int, rename, (const char *name, const char *new_name), (name, new_name))
CALL(int, renameat, (int from, const char *name, int to, const char *new_name), (from, name, to, new_name))
CALL(int, unlink, (const char *name), (name))
CALL(int, mkdir, (const char *name, mode_t mode), (name, mode))
CALL(int, mkdirat, (int at, const char *name, mode_t mode), (at, name, mode))
