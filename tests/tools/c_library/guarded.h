/* Memory that ends where that does which may be touched, files in it, and checks. A failed check ends the program with status 3. */
#include <fcntl.h>
#include <stdint.h>
#include <stdio.h>
#include <stdlib.h>
#include <string.h>
#include <sys/mman.h>
#include <sys/stat.h>
#include <unistd.h>

#define CHECK(condition) \
    do { \
        if (!(condition)) { \
            fprintf(stderr, "%s:%d: %s\n", __FILE__, __LINE__, #condition); \
            exit(3); \
        } \
    } while (0)

struct memory {
    uint8_t *bytes;
    size_t size;
    void *map;
    size_t map_size;
};

/* Memory of this size. The page after it, and the one before, may not be touched. */
static struct memory take(size_t size)
{
    const size_t page = 4096;
    struct memory memory;
    size_t pages = (size + page - 1) / page + 1;
    memory.map_size = (pages + 2) * page;
    memory.map = mmap(NULL, memory.map_size, PROT_READ | PROT_WRITE, MAP_PRIVATE | MAP_ANONYMOUS, -1, 0);
    CHECK(memory.map != MAP_FAILED);
    CHECK(mprotect(memory.map, page, PROT_NONE) == 0);
    CHECK(mprotect((char *)memory.map + memory.map_size - page, page, PROT_NONE) == 0);
    memory.bytes = (uint8_t *)memory.map + memory.map_size - page - size;
    memory.size = size;
    return memory;
}

static void give_back(struct memory memory)
{
    CHECK(munmap(memory.map, memory.map_size) == 0);
}

/* Whether all of these bytes are 0xa5. */
static __attribute__((unused)) int is_unchanged(const uint8_t *bytes, size_t size)
{
    for (size_t i = 0; i < size; i++)
        if (bytes[i] != 0xa5)
            return 0;
    return 1;
}

/* The bytes of a file, which may not be changed. */
static __attribute__((unused)) struct memory read_file(const char *path)
{
    struct stat status;
    struct memory memory;
    size_t done = 0;
    int file = open(path, O_RDONLY);
    CHECK(file >= 0);
    CHECK(fstat(file, &status) == 0);
    memory = take((size_t)status.st_size);
    while (done < memory.size) {
        ssize_t count = read(file, memory.bytes + done, memory.size - done);
        CHECK(count > 0);
        done += (size_t)count;
    }
    CHECK(close(file) == 0);
    CHECK(mprotect((char *)memory.map + 4096, memory.map_size - 2 * 4096, PROT_READ) == 0);
    return memory;
}
