/*
 * The heap of the page: the functions by which the library allocates, for a WebAssembly module without a C library. No proof covers
 * this file. The declarations that it follows are those of the kit, in rattle/libc/src/heap.rt.
 *
 * A block has a header of 16 bytes, which holds the number of its class, and then the bytes that are given out, at a multiple of 16.
 * All blocks of a class have the same size. There are four classes to each doubling of the size, so less than a fifth of a large block
 * is unused. A block that is freed goes to the list of its class. Memory is never given back: the page makes a new instance for each
 * file.
 */
typedef __SIZE_TYPE__ size;

enum { HEADER = 16, PAGE = 65536, CLASSES = 128 };

/* The largest block: more than the memory of 32 bits can have. */
#define LARGEST ((size)1 << 33)

struct block {
    size class;
    struct block *next;
};

/* Whether an allocation succeeded, and its first byte. */
struct tried {
    size ok;
    void *bytes;
};

extern char __heap_base[];

static struct block *free_blocks[CLASSES];
/* The end of the last block. 0 before the first. */
static size top;
/* Where a failed allocation points to. */
static _Alignas(16) char nothing[16];

static size size_of_class(size class)
{
    return (4 + class % 4) << (4 + class / 4);
}

/* The class of the smallest blocks of at least this size. */
static size class_of(size wanted)
{
    size last = (wanted - 1) / 16;
    if (last < 4)
        return 0;
    size doublings = 61 - __builtin_clzl(last);
    return 4 * doublings + (last >> doublings) - 3;
}

/* Extends the memory so that it has this many bytes. Returns whether it has. The result of memory.grow does not tell this: after the
 * module is lowered to a memory of 32 bits, that of a failure is no longer -1. */
static int reserve(size end)
{
    size pages = (end + PAGE - 1) / PAGE;
    size present = __builtin_wasm_memory_size(0);
    if (pages > present)
        __builtin_wasm_memory_grow(0, pages - present);
    return pages <= __builtin_wasm_memory_size(0);
}

/* A block of a class, from its list or after the last block. 0 if the memory does not suffice. */
static struct block *take(size class)
{
    struct block *block = free_blocks[class];
    if (block) {
        free_blocks[class] = block->next;
        return block;
    }
    size start = top ? top : ((size)__heap_base + 15) / 16 * 16;
    size end = start + size_of_class(class);
    if (!reserve(end))
        return 0;
    top = end;
    block = (struct block *)start;
    block->class = class;
    return block;
}

static struct block *block_of(void *bytes)
{
    return (struct block *)((char *)bytes - HEADER);
}

static void *allocate(size wanted)
{
    if (wanted > LARGEST)
        return 0;
    struct block *block = take(class_of(wanted + HEADER));
    return block ? (char *)block + HEADER : 0;
}

static struct tried result(void *bytes)
{
    return (struct tried){bytes != 0, bytes ? bytes : nothing};
}

/* For the library. An alignment divides 16, so each block has it. */

struct tried rattle_alloc(size wanted, size alignment)
{
    (void)alignment;
    return result(allocate(wanted));
}

void rattle_dealloc(void *bytes)
{
    struct block *block = block_of(bytes);
    block->next = free_blocks[block->class];
    free_blocks[block->class] = block;
}

struct tried rattle_realloc(void *bytes, size kept, size wanted, size alignment)
{
    (void)alignment;
    if (wanted <= LARGEST && class_of(wanted + HEADER) == block_of(bytes)->class)
        return result(bytes);
    void *moved = allocate(wanted);
    if (moved) {
        __builtin_memcpy(moved, bytes, kept < wanted ? kept : wanted);
        rattle_dealloc(bytes);
    }
    return result(moved);
}

/* For the page: memory for a file, a buffer or an answer. 0 if the memory does not suffice. */

__attribute__((export_name("page_alloc"))) void *page_alloc(size wanted)
{
    return allocate(wanted);
}

__attribute__((export_name("page_free"))) void page_free(void *bytes)
{
    rattle_dealloc(bytes);
}
