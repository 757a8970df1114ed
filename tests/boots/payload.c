/*
 * A payload that U-Boot starts on qemu's machine `virt` with a processor of 64 bits. A text follows it, 64 KiB after its first byte.
 *
 * Its first byte is the entry point of a standalone program, which prints the text and returns to U-Boot. The entry point of a kernel
 * is four bytes later. It prints the text, the model in the devicetree that U-Boot passes, and the text in the ramdisk that this
 * devicetree names. Then it switches the machine off.
 *
 * It runs at any address. It needs no stack as a program, since it has that of U-Boot, and as a kernel the memory before its first
 * byte.
 */
#include <stdint.h>

__asm__(".pushsection .start, \"ax\"\n"
        "program: b run_program\n"
        "kernel: adr x9, program\n"
        "mov sp, x9\n"
        "b run_kernel\n"
        ".popsection");

extern const char program[];

/* The serial port, a PL011. */
static volatile uint32_t *const data = (volatile uint32_t *)0x09000000;
static volatile uint32_t *const flags = (volatile uint32_t *)0x09000018;
static const uint32_t is_full = 0x20;

static void print(const char *text)
{
    for (; *text; text++) {
        while (*flags & is_full)
            ;
        *data = (uint8_t)*text;
    }
}

int run_program(void)
{
    print(program + 0x10000);
    return 0;
}

static uint32_t cell(const char *bytes)
{
    const uint8_t *at = (const uint8_t *)bytes;
    return (uint32_t)at[0] << 24 | (uint32_t)at[1] << 16 | (uint32_t)at[2] << 8 | at[3];
}

static const char *end_of(const char *text)
{
    while (*text)
        text++;
    return text + 1;
}

static int is_same(const char *one, const char *other)
{
    while (*one && *one == *other) {
        one++;
        other++;
    }
    return *one == *other;
}

/* The value of the first property of this name in a devicetree blob, or null. */
static const char *find_value(const char *blob, const char *name)
{
    enum { BEGIN_NODE = 1, PROPERTY = 3, END = 9 };
    const char *at = blob + cell(blob + 8), *names = blob + cell(blob + 12);
    while (cell(at) != END) {
        uint32_t token = cell(at);
        at += 4;
        if (token == PROPERTY) {
            if (is_same(names + cell(at + 4), name))
                return at + 8;
            at += 8 + cell(at);
        } else if (token == BEGIN_NODE) {
            at = end_of(at);
        }
        at = blob + ((at - blob + 3) & ~(intptr_t)3);
    }
    return 0;
}

static void switch_off(void)
{
    register uint64_t system_off __asm__("x0") = 0x84000008;
    __asm__ volatile("hvc #0" : "+r"(system_off));
}

void run_kernel(const char *devicetree)
{
    const char *model = find_value(devicetree, "model");
    const char *ramdisk = find_value(devicetree, "linux,initrd-start");
    print(program + 0x10000);
    if (model) {
        print(model);
        print("\n");
    }
    if (ramdisk)
        print((const char *)((uint64_t)cell(ramdisk) << 32 | cell(ramdisk + 4)));
    switch_off();
}
