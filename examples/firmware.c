/* SPDX-License-Identifier: Apache-2.0 */
/* A program without a C library, as firmware is: it gives the library a region of memory, and asks a disk for its capacity. Its last line
 * tells how much of the region was in use at most.
 *
 *   cc -ffreestanding -fno-stack-protector -nostdlib -static -Iinclude examples/firmware.c examples/region.c $(bindings/archive device) -o firmware && ./firmware */
#include "region.h"
#include "uas.h"

enum { TAG = 1 };

static unsigned char memory[640 << 10];

/* The four functions beside the region's that the library calls. A compiler must not make calls of them out of their own loops. */
#if defined __GNUC__ && !defined __clang__
#pragma GCC optimize("no-tree-loop-distribute-patterns")
#endif

void *memcpy(void *restrict to, const void *restrict from, size_t size)
{
    unsigned char *at = to;
    for (const unsigned char *it = from; size--;)
        *at++ = *it++;
    return to;
}

void *memmove(void *to, const void *from, size_t size)
{
    if ((unsigned char *)to <= (const unsigned char *)from)
        return memcpy(to, from, size);
    while (size--)
        ((unsigned char *)to)[size] = ((const unsigned char *)from)[size];
    return to;
}

void *memset(void *to, int value, size_t size)
{
    for (unsigned char *at = to; size--;)
        *at++ = (unsigned char)value;
    return to;
}

int memcmp(const void *one, const void *other, size_t size)
{
    const unsigned char *a = one, *b = other;
    for (; size--; a++, b++)
        if (*a != *b)
            return *a - *b;
    return 0;
}

/* The two services of the system that it uses: a line is told, and the program ends. */
static long system_call(long number, long one, const void *two, long three)
{
    long told;
    __asm__ volatile("syscall" : "=a"(told) : "a"(number), "D"(one), "S"(two), "d"(three) : "rcx", "r11", "memory");
    return told;
}

static void tell(const char *name, const uint8_t *bytes, size_t length)
{
    static const char digits[] = "0123456789abcdef";
    char line[80];
    size_t at = 0;
    while (*name)
        line[at++] = *name++;
    for (size_t i = 0; i < length && at + 4 < sizeof line; i++) {
        line[at++] = ' ';
        line[at++] = digits[bytes[i] >> 4];
        line[at++] = digits[bytes[i] & 15];
    }
    line[at++] = '\n';
    system_call(1, 1, line, (long)at);
}

/* READ CAPACITY(10) on the device alone: its information unit goes in, data and answer come out. */
static bool read_capacity(uas_device *device, uint8_t data[8])
{
    const struct uas_unit unit = { .id = UAS_UNIT_COMMAND, .tag = TAG, .cdb = { UAS_READ_CAPACITY_10 } };
    uint8_t bytes[UAS_MOST_UNIT_BYTES];
    size_t length;
    uint16_t tag;
    bool good;
    return uas_unit_write(&unit, bytes, sizeof bytes, &length) == 0 && uas_device_receive(device, bytes, length, &tag) == 0 && tag == TAG &&
           uas_device_give(device, TAG, data, 8, &good) == 0 && good && uas_device_sent(device, TAG) == 0;
}

static int run(void)
{
    const uint32_t blocks = 100;
    uint8_t data[8] = { 0 };
    uas_device *device;
    region_begin(memory, sizeof memory);
    if (uas_device_new(&blocks, 1, &device) != 0 || !read_capacity(device, data))
        return 1;
    tell("capacity", data, sizeof data);
    uas_device_free(device);
    const size_t kib = (region_most() + 1023) >> 10;
    const uint8_t most[] = { (uint8_t)(kib >> 8), (uint8_t)kib };
    tell("most KiB in use", most, sizeof most);
    return 0;
}

/* The stack is aligned as a call leaves it. */
__attribute__((force_align_arg_pointer, noreturn)) void _start(void)
{
    system_call(60, run(), NULL, 0);
    __builtin_unreachable();
}
