/* SPDX-License-Identifier: Apache-2.0 */
/* uefi.h: what block_uefi.c needs of firmware, as an application for x86-64 without a C library: the functions on memory that the library and the
 * compiler call, lines on the console, the time, and times without interrupts. For one file alone, since it has the functions themselves. */
#ifndef UEFI_H
#define UEFI_H

#include <efi.h>
#include <stdbool.h>
#include <stddef.h>
#include <stdint.h>

static EFI_SYSTEM_TABLE *uefi;
static EFI_BOOT_SERVICES *boot;

/* ---- The four functions beside the region's that the library calls ---- */

void *memcpy(void *restrict to, const void *restrict from, size_t size)
{
    void *at = to;
    __asm__ volatile("rep movsb" : "+D"(at), "+S"(from), "+c"(size) : : "memory");
    return to;
}

void *memmove(void *to, const void *from, size_t size)
{
    if ((uintptr_t)to - (uintptr_t)from >= size)
        return memcpy(to, from, size);
    while (size-- > 0)
        ((volatile unsigned char *)to)[size] = ((const unsigned char *)from)[size];
    return to;
}

void *memset(void *to, int value, size_t size)
{
    void *at = to;
    __asm__ volatile("rep stosb" : "+D"(at), "+c"(size) : "a"(value) : "memory");
    return to;
}

int memcmp(const void *one, const void *other, size_t size)
{
    const unsigned char *a = one, *b = other;
    for (; size > 0; size--, a++, b++)
        if (*a != *b)
            return *a - *b;
    return 0;
}

/* ---- Lines on the console ---- */

static CHAR16 line[256];
static UINTN line_length;

static void put(const char *text)
{
    while (*text != '\0' && line_length < sizeof line / sizeof line[0] - 3)
        line[line_length++] = (CHAR16)*text++;
}

static void put_digits(uint64_t number, unsigned base, unsigned least)
{
    char digits[24];
    unsigned at = sizeof digits - 1;
    digits[at] = '\0';
    for (; number > 0 || least > 0; number /= base, least -= least > 0)
        digits[--at] = "0123456789abcdef"[number % base];
    put(digits + at);
}

static void put_number(const char *before, uint64_t number, const char *behind)
{
    put(before);
    put_digits(number, 10, 1);
    put(behind);
}

static void end_line(void)
{
    line[line_length++] = '\r';
    line[line_length++] = '\n';
    line[line_length] = 0;
    uefi->ConOut->OutputString(uefi->ConOut, line);
    line_length = 0;
}

/* Tells a reason, and what is behind it: a name, or where there is none the status. */
static EFI_STATUS fail(const char *reason, const char *name, EFI_STATUS status)
{
    put("block_uefi: failed: ");
    put(reason);
    put(", ");
    if (name != NULL)
        put(name);
    else
        put_digits(status, 16, 1);
    end_line();
    return status;
}

/* ---- Time, interrupts, handles ---- */

static uint64_t began, ticks_in_ms;

/* In ms from `begin_time` on. */
static uint64_t time_now(void)
{
    return (__builtin_ia32_rdtsc() - began) / ticks_in_ms;
}

/* Counts the ticks of the time stamp counter in a ms. */
static void begin_time(void)
{
    enum { MS = 10 };
    began = __builtin_ia32_rdtsc();
    boot->Stall(MS * 1000);
    ticks_in_ms = (__builtin_ia32_rdtsc() - began) / MS;
    if (ticks_in_ms == 0)
        ticks_in_ms = 1;
}

/* From here to `leave` no interrupt comes. */
static EFI_TPL enter(void)
{
    return boot->RaiseTPL(TPL_HIGH_LEVEL);
}

static void leave(EFI_TPL level)
{
    boot->RestoreTPL(level);
}

static UINTN count_of(EFI_GUID *protocol)
{
    EFI_HANDLE *handles;
    UINTN count = 0;
    if (boot->LocateHandleBuffer(ByProtocol, protocol, NULL, &count, &handles) != EFI_SUCCESS)
        return 0;
    boot->FreePool(handles);
    return count;
}

#endif
