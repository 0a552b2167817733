/* SPDX-License-Identifier: Apache-2.0 */
/* Pieces of a region, free and taken. A piece is a head of 16 bytes and what stands behind it; free ones are in a list by rising address, and
 * two that touch are one. The first that is large enough is taken. */
#include "region.h"
#include <stdint.h>
#include <string.h>

enum { UNIT = 16 };

struct head {
    size_t units; /* of the piece, its head among them */
    struct head *next;
};
_Static_assert(sizeof(struct head) <= UNIT, "a head fits a unit");

static struct head *first;
static size_t used, most;

static struct head *behind(struct head *piece, size_t units)
{
    return (struct head *)((unsigned char *)piece + units * UNIT);
}

void region_begin(void *start, size_t size)
{
    const size_t gap = -(uintptr_t)start & (UNIT - 1);
    first = NULL;
    used = most = 0;
    if (size < gap + 2 * UNIT)
        return;
    first = (struct head *)((unsigned char *)start + gap);
    *first = (struct head){ .units = (size - gap) / UNIT };
}

size_t region_most(void)
{
    return most;
}

void *malloc(size_t size)
{
    struct head **place = &first, *piece;
    if (size > SIZE_MAX - 2 * UNIT)
        return NULL;
    const size_t units = (size + UNIT - 1) / UNIT + 1;
    while (*place && (*place)->units < units)
        place = &(*place)->next;
    piece = *place;
    if (!piece)
        return NULL;
    if (piece->units > units) {
        struct head *rest = behind(piece, units);
        *rest = (struct head){ .units = piece->units - units, .next = piece->next };
        *place = rest;
    } else {
        *place = piece->next;
    }
    *piece = (struct head){ .units = units };
    used += units * UNIT;
    if (used > most)
        most = used;
    return behind(piece, 1);
}

void free(void *old)
{
    struct head *piece, *before = NULL, **place = &first;
    if (!old)
        return;
    piece = (struct head *)((unsigned char *)old - UNIT);
    used -= piece->units * UNIT;
    while (*place && *place < piece) {
        before = *place;
        place = &before->next;
    }
    piece->next = *place;
    *place = piece;
    if (piece->next && behind(piece, piece->units) == piece->next) {
        piece->units += piece->next->units;
        piece->next = piece->next->next;
    }
    if (before && behind(before, before->units) == piece) {
        before->units += piece->units;
        before->next = piece->next;
    }
}

void *realloc(void *old, size_t size)
{
    void *now;
    if (!old)
        return malloc(size);
    const struct head *piece = (const struct head *)((const unsigned char *)old - UNIT);
    const size_t there = (piece->units - 1) * UNIT;
    if (size <= there)
        return old;
    now = malloc(size);
    if (now) {
        memcpy(now, old, there);
        free(old);
    }
    return now;
}
