/* uas_xhci_work for a caller who lends copies alone. Before each step it asks what that lacks, copies the grains of the guest's memory that this
 * touches, and asks again; behind the step it writes back what the step wrote, or all where that isn't known. What would be more regions than a
 * call takes is copied whole instead; a range of which nothing more is there is left out. With WORK_OVER_COPIES every call of uas_xhci_work is one
 * of copied_work, and with WORK_BY_ASKING one of asked_work, which does the same by uas_xhci_work_asking. */
#ifndef COPIED_WORK_H
#define COPIED_WORK_H

#include "uas_xhci.h"
#include <stdlib.h>
#include <string.h>

/* Bytes of a grain, and how many ranges a step has room to note. */
enum { MOST_NOTED = 64 };
static uint64_t grain = 4096;
static size_t note_room = MOST_NOTED;

/* What the guest's processors do between a step over copies and what is written back. */
static void (*meanwhile)(void);

/* How many ranges were copied and how many bytes that were, how many ranges weren't there, how many steps had all, and of how many isn't known
 * what they wrote. */
static uint64_t ranges_copied, bytes_copied, ranges_absent, steps_crowded, steps_lost;

/* The guest's memory, and room for a copy of each region of it. */
static const struct uas_region *guest;
static size_t guest_regions;
static uint8_t *room[UAS_XHCI_REGIONS];
static size_t room_bytes[UAS_XHCI_REGIONS];

/* The bytes of a guest's region, from one place to another, that are copied. */
static struct run {
    size_t region, from, to;
} runs[UAS_XHCI_REGIONS];
static size_t run_count;

static void make_room(const struct uas_region *regions, size_t count)
{
    guest = regions;
    guest_regions = count;
    for (size_t i = 0; i < count; i++) {
        if (regions[i].length <= room_bytes[i])
            continue;
        room_bytes[i] = regions[i].length;
        if ((room[i] = realloc(room[i], room_bytes[i])) == NULL)
            abort();
    }
}

static bool is_copied(size_t region, size_t place)
{
    for (size_t i = 0; i < run_count; i++)
        if (runs[i].region == region && place >= runs[i].from && place < runs[i].to)
            return true;
    return false;
}

/* Copies all of the memory. */
static void copy_all(void)
{
    steps_crowded++;
    for (run_count = 0; run_count < guest_regions; run_count++) {
        memcpy(room[run_count], guest[run_count].bytes, guest[run_count].length);
        runs[run_count] = (struct run){ run_count, 0, guest[run_count].length };
    }
}

/* Copies a part of a region, which its neighbours take in; false where it would be one run too many. */
static bool copy_part(size_t region, size_t from, size_t to)
{
    size_t before = run_count, behind = run_count;
    memcpy(room[region] + from, guest[region].bytes + from, to - from);
    bytes_copied += to - from;
    for (size_t i = 0; i < run_count; i++) {
        if (runs[i].region == region && runs[i].to == from)
            before = i;
        if (runs[i].region == region && runs[i].from == to)
            behind = i;
    }
    if (before < run_count && behind < run_count) {
        runs[before].to = runs[behind].to;
        runs[behind] = runs[--run_count];
    } else if (before < run_count)
        runs[before].to = to;
    else if (behind < run_count)
        runs[behind].from = from;
    else if (run_count < UAS_XHCI_REGIONS)
        runs[run_count++] = (struct run){ region, from, to };
    else
        return false;
    return true;
}

/* Copies what is there of the grain from an address on: 1 where that is something new, 2 where it is a run too many, else 0. */
static int copy_grain(uint64_t first)
{
    int copied = 0;
    for (size_t i = 0; i < guest_regions; i++) {
        uint64_t from = first - guest[i].address, skipped = 0;
        if (from >= guest[i].length) {
            skipped = guest[i].address - first;
            from = 0;
        }
        if (skipped >= grain || is_copied(i, from))
            continue;
        uint64_t bytes = grain - skipped, left = guest[i].length - from;
        if (!copy_part(i, from, from + (bytes < left ? bytes : left)))
            return 2;
        copied = 1;
    }
    return copied;
}

/* Copies what is there of a range: whether that is something new. Addresses wrap. */
static bool copy_range(const struct uas_range *range)
{
    bool some = false;
    for (uint64_t at = 0; at < range->length; at += grain - (range->address + at) % grain) {
        int copied = copy_grain((range->address + at) / grain * grain);
        if (copied == 2) {
            copy_all();
            return true;
        }
        some |= copied == 1;
    }
    if (some)
        ranges_copied++;
    else
        ranges_absent++;
    return some;
}

/* The copies, as regions. */
static void lend_runs(struct uas_region *lent)
{
    for (size_t i = 0; i < run_count; i++) {
        const struct run *run = &runs[i];
        lent[i] = (struct uas_region){ guest[run->region].address + run->from, room[run->region] + run->from, run->to - run->from };
    }
}

/* Writes back what a run has of a range. */
static void put_back(const struct run *run, const struct uas_range *range)
{
    uint64_t from = range->address - (guest[run->region].address + run->from), bytes = run->to - run->from, skipped = 0;
    if (from >= bytes) {
        skipped = -from;
        from = 0;
    }
    if (skipped >= range->length)
        return;
    bytes = bytes - from < range->length - skipped ? bytes - from : range->length - skipped;
    memcpy(guest[run->region].bytes + run->from + from, room[run->region] + run->from + from, bytes);
}

/* Beside what was written a copy may be older than what the guest has there by now. */
static void write_back(const struct uas_xhci_turn *turn, const struct uas_range *written)
{
    steps_lost += turn->lost;
    for (size_t i = 0; i < run_count; i++) {
        struct uas_range all = { guest[runs[i].region].address + runs[i].from, runs[i].to - runs[i].from };
        for (size_t k = 0; k < turn->noted && turn->lost == 0; k++)
            put_back(&runs[i], &written[k]);
        if (turn->lost != 0)
            put_back(&runs[i], &all);
    }
}

/* One step over copies of what it asks for. */
static inline uint8_t copied_step(uas_xhci *xhci, uint32_t *steps, bool *more)
{
    struct uas_region lent[UAS_XHCI_REGIONS];
    struct uas_range wanted, written[MOST_NOTED];
    struct uas_xhci_turn turn = { .budget = 1 };
    uint8_t fault = UAS_OK;
    run_count = 0;
    do {
        lend_runs(lent);
        fault = uas_xhci_wants(xhci, lent, run_count, &wanted);
    } while (fault == UAS_OK && wanted.length > 0 && copy_range(&wanted));
    if (fault == UAS_OK)
        fault = uas_xhci_work_noting(xhci, lent, run_count, &turn, written, note_room);
    if (fault != UAS_OK)
        return fault;
    if (meanwhile != NULL)
        meanwhile();
    write_back(&turn, written);
    *steps = turn.steps;
    *more = turn.more != 0;
    return UAS_OK;
}

static inline uint8_t copied_work(uas_xhci *xhci, const struct uas_region *regions, size_t count, uint32_t budget, uint32_t *steps, bool *more)
{
    uint32_t taken = 1;
    make_room(regions, count);
    for (*steps = 0; *steps < budget && taken > 0; *steps += taken) {
        uint8_t fault = copied_step(xhci, &taken, more);
        if (fault != UAS_OK)
            return fault;
    }
    return UAS_OK;
}

/* Goes on with steps up to the first that lacks memory. */
static inline uint8_t take_asking(uas_xhci *xhci, struct uas_xhci_turn *turn, struct uas_range *wanted)
{
    struct uas_region lent[UAS_XHCI_REGIONS];
    struct uas_range written[MOST_NOTED];
    lend_runs(lent);
    uint8_t fault = uas_xhci_work_asking(xhci, lent, run_count, turn, written, note_room, wanted);
    if (fault == UAS_OK)
        write_back(turn, written);
    if (fault == UAS_OK && wanted->length > 0 && turn->more != 1)
        abort();
    return fault;
}

/* A step without what the guest lacks too. */
static inline uint8_t step_without(uas_xhci *xhci, struct uas_xhci_turn *turn)
{
    struct uas_region lent[UAS_XHCI_REGIONS];
    struct uas_range written[MOST_NOTED];
    lend_runs(lent);
    uint8_t fault = uas_xhci_work_noting(xhci, lent, run_count, turn, written, note_room);
    if (fault == UAS_OK)
        write_back(turn, written);
    return fault;
}

static inline uint8_t asked_work(uas_xhci *xhci, const struct uas_region *regions, size_t count, uint32_t budget, uint32_t *steps, bool *more)
{
    make_room(regions, count);
    run_count = 0;
    *steps = 0;
    for (*more = true; *more && *steps < budget;) {
        struct uas_xhci_turn turn = { .budget = budget - *steps }, without = { .budget = 1 };
        struct uas_range wanted = { 0, 0 };
        uint8_t fault = take_asking(xhci, &turn, &wanted);
        bool is_lacking = fault == UAS_OK && wanted.length > 0 && !copy_range(&wanted);
        if (is_lacking)
            fault = step_without(xhci, &without);
        if (fault != UAS_OK)
            return fault;
        *steps += turn.steps + without.steps;
        *more = is_lacking ? without.more != 0 : turn.more != 0;
    }
    return UAS_OK;
}

#ifdef WORK_OVER_COPIES
#define uas_xhci_work copied_work
#endif
#ifdef WORK_BY_ASKING
#define uas_xhci_work asked_work
#endif

#endif
