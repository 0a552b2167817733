/* A driver of uas_block.h in front of a controller of uas_xhci.h, in one process: registers, memory, time, and the blocks of the disk. An access
 * outside the registers or the lent memory ends the program. Where `wide` is set a shim stands between them, by which the controller has contexts
 * of 64 bytes, scratchpads, and a temper: it says of an endpoint that it stopped that it couldn't. */
#ifndef UAS_TESTS_BLOCK_RIG_H
#define UAS_TESTS_BLOCK_RIG_H

#include "uas_block.h"
#include "uas_xhci.h"
#include <inttypes.h>
#include <stdio.h>
#include <stdlib.h>
#include <string.h>

enum { BASE = 0x10000000, ARENA = 0x40000, TAGS = 15, DEPTH = TAGS - 1, ROOM = 0x20000, BYTES = ARENA + TAGS * ROOM };
enum { BLOCKS = 1000, BLOCK = 512, ASKED = 64 };

static uint8_t memory[BYTES], disk[BLOCKS * BLOCK], buffer[UAS_BLOCK_LOAD_BYTES];
static bool bad[BLOCKS];
static uas_xhci *xhci;
static uas_block *block;
static uint64_t milliseconds, seed = 1, accesses;
static uint32_t lent; /* bytes of the arena */
static struct uas_block_state state;

/* Requests that the disk's medium hasn't answered. */
static struct uas_request asked[ASKED];
static size_t asks;
static bool is_silent;

static uint64_t drawn(void)
{
    seed ^= seed << 13;
    seed ^= seed >> 7;
    seed ^= seed << 17;
    return seed;
}

static uint32_t below(uint32_t most)
{
    return (uint32_t)((drawn() >> 16) % most);
}

static _Noreturn void fail(const char *what, uint64_t number)
{
    fprintf(stderr, "%s: %" PRIx64 " (access %" PRIu64 ", state %u)\n", what, number, accesses, state.state);
    exit(1);
}

static void must(bool good, const char *what, uint64_t number)
{
    if (!good)
        fail(what, number);
}

/* ---- The shim ---- */

/* The driver's contexts have 64 bytes (CSZ), the controller's have 32 and stand at the same addresses, in bytes that the driver doesn't see. */
enum { INPUT = 0x1000, DEVICE = 0x2000, EVENTS = 0x8000, EVENT_BYTES = 0x8000, CONTEXTS = 0x2000, NARROW = 32, WIDE = 64, OF_DEVICE = 32, SCRATCHPADS = 5, PAGE = 4096 };
static bool wide;
static uint64_t tempers;
static uint8_t narrow[CONTEXTS];

static uint32_t as_wide(uint32_t offset, uint32_t value)
{
    if (wide && offset == 0x08)
        return value | (uint32_t)SCRATCHPADS << 27; /* HCSPARAMS2 */
    return wide && offset == 0x10 ? value | 4 : value; /* HCCPARAMS1 */
}

static uint8_t type_at(uint64_t offset)
{
    return memory[offset + 13] >> 2;
}

static uint64_t pointer_at(uint64_t offset)
{
    uint64_t pointer;
    memcpy(&pointer, memory + offset, 8);
    return pointer;
}

/* Each scratchpad is a page of the lent memory's own, behind all else (4.20). */
static void look_at_scratchpads(void)
{
    uint64_t list = pointer_at(0), last = list + PAGE;
    must(list % WIDE == 0 && list >= BASE && list + 8 * SCRATCHPADS <= BASE + (uint64_t)lent, "no list of scratchpads", list);
    for (uint32_t i = 0; i < SCRATCHPADS; i++) {
        uint64_t page = pointer_at(list - BASE + 8 * i);
        must(page % PAGE == 0 && page >= last && page + PAGE <= BASE + (uint64_t)lent, "no scratchpad", page);
        last = page + PAGE;
    }
}

static void to_controller(void)
{
    if ((uas_xhci_read(xhci, 0x40, 4) & 1) != 0) /* USBCMD.R/S */
        look_at_scratchpads();
    for (uint32_t i = 0; i <= OF_DEVICE; i++)
        memcpy(narrow + NARROW * i, memory + INPUT + WIDE * i, NARROW);
}

static void to_driver(void)
{
    for (uint32_t i = 0; i < OF_DEVICE; i++)
        memcpy(memory + DEVICE + WIDE * i, narrow + (DEVICE - INPUT) + NARROW * i, NARROW);
}

/* The event of a Stop Endpoint, told with Context State Error in place of Success. */
static void temper(uint64_t at, uint8_t *bytes, uint32_t length)
{
    uint64_t event = at / 16 * 16, code = event + 11;
    if (at < EVENTS || at >= EVENTS + EVENT_BYTES || code < at || code >= at + length || type_at(event) != 33)
        return;
    uint64_t command = pointer_at(event) - BASE;
    if (command < ARENA && type_at(command) == 15 && bytes[code - at] == 1 && below(2) == 0) {
        bytes[code - at] = 19;
        tempers++;
    }
}

/* ---- The driver's side ---- */

static void must_be_register(uint32_t offset)
{
    must(offset <= UAS_XHCI_REGISTER_BYTES - 4 && offset % 4 == 0, "a register that isn't there", offset);
}

static uint8_t *arena(uint64_t address, uint32_t length)
{
    must(address >= BASE && length <= lent && address - BASE <= lent - length, "memory that wasn't lent", address);
    return memory + (address - BASE);
}

static uint32_t read32(void *context, uint32_t offset)
{
    (void)context;
    must_be_register(offset);
    return as_wide(offset, (uint32_t)uas_xhci_read(xhci, offset, 4));
}

static void write32(void *context, uint32_t offset, uint32_t value)
{
    (void)context;
    must_be_register(offset);
    uas_xhci_write(xhci, offset, 4, value);
}

static void load(void *context, uint64_t address, uint8_t *bytes, uint32_t length)
{
    (void)context;
    must(length > 0 && length <= UAS_BLOCK_LOAD_BYTES, "a load of so many bytes", length);
    memcpy(bytes, arena(address, length), length);
    if (wide)
        temper(address - BASE, bytes, length);
}

static void store(void *context, uint64_t address, const uint8_t *bytes, uint32_t length)
{
    (void)context;
    memcpy(arena(address, length), bytes, length);
}

static uint64_t now(void *context)
{
    (void)context;
    accesses++;
    if (wide && accesses % 64 == 0) /* a driver that tries again does so for a time */
        milliseconds++;
    return milliseconds;
}

static const struct uas_block_user user = { NULL, read32, write32, load, store, now, buffer };

static void look(void)
{
    must(uas_block_state(block, &state) == UAS_OK, "no state", 0);
}

static void lend(void)
{
    must(uas_block_lend(block, BASE + 512) == UAS_BLOCK_ALIGNMENT, "memory anywhere is taken", 0);
    must(state.bytes <= ARENA, "so much memory is wanted", state.bytes);
    must(uas_block_lend(block, BASE) == UAS_OK, "memory isn't taken", state.bytes);
    must(uas_block_lend(block, BASE) == UAS_BLOCK_NOT_ASKED, "memory is taken twice", 0);
    lent = state.bytes;
}

/* ---- The controller's side ---- */

static void begin(uint8_t tags)
{
    const struct uas_tasks_unit unit = { BLOCKS, 1, BLOCK };
    const struct uas_block_options options = {
        .bar_bytes = UAS_XHCI_REGISTER_BYTES, .tags = tags, .trbs = 31, .address_bits = 64
    };
    must(uas_xhci_new(&unit, 1, UAS_SET_HOST, 128, 8, &xhci) == UAS_OK, "no controller", 0);
    must(uas_block_new(&options, &block) == UAS_OK, "no driver", 0);
    milliseconds = 0;
    lent = 0;
    asks = 0;
    is_silent = false;
    look();
}

static void end(void)
{
    uas_block_free(block);
    uas_xhci_free(xhci);
}

/* Steps of the controller; whether it took one. */
static bool work(uint32_t budget)
{
    const struct uas_region whole = { BASE, memory, sizeof memory };
    const struct uas_region parts[] = { { BASE, memory, INPUT },
                                        { BASE + INPUT, narrow, CONTEXTS },
                                        { BASE + INPUT + CONTEXTS, memory + INPUT + CONTEXTS, sizeof memory - INPUT - CONTEXTS } };
    uint32_t steps;
    bool more;
    if (wide)
        to_controller();
    must(uas_xhci_work(xhci, wide ? parts : &whole, wide ? 3 : 1, budget, &steps, &more) == UAS_OK, "work is refused", 0);
    if (wide)
        to_driver();
    return steps > 0;
}

static bool has_bad(const struct uas_request *request)
{
    for (uint64_t i = 0; i < request->count; i++)
        if (bad[request->block + i])
            return true;
    return false;
}

static void answer(const struct uas_request *request)
{
    uint8_t *blocks = disk + BLOCK * request->block;
    size_t length = BLOCK * (size_t)request->count;
    uint8_t outcome = request->kind != UAS_REQUEST_SYNC && has_bad(request) ? UAS_MEDIUM_ERROR : UAS_DONE;
    if (request->kind == UAS_REQUEST_WRITE && outcome == UAS_DONE)
        must(uas_xhci_data(xhci, request->number, blocks, length) == UAS_OK, "no data of a request", request->number);
    uint8_t fault = uas_xhci_answered(xhci, request->number, outcome, blocks, request->kind == UAS_REQUEST_READ && outcome == UAS_DONE ? length : 0);
    must(fault == UAS_OK, "an answer is refused", fault);
}

/* The medium answers some of what it is asked, in any order; whether it did anything. */
static bool serve(void)
{
    bool did = false;
    while (asks < ASKED && uas_xhci_next_request(xhci, &asked[asks])) {
        asks++;
        did = true;
    }
    for (uint32_t count = is_silent ? 0 : below(4); count > 0 && asks > 0; count--) {
        size_t which = below((uint32_t)asks);
        struct uas_request one = asked[which];
        asked[which] = asked[--asks];
        answer(&one);
        did = true;
    }
    return did || (asks > 0 && !is_silent);
}

#endif
