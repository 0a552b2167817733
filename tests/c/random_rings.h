/* A driver of a controller of uas_xhci.h and of a second implementation of its pipes (second_pipes.h), on one block of memory each: what it writes
 * it writes to both. The controller is set up alone; its memory is then the second one's too. */
#ifndef RANDOM_RINGS_H
#define RANDOM_RINGS_H

#include "uas_xhci.h"
#include "second_commands.h"
#include <inttypes.h>
#include <stdio.h>
#include <stdlib.h>

/* Where things stand in the memory, from its base on. */
enum { TABLE = 0, POINTERS = 64, CONTEXTS = 0x400, INPUT = 0x800, EVENTS = 0x1000, COMMANDS = 0x2000, CONTROL = 0x3000, ARRAYS = 0x4000, RINGS = 0x8000, DATA = 0xc000 };
enum { EVENT_PLACES = 96, COMMAND_PLACES = 200, PLACES = 16, UNITS = 2, CHUNK = 4 };
enum { USBCMD = 0x40, USBSTS = 0x44, CRCR = 0x58, DCBAAP = 0x70, CONFIG = 0x78, ERSTSZ = 0x628, ERSTBA = 0x630, ERDP = 0x638, DOORBELL = 0x800 };
enum { ENABLE_SLOT = 9, ADDRESS = 11, CONFIGURE = 12 };

static const uint64_t BASE = 0x7654300000;
static const uint16_t tags[] = { 1, 2, 3, 4, 5, 6, 240 };
enum { TAGS = 7 };

static uas_xhci *xhci;
static struct second_memory memory;
static struct second_machine second;
static uint64_t state, steps;

static uint64_t drawn(void)
{
    state ^= state << 13;
    state ^= state >> 7;
    state ^= state << 17;
    return state * 0x2545f4914f6cdd1d >> 16;
}

static uint32_t below(uint32_t bound)
{
    return (uint32_t)(drawn() % bound);
}

static void tell_state(void);

static void agree(bool good, const char *what, int line)
{
    if (good)
        return;
    fflush(stdout);
    fprintf(stderr, "random_rings.c:%d: step %" PRIu64 ": %s\n", line, steps, what);
    tell_state();
    exit(1);
}
#define AGREE(good) agree((good), #good, __LINE__)

/* ---- Memory ---- */

static void store(uint64_t at, const uint8_t *bytes, size_t length)
{
    memcpy(second_at(&memory, at), bytes, length);
    memcpy(second_at(&second.memory, at), bytes, length);
}

static void store_word(uint64_t at, int width, uint64_t value)
{
    uint8_t bytes[8];
    second_put_long(value, bytes);
    store(at, bytes, (size_t)width);
}

static void store_trb(uint64_t at, uint64_t parameter, uint32_t status, uint32_t control)
{
    store_word(at, 8, parameter);
    store_word(at + 8, 4, status);
    store_word(at + 12, 4, control);
}

/* ---- Rings, of two segments ---- */

struct ring {
    int pipe;
    uint32_t stream, place, places;
    uint64_t segments[2];
    int segment;
    bool cycle, toggled;
};

static struct ring commands, pipes[SECOND_PIPES][TAGS];

static uint64_t next_place(const struct ring *ring)
{
    return ring->segments[ring->segment] + 16 * ring->place;
}

/* A Link TRB to the first place of the other segment; from the second one it toggles. */
static void put_link(struct ring *ring, uint32_t flags, bool toggles)
{
    store_trb(next_place(ring), ring->segments[!ring->segment], 0, TRB_LINK << 10 | (flags & ~(uint32_t)BIT_TOGGLE) | (toggles ? BIT_TOGGLE : 0) | ring->cycle);
    ring->cycle ^= toggles;
    ring->segment = !ring->segment;
    ring->place = 0;
}

static uint64_t put(struct ring *ring, uint64_t parameter, uint32_t status, uint32_t control)
{
    uint64_t here = next_place(ring);
    store_trb(here, parameter, status, control ^ ring->cycle);
    if (++ring->place == ring->places - 1)
        put_link(ring, control & BIT_CHAIN, ring->segment == 1);
    return here;
}

static struct ring new_ring(int pipe, uint32_t stream, uint64_t at, uint32_t places)
{
    return (struct ring){ .pipe = pipe, .stream = stream, .places = places, .segments = { at, at + 16 * (uint64_t)places }, .cycle = true };
}

/* ---- Setting up ---- */

static void set(uint64_t offset, uint8_t width, uint64_t value)
{
    uas_xhci_write(xhci, offset, width, value);
}

static void work_alone(void)
{
    const struct uas_region region = { BASE, memory.bytes, SECOND_MEMORY_BYTES };
    uint32_t taken;
    for (bool more = true; more;)
        AGREE(uas_xhci_work(xhci, &region, 1, 100, &taken, &more) == UAS_OK);
}

static void setup_command(uint32_t type, uint64_t parameter)
{
    put(&commands, parameter, 0, type << 10 | (type == ENABLE_SLOT ? 0 : 1u << 24));
    set(DOORBELL, 4, 0);
    work_alone();
}

static void set_input(uint32_t adds, uint32_t entries)
{
    uint64_t input = BASE + INPUT;
    store_word(input + 4, 4, adds);
    store_word(input + 32, 4, entries << 27 | 4 << 20);
    store_word(input + 36, 4, 2 << 16);
    store_word(input + 64 + 4, 4, 512u << 16 | 4 << 3 | 3 << 1);
    store_word(input + 64 + 8, 8, (BASE + CONTROL) | 1);
    store_word(input + 64 + 16, 4, 8);
}

static void set_pipe(int pipe)
{
    uint64_t at = BASE + INPUT + 32 + 32 * (uint64_t)pipe, array = BASE + ARRAYS + 0x1000 * (uint64_t)(pipe - PIPE_STATUS);
    for (int i = 0; i < (pipe == PIPE_COMMAND ? 1 : TAGS); i++) {
        struct ring *ring = &pipes[pipe][i];
        uint64_t segments = BASE + RINGS + 32 * PLACES * (uint64_t)(TAGS * (pipe - PIPE_STATUS) + i);
        if (pipe == PIPE_COMMAND)
            segments = BASE + RINGS + 32 * PLACES * (uint64_t)(3 * TAGS);
        *ring = new_ring(pipe, pipe == PIPE_COMMAND ? 0 : tags[i], segments, PLACES);
        if (pipe != PIPE_COMMAND)
            store_word(array + 16 * (uint64_t)tags[i], 8, segments | 3);
    }
    store_word(at, 4, pipe == PIPE_COMMAND ? 0 : 1 << 15 | 7 << 10);
    store_word(at + 4, 4, 1024u << 16 | 15u << 8 | (pipe % 2 ? 6u : 2u) << 3 | 3u << 1);
    store_word(at + 8, 8, pipe == PIPE_COMMAND ? pipes[pipe][0].segments[0] | 1 : array);
    store_word(at + 16, 4, 0x8000);
    second.arrays[pipe] = array;
}

static void configure(void)
{
    setup_command(ENABLE_SLOT, 0);
    set_input(3, 1);
    setup_command(ADDRESS, BASE + INPUT);
    set_input(0x3d, 5);
    for (int pipe = PIPE_COMMAND; pipe <= PIPE_IN; pipe++)
        set_pipe(pipe);
    setup_command(CONFIGURE, BASE + INPUT);
    store_trb(BASE + CONTROL, 0x0000000000010900, 8, 2 << 10 | 1 << 6 | 1);
    store_trb(BASE + CONTROL + 16, 0, 0, 4 << 10 | 1 << 16 | 1);
    set(DOORBELL + 4, 4, 1);
    work_alone();
}

/* The second machine as the controller is after its setting up. */
static void copy_machine(const struct uas_tasks_unit *units, uint8_t command_set, uint16_t most, uint16_t chunk)
{
    second.memory = memory;
    second.contexts = BASE + CONTEXTS;
    second.commands.pointer = next_place(&commands);
    second.commands.cycle = commands.cycle;
    second.device.units = UNITS;
    memcpy(second.device.unit, units, UNITS * sizeof *units);
    second.device.set = command_set;
    second.device.most = most;
    second.device.blocks = chunk;
    second.events = (struct second_event_ring){ BASE + EVENTS, BASE + EVENTS, EVENT_PLACES, 0, true, false };
    while ((second_trb_at(&memory, BASE + EVENTS + 16 * (uint64_t)second.events.place).control & 1) != 0)
        second.events.place++;
    for (int pipe = PIPE_COMMAND; pipe <= PIPE_IN; pipe++)
        second.endpoints[pipe].state = STATE_RUNNING;
}

static void set_up(void)
{
    const struct uas_tasks_unit units[UNITS] = { { 3000, 1, UAS_BLOCK_BYTES }, { 1ull << 40, 2, 4096 } };
    uint8_t command_set = below(4) ? UAS_SET_HOST : UAS_SET_PROFILE;
    uint16_t chunk = (uint16_t)(1 + below(CHUNK)), most = command_set == UAS_SET_HOST ? 64 : 128;
    memset(&memory, 0, sizeof memory);
    memset(&second, 0, offsetof(struct second_machine, taken));
    memory.base = second.memory.base = BASE;
    AGREE(uas_xhci_new(units, UNITS, command_set, 64, chunk, &xhci) == UAS_OK);
    store_word(BASE + POINTERS + 8, 8, BASE + CONTEXTS);
    store_word(BASE + TABLE, 8, BASE + EVENTS);
    store_word(BASE + TABLE + 8, 8, EVENT_PLACES);
    commands = new_ring(0, 0, BASE + COMMANDS, COMMAND_PLACES / 2);
    set(CONFIG, 4, 1);
    set(DCBAAP, 8, BASE + POINTERS);
    set(CRCR, 8, (BASE + COMMANDS) | 1);
    set(ERSTSZ, 4, 1);
    set(ERDP, 8, BASE + EVENTS);
    set(ERSTBA, 8, BASE + TABLE);
    set(USBCMD, 4, 1);
    work_alone();
    configure();
    copy_machine(units, command_set, most, chunk);
}

#endif
