/* Random drivers of a controller of uas_xhci.h: any register access, any memory.
 *
 * The memory is 64 KiB of addresses, cut anywhere into one to six parts, of which some are lent and the others gaps. Each region has pages of
 * its own and ends where a page that can't be touched begins, or begins where one ends.
 *
 * Half of the drivers begin with what a controller can use: rings, contexts and commands at addresses that are there, so that what follows
 * meets endpoints that run. */
#ifndef RANDOM_DRIVER_H
#define RANDOM_DRIVER_H

#include "uas_xhci.h"
#include <stdio.h>
#include <stdlib.h>
#include <string.h>
#include <sys/mman.h>

enum { BYTES = 1 << 16, PAGE = 4096, CALLS = 400, PARTS = 6, PART_PAGES = BYTES / PAGE + 2 };

/* What stands where in the memory, from its beginning. */
enum { TABLE = 0, ARRAY = 64, CONTEXT = 0x400, INPUT = 0x800, MORE_INPUT = 0xc00, EVENTS = 0x1000, COMMANDS = 0x2000, STREAMS = 0x3000 };
enum { RINGS = 0x4000, DATA = 0x8000 };

static uint64_t state, events;
static uint32_t event, places; /* where the event ring is read, and how long it is */
static bool cycle;

/* What is lent, in any order; where each byte of the memory is, those of gaps too; the address of the first. */
static struct uas_region regions[PARTS + 1];
static size_t lent;
static uint8_t *homes[BYTES], gaps[BYTES], *pages;
static uint64_t base;

static uint64_t any(void)
{
    state = state * 6364136223846793005u + 1442695040888963407u;
    return state >> 16;
}

static uint32_t draw(uint32_t below)
{
    return (uint32_t)(any() % below);
}

static void check(bool good, const char *what)
{
    if (good)
        return;
    fprintf(stderr, "a random driver: %s\n", what);
    abort();
}

/* A register is written, by the program that has the controller. */
static void write_register(uint64_t offset, uint8_t width, uint64_t value);

/* The address of a place of the memory. */
static uint64_t address(uint32_t place)
{
    return base + place;
}

static void store(uint32_t place, int width, uint64_t value)
{
    for (int i = 0; i < width; i++)
        *homes[(place + (uint32_t)i) % BYTES] = (uint8_t)(value >> 8 * i);
}

static void put_trb(uint32_t place, uint64_t parameter, uint32_t status, uint32_t control)
{
    store(place, 8, parameter);
    store(place + 8, 4, status);
    store(place + 12, 4, control);
}

/* A TRB of a pipe: its length small or great, its buffer mostly there, flags and cycle as they come. */
static void put_any_trb(uint32_t place)
{
    static const uint8_t types[] = { 1, 1, 1, 1, 1, 2, 3, 4, 6, 7, 8, 0 };
    uint32_t type = draw(20) == 0 ? draw(64) : types[draw(sizeof types)], length = draw(3) ? draw(600) : draw(0x20000);
    uint64_t parameter = draw(20) == 0 ? any() : type == 6 ? address(RINGS + 16 * draw(64)) : address(DATA + draw(BYTES - DATA));
    put_trb(place, parameter, length | draw(32) << 17, type << 10 | (uint32_t)(any() & 0x3f & ~1u) | (draw(30) != 0));
}

/* The three TDs of a request of endpoint 0, mostly one that there is. */
static void put_request(uint32_t place)
{
    static const uint64_t setups[] = { 0x0012000001000680, 0x0056000002000680, 0x001600000f000680, 0x00ff040903010680,
                                       0x00ff000003000680, 0x0000000000010900, 0x0001000000000880, 0x0002000000000080,
                                       0x0000000000000102, 0x0000000000003100, 0x0006000000003000, 0x00ff000055000680 };
    uint64_t setup = setups[draw(12)];
    uint32_t length = draw(4) ? (uint32_t)(setup >> 48) : draw(300), in = setup & 0x80 ? 1 << 16 : 0;
    put_trb(place, setup, 8, 2 << 10 | 64 | draw(2) << 5 | 1);
    put_trb(place + 16, address(DATA + draw(BYTES - DATA)), length, length > 0 ? 3 << 10 | in | draw(2) << 5 | draw(2) << 2 | 1 : 8 << 10 | 1);
    put_trb(place + 32, 0, 0, 4 << 10 | (length > 0 && in ? 0 : 1 << 16) | 32 | 1);
}

/* A COMMAND information unit of a READ, a WRITE or another command. */
static void put_unit(uint32_t place)
{
    static const uint8_t codes[] = { 0x28, 0x28, 0x28, 0x2a, 0x2a, 0x2a, 0x12, 0x25, 0x35, 0x2f, 0x00, 0x9e };
    uint8_t unit[32] = { draw(20) ? 1 : (uint8_t)draw(6) };
    unit[3] = (uint8_t)(1 + draw(4));
    unit[16] = draw(20) ? codes[draw(sizeof codes)] : (uint8_t)draw(256);
    unit[16 + 5] = (uint8_t)draw(64);
    unit[16 + 8] = (uint8_t)draw(8);
    unit[16 + 4] = unit[16] == 0x12 ? 36 : 0;
    for (uint32_t i = 0; i < 32; i++)
        *homes[place + i] = unit[i];
}

/* The input context of Address Device or of Configure Endpoint, and stream contexts that name rings. */
static void put_contexts(uint32_t input, uint32_t adds)
{
    store(input, 4, 0);
    store(input + 4, 4, adds);
    store(input + 32, 4, 5u << 27 | 4 << 20);
    store(input + 36, 4, 2 << 16);
    for (uint32_t endpoint = 1; endpoint < 6; endpoint++) {
        uint32_t place = input + 32 + 32 * endpoint, type = endpoint == 1 ? 4 : endpoint % 2 ? 6 : 2;
        store(place, 4, endpoint > 2 ? 1 << 15 | 2 << 10 : 0);
        store(place + 4, 4, (endpoint == 1 ? 512u : 1024u) << 16 | (endpoint == 1 ? 0 : 15) << 8 | type << 3 | 3 << 1);
        store(place + 8, 8, endpoint > 2 ? address(STREAMS + 128 * endpoint) : address(RINGS + 0x200 * endpoint) | 1);
        for (uint32_t stream = 1; stream < 8; stream++)
            store(STREAMS + 128 * endpoint + 16 * stream, 8, address(RINGS + 0x200 * (8 * (endpoint - 2) % 24 + stream)) | 3);
    }
}

static uint32_t next_command;

/* One more command: mostly of an endpoint. */
static void put_command(void)
{
    static const uint8_t types[] = { 14, 15, 15, 15, 16, 16, 16, 23 };
    uint32_t type = draw(10) ? types[draw(sizeof types)] : 9 + draw(15), endpoint = draw(7), input = draw(2) ? INPUT : MORE_INPUT;
    uint64_t pointer = type == 16 ? address(RINGS + 16 * draw(0x400)) | draw(16) : address(input);
    put_trb(COMMANDS + 16 * next_command, pointer, draw(8) << 16, type << 10 | endpoint << 16 | (draw(20) ? 1u : draw(3)) << 24 | draw(2) << 9 | 1);
    next_command = next_command < 250 ? next_command + 1 : next_command;
}

/* A controller that runs, with a slot, its endpoints and its disk configured. */
static void begin(void)
{
    static const uint32_t first[] = { 9, 11, 12 };
    for (uint32_t place = 0; place < RINGS; place++)
        *homes[place] = 0;
    for (uint32_t place = RINGS; place < DATA; place += 16)
        put_any_trb(place);
    for (uint32_t place = RINGS + 0x200; place < RINGS + 0x3e0; place += 48)
        put_request(place);
    if (draw(8)) { /* mostly the first request is SET_CONFIGURATION 1 */
        put_trb(RINGS + 0x200, 0x0000000000010900, 8, 2 << 10 | 64 | 1);
        put_trb(RINGS + 0x210, 0, 0, 8 << 10 | 1);
        put_trb(RINGS + 0x220, 0, 0, 4 << 10 | 1 << 16 | 32 | 1);
    }
    for (uint32_t i = 0; i < 32; i++)
        put_unit(DATA + 32 * i);
    for (uint32_t i = 0; i < 16; i++)
        put_trb(RINGS + 0x400 + 16 * i, address(DATA + 32 * draw(32)), 32, 1 << 10 | 32 | 1);
    put_contexts(INPUT, 3);
    put_contexts(MORE_INPUT, 0x3d);
    store(TABLE, 8, address(EVENTS));
    store(TABLE + 8, 8, places = 16 + draw(200));
    event = 0;
    cycle = true;
    store(ARRAY + 8, 8, address(CONTEXT));
    for (uint32_t i = 0; i < 3; i++)
        put_trb(COMMANDS + 16 * i, address(i == 1 ? INPUT : MORE_INPUT), 0, first[i] << 10 | (i == 0 ? 0 : 1u << 24) | 1);
    next_command = 3;
    write_register(0x78, 4, 1);
    write_register(0x70, 8, address(ARRAY));
    write_register(0x58, 8, address(COMMANDS) | 1);
    write_register(0x628, 4, 1);
    write_register(0x638, 8, address(EVENTS));
    write_register(0x630, 8, address(TABLE));
    write_register(0x620, 4, 2);
    write_register(0x40, 4, 5);
    write_register(0x800, 4, 0);
}

/* Reads events as a driver does, and says so. */
static void take_events(void)
{
    for (uint32_t i = 0; i < places && (*homes[EVENTS + 16 * event + 12] & 1) == cycle; i++) {
        events++;
        event = event + 1 == places ? 0 : event + 1;
        cycle ^= event == 0;
    }
    write_register(0x638, 8, address(EVENTS + 16 * event) | 8);
}

static void random_write(void)
{
    static const uint16_t offsets[] = { 0x40, 0x44, 0x50, 0x58, 0x5c, 0x70, 0x74, 0x78, 0x440, 0x450, 0x454,
                                        0x458, 0x45c, 0x600, 0x620, 0x624, 0x628, 0x630, 0x634, 0x638, 0x63c };
    static const uint8_t widths[] = { 4, 4, 4, 4, 8, 8, 1, 2, 0, 3, 255 };
    uint32_t kind = draw(10);
    if (kind < 4)
        write_register(0x804, 4, draw(7) | draw(9) << 16); /* a doorbell of the slot */
    else if (kind < 5)
        write_register(draw(8) ? 0x804 : 0x450, 4, draw(2) ? 1 : draw(16) << 5 | 1 << 16 | draw(2) << 9 | draw(128) << 17);
    else if (kind < 7) {
        put_command();
        write_register(0x800, 4, 0);
    } else if (kind < 9 || draw(10))
        take_events();
    else if (draw(2))
        write_register(offsets[draw(sizeof offsets / sizeof offsets[0])], widths[draw(sizeof widths)],
                       draw(2) ? any() << 20 : address(16 * draw(BYTES / 16)) | draw(64));
    else
        write_register(draw(8) ? draw(PAGE) : any() << 8, widths[draw(sizeof widths)], any());
}

/* Has a part of the memory stand in pages of its own, which it fills to their end, or from their begin on; a gap stands elsewhere. */
static void place_part(uint32_t part, uint32_t from, uint32_t to, bool gap)
{
    uint8_t *begin = pages + (size_t)part * PART_PAGES * PAGE + PAGE, *home = draw(2) ? begin : begin + BYTES - (to - from);
    if (gap)
        home = gaps + from;
    else if (to > from)
        regions[lent++] = (struct uas_region){ base + from, home, to - from };
    for (uint32_t place = from; place < to; place++)
        homes[place] = home + (place - from);
}

/* Cuts the memory into parts; their addresses begin at one of some, the last of which are near the end of all addresses. */
static void lend(void)
{
    static const uint64_t bases[] = { 0, 0x100000, 0x7fffffff0000, 0xffffffffffff0000 };
    uint32_t parts = draw(3) ? 1 + draw(PARTS) : 1, gap = draw(2) ? draw(PARTS) : PARTS, from = 0;
    base = bases[draw(4)];
    lent = 0;
    for (uint32_t part = 0; part < parts; part++) {
        uint32_t to = part == parts - 1 ? BYTES : from + draw(2 * (BYTES - from) / (parts - part) + 1);
        to = to > BYTES ? BYTES : to;
        place_part(part, from, to, part == gap && parts > 1);
        from = to;
    }
    for (uint32_t i = 0; i < lent; i++) { /* in any order */
        struct uas_region one = regions[i];
        uint32_t other = draw((uint32_t)lent);
        regions[i] = regions[other];
        regions[other] = one;
    }
    for (uint32_t i = 0; i < BYTES; i++)
        *homes[i] = 0;
}

/* Makes room for what is lent. */
static void make_pages(void)
{
    pages = mmap(NULL, (size_t)PARTS * PART_PAGES * PAGE, PROT_NONE, MAP_PRIVATE | MAP_ANONYMOUS, -1, 0);
    check(pages != MAP_FAILED, "no memory");
    for (size_t part = 0; part < PARTS; part++)
        check(mprotect(pages + part * PART_PAGES * PAGE + PAGE, BYTES, PROT_READ | PROT_WRITE) == 0, "no memory");
}

#endif
