/* A driver of a controller of uas_xhci.h that offers Bulk-Only Transport, on one block of memory from address 0 on: registers, rings, events, setting up,
 * requests of endpoint 0. What it stores it stores in `mirror` too, where there is one. */
#ifndef BULK_RIG_H
#define BULK_RIG_H

#define SECOND_MEMORY_BYTES 0xc000
#include "uas_xhci.h"
#include "second_bulk_host.h"
#include <inttypes.h>
#include <stdio.h>
#include <stdlib.h>

enum { TABLE = 0x40, POINTERS = 0x80, CONTEXTS = 0x400, INPUT = 0x800, COMMANDS = 0x1000, CONTROL = 0x1800, ARRAYS = 0x2000, EVENTS = 0x3000 };
enum { SCRATCH = 0x5800, CBWS = 0x7400, DATA = 0x7800, MOST_EVENTS = 256, PLACES = 32, COMMAND_PLACES = 64 };
enum { USBCMD = 0x40, USBSTS = 0x44, CRCR = 0x58, DCBAAP = 0x70, CONFIG = 0x78, PORTSC2 = 0x450, ERSTSZ = 0x628, ERSTBA = 0x630, ERDP = 0x638, DOORBELL = 0x800 };
enum { ENABLE_SLOT = 9, ADDRESS = 11, CONFIGURE = 12, EVALUATE = 13, RESET_DEVICE = 17, SLOT_1 = 1 << 24 };

static uas_xhci *xhci;
static struct second_memory memory, *mirror;

static void rig_fails(const char *what, uint64_t value)
{
    fflush(stdout);
    fprintf(stderr, "%s: %" PRIx64 "\n", what, value);
    exit(1);
}

/* ---- Memory, and rings of two segments ---- */

static void store(uint64_t at, const void *bytes, size_t length)
{
    memcpy(second_at(&memory, at), bytes, length);
    if (mirror != NULL)
        memcpy(second_at(mirror, at), bytes, length);
}

static void store_word(uint64_t at, int width, uint64_t value)
{
    uint8_t bytes[8];
    second_put_long(value, bytes);
    store(at, bytes, (size_t)width);
}

static void store_trb(uint64_t at, uint64_t parameter, uint32_t status, uint32_t control)
{
    store_word(at, 8, parameter);
    store_word(at + 8, 4, status);
    store_word(at + 12, 4, control);
}

struct ring {
    uint64_t segments[2];
    uint32_t places, place;
    int segment;
    bool cycle;
};

static struct ring commands, control, pipes[BULK_ENDPOINTS];

static struct ring new_ring(uint64_t at, uint32_t places)
{
    static const uint8_t zeros[32 * COMMAND_PLACES];
    store(at, zeros, 32 * (size_t)places);
    return (struct ring){ { at, at + 16 * (uint64_t)places }, places, 0, 0, true };
}

static uint64_t next_place(const struct ring *ring)
{
    return ring->segments[ring->segment] + 16 * (uint64_t)ring->place;
}

/* A Link TRB to the other segment; from the second one it toggles. */
static void put_link(struct ring *ring, uint32_t flags)
{
    bool toggles = ring->segment == 1;
    store_trb(next_place(ring), ring->segments[!ring->segment], 0, TRB_LINK << 10 | flags | (toggles ? BIT_TOGGLE : 0) | ring->cycle);
    ring->cycle ^= toggles;
    ring->segment = !ring->segment;
    ring->place = 0;
}

static uint64_t put(struct ring *ring, uint64_t parameter, uint32_t status, uint32_t flags)
{
    uint64_t here = next_place(ring);
    store_trb(here, parameter, status, flags | ring->cycle);
    if (++ring->place == ring->places - 1)
        put_link(ring, flags & BIT_CHAIN);
    return here;
}

/* ---- Registers, work, events ---- */

static void set(uint64_t offset, uint8_t width, uint64_t value)
{
    uas_xhci_write(xhci, offset, width, value);
}

static bool work(uint32_t budget, uint32_t *steps)
{
    static const struct uas_region region = { 0, memory.bytes, SECOND_MEMORY_BYTES };
    bool more = false;
    uint8_t fault = uas_xhci_work(xhci, &region, 1, budget, steps, &more);
    if (fault != UAS_OK)
        rig_fails("no work", fault);
    return more;
}

static void work_all(void)
{
    uint32_t steps;
    while (work(100, &steps))
        ;
}

struct event {
    uint64_t pointer;
    uint32_t length;
    uint8_t type, code, endpoint;
};

static uint32_t event_place, event_places = MOST_EVENTS;
static bool event_cycle;

/* Takes the oldest event off the ring; one of type 0 where there is none. */
static struct event take_event(void)
{
    struct second_trb trb = second_trb_at(&memory, EVENTS + 16 * (uint64_t)event_place);
    if ((trb.control & 1) != event_cycle)
        return (struct event){ .type = 0 };
    if (++event_place == event_places) {
        event_place = 0;
        event_cycle = !event_cycle;
    }
    set(ERDP, 8, (EVENTS + 16 * (uint64_t)event_place) | 8);
    return (struct event){ trb.parameter, trb.status & 0xffffff, trb.control >> 10 & 63, (uint8_t)(trb.status >> 24), trb.control >> 16 & 31 };
}

static void ring_doorbell(int dci)
{
    set(DOORBELL + 4, 4, (uint32_t)dci);
}

/* ---- Commands of the controller (4.6), endpoint 0 ---- */

/* The code that a command is told with. */
static uint8_t command(uint32_t type, uint64_t parameter, uint32_t flags)
{
    struct event event;
    put(&commands, parameter, 0, type << 10 | flags);
    set(DOORBELL, 4, 0);
    work_all();
    do
        event = take_event();
    while (event.type != 0 && event.type != COMMAND_EVENT);
    if (event.type == 0)
        rig_fails("a command isn't told", type);
    return event.code;
}

static void must_do(uint32_t type, uint64_t parameter, uint32_t flags)
{
    uint8_t code = command(type, parameter, flags);
    if (code != CODE_SUCCESS)
        rig_fails("a command's code", (uint64_t)type << 8 | code);
}

/* A stopped or halted endpoint goes on behind what was put on its ring. */
static void leave_behind(int dci)
{
    const struct ring *ring = dci == 1 ? &control : &pipes[dci];
    uint32_t target = SLOT_1 | (uint32_t)dci << 16;
    uint8_t endpoint_state = memory.bytes[CONTEXTS + 32 * dci] & 7;
    if (endpoint_state == STATE_HALTED)
        must_do(TRB_RESET_ENDPOINT, 0, target);
    else if (endpoint_state == STATE_RUNNING)
        must_do(TRB_STOP_ENDPOINT, 0, target);
    must_do(TRB_SET_DEQUEUE, next_place(ring) | ring->cycle, target);
}

/* The Setup Stage's eight bytes. */
static uint64_t setup_of(uint16_t request, uint16_t value, uint16_t index, uint16_t length)
{
    return (uint64_t)(request >> 8) | (uint64_t)(request & 255) << 8 | (uint64_t)value << 16 | (uint64_t)index << 32 | (uint64_t)length << 48;
}

/* Puts a request on endpoint 0's ring; its data go to SCRATCH. */
static void put_request(uint64_t setup)
{
    uint32_t length = (uint32_t)(setup >> 48);
    put(&control, setup, 8, TRB_SETUP << 10 | BIT_IMMEDIATE | (length > 0 ? 3 << 16 : 0));
    if (length > 0)
        put(&control, SCRATCH, length, TRB_DATA << 10 | BIT_IN | BIT_ISP);
    put(&control, 0, 0, TRB_STATUS << 10 | BIT_IOC | (length > 0 ? 0 : BIT_IN));
}

/* Makes a request: how many bytes came, or -1 where it was stalled. */
static int request(uint64_t setup)
{
    struct event event;
    int came = (int)(setup >> 48);
    memset(memory.bytes + SCRATCH, 0xee, 256);
    put_request(setup);
    ring_doorbell(1);
    work_all();
    while ((event = take_event()).type != 0) {
        if (event.type != TRANSFER_EVENT || event.endpoint != 1)
            continue;
        if (event.code == CODE_SHORT)
            came -= (int)event.length;
        else if (event.code == CODE_STALL) {
            leave_behind(1);
            return -1;
        } else if (event.code != CODE_SUCCESS)
            rig_fails("a request's code", event.code);
    }
    return came;
}

/* ---- Setting up ---- */

static void input_context(uint32_t drops, uint32_t adds, uint32_t entries)
{
    static const uint8_t zeros[1056];
    store(INPUT, zeros, sizeof zeros);
    store_word(INPUT, 4, drops);
    store_word(INPUT + 4, 4, adds);
    store_word(INPUT + 32, 4, entries << 27 | 4 << 20);
    store_word(INPUT + 36, 4, 2 << 16);
    store_word(INPUT + 64 + 4, 4, 512u << 16 | 4 << 3 | 3 << 1);
    store_word(INPUT + 64 + 8, 8, next_place(&control) | control.cycle);
    store_word(INPUT + 64 + 16, 4, 8);
}

/* An endpoint of Configure Endpoint's input, with an array of 16 streams whose ring is all the same, or with one ring. */
static void input_pipe(int dci, bool streams)
{
    uint64_t at = INPUT + 32 + 32 * (uint64_t)dci, array = ARRAYS + 0x100 * (uint64_t)(dci - 2);
    static const uint16_t rings[] = { [2] = 0x4000, [3] = 0x4800, [BULK_OUT] = 0x6000, [BULK_IN] = 0x7000 };
    pipes[dci] = new_ring(rings[dci], PLACES);
    for (uint64_t stream = 0; stream < 16; stream++)
        store_word(array + 16 * stream, 8, stream > 0 ? pipes[dci].segments[0] | 3 : 0);
    store_word(at, 4, streams ? 1 << 15 | 3 << 10 : 0);
    store_word(at + 4, 4, 1024u << 16 | 15u << 8 | (dci % 2 ? 6u : 2u) << 3 | 3u << 1);
    store_word(at + 8, 8, streams ? array : pipes[dci].segments[0] | 1);
    store_word(at + 16, 4, 0x8000);
}

/* Drops the endpoints that are there, and adds those of a mask of DCIs. */
static void configure(uint32_t drops, uint32_t adds, uint32_t streams)
{
    input_context(drops, adds | 1, 5);
    for (int dci = 2; dci < BULK_ENDPOINTS; dci++)
        if (adds >> dci & 1)
            input_pipe(dci, streams >> dci & 1);
    must_do(CONFIGURE, INPUT, SLOT_1);
}

static void address_device(void)
{
    control = new_ring(CONTROL, PLACES);
    input_context(0, 3, 1);
    must_do(ADDRESS, INPUT, SLOT_1);
}

/* Registers, the port, a slot, an address. */
static void set_up(void)
{
    memset(memory.bytes, 0, sizeof memory.bytes);
    event_place = 0;
    event_cycle = true;
    store_word(POINTERS + 8, 8, CONTEXTS);
    store_word(TABLE, 8, EVENTS);
    store_word(TABLE + 8, 8, event_places);
    commands = new_ring(COMMANDS, COMMAND_PLACES);
    set(CONFIG, 4, 1);
    set(DCBAAP, 8, POINTERS);
    set(CRCR, 8, COMMANDS | 1);
    set(ERSTSZ, 4, 1);
    set(ERDP, 8, EVENTS);
    set(ERSTBA, 8, TABLE);
    set(USBCMD, 4, 1);
    work_all();
    if (take_event().type != PORT_EVENT)
        rig_fails("no event of the port", 0);
    set(PORTSC2, 4, 0x20200);
    must_do(ENABLE_SLOT, 0, 0);
    address_device();
}

#endif
