/* bench_driver.h: a driver of uas_xhci.h in user space, on 16 MiB of memory in four blocks: registers, rings, events, TDs, and commands of a
 * disk. What a TD is to post is noted when it is put on its ring, so that the controller isn't its own judge; the first event, context or byte that is
 * another one ends the program. bench_driver.c drives it. */
#ifndef BENCH_DRIVER_H
#define BENCH_DRIVER_H

#include "uas_xhci.h"
#include <stdio.h>
#include <stdlib.h>
#include <string.h>

/* Rings and contexts stand below 4 GiB; each tag's buffers above, in three blocks that adjoin by address and cut some buffers in two. */
enum { TAGS = 15, AREA = 0x90000, RING_BYTES = 0x790000, FIRST_CUT = 3 * AREA + 0x2f123, SECOND_CUT = 8 * AREA + 0x13ff8, AREAS = TAGS * AREA };
static const uint64_t BASE = 0x7f000000, HIGH = 0x7654300000;

static uint8_t rings[RING_BYTES], first_block[FIRST_CUT], second_block[SECOND_CUT - FIRST_CUT], third_block[AREAS - SECOND_CUT];
static const struct uas_region regions[] = {
    { HIGH + FIRST_CUT, second_block, sizeof second_block },
    { BASE, rings, sizeof rings },
    { HIGH + SECOND_CUT, third_block, sizeof third_block },
    { HIGH, first_block, sizeof first_block },
};

enum { ZONE = 600, BLOCKS = (TAGS + 1) * ZONE, EVENTS = 64, MOST_TRBS = 40, UNTOUCHED = 0x5a };

/* Registers (5.3 to 5.5), TRB types (table 6-91), flags of TRBs, completion codes (table 6-90), endpoint IDs */
enum { USBCMD = 0x40, USBSTS = 0x44, CRCR = 0x58, DCBAAP = 0x70, CONFIG = 0x78, PORTSC2 = 0x450 };
enum { IMAN = 0x620, ERSTSZ = 0x628, ERSTBA = 0x630, ERDP = 0x638, DOORBELL = 0x800 };
enum { NORMAL = 1 << 10, SETUP = 2 << 10, DATA = 3 << 10, STATUS = 4 << 10, LINK = 6 << 10, EVENT_DATA = 7 << 10, NO_OP = 8 << 10 };
enum { ENABLE_SLOT = 9, ADDRESS = 11, CONFIGURE = 12, RESET_ENDPOINT = 14, STOP = 15, SET_DEQUEUE = 16, RESET_DEVICE = 17, NO_OP_COMMAND = 23 };
enum { TOGGLE = 2, ISP = 4, CH = 16, IOC = 32, IDT = 64, DIR_IN = 1 << 16, BSR = 512, TSP = 512 };
enum { SUCCESS = 1, DATA_BUFFER = 2, TRANSACTION = 4, TRB_ERROR = 5, STALL = 6, NO_SLOTS = 9, SHORT_PACKET = 13, WRONG_STATE = 19, RING_FULL = 21 };
enum { RING_STOPPED = 24, STOPPED = 26, INVALID_STREAM = 34 };
enum { SLOT_1 = 1 << 24, RUNNING = 1, HALTED = 2, STOPPED_STATE = 3 };
enum { COMMANDS = 0, CONTROL = 1, COMMAND_PIPE = 2, STATUS_PIPE = 3, DATA_OUT = 4, DATA_IN = 5, PORTS = 6 };

/* The disk's bytes, and what they should be. */
static uint8_t disk[BLOCKS * UAS_BLOCK_BYTES], blocks[BLOCKS * UAS_BLOCK_BYTES];
static uint64_t free_from, random_state = 1;
static uas_xhci *xhci;
static unsigned long events_seen, steps_taken;

/* ---- Surprises ---- */

static void same(int line, const char *what, uint64_t got, uint64_t wanted)
{
    if (got == wanted)
        return;
    fflush(stdout);
    fprintf(stderr, "bench_driver: line %d: %s is %llx, not %llx\n", line, what, (unsigned long long)got, (unsigned long long)wanted);
    exit(1);
}
#define SAME(got, wanted) same(__LINE__, #got, (uint64_t)(got), (uint64_t)(wanted))
#define MUST(so) same(__LINE__, #so, (so) ? 1 : 0, 1)

static uint32_t draw(uint32_t below)
{
    random_state = random_state * 6364136223846793005u + 1442695040888963407u;
    return (uint32_t)((random_state >> 33) % below);
}

/* ---- Memory ---- */

static const struct uas_region *region_of(uint64_t address)
{
    int i = 0;
    while (address - regions[i].address >= regions[i].length)
        MUST(++i < 4);
    return &regions[i];
}

static uint8_t *at(uint64_t address)
{
    const struct uas_region *region = region_of(address);
    return region->bytes + (address - region->address);
}

/* How many of some bytes from an address on stand in one block. */
static size_t together(uint64_t address, size_t length)
{
    const struct uas_region *region = region_of(address);
    uint64_t left = region->address + region->length - address;
    return length < left ? length : (size_t)left;
}

static void fill(uint64_t address, uint8_t value, size_t length)
{
    for (size_t part; length > 0; address += part, length -= part) {
        part = together(address, length);
        memset(at(address), value, part);
    }
}

static bool has(uint64_t address, const uint8_t *bytes, size_t length)
{
    for (size_t part; length > 0; address += part, bytes += part, length -= part) {
        part = together(address, length);
        if (memcmp(at(address), bytes, part) != 0)
            return false;
    }
    return true;
}

static uint64_t take(uint64_t bytes, uint64_t align)
{
    uint64_t begin = (free_from + align - 1) / align * align;
    free_from = begin + bytes;
    MUST(free_from <= BASE + RING_BYTES);
    return begin;
}

static uint64_t load(uint64_t address, int width)
{
    uint64_t value = 0;
    while (width-- > 0)
        value = value << 8 | *at(address + (unsigned)width);
    return value;
}

static void store(uint64_t address, int width, uint64_t value)
{
    for (int i = 0; i < width; i++)
        *at(address + (unsigned)i) = (uint8_t)(value >> 8 * i);
}

/* ---- Rings (4.9.2): two segments, each with a Link TRB at its end ---- */

struct ring {
    uint64_t segments[2];
    uint32_t places, place;
    int segment;
    bool cycle;
};

static struct ring commands, control, pipes[6][TAGS + 1]; /* [endpoint][stream], the command pipe's at 0 */

static struct ring new_ring(uint32_t places)
{
    struct ring ring = { { 0 }, places, 0, 0, true };
    for (int i = 0; i < 2; i++) {
        ring.segments[i] = take(16 * places, 1024);
        memset(at(ring.segments[i]), 0, 16 * places);
    }
    return ring;
}

static uint64_t next_place(const struct ring *ring)
{
    return ring->segments[ring->segment] + 16 * ring->place;
}

static void write_trb(uint64_t here, uint64_t parameter, uint32_t status, uint32_t flags)
{
    store(here, 8, parameter);
    store(here + 8, 4, status);
    store(here + 12, 4, flags);
}

static uint64_t put(struct ring *ring, uint64_t parameter, uint32_t status, uint32_t flags)
{
    uint64_t here = next_place(ring);
    write_trb(here, parameter, status, flags | ring->cycle);
    if (++ring->place == ring->places - 1) {
        bool last = ring->segment == 1;
        write_trb(here + 16, ring->segments[!ring->segment], 0, LINK | (flags & CH) | (last ? TOGGLE : 0) | ring->cycle);
        ring->cycle ^= last;
        ring->segment = !ring->segment;
        ring->place = 0;
    }
    return here;
}

/* ---- Events: what each ring is to post, in order ---- */

struct event {
    uint64_t pointer;
    uint32_t length;
    uint8_t code, endpoint;
    bool data; /* ED: of an Event Data TRB */
};

static struct expected {
    struct event events[256];
    int first, count;
} expected[7][TAGS + 1];

static uint64_t event_ring;
static uint32_t event_place;
static bool event_cycle;
static uint8_t last_slot; /* of the last Command Completion Event */

/* The endpoint that is being stopped, how many Stopped events came of it, and the last of them. */
static int stopping;
static uint32_t stops;
static struct event stopped;

static void expect(int endpoint, int stream, uint64_t pointer, uint8_t code, uint32_t length, bool data)
{
    struct expected *list = &expected[endpoint][stream];
    MUST(list->count < 256);
    list->events[(list->first + list->count++) % 256] = (struct event){ pointer, length, code, (uint8_t)endpoint, data };
}

static void judge(const struct event *event)
{
    if (event->endpoint == stopping && event->code >= STOPPED && event->code <= STOPPED + 2) {
        stops++;
        stopped = *event;
        return;
    }
    for (int stream = 0; stream <= TAGS; stream++) {
        struct expected *list = &expected[event->endpoint][stream];
        const struct event *wanted = &list->events[list->first];
        if (list->count == 0 || wanted->pointer != event->pointer || wanted->data != event->data)
            continue;
        SAME(event->code, wanted->code);
        SAME(event->length, wanted->length);
        list->first = (list->first + 1) % 256;
        list->count--;
        return;
    }
    fflush(stdout);
    fprintf(stderr, "bench_driver: nothing was to post an event of endpoint %u with code %u, pointer %llx, length %u\n", event->endpoint,
            event->code, (unsigned long long)event->pointer, event->length);
    exit(1);
}

/* Takes an event off the ring; false where there is none. Command Completion Events and Port Status Change Events have lists too. */
static bool next_event(void)
{
    uint64_t here = event_ring + 16 * event_place;
    uint32_t status = (uint32_t)load(here + 8, 4), flags = (uint32_t)load(here + 12, 4);
    struct event event = { load(here, 8), status & 0xffffff, (uint8_t)(status >> 24), flags >> 16 & 31, (flags & 4) != 0 };
    if ((flags & 1) != event_cycle)
        return false;
    uint32_t type = flags >> 10 & 63;
    MUST(type == 32 || type == 33 || type == 34 || type == 37);
    if (type == 32)
        SAME(flags >> 24, 1);
    if (type == 33) {
        last_slot = (uint8_t)(flags >> 24);
        event.endpoint = COMMANDS;
    }
    if (type == 34 || type == 37)
        event.endpoint = PORTS;
    events_seen++;
    if (++event_place == EVENTS) {
        event_place = 0;
        event_cycle = !event_cycle;
    }
    judge(&event);
    return true;
}

/* ---- Registers, and steps ---- */

static uint32_t get(uint64_t offset)
{
    return (uint32_t)uas_xhci_read(xhci, offset, 4);
}

static void set(uint64_t offset, uint32_t value)
{
    uas_xhci_write(xhci, offset, 4, value);
}

/* A 64-bit register, whole or in halves, low first. */
static void set_address(uint64_t offset, uint64_t value)
{
    if (draw(2) == 0) {
        uas_xhci_write(xhci, offset, 8, value);
        return;
    }
    set(offset, (uint32_t)value);
    set(offset + 4, (uint32_t)(value >> 32));
}

static void ring_doorbell(int endpoint, int stream)
{
    set(DOORBELL + (endpoint == COMMANDS ? 0 : 4), (uint32_t)(endpoint | stream << 16));
}

/* Takes the events that are there, which the pin tells or a message; false where there is none. */
static bool take_events(void)
{
    if (!next_event())
        return false;
    while (next_event())
        ;
    MUST(uas_xhci_interrupt(xhci));
    MUST(get(USBSTS) & 8);
    if (draw(2) == 0)
        MUST(uas_xhci_take_message(xhci));
    else
        set(IMAN, 3);
    MUST(!uas_xhci_take_message(xhci) && !uas_xhci_interrupt(xhci));
    set(USBSTS, 8);
    set_address(ERDP, (event_ring + 16 * event_place) | 8);
    MUST((get(USBSTS) & 0xc) == 0);
    return true;
}

static bool work(uint32_t budget)
{
    uint32_t steps;
    bool more;
    SAME(uas_xhci_work(xhci, regions, 4, budget, &steps, &more), UAS_OK);
    MUST(steps <= budget);
    steps_taken += steps;
    return more;
}

/* ---- Blocks ---- */

static struct uas_request out[256];
static uint32_t outs;
static bool held; /* no request is answered */
static uint64_t bad_block = UINT64_MAX;

static void answer(const struct uas_request *request)
{
    uint8_t *bytes = disk + request->block * UAS_BLOCK_BYTES;
    size_t length = (size_t)request->count * UAS_BLOCK_BYTES;
    bool bad = request->kind != UAS_REQUEST_SYNC && bad_block - request->block < request->count;
    bool reads = request->kind == UAS_REQUEST_READ && !bad;
    MUST(request->kind == UAS_REQUEST_SYNC || request->block + request->count <= BLOCKS);
    if (request->kind == UAS_REQUEST_WRITE && !bad)
        SAME(uas_xhci_data(xhci, request->number, bytes, length), UAS_OK);
    SAME(uas_xhci_answered(xhci, request->number, bad ? UAS_MEDIUM_ERROR : UAS_DONE, bytes, reads ? length : 0), UAS_OK);
}

/* Takes the requests that are new, and answers one of those that are out. */
static bool serve(void)
{
    while (outs < 256 && uas_xhci_next_request(xhci, &out[outs]))
        outs++;
    if (held || outs == 0)
        return false;
    uint32_t which = draw(outs);
    struct uas_request request = out[which];
    out[which] = out[--outs];
    answer(&request);
    return true;
}

static void run(void)
{
    for (bool goes_on = true; goes_on;) {
        bool more = work(1 + draw(9)), took = take_events();
        goes_on = ((!more || draw(4) == 0) && serve()) || more || took;
    }
}

/* Runs until nothing is left to do: each event that was to come has come. */
#define finish() finish_at(__LINE__)
static void finish_at(int line)
{
    run();
    for (int endpoint = 0; endpoint <= PORTS; endpoint++)
        for (int stream = 0; stream <= TAGS; stream++) {
            const struct expected *list = &expected[endpoint][stream];
            if (list->count > 0)
                fprintf(stderr, "bench_driver: endpoint %d, stream %d: no event for %llx\n", endpoint, stream,
                        (unsigned long long)list->events[list->first].pointer);
            same(line, "events that are missing", (uint64_t)list->count, 0);
        }
}

/* ---- Commands of the controller (4.6), and requests of endpoint 0 (4.11.2.2) ---- */

static void command(uint32_t type, uint64_t parameter, uint32_t status, uint32_t flags, uint8_t code)
{
    expect(COMMANDS, 0, put(&commands, parameter, status, type << 10 | flags), code, 0, false);
    ring_doorbell(COMMANDS, 0);
    run();
    SAME(expected[COMMANDS][0].count, 0);
}

static uint64_t scratch, contexts, input;

/* A request without data, or with data in of which `moved` bytes come, into the scratch page. */
static void control_request(uint8_t type, uint8_t code, uint16_t value, uint16_t length, uint32_t moved)
{
    uint64_t words = type | (uint64_t)code << 8 | (uint64_t)value << 16 | (uint64_t)length << 48;
    uint32_t told = draw(2) ? IOC : 0;
    uint64_t here = put(&control, words, 8, SETUP | IDT | told | (length > 0 ? 3 << 16 : 0));
    if (told)
        expect(CONTROL, 0, here, SUCCESS, 0, false);
    if (length > 0) {
        here = put(&control, scratch, length, DATA | DIR_IN | IOC);
        expect(CONTROL, 0, here, moved < length ? SHORT_PACKET : SUCCESS, length - moved, false);
    }
    here = put(&control, 0, 0, STATUS | IOC | (length > 0 ? 0 : DIR_IN));
    expect(CONTROL, 0, here, SUCCESS, 0, false);
    ring_doorbell(CONTROL, 0);
    finish();
}

static uint32_t slot_word(int word)
{
    return (uint32_t)load(contexts + 4 * word, 4);
}

static uint32_t endpoint_state(int endpoint)
{
    return (uint32_t)load(contexts + 32 * endpoint, 4) & 7;
}

/* ---- TDs ---- */

struct piece {
    uint64_t at;
    uint32_t length, flags;
};

static uint64_t places[MOST_TRBS]; /* of the TRBs of the TD that was put last */

/* Puts a TD on a ring, of which `moved` bytes will move, and notes what it is to post (4.10.1, 4.11.5.2): each full TRB with IOC code 1; where
 * the data ends code 13 with what is left, at that TRB where it has ISP or IOC, else at the TD's last TRB; an Event Data TRB, whose
 * parameter is `data`, the number of bytes of the TD. */
static void put_td(int endpoint, int stream, const struct piece *pieces, int count, uint32_t moved, uint64_t data)
{
    struct ring *ring = &pipes[endpoint][stream];
    uint32_t left = moved;
    bool is_short = false, told = false;
    for (int i = 0; i < count; i++) {
        const struct piece *piece = &pieces[i];
        bool last = i == count - 1 && data == 0;
        uint32_t size = draw(32) << 17; /* TD Size, a hint */
        uint64_t here = places[i] = put(ring, piece->at, piece->length | size, NORMAL | piece->flags | (last ? 0 : CH));
        if (!is_short && left >= piece->length) {
            left -= piece->length;
            if (piece->flags & IOC)
                expect(endpoint, stream, here, SUCCESS, 0, false);
        } else if (!is_short || (last && !told && (piece->flags & IOC))) {
            if (piece->flags & (ISP | IOC)) {
                expect(endpoint, stream, here, SHORT_PACKET, piece->length - left, false);
                told = true;
            }
            is_short = true;
            left = 0;
        }
    }
    if (data != 0) {
        put(ring, data, 0, EVENT_DATA | IOC);
        expect(endpoint, stream, data, is_short ? SHORT_PACKET : SUCCESS, moved, true);
    }
}

/* Where a tag's memory is: its command, its status, its data. */
static uint64_t area(int tag)
{
    return HIGH + (uint64_t)(tag - 1) * AREA;
}

/* Puts a COMMAND information unit (UAS) on the command pipe, whole or as three TRBs, of which one may be empty. */
static void put_command(int tag, const uint8_t *cdb)
{
    uint64_t here = area(tag) + draw(800);
    uint8_t *unit = at(here);
    memset(unit, 0, 32);
    unit[0] = UAS_UNIT_COMMAND;
    unit[3] = (uint8_t)tag;
    memcpy(unit + 16, cdb, 16);
    uint32_t first = draw(16), second = draw(16);
    struct piece whole = { here, 32, IOC };
    struct piece parts[3] = { { here, first, 0 }, { here + first, second, 0 }, { here + first + second, 32 - first - second, IOC } };
    if (draw(2) == 0)
        put_td(COMMAND_PIPE, 0, &whole, 1, 32, 0);
    else
        put_td(COMMAND_PIPE, 0, parts, 3, 32, 0);
}

/* Puts a TD for a status of so many bytes, exactly as long or longer. */
static void put_status(int tag, uint32_t length)
{
    struct piece piece = { area(tag) + 0x400, draw(2) ? length : 128, draw(2) ? IOC | ISP : IOC };
    memset(at(piece.at), 0xee, 128);
    put_td(STATUS_PIPE, tag, &piece, 1, length, 0);
}

/* The SENSE information unit that came: GOOD, or CHECK CONDITION with sense data (fixed format). */
static void check_status(int tag, uint32_t sense)
{
    const uint8_t *unit = at(area(tag) + 0x400);
    SAME(unit[0], UAS_UNIT_SENSE);
    SAME(unit[2] << 8 | unit[3], tag);
    SAME(unit[6], sense == 0 ? UAS_GOOD : UAS_CHECK_CONDITION);
    SAME(unit[14] << 8 | unit[15], sense == 0 ? 0 : 18);
    if (sense != 0)
        SAME((uint32_t)(unit[18] & 15) << 16 | (uint32_t)unit[28] << 8 | unit[29], sense);
}

/* A command's status TD and its own, with their doorbells; its data's TD is put already. */
static void begin_command(int tag, const uint8_t *cdb, int endpoint, uint32_t sense)
{
    put_status(tag, sense == 0 ? 16 : 34);
    put_command(tag, cdb);
    ring_doorbell(STATUS_PIPE, tag);
    if (endpoint != 0)
        ring_doorbell(endpoint, tag);
    ring_doorbell(COMMAND_PIPE, 0);
}

static void do_command(int tag, const uint8_t *cdb, int endpoint, uint32_t sense)
{
    begin_command(tag, cdb, endpoint, sense);
    finish();
    check_status(tag, sense);
}

/* READ(10) or WRITE(10), at times with FUA. */
struct cdb {
    uint8_t bytes[16];
};

static struct cdb read_write(bool writes, uint32_t block, uint32_t count)
{
    uint8_t fua = draw(4) == 0 ? 8 : 0, code = writes ? 0x2a : 0x28;
    return (struct cdb){ { code, fua, 0, 0, (uint8_t)(block >> 8), (uint8_t)block, 0, (uint8_t)(count >> 8), (uint8_t)count } };
}

/* Fills pieces with what blocks are to have. */
static void scatter(const struct piece *pieces, int count, uint32_t block)
{
    uint8_t *from = blocks + block * UAS_BLOCK_BYTES;
    for (int i = 0; i < count; from += pieces[i++].length)
        for (uint32_t k = 0, part; k < pieces[i].length; k += part) {
            part = (uint32_t)together(pieces[i].at + k, pieces[i].length - k);
            for (uint32_t m = k; m < k + part; m++)
                from[m] = (uint8_t)draw(256);
            memcpy(at(pieces[i].at + k), from + k, part);
        }
}

/* Compares so many bytes in pieces with what blocks should have; behind them nothing was written. */
static void gather(const struct piece *pieces, int count, uint32_t block, uint32_t moved)
{
    const uint8_t *wanted = blocks + block * UAS_BLOCK_BYTES;
    for (int i = 0; i < count; i++) {
        uint32_t there = moved < pieces[i].length ? moved : pieces[i].length;
        MUST(has(pieces[i].at, wanted, there));
        SAME(*at(pieces[i].at + there), UNTOUCHED);
        wanted += there;
        moved -= there;
    }
}

static void clear(int tag)
{
    fill(area(tag) + 0x1000, UNTOUCHED, AREA - 0x1000);
}

#endif
