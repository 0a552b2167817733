/* A uas_xhci over memory that is laid out as uas_driver lays its own out: the driver's rings, stream contexts and buffers at their addresses, and
 * beside them what a controller needs more. Its blocks are an array. */
#ifndef GUEST_DISK_H
#define GUEST_DISK_H

#include "uas.h"
#include "uas_xhci.h"
#include <errno.h>
#include <stdio.h>
#include <stdlib.h>
#include <string.h>
#include <sys/mman.h>

/* Each command tag of a client has blocks of its own, so that two commands never meet on one; two blocks are bad. */
enum { CLIENTS = 3, ZONE = 48, BLOCKS = 16 * ZONE, FIRST_BAD = 5 * ZONE + 30, SECOND_BAD = 9 * ZONE + 2, STREAMS = 256, PIPES = 5 };
enum { TABLE = 0x30000000, DCBAA = 0x30001000, CONTEXTS = 0x30002000, INPUT = 0x30003000, SETUP = 0x30004000, CONTROL = 0x30005000 };
enum { ARRAYS = 0x30010000, EVENTS = 0x30020000, EVENT_PLACES = 4096, COMMANDS = 0x50000000 };
enum { USBCMD = 0x40, CRCR = 0x58, DCBAAP = 0x70, CONFIG = 0x78, IMAN = 0x620, ERSTSZ = 0x628, ERSTBA = 0x630, ERDP = 0x638, DOORBELL = 0x800 };
static const uint64_t MEMORY_BYTES = 0x101000000;

struct event {
    uint64_t pointer;
    uint32_t length;
    uint8_t type, code, endpoint, slot;
};

static uint8_t *memory, disk[CLIENTS][BLOCKS * UAS_BLOCK_BYTES];
static uas_xhci *guest;
static uint32_t next_event, next_setup;
static bool event_cycle;

static void fail(const char *what, uint64_t value)
{
    fflush(stdout);
    fprintf(stderr, "%s: %s: %llx\n", program_invocation_short_name, what, (unsigned long long)value);
    exit(1);
}

static void must(bool so, const char *what)
{
    if (!so)
        fail(what, 0);
}

static void store(uint64_t at, int width, uint64_t value)
{
    memcpy(memory + at, &value, (size_t)width);
}

static void set(uint64_t offset, uint8_t width, uint64_t value)
{
    uas_xhci_write(guest, offset, width, value);
}

/* A ring of the driver's for a pipe, by endpoint ID. */
static uint64_t ring_base(uint8_t pipe, uint16_t stream)
{
    return pipe == UAS_PIPE_COMMAND ? 0x41000000 : 0x41000000 + 0x1000000 * (uint64_t)pipe + 0x1000 * (uint64_t)stream;
}

static uint8_t endpoint_of(uint8_t pipe)
{
    static const uint8_t endpoints[PIPES] = { 0, UAS_ENDPOINT_STATUS, UAS_ENDPOINT_DATA_IN, UAS_ENDPOINT_DATA_OUT, UAS_ENDPOINT_COMMAND };
    return endpoints[pipe];
}

static uint64_t context_at(uint8_t pipe, uint16_t stream)
{
    return ARRAYS + 0x1000 * (uint64_t)pipe + 16 * (uint64_t)stream;
}

/* ---- Work ---- */

static bool has(const struct uas_request *request, uint64_t block)
{
    return request->block <= block && block < request->block + request->count;
}

static void answer(const struct uas_request *request)
{
    must(request->unit < CLIENTS && request->block + request->count <= BLOCKS, "a request beyond the disk");
    uint8_t *bytes = disk[request->unit] + request->block * UAS_BLOCK_BYTES;
    size_t length = (size_t)request->count * UAS_BLOCK_BYTES;
    bool moves = request->kind == UAS_REQUEST_READ || request->kind == UAS_REQUEST_WRITE;
    bool bad = moves && (has(request, FIRST_BAD) || has(request, SECOND_BAD));
    if (request->kind == UAS_REQUEST_WRITE && !bad)
        must(uas_xhci_data(guest, request->number, bytes, length) == UAS_OK, "no bytes of a write");
    must(uas_xhci_answered(guest, request->number, bad ? UAS_MEDIUM_ERROR : UAS_DONE, bytes, request->kind == UAS_REQUEST_READ && !bad ? length : 0) == UAS_OK,
         "an answer is refused");
}

/* Works until nothing is left to do. */
static void work(void)
{
    struct uas_region all = { 0, memory, MEMORY_BYTES };
    struct uas_request request;
    for (bool more = true; more;) {
        uint32_t steps;
        must(uas_xhci_work(guest, &all, 1, 1000, &steps, &more) == UAS_OK, "no work");
        while (uas_xhci_next_request(guest, &request)) {
            answer(&request);
            more = true;
        }
    }
}

/* Takes the oldest event off the event ring, if there is one. */
static bool take_event(struct event *event)
{
    const uint8_t *place = memory + EVENTS + 16 * next_event;
    uint32_t words[4];
    memcpy(words, place, sizeof words);
    if ((words[3] & 1) != event_cycle)
        return false;
    *event = (struct event){ words[0] | (uint64_t)words[1] << 32, words[2] & 0xffffff, words[3] >> 10 & 63, (uint8_t)(words[2] >> 24), words[3] >> 16 & 31,
                             (uint8_t)(words[3] >> 24) };
    if (++next_event == EVENT_PLACES) {
        next_event = 0;
        event_cycle = !event_cycle;
    }
    set(ERDP, 8, (EVENTS + 16 * (uint64_t)next_event) | 8);
    return true;
}

/* ---- Setting up (4.2, 4.3, 4.6) ---- */

static struct event command(uint32_t type, uint64_t parameter, uint32_t flags, uint8_t code)
{
    struct event event = { 0 };
    store(SETUP + 16 * (uint64_t)next_setup, 8, parameter);
    store(SETUP + 16 * (uint64_t)next_setup++ + 12, 4, type << 10 | flags | 1);
    set(DOORBELL, 4, 0);
    work();
    must(take_event(&event) && event.type == UAS_TRB_COMMAND_EVENT && event.code == code, "a command of the setup");
    return event;
}

static void set_input(uint32_t adds, uint32_t entries)
{
    memset(memory + INPUT, 0, 1056);
    store(INPUT + 4, 4, adds);
    store(INPUT + 32, 4, entries << 27 | 4 << 20);
    store(INPUT + 36, 4, 2 << 16);
    store(INPUT + 64 + 4, 4, 512u << 16 | 4 << 3 | 3 << 1);
    store(INPUT + 64 + 8, 8, CONTROL | 1);
    store(INPUT + 64 + 16, 4, 8);
}

static void set_pipe(uint8_t pipe)
{
    uint8_t endpoint = endpoint_of(pipe);
    uint64_t at = INPUT + 32 + 32 * (uint64_t)endpoint;
    bool streams = pipe != UAS_PIPE_COMMAND;
    for (uint16_t stream = 1; streams && stream < STREAMS; stream++)
        store(context_at(pipe, stream), 8, ring_base(pipe, stream) | 1 << 1 | 1);
    store(at, 4, streams ? 1 << 15 | 7 << 10 : 0);
    store(at + 4, 4, 1024u << 16 | 15u << 8 | (endpoint % 2 ? 6u : 2u) << 3 | 3u << 1);
    store(at + 8, 8, streams ? context_at(pipe, 0) : ring_base(pipe, 0) | 1);
    store(at + 16, 4, 0x8000);
}

/* Runs the controller with rings of its own, and configures the disk; then its command ring is the driver's. */
static void open_guest(void)
{
    static const struct uas_tasks_unit units[CLIENTS] = { { BLOCKS, 1, UAS_BLOCK_BYTES }, { BLOCKS, 2, UAS_BLOCK_BYTES }, { BLOCKS, 3, UAS_BLOCK_BYTES } };
    struct event event;
    memory = mmap(NULL, MEMORY_BYTES, PROT_READ | PROT_WRITE, MAP_PRIVATE | MAP_ANONYMOUS | MAP_NORESERVE, -1, 0);
    must(memory != MAP_FAILED, "no memory");
    must(uas_xhci_new(units, CLIENTS, UAS_SET_PROFILE, 128, 8, &guest) == UAS_OK, "no controller");
    store(DCBAA + 8, 8, CONTEXTS);
    store(TABLE, 8, EVENTS);
    store(TABLE + 8, 8, EVENT_PLACES);
    event_cycle = true;
    set(CONFIG, 4, 1);
    set(DCBAAP, 8, DCBAA);
    set(CRCR, 8, SETUP | 1);
    set(ERSTSZ, 4, 1);
    set(ERDP, 8, EVENTS);
    set(ERSTBA, 8, TABLE);
    set(IMAN, 4, 2);
    set(USBCMD, 4, 5);
    work();
    must(take_event(&event) && event.type == 34, "no event of the port");
    must(command(9, 0, 0, 1).slot == 1, "another slot");
    set_input(3, 1);
    command(11, INPUT, 1 << 24, 1);
    set_input(0x3d, 5);
    for (uint8_t pipe = UAS_PIPE_STATUS; pipe < PIPES; pipe++)
        set_pipe(pipe);
    command(12, INPUT, 1 << 24, 1);
    store(CONTROL, 8, 0x0000000000010900);
    store(CONTROL + 8, 4, 8);
    store(CONTROL + 12, 4, 2 << 10 | 1 << 6 | 1);
    store(CONTROL + 28, 4, 4 << 10 | 1 << 16 | 1 << 5 | 1);
    set(DOORBELL + 4, 4, 1);
    work();
    must(take_event(&event) && event.type == UAS_TRB_TRANSFER_EVENT && event.code == 1, "no configuration");
    set(CRCR, 8, 2);
    work();
    must(take_event(&event) && event.code == 24, "the command ring goes on");
    set(CRCR, 8, COMMANDS | 1);
}

#endif
