/* The driver of random_bulk.c: a controller that offers Bulk-Only Transport beside a second implementation (second_bulk.h), step by step, with what differs; and
 * the requests for blocks, whose answers are late, out of order, or none. */
#ifndef RANDOM_BULK_H
#define RANDOM_BULK_H

#include "bulk_rig.h"

enum { MOST_UNITS = 12, BLOCKS = 64, MOST_OUT = 64, DISK_BYTES = BLOCKS * 4096 };

static struct second_bulk model;
static struct uas_tasks_unit units[MOST_UNITS];
static uint32_t unit_count;
static uint8_t disk[MOST_UNITS][DISK_BYTES];
static uint64_t state, steps, input, requests, answers;
static bool is_slow; /* the driver, which leaves events on a short ring */

static uint64_t drawn(void)
{
    state ^= state << 13;
    state ^= state >> 7;
    state ^= state << 17;
    return state * 0x2545f4914f6cdd1d >> 16;
}

static uint32_t below(uint32_t bound)
{
    return (uint32_t)(drawn() % bound);
}

/* ---- What differs ---- */

static void tell_memory(void)
{
    int told = 0;
    for (uint64_t at = 0; at < SECOND_MEMORY_BYTES && told < 12; at += 16) {
        const uint8_t *one = second_at(&memory, at), *other = second_at(&model.memory, at);
        if (memcmp(one, other, 16) == 0)
            continue;
        fprintf(stderr, "  at %" PRIx64 ": %016" PRIx64 " %08x %08x, second %016" PRIx64 " %08x %08x\n", at, second_long(one), little32(one + 8), little32(one + 12),
                second_long(other), little32(other + 8), little32(other + 12));
        told++;
    }
}

static void tell_ring(int dci)
{
    const struct bulk_endpoint *endpoint = &model.endpoints[dci];
    uint64_t pointer = bulk_dequeue(&model, dci);
    fprintf(stderr, "  endpoint %d: state %u, rung %d, halted %d, moved %u, EDTLA %u, begun %d, ended %u, for %d; ring at %" PRIx64 "\n", dci, endpoint->state,
            endpoint->rung, endpoint->halted, endpoint->front.moved, endpoint->front.transferred, endpoint->front.begun, endpoint->front.ended,
            endpoint->front.purpose, pointer);
    for (uint64_t at = (pointer & ~(uint64_t)15) - 48, i = 0; i < 7 && at < SECOND_MEMORY_BYTES - 16; i++, at += 16) {
        struct second_trb trb = second_trb_at(&model.memory, at);
        fprintf(stderr, "    %" PRIx64 ": %016" PRIx64 " %08x %08x\n", at, trb.parameter, trb.status, trb.control);
    }
}

static void tell_state(void)
{
    const struct bulk_cbw *cbw = &model.cbw;
    static const char *const phases[] = { "awaits a CBW", "moves data", "sends a CSW" };
    tell_memory();
    fprintf(stderr, "  configured %d, alternate %u, broken %d; %s: tag %x, H %u, in %d, LUN %u, CDB", model.configured, model.alternate, model.broken,
            phases[model.phase], cbw->tag, cbw->length, cbw->in, cbw->lun);
    for (int i = 0; i < 16; i++)
        fprintf(stderr, " %02x", cbw->cdb[i]);
    fprintf(stderr, "\n  over %d, own %d, moved %u, the device's %u, chunk %u to %u, gathered %u, sent %u, CSW status %u, residue %u\n", model.over, model.own,
            model.moved, model.devices, model.from, model.to, model.gathered_bytes, model.sent, model.csw[12], little32(model.csw + 8));
    for (int dci = 1; dci < BULK_ENDPOINTS; dci += dci == 1 ? 3 : 1)
        tell_ring(dci);
}

static void agree(bool good, const char *what, int line)
{
    if (good)
        return;
    fflush(stdout);
    fprintf(stderr, "random_bulk: line %d: input %" PRIu64 ", step %" PRIu64 ": %s\n", line, input, steps, what);
    tell_state();
    exit(1);
}
#define AGREE(good) agree((good), #good, __LINE__)

/* ---- Requests ---- */

/* A request that is out, as the library and the second device number it. */
struct out {
    struct uas_request request;
    uint64_t other;
};

static struct out outs[MOST_OUT];
static struct uas_request fresh[BULK_REQUESTS];
static uint32_t out_count, fresh_count;

static size_t bytes_of(const struct uas_request *request)
{
    return (size_t)request->count * units[request->unit].block_bytes;
}

/* The requests that both asked since the last time are the same ones, with the same bytes. */
static void match_requests(void)
{
    static uint8_t one[DISK_BYTES], other[DISK_BYTES];
    AGREE(fresh_count == model.asks);
    for (uint32_t i = 0; i < fresh_count; i++) {
        const struct uas_request *request = &fresh[i], *second = &model.asked[i];
        AGREE(request->unit == second->unit && request->block == second->block && request->count == second->count);
        AGREE(request->kind == second->kind && request->through == second->through);
        if (request->kind == UAS_REQUEST_WRITE || request->kind == UAS_REQUEST_COMPARE) {
            size_t length = bytes_of(request);
            AGREE(uas_xhci_data(xhci, request->number, one, length) == UAS_OK);
            AGREE(uas_tasks_data(model.device, second->number, other, length) == UAS_OK);
            AGREE(memcmp(one, other, length) == 0);
        }
        AGREE(out_count < MOST_OUT);
        outs[out_count++] = (struct out){ *request, second->number };
        requests++;
    }
    fresh_count = model.asks = 0;
}

static void take_requests(void)
{
    while (fresh_count < BULK_REQUESTS && uas_xhci_next_request(xhci, &fresh[fresh_count]))
        fresh_count++;
}

static uint8_t draw_outcome(const struct uas_request *request)
{
    if (below(10) > 0)
        return UAS_DONE;
    uint8_t outcome = (uint8_t)below(4);
    return outcome == UAS_DIFFERS && request->kind != UAS_REQUEST_COMPARE ? UAS_MEDIUM_ERROR : outcome;
}

/* Answers one of the requests that are out, from an array. */
static void answer(void)
{
    static uint8_t written[DISK_BYTES];
    if (out_count == 0)
        return;
    uint32_t which = below(out_count);
    struct out out = outs[which];
    const struct uas_request *request = &out.request;
    uint8_t outcome = draw_outcome(request), *bytes = disk[request->unit] + request->block * units[request->unit].block_bytes;
    size_t length = bytes_of(request);
    outs[which] = outs[--out_count];
    if (request->kind == UAS_REQUEST_WRITE && outcome == UAS_DONE) {
        AGREE(uas_xhci_data(xhci, request->number, written, length) == UAS_OK);
        memcpy(bytes, written, length);
    }
    if (request->kind != UAS_REQUEST_READ || outcome != UAS_DONE)
        length = 0;
    AGREE(uas_xhci_answered(xhci, request->number, outcome, bytes, length) == UAS_OK);
    AGREE(uas_tasks_answered(model.device, out.other, outcome, bytes, length) == UAS_OK);
    bulk_run_device(&model);
    take_requests();
    match_requests();
    answers++;
}

/* ---- Steps ---- */

/* Takes one step of each machine; false where there is none. Then all bytes and requests are the same. That the event ring is full is told without a step. */
static bool step(void)
{
    unsigned long told = model.codes[EVENT_RING_FULL];
    uint32_t taken;
    work(1, &taken);
    take_requests();
    bool acted = bulk_step(&model);
    AGREE(memcmp(memory.bytes, model.memory.bytes, SECOND_MEMORY_BYTES) == 0);
    match_requests();
    AGREE(model.codes[EVENT_RING_FULL] != told || taken == acted);
    steps += acted;
    return acted;
}

static void some_steps(void)
{
    for (uint32_t i = below(3) == 0 ? 0 : below(12); i > 0 && step(); i--)
        ;
}

/* The driver takes all events, or, where it is slow, as many as come. */
static void take_events(bool all)
{
    uint32_t pending = event_places - 1 - second_free_places(&model.events);
    uint32_t taken = all || !is_slow ? pending : below(8) ? 0 : below(pending + 1);
    model.events.dequeue = EVENTS + 16 * (uint64_t)(((model.events.dequeue - EVENTS) / 16 + taken) % event_places);
    if (second_free_places(&model.events) >= 2) /* with one it isn't told again */
        model.events.told_full = false;
    set(ERDP, 8, model.events.dequeue | 8);
}

/* Takes steps, and events where no step is due for want of places. */
static bool step_on(void)
{
    if (step())
        return true;
    if (second_free_places(&model.events) >= 2)
        return false;
    take_events(true);
    return step();
}

static void step_all(void)
{
    while (step_on())
        ;
}

/* A doorbell, whose stream isn't looked at. */
static void ring_both(int dci)
{
    set(DOORBELL + 4, 4, (uint32_t)dci | (below(20) ? 0 : below(300) << 16));
    bulk_doorbell(&model, dci);
}

/* ---- Commands and requests, which end before a pipe's turn comes ---- */

static void issue(uint32_t type, int dci, uint64_t parameter, uint32_t flags)
{
    put(&commands, parameter, 0, type << 10 | (uint32_t)dci << 16 | SLOT_1 | flags);
    set(DOORBELL, 4, 0);
    model.commands.rung = true;
    while (model.commands.rung)
        step_on();
    take_events(false);
}

/* An endpoint, stopped or halted, goes on behind what was put on its ring. */
static void skip_ring(int dci)
{
    const struct ring *ring = dci == 1 ? &control : &pipes[dci];
    uint8_t was = model.endpoints[dci].state;
    if (was == STATE_HALTED)
        issue(TRB_RESET_ENDPOINT, dci, 0, below(3) ? 0 : BIT_PRESERVE);
    else if (was == STATE_RUNNING)
        issue(TRB_STOP_ENDPOINT, dci, 0, 0);
    issue(TRB_SET_DEQUEUE, dci, next_place(ring) | ring->cycle, 0);
}

static void ask(uint16_t code, uint16_t value, uint16_t index, uint16_t length)
{
    put_request(setup_of(code, value, index, length));
    set(DOORBELL + 4, 4, 1);
    bulk_doorbell(&model, 1);
    while (model.endpoints[1].rung && model.endpoints[1].state == STATE_RUNNING)
        step_on();
    if (model.endpoints[1].state != STATE_RUNNING)
        skip_ring(1);
    take_events(false);
}

#endif
