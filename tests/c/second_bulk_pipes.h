/* A second implementation of what the turns of Bulk-Only Transport's pipes stand on: contexts, events, the TRB in front, and TRBs that move no byte. */
#ifndef UAS_TESTS_SECOND_BULK_PIPES_H
#define UAS_TESTS_SECOND_BULK_PIPES_H

#include "second_bulk_data.h"

enum { STATE_RUNNING = 1, STATE_HALTED = 2, STATE_STOPPED = 3, STATE_ERROR = 4 };
enum { CODE_SUCCESS = 1, CODE_BUFFER = 2, CODE_BABBLE = 3, CODE_TRANSACTION = 4, CODE_TRB = 5, CODE_STALL = 6, CODE_SHORT = 13 };
enum { BIT_CYCLE = 1, BIT_TOGGLE = 2, BIT_ISP = 4, BIT_CHAIN = 16, BIT_IOC = 32, BIT_IMMEDIATE = 64, BIT_IN = 1 << 16 };
enum { TRB_NORMAL = 1, TRB_SETUP = 2, TRB_DATA = 3, TRB_STATUS = 4, TRB_LINK = 6, TRB_EVENT_DATA = 7, TRB_NO_OP = 8, TRB_MOST_BYTES = 65536 };
enum bulk_found { FOUND_NOTHING, FOUND_ACTED, FOUND_TRB };

/* ---- Memory, contexts (6.2.3), events ---- */

static inline void bulk_write(struct second_bulk *bulk, uint64_t at, const uint8_t *bytes, size_t length)
{
    memcpy(second_at(&bulk->memory, at), bytes, length);
}

static inline uint64_t bulk_context(const struct second_bulk *bulk, int dci)
{
    return bulk->contexts + 32 * (uint64_t)dci;
}

static inline uint64_t bulk_dequeue(struct second_bulk *bulk, int dci)
{
    return second_long(second_at(&bulk->memory, bulk_context(bulk, dci) + 8));
}

static inline void bulk_set_dequeue(struct second_bulk *bulk, int dci, uint64_t pointer)
{
    uint8_t bytes[8];
    second_put_long(pointer, bytes);
    bulk_write(bulk, bulk_context(bulk, dci) + 8, bytes, sizeof bytes);
}

static inline void bulk_set_state(struct second_bulk *bulk, int dci, uint8_t state)
{
    uint64_t at = bulk_context(bulk, dci);
    uint8_t byte = (uint8_t)((*second_at(&bulk->memory, at) & ~7) | state);
    bulk->endpoints[dci].state = state;
    bulk_write(bulk, at, &byte, 1);
}

static inline void bulk_post(struct second_bulk *bulk, uint64_t parameter, uint8_t code, uint32_t length, uint32_t control)
{
    second_post(&bulk->memory, &bulk->events, parameter, (length & 0xffffff) | (uint32_t)code << 24, control);
    bulk->codes[code]++;
}

static inline void bulk_tell(struct second_bulk *bulk, int dci, uint64_t pointer, uint8_t code, uint32_t length, bool data)
{
    bulk_post(bulk, pointer, code, length, TRANSFER_EVENT << 10 | (uint32_t)dci << 16 | 1u << 24 | (data ? 4 : 0));
}

/* Whether a step may post; where it may not, *acted is whether that was told by now. */
static inline bool bulk_has_room(struct second_bulk *bulk, bool *acted)
{
    bool has = second_has_room(&bulk->memory, &bulk->events, acted);
    bulk->codes[EVENT_RING_FULL] += *acted;
    return has;
}

/* ---- The TRB in front ---- */

static inline uint32_t bulk_type(const struct second_trb *trb)
{
    return trb->control >> 10 & 63;
}

static inline uint32_t bulk_length(const struct second_trb *trb)
{
    return trb->status & 0x1ffff;
}

static inline uint32_t bulk_left(const struct bulk_front *front, const struct second_trb *trb)
{
    return bulk_length(trb) > front->moved ? bulk_length(trb) - front->moved : 0;
}

static inline enum bulk_found bulk_look(struct second_bulk *bulk, int dci, struct second_trb *trb)
{
    struct bulk_endpoint *endpoint = &bulk->endpoints[dci];
    bool acted;
    if (endpoint->state != STATE_RUNNING || !endpoint->rung)
        return FOUND_NOTHING;
    if (!bulk_has_room(bulk, &acted))
        return acted ? FOUND_ACTED : FOUND_NOTHING;
    uint64_t pointer = bulk_dequeue(bulk, dci);
    *trb = second_trb_at(&bulk->memory, pointer & ~(uint64_t)15);
    if ((trb->control & BIT_CYCLE) == (pointer & 1))
        return FOUND_TRB;
    endpoint->rung = false;
    return FOUND_ACTED;
}

static inline void bulk_move_on(struct second_bulk *bulk, int dci, uint64_t next, bool chained)
{
    struct bulk_front *front = &bulk->endpoints[dci].front;
    bulk_set_dequeue(bulk, dci, next);
    front->moved = 0;
    front->begun = true;
    if (!chained)
        memset(front, 0, sizeof *front);
}

static inline void bulk_consume(struct second_bulk *bulk, int dci, const struct second_trb *trb)
{
    bulk_move_on(bulk, dci, (trb->at + 16) | (trb->control & BIT_CYCLE), trb->control & BIT_CHAIN);
}

static inline void bulk_halt(struct second_bulk *bulk, int dci, const struct second_trb *trb, uint8_t code)
{
    bulk_tell(bulk, dci, trb->at, code, bulk_left(&bulk->endpoints[dci].front, trb), false);
    bulk_set_state(bulk, dci, STATE_HALTED);
}

static inline void bulk_take_link(struct second_bulk *bulk, int dci, const struct second_trb *trb)
{
    bool cycle = (trb->control & BIT_CYCLE) != (trb->control >> 1 & 1);
    if (trb->control & BIT_IOC)
        bulk_tell(bulk, dci, trb->at, CODE_SUCCESS, 0, false);
    bulk_move_on(bulk, dci, (trb->parameter & ~(uint64_t)15) | cycle, bulk->endpoints[dci].front.begun);
}

static inline void bulk_take_event_data(struct second_bulk *bulk, int dci, const struct second_trb *trb)
{
    struct bulk_front *front = &bulk->endpoints[dci].front;
    if (trb->control & BIT_IOC) {
        bulk_tell(bulk, dci, trb->parameter, front->ended != 0 ? front->ended : CODE_SUCCESS, front->transferred, true);
        front->owes = false;
    }
    front->transferred = 0;
    bulk_consume(bulk, dci, trb);
}

/* A Normal TRB of a TD whose rest is skipped. */
static inline void bulk_skip(struct second_bulk *bulk, int dci, const struct second_trb *trb)
{
    const struct bulk_front *front = &bulk->endpoints[dci].front;
    if (front->owes && (trb->control & BIT_IOC) && !(trb->control & BIT_CHAIN))
        bulk_tell(bulk, dci, trb->at, front->ended, bulk_length(trb), false);
    bulk_consume(bulk, dci, trb);
}

/* Takes what isn't a Normal TRB to be moved: true where that was so. */
static inline bool bulk_take_other(struct second_bulk *bulk, int dci, const struct second_trb *trb)
{
    const struct bulk_front *front = &bulk->endpoints[dci].front;
    switch (bulk_type(trb)) {
    case TRB_LINK:
        bulk_take_link(bulk, dci, trb);
        return true;
    case TRB_NO_OP:
        if ((trb->control & BIT_IOC) && front->ended == 0)
            bulk_tell(bulk, dci, trb->at, CODE_SUCCESS, 0, false);
        bulk_consume(bulk, dci, trb);
        return true;
    case TRB_EVENT_DATA:
        bulk_take_event_data(bulk, dci, trb);
        return true;
    }
    if (bulk_type(trb) != TRB_NORMAL || bulk_length(trb) > TRB_MOST_BYTES) {
        bulk_tell(bulk, dci, trb->at, CODE_TRB, 0, false);
        bulk_set_state(bulk, dci, STATE_ERROR);
        return true;
    }
    if (front->ended == 0)
        return false;
    bulk_skip(bulk, dci, trb);
    return true;
}

static inline void bulk_no_buffer(struct second_bulk *bulk, int dci, const struct second_trb *trb)
{
    bulk_tell(bulk, dci, trb->at, CODE_BUFFER, bulk_length(trb), false);
    bulk->endpoints[dci].front.ended = CODE_BUFFER;
    bulk_consume(bulk, dci, trb);
}

static inline void bulk_end_short(struct second_bulk *bulk, int dci, const struct second_trb *trb)
{
    struct bulk_front *front = &bulk->endpoints[dci].front;
    bool tells = trb->control & (BIT_IOC | BIT_ISP);
    if (tells)
        bulk_tell(bulk, dci, trb->at, CODE_SHORT, bulk_left(front, trb), false);
    front->ended = CODE_SHORT;
    front->owes = !tells;
    bulk_consume(bulk, dci, trb);
}

static inline void bulk_moved(struct second_bulk *bulk, int dci, const struct second_trb *trb, uint32_t bytes)
{
    struct bulk_front *front = &bulk->endpoints[dci].front;
    front->moved += bytes;
    front->transferred += bytes;
    front->begun = true;
    if (front->moved < bulk_length(trb))
        return;
    if (trb->control & BIT_IOC)
        bulk_tell(bulk, dci, trb->at, CODE_SUCCESS, 0, false);
    bulk_consume(bulk, dci, trb);
}

/* The bytes of a TRB to the device, from those that were moved on; NULL where some aren't there. */
static inline const uint8_t *bulk_source(struct second_bulk *bulk, const struct bulk_front *front, const struct second_trb *trb, uint32_t bytes)
{
    static uint8_t immediate[8];
    if ((trb->control & BIT_IMMEDIATE) && bulk_length(trb) <= 8) {
        second_put_long(trb->parameter, immediate);
        return immediate + front->moved;
    }
    if (!second_is_there(&bulk->memory, trb->parameter + front->moved, bytes))
        return NULL;
    return second_at(&bulk->memory, trb->parameter + front->moved);
}

#endif
