/* A second implementation of the turns of Bulk-Out and Bulk-In in Bulk-Only Transport: what each TD there is told, one TRB or chunk a step. */
#ifndef UAS_TESTS_SECOND_BULK_TURNS_H
#define UAS_TESTS_SECOND_BULK_TURNS_H

#include "second_bulk_pipes.h"

/* Why the disk doesn't serve a pipe: the code, or 0. */
static inline uint8_t bulk_unserved(const struct second_bulk *bulk, int dci)
{
    return bulk->silent || !bulk->configured ? CODE_TRANSACTION : bulk->endpoints[dci].halted || bulk->alternate == 1 ? CODE_STALL : 0;
}

/* A TRB of length 0 of the data's pipe is full, also while a request is out. The page leaves it open. */
static inline bool bulk_is_full(const struct second_bulk *bulk, int dci, const struct second_trb *trb)
{
    return bulk->phase == MOVES_DATA && bulk->cbw.in == (dci == BULK_IN) && bulk->moved < bulk->cbw.length && bulk_left(&bulk->endpoints[dci].front, trb) == 0;
}

/* ---- Bulk-Out ---- */

/* A TD's bytes beyond the data of its command: bytes in wait for the next status where a reset ended that command. */
static inline bool bulk_is_beyond(const struct second_bulk *bulk, int dci)
{
    bool is_data = bulk->phase == MOVES_DATA && bulk->moved < bulk->cbw.length && bulk->cbw.in == (dci == BULK_IN);
    return bulk->endpoints[dci].front.purpose == FOR_DATA && !is_data && (dci == BULK_OUT || bulk->phase != AWAITS_CBW);
}

/* A TRB is there that goes on with the data, or, on Bulk-In behind them, takes the status: the case shows. True where that halted the pipe. */
static inline bool bulk_settle_at(struct second_bulk *bulk, int dci, const struct second_trb *trb)
{
    bool moved = bulk->moved == bulk->cbw.length, is_data = bulk->cbw.in == (dci == BULK_IN) && !moved;
    if (bulk->phase != MOVES_DATA || bulk_is_beyond(bulk, dci) || (is_data ? bulk_left(&bulk->endpoints[dci].front, trb) == 0 : dci == BULK_OUT || !moved))
        return false;
    bulk_settle(bulk);
    return bulk->endpoints[dci].halted;
}

static inline bool bulk_wants_out(struct second_bulk *bulk)
{
    uint64_t takes;
    if (bulk->endpoints[BULK_OUT].front.ended != 0 || bulk_is_beyond(bulk, BULK_OUT) || bulk->phase == AWAITS_CBW)
        return true;
    return bulk->phase == MOVES_DATA && !bulk->cbw.in && bulk->moved < bulk->cbw.length &&
           (bulk->over || bulk_next(bulk, &takes) == UAS_TAKES);
}

/* A TRB of a CBW's TD: gathered up to a bound, taken whole; false where it isn't there, and then the TD is none. */
static inline bool bulk_gather(struct second_bulk *bulk, const struct second_trb *trb)
{
    struct bulk_front *front = &bulk->endpoints[BULK_OUT].front;
    uint32_t length = bulk_left(front, trb), room = BULK_GATHERED - bulk->gathered_bytes, bytes = length < room ? length : room;
    const uint8_t *from = bytes > 0 ? bulk_source(bulk, front, trb, bytes) : bulk->gathered;
    if (from == NULL) {
        bulk->gathered_bytes = 0;
        front->purpose = FOR_NOTHING;
        bulk_no_buffer(bulk, BULK_OUT, trb);
        return false;
    }
    front->purpose = FOR_CBW;
    memmove(bulk->gathered + bulk->gathered_bytes, from, bytes);
    bulk->gathered_bytes += bytes;
    bulk_moved(bulk, BULK_OUT, trb, length);
    return true;
}

static inline void bulk_take_data(struct second_bulk *bulk, const struct second_trb *trb)
{
    struct bulk_front *front = &bulk->endpoints[BULK_OUT].front;
    uint32_t left = bulk_left(front, trb);
    if (bulk->over) { /* what is dropped isn't read */
        front->purpose = FOR_DATA;
        bulk_drop(bulk, left);
        bulk_moved(bulk, BULK_OUT, trb, left);
        return;
    }
    uint32_t bytes = bulk_room(bulk, left);
    const uint8_t *from = bulk_source(bulk, front, trb, bytes);
    if (from == NULL) {
        bulk_no_buffer(bulk, BULK_OUT, trb);
        return;
    }
    front->purpose = FOR_DATA;
    bulk_take(bulk, from, bytes);
    bulk_moved(bulk, BULK_OUT, trb, bytes);
}

static inline bool bulk_out_turn(struct second_bulk *bulk)
{
    struct bulk_front *front = &bulk->endpoints[BULK_OUT].front;
    struct second_trb trb;
    uint8_t unserved = bulk_unserved(bulk, BULK_OUT);
    if (unserved == 0 && bulk_halts_wrong(bulk, BULK_OUT))
        return true;
    enum bulk_found found = bulk_look(bulk, BULK_OUT, &trb);
    if (found != FOUND_TRB)
        return found == FOUND_ACTED;
    bool gathers = front->purpose == FOR_CBW && front->ended == 0;
    if (bulk_take_other(bulk, BULK_OUT, &trb))
        ;
    else if (unserved != 0) {
        bulk_halt(bulk, BULK_OUT, &trb, unserved);
        return true;
    } else if (bulk_settle_at(bulk, BULK_OUT, &trb))
        return true;
    else if (!bulk_is_full(bulk, BULK_OUT, &trb) && !bulk_wants_out(bulk))
        return false;
    else if (bulk_is_beyond(bulk, BULK_OUT) || bulk_is_full(bulk, BULK_OUT, &trb))
        bulk_moved(bulk, BULK_OUT, &trb, bulk_left(front, &trb));
    else if (bulk->phase == AWAITS_CBW)
        gathers = bulk_gather(bulk, &trb);
    else
        bulk_take_data(bulk, &trb);
    if (gathers && !front->begun && bulk->phase == AWAITS_CBW && bulk->endpoints[BULK_OUT].state == STATE_RUNNING)
        bulk_receive(bulk);
    return true;
}

/* ---- Bulk-In ---- */

static inline bool bulk_wants_in(struct second_bulk *bulk)
{
    uint64_t gives;
    if (bulk->endpoints[BULK_IN].front.ended != 0 || bulk_is_beyond(bulk, BULK_IN) || bulk->phase == SENDS_CSW)
        return true;
    if (bulk->phase != MOVES_DATA || !bulk->cbw.in || bulk->moved == bulk->cbw.length)
        return false;
    return bulk->from < bulk->to || bulk->over || bulk_next(bulk, &gives) == UAS_GIVES;
}

static inline void bulk_give_data(struct second_bulk *bulk, const struct second_trb *trb)
{
    static uint8_t bytes[BULK_PIECE];
    struct bulk_front *front = &bulk->endpoints[BULK_IN].front;
    uint32_t count = bulk_offer(bulk, bytes, bulk_left(front, trb));
    if (!second_is_there(&bulk->memory, trb->parameter + front->moved, count)) {
        bulk_no_buffer(bulk, BULK_IN, trb);
        return;
    }
    front->purpose = FOR_DATA;
    bulk_give(bulk, count);
    bulk_write(bulk, trb->parameter + front->moved, bytes, count);
    bulk_moved(bulk, BULK_IN, trb, count);
}

static inline void bulk_sent(struct second_bulk *bulk)
{
    bulk->phase = AWAITS_CBW;
    bulk->sent = 0;
}

/* The TD ends with the TRB and has no place for the rest of the CSW, which the next one gets whole. */
static inline void bulk_babble(struct second_bulk *bulk, const struct second_trb *trb)
{
    bulk_tell(bulk, BULK_IN, trb->at, CODE_BABBLE, 0, false);
    bulk_consume(bulk, BULK_IN, trb);
    bulk->sent = 0;
    bulk_set_state(bulk, BULK_IN, STATE_HALTED);
}

static inline void bulk_send(struct second_bulk *bulk, const struct second_trb *trb)
{
    struct bulk_front *front = &bulk->endpoints[BULK_IN].front;
    uint32_t room = bulk_left(front, trb), left = CSW_BYTES - bulk->sent, bytes = left < room ? left : room;
    if (bytes > 0 && !second_is_there(&bulk->memory, trb->parameter + front->moved, bytes)) {
        bulk->sent = 0;
        bulk_no_buffer(bulk, BULK_IN, trb);
        return;
    }
    front->purpose = FOR_CSW;
    if (bytes > 0)
        bulk_write(bulk, trb->parameter + front->moved, bulk->csw + bulk->sent, bytes);
    bulk->sent += bytes;
    if (bytes < room) {
        front->moved += bytes;
        front->transferred += bytes;
        bulk_end_short(bulk, BULK_IN, trb);
        bulk_sent(bulk);
    } else if (bulk->sent < CSW_BYTES && !(trb->control & BIT_CHAIN))
        bulk_babble(bulk, trb);
    else {
        bulk_moved(bulk, BULK_IN, trb, bytes);
        if (!front->begun)
            bulk_sent(bulk);
    }
}

static inline bool bulk_in_turn(struct second_bulk *bulk)
{
    struct bulk_front *front = &bulk->endpoints[BULK_IN].front;
    struct second_trb trb;
    uint8_t unserved = bulk_unserved(bulk, BULK_IN);
    if (unserved == 0 && bulk_halts_wrong(bulk, BULK_IN))
        return true;
    enum bulk_found found = bulk_look(bulk, BULK_IN, &trb);
    if (found != FOUND_TRB)
        return found == FOUND_ACTED;
    bool ends = (bulk_type(&trb) == TRB_NO_OP || bulk_type(&trb) == TRB_EVENT_DATA) && !(trb.control & BIT_CHAIN);
    bool sends = bulk->phase == SENDS_CSW && front->purpose == FOR_CSW && front->ended == 0;
    if (sends && ends && bulk->sent > 0 && bulk->sent < CSW_BYTES)
        bulk_babble(bulk, &trb);
    else if (bulk_take_other(bulk, BULK_IN, &trb)) {
        if (sends && ends && bulk->sent == CSW_BYTES)
            bulk_sent(bulk);
    } else if (unserved != 0)
        bulk_halt(bulk, BULK_IN, &trb, unserved);
    else if (bulk_settle_at(bulk, BULK_IN, &trb))
        return true;
    else if (!bulk_is_full(bulk, BULK_IN, &trb) && !bulk_wants_in(bulk))
        return false;
    else if (bulk_is_beyond(bulk, BULK_IN) && bulk_left(front, &trb) > 0)
        bulk_end_short(bulk, BULK_IN, &trb);
    else if (bulk->phase != SENDS_CSW && bulk_left(front, &trb) == 0)
        bulk_moved(bulk, BULK_IN, &trb, 0);
    else if (bulk_is_beyond(bulk, BULK_IN))
        bulk_moved(bulk, BULK_IN, &trb, 0);
    else if (bulk->phase == MOVES_DATA)
        bulk_give_data(bulk, &trb);
    else
        bulk_send(bulk, &trb);
    return true;
}

#endif
