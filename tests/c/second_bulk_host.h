/* A second implementation of what a host does beside TDs of Bulk-Only Transport: commands of the controller, requests of endpoint 0, a reset of the
 * port. A step is the first turn that acts: port, command ring, endpoint 0, Bulk-Out, Bulk-In. */
#ifndef UAS_TESTS_SECOND_BULK_HOST_H
#define UAS_TESTS_SECOND_BULK_HOST_H

#include "second_bulk_turns.h"

enum { TRB_RESET_ENDPOINT = 14, TRB_STOP_ENDPOINT = 15, TRB_SET_DEQUEUE = 16, TRB_NO_OP_COMMAND = 23, BIT_PRESERVE = 512, PORT_EVENT = 34 };
enum { CODE_WRONG_STATE = 19, CODE_STOPPED = 26, CODE_STOPPED_LENGTH = 27, CODE_STOPPED_SHORT = 28 };

/* ---- Commands ---- */

static inline void bulk_complete(struct second_bulk *bulk, const struct second_trb *trb, uint8_t code)
{
    uint32_t slot = bulk_type(trb) == TRB_NO_OP_COMMAND ? 0 : 1u << 24;
    bulk_post(bulk, trb->at, code, 0, COMMAND_EVENT << 10 | slot);
    bulk->commands.pointer = trb->at + 16;
    bulk->commands.stops = 0;
}

static inline void bulk_tell_stopped(struct second_bulk *bulk, int dci)
{
    const struct bulk_front *front = &bulk->endpoints[dci].front;
    uint64_t pointer = bulk_dequeue(bulk, dci);
    struct second_trb trb = second_trb_at(&bulk->memory, pointer & ~(uint64_t)15);
    bool there = (trb.control & BIT_CYCLE) == (pointer & 1);
    if (front->ended == CODE_SHORT)
        bulk_tell(bulk, dci, trb.at, CODE_STOPPED_SHORT, front->transferred, false);
    else if (there && bulk_type(&trb) == TRB_NORMAL && bulk_length(&trb) <= TRB_MOST_BYTES)
        bulk_tell(bulk, dci, trb.at, CODE_STOPPED, bulk_left(front, &trb), false);
    else
        bulk_tell(bulk, dci, trb.at, CODE_STOPPED_LENGTH, 0, false);
}

/* A step with the event of a TD that was begun, and one that completes. */
static inline void bulk_stop(struct second_bulk *bulk, int dci, const struct second_trb *trb)
{
    struct bulk_endpoint *endpoint = &bulk->endpoints[dci];
    bool begins = bulk->commands.stops == 0, tells = begins && endpoint->front.begun;
    if (begins && endpoint->state != STATE_RUNNING) {
        bulk_complete(bulk, trb, CODE_WRONG_STATE);
        return;
    }
    bulk->commands.stops = 1;
    if (tells)
        bulk_tell_stopped(bulk, dci);
    if (begins) {
        bulk_set_state(bulk, dci, STATE_STOPPED);
        endpoint->rung = false;
    }
    if (!tells)
        bulk_complete(bulk, trb, CODE_SUCCESS);
}

static inline void bulk_forget(struct second_bulk *bulk, int dci)
{
    memset(&bulk->endpoints[dci].front, 0, sizeof(struct bulk_front));
    if (dci == BULK_OUT)
        bulk->gathered_bytes = 0;
    if (dci == BULK_IN)
        bulk->sent = 0;
}

static inline void bulk_reset_endpoint(struct second_bulk *bulk, int dci, const struct second_trb *trb)
{
    bool halted = bulk->endpoints[dci].state == STATE_HALTED;
    if (halted)
        bulk_set_state(bulk, dci, STATE_STOPPED);
    if (halted && !(trb->control & BIT_PRESERVE))
        bulk_forget(bulk, dci);
    bulk_complete(bulk, trb, halted ? CODE_SUCCESS : CODE_WRONG_STATE);
}

static inline void bulk_set_dequeue_of(struct second_bulk *bulk, int dci, const struct second_trb *trb)
{
    uint8_t state = bulk->endpoints[dci].state;
    if (state != STATE_STOPPED && state != STATE_ERROR) {
        bulk_complete(bulk, trb, CODE_WRONG_STATE);
        return;
    }
    bulk_set_dequeue(bulk, dci, trb->parameter & ~(uint64_t)14);
    bulk_forget(bulk, dci);
    if (state == STATE_ERROR)
        bulk_set_state(bulk, dci, STATE_STOPPED);
    bulk_complete(bulk, trb, CODE_SUCCESS);
}

static inline bool bulk_command_turn(struct second_bulk *bulk)
{
    struct bulk_commands *ring = &bulk->commands;
    bool acted;
    if (!ring->rung)
        return false;
    if (!bulk_has_room(bulk, &acted))
        return acted;
    struct second_trb trb = second_trb_at(&bulk->memory, ring->pointer);
    int dci = trb.control >> 16 & 31;
    if ((trb.control & BIT_CYCLE) != ring->cycle) {
        ring->rung = false;
        return true;
    }
    switch (bulk_type(&trb)) {
    case TRB_LINK:
        ring->pointer = trb.parameter & ~(uint64_t)15;
        ring->cycle ^= trb.control >> 1 & 1;
        break;
    case TRB_STOP_ENDPOINT:
        bulk_stop(bulk, dci, &trb);
        break;
    case TRB_RESET_ENDPOINT:
        bulk_reset_endpoint(bulk, dci, &trb);
        break;
    case TRB_SET_DEQUEUE:
        bulk_set_dequeue_of(bulk, dci, &trb);
        break;
    default:
        bulk_complete(bulk, &trb, CODE_SUCCESS);
    }
    return true;
}

/* ---- Endpoint 0 (USB 9.4, BOT 3) ---- */

/* The endpoint that a request names, where it is one of the current alternate's, else 0; -1 is endpoint 0. */
static inline int bulk_named(const struct second_bulk *bulk, uint8_t address)
{
    switch (address) {
    case 0x02:
        return BULK_OUT;
    case 0x82:
        return BULK_IN;
    case 0x01:
        return bulk->alternate == 1 ? 2 : 0;
    case 0x81:
        return bulk->alternate == 1 ? 3 : 0;
    }
    return address == 0x00 ? -1 : 0;
}

static inline void bulk_read_request(struct second_bulk *bulk)
{
    struct bulk_control *control = &bulk->control;
    const uint8_t *setup = control->setup;
    int named = bulk_named(bulk, setup[4]);
    memset(control->answer, 0, sizeof control->answer);
    control->length = (uint32_t)setup[6] | (uint32_t)setup[7] << 8;
    control->stalls = false;
    switch (setup[0] << 8 | setup[1]) {
    case 0x8200: /* GET_STATUS of an endpoint */
        control->stalls = named == 0;
        control->answer[0] = named > 0 && bulk->endpoints[named].halted;
        break;
    case 0x810a: /* GET_INTERFACE */
        control->answer[0] = bulk->alternate;
        break;
    case 0xa1fe: /* Get Max LUN */
        control->answer[0] = bulk->most_lun;
        control->stalls = bulk->alternate == 1;
        break;
    case 0x21ff: /* Bulk-Only Mass Storage Reset */
        control->stalls = bulk->alternate == 1;
        break;
    case 0x010b: /* SET_INTERFACE */
        control->stalls = setup[2] > 1;
        break;
    case 0x0201: case 0x0203: /* CLEAR_FEATURE, SET_FEATURE of ENDPOINT_HALT */
        control->stalls = named <= 0;
        break;
    }
}

/* What a request does that isn't stalled, once its Status Stage is over. */
static inline void bulk_do_request(struct second_bulk *bulk)
{
    const uint8_t *setup = bulk->control.setup;
    int named = bulk_named(bulk, setup[4]);
    switch (setup[0] << 8 | setup[1]) {
    case 0x0009:
        bulk_clear(bulk, 0);
        bulk->configured = setup[2] == 1;
        break;
    case 0x010b:
        bulk_clear(bulk, setup[2]);
        break;
    case 0x21ff:
        bulk_reset(bulk);
        break;
    case 0x0201:
        if (named > 0 && !bulk->broken)
            bulk->endpoints[named].halted = false;
        break;
    case 0x0203:
        if (named > 0)
            bulk->endpoints[named].halted = true;
        break;
    }
}

static inline void bulk_stage(struct second_bulk *bulk, const struct second_trb *trb)
{
    struct bulk_control *control = &bulk->control;
    uint32_t type = bulk_type(trb);
    if (bulk->silent) {
        bulk_halt(bulk, 1, trb, CODE_TRANSACTION);
        return;
    }
    if (type == TRB_SETUP) {
        second_put_long(trb->parameter, control->setup);
        bulk_read_request(bulk);
    } else if (control->stalls) {
        bulk_tell(bulk, 1, trb->at, CODE_STALL, bulk_length(trb), false);
        bulk_set_state(bulk, 1, STATE_HALTED);
        return;
    } else if (type == TRB_DATA)
        bulk_write(bulk, trb->parameter, control->answer, control->length);
    else
        bulk_do_request(bulk);
    if (trb->control & BIT_IOC)
        bulk_tell(bulk, 1, trb->at, CODE_SUCCESS, 0, false);
    bulk_consume(bulk, 1, trb);
}

static inline bool bulk_control_turn(struct second_bulk *bulk)
{
    struct second_trb trb;
    enum bulk_found found = bulk_look(bulk, 1, &trb);
    if (found != FOUND_TRB)
        return found == FOUND_ACTED;
    if (bulk_type(&trb) == TRB_LINK)
        bulk_take_link(bulk, 1, &trb);
    else
        bulk_stage(bulk, &trb);
    return true;
}

/* ---- The port, and steps ---- */

/* A reset of the port, or the disk is pulled: it isn't configured, and each logical unit owes an attention. */
static inline void bulk_port_reset(struct second_bulk *bulk)
{
    bulk_clear(bulk, 0);
    bulk->kept = false;
    bulk->configured = false;
    uas_tasks_reset(bulk->device);
    bulk->port_events++;
}

static inline bool bulk_port_turn(struct second_bulk *bulk)
{
    bool acted;
    if (bulk->port_events == 0)
        return false;
    if (!bulk_has_room(bulk, &acted))
        return acted;
    bulk->port_events = 0;
    bulk_post(bulk, 2 << 24, CODE_SUCCESS, 0, PORT_EVENT << 10);
    return true;
}

/* Takes a step; false where no turn acts. */
static inline bool bulk_step(struct second_bulk *bulk)
{
    unsigned long told = bulk->codes[EVENT_RING_FULL];
    bool acted = bulk_port_turn(bulk) || bulk_command_turn(bulk);
    if (!acted && !bulk->suspended)
        acted = bulk_control_turn(bulk) || bulk_out_turn(bulk) || bulk_in_turn(bulk);
    /* a full event ring holds back all but a halt, which posts nothing */
    if (bulk->codes[EVENT_RING_FULL] != told && !bulk->suspended)
        for (int dci = BULK_OUT; dci <= BULK_IN; dci++)
            if (bulk_unserved(bulk, dci) == 0)
                bulk_halts_wrong(bulk, dci);
    bulk_run_device(bulk);
    return acted;
}

static inline void bulk_doorbell(struct second_bulk *bulk, int dci)
{
    struct bulk_endpoint *endpoint = &bulk->endpoints[dci];
    if (endpoint->state != STATE_RUNNING && endpoint->state != STATE_STOPPED)
        return;
    endpoint->rung = true;
    if (endpoint->state == STATE_STOPPED)
        bulk_set_state(bulk, dci, STATE_RUNNING);
}

#endif
