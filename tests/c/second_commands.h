/* A second implementation of the commands that a driver of the four pipes needs beside doorbells: Stop Endpoint, Reset Endpoint and Set TR Dequeue
 * Pointer, from a command ring, one TRB a step, and one event a step where Stop Endpoint finds TDs that were begun. */
#ifndef UAS_TESTS_SECOND_COMMANDS_H
#define UAS_TESTS_SECOND_COMMANDS_H

#include "second_pipes.h"

enum { TRB_RESET_ENDPOINT = 14, TRB_STOP_ENDPOINT = 15, TRB_SET_DEQUEUE = 16, TRB_NO_OP_COMMAND = 23, BIT_PRESERVE = 512 };
enum { CODE_WRONG_STATE = 19, CODE_STOPPED = 26, CODE_STOPPED_LENGTH = 27, CODE_STOPPED_SHORT = 28 };

static inline void second_complete_command(struct second_machine *machine, const struct second_trb *trb, uint8_t code)
{
    uint32_t slot = second_type(trb) == TRB_NO_OP_COMMAND ? 0 : 1u << 24;
    second_post(&machine->memory, &machine->events, trb->at, (uint32_t)code << 24, COMMAND_EVENT << 10 | slot);
    machine->commands.pointer = trb->at + 16;
    machine->commands.stops = 0;
    machine->commands_done[second_type(trb)]++;
    machine->codes[code]++;
}

/* The event of a ring that is stopped in the middle of a TD. */
static inline void second_tell_stopped(struct second_machine *machine, int pipe, uint32_t stream)
{
    const struct second_front *front = &machine->endpoints[pipe].fronts[stream];
    uint64_t pointer = second_long(second_context(machine, pipe, stream));
    struct second_trb trb = second_trb_at(&machine->memory, pointer & ~(uint64_t)15);
    bool there = (trb.control & BIT_CYCLE) == (pointer & 1);
    if (front->ended == CODE_SHORT)
        second_tell(machine, pipe, trb.at, CODE_STOPPED_SHORT, front->transferred, false);
    else if (there && second_type(&trb) == TRB_NORMAL && second_length(&trb) <= TRB_MOST_BYTES)
        second_tell(machine, pipe, trb.at, CODE_STOPPED, second_room(front, &trb), false);
    else
        second_tell(machine, pipe, trb.at, CODE_STOPPED_LENGTH, 0, false);
}

/* The first stream from one on whose TD was begun, or one above all. */
static inline uint32_t second_begun_from(const struct second_endpoint *endpoint, uint32_t stream)
{
    while (stream <= UAS_GREATEST_TAG && !endpoint->fronts[stream].begun)
        stream++;
    return stream;
}

/* The endpoint is stopped with the first event; the command goes on where its doorbell is rung before the last. */
static inline void second_stop(struct second_machine *machine, int pipe, const struct second_trb *trb)
{
    struct second_endpoint *endpoint = &machine->endpoints[pipe];
    uint32_t stream = second_begun_from(endpoint, machine->commands.stops);
    bool begins = machine->commands.stops == 0, tells = stream <= UAS_GREATEST_TAG;
    if (begins && endpoint->state != STATE_RUNNING) {
        second_complete_command(machine, trb, CODE_WRONG_STATE);
        return;
    }
    machine->commands.stops = stream + 1;
    if (tells)
        second_tell_stopped(machine, pipe, stream);
    if (begins) {
        second_set_state(machine, pipe, STATE_STOPPED);
        memset(endpoint->rung, 0, sizeof endpoint->rung);
        endpoint->invalid = false;
    }
    if (!tells)
        second_complete_command(machine, trb, CODE_SUCCESS);
}

static inline void second_forget(struct second_machine *machine, int pipe, uint32_t stream)
{
    memset(&machine->endpoints[pipe].fronts[stream], 0, sizeof(struct second_front));
    if (pipe == PIPE_COMMAND)
        machine->gathered_bytes = 0;
    if (pipe == PIPE_STATUS)
        machine->ways[stream].sent = 0;
    if (pipe == PIPE_IN)
        machine->ways[stream].open = false;
}

static inline void second_reset_endpoint(struct second_machine *machine, int pipe, const struct second_trb *trb)
{
    bool halted = machine->endpoints[pipe].state == STATE_HALTED;
    if (halted) {
        second_set_state(machine, pipe, STATE_STOPPED);
        for (uint32_t stream = 0; stream <= UAS_GREATEST_TAG && !(trb->control & BIT_PRESERVE); stream++)
            second_forget(machine, pipe, stream);
    }
    second_complete_command(machine, trb, halted ? CODE_SUCCESS : CODE_WRONG_STATE);
}

static inline void second_set_dequeue(struct second_machine *machine, int pipe, const struct second_trb *trb)
{
    uint32_t stream = trb->status >> 16;
    uint8_t state = machine->endpoints[pipe].state;
    if (state != STATE_STOPPED && state != STATE_ERROR) {
        second_complete_command(machine, trb, CODE_WRONG_STATE);
        return;
    }
    if (pipe == PIPE_COMMAND ? stream != 0 : stream == 0 || stream >= SECOND_STREAM_ARRAY) {
        second_complete_command(machine, trb, CODE_STREAM);
        return;
    }
    uint8_t *context = second_context(machine, pipe, stream);
    second_put_long(pipe == PIPE_COMMAND ? trb->parameter & ~(uint64_t)14 : trb->parameter, context);
    if (pipe != PIPE_COMMAND)
        memset(context + 8, 0, 8);
    if (stream <= UAS_GREATEST_TAG)
        second_forget(machine, pipe, stream);
    if (state == STATE_ERROR)
        second_set_state(machine, pipe, STATE_STOPPED);
    second_complete_command(machine, trb, CODE_SUCCESS);
}

/* The command ring's turn, which comes before those of the pipes. */
static inline bool second_controller_turn(struct second_machine *machine)
{
    struct second_command_ring *ring = &machine->commands;
    bool acted;
    if (!ring->rung)
        return false;
    if (!second_has_room(&machine->memory, &machine->events, &acted))
        return acted;
    struct second_trb trb = second_trb_at(&machine->memory, ring->pointer);
    int pipe = trb.control >> 16 & 31;
    if ((trb.control & BIT_CYCLE) != ring->cycle) {
        ring->rung = false;
        return true;
    }
    switch (second_type(&trb)) {
    case TRB_LINK:
        ring->pointer = trb.parameter & ~(uint64_t)15;
        ring->cycle ^= trb.control >> 1 & 1;
        break;
    case TRB_STOP_ENDPOINT:
        second_stop(machine, pipe, &trb);
        break;
    case TRB_RESET_ENDPOINT:
        second_reset_endpoint(machine, pipe, &trb);
        break;
    case TRB_SET_DEQUEUE:
        second_set_dequeue(machine, pipe, &trb);
        break;
    default:
        second_complete_command(machine, &trb, CODE_SUCCESS);
    }
    return true;
}

/* Takes a step of the machine; false where no turn acts. */
static inline bool second_step(struct second_machine *machine)
{
    return second_controller_turn(machine) || second_pipes_step(machine);
}

#endif
