/* A second implementation of the four pipes of a controller over a caller's memory: the command pipe, statuses, data out and data in, one TRB
 * or one chunk a step. Its device is that of second_tasks.h.
 *
 * A step is the first turn that acts: the command pipe's, doorbells of streams that aren't there, then each tag's with a task in rising order,
 * data before status. A turn looks at its endpoint's state, the room of the event ring, the stream's context, and the TRB in front. */
#ifndef UAS_TESTS_SECOND_PIPES_H
#define UAS_TESTS_SECOND_PIPES_H

#include "second_events.h"

enum { PIPE_COMMAND = 2, PIPE_STATUS = 3, PIPE_OUT = 4, PIPE_IN = 5, SECOND_PIPES = 6 };
enum { STATE_RUNNING = 1, STATE_HALTED = 2, STATE_STOPPED = 3, STATE_ERROR = 4 };
enum { CODE_SUCCESS = 1, CODE_BUFFER = 2, CODE_BABBLE = 3, CODE_TRB = 5, CODE_STREAM_TYPE = 10, CODE_SHORT = 13, CODE_STREAM = 34 };
enum { BIT_CYCLE = 1, BIT_TOGGLE = 2, BIT_ISP = 4, BIT_CHAIN = 16, BIT_IOC = 32, BIT_IMMEDIATE = 64 };
enum { TRB_NORMAL = 1, TRB_LINK = 6, TRB_EVENT_DATA = 7, TRB_NO_OP = 8, TRB_MOST_BYTES = 65536, SECOND_STREAM_ARRAY = 256, SECOND_PIECE = 4096, UNIT_ROOM = 1024 };

/* What the standard calls opaque: of the TRB in front and of its TD. */
struct second_front {
    uint32_t moved, transferred; /* bytes of the TRB; of the TD since its start or the last Event Data TRB (EDTLA) */
    bool begun, owes;            /* a TRB or byte of the TD was taken; its event for a short packet is still to come */
    uint8_t ended;               /* the code that the TD ended with, whose rest is skipped, or 0 */
};

struct second_endpoint {
    uint8_t state;
    bool invalid, rung[SECOND_STREAM_ARRAY]; /* doorbells: of a stream that isn't there; of a stream, the command pipe's at 0 */
    struct second_front fronts[UAS_GREATEST_TAG + 1];
};

/* What a tag has on its way: how much of a unit, and of its task's data. */
struct second_way {
    uint32_t overlaps;
    bool sends, overlap; /* a unit is on its way, and it answers an overlap */
    bool fed, open, drops, done; /* the task gave bytes; its last one's TD isn't over; bytes are dropped; it ends no TD any more */
    size_t sent, length;
    uint8_t unit[UAS_MOST_UNIT_BYTES], chunk[SECOND_MOST_CHUNK * 4096];
    size_t from, to; /* what is left of the chunk that was taken from the device */
};

/* The controller's command ring; while Stop Endpoint goes on, one more than the last stream that it was at. */
struct second_command_ring {
    uint64_t pointer;
    bool cycle, rung;
    uint32_t stops;
};

struct second_machine {
    struct second_memory memory;
    struct second_event_ring events;
    struct second_tasks device;
    struct second_command_ring commands;
    uint64_t contexts, arrays[SECOND_PIPES];
    struct second_endpoint endpoints[SECOND_PIPES];
    struct second_way ways[UAS_GREATEST_TAG + 1];
    uint8_t gathered[UNIT_ROOM];
    size_t gathered_bytes;
    uint16_t acted; /* the tag whose turn was the last */
    unsigned long taken[SECOND_PIPES][64], commands_done[64], units, statuses, overlaps, codes[64];
};

/* ---- Contexts (6.2.3, 6.2.4.1) ---- */

/* Where the dequeue pointer of a ring stands. */
static inline uint8_t *second_context(struct second_machine *machine, int pipe, uint32_t stream)
{
    uint64_t at = pipe == PIPE_COMMAND ? machine->contexts + 32 * PIPE_COMMAND + 8 : machine->arrays[pipe] + 16 * (uint64_t)stream;
    return second_at(&machine->memory, at);
}

static inline void second_set_state(struct second_machine *machine, int pipe, uint8_t state)
{
    uint8_t *context = second_at(&machine->memory, machine->contexts + 32 * (uint64_t)pipe);
    machine->endpoints[pipe].state = state;
    context[0] = (uint8_t)((context[0] & ~7) | state);
}

static inline void second_tell(struct second_machine *machine, int pipe, uint64_t pointer, uint8_t code, uint32_t length, bool data)
{
    second_post(&machine->memory, &machine->events, pointer, (length & 0xffffff) | (uint32_t)code << 24,
                TRANSFER_EVENT << 10 | (uint32_t)pipe << 16 | 1u << 24 | (data ? 4 : 0));
    machine->codes[code]++;
}

/* A ring moves on, to a pointer with a cycle state; the TD ends where the TRB had no chain bit. */
static inline void second_move_on(struct second_machine *machine, int pipe, uint32_t stream, const struct second_trb *trb, uint64_t next, bool cycle, bool chained)
{
    struct second_front *front = &machine->endpoints[pipe].fronts[stream];
    uint8_t *context = second_context(machine, pipe, stream);
    second_put_long(next | (pipe == PIPE_COMMAND ? 0 : 2) | cycle, context);
    if (pipe != PIPE_COMMAND)
        memset(context + 8, 0, 8);
    machine->taken[pipe][trb->control >> 10 & 63]++;
    front->moved = 0;
    front->begun = true;
    if (!chained)
        memset(front, 0, sizeof *front);
}

static inline void second_consume(struct second_machine *machine, int pipe, uint32_t stream, const struct second_trb *trb)
{
    second_move_on(machine, pipe, stream, trb, trb->at + 16, trb->control & BIT_CYCLE, trb->control & BIT_CHAIN);
}

/* ---- The TRB in front ---- */

enum second_found { FOUND_NOTHING, FOUND_ACTED, FOUND_TRB };

static inline enum second_found second_look(struct second_machine *machine, int pipe, uint32_t stream, struct second_trb *trb)
{
    struct second_endpoint *endpoint = &machine->endpoints[pipe];
    bool acted;
    if (endpoint->state != STATE_RUNNING || !endpoint->rung[stream])
        return FOUND_NOTHING;
    if (!second_has_room(&machine->memory, &machine->events, &acted))
        return acted ? FOUND_ACTED : FOUND_NOTHING;
    uint64_t pointer = second_long(second_context(machine, pipe, stream));
    if (pipe != PIPE_COMMAND && (pointer >> 1 & 7) != 1) {
        second_set_state(machine, pipe, STATE_HALTED);
        second_tell(machine, pipe, 0, CODE_STREAM_TYPE, 0, false);
        return FOUND_ACTED;
    }
    *trb = second_trb_at(&machine->memory, pointer & ~(uint64_t)15);
    if ((trb->control & BIT_CYCLE) == (pointer & 1))
        return FOUND_TRB;
    endpoint->rung[stream] = false;
    return FOUND_ACTED;
}

static inline uint32_t second_type(const struct second_trb *trb)
{
    return trb->control >> 10 & 63;
}

static inline uint32_t second_length(const struct second_trb *trb)
{
    return trb->status & 0x1ffff;
}

/* Takes what isn't a Normal TRB to be moved by its pipe: true where that was so. */
static inline bool second_take_other(struct second_machine *machine, int pipe, uint32_t stream, const struct second_trb *trb)
{
    struct second_front *front = &machine->endpoints[pipe].fronts[stream];
    uint32_t type = second_type(trb), length = second_length(trb);
    bool told = trb->control & BIT_IOC, chained = trb->control & BIT_CHAIN;
    if (type == TRB_LINK) {
        bool cycle = (trb->control & BIT_CYCLE) != (trb->control >> 1 & 1);
        if (told)
            second_tell(machine, pipe, trb->at, CODE_SUCCESS, 0, false);
        second_move_on(machine, pipe, stream, trb, trb->parameter & ~(uint64_t)15, cycle, front->begun);
    } else if (type == TRB_NO_OP) {
        if (told && front->ended == 0)
            second_tell(machine, pipe, trb->at, CODE_SUCCESS, 0, false);
        second_consume(machine, pipe, stream, trb);
    } else if (type == TRB_EVENT_DATA) {
        if (told) {
            second_tell(machine, pipe, trb->parameter, front->ended != 0 ? front->ended : CODE_SUCCESS, front->transferred, true);
            front->owes = false;
        }
        front->transferred = 0;
        second_consume(machine, pipe, stream, trb);
    } else if (type != TRB_NORMAL || length > TRB_MOST_BYTES) {
        second_tell(machine, pipe, trb->at, CODE_TRB, 0, false);
        second_set_state(machine, pipe, STATE_ERROR);
    } else if (front->ended != 0) {
        if (front->owes && told && !chained)
            second_tell(machine, pipe, trb->at, front->ended, length, false);
        second_consume(machine, pipe, stream, trb);
    } else
        return false;
    return true;
}

/* The TRB's buffer isn't there: the rest of its TD is skipped. */
static inline void second_no_buffer(struct second_machine *machine, int pipe, uint32_t stream, const struct second_trb *trb)
{
    second_tell(machine, pipe, trb->at, CODE_BUFFER, second_length(trb), false);
    machine->endpoints[pipe].fronts[stream].ended = CODE_BUFFER;
    second_consume(machine, pipe, stream, trb);
}

/* The data ends in front of the rest of the TRB: a short packet. */
static inline void second_end_short(struct second_machine *machine, int pipe, uint32_t stream, const struct second_trb *trb)
{
    struct second_front *front = &machine->endpoints[pipe].fronts[stream];
    bool tells = trb->control & (BIT_IOC | BIT_ISP);
    if (tells)
        second_tell(machine, pipe, trb->at, CODE_SHORT, second_length(trb) - front->moved, false);
    front->ended = CODE_SHORT;
    front->owes = !tells;
    second_consume(machine, pipe, stream, trb);
}

/* So many bytes of the TRB in front were moved, or dropped as if moved. A TRB that is full is consumed. */
static inline void second_moved(struct second_machine *machine, int pipe, uint32_t stream, const struct second_trb *trb, uint32_t bytes)
{
    struct second_front *front = &machine->endpoints[pipe].fronts[stream];
    front->moved += bytes;
    front->transferred += bytes;
    front->begun = true;
    if (front->moved < second_length(trb))
        return;
    if (trb->control & BIT_IOC)
        second_tell(machine, pipe, trb->at, CODE_SUCCESS, 0, false);
    second_consume(machine, pipe, stream, trb);
}

/* How much of the TRB is left. */
static inline uint32_t second_room(const struct second_front *front, const struct second_trb *trb)
{
    return second_length(trb) > front->moved ? second_length(trb) - front->moved : 0;
}

/* Where the bytes of a TRB of an OUT pipe are, from those that were moved on; NULL where some of `bytes` aren't there. */
static inline const uint8_t *second_source(struct second_machine *machine, const struct second_front *front, const struct second_trb *trb, uint32_t bytes)
{
    static uint8_t immediate[8];
    if ((trb->control & BIT_IMMEDIATE) && second_length(trb) <= 8) {
        second_put_long(trb->parameter, immediate);
        return immediate + front->moved;
    }
    if (!second_is_there(&machine->memory, trb->parameter + front->moved, bytes))
        return NULL;
    return second_at(&machine->memory, trb->parameter + front->moved);
}

/* ---- The command pipe ---- */

static inline void second_take_unit(struct second_machine *machine)
{
    uint16_t tag;
    uint16_t named = machine->gathered_bytes >= 4 ? (uint16_t)big(machine->gathered + 2, 2) : 0;
    uint8_t fault = second_tasks_receive(&machine->device, machine->gathered, machine->gathered_bytes, &tag);
    machine->units++;
    machine->gathered_bytes = 0;
    if (fault == UAS_TASKS_OVERLAP) {
        machine->ways[named].overlaps++;
        machine->overlaps++;
    } else if (tag != 0) {
        struct second_way *way = &machine->ways[tag];
        way->fed = way->open = way->drops = way->done = false;
        way->from = way->to = 0;
    }
}

static inline bool second_command_turn(struct second_machine *machine)
{
    struct second_front *front = &machine->endpoints[PIPE_COMMAND].fronts[0];
    struct second_trb trb;
    enum second_found found = second_look(machine, PIPE_COMMAND, 0, &trb);
    if (found != FOUND_TRB)
        return found == FOUND_ACTED;
    bool fails = front->ended != 0;
    if (!second_take_other(machine, PIPE_COMMAND, 0, &trb)) {
        uint32_t length = second_length(&trb), room = UNIT_ROOM - (uint32_t)machine->gathered_bytes, bytes = length < room ? length : room;
        const uint8_t *from = bytes > 0 ? second_source(machine, front, &trb, bytes) : machine->gathered;
        if (from == NULL) {
            second_no_buffer(machine, PIPE_COMMAND, 0, &trb);
            fails = true;
        } else {
            memmove(machine->gathered + machine->gathered_bytes, from, bytes);
            machine->gathered_bytes += bytes;
            second_moved(machine, PIPE_COMMAND, 0, &trb, length);
        }
    }
    if (machine->endpoints[PIPE_COMMAND].state != STATE_RUNNING || front->begun)
        return true;
    if (fails)
        machine->gathered_bytes = 0;
    else if (second_type(&trb) != TRB_LINK)
        second_take_unit(machine);
    return true;
}

/* ---- Data ---- */

static inline bool second_is_good(const struct second_slot *slot)
{
    return slot->answer.id == UAS_UNIT_SENSE && slot->answer.status == UAS_GOOD;
}

/* What a tag has to do: as the device has it, but that a chunk which was taken from it is given first. */
static inline uint8_t second_phase(const struct second_machine *machine, uint16_t tag, uint64_t *left)
{
    const struct second_way *way = &machine->ways[tag];
    uint8_t phase = second_tasks_phase(&machine->device, tag, left);
    if (phase == UAS_ABSENT || way->from == way->to)
        return phase;
    *left = way->to - way->from;
    return UAS_GIVES;
}

/* Takes a whole chunk from the device where nothing is left of the last one. */
static inline void second_take_chunk(struct second_machine *machine, uint16_t tag)
{
    struct second_slot *slot = &machine->device.slots[tag];
    struct second_way *way = &machine->ways[tag];
    uint64_t left;
    if (way->from < way->to)
        return;
    second_tasks_phase(&machine->device, tag, &left);
    left = left < SECOND_PIECE ? left : SECOND_PIECE;
    way->from = 0;
    way->to = left;
    memcpy(way->chunk, (slot->stage == GIVING ? slot->data : slot->chunk) + slot->moved, left);
    second_tasks_move(&machine->device, tag, left);
}

/* Bytes that a task gives go into the TRB in front. */
static inline void second_give(struct second_machine *machine, uint16_t tag, const struct second_trb *trb)
{
    struct second_front *front = &machine->endpoints[PIPE_IN].fronts[tag];
    struct second_way *way = &machine->ways[tag];
    second_take_chunk(machine, tag);
    uint32_t room = second_room(front, trb), bytes = way->to - way->from < room ? (uint32_t)(way->to - way->from) : room;
    way->fed = true;
    if (!second_is_there(&machine->memory, trb->parameter + front->moved, bytes)) {
        way->drops = true;
        way->from = way->to;
        second_no_buffer(machine, PIPE_IN, tag, trb);
        return;
    }
    memcpy(second_at(&machine->memory, trb->parameter + front->moved), way->chunk + way->from, bytes);
    way->from += bytes;
    way->open = true;
    second_moved(machine, PIPE_IN, tag, trb, bytes);
}

/* Whether the end of a task ends the TD in front: the one that has its last byte, or, where it gave none, any. */
static inline bool second_ends_data(const struct second_machine *machine, uint16_t tag)
{
    const struct second_way *way = &machine->ways[tag];
    return machine->device.slots[tag].answer.id == UAS_UNIT_SENSE && !way->done && (!way->fed || way->open);
}

/* Data in of a tag. A task ends one TD at most: then it is done with them. */
static inline bool second_in_turn(struct second_machine *machine, uint16_t tag)
{
    struct second_front *front = &machine->endpoints[PIPE_IN].fronts[tag];
    struct second_way *way = &machine->ways[tag];
    struct second_trb trb;
    uint64_t left;
    uint8_t phase = second_phase(machine, tag, &left);
    if (phase == UAS_GIVES && way->drops) {
        second_take_chunk(machine, tag);
        way->from = way->to;
        return true;
    }
    enum second_found found = second_look(machine, PIPE_IN, tag, &trb);
    if (found != FOUND_TRB)
        return found == FOUND_ACTED;
    bool taken = second_take_other(machine, PIPE_IN, tag, &trb);
    if (!taken && second_room(front, &trb) == 0)
        second_moved(machine, PIPE_IN, tag, &trb, 0);
    else if (!taken && phase == UAS_GIVES)
        second_give(machine, tag, &trb);
    else if (!taken && phase == UAS_ENDS && second_ends_data(machine, tag)) {
        way->done = true;
        second_end_short(machine, PIPE_IN, tag, &trb);
    } else if (!taken)
        return false;
    way->open = way->open && front->begun && front->ended == 0;
    return true;
}

/* Bytes of the TRB in front go to a task that takes them. */
static inline void second_take(struct second_machine *machine, uint16_t tag, const struct second_trb *trb, uint64_t left)
{
    struct second_front *front = &machine->endpoints[PIPE_OUT].fronts[tag];
    struct second_slot *slot = &machine->device.slots[tag];
    uint32_t room = second_room(front, trb), piece = SECOND_PIECE - slot->moved % SECOND_PIECE, bytes = room < piece ? room : piece;
    bytes = left < bytes ? (uint32_t)left : bytes;
    const uint8_t *from = second_source(machine, front, trb, bytes);
    if (from == NULL) {
        second_no_buffer(machine, PIPE_OUT, tag, trb);
        return;
    }
    memcpy(slot->chunk + slot->moved, from, bytes);
    second_tasks_move(&machine->device, tag, bytes);
    second_moved(machine, PIPE_OUT, tag, trb, bytes);
}

/* Data out of a tag: after GOOD the rest of a TD that was begun is dropped. */
static inline bool second_out_turn(struct second_machine *machine, uint16_t tag)
{
    struct second_front *front = &machine->endpoints[PIPE_OUT].fronts[tag];
    struct second_trb trb;
    uint64_t left;
    uint8_t phase = second_tasks_phase(&machine->device, tag, &left);
    enum second_found found = second_look(machine, PIPE_OUT, tag, &trb);
    if (found != FOUND_TRB)
        return found == FOUND_ACTED;
    uint32_t room = second_room(front, &trb);
    bool drops = phase == UAS_ENDS && second_is_good(&machine->device.slots[tag]) && front->begun;
    if (second_take_other(machine, PIPE_OUT, tag, &trb))
        return true;
    if (room == 0 || drops)
        second_moved(machine, PIPE_OUT, tag, &trb, room);
    else if (phase == UAS_TAKES)
        second_take(machine, tag, &trb, left);
    return room == 0 || drops || phase == UAS_TAKES;
}

/* A TD that was begun is there also while its endpoint is stopped or its doorbell isn't rung, but not once its endpoint had an error. */
static inline bool second_is_open(const struct second_machine *machine, int pipe, uint16_t tag)
{
    const struct second_endpoint *endpoint = &machine->endpoints[pipe];
    return endpoint->fronts[tag].begun && (endpoint->state == STATE_RUNNING || endpoint->state == STATE_STOPPED);
}

/* Whether a status waits for the end of a data TD: after any end that is a status for data in, after GOOD for data out. */
static inline bool second_waits(const struct second_machine *machine, uint16_t tag)
{
    const struct second_slot *slot = &machine->device.slots[tag];
    bool skips = machine->endpoints[PIPE_IN].fronts[tag].ended != 0 && slot->answer.id == UAS_UNIT_SENSE;
    return ((skips || second_ends_data(machine, tag)) && second_is_open(machine, PIPE_IN, tag)) ||
           (second_is_good(slot) && second_is_open(machine, PIPE_OUT, tag));
}

/* ---- Statuses ---- */

/* A tag's next unit is on its way: the answer to an overlap, or its task's. */
static inline bool second_begin_unit(struct second_machine *machine, uint16_t tag)
{
    struct second_way *way = &machine->ways[tag];
    uint64_t left;
    if (way->sends)
        return true;
    way->overlap = way->overlaps > 0;
    if (way->overlap) {
        struct uas_unit unit = { .id = UAS_UNIT_RESPONSE, .tag = tag, .code = 0x0a };
        second_unit_write(&unit, way->unit, sizeof way->unit, &way->length);
    } else if (second_phase(machine, tag, &left) == UAS_ENDS && !second_waits(machine, tag))
        second_unit_write(&machine->device.slots[tag].answer, way->unit, sizeof way->unit, &way->length);
    else
        return false;
    way->sent = 0;
    return true;
}

/* The TD ends with the TRB and has no place for the rest of the unit. */
static inline void second_babble(struct second_machine *machine, uint16_t tag, const struct second_trb *trb)
{
    second_tell(machine, PIPE_STATUS, trb->at, CODE_BABBLE, 0, false);
    second_consume(machine, PIPE_STATUS, tag, trb);
    machine->ways[tag].sent = 0;
    second_set_state(machine, PIPE_STATUS, STATE_HALTED);
}

/* The unit leaves: from its first step on the tag is free for another task. */
static inline void second_leave(struct second_machine *machine, uint16_t tag)
{
    struct second_way *way = &machine->ways[tag];
    if (way->sends)
        return;
    way->sends = true;
    machine->statuses++;
    if (way->overlap)
        way->overlaps--;
    else
        machine->device.slots[tag].stage = NO_TASK;
}

static inline void second_send(struct second_machine *machine, uint16_t tag, const struct second_trb *trb)
{
    struct second_front *front = &machine->endpoints[PIPE_STATUS].fronts[tag];
    struct second_way *way = &machine->ways[tag];
    uint32_t room = second_room(front, trb), bytes = way->length - way->sent < room ? (uint32_t)(way->length - way->sent) : room;
    second_leave(machine, tag);
    if (bytes > 0 && !second_is_there(&machine->memory, trb->parameter + front->moved, bytes)) {
        second_no_buffer(machine, PIPE_STATUS, tag, trb);
        way->sent = 0;
        return;
    }
    if (bytes > 0)
        memcpy(second_at(&machine->memory, trb->parameter + front->moved), way->unit + way->sent, bytes);
    way->sent += bytes;
    if (bytes < room) {
        front->moved += bytes;
        front->transferred += bytes;
        second_end_short(machine, PIPE_STATUS, tag, trb);
        way->sends = false;
    } else if (way->sent < way->length && !(trb->control & BIT_CHAIN)) {
        second_babble(machine, tag, trb);
    } else {
        second_moved(machine, PIPE_STATUS, tag, trb, bytes);
        if (!front->begun)
            way->sends = false;
    }
}

static inline bool second_status_turn(struct second_machine *machine, uint16_t tag)
{
    struct second_front *front = &machine->endpoints[PIPE_STATUS].fronts[tag];
    struct second_way *way = &machine->ways[tag];
    struct second_trb trb;
    enum second_found found = second_look(machine, PIPE_STATUS, tag, &trb);
    if (found != FOUND_TRB)
        return found == FOUND_ACTED;
    uint32_t type = second_type(&trb);
    bool ends = (type == TRB_NO_OP || type == TRB_EVENT_DATA) && !(trb.control & BIT_CHAIN), whole = way->sent == way->length;
    if (way->sends && way->sent > 0 && !whole && front->ended == 0 && ends)
        second_babble(machine, tag, &trb);
    else if (second_take_other(machine, PIPE_STATUS, tag, &trb))
        way->sends = way->sends && !(whole && ends);
    else if (second_begin_unit(machine, tag))
        second_send(machine, tag, &trb);
    else if (second_room(front, &trb) == 0)
        second_moved(machine, PIPE_STATUS, tag, &trb, 0);
    else
        return false;
    return true;
}

/* ---- Steps ---- */

/* A tag is looked at while it has a task, but one that waits for the backend with no TD begun. */
static inline bool second_tag_turn(struct second_machine *machine, uint16_t tag)
{
    uint64_t left;
    uint8_t phase = second_phase(machine, tag, &left);
    bool begun = machine->endpoints[PIPE_IN].fronts[tag].begun || machine->endpoints[PIPE_OUT].fronts[tag].begun;
    bool idle = (phase == UAS_ABSENT || phase == UAS_ASKS || phase == UAS_WAITS) && !begun;
    if (idle && !machine->ways[tag].sends && machine->ways[tag].overlaps == 0 && machine->endpoints[PIPE_STATUS].fronts[tag].ended == 0)
        return false;
    return second_in_turn(machine, tag) || second_out_turn(machine, tag) || second_status_turn(machine, tag);
}

static inline bool second_invalid_turn(struct second_machine *machine, int pipe)
{
    struct second_endpoint *endpoint = &machine->endpoints[pipe];
    bool acted;
    if (endpoint->state != STATE_RUNNING || !endpoint->invalid)
        return false;
    if (!second_has_room(&machine->memory, &machine->events, &acted))
        return acted;
    endpoint->invalid = false;
    second_set_state(machine, pipe, STATE_HALTED);
    second_tell(machine, pipe, 0, CODE_STREAM, 0, false);
    return true;
}

/* Takes a step of the pipes; false where no turn acts. */
static inline bool second_pipes_step(struct second_machine *machine)
{
    if (second_command_turn(machine))
        return true;
    for (int pipe = PIPE_STATUS; pipe <= PIPE_IN; pipe++)
        if (second_invalid_turn(machine, pipe))
            return true;
    for (uint16_t tag = 1; tag <= UAS_GREATEST_TAG; tag++)
        if (second_tag_turn(machine, machine->acted = tag))
            return true;
    return false;
}

/* A doorbell of an endpoint that runs or is stopped. */
static inline void second_doorbell(struct second_machine *machine, int pipe, uint32_t stream)
{
    struct second_endpoint *endpoint = &machine->endpoints[pipe];
    if (endpoint->state != STATE_RUNNING && endpoint->state != STATE_STOPPED)
        return;
    if (pipe == PIPE_COMMAND)
        endpoint->rung[0] = true;
    else if (stream == 0 || stream >= SECOND_STREAM_ARRAY)
        endpoint->invalid = true;
    else
        endpoint->rung[stream] = true;
    if (endpoint->state == STATE_STOPPED)
        second_set_state(machine, pipe, STATE_RUNNING);
}

#endif
