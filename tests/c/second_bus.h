/* A second implementation of the bus, without rings or bytes in them: what waits in the command pipe and which events wait are
 * lists, and for each tag it is known what became of its TDs. From the rules of docs/RULES.md alone. */
#ifndef UAS_TESTS_SECOND_BUS_H
#define UAS_TESTS_SECOND_BUS_H

#include "second.h"

enum { SECOND_PER = 16, SECOND_TAGS = SECOND_PER * SECOND_UNITS, SECOND_QUEUE = 1024, SECOND_DATA = 65536 };

enum second_td { NO_TD, WAITS, CONSUMED, SEEN, LEFT_OVER, RETIRED };

enum second_event { COMMAND_DONE, DATA_DONE, STATUS_DONE, ENGINE_DONE };

struct second_entry {
    bool used, is_task, command_seen, doomed, is_ready;
    uint64_t ticket;
    uint64_t noted[SECOND_PER - 1]; /* of a task management */
    int count_noted;
    uint8_t data_pipe;
    struct uas_unit unit, answer;
    enum second_td data, status;
    uint32_t moved, length;
    uint8_t bytes[SECOND_DATA];
};

struct second_queue {
    uint16_t first, count;
    uint16_t tag[SECOND_QUEUE];
    uint8_t kind[SECOND_QUEUE];
};

struct second_bus {
    struct second_device device;
    struct second_entry entries[SECOND_TAGS + 1];
    struct second_queue pipe, events, ready[SECOND_UNITS];
    uint64_t least[SECOND_UNITS];
    bool rung[4][SECOND_TAGS + 1], running[4];
    uint8_t retiring; /* the pipe, or 0 */
    uint16_t retired_tag;
    int stage; /* 0 stop asked, 1 stop answered, 2 move asked, 3 move answered */
};

static inline void second_put(struct second_queue *queue, uint16_t tag, uint8_t kind)
{
    uint16_t place = (uint16_t)((queue->first + queue->count++) % SECOND_QUEUE);
    queue->tag[place] = tag;
    queue->kind[place] = kind;
}

static inline uint16_t second_take(struct second_queue *queue, uint8_t *kind)
{
    uint16_t place = queue->first;
    queue->first = (uint16_t)((place + 1) % SECOND_QUEUE);
    queue->count--;
    *kind = queue->kind[place];
    return queue->tag[place];
}

static inline int second_owner(uint16_t tag)
{
    return (tag - 1) / SECOND_PER;
}

static inline void second_bus_open(struct second_bus *bus, const struct second_units *given)
{
    memset(bus, 0, sizeof *bus);
    second_device_open(&bus->device, given);
    for (int pipe = UAS_PIPE_STATUS; pipe <= UAS_PIPE_DATA_OUT; pipe++)
        bus->running[pipe] = true;
}

static inline void second_ring(struct second_bus *bus, uint8_t pipe, uint16_t tag)
{
    if (bus->retiring != pipe)
        bus->rung[pipe][tag] = bus->running[pipe] = true;
}

static inline enum second_td *second_td_of(struct second_bus *bus, uint8_t pipe, uint16_t tag)
{
    static enum second_td none;
    none = NO_TD;
    if (tag < 1 || tag > SECOND_PER * bus->device.units || !bus->entries[tag].used)
        return &none;
    struct second_entry *entry = &bus->entries[tag];
    return pipe == UAS_PIPE_STATUS ? &entry->status : pipe == entry->data_pipe ? &entry->data : &none;
}

static inline bool second_has_trb(struct second_bus *bus, uint8_t pipe, uint16_t tag)
{
    enum second_td td = *second_td_of(bus, pipe, tag);
    return td == WAITS || td == LEFT_OVER;
}

static inline bool second_armed(struct second_bus *bus, uint8_t pipe, uint16_t tag)
{
    return second_has_trb(bus, pipe, tag) && bus->rung[pipe][tag] && bus->running[pipe];
}

/* What moves under a tag goes this way: the pipe, or 0. */
static inline uint8_t second_data_pipe(struct second_bus *bus, uint16_t tag)
{
    uint32_t length;
    uint8_t phase = second_wants(&bus->device, tag, &length);
    return phase == UAS_GIVES ? UAS_PIPE_DATA_IN : phase == UAS_TAKES ? UAS_PIPE_DATA_OUT : 0;
}

static inline struct second_entry *second_enter(struct second_bus *bus, uint16_t tag, uint64_t ticket)
{
    struct second_entry *entry = &bus->entries[tag];
    int client = second_owner(tag);
    memset(entry, 0, offsetof(struct second_entry, bytes));
    entry->used = true;
    entry->ticket = ticket;
    entry->unit.tag = tag;
    entry->unit.lun[1] = (uint8_t)client;
    entry->status = WAITS;
    bus->least[client] = ticket + 1;
    second_put(&bus->pipe, tag, 0);
    return entry;
}

/* A submission that has no fault. */
static inline void second_submit(struct second_bus *bus, uint16_t tag, uint64_t ticket, const struct uas_operation *operation,
                                 const uint8_t *data, size_t length)
{
    struct second_entry *entry = second_enter(bus, tag, ticket);
    entry->unit.id = UAS_UNIT_COMMAND;
    second_cdb_write(operation, entry->unit.cdb);
    entry->length = (uint32_t)length;
    memcpy(entry->bytes, data, length);
    if (length > 0) {
        entry->data = WAITS;
        entry->data_pipe = second_is_write(operation->opcode) ? UAS_PIPE_DATA_OUT : UAS_PIPE_DATA_IN;
        second_ring(bus, entry->data_pipe, tag);
    }
    second_ring(bus, UAS_PIPE_STATUS, tag);
}

/* A task management that has no fault. */
static inline void second_task(struct second_bus *bus, int client, uint64_t ticket, uint8_t function, uint16_t named)
{
    struct second_entry *entry = second_enter(bus, (uint16_t)(SECOND_PER * (client + 1)), ticket);
    entry->is_task = true;
    entry->unit.id = UAS_UNIT_TASK;
    entry->unit.function = function;
    entry->unit.task_tag = function == UAS_LOGICAL_UNIT_RESET ? 0 : named;
    for (uint16_t tag = (uint16_t)(SECOND_PER * client + 1); tag < SECOND_PER * (client + 1); tag++)
        if (bus->entries[tag].used && (function == UAS_LOGICAL_UNIT_RESET || tag == named))
            entry->noted[entry->count_noted++] = bus->entries[tag].ticket;
    second_ring(bus, UAS_PIPE_STATUS, (uint16_t)(SECOND_PER * (client + 1)));
}

static inline void second_when_ready(struct second_bus *bus, uint16_t tag)
{
    struct second_entry *entry = &bus->entries[tag];
    bool answered = entry->status == SEEN || (entry->doomed && entry->status == RETIRED);
    bool moved = entry->data == NO_TD || entry->data == SEEN || entry->data == RETIRED;
    if (entry->used && !entry->is_ready && entry->command_seen && answered && moved) {
        entry->is_ready = true;
        second_put(&bus->ready[second_owner(tag)], tag, 0);
    }
}

/* A response COMPLETE leaves over what it ended; a query ends nothing. */
static inline void second_doom(struct second_bus *bus, const struct second_entry *task, int client)
{
    for (uint16_t tag = (uint16_t)(SECOND_PER * client + 1); tag < SECOND_PER * (client + 1); tag++)
        for (int i = 0; i < task->count_noted; i++) {
            struct second_entry *entry = &bus->entries[tag];
            if (!entry->used || entry->ticket != task->noted[i] || (entry->status != WAITS && entry->status != CONSUMED))
                continue;
            entry->doomed = true;
            entry->status = LEFT_OVER;
            if (entry->data == WAITS || entry->data == CONSUMED)
                entry->data = LEFT_OVER;
        }
}

static inline void second_see_status(struct second_bus *bus, uint16_t tag)
{
    struct second_entry *entry = &bus->entries[tag];
    entry->status = SEEN;
    if (entry->is_task && entry->unit.function != UAS_QUERY_TASK && entry->answer.code == UAS_RESPONSE_COMPLETE)
        second_doom(bus, entry, second_owner(tag));
    if (!entry->is_task && entry->answer.status != UAS_GOOD && (entry->data == WAITS || entry->data == CONSUMED))
        entry->data = LEFT_OVER;
}

static inline void second_see_engine(struct second_bus *bus)
{
    if (bus->stage == 1) {
        bus->stage = 2;
        return;
    }
    uint8_t pipe = bus->retiring;
    *second_td_of(bus, pipe, bus->retired_tag) = RETIRED;
    bus->retiring = 0;
    for (uint16_t tag = 1; tag <= SECOND_PER * bus->device.units; tag++)
        if (second_has_trb(bus, pipe, tag))
            second_ring(bus, pipe, tag);
}

static inline int second_event_step(struct second_bus *bus)
{
    uint8_t kind;
    if (bus->events.count == 0)
        return -1;
    uint16_t tag = second_take(&bus->events, &kind);
    if (kind == COMMAND_DONE)
        bus->entries[tag].command_seen = true;
    else if (kind == DATA_DONE)
        bus->entries[tag].data = SEEN;
    else if (kind == STATUS_DONE)
        second_see_status(bus, tag);
    else
        second_see_engine(bus);
    second_when_ready(bus, tag);
    return second_owner(tag);
}

static inline int second_command_step(struct second_bus *bus)
{
    uint8_t bytes[112], kind;
    uint16_t began;
    size_t length = 0;
    if (bus->pipe.count == 0)
        return -1;
    uint16_t tag = second_take(&bus->pipe, &kind);
    second_unit_write(&bus->entries[tag].unit, bytes, sizeof bytes, &length);
    second_receive(&bus->device, bytes, length, &began);
    second_put(&bus->events, tag, COMMAND_DONE);
    return second_owner(tag);
}

static inline int second_data_step(struct second_bus *bus, uint16_t tag)
{
    uint32_t length;
    uint8_t pipe = second_data_pipe(bus, tag);
    if (pipe == 0 || !second_armed(bus, pipe, tag))
        return -1;
    struct second_entry *entry = &bus->entries[tag];
    second_wants(&bus->device, tag, &length);
    if (!second_move(&bus->device, tag, entry->bytes + entry->moved, length))
        return second_owner(tag);
    entry->moved += length;
    if (entry->moved == entry->length) {
        entry->data = CONSUMED;
        second_put(&bus->events, tag, DATA_DONE);
    }
    return second_owner(tag);
}

static inline int second_status_step(struct second_bus *bus, uint16_t tag)
{
    uint32_t length;
    if (second_wants(&bus->device, tag, &length) != UAS_ENDS || !second_armed(bus, UAS_PIPE_STATUS, tag))
        return -1;
    bus->entries[tag].answer = bus->device.tasks[tag].answer;
    bus->entries[tag].status = CONSUMED;
    bus->device.tasks[tag].phase = UAS_ABSENT;
    second_put(&bus->events, tag, STATUS_DONE);
    return second_owner(tag);
}

static inline int second_engine_step(struct second_bus *bus)
{
    if (bus->retiring == 0 || (bus->stage != 0 && bus->stage != 2))
        return -1;
    if (bus->stage == 0) {
        bus->running[bus->retiring] = false;
        memset(bus->rung[bus->retiring], 0, sizeof bus->rung[0]);
    } else
        *second_td_of(bus, bus->retiring, bus->retired_tag) = CONSUMED;
    bus->stage++;
    second_put(&bus->events, bus->retired_tag, ENGINE_DONE);
    return second_owner(bus->retired_tag);
}

/* Whose step it was, or -1 where it wasn't due. */
static inline int second_step(struct second_bus *bus, uint8_t step, uint8_t pipe, uint16_t tag)
{
    switch (step) {
    case UAS_STEP_COMMAND:
        return second_command_step(bus);
    case UAS_STEP_DATA:
        return second_data_step(bus, tag);
    case UAS_STEP_STATUS:
        return second_status_step(bus, tag);
    case UAS_STEP_ENGINE:
        return second_engine_step(bus);
    case UAS_STEP_EVENT:
        return second_event_step(bus);
    default:
        if (bus->retiring != 0 || *second_td_of(bus, pipe, tag) != LEFT_OVER)
            return -1;
        bus->retiring = pipe;
        bus->retired_tag = tag;
        bus->stage = 0;
        return second_owner(tag);
    }
}

/* The client's next reply, written where a door tells it; its data, or NULL where none is ready. */
static inline const uint8_t *second_reply(struct second_bus *bus, int client, struct uas_bus_door *door)
{
    uint8_t kind;
    door->acted = bus->ready[client].count > 0;
    if (!door->acted)
        return NULL;
    struct second_entry *entry = &bus->entries[second_take(&bus->ready[client], &kind)];
    entry->used = false;
    door->tag = entry->unit.tag;
    door->ticket = entry->ticket;
    door->length = entry->length;
    door->status = door->sense_length = 0;
    door->reply = entry->is_task ? UAS_REPLY_TASK : entry->doomed ? UAS_REPLY_ABORTED : UAS_REPLY_STATUS;
    if (entry->is_task)
        door->status = entry->answer.code;
    else if (!entry->doomed) {
        door->status = entry->answer.status;
        door->sense_length = entry->answer.sense_length;
        memcpy(door->sense, entry->answer.sense, sizeof door->sense);
    }
    return entry->bytes;
}

#endif
