/* A second implementation of the controller and its disk, from include/uas.h and docs/RULES.md alone. A ring is three counts of items
 * since the start, over the bytes of its places; what stands in front of it is decoded anew at each step, and contexts are told from
 * the counts. The device is that of second.h. */
#ifndef UAS_TESTS_SECOND_CONTROLLER_H
#define UAS_TESTS_SECOND_CONTROLLER_H

#include "second.h"

enum {
    SECOND_STREAMS = 248,
    SECOND_EVENTS = 1023,   /* pending at most */
    SECOND_STREAM_TURN = 19, /* places of a ring but the Link's */
    SECOND_PIPE_TURN = 255,
    SECOND_ENGINE_TURN = 15
};

/* An item's number is how many came before it. The oldest items were given back, those behind them were taken, the rest is pending. */
struct second_line {
    uint64_t base;
    uint32_t turn;
    uint64_t freed, taken, put; /* freed <= taken <= put < freed + turn */
    uint8_t (*places)[16];
};

struct second_posted {
    uint64_t address;
    uint32_t residual;
    uint8_t type, code, endpoint;
};

struct second_controller {
    struct second_device device;
    bool running[4], rung[4][SECOND_STREAMS + 1]; /* by UAS_RING_ of a pipe with streams */
    struct second_line streams[4][SECOND_STREAMS + 1], pipe, engine;
    uint8_t stream_places[4][SECOND_STREAMS + 1][SECOND_STREAM_TURN][16];
    uint8_t pipe_places[SECOND_PIPE_TURN][16], engine_places[SECOND_ENGINE_TURN][16];
    struct second_posted events[SECOND_EVENTS];
    uint32_t first_event, pending_events;
    uint8_t commands[SECOND_STREAMS + 1][32], statuses[SECOND_STREAMS + 1][112];
    bool lent[SECOND_STREAMS + 1];
    uint32_t lent_length[SECOND_STREAMS + 1];
    uint8_t windows[SECOND_STREAMS + 1][UAS_MOST_DATA_BYTES]; /* the last: bytes of what isn't lent are of no interest */
};

static inline void second_line_open(struct second_line *line, uint64_t base, uint32_t turn, uint8_t (*places)[16])
{
    line->base = base;
    line->turn = turn;
    line->places = places;
}

static inline void second_controller_open(struct second_controller *controller, const struct second_units *given)
{
    memset(controller, 0, offsetof(struct second_controller, windows));
    second_device_open(&controller->device, given);
    for (uint8_t ring = UAS_RING_STATUS; ring <= UAS_RING_DATA_OUT; ring++) {
        controller->running[ring] = true;
        for (uint32_t stream = 1; stream <= SECOND_STREAMS; stream++)
            second_line_open(&controller->streams[ring][stream], 0x41000000 + 0x1000000 * (uint64_t)ring + 0x1000 * stream,
                             SECOND_STREAM_TURN, controller->stream_places[ring][stream]);
    }
    second_line_open(&controller->pipe, 0x41000000, SECOND_PIPE_TURN, controller->pipe_places);
    second_line_open(&controller->engine, 0x50000000, SECOND_ENGINE_TURN, controller->engine_places);
}

/* ---- Rings ---- */

static inline bool second_has_streams(uint8_t ring)
{
    return ring >= UAS_RING_STATUS && ring <= UAS_RING_DATA_OUT;
}

/* The ring, or NULL where there is none. */
static inline struct second_line *second_line_of(struct second_controller *controller, uint8_t ring, uint16_t stream)
{
    if (second_has_streams(ring))
        return stream >= 1 && stream <= SECOND_STREAMS ? &controller->streams[ring][stream] : NULL;
    if (stream != 0)
        return NULL;
    return ring == UAS_RING_COMMAND_PIPE ? &controller->pipe : ring == UAS_RING_COMMANDS ? &controller->engine : NULL;
}

static inline uint64_t second_address(const struct second_line *line, uint64_t item)
{
    return line->base + 16 * (item % line->turn);
}

static inline uint8_t second_cycle(const struct second_line *line, uint64_t item)
{
    return item / line->turn % 2 == 0;
}

static inline const uint8_t *second_item(const struct second_line *line, uint64_t item)
{
    return line->places[item % line->turn];
}

/* The item from `first` to before `end` that stands, or would stand, at an address; `end` where there is none. */
static inline uint64_t second_item_at(const struct second_line *line, uint64_t address, uint64_t first, uint64_t end)
{
    uint64_t item = first;
    while (item < end && second_address(line, item) != address)
        item++;
    return item;
}

static inline uint8_t second_endpoint(uint8_t ring)
{
    return ring == UAS_RING_STATUS ? 3 : ring == UAS_RING_DATA_OUT ? 4 : ring == UAS_RING_DATA_IN ? 5 : 2;
}

/* The ring number of the pipe with streams that has an endpoint, or 0. */
static inline uint8_t second_ring_of(uint32_t endpoint)
{
    return endpoint == 3 ? UAS_RING_STATUS : endpoint == 4 ? UAS_RING_DATA_OUT : endpoint == 5 ? UAS_RING_DATA_IN : 0;
}

/* Whether a step may take what is in front of a ring. */
static inline bool second_can_take(const struct second_controller *controller, const struct second_line *line)
{
    return line->taken < line->put && controller->pending_events < SECOND_EVENTS;
}

/* The same of a stream, which must be armed: its ring, or NULL. */
static inline struct second_line *second_armed_line(struct second_controller *controller, uint8_t ring, uint16_t stream)
{
    struct second_line *line = second_line_of(controller, ring, stream);
    bool open = line != NULL && controller->running[ring] && controller->rung[ring][stream];
    return open && second_can_take(controller, line) ? line : NULL;
}

/* The item in front is taken, and its event is posted. */
static inline void second_complete(struct second_controller *controller, struct second_line *line, uint8_t endpoint, uint8_t code, uint32_t residual)
{
    uint32_t place = (controller->first_event + controller->pending_events++) % SECOND_EVENTS;
    uint8_t type = endpoint != 0 ? UAS_TRB_TRANSFER_EVENT : UAS_TRB_COMMAND_EVENT;
    controller->events[place] = (struct second_posted){ second_address(line, line->taken++), residual, type, code, endpoint };
}

/* ---- Buffers ---- */

/* Bytes of one buffer, or NULL where they aren't all in one. */
static inline uint8_t *second_buffer(struct second_controller *controller, uint64_t address, uint64_t length)
{
    bool window = address >> 32 != 0;
    uint64_t inside = window ? address - ((uint64_t)1 << 32) : address & 0x0fffffff;
    uint64_t tag = window ? inside >> 16 : inside >> 8, from = window ? inside & 0xffff : inside & 0xff;
    if (tag < 1 || tag > SECOND_STREAMS)
        return NULL;
    if (window) {
        bool inside_of_it = controller->lent[tag] && from + length <= controller->lent_length[tag];
        return inside_of_it ? controller->windows[tag] + from : NULL;
    }
    if (address >> 28 == 1)
        return from + length <= 32 ? controller->commands[tag] + from : NULL;
    if (address >> 28 == 2)
        return from + length <= 112 ? controller->statuses[tag] + from : NULL;
    return NULL;
}

/* What stands in front of a ring: a TRB that a step carries out, with the bytes that it names, or foreign. */
struct second_front {
    bool own, chain;
    uint32_t length;
    uint8_t *bytes;
};

static inline struct second_front second_front(struct second_controller *controller, const struct second_line *line)
{
    static uint8_t none;
    struct second_front front = { .bytes = &none };
    struct uas_trb trb;
    if (second_trb_decode(second_item(line, line->taken), &trb) != 0 || trb.type != UAS_TRB_NORMAL)
        return front;
    if ((trb.flags & (UAS_TRB_ENT | UAS_TRB_IDT)) != 0)
        return front;
    front.chain = (trb.flags & UAS_TRB_CH) != 0;
    front.length = trb.length;
    if (trb.length > 0)
        front.bytes = second_buffer(controller, trb.pointer, trb.length);
    front.own = front.bytes != NULL;
    return front;
}

/* ---- Steps: the tag that they act on, or -1 where they aren't due ---- */

static inline int second_take_command(struct second_controller *controller)
{
    uint16_t began = 0;
    struct second_line *line = &controller->pipe;
    if (!second_can_take(controller, line))
        return -1;
    struct second_front front = second_front(controller, line);
    bool good = front.own && front.length <= 32;
    if (good)
        second_receive(&controller->device, front.bytes, front.length, &began);
    second_complete(controller, line, 2, good ? 1 : 5, 0);
    return began;
}

/* Whether a data stream's front is stepped over. */
static inline bool second_takes_wrong(struct second_controller *controller, uint8_t ring, uint16_t tag)
{
    uint32_t chunk;
    struct second_line *line = second_armed_line(controller, ring, tag);
    if (line == NULL)
        return false;
    struct second_front front = second_front(controller, line);
    uint8_t moves = ring == UAS_RING_DATA_IN ? UAS_GIVES : UAS_TAKES;
    bool moving = second_wants(&controller->device, tag, &chunk) == moves;
    if (front.own && (!moving || front.length == chunk))
        return false;
    second_complete(controller, line, second_endpoint(ring), 5, 0);
    return true;
}

static inline int second_take_data(struct second_controller *controller, uint16_t tag)
{
    uint32_t chunk;
    if (second_takes_wrong(controller, UAS_RING_DATA_IN, tag) || second_takes_wrong(controller, UAS_RING_DATA_OUT, tag))
        return tag;
    uint8_t phase = second_wants(&controller->device, tag, &chunk);
    if (phase != UAS_GIVES && phase != UAS_TAKES)
        return -1;
    uint8_t ring = phase == UAS_GIVES ? UAS_RING_DATA_IN : UAS_RING_DATA_OUT;
    struct second_line *line = second_armed_line(controller, ring, tag);
    if (line == NULL)
        return -1;
    struct second_front front = second_front(controller, line);
    if (!second_move(&controller->device, tag, front.bytes, chunk))
        return tag;
    if (front.chain)
        line->taken++;
    else
        second_complete(controller, line, second_endpoint(ring), 1, 0);
    return tag;
}

static inline int second_take_status(struct second_controller *controller, uint16_t tag)
{
    uint32_t chunk;
    uint8_t text[112];
    size_t length = 0;
    struct second_line *line = second_armed_line(controller, UAS_RING_STATUS, tag);
    if (line == NULL)
        return -1;
    struct second_front front = second_front(controller, line);
    bool ended = second_wants(&controller->device, tag, &chunk) == UAS_ENDS;
    if (ended)
        second_unit_write(&controller->device.tasks[tag].answer, text, sizeof text, &length);
    if (!front.own || front.length < length) {
        second_complete(controller, line, 3, 5, 0);
        return tag;
    }
    if (!ended)
        return -1;
    memcpy(front.bytes, text, length);
    controller->device.tasks[tag].phase = UAS_ABSENT;
    second_complete(controller, line, 3, 13, (uint32_t)(112 - length));
    return tag;
}

/* ---- The controller's own commands: their completion codes ---- */

static inline uint8_t second_stop(struct second_controller *controller, uint8_t ring)
{
    if (!controller->running[ring])
        return 19;
    controller->running[ring] = false;
    memset(controller->rung[ring], 0, sizeof controller->rung[ring]);
    return 1;
}

static inline uint8_t second_set_dequeue(struct second_controller *controller, uint8_t ring, const struct uas_trb *trb)
{
    if (trb->stream == 0 || trb->stream > 255)
        return 34;
    if (controller->running[ring])
        return 19;
    struct second_line *line = second_line_of(controller, ring, trb->stream);
    if (line == NULL)
        return 5;
    uint64_t item = second_item_at(line, trb->pointer, line->taken, line->put + 1);
    if (item > line->put || second_cycle(line, item) != trb->dequeue_cycle)
        return 5;
    line->taken = item;
    return 1;
}

static inline uint8_t second_execute_own(struct second_controller *controller, const uint8_t bytes[16])
{
    struct uas_trb trb;
    if (second_trb_decode(bytes, &trb) != 0)
        return 5;
    uint8_t ring = second_ring_of(trb.endpoint);
    if ((trb.type != UAS_TRB_STOP_ENDPOINT && trb.type != UAS_TRB_SET_DEQUEUE) || trb.slot != 1 || ring == 0)
        return 5;
    return trb.type == UAS_TRB_STOP_ENDPOINT ? second_stop(controller, ring) : second_set_dequeue(controller, ring, &trb);
}

static inline int second_take_engine(struct second_controller *controller)
{
    struct second_line *line = &controller->engine;
    if (!second_can_take(controller, line))
        return -1;
    second_complete(controller, line, 0, second_execute_own(controller, second_item(line, line->taken)), 0);
    return 0;
}

/* ---- Calls ---- */

static inline uint8_t second_call_put(struct second_controller *controller, struct uas_controller_door *door, const uint8_t *data, size_t length)
{
    if (length != 16)
        return UAS_CONTROLLER_LENGTH;
    struct second_line *line = second_line_of(controller, door->ring, door->stream);
    if (line == NULL)
        return UAS_CONTROLLER_RING;
    if (line->put - line->freed == line->turn - 1)
        return UAS_CONTROLLER_FULL;
    memcpy(line->places[line->put % line->turn], data, 16);
    door->address = second_address(line, line->put++);
    return 0;
}

static inline uint8_t second_call_doorbell(struct second_controller *controller, uint32_t value)
{
    uint8_t ring = second_ring_of(value & 0xffff);
    uint32_t stream = value >> 16;
    if (ring != 0 && stream >= 1 && stream <= SECOND_STREAMS)
        controller->rung[ring][stream] = controller->running[ring] = true;
    return 0;
}

static inline uint8_t second_call_step(struct second_controller *controller, struct uas_controller_door *door)
{
    int tag;
    switch (door->step) {
    case UAS_STEP_COMMAND:
        tag = second_take_command(controller);
        break;
    case UAS_STEP_DATA:
        tag = second_take_data(controller, door->tag);
        break;
    case UAS_STEP_STATUS:
        tag = second_take_status(controller, door->tag);
        break;
    case UAS_STEP_ENGINE:
        tag = second_take_engine(controller);
        break;
    default:
        return UAS_CONTROLLER_STEP;
    }
    door->acted = tag >= 0;
    if (tag >= 0)
        door->tag = (uint16_t)tag;
    return 0;
}

static inline uint8_t second_call_event(struct second_controller *controller, struct uas_controller_door *door)
{
    door->acted = controller->pending_events > 0;
    if (door->acted == 0)
        return 0;
    const struct second_posted *event = &controller->events[controller->first_event];
    door->address = event->address;
    door->value = event->residual;
    door->type = event->type;
    door->code = event->code;
    door->endpoint = event->endpoint;
    door->slot = 1;
    controller->first_event = (controller->first_event + 1) % SECOND_EVENTS;
    controller->pending_events--;
    return 0;
}

/* WRITE and READ. */
static inline uint8_t second_call_memory(struct second_controller *controller, const struct uas_controller_door *door, uint8_t *data, size_t length)
{
    if (length == 0)
        return 0;
    uint8_t *bytes = second_buffer(controller, door->address, length);
    if (bytes == NULL)
        return UAS_CONTROLLER_ADDRESS;
    if (door->call == UAS_CONTROLLER_CALL_WRITE)
        memcpy(bytes, data, length);
    else
        memcpy(data, bytes, length);
    return 0;
}

static inline uint8_t second_call_lend(struct second_controller *controller, uint16_t tag, const uint8_t *data, size_t length)
{
    if (tag < 1 || tag > SECOND_STREAMS)
        return UAS_CONTROLLER_TAG;
    if (length > UAS_MOST_DATA_BYTES)
        return UAS_CONTROLLER_LENGTH;
    if (controller->lent[tag])
        return UAS_CONTROLLER_LENT;
    controller->lent[tag] = true;
    controller->lent_length[tag] = (uint32_t)length;
    memcpy(controller->windows[tag], data, length);
    return 0;
}

static inline uint8_t second_call_take_back(struct second_controller *controller, struct uas_controller_door *door, uint8_t *data, size_t length)
{
    uint16_t tag = door->tag;
    if (tag < 1 || tag > SECOND_STREAMS)
        return UAS_CONTROLLER_TAG;
    if (!controller->lent[tag])
        return UAS_CONTROLLER_NOT_LENT;
    if (length < controller->lent_length[tag])
        return UAS_CONTROLLER_LENGTH;
    controller->lent[tag] = false;
    door->value = controller->lent_length[tag];
    memcpy(data, controller->windows[tag], door->value);
    return 0;
}

static inline uint8_t second_call_reclaim(struct second_controller *controller, const struct uas_controller_door *door)
{
    struct uas_trb trb;
    struct second_line *line = second_line_of(controller, door->ring, door->stream);
    if (line == NULL)
        return UAS_CONTROLLER_RING;
    uint64_t item = second_item_at(line, door->address, line->freed, line->taken);
    if (item == line->taken)
        return UAS_CONTROLLER_NOT_CONSUMED;
    if (line == &controller->engine && second_trb_decode(second_item(line, item), &trb) != 0)
        return UAS_CONTROLLER_NOT_CONSUMED;
    line->freed = item + 1;
    return 0;
}

static inline uint8_t second_call_context(struct second_controller *controller, const struct uas_controller_door *door, uint8_t *data, size_t length)
{
    if (length != 16)
        return UAS_CONTROLLER_LENGTH;
    struct second_line *line = second_has_streams(door->ring) ? second_line_of(controller, door->ring, door->stream) : NULL;
    if (line == NULL)
        return UAS_CONTROLLER_RING;
    memset(data, 0, 16);
    put_little32((uint32_t)second_address(line, line->taken) | 2 | second_cycle(line, line->taken), data);
    return 0;
}

/* BLOCKS and MEDIUM. */
static inline uint8_t second_call_copy(struct second_controller *controller, const struct uas_controller_door *door, uint8_t *data, size_t length)
{
    const struct second_device *device = &controller->device;
    if (door->unit >= device->units)
        return UAS_CONTROLLER_UNIT;
    if (length % 512 != 0)
        return UAS_CONTROLLER_LENGTH;
    uint32_t blocks = device->blocks[door->unit];
    if (door->lba > blocks || length / 512 > blocks - door->lba)
        return UAS_CONTROLLER_RANGE;
    memcpy(data, (door->call == UAS_CONTROLLER_CALL_BLOCKS ? device->now : device->medium)[door->unit] + 512 * (size_t)door->lba, length);
    return 0;
}

static inline uint8_t second_controller_call(struct second_controller *controller, struct uas_controller_door *door, uint8_t *data, size_t length)
{
    switch (door->call) {
    case UAS_CONTROLLER_CALL_PUT:
        return second_call_put(controller, door, data, length);
    case UAS_CONTROLLER_CALL_DOORBELL:
        return second_call_doorbell(controller, door->value);
    case UAS_CONTROLLER_CALL_STEP:
        return second_call_step(controller, door);
    case UAS_CONTROLLER_CALL_EVENT:
        return second_call_event(controller, door);
    case UAS_CONTROLLER_CALL_WRITE:
    case UAS_CONTROLLER_CALL_READ:
        return second_call_memory(controller, door, data, length);
    case UAS_CONTROLLER_CALL_LEND:
        return second_call_lend(controller, door->tag, data, length);
    case UAS_CONTROLLER_CALL_TAKE_BACK:
        return second_call_take_back(controller, door, data, length);
    case UAS_CONTROLLER_CALL_RECLAIM:
        return second_call_reclaim(controller, door);
    case UAS_CONTROLLER_CALL_CONTEXT:
        return second_call_context(controller, door, data, length);
    case UAS_CONTROLLER_CALL_BLOCKS:
    case UAS_CONTROLLER_CALL_MEDIUM:
        return second_call_copy(controller, door, data, length);
    default:
        return UAS_CONTROLLER_CALL;
    }
}

#endif
