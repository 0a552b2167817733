/* A controller of somebody else's beneath a driver: it keeps to xHCI, and has a temper. It stops in the middle of TDs, answers Context State
 * Error, ends TDs short, fills statuses exactly, stalls, has errors of every kind, refuses to move dequeue pointers, and posts its events
 * late. Its disks may be silent, and a disk keeps a task until it has sent its status or was told to end it: so a client uses a tag
 * whose command failed or was given up again only after LOGICAL UNIT RESET. Bytes and counts must be right, and no client may wait at the end.
 *
 *   temper COUNT SEED    COUNT acts of clients, disks and the controller, with a rest after each 4,000 in which all must end */
#include "uas.h"
#include <inttypes.h>
#include <stdio.h>
#include <stdlib.h>
#include <string.h>

enum { CLIENTS = 3, TAGS = CLIENTS * UAS_CLIENT_TAGS, STREAMS = 249, EVENTS = 4096, ACTS = 4000, REST = 400000, LINK = 16 * 19 };

/* Pipes by the numbers of the header, the command pipe 4. */
enum { STATUS = UAS_PIPE_STATUS, IN = UAS_PIPE_DATA_IN, OUT = UAS_PIPE_DATA_OUT, COMMAND = UAS_PIPE_COMMAND, PIPES };

static const uint8_t endpoint_of[PIPES] = { 0, UAS_ENDPOINT_STATUS, UAS_ENDPOINT_DATA_IN, UAS_ENDPOINT_DATA_OUT, UAS_ENDPOINT_COMMAND };

/* What a client submitted under a tag. */
struct asked {
    bool there, given_up;
    bool unsure; /* its disk may have a task under the tag still */
    uint8_t function; /* of a task management, or 0 */
    uint64_t ticket;
    struct uas_operation operation;
};

/* What a disk has under a tag. */
struct held {
    bool there, silent, moving, failed;
    bool open;        /* the event of its data's end doesn't tell where that is */
    uint8_t pipe;     /* where its data goes, or 0 */
    uint8_t function; /* of a task management, or 0 */
    uint8_t response; /* of that */
    uint64_t ticket;
    uint32_t moved, known; /* bytes, and what Stopped events told of them */
};

static uas_driver *driver;
static struct asked asked[TAGS + 1];
static struct held held[TAGS + 1];
static uint8_t state[PIPES];
static uint64_t dequeue[PIPES][STREAMS];
static bool rung[PIPES][STREAMS];
static uint64_t commands;
static bool commands_rung, calm, lost;
static struct uas_trb events[EVENTS];
static size_t first_event, last_event;
static uint64_t next_ticket[CLIENTS], seed, replies[5], codes[256], opened;
static struct uas_driver_door told;

static uint64_t drawn(void)
{
    seed ^= seed << 13;
    seed ^= seed >> 7;
    seed ^= seed << 17;
    return seed;
}

static uint32_t below(uint32_t most)
{
    return (uint32_t)((drawn() >> 16) % most);
}

static void fail(const char *what, uint64_t number)
{
    fprintf(stderr, "temper: %s: %" PRIu64 "\n", what, number);
    exit(1);
}

/* ---- The controller ---- */

static bool item(uint64_t place, uint8_t bytes[16])
{
    return uas_driver_item(driver, place, bytes) == UAS_OK;
}

/* The place from here on that isn't a Link TRB's. */
static uint64_t resolved(uint64_t place)
{
    uint8_t bytes[16];
    struct uas_trb trb;
    if (item(place, bytes) && uas_trb_decode(bytes, &trb) == UAS_OK && trb.type == UAS_TRB_LINK)
        return trb.pointer;
    return place;
}

/* The TRB at which a ring's consumer stands. */
static bool pending(uint8_t pipe, uint16_t stream, struct uas_trb *trb)
{
    uint8_t bytes[16];
    return item(dequeue[pipe][stream], bytes) && uas_trb_decode(bytes, trb) == UAS_OK;
}

static void advance(uint8_t pipe, uint16_t stream)
{
    dequeue[pipe][stream] = resolved(dequeue[pipe][stream] + 16);
}

/* Moves behind the rest of the TD; the place of its last TRB. */
static uint64_t skip(uint8_t pipe, uint16_t stream)
{
    struct uas_trb trb;
    uint64_t last = dequeue[pipe][stream];
    while (pending(pipe, stream, &trb)) {
        last = dequeue[pipe][stream];
        advance(pipe, stream);
        if ((trb.flags & UAS_TRB_CH) == 0)
            break;
    }
    return last;
}

static void post(struct uas_trb event)
{
    if (last_event - first_event == EVENTS)
        fail("too many events wait", last_event);
    codes[event.code]++;
    events[last_event++ % EVENTS] = event;
}

static void post_transfer(uint8_t pipe, uint64_t place, uint32_t residual, uint8_t code)
{
    post((struct uas_trb){ .type = UAS_TRB_TRANSFER_EVENT, .pointer = place, .length = residual, .code = code,
                           .endpoint = endpoint_of[pipe], .slot = 1 });
}

static void forget_doorbells(uint8_t pipe)
{
    memset(rung[pipe], 0, sizeof rung[pipe]);
}

/* Writes doorbells. */
static void ring(const struct uas_driver_door *door)
{
    for (uint16_t i = 0; i < door->doorbells; i++) {
        uint32_t value = door->doorbell[i];
        if (value == 0) {
            commands_rung = true;
            continue;
        }
        for (uint8_t pipe = 1; pipe < PIPES; pipe++) {
            if ((value & 0xff) != endpoint_of[pipe] || value >> 16 >= STREAMS)
                continue;
            if (state[pipe] == UAS_STATE_STOPPED)
                state[pipe] = UAS_STATE_RUNNING;
            if (state[pipe] == UAS_STATE_RUNNING)
                rung[pipe][value >> 16] = true;
        }
    }
}

static bool runs(uint8_t pipe, uint16_t stream, struct uas_trb *trb)
{
    return state[pipe] == UAS_STATE_RUNNING && rung[pipe][stream] && pending(pipe, stream, trb);
}

/* An error at the TRB at which a ring's consumer stands, after so many of its bytes; false where it is of no TRB, and no TD is over. */
static bool err(uint8_t pipe, uint16_t stream, const struct uas_trb *trb, uint32_t moved)
{
    static const uint8_t halting[] = { 3, 4, 6, 8, 16, 36 };
    uint64_t place = dequeue[pipe][stream];
    switch (below(10)) {
    case 0:
    case 1:
        post_transfer(pipe, place, trb->length - moved, 2);
        skip(pipe, stream);
        return true;
    case 2:
        post_transfer(pipe, place, trb->length - moved, 5);
        state[pipe] = UAS_STATE_ERROR;
        break;
    case 3:
        post_transfer(pipe, 0, 0, below(2) ? 34 : 10);
        state[pipe] = UAS_STATE_ERROR;
        forget_doorbells(pipe);
        return false;
    default:
        post_transfer(pipe, place, trb->length - moved, halting[below(sizeof halting)]);
        state[pipe] = UAS_STATE_HALTED;
    }
    forget_doorbells(pipe);
    return true;
}

/* Byte `at` of the data of a command. */
static uint8_t byte_of(uint16_t tag, uint64_t ticket, uint32_t at)
{
    return (uint8_t)(tag * 7 + ticket * 13 + at * 3 + at / 512);
}

/* A part of a data TRB, no smaller than what was moved of it before. */
static uint32_t some_of(uint16_t tag, const struct uas_trb *trb)
{
    uint32_t before = (uint32_t)(trb->pointer % 65536), done = held[tag].moved > before ? held[tag].moved - before : 0;
    return done + below(trb->length - done + 1);
}

/* Moves so many bytes of a data TRB. */
static void move_bytes(uint16_t tag, const struct uas_trb *trb, uint32_t bytes)
{
    static uint8_t data[4096];
    struct held *now = &held[tag];
    uint32_t before = (uint32_t)(trb->pointer % 65536);
    if (now->moved < before || now->moved > before + trb->length)
        fail("the bytes of a TD go on at another place", tag);
    if (now->pipe == IN) {
        for (uint32_t i = 0; i < bytes; i++)
            data[i] = byte_of(tag, now->ticket, before + i);
        if (uas_driver_write(driver, trb->pointer, data, bytes) != UAS_OK)
            fail("no buffer", trb->pointer);
    } else {
        if (uas_driver_read(driver, trb->pointer, data, bytes) != UAS_OK)
            fail("no buffer", trb->pointer);
        for (uint32_t i = 0; i < bytes; i++) {
            if (data[i] != byte_of(tag, now->ticket, before + i))
                fail("another byte of a WRITE", tag);
        }
    }
    now->moved = before + bytes;
}

/* Stop Endpoint: a Stopped event of a stream whose TD isn't over, in the middle of a TRB or before it, or none. */
static void stop(uint8_t pipe)
{
    struct uas_trb trb;
    for (uint16_t stream = pipe == COMMAND ? 0 : 1; stream <= (pipe == COMMAND ? 0 : TAGS); stream++) {
        if (!runs(pipe, stream, &trb) || below(4) == 0)
            continue;
        uint8_t code = (uint8_t)(26 + below(3));
        uint64_t place = dequeue[pipe][stream];
        uint32_t before = pipe == IN || pipe == OUT ? (uint32_t)(trb.pointer % 65536) : 0, moved = 0;
        if ((pipe == IN || pipe == OUT) && held[stream].there && held[stream].moving && held[stream].pipe == pipe && below(2)) {
            moved = some_of(stream, &trb);
            move_bytes(stream, &trb, moved);
        }
        if (code == 27 && place % 4096 == 0 && below(2))
            place += LINK; /* at the Link TRB that led here */
        post_transfer(pipe, place, code == 28 ? before + moved : code == 26 ? trb.length - moved : 0, code);
        if (pipe != COMMAND && pipe != STATUS && code != 27)
            held[stream].known = before + moved;
        break;
    }
    state[pipe] = UAS_STATE_STOPPED;
    forget_doorbells(pipe);
}

/* Executes the oldest command of the command ring. */
static bool execute(void)
{
    uint8_t bytes[16];
    if (!commands_rung || !item(commands, bytes)) {
        commands_rung = false;
        return false;
    }
    uint8_t type = bytes[13] >> 2, pipe = 1, code = 5;
    while (pipe < PIPES && endpoint_of[pipe] != (bytes[14] & 31))
        pipe++;
    if (pipe == PIPES || bytes[15] != 1)
        fail("a command of no endpoint", bytes[14]);
    if (below(calm ? 100 : 20) == 0)
        code = (uint8_t)(24 + below(2));
    else if (type == UAS_TRB_STOP_ENDPOINT) {
        code = state[pipe] == UAS_STATE_RUNNING ? 1 : 19;
        if (code == 1)
            stop(pipe);
    } else if (type == 14) {
        code = state[pipe] == UAS_STATE_HALTED ? 1 : 19;
        if (code == 1)
            state[pipe] = UAS_STATE_STOPPED;
    } else if (type == UAS_TRB_SET_DEQUEUE) {
        struct uas_trb trb;
        if (uas_trb_decode(bytes, &trb) != UAS_OK || trb.stream >= STREAMS)
            fail("a Set TR Dequeue Pointer of no stream", trb.stream);
        code = state[pipe] == UAS_STATE_STOPPED || state[pipe] == UAS_STATE_ERROR ? 1 : 19;
        if (code == 1 && below(calm ? 200 : 40) == 0)
            code = below(2) ? 34 : 5;
        if (code == 1) {
            dequeue[pipe][trb.stream] = resolved(trb.pointer);
            state[pipe] = UAS_STATE_STOPPED;
        }
    } else
        fail("a command of an unknown type", type);
    post((struct uas_trb){ .type = UAS_TRB_COMMAND_EVENT, .pointer = commands, .code = code, .slot = 1 });
    commands = resolved(commands + 16);
    return true;
}

/* ---- The disks ---- */

/* Ends the commands of a client that a task management names; the response. */
static uint8_t managed(uint16_t tag, uint8_t function, uint16_t task_tag)
{
    uint16_t low = (uint16_t)((tag - 1) / UAS_CLIENT_TAGS * UAS_CLIENT_TAGS + 1);
    if (function == UAS_QUERY_TASK)
        return held[task_tag].there ? UAS_RESPONSE_SUCCEEDED : UAS_RESPONSE_COMPLETE;
    for (uint16_t other = low; other < low + UAS_CLIENT_TAGS - 1; other++) {
        if (function == UAS_LOGICAL_UNIT_RESET || other == task_tag)
            held[other].there = false;
    }
    return UAS_RESPONSE_COMPLETE;
}

/* Receives the oldest information unit of the command pipe. */
static bool receive(void)
{
    struct uas_trb trb;
    struct uas_unit unit;
    uint8_t bytes[UAS_MOST_UNIT_BYTES];
    if (!runs(COMMAND, 0, &trb))
        return false;
    if (below(calm ? 400 : 40) == 0) {
        err(COMMAND, 0, &trb, 0);
        return true;
    }
    if (trb.length > sizeof bytes || uas_driver_read(driver, trb.pointer, bytes, trb.length) != UAS_OK ||
        uas_unit_read(bytes, trb.length, &unit) != UAS_OK || unit.tag == 0 || unit.tag > TAGS)
        fail("no information unit", trb.pointer);
    post_transfer(COMMAND, dequeue[COMMAND][0], 0, 1);
    advance(COMMAND, 0);
    struct held *now = &held[unit.tag];
    if (now->there)
        fail("an overlapped tag", unit.tag);
    *now = (struct held){ .there = true, .ticket = asked[unit.tag].ticket };
    if (unit.id == UAS_UNIT_TASK) {
        now->function = unit.function;
        now->response = managed(unit.tag, unit.function, unit.task_tag);
        return true;
    }
    const struct uas_operation *operation = &asked[unit.tag].operation;
    if (operation->count != 0 && operation->opcode != UAS_TEST_UNIT_READY) {
        now->pipe = operation->opcode == UAS_READ_10 ? IN : OUT;
        now->moving = true;
    }
    now->silent = below(calm ? 400 : 40) == 0;
    return true;
}

/* A data-in TD ends short after so many bytes of the TRB at which its ring's consumer stands. The event is of that TRB, and another one of the
 * last TRB may follow; or, as no TRB before the last has ISP, it is of the last alone, of which nothing was moved. */
static void end_short(uint16_t tag, const struct uas_trb *trb, uint32_t bytes)
{
    uint8_t item_bytes[16];
    struct uas_trb at_last = *trb;
    uint64_t place = dequeue[IN][tag], last = skip(IN, tag);
    bool alone = last != place && below(2);
    if (last != place && (!item(last, item_bytes) || uas_trb_decode(item_bytes, &at_last) != UAS_OK))
        fail("no last TRB", last);
    held[tag].open = alone || (last == place && bytes == 0 && trb->pointer % 65536 != 0);
    opened += held[tag].open;
    if (alone) {
        post_transfer(IN, last, at_last.length, 13);
        return;
    }
    post_transfer(IN, place, trb->length - bytes, 13);
    if (last != place && below(2))
        post_transfer(IN, last, 0, below(2) ? 13 : 1);
}

/* Moves the data of a TRB. */
static bool move(uint16_t tag)
{
    struct held *now = &held[tag];
    struct uas_trb trb;
    if (!now->there || now->silent || !now->moving || !runs(now->pipe, tag, &trb))
        return false;
    uint64_t place = dequeue[now->pipe][tag];
    uint32_t bytes = below(20) == 0 ? some_of(tag, &trb) : trb.length;
    if (below(calm ? 600 : 60) == 0) {
        move_bytes(tag, &trb, bytes);
        now->failed = err(now->pipe, tag, &trb, bytes);
        now->moving = !now->failed;
        return true;
    }
    if (now->pipe == IN && bytes < trb.length) {
        move_bytes(tag, &trb, bytes);
        end_short(tag, &trb, bytes);
        now->moving = false;
        return true;
    }
    move_bytes(tag, &trb, trb.length);
    advance(now->pipe, tag);
    if ((trb.flags & UAS_TRB_CH) == 0) {
        post_transfer(now->pipe, place, 0, 1);
        now->moving = false;
    }
    return true;
}

/* Sends the status under a tag. */
static bool answer(uint16_t tag)
{
    struct held *now = &held[tag];
    struct uas_trb trb;
    uint8_t bytes[UAS_MOST_UNIT_BYTES];
    size_t length;
    if (!now->there || now->silent || !runs(STATUS, tag, &trb) || (now->moving && below(200) != 0))
        return false;
    if (below(calm ? 500 : 50) == 0) {
        now->there = !err(STATUS, tag, &trb, 0);
        return true;
    }
    struct uas_unit unit = { .id = UAS_UNIT_SENSE, .tag = tag };
    if (now->function != 0) {
        unit.id = UAS_UNIT_RESPONSE;
        unit.code = now->response;
    } else if (now->moving || now->failed) {
        unit.status = UAS_CHECK_CONDITION;
        unit.sense_length = below(2) ? 96 : 18;
    }
    if (uas_unit_write(&unit, bytes, sizeof bytes, &length) != UAS_OK || uas_driver_write(driver, trb.pointer, bytes, length) != UAS_OK)
        fail("no status buffer", trb.pointer);
    post_transfer(STATUS, dequeue[STATUS][tag], trb.length - (uint32_t)length, length == trb.length ? 1 : 13);
    advance(STATUS, tag);
    now->there = false;
    return true;
}

/* ---- The clients ---- */

/* Whether a submission was taken. It isn't where there is no room, where it is too late for it, and once a pipe was given up. */
static bool is_taken(uint8_t fault)
{
    lost = lost || fault == UAS_DRIVER_RING;
    if (fault != UAS_OK && fault != UAS_DRIVER_ROOM && fault != UAS_CLIENT_NO_SUCH_TASK && fault != UAS_DRIVER_RING)
        fail("a submission is refused", fault);
    return fault == UAS_OK;
}

static void submit(void)
{
    static uint8_t data[UAS_MOST_DATA_BYTES];
    uint32_t client = below(CLIENTS);
    uint16_t tag = (uint16_t)(client * UAS_CLIENT_TAGS + 1 + below(UAS_CLIENT_TAGS - 1));
    if (asked[tag].there || asked[tag].unsure)
        return;
    struct uas_operation operation = { .opcode = UAS_TEST_UNIT_READY };
    if (below(8) != 0)
        operation = (struct uas_operation){ .opcode = below(2) ? UAS_READ_10 : UAS_WRITE_10, .count = below(8) ? below(20) : below(129) };
    uint64_t ticket = next_ticket[client]++;
    uint32_t length = operation.opcode == UAS_TEST_UNIT_READY ? 0 : operation.count * UAS_BLOCK_BYTES;
    for (uint32_t i = 0; i < length; i++)
        data[i] = operation.opcode == UAS_WRITE_10 ? byte_of(tag, ticket, i) : 0;
    if (!is_taken(uas_driver_submit(driver, client, tag, ticket, &operation, data, length, &told)))
        return;
    asked[tag] = (struct asked){ .there = true, .ticket = ticket, .operation = operation };
    ring(&told);
}

/* A task management of a client; LOGICAL UNIT RESET where a tag of its can't be used else. */
static void manage(void)
{
    uint32_t client = below(CLIENTS);
    uint16_t low = (uint16_t)(client * UAS_CLIENT_TAGS + 1), task = (uint16_t)(low + UAS_CLIENT_TAGS - 1);
    uint16_t tag = (uint16_t)(low + below(UAS_CLIENT_TAGS - 1));
    static const uint8_t functions[] = { UAS_ABORT_TASK, UAS_QUERY_TASK, UAS_LOGICAL_UNIT_RESET };
    uint8_t function = functions[below(3)];
    if (asked[tag].unsure)
        function = UAS_LOGICAL_UNIT_RESET;
    if (asked[task].there || (!asked[tag].there && !asked[tag].unsure))
        return;
    uint64_t ticket = next_ticket[client]++;
    if (!is_taken(uas_driver_task(driver, client, ticket, function, tag, &told)))
        return;
    asked[task] = (struct asked){ .there = true, .function = function, .ticket = ticket };
    ring(&told);
}

static void give_up(uint16_t tag)
{
    if (!asked[tag].there || asked[tag].function != 0)
        return;
    uint8_t fault = uas_driver_give_up(driver, (uint32_t)(tag - 1) / UAS_CLIENT_TAGS, tag, &told);
    if (fault != UAS_OK)
        fail("a command can't be given up", fault);
    asked[tag].given_up = true;
    ring(&told);
}

/* The bytes of a command's reply, and how many were moved. */
static void look_at_data(const struct asked *now, const uint8_t *data)
{
    const struct held *then = &held[told.tag];
    uint32_t moved = then->ticket != now->ticket ? 0 : told.reply == UAS_REPLY_STATUS && then->open ? then->known : then->moved;
    if (told.moved > told.length)
        fail("more bytes were moved than there are", told.moved);
    if (told.reply == UAS_REPLY_STATUS && told.status == UAS_GOOD ? told.moved != moved : told.moved > moved)
        fail("another number of bytes was moved", told.tag);
    for (uint32_t i = 0; now->operation.opcode == UAS_READ_10 && i < told.moved; i++) {
        if (data[i] != byte_of(told.tag, now->ticket, i))
            fail("another byte of a READ", told.tag);
    }
}

/* After a reset a disk has no task of this client's but those that came later. */
static void be_sure(uint16_t task)
{
    for (uint16_t tag = (uint16_t)(task - UAS_CLIENT_TAGS + 1); tag < task; tag++)
        asked[tag].unsure = asked[tag].unsure && asked[tag].ticket > asked[task].ticket;
}

static void take_replies(void)
{
    static uint8_t data[UAS_MOST_DATA_BYTES];
    for (uint32_t client = 0; client < CLIENTS; client++) {
        if (uas_driver_reply(driver, client, data, sizeof data, &told) != UAS_OK)
            fail("no reply can be taken", client);
        if (!told.acted)
            continue;
        struct asked *now = &asked[told.tag];
        if (told.tag == 0 || told.tag > TAGS || !now->there || now->ticket != told.ticket)
            fail("a reply to nothing", told.tag);
        if (now->function == 0)
            look_at_data(now, data);
        else if (now->function == UAS_LOGICAL_UNIT_RESET && told.reply == UAS_REPLY_TASK && told.status == UAS_RESPONSE_COMPLETE)
            be_sure(told.tag);
        replies[told.reply]++;
        now->there = false;
        now->unsure = now->function == 0 && (told.reply == UAS_REPLY_FAILED || (told.reply == UAS_REPLY_ABORTED && now->given_up));
    }
}

/* What the caller of a driver does after each event. */
static void look(void)
{
    uint8_t pipe;
    bool wanted, there;
    if (uas_driver_wanted_state(driver, &pipe, &wanted) != UAS_OK)
        fail("no state can be wanted", 0);
    if (wanted) {
        if (uas_driver_endpoint_state(driver, pipe, state[pipe], &told) != UAS_OK)
            fail("a state is refused", state[pipe]);
        ring(&told);
    }
    for (pipe = STATUS; pipe <= OUT; pipe++) {
        uint16_t tag = 0;
        if (uas_driver_left_over(driver, pipe, &tag, &there) != UAS_OK)
            fail("no look for what is left over", pipe);
        if (there && uas_driver_retire(driver, pipe, tag, &told) == UAS_OK)
            ring(&told);
    }
}

static bool take_event(void)
{
    if (first_event == last_event)
        return false;
    if (uas_driver_event(driver, &events[first_event++ % EVENTS], &told) != UAS_OK)
        fail("an event is refused", first_event);
    ring(&told);
    look();
    take_replies();
    return true;
}

static bool act(void)
{
    uint16_t tag = (uint16_t)(1 + below(TAGS));
    switch (below(16)) {
    case 0:
    case 1:
        if (!calm)
            submit();
        return true;
    case 2:
        if (!calm && below(20) == 0)
            manage();
        return true;
    case 3:
        if (!calm && below(100) == 0)
            give_up(tag);
        return true;
    case 4:
    case 5:
        return receive();
    case 6:
    case 7:
    case 8:
        return move(tag);
    case 9:
    case 10:
        return answer(tag);
    case 11:
        return execute();
    default:
        return take_event();
    }
}

static uint16_t waiting(void)
{
    for (uint16_t tag = 1; tag <= TAGS; tag++) {
        if (asked[tag].there)
            return tag;
    }
    return 0;
}

/* No command comes any more, and what is silent is given up: all must end. */
static void rest(void)
{
    calm = true;
    for (unsigned long i = 0; waiting() != 0; i++) {
        if (i == REST) {
            uint16_t tag = waiting();
            fprintf(stderr, "temper: tag %u waits: states %u %u %u %u, given up %d, disk %d, events %zu\n", tag, state[1], state[2], state[3],
                    state[4], asked[tag].given_up, held[tag].there, last_event - first_event);
            fail("a client waits", tag);
        }
        if (i % 2000 == 1999)
            give_up(waiting());
        act();
    }
    calm = false;
}

/* A new driver over a controller and disks that were reset. */
static void begin(void)
{
    uas_driver_free(driver);
    if (uas_driver_new(CLIENTS, &driver) != UAS_OK)
        fail("no driver", 0);
    memset(asked, 0, sizeof asked);
    memset(held, 0, sizeof held);
    for (uint8_t pipe = 1; pipe < PIPES; pipe++) {
        state[pipe] = UAS_STATE_RUNNING;
        forget_doorbells(pipe);
        for (uint16_t stream = 0; stream < STREAMS; stream++)
            dequeue[pipe][stream] = uas_ring_address(pipe == COMMAND ? UAS_RING_COMMAND_PIPE : pipe, stream, 0);
    }
    commands = uas_ring_address(UAS_RING_COMMANDS, 0, 0);
    commands_rung = lost = false;
    first_event = last_event = 0;
}

int main(int count_of, char **words)
{
    unsigned long count = count_of > 1 ? strtoul(words[1], NULL, 10) : 20000, resets = 0;
    uint64_t strays, all_strays = 0;
    seed = (count_of > 2 ? strtoul(words[2], NULL, 10) : 1) * 0x9e3779b97f4a7c15u + 1;
    begin();
    for (unsigned long i = 0; i < count; i++) {
        act();
        if (i % ACTS == ACTS - 1 || i == count - 1 || lost) {
            rest();
            if (uas_driver_strays(driver, &strays) != UAS_OK)
                fail("strays aren't counted", 0);
            if (lost || i == count - 1) {
                all_strays += strays;
                resets += lost;
                begin();
            }
        }
    }
    uas_driver_free(driver);
    static const uint8_t posted[] = { 1, 2, 3, 4, 5, 6, 8, 10, 13, 16, 19, 24, 25, 26, 27, 28, 34, 36 };
    for (size_t i = 0; count >= 100000 && i < sizeof posted; i++) {
        if (codes[posted[i]] == 0)
            fail("a code that never came", posted[i]);
    }
    if (count >= 100000 && opened == 0)
        fail("no event left open where its TD ended", 0);
    printf("%lu acts: %" PRIu64 " statuses, %" PRIu64 " aborted, %" PRIu64 " responses, %" PRIu64 " failed, %" PRIu64 " stray events, %lu resets\n",
           count, replies[1], replies[2], replies[3], replies[4], all_strays, resets);
}
