/* One driver in front of two controllers: uas_controller, with rings and buffers of its own, and uas_xhci, over memory that is laid out alike. What
 * the driver puts and rings goes to both, and both run until nothing is left to do. Then each event, buffer, stream context and block of the one
 * is the other's.
 *
 * These things differ, and no other is let pass. uas_xhci tells which TD was stopped (codes 26 to 28; xHCI 4.6.9), and takes a Link TRB as a step of its
 * own. It ends the data TD of a command that ended early, as a short packet, or whole where its bytes were taken before the backend failed;
 * uas_controller leaves it to be retired. A stream of uas_controller's that was rung stays armed until its pipe is stopped, while uas_xhci wants a
 * doorbell once the ring was empty: so a doorbell waits here only where the stream isn't armed. And uas_xhci asks for blocks before the data's doorbell
 * is rung: so none of a command that meets a bad block waits.
 *
 *   two_controllers [ROUNDS [SEED]] */
#include "guest_disk.h"

enum { TAGS = CLIENTS * UAS_CLIENT_TAGS, MOST_EVENTS = 1024, MOST_HELD = 64, LINK_PLACE = 19 };

static uint64_t state, tickets[CLIENTS], next_place[PIPES][STREAMS], next_command = COMMANDS, counted[8];
static uint32_t lengths[TAGS + 1], held[MOST_HELD], helds;
static bool used[TAGS + 1], ended_early[TAGS + 1], armed[UAS_ENDPOINT_DATA_IN + 1][STREAMS];
static uas_driver *driver;
static uas_controller *fixed;
static struct uas_driver_door told;
static struct event fixed_events[MOST_EVENTS], guest_events[MOST_EVENTS];
static uint8_t retiring_pipe;
static uint16_t retiring_tag;
enum { COMMANDS_DONE, TASKS_DONE, REPLIES, EARLY, RETIRED, STOPS, SHORTENED, EVENTS_SEEN };

static uint32_t draw(uint32_t below)
{
    state = state * 6364136223846793005u + 1442695040888963407u;
    return (uint32_t)((state >> 33) % below);
}

static uint64_t window(uint16_t tag)
{
    return 0x100000000 + 0x10000 * (uint64_t)tag;
}

static uint64_t status_buffer(uint16_t tag)
{
    return 0x20000000 + 0x100 * (uint64_t)tag;
}

/* ---- What the driver put and rang ---- */

static bool is_link(const uint8_t bytes[16])
{
    return bytes[13] >> 2 == UAS_TRB_LINK;
}

/* Brings what was put on a ring to both; Link TRBs are the fixed one's own. */
static void bring_ring(uint8_t ring, uint16_t stream, uint64_t *next)
{
    uint8_t bytes[16];
    while (uas_driver_item(driver, *next, bytes) == UAS_OK) {
        uint64_t pointer, put;
        memcpy(&pointer, bytes, sizeof pointer);
        memcpy(memory + *next, bytes, sizeof bytes);
        if (!is_link(bytes))
            must(uas_controller_put_raw(fixed, ring, stream, bytes, &put) == UAS_OK && put == *next, "another place");
        *next = is_link(bytes) ? pointer & ~(uint64_t)15 : *next + 16;
    }
}

static void bring_rings(void)
{
    for (uint8_t pipe = UAS_PIPE_STATUS; pipe < UAS_PIPE_COMMAND; pipe++)
        for (uint16_t tag = 1; tag <= TAGS; tag++)
            bring_ring(pipe, tag, &next_place[pipe][tag]);
    bring_ring(UAS_RING_COMMAND_PIPE, 0, &next_place[UAS_PIPE_COMMAND][0]);
    bring_ring(UAS_RING_COMMANDS, 0, &next_command);
}

static void ring(uint32_t value)
{
    must(uas_controller_doorbell(fixed, value) == UAS_OK, "no doorbell");
    armed[value & 0xff][value >> 16] = true;
    set(DOORBELL + (value == 0 ? 0 : 4), 4, value);
}

/* Rings what a call told; now and then the doorbell of a submission's data waits. */
static void ring_told(bool may_wait)
{
    bring_rings();
    for (uint16_t i = 0; i < told.doorbells; i++) {
        uint8_t target = told.doorbell[i] & 0xff;
        bool is_data = target == UAS_ENDPOINT_DATA_IN || target == UAS_ENDPOINT_DATA_OUT;
        if (may_wait && is_data && !armed[target][told.doorbell[i] >> 16] && helds < MOST_HELD && draw(2) == 0)
            held[helds++] = told.doorbell[i];
        else
            ring(told.doorbell[i]);
    }
}

/* ---- Both controllers run ---- */

static uint32_t run_fixed(void)
{
    uint32_t count = 0;
    for (bool goes_on = true; goes_on;) {
        goes_on = false;
        for (uint8_t step = UAS_STEP_COMMAND; step <= UAS_STEP_ENGINE; step++)
            for (uint16_t tag = 1; tag <= TAGS; tag++) {
                uint16_t on = tag;
                bool acted = false;
                must(uas_controller_step(fixed, step, &on, &acted) == UAS_OK, "no step");
                goes_on |= acted;
            }
    }
    for (struct uas_controller_door event = { .acted = 1 }; uas_controller_event(fixed, &event) == UAS_OK && event.acted; event.acted = 0) {
        must(count < MOST_EVENTS, "too many events");
        fixed_events[count++] = (struct event){ event.address, event.value, event.type, event.code, event.endpoint, event.slot };
    }
    return count;
}

static uint32_t run_guest(void)
{
    uint32_t count = 0;
    work();
    while (take_event(&guest_events[count]))
        must(++count < MOST_EVENTS, "too many events");
    return count;
}

static bool is_same(const struct event *one, const struct event *two)
{
    return one->pointer == two->pointer && one->length == two->length && one->type == two->type && one->code == two->code && one->endpoint == two->endpoint &&
           one->slot == two->slot;
}

static uint16_t stream_of(uint64_t pointer)
{
    return (uint16_t)((pointer & 0xffffff) >> 12);
}

/* Whether the guest's controller alone tells this. */
static bool is_its_own(const struct event *event)
{
    bool out = event->endpoint == UAS_ENDPOINT_DATA_OUT, in = event->endpoint == UAS_ENDPOINT_DATA_IN;
    if (event->type == UAS_TRB_TRANSFER_EVENT && event->code >= 26 && event->code <= 28)
        counted[STOPS]++;
    else if (event->type == UAS_TRB_TRANSFER_EVENT && ((event->code == 13 && (in || out)) || (event->code == 1 && out)) && ended_early[stream_of(event->pointer)])
        counted[SHORTENED]++;
    else
        return false;
    return true;
}

static void differ(const char *who, const struct event *event)
{
    fprintf(stderr, "%s alone has an event of %llx: code %u, %u bytes left\n", who, (unsigned long long)event->pointer, event->code, event->length);
    fail("events differ, of endpoint", event->endpoint);
}

static void compare_events(uint32_t ours, uint32_t theirs)
{
    static bool taken[MOST_EVENTS];
    memset(taken, 0, sizeof taken);
    counted[EVENTS_SEEN] += ours;
    for (uint32_t i = 0; i < ours; i++) {
        uint32_t k = 0;
        while (k < theirs && (taken[k] || !is_same(&fixed_events[i], &guest_events[k])))
            k++;
        if (k == theirs)
            differ("uas_controller", &fixed_events[i]);
        taken[k] = true;
    }
    for (uint32_t k = 0; k < theirs; k++)
        if (!taken[k] && !is_its_own(&guest_events[k]))
            differ("uas_xhci", &guest_events[k]);
}

/* A command that ended early leaves its data TD to one of them, and its context differs until that is retired. */
static void note_early_ends(uint32_t count)
{
    for (uint32_t i = 0; i < count; i++) {
        uint16_t tag = stream_of(fixed_events[i].pointer);
        if (fixed_events[i].endpoint != UAS_ENDPOINT_STATUS || fixed_events[i].type != UAS_TRB_TRANSFER_EVENT)
            continue;
        ended_early[tag] = memory[status_buffer(tag)] == 3 && memory[status_buffer(tag) + 6] != UAS_GOOD;
        counted[EARLY] += ended_early[tag];
    }
}

static void compare_memory(void)
{
    static uint8_t bytes[UAS_MOST_DATA_BYTES];
    for (uint16_t tag = 1; tag <= TAGS; tag++) {
        must(uas_controller_read(fixed, status_buffer(tag), bytes, UAS_MOST_UNIT_BYTES) == UAS_OK, "no status buffer");
        if (memcmp(bytes, memory + status_buffer(tag), UAS_MOST_UNIT_BYTES) != 0)
            fail("another status of tag", tag);
        if (lengths[tag] == 0)
            continue;
        must(uas_controller_read(fixed, window(tag), bytes, lengths[tag]) == UAS_OK, "no data window");
        if (memcmp(bytes, memory + window(tag), lengths[tag]) != 0)
            fail("other data of tag", tag);
    }
}

static void compare_blocks(uint16_t unit)
{
    static uint8_t bytes[sizeof disk[0]];
    must(uas_controller_blocks(fixed, unit, 0, bytes, sizeof bytes) == UAS_OK, "no blocks");
    if (memcmp(bytes, disk[unit], sizeof bytes) != 0)
        fail("other blocks of the logical unit", unit);
}

/* The contexts of a tag under which nothing is. */
static void compare_contexts(uint16_t tag)
{
    uint8_t bytes[16];
    for (uint8_t pipe = UAS_PIPE_STATUS; pipe < UAS_PIPE_COMMAND; pipe++) {
        uint64_t ours, theirs;
        must(uas_controller_context(fixed, pipe, tag, bytes) == UAS_OK, "no context");
        memcpy(&ours, bytes, sizeof ours);
        memcpy(&theirs, memory + context_at(pipe, tag), sizeof theirs);
        if ((theirs & 0xff0) == 16 * LINK_PLACE)
            theirs = (theirs & ~(uint64_t)0xff0) ^ 1;
        if (ours != theirs)
            fail("another context of tag", tag);
    }
}

/* ---- The driver takes the events ---- */

/* Gives back on the fixed controller's rings what the driver gave back on its own. */
static void give_back(uint64_t address)
{
    uint8_t ring = address >= COMMANDS ? UAS_RING_COMMANDS : address < 0x42000000 ? UAS_RING_COMMAND_PIPE : (uint8_t)((address >> 24) - 0x41);
    must(uas_controller_reclaim(fixed, ring, ring < UAS_RING_COMMAND_PIPE ? stream_of(address) : 0, address) == UAS_OK, "nothing to give back");
}

static void bring_back(uint16_t tag)
{
    must(uas_driver_write(driver, status_buffer(tag), memory + status_buffer(tag), UAS_MOST_UNIT_BYTES) == UAS_OK, "no status buffer");
    if (used[tag] && lengths[tag] > 0)
        must(uas_driver_write(driver, window(tag), memory + window(tag), lengths[tag]) == UAS_OK, "no data window");
}

/* A retirement ended: the places of its TD are the ring's again. */
static void end_retirement(void)
{
    uint64_t base = ring_base(retiring_pipe, retiring_tag), next;
    uint8_t bytes[16];
    must(uas_controller_context(fixed, retiring_pipe, retiring_tag, bytes) == UAS_OK, "no context");
    memcpy(&next, bytes, sizeof next);
    next &= ~(uint64_t)15;
    give_back(next == base ? base + 16 * (LINK_PLACE - 1) : next - 16);
    retiring_pipe = 0;
    counted[RETIRED]++;
}

static void hand_in(const struct event *event)
{
    struct uas_trb trb = { .type = event->type, .pointer = event->pointer, .length = event->length, .code = event->code, .endpoint = event->endpoint,
                           .slot = event->slot };
    bool is_command = event->type == UAS_TRB_COMMAND_EVENT;
    must(uas_driver_event(driver, &trb, &told) == UAS_OK, "no event");
    must(told.acted == (is_command ? UAS_EVENT_ENGINE : UAS_EVENT_MATCHED), "an event of nothing");
    give_back(event->pointer);
    bool moved = is_command && memory[event->pointer + 13] >> 2 == UAS_TRB_SET_DEQUEUE;
    ring_told(false);
    if (moved)
        end_retirement();
}

/* The driver asks for the state of an endpoint whose stop was refused: it stands, as its doorbell was held back. */
static void tell_states(void)
{
    for (;;) {
        uint8_t pipe = 0;
        bool wanted = false;
        must(uas_driver_wanted_state(driver, &pipe, &wanted) == UAS_OK, "no state");
        if (!wanted)
            return;
        must(uas_driver_endpoint_state(driver, pipe, memory[CONTEXTS + 32 * endpoint_of(pipe)] & 7, &told) == UAS_OK, "another state");
        ring_told(false);
    }
}

static void retire(void)
{
    for (uint8_t pipe = UAS_PIPE_STATUS; pipe <= UAS_PIPE_DATA_OUT && retiring_pipe == 0; pipe++) {
        uint16_t tag = 0;
        bool there = false;
        must(uas_driver_left_over(driver, pipe, &tag, &there) == UAS_OK, "no pipe");
        if (!there)
            continue;
        must(uas_driver_retire(driver, pipe, tag, &told) == UAS_OK, "no retirement");
        if (told.acted) {
            retiring_pipe = pipe;
            retiring_tag = tag;
            memset(armed[endpoint_of(pipe)], 0, sizeof armed[0]);
            ring_told(false);
        }
    }
}

/* Both run and are compared, and the driver takes what they told; whether that was anything. */
static bool run_both(void)
{
    uint32_t count = run_fixed(), theirs = run_guest();
    note_early_ends(count);
    compare_events(count, theirs);
    compare_memory();
    for (uint16_t tag = 1; tag <= TAGS; tag++)
        bring_back(tag);
    for (uint32_t i = 0; i < count; i++)
        hand_in(&fixed_events[i]);
    tell_states();
    return count > 0;
}

/* The same until nothing comes any more. A retirement begins where both stand still, as a stop and a transfer race otherwise. */
static void settle(void)
{
    do {
        while (run_both())
            ;
        must(retiring_pipe == 0, "a retirement doesn't end");
        retire();
    } while (retiring_pipe != 0);
}

static void take_replies(void)
{
    static uint8_t data[UAS_MOST_DATA_BYTES];
    for (uint32_t client = 0; client < CLIENTS; client++) {
        for (;;) {
            uint32_t lent = 0;
            must(uas_driver_reply(driver, client, data, sizeof data, &told) == UAS_OK, "no reply");
            if (!told.acted)
                break;
            counted[REPLIES]++;
            if (lengths[told.tag] > 0)
                must(uas_controller_take_back(fixed, told.tag, data, sizeof data, &lent) == UAS_OK && lent == lengths[told.tag], "nothing lent");
            lengths[told.tag] = 0;
            used[told.tag] = ended_early[told.tag] = false;
            compare_contexts(told.tag);
        }
    }
}

/* ---- Acts ---- */

static struct uas_operation draw_operation(uint16_t tag)
{
    static const uint8_t opcodes[] = { UAS_READ_10, UAS_WRITE_10, UAS_READ_16, UAS_WRITE_16, UAS_INQUIRY, UAS_READ_CAPACITY_10, UAS_TEST_UNIT_READY,
                                       UAS_SYNCHRONIZE_CACHE_10, UAS_READ_CAPACITY_16 };
    struct uas_operation operation = { .opcode = opcodes[draw(draw(2) ? 4 : 9)], .fua = (uint8_t)draw(2) };
    uint32_t from = draw(ZONE);
    bool tells = operation.opcode == UAS_INQUIRY || operation.opcode == UAS_READ_CAPACITY_16;
    operation.lba = draw(16) == 0 ? BLOCKS + from : (tag % UAS_CLIENT_TAGS) * ZONE + from;
    operation.count = tells ? draw(64) : draw(ZONE - from + 1);
    return operation;
}

/* How many bytes an operation moves. */
static uint32_t bytes_of(const struct uas_operation *operation)
{
    switch (operation->opcode) {
    case UAS_READ_10:
    case UAS_WRITE_10:
    case UAS_READ_16:
    case UAS_WRITE_16: return operation->count * UAS_BLOCK_BYTES;
    case UAS_INQUIRY: return operation->count < 36 ? operation->count : 36;
    case UAS_READ_CAPACITY_16: return operation->count < 32 ? operation->count : 32;
    case UAS_READ_CAPACITY_10: return 8;
    default: return 0;
    }
}

static void bring_buffers(uint16_t tag, const uint8_t *data, uint32_t length)
{
    uint64_t unit = 0x10000000 + 0x100 * (uint64_t)tag;
    uint8_t bytes[32];
    must(uas_driver_read(driver, unit, bytes, sizeof bytes) == UAS_OK && uas_controller_write(fixed, unit, bytes, sizeof bytes) == UAS_OK, "no command buffer");
    memcpy(memory + unit, bytes, sizeof bytes);
    lengths[tag] = length;
    used[tag] = true;
    if (length == 0)
        return;
    must(uas_controller_lend(fixed, tag, data, length) == UAS_OK, "no loan");
    memcpy(memory + window(tag), data, length);
}

static bool meets(const struct uas_operation *operation, uint32_t block)
{
    return operation->lba <= block && block < operation->lba + operation->count;
}

static void submit(uint32_t client)
{
    static uint8_t data[UAS_MOST_DATA_BYTES];
    uint16_t tag = (uint16_t)(UAS_CLIENT_TAGS * client + 1 + draw(UAS_CLIENT_TAGS - 1));
    struct uas_operation operation = draw_operation(tag);
    uint32_t length = bytes_of(&operation);
    if (used[tag])
        return;
    bool is_write = operation.opcode == UAS_WRITE_10 || operation.opcode == UAS_WRITE_16;
    memset(data, 0, sizeof data);
    for (uint32_t i = 0; is_write && i < length; i++)
        data[i] = (uint8_t)draw(256);
    must(uas_driver_submit(driver, client, tag, tickets[client]++, &operation, data, length, &told) == UAS_OK, "a command is refused");
    counted[COMMANDS_DONE]++;
    bring_buffers(tag, data, length);
    ring_told(!meets(&operation, FIRST_BAD) && !meets(&operation, SECOND_BAD));
}

static void manage(uint32_t client)
{
    static const uint8_t functions[] = { UAS_ABORT_TASK, UAS_LOGICAL_UNIT_RESET, UAS_QUERY_TASK };
    uint16_t task_tag = (uint16_t)(UAS_CLIENT_TAGS * (client + 1)), tag = (uint16_t)(UAS_CLIENT_TAGS * client + 1 + draw(UAS_CLIENT_TAGS - 1));
    if (used[task_tag] || uas_driver_task(driver, client, tickets[client], functions[draw(3)], tag, &told) != UAS_OK)
        return;
    tickets[client]++;
    counted[TASKS_DONE]++;
    bring_buffers(task_tag, NULL, 0);
    ring_told(false);
}

static void ring_one(void)
{
    if (helds == 0)
        return;
    uint32_t which = draw(helds);
    ring(held[which]);
    held[which] = held[--helds];
}

static void open_all(void)
{
    static const uint32_t blocks[CLIENTS] = { BLOCKS, BLOCKS, BLOCKS };
    static const struct uas_bad_block bad[] = { { 0, FIRST_BAD }, { 0, SECOND_BAD }, { 1, FIRST_BAD }, { 1, SECOND_BAD }, { 2, FIRST_BAD }, { 2, SECOND_BAD } };
    must(uas_driver_new(CLIENTS, &driver) == UAS_OK && uas_controller_open(blocks, CLIENTS, NULL, 0, bad, 2 * CLIENTS, &fixed) == UAS_OK, "no memory");
    open_guest();
    for (uint8_t pipe = UAS_PIPE_STATUS; pipe < PIPES; pipe++)
        for (uint16_t stream = 0; stream < STREAMS; stream++)
            next_place[pipe][stream] = ring_base(pipe, stream);
    /* the unit attention of the power-on is uas_xhci's alone: a reset leaves both the same */
    for (uint32_t client = 0; client < CLIENTS; client++) {
        must(uas_driver_task(driver, client, tickets[client]++, UAS_LOGICAL_UNIT_RESET, 0, &told) == UAS_OK, "no reset");
        bring_buffers((uint16_t)(UAS_CLIENT_TAGS * (client + 1)), NULL, 0);
        ring_told(false);
    }
    settle();
    take_replies();
}

int main(int words, char **word)
{
    unsigned long rounds = words > 1 ? strtoul(word[1], NULL, 10) : 20000;
    state = words > 2 ? strtoul(word[2], NULL, 10) : 1;
    open_all();
    for (unsigned long round = 0; round < rounds; round++) {
        uint32_t client = draw(CLIENTS), act = draw(8);
        if (act < 5)
            submit(client);
        else if (act == 5)
            manage(client);
        else
            ring_one();
        settle();
        compare_blocks((uint16_t)client);
        if (draw(3) == 0)
            take_replies();
    }
    while (helds > 0)
        ring_one();
    settle();
    take_replies();
    for (uint16_t tag = 1; tag <= TAGS; tag++)
        must(!used[tag], "a client waits");
    printf("two_controllers: %lu rounds; %llu commands, %llu ended early, %llu task managements, %llu replies, %llu retirements; %llu events of both, and "
           "%llu of a stop, %llu of a short TD beside\n",
           rounds, (unsigned long long)counted[COMMANDS_DONE], (unsigned long long)counted[EARLY], (unsigned long long)counted[TASKS_DONE],
           (unsigned long long)counted[REPLIES], (unsigned long long)counted[RETIRED], (unsigned long long)counted[EVENTS_SEEN],
           (unsigned long long)counted[STOPS], (unsigned long long)counted[SHORTENED]);
    uas_driver_free(driver);
    uas_controller_free(fixed);
    uas_xhci_free(guest);
    return 0;
}
