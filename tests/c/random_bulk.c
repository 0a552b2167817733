/* Random commands of Bulk-Only Transport, step by step beside a second implementation (second_bulk.h) that was written from the rules alone: after each step
 * all bytes of the memory are equal, events and contexts among them, and so are whether a step was taken and what is asked of the backend.
 *
 *   random_bulk [COUNT [SEED]]    COUNT random CBWs; of 100,000 or more each kind that is counted has to be seen
 *
 * Left out: a pipe that is halted in the middle of a CBW's or a CSW's TD, contexts and rings that aren't in the memory. */
#include "random_cbws.h"

enum { ROUND = 250, MOST_BYTES = SECOND_MEMORY_BYTES - DATA };

/* ---- TDs ---- */

static uint32_t room_of(int dci)
{
    const struct ring *ring = &pipes[dci];
    uint64_t pointer = bulk_dequeue(&model, dci) & ~(uint64_t)15, begin = ring->segments[0];
    uint32_t all = 2 * ring->places, here = (uint32_t)((next_place(ring) - begin) / 16);
    return all - 1 - (here + all - (uint32_t)((pointer - begin) / 16)) % all;
}

static uint32_t draw_flags(void)
{
    return (below(3) == 0 ? BIT_IOC : 0) | (below(4) == 0 ? BIT_ISP : 0) | (below(8) == 0 ? 1u << 9 : 0);
}

/* A TRB of a TD that moves no byte. */
static void put_other(struct ring *ring, uint32_t chain)
{
    uint32_t flags = draw_flags() | chain, kind = below(10);
    if (kind < 3)
        put(ring, drawn(), below(1 << 17), TRB_NO_OP << 10 | flags);
    else if (kind < 6)
        put(ring, drawn(), below(1 << 17), TRB_EVENT_DATA << 10 | flags);
    else if (kind < 9)
        put(ring, DATA, below(32) << 17, TRB_NORMAL << 10 | flags);
    else if (below(10) == 0)
        put(ring, drawn(), (uint32_t)drawn(), (9 + below(50)) << 10 | flags);
}

/* A Link TRB in front of a segment's end; what is behind it is none of the next round's. */
static void put_early_link(struct ring *ring)
{
    uint64_t end = ring->segments[ring->segment] + 16 * (uint64_t)ring->places;
    for (uint64_t at = next_place(ring) + 16; at < end; at += 16)
        store_word(at + 12, 4, ring->cycle);
    put_link(ring, draw_flags());
}

/* Where so many bytes are, from the place on that is named, or anywhere. */
static uint64_t place_of(uint64_t at, uint32_t length)
{
    if (below(150) == 0) /* not there, or in part */
        return below(2) ? SECOND_MEMORY_BYTES - below(length + 1) : drawn() << 16;
    return at != 0 ? at : DATA + below(MOST_BYTES + 1 - length);
}

/* Puts a TD of so many bytes, from a place on or anywhere, cut into TRBs; some of them have 8 bytes or fewer in themselves. */
static void put_td(int dci, uint64_t at, uint32_t length)
{
    struct ring *ring = &pipes[dci];
    uint32_t cuts = below(2) ? 0 : below(5);
    if (room_of(dci) < 24)
        return;
    length = length < MOST_BYTES ? length : MOST_BYTES;
    for (uint32_t part; cuts > 0; cuts--, length -= part, at += at != 0 ? part : 0) {
        part = below(4) == 0 ? below(9) : below(length + 1);
        part = part < length ? part : length;
        if (below(12) == 0)
            put_other(ring, BIT_CHAIN);
        put(ring, place_of(at, part), part | below(32) << 17, TRB_NORMAL << 10 | draw_flags() | BIT_CHAIN);
    }
    bool more = below(12) == 0, immediate = dci == BULK_OUT && at == 0 && length <= 8 && below(2);
    if (immediate)
        put(ring, drawn(), length, TRB_NORMAL << 10 | draw_flags() | BIT_IMMEDIATE | (more ? BIT_CHAIN : 0));
    else
        put(ring, place_of(at, length), length, TRB_NORMAL << 10 | draw_flags() | BIT_IOC | (more ? BIT_CHAIN : 0));
    if (more)
        put(ring, drawn(), 0, (below(2) ? TRB_NO_OP : TRB_EVENT_DATA) << 10 | draw_flags());
    if (below(30) == 0)
        put_other(ring, 0);
    if (below(10) == 0)
        put_early_link(ring);
}

static void put_csw_td(void)
{
    put_td(BULK_IN, 0, below(6) ? CSW_BYTES : below(2) ? below(CSW_BYTES) : CSW_BYTES + below(600));
}

/* TDs for the data: of so many bytes, or more or fewer. */
static void put_data_tds(int dci, uint32_t length)
{
    if (dci == BULK_IN && below(30) == 0 && room_of(dci) > 2) { /* as EDK2, whose TRBs lack a chain bit */
        put(&pipes[dci], DATA + below(100), TRB_MOST_BYTES, TRB_NORMAL << 10 | BIT_IOC | BIT_ISP);
        return;
    }
    for (int i = 0; i < 3 && length > 0; i++) {
        uint32_t part = i == 2 || below(2) ? length : below(2) ? below(length + 1) : length + below(below(4) ? 600 : 9000);
        put_td(dci, 0, part);
        length -= part < length ? part : length;
    }
}

/* ---- What a host does in the middle ---- */

/* TDs that were begun are taken off, as a driver does. */
static void leave_begun(void)
{
    for (int dci = BULK_OUT; dci <= BULK_IN; dci++)
        if (model.endpoints[dci].front.begun)
            skip_ring(dci);
}

static void make_request(void)
{
    static const uint16_t endpoints[] = { 0x02, 0x82, 0x02, 0x82, 0x01, 0x81, 0x00, 0x03 };
    uint16_t endpoint = endpoints[below(8)];
    uint32_t kind = model.configured ? below(12) : 11;
    if (kind < 2)
        ask(0x0201, 0, endpoint, 0);
    else if (kind < 4)
        ask(0x0203, 0, endpoint, 0);
    else if (kind < 6)
        ask(0x8200, 0, endpoint, 2);
    else if (kind == 6)
        ask(0xa1fe, 0, 0, 1);
    else if (kind == 7)
        ask(0x810a, 0, 0, 1);
    else {
        if (below(2))
            leave_begun();
        if (kind < 10)
            ask(0x21ff, 0, 0, 0);
        else if (kind == 10)
            ask(0x010b, (uint16_t)below(3), 0, 0);
        else
            ask(0x0009, below(4) != 0, 0, 0);
    }
}

/* The port's state changes, which is told. */
static void tell_port(uint32_t changes)
{
    while (model.port_events > 0)
        step_on();
    set(PORTSC2, 4, changes | 0x200);
    take_events(false);
}

static void reset_the_port(void)
{
    if (below(2))
        leave_begun();
    set(PORTSC2, 4, 0x210);
    bulk_port_reset(&model);
    tell_port(0x200000);
}

/* The disk is pulled, or its port disabled, and after some steps it is there again. */
static void fall_silent(bool pulled)
{
    if (below(2))
        leave_begun();
    if (pulled) {
        uas_xhci_plug(xhci, false);
        bulk_port_reset(&model);
    } else
        set(PORTSC2, 4, 0x202);
    model.silent = true;
    model.port_events = 1;
    tell_port(0x20000);
    if (below(4) == 0)
        ask(0x8200, 0, 0x00, 2);
    some_steps();
    if (pulled)
        uas_xhci_plug(xhci, true);
    else
        set(PORTSC2, 4, 0x102a0);
    model.silent = false;
    model.port_events = 1;
    tell_port(0x20000);
}

/* In U3 no endpoint has a turn. */
static void suspend(void)
{
    set(PORTSC2, 4, 0x10260);
    model.suspended = true;
    some_steps();
    issue(TRB_NO_OP_COMMAND, 0, 0, 0);
    set(PORTSC2, 4, 0x10200);
    model.suspended = false;
    model.port_events = 1;
    tell_port(0x400000);
}

static void disturb(void)
{
    uint32_t kind = below(18);
    int dci = below(2) ? BULK_OUT : BULK_IN;
    if (kind < 6)
        make_request();
    else if (kind < 9) {
        issue(TRB_STOP_ENDPOINT, dci, 0, 0);
        some_steps();
        ring_both(dci);
    } else if (kind < 11) {
        if (model.endpoints[dci].state == STATE_RUNNING)
            skip_ring(dci);
        ring_both(dci);
    } else if (kind == 11 && below(2))
        reset_the_port();
    else if (kind == 11)
        fall_silent(below(2));
    else if (kind == 16)
        suspend();
    else if (kind == 12)
        issue(TRB_RESET_ENDPOINT, dci, 0, 0);
    else if (kind == 13)
        issue(TRB_SET_DEQUEUE, dci, next_place(&pipes[dci]) | pipes[dci].cycle, 0);
    else
        ring_both(dci);
    take_events(false);
}

/* ---- An input: a CBW, its TDs, and an end ---- */

static bool is_empty(int dci)
{
    return (bulk_dequeue(&model, dci) & ~(uint64_t)15) == next_place(&pipes[dci]) && !model.endpoints[dci].front.begun;
}

/* What a host does about a pipe that isn't running. */
static void recover(int dci)
{
    uint16_t endpoint = dci == BULK_IN ? 0x82 : 0x02;
    if (model.broken && below(2))
        ask(0x21ff, 0, 0, 0);
    if (model.endpoints[dci].halted)
        ask(0x0201, 0, endpoint, 0);
    if (model.endpoints[dci].state != STATE_RUNNING)
        skip_ring(dci);
    ring_both(dci);
}

/* Brings the disk nearer to where it awaits a CBW with both rings empty; true where it is there. */
static bool ends(void)
{
    for (int dci = BULK_OUT; dci <= BULK_IN; dci++)
        if (model.endpoints[dci].halted || model.endpoints[dci].state != STATE_RUNNING)
            recover(dci);
    if (!model.configured)
        ask(0x0009, 1, 0, 0);
    if (model.alternate == 1)
        ask(0x010b, 0, 0, 0);
    step_all();
    take_events(false);
    if (model.phase == AWAITS_CBW && is_empty(BULK_OUT) && is_empty(BULK_IN) && !model.broken)
        return true;
    if (out_count > 0 && below(4))
        answer();
    else if (model.phase == MOVES_DATA && below(8) == 0) {
        if (below(2))
            leave_begun();
        ask(0x21ff, 0, 0, 0);
    } else if (model.phase == MOVES_DATA)
        put_data_tds(model.cbw.in ? BULK_IN : BULK_OUT, model.cbw.length - model.moved);
    else if (model.phase == SENDS_CSW && below(3))
        put_csw_td();
    else
        for (int dci = BULK_OUT; dci <= BULK_IN; dci++)
            skip_ring(dci);
    ring_both(BULK_OUT);
    ring_both(BULK_IN);
    return false;
}

/* A TD whose last TRB comes once its bytes were taken, and the endpoint isn't served by then, or both are reset. */
static void put_open_td(int dci, uint64_t at, uint32_t length)
{
    if (room_of(dci) < 8)
        return;
    put(&pipes[dci], place_of(at, length), length, TRB_NORMAL << 10 | draw_flags() | BIT_CHAIN);
    ring_both(dci);
    step_all();
    take_events(false);
    uint32_t kind = model.configured ? below(10) : 9;
    if (kind < 6)
        ask(0x0203, 0, dci == BULK_OUT ? 0x02 : 0x82, 0);
    else if (kind < 7)
        ask(0x21ff, 0, 0, 0);
    else if (kind < 8)
        fall_silent(below(2));
    put(&pipes[dci], DATA, below(20), (below(3) ? TRB_NO_OP : below(2) ? TRB_EVENT_DATA : TRB_NORMAL) << 10 | draw_flags());
    ring_both(dci);
}

static void one_input(void)
{
    uint8_t bytes[64];
    struct plan plan;
    uint32_t length = draw_cbw(&plan, bytes), disturbs = below(3) == 0 ? 1 + below(3) : 0;
    uint64_t at = CBWS + 64 * below(16);
    store(at, bytes, sizeof bytes);
    for (uint32_t begun = 0, which = below(3); begun < 3; begun++, which = (which + (plan.in ? 2 : 1)) % 3) {
        if (which == 0 && below(30) == 0)
            put_open_td(BULK_OUT, at, below(3) ? length : 0);
        else if (which == 0)
            put_td(BULK_OUT, at, length);
        else if (which == 1 && below(8))
            put_data_tds(plan.in ? BULK_IN : BULK_OUT, plan.length);
        else if (which == 2 && below(30) == 0)
            put_open_td(BULK_IN, 0, below(2) ? CSW_BYTES : below(40));
        else if (which == 2 && below(8))
            put_csw_td();
        if (below(8))
            ring_both(which == 0 || (which == 1 && !plan.in) ? BULK_OUT : BULK_IN);
        some_steps();
    }
    for (uint32_t i = below(6) + disturbs; i > 0; i--) {
        some_steps();
        if (i <= disturbs)
            disturb();
        else if (below(2))
            answer();
    }
    for (int tries = 0; !ends(); tries++)
        AGREE(tries < 400);
}

/* ---- Rounds ---- */

static void open_round(void)
{
    static const uint16_t chunks[] = { 8, 1, 3, 5, 16, 2 };
    uint8_t command_set = below(6) ? UAS_SET_HOST : UAS_SET_PROFILE;
    uint16_t chunk = chunks[below(6)];
    unit_count = 1 + below(below(4) ? 3 : MOST_UNITS);
    for (uint32_t unit = 0; unit < MOST_UNITS; unit++)
        units[unit] = (struct uas_tasks_unit){ BLOCKS, unit + 1, chunk == 1 && command_set == UAS_SET_HOST && below(2) ? 4096 : 512 };
    is_slow = below(3) == 0;
    event_places = is_slow ? 16 + below(12) : MOST_EVENTS;
    mirror = NULL;
    AGREE(uas_xhci_new(units, unit_count, command_set, 64, chunk, &xhci) == UAS_OK);
    AGREE(uas_xhci_offer_bulk_only(xhci, (uint8_t)(unit_count - 1), 1) == UAS_OK);
    set_up();
    configure(0, 1 << BULK_OUT | 1 << BULK_IN, 0);
    if (request(setup_of(0x0009, 1, 0, 0)) != 0)
        rig_fails("no configuration", 0);
    memset(&model, 0, offsetof(struct second_bulk, seen));
    model.memory = memory;
    model.contexts = CONTEXTS;
    model.commands = (struct bulk_commands){ next_place(&commands), commands.cycle, false, 0 };
    model.events = (struct second_event_ring){ EVENTS, EVENTS + 16 * (uint64_t)event_place, event_places, event_place, event_cycle, false };
    model.most_lun = (uint8_t)(unit_count - 1);
    model.configured = true;
    model.endpoints[1].state = model.endpoints[BULK_OUT].state = model.endpoints[BULK_IN].state = STATE_RUNNING;
    AGREE(uas_tasks_new(units, unit_count, command_set, 64, chunk, &model.device) == UAS_OK);
    uas_tasks_reset(model.device);
    mirror = &model.memory;
    out_count = fresh_count = 0;
}

/* What was seen, and whether each kind was. */
static bool tell_seen(void)
{
    static const char *const kinds[] = { "too long or short", "another signature", "a wrong CDB length", "Bulk-Out halted", "Bulk-In halted", "kept sense data",
                                         "zeros", "dropped", "through", "LUN in the CDB", "failed" };
    static const uint8_t codes[] = { CODE_SUCCESS, CODE_BUFFER, CODE_BABBLE, CODE_TRANSACTION, CODE_TRB, CODE_STALL, CODE_SHORT, CODE_WRONG_STATE,
                                     EVENT_RING_FULL, CODE_STOPPED, CODE_STOPPED_LENGTH, CODE_STOPPED_SHORT };
    bool all = true;
    printf("%" PRIu64 " CBWs, %" PRIu64 " steps, %" PRIu64 " requests, %" PRIu64 " answers; cases:", input, steps, requests, answers);
    for (int i = 0; i < 13; i++)
        printf(" %d: %lu", i + 1, model.seen[SEEN_CASE + i]);
    printf("\nof other kinds:");
    for (int i = SEEN_LENGTH; i < SEEN_KINDS; i++)
        printf("%s %s: %lu", i > SEEN_LENGTH ? "," : "", kinds[i - SEEN_LENGTH], model.seen[i]);
    printf("\nevents by code:");
    for (size_t i = 0; i < sizeof codes; i++)
        printf(" %u: %lu", codes[i], model.codes[codes[i]]);
    printf("\n");
    for (int i = 0; i < SEEN_KINDS; i++)
        all = all && model.seen[i] > 0;
    for (size_t i = 0; i < sizeof codes; i++)
        all = all && model.codes[codes[i]] > 0;
    return all;
}

int main(int words, char **word)
{
    uint64_t count = words > 1 ? strtoull(word[1], NULL, 10) : 10000, seed = words > 2 ? strtoull(word[2], NULL, 10) : 1;
    model.memory.base = memory.base = 0;
    state = seed + 1;
    for (size_t i = 0; i < sizeof disk; i += 8)
        second_put_long(drawn() << 8 | 1, (uint8_t *)disk + i);
    for (uint64_t round = 0; input < count; round++) {
        state = (seed << 32 | round) * 0x9e3779b97f4a7c15u + 1;
        open_round();
        for (int i = 0; i < ROUND && input < count; i++, input++)
            one_input();
        uas_xhci_free(xhci);
        uas_tasks_free(model.device);
    }
    if (!tell_seen() && count >= 100000) {
        fflush(stdout);
        fprintf(stderr, "random_bulk: some kind was never seen\n");
        return 1;
    }
    return 0;
}
