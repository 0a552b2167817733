/* Two controllers of uas_xhci.h do the same for the same random driver (random_driver.h): one is lent all of its memory, and the other before each
 * step copies of what it asks for and no more (copied_work.h). After each step, or after some that the other takes up to what it lacks, both have the
 * same memory, registers, requests and answers.
 *
 *   copied_xhci [DRIVERS [SEED]] */
#include "copied_work.h"
#include "random_driver.h"

static uint64_t writes, steps_taken, strides, requests, moves, failures;
static uas_xhci *whole, *twin;

/* The twin's memory, in regions that are like those of the other. */
static struct uas_region twins[PARTS + 1];
static uint8_t others[BYTES];

static void write_register(uint64_t offset, uint8_t width, uint64_t value)
{
    uas_xhci_write(whole, offset, width, value);
    uas_xhci_write(twin, offset, width, value);
    writes++;
}

static uint64_t read_register(uint64_t offset, uint8_t width)
{
    uint64_t value = uas_xhci_read(whole, offset, width);
    check(uas_xhci_read(twin, offset, width) == value, "registers differ");
    return value;
}

/* So many steps of each, one at a time of the first: whether there may be more to do. */
static bool stride(uint32_t budget, bool asks)
{
    uint32_t steps = 0, taken = 1, other_steps = 0;
    bool more = true, other_more, ran = read_register(0x40, 4) & 1;
    for (size_t i = 0; i < lent; i++)
        memcpy(twins[i].bytes, regions[i].bytes, regions[i].length);
    for (; more && steps < budget; steps += taken)
        check(uas_xhci_work(whole, regions, lent, 1, &taken, &more) == UAS_OK, "regions were refused");
    uint8_t fault = asks ? asked_work(twin, twins, lent, budget, &other_steps, &other_more) : copied_work(twin, twins, lent, budget, &other_steps, &other_more);
    check(fault == UAS_OK, "copies were refused");
    check(steps == other_steps && more == other_more, "one took a step, and the other didn't");
    for (size_t i = 0; i < lent; i++)
        check(memcmp(twins[i].bytes, regions[i].bytes, regions[i].length) == 0, "the memories differ");
    for (uint32_t offset = 0; offset < UAS_XHCI_REGISTER_BYTES; offset += 8)
        read_register(offset, 8);
    failures += ran && read_register(0x44, 4) & 4;
    steps_taken += steps;
    return more;
}

static void work(uint32_t budget)
{
    static const uint32_t grains[] = { 1, 16, PAGE };
    grain = grains[draw(3)];
    note_room = draw(4) ? MOST_NOTED : draw(3);
    bool asks = draw(2) == 0;
    if (asks && draw(2) == 0 && budget > 0) {
        strides++;
        stride(budget, true);
        return;
    }
    while (budget-- > 0 && stride(1, asks))
        ;
}

static bool is_same(const struct uas_request *one, const struct uas_request *other)
{
    return one->number == other->number && one->unit == other->unit && one->block == other->block && one->count == other->count &&
           one->kind == other->kind && one->through == other->through;
}

/* Requests that are out, and answers. */
static struct uas_request out[64];
static uint32_t outs;

static void take_requests(void)
{
    struct uas_request other;
    while (outs < 64) {
        bool asks = uas_xhci_next_request(whole, &out[outs]);
        check(uas_xhci_next_request(twin, &other) == asks, "one asks, and the other doesn't");
        if (!asks)
            return;
        check(is_same(&out[outs], &other), "requests differ");
        outs++;
        requests++;
    }
}

static void answer(void)
{
    static uint8_t bytes[9 * 512], other[9 * 512];
    take_requests();
    if (outs == 0 || draw(3) == 0)
        return;
    uint32_t which = draw(outs);
    struct uas_request request = out[which];
    size_t length = (size_t)request.count * 512;
    uint8_t outcome = draw(8) ? UAS_DONE : (uint8_t)draw(4);
    bool reads = request.kind == UAS_REQUEST_READ;
    if (request.kind == UAS_REQUEST_WRITE || request.kind == UAS_REQUEST_COMPARE) {
        check(uas_xhci_data(whole, request.number, bytes, length) == UAS_OK, "a request's bytes aren't there");
        check(uas_xhci_data(twin, request.number, other, length) == UAS_OK, "a request's bytes aren't there");
        check(memcmp(bytes, other, length) == 0, "the bytes of a request differ");
    }
    for (size_t i = 0; i < length && reads; i++)
        bytes[i] = (uint8_t)any();
    length = reads && outcome == UAS_DONE ? length : 0;
    check(uas_xhci_answered(whole, request.number, outcome, bytes, length) == UAS_OK, "an answer was refused");
    check(uas_xhci_answered(twin, request.number, outcome, bytes, length) == UAS_OK, "an answer was refused");
    out[which] = out[--outs];
    moves++;
}

static void act_outside(void)
{
    bool attached = draw(3) != 0;
    uint16_t frame = (uint16_t)any();
    if (draw(30) == 0) {
        uas_xhci_plug(whole, attached);
        uas_xhci_plug(twin, attached);
    }
    if (draw(60) == 0) {
        uas_xhci_reset(whole);
        uas_xhci_reset(twin);
    }
    if (read_register(0x44, 4) & 1)
        begin();
    uas_xhci_set_frame(whole, frame);
    uas_xhci_set_frame(twin, frame);
}

static void call(void)
{
    switch (draw(12)) {
    case 0: case 1: case 2: case 3:
        work(draw(30));
        break;
    case 4: case 5:
        answer();
        break;
    case 6:
        put_any_trb(RINGS + 16 * draw((DATA - RINGS) / 16));
        break;
    case 7:
        if (draw(20) == 0)
            *homes[draw(BYTES)] = (uint8_t)any();
        else
            put_unit(DATA + 32 * draw(32));
        break;
    case 8:
        check(uas_xhci_take_message(whole) == uas_xhci_take_message(twin), "one sends a message, and the other doesn't");
        break;
    case 9:
        act_outside();
        break;
    default:
        random_write();
        break;
    }
}

int main(int words, char **word)
{
    uint64_t drivers = words > 1 ? strtoull(word[1], NULL, 10) : 100, seed = words > 2 ? strtoull(word[2], NULL, 10) : 1;
    make_pages();
    for (uint64_t driver = 0; driver < drivers; driver++) {
        const struct uas_tasks_unit unit = { 64, 1, UAS_BLOCK_BYTES };
        state = (seed << 32 | driver) * 0x9e3779b97f4a7c15;
        lend();
        for (size_t i = 0; i < lent; i++)
            twins[i] = (struct uas_region){ regions[i].address, others + (regions[i].address - base), regions[i].length };
        outs = 0;
        uint8_t set = draw(2) ? UAS_SET_HOST : UAS_SET_PROFILE;
        check(uas_xhci_new(&unit, 1, set, 64, 8, &whole) == UAS_OK && uas_xhci_new(&unit, 1, set, 64, 8, &twin) == UAS_OK, "no controller");
        for (uint32_t i = 0; i < BYTES && draw(2) == 0; i++)
            *homes[i] = (uint8_t)(any() & any());
        if (draw(8))
            begin();
        for (int i = 0; i < CALLS; i++)
            call();
        uas_xhci_free(whole);
        uas_xhci_free(twin);
    }
    printf("%llu register writes, %llu steps, some of them in %llu strides, %llu events, %llu requests, %llu answers, %llu host errors\n", (unsigned long long)writes,
           (unsigned long long)steps_taken, (unsigned long long)strides, (unsigned long long)events, (unsigned long long)requests, (unsigned long long)moves,
           (unsigned long long)failures);
    printf("%llu ranges copied of %llu bytes, %llu that weren't there, all for %llu steps, and written back of %llu\n", (unsigned long long)ranges_copied,
           (unsigned long long)bytes_copied, (unsigned long long)ranges_absent, (unsigned long long)steps_crowded, (unsigned long long)steps_lost);
}
