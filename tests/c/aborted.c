/* Commands that are aborted when they are half done. Of a READ a part of its chunk was given: the tag has no task then, so nothing of that chunk
 * may go into the TD of the tag's next command, whose doorbell is rung before its information unit is there. Of a WRITE the request is out: until it
 * is answered ABORT TASK has no Response and its unit's next WRITE isn't asked, nor where the guest resets the whole controller (HCRST) meanwhile.
 * The driver is examples/bench_driver.c.
 *
 *   aborted */
#define main bench_main
#include "../../examples/bench_driver.c"
#undef main

enum { TAG = 3, OTHER = 7 };

/* ABORT TASK of TAG, on the tag above it. */
static void abort_task(void)
{
    uint8_t *unit = at(area(TAG + 1));
    struct piece piece = { area(TAG + 1), 16, IOC };
    memset(unit, 0, 16);
    unit[0] = UAS_UNIT_TASK;
    unit[3] = TAG + 1;
    unit[4] = UAS_ABORT_TASK;
    unit[7] = TAG;
    put_status(TAG + 1, 8);
    put_td(COMMAND_PIPE, 0, &piece, 1, 16, 0);
    ring_doorbell(STATUS_PIPE, TAG + 1);
    ring_doorbell(COMMAND_PIPE, 0);
    run();
}

static void half_a_read(void)
{
    struct piece part = { area(TAG) + 0x2000, 100, IOC }, next = { area(TAG) + 0x3000, 8, IOC };
    clear(TAG);
    put_td(DATA_IN, TAG, &part, 1, 100, 0);
    begin_command(TAG, read_write(false, TAG * ZONE, 1).bytes, DATA_IN, 0);
    run();
    SAME(expected[DATA_IN][TAG].count, 0);
    abort_task();
    SAME(expected[STATUS_PIPE][TAG + 1].count, 0);
    put_td(DATA_IN, TAG, &next, 1, 8, 0);
    ring_doorbell(DATA_IN, TAG);
    run();
    SAME(expected[DATA_IN][TAG].count, 1);
    SAME(*at(next.at), UNTOUCHED);
    put_command(TAG, read_capacity);
    ring_doorbell(COMMAND_PIPE, 0);
    finish();
    check_status(TAG, 0);
    SAME(at(next.at)[6], UAS_BLOCK_BYTES >> 8);
}

/* A WRITE of one block, the same block whatever the tag, until its request is out or has to wait. */
static void begin_write(int tag)
{
    struct piece piece = { area(tag) + 0x2000, UAS_BLOCK_BYTES, IOC };
    scatter(&piece, 1, TAG * ZONE);
    put_td(DATA_OUT, tag, &piece, 1, UAS_BLOCK_BYTES, 0);
    begin_command(tag, read_write(true, TAG * ZONE, 1).bytes, DATA_OUT, 0);
    run();
    SAME(expected[DATA_OUT][tag].count, 0);
}

static uint64_t stale_after(uint64_t number)
{
    SAME(uas_xhci_stale(xhci, &number), UAS_OK);
    return number;
}

/* The request of the first write, which lands late. */
static void land(void)
{
    answer(&out[0]);
    outs = 0;
}

/* What was written last stands on the disk, and is answered with GOOD. */
static void end_write(int tag)
{
    SAME(outs, 1);
    SAME(stale_after(0), 0);
    held = false;
    finish();
    check_status(tag, 0);
    MUST(memcmp(disk + TAG * ZONE * UAS_BLOCK_BYTES, blocks + TAG * ZONE * UAS_BLOCK_BYTES, UAS_BLOCK_BYTES) == 0);
}

static void write_that_is_out(void)
{
    held = true;
    begin_write(TAG);
    SAME(outs, 1);
    SAME(stale_after(0), 0);
    abort_task();
    SAME(expected[STATUS_PIPE][TAG + 1].count, 1);
    SAME(stale_after(0), out[0].number);
    SAME(stale_after(out[0].number), 0);
    begin_write(OTHER);
    SAME(outs, 1);
    land();
    run();
    SAME(expected[STATUS_PIPE][TAG + 1].count, 0);
    SAME(expected[STATUS_PIPE][TAG].count, 1);
    expected[STATUS_PIPE][TAG].count = 0;
    end_write(OTHER);
}

/* The reset forgets the rings, so the driver sets all up again while the write is out. */
static void write_over_a_reset(void)
{
    held = true;
    begin_write(TAG);
    SAME(outs, 1);
    set_up();
    SAME(stale_after(0), out[0].number);
    begin_write(OTHER);
    SAME(outs, 1);
    land();
    SAME(stale_after(0), 0);
    run();
    end_write(OTHER);
}

int main(void)
{
    const struct uas_tasks_unit unit = { BLOCKS, 1, UAS_BLOCK_BYTES };
    (void)bench_main;
    SAME(uas_xhci_new(&unit, 1, UAS_SET_PROFILE, 64, 8, &xhci), UAS_OK);
    set_up();
    half_a_read();
    uas_xhci_free(xhci);
    SAME(uas_xhci_new(&unit, 1, UAS_SET_PROFILE, 64, 8, &xhci), UAS_OK);
    set_up();
    write_that_is_out();
    write_over_a_reset();
    uas_xhci_free(xhci);
    printf("nothing of a READ that was aborted went into the next command's data, and no WRITE that was aborted, or reset, landed late\n");
}
