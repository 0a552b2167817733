/* A driver in user space for the controller of uas_xhci.h. It sets the controller and the disk up, moves data, and compares each event, context
 * and byte with what xHCI, USB, UAS and SCSI say; it stops at the first surprise.
 *
 *   cc -Iinclude examples/bench_driver.c $(bindings/archive xhci) -o bench_driver && ./bench_driver [ROUNDS [SEED]]
 *
 * Its habits are others than those of Linux and of uas_driver: TRBs of 64 KiB, of one byte and of none; chains that begin anywhere in a page;
 * rings of two segments, with Link TRBs inside TDs; Event Data TRBs, Immediate Data, two TDs for one command's data; doorbells before the
 * command and after it; No Ops where TDs were; endpoints stopped in the middle of a TD. Requests for blocks are answered late, in any order,
 * from an array. */
#include "bench_driver.h"

/* ---- Setting up ---- */

static void registers(void)
{
    SAME(get(0), 0x01100040);
    SAME(get(4), 2u << 24 | 1 << 8 | 1); /* two ports, one interrupter, one slot */
    SAME(get(0x10), 0x00087281);         /* extended capabilities at 20h, arrays of 256 streams, SPC, NSS, AC64 */
    SAME(get(0x14), DOORBELL);
    SAME(get(0x18), 0x600);
    SAME(get(0x20) & 0xff0000ff, 0x02000002);
    SAME(get(0x28), 1 << 8 | 1);
    SAME(get(0x30) & 0xff00ffff, 0x03000002);
    SAME(get(0x38), 1 << 8 | 2);
    SAME(uas_xhci_read(xhci, 0, 1), 0x40);
    SAME(uas_xhci_read(xhci, 2, 2), 0x0110);
    SAME(get(USBSTS) & 0x801, 1); /* halted, ready */
    SAME(get(0x48), 1);
    uas_xhci_set_frame(xhci, 0x1234);
    SAME(get(0x600), 0x1234);
    SAME(get(0x624), 4000); /* IMODI at a reset; IMODC isn't kept */
    set(0x624, 0x123400a0);
    SAME(get(0x624), 0xa0);
}

/* Resets the controller, gives it its rings, and runs it: port 2 tells that the disk is there. */
static void start(void)
{
    set(USBCMD, 2);
    SAME(get(USBCMD), 0);
    SAME(get(PORTSC2) & 1, 0);
    free_from = BASE;
    memset(expected, 0, sizeof expected);
    uint64_t table = take(64, 64), array = take(64, 64);
    scratch = take(4096, 4096);
    contexts = take(1024, 1024);
    input = take(1056, 2048);
    event_ring = take(16 * EVENTS, 1024);
    memset(at(event_ring), 0, 16 * EVENTS);
    event_place = 0;
    event_cycle = true;
    store(array, 8, 0);
    store(array + 8, 8, contexts);
    store(table, 8, event_ring);
    store(table + 8, 8, EVENTS);
    commands = new_ring(48);
    set(CONFIG, 1);
    set_address(DCBAAP, array);
    set_address(CRCR, commands.segments[0] | 1);
    SAME(get(CRCR), 0);
    set(ERSTSZ, 1);
    set_address(ERDP, event_ring);
    set_address(ERSTBA, table);
    set(IMAN, 2);
    set(USBCMD, 5);
    SAME(get(USBSTS) & 1, 0);
    expect(PORTS, 0, 2 << 24, SUCCESS, 0, false);
    finish();
    SAME(get(PORTSC2), 0x21203); /* CSC; SuperSpeed, PP, U0, PED, CCS */
    set(PORTSC2, 0x20200);
    SAME(get(PORTSC2), 0x1203);
    SAME(get(USBSTS) & 0x14, 0x10); /* PCD, no HSE */
    set(USBSTS, 0x10);
}

/* More events than the ring has places for (4.9.4): all places but two, Event Ring Full Error, and the rest once ERDP moves. */
static void full_event_ring(void)
{
    uint32_t first = event_place;
    for (int i = 0; i < 80; i++)
        expect(COMMANDS, 0, put(&commands, 0, 0, NO_OP_COMMAND << 10), SUCCESS, 0, false);
    ring_doorbell(COMMANDS, 0);
    while (work(7))
        ;
    uint64_t last = event_ring + 16 * ((first + EVENTS - 2) % EVENTS);
    SAME(load(last + 12, 4) >> 10 & 63, 37);
    SAME(load(last + 8, 4), (uint32_t)RING_FULL << 24);
    expect(PORTS, 0, 0, RING_FULL, 0, false);
    finish();
}

/* The contexts of a command: which it adds, and those of the slot and of endpoint 0 (6.2.2, 6.2.3, 6.2.5). */
static void input_context(uint32_t adds, uint32_t entries)
{
    memset(at(input), 0, 1056);
    store(input + 4, 4, adds);
    store(input + 32, 4, entries << 27 | 4 << 20);
    store(input + 36, 4, 2 << 16);
    store(input + 64 + 4, 4, 512u << 16 | 4 << 3 | 3 << 1);
    store(input + 64 + 8, 8, next_place(&control) | control.cycle);
    store(input + 64 + 16, 4, 8);
}

static void enable_slot(void)
{
    memset(at(contexts), 0, 1024);
    command(ENABLE_SLOT, 0, 0, 0, SUCCESS);
    SAME(last_slot, 1);
    command(ENABLE_SLOT, 0, 0, 0, NO_SLOTS);
}

/* At first without an address (BSR), as some drivers read the first bytes of a descriptor before they give one. */
static void address_device(bool blocks_request)
{
    control = new_ring(12);
    input_context(3, 1);
    if (blocks_request) {
        command(ADDRESS, input, 0, SLOT_1 | BSR, SUCCESS);
        SAME(slot_word(3), 1u << 27); /* Default */
        SAME(endpoint_state(CONTROL), RUNNING);
        control_request(0x80, 6, 0x0100, 8, 8);
        SAME(load(scratch, 8), 0x0900000003000112);
        input_context(3, 1);
    }
    command(ADDRESS, input, 0, SLOT_1, SUCCESS);
    SAME(slot_word(3), 2u << 27 | 1); /* Addressed, by 1 */
    SAME(slot_word(1) >> 16 & 255, 2);
    SAME(endpoint_state(CONTROL), RUNNING);
}

#define ENDPOINT(address, exponent, usage) 7, 5, address, 2, 0, 4, 0, 6, 0x30, 15, exponent, 0, 0, 4, 0x24, usage, 0

/* Endpoint 0 (USB 3.2, 9.6; INCITS 471): the descriptors, and a request that is refused. */
static void descriptors(void)
{
    static const uint8_t device[18] = { 18, 1, 0, 3, 0, 0, 0, 9, 0xf4, 0x46, 3, 0, 0, 0, 1, 2, 3, 1 };
    static const uint8_t configuration[86] = { 9, 2, 86, 0, 1, 1, 0, 0xc0, 0, 9, 4, 0, 0, 4, 8, 6, 0x62, 0,
                                               ENDPOINT(1, 0, 1), ENDPOINT(0x81, 7, 2), ENDPOINT(0x82, 7, 3), ENDPOINT(2, 7, 4) };
    control_request(0x80, 6, 0x0100, 18, 18);
    MUST(memcmp(at(scratch), device, 18) == 0);
    control_request(0x80, 6, 0x0200, 9, 9);
    MUST(memcmp(at(scratch), configuration, 9) == 0);
    control_request(0x80, 6, 0x0200, 4000, 86);
    MUST(memcmp(at(scratch), configuration, 86) == 0);
    control_request(0x80, 6, 0x0f00, 5, 5);
    SAME(load(scratch, 2), 0x0f05);
    control_request(0x80, 8, 0, 1, 1);
    SAME(at(scratch)[0], 0);
    /* a descriptor of no known type: Stall at the Data Stage; the endpoint is reset, and goes on behind the request */
    put(&control, 0x0040000055000680, 8, SETUP | IDT | 3 << 16);
    expect(CONTROL, 0, put(&control, scratch, 64, DATA | DIR_IN), STALL, 64, false);
    put(&control, 0, 0, STATUS | IOC);
    ring_doorbell(CONTROL, 0);
    finish();
    SAME(endpoint_state(CONTROL), HALTED);
    command(RESET_ENDPOINT, 0, 0, SLOT_1 | CONTROL << 16, SUCCESS);
    SAME(endpoint_state(CONTROL), STOPPED_STATE);
    command(RESET_ENDPOINT, 0, 0, SLOT_1 | CONTROL << 16, WRONG_STATE);
    command(SET_DEQUEUE, next_place(&control) | control.cycle, 0, SLOT_1 | CONTROL << 16, SUCCESS);
    control_request(0x80, 6, 0x0100, 18, 18);
}

static const uint8_t test_unit_ready[16] = { 0 }, read_capacity[16] = { 0x25 };

/* The four pipes, three with 16 streams (MaxPStreams 3), and configuration 1. */
static void configure(void)
{
    pipes[COMMAND_PIPE][0] = new_ring(32);
    input_context(0x3d, 5);
    for (int endpoint = COMMAND_PIPE; endpoint <= DATA_IN; endpoint++) {
        bool streams = endpoint != COMMAND_PIPE;
        uint64_t context = input + 32 + 32 * (uint64_t)endpoint, array = take(16 * (TAGS + 1), 256);
        memset(at(array), 0, 16 * (TAGS + 1));
        for (int stream = 1; streams && stream <= TAGS; stream++) {
            pipes[endpoint][stream] = new_ring(32);
            store(array + 16 * (uint64_t)stream, 8, pipes[endpoint][stream].segments[0] | 1 << 1 | 1);
        }
        store(context, 4, streams ? 1 << 15 | 3 << 10 : 0);
        store(context + 4, 4, 1024u << 16 | 15 << 8 | (endpoint % 2 ? 6 : 2) << 3 | 3 << 1);
        store(context + 8, 8, streams ? array : pipes[COMMAND_PIPE][0].segments[0] | 1);
        store(context + 16, 4, 0x8000);
    }
    command(CONFIGURE, input, 0, SLOT_1, SUCCESS);
    SAME(slot_word(3), 3u << 27 | 1); /* Configured */
    SAME(slot_word(0) >> 27, 5);
    for (int endpoint = COMMAND_PIPE; endpoint <= DATA_IN; endpoint++)
        SAME(endpoint_state(endpoint), RUNNING);
    control_request(0x00, 9, 1, 0, 0);
    control_request(0x80, 8, 0, 1, 1);
    SAME(at(scratch)[0], 1);
    do_command(1, test_unit_ready, 0, 0x062900); /* the disk was reset with the controller, or by the port */
    do_command(1, test_unit_ready, 0, 0);
}

/* INQUIRY and READ CAPACITY(10) as short TDs: of the first one event, at its last TRB; of the second one at its first and an Event Data's. */
static void short_packets(void)
{
    const uint8_t inquiry[16] = { 0x12, 0, 0, 0, 36 };
    struct piece pieces[3] = { { area(3) + 0x1ff9, 20, 0 }, { area(3) + 0x3001, 40, 0 }, { area(3) + 0x5000, 100, IOC } };
    struct piece one = { area(15) + 0x2fff, 400, ISP };
    clear(3);
    put_td(DATA_IN, 3, pieces, 3, 36, 0);
    do_command(3, inquiry, DATA_IN, 0);
    SAME(load(pieces[0].at, 1), 0); /* a disk, of 36 bytes */
    SAME(load(pieces[0].at + 4, 1) >= 31, 1);
    SAME(load(pieces[1].at + 16, 1), UNTOUCHED);
    put_td(DATA_IN, 15, &one, 1, 8, 0xfeedfacecafebeef);
    do_command(15, read_capacity, DATA_IN, 0);
    const uint8_t *told = at(one.at);
    SAME((uint32_t)told[0] << 24 | told[1] << 16 | told[2] << 8 | told[3], BLOCKS - 1);
    SAME(told[4] << 24 | told[5] << 16 | told[6] << 8 | told[7], UAS_BLOCK_BYTES);
    do_command(7, test_unit_ready, 0, 0);
}

/* 256 KiB: four TRBs of 64 KiB; the same to the end of a 64 KiB, which begins in the middle of a page, with an Event Data TRB behind. */
static void long_trbs(void)
{
    uint64_t begin = area(4) + 0x10000;
    struct piece whole[4], parts[5] = { { begin + 0xe9b3, 0x164d, IOC }, { begin + 0x10000, 0x10000, 0 }, { begin + 0x20000, 0x10000, IOC },
                                        { begin + 0x30000, 0x10000, 0 }, { begin + 0x40000, 0xe9b3, 0 } };
    for (int i = 0; i < 4; i++)
        whole[i] = (struct piece){ begin + 0x10000 * (uint64_t)i, 0x10000, i == 3 ? IOC : 0 };
    scatter(whole, 4, 4 * ZONE);
    put_td(DATA_OUT, 4, whole, 4, 0x40000, 0);
    do_command(4, read_write(true, 4 * ZONE, 512).bytes, DATA_OUT, 0);
    clear(4);
    put_td(DATA_IN, 4, parts, 5, 0x40000, 77);
    do_command(4, read_write(false, 4 * ZONE, 512).bytes, DATA_IN, 0);
    MUST(has(parts[0].at, blocks + 4 * ZONE * UAS_BLOCK_BYTES, 0x40000)); /* the pieces adjoin */
    SAME(*at(parts[0].at + 0x40000), UNTOUCHED);
}

/* A block of which 8 bytes are in the TRB itself, as a TD of their own; and a block of a TD that has room for more, which is taken whole. */
static void odd_writes(void)
{
    struct piece pieces[3] = { { area(8) + 0x2345, 504, IOC }, { area(8) + 0x2345 + 504, 8, 0 }, { area(8) + 0x4000, 512, 0 } };
    struct piece more = { area(8) + 0x4000, 700, IOC };
    scatter(pieces, 3, 8 * ZONE);
    struct piece immediate = { load(pieces[1].at, 8), 8, IDT | IOC };
    put_td(DATA_OUT, 8, pieces, 1, 504, 0);
    put_td(DATA_OUT, 8, &immediate, 1, 8, 0);
    do_command(8, read_write(true, 8 * ZONE, 1).bytes, DATA_OUT, 0);
    put_td(DATA_OUT, 8, &more, 1, 700, 0);
    do_command(8, read_write(true, 8 * ZONE + 1, 1).bytes, DATA_OUT, 0);
    MUST(memcmp(disk + 8 * ZONE * UAS_BLOCK_BYTES, blocks + 8 * ZONE * UAS_BLOCK_BYTES, 1024) == 0);
}

/* Stop Endpoint (4.6.9). A TD that was begun posts a Stopped event, which `stopped` is then. */
static void stop(int endpoint)
{
    stopping = endpoint;
    stops = 0;
    expect(COMMANDS, 0, put(&commands, 0, 0, STOP << 10 | SLOT_1 | (uint32_t)endpoint << 16), SUCCESS, 0, false);
    ring_doorbell(COMMANDS, 0);
    for (int i = 0; i < 1000 && expected[COMMANDS][0].count > 0; i++) {
        work(3);
        take_events();
    }
    SAME(expected[COMMANDS][0].count, 0);
    SAME(endpoint_state(endpoint), STOPPED_STATE);
    stopping = 0;
}

/* A TD that waits is made No Ops, and the next one behind it is used. */
static void no_ops(void)
{
    struct piece pieces[2] = { { area(2) + 0x2000, 1000, 0 }, { area(2) + 0x3000, 1000, IOC } }, one = { area(2) + 0x4000, 8, IOC };
    put_td(DATA_IN, 2, pieces, 2, 2000, 0);
    ring_doorbell(DATA_IN, 2);
    run();
    stop(DATA_IN);
    SAME(stops, 0);
    expected[DATA_IN][2].count = 0;
    for (int i = 0; i < 2; i++)
        write_trb(places[i], 0, 0, NO_OP | (i == 1 ? IOC : 0) | (load(places[i] + 12, 4) & 1));
    expect(DATA_IN, 2, places[1], SUCCESS, 0, false);
    put_td(DATA_IN, 2, &one, 1, 8, 0);
    do_command(2, read_capacity, DATA_IN, 0);
}

static void answer_one(void)
{
    held = false;
    MUST(serve());
    held = true;
    run();
}

/* A READ of two chunks, whose TD is stopped after the first: in the middle of its second TRB. Then it goes on, or the rest goes into another
 * TD behind it (Set TR Dequeue Pointer, 4.6.10). */
static void stop_and_go(uint32_t chunk, bool elsewhere)
{
    uint32_t half = chunk * UAS_BLOCK_BYTES / 2;
    uint64_t begin = area(5) + 0x10000;
    struct piece pieces[3] = { { begin + 7, half, 0 }, { begin + 0x10000, 2 * half, 0 }, { begin + 0x20003, half, IOC } };
    struct piece rest = { begin + 0x30000, 2 * half, IOC };
    struct ring *ring = &pipes[DATA_IN][5];
    clear(5);
    put_td(DATA_IN, 5, pieces, 3, 4 * half, 0);
    uint64_t second = places[1];
    held = true;
    begin_command(5, read_write(false, 5 * ZONE, 2 * chunk).bytes, DATA_IN, 0);
    run();
    answer_one();
    stop(DATA_IN);
    SAME(stops, 1);
    SAME(stopped.code, STOPPED);
    SAME(stopped.pointer, second);
    SAME(stopped.length, half);
    command(STOP, 0, 0, SLOT_1 | DATA_IN << 16, WRONG_STATE);
    answer_one();
    held = false;
    gather(pieces, 3, 5 * ZONE, 2 * half);
    if (elsewhere) {
        expected[DATA_IN][5].count = 0;
        command(SET_DEQUEUE, next_place(ring) | 1 << 1 | ring->cycle, 5 << 16, SLOT_1 | DATA_IN << 16, SUCCESS);
        put_td(DATA_IN, 5, &rest, 1, 2 * half, 0);
    }
    ring_doorbell(DATA_IN, 5);
    finish();
    check_status(5, 0);
    gather(pieces, 3, 5 * ZONE, (elsewhere ? 2 : 4) * half);
    if (elsewhere)
        gather(&rest, 1, 5 * ZONE + chunk, 2 * half);
}

/* A TD whose data has moved, and whose Event Data TRB is still to come, is stopped: that posts Stopped - Length Invalid (4.6.9), and the Event
 * Data TRB posts its event once the endpoint goes on, however far the command's status has come. */
static void stop_before_event_data(void)
{
    struct piece one = { area(10) + 0x2000, 512, IOC };
    clear(10);
    put_td(DATA_IN, 10, &one, 1, 512, 0x1234567890abcdef);
    begin_command(10, read_write(false, 10 * ZONE, 1).bytes, DATA_IN, 0);
    for (int i = 0; i < 1000 && expected[DATA_IN][10].count == 2; i++) {
        work(1);
        take_events();
        serve();
    }
    stop(DATA_IN);
    SAME(stops, 1);
    SAME(stopped.code, STOPPED + 1);
    SAME(stopped.length, 0);
    run();
    ring_doorbell(DATA_IN, 10);
    finish();
    check_status(10, 0);
    gather(&one, 1, 10 * ZONE, 512);
}

/* Endpoint 0 is stopped in a Data Stage, between its two TRBs: the second one is told with what is left of it, and goes on. */
static void stop_data_stage(void)
{
    put(&control, 0x0012000001000680, 8, SETUP | IDT | 3 << 16);
    put(&control, scratch, 8, DATA | DIR_IN | CH);
    uint64_t second = put(&control, scratch + 8, 10, DATA | DIR_IN | IOC);
    expect(CONTROL, 0, second, SUCCESS, 0, false);
    expect(CONTROL, 0, put(&control, 0, 0, STATUS | IOC), SUCCESS, 0, false);
    ring_doorbell(CONTROL, 0);
    work(2);
    stop(CONTROL);
    SAME(stops, 1);
    SAME(stopped.code, STOPPED);
    SAME(stopped.pointer, second);
    SAME(stopped.length, 10);
    ring_doorbell(CONTROL, 0);
    finish();
    SAME(load(scratch + 8, 4), 0x000346f4); /* vendor, product */
}

/* A block that can't be read, in the second chunk; one that can't be written, in the first, whose TD waits until the driver takes it away. */
static void bad_blocks(uint32_t chunk)
{
    uint32_t half = chunk * UAS_BLOCK_BYTES / 2;
    uint64_t begin = area(7) + 0x10000;
    struct piece pieces[3] = { { begin, half, 0 }, { begin + 0x10000, 2 * half, ISP }, { begin + 0x20000, half, IOC } };
    struct ring *ring = &pipes[DATA_OUT][7];
    clear(7);
    bad_block = 7 * ZONE + 2 * chunk - 1;
    put_td(DATA_IN, 7, pieces, 3, 2 * half, 0);
    do_command(7, read_write(false, 7 * ZONE, 2 * chunk).bytes, DATA_IN, 0x031100);
    gather(pieces, 3, 7 * ZONE, 2 * half);
    bad_block = 7 * ZONE;
    put_td(DATA_OUT, 7, pieces, 3, 4 * half, 0);
    uint64_t second = places[1];
    expected[DATA_OUT][7].count = 0;
    do_command(7, read_write(true, 7 * ZONE, 2 * chunk).bytes, DATA_OUT, 0x030c00);
    stop(DATA_OUT);
    SAME(stops, 1);
    SAME(stopped.code, STOPPED);
    SAME(stopped.pointer, second);
    SAME(stopped.length, half);
    bad_block = UINT64_MAX;
    command(SET_DEQUEUE, next_place(ring) | 1 << 1 | ring->cycle, 7 << 16, SLOT_1 | DATA_OUT << 16, SUCCESS);
    scatter(pieces, 3, 7 * ZONE);
    put_td(DATA_OUT, 7, pieces, 3, 4 * half, 0);
    do_command(7, read_write(true, 7 * ZONE, 2 * chunk).bytes, DATA_OUT, 0);
}

/* An error of the host's memory halts the controller until it is cleared (5.4.2). */
static void halted(void)
{
    SAME(get(USBSTS) & 5, 5);
    SAME(get(USBCMD) & 1, 0);
    set(USBCMD, 5);
    SAME(get(USBCMD) & 1, 0);
    set(USBSTS, 4);
    set(USBCMD, 5);
    SAME(get(USBSTS) & 5, 0);
}

/* A TRB whose buffer isn't in the memory; doorbells of streams that aren't there. */
static void wrong_trbs(void)
{
    struct piece one = { area(9) + 0x2000, 512, IOC };
    clear(9);
    const uint64_t outside[3] = { BASE - 100, HIGH + AREAS - 100, UINT64_MAX - 100 };
    for (int i = 0; i < 3; i++) {
        expect(DATA_IN, 9, put(&pipes[DATA_IN][9], outside[i], 512, NORMAL | IOC), DATA_BUFFER, 512, false);
        do_command(9, read_write(false, 9 * ZONE, 1).bytes, DATA_IN, 0);
    }
    for (int i = 0; i < 2; i++) {
        expect(DATA_IN, 0, 0, INVALID_STREAM, 0, false);
        ring_doorbell(DATA_IN, i * (TAGS + 1));
        finish();
        SAME(endpoint_state(DATA_IN), HALTED);
        command(RESET_ENDPOINT, 0, 0, SLOT_1 | DATA_IN << 16, SUCCESS);
        SAME(endpoint_state(DATA_IN), STOPPED_STATE);
    }
    put_td(DATA_IN, 9, &one, 1, 512, 0);
    do_command(9, read_write(false, 9 * ZONE, 1).bytes, DATA_IN, 0);
    gather(&one, 1, 9 * ZONE, 512);
}

/* An endpoint's context that isn't there is found before an event is posted (4.10.2.6): the controller halts, and the step is taken once it is. */
static void no_context(void)
{
    const uint64_t before = contexts - BASE, behind = before + 1024;
    const struct uas_region cut[5] = {
        { BASE, rings, before }, { BASE + behind, rings + behind, RING_BYTES - behind }, regions[0], regions[2], regions[3],
    };
    static uint8_t events[16 * EVENTS];
    uint32_t steps;
    bool more;
    memcpy(events, at(event_ring), sizeof events);
    ring_doorbell(DATA_IN, TAGS + 1);
    SAME(uas_xhci_work(xhci, cut, 5, 9, &steps, &more), UAS_OK);
    SAME(steps, 0);
    MUST(memcmp(events, at(event_ring), sizeof events) == 0);
    SAME(endpoint_state(DATA_IN), RUNNING);
    halted();
    expect(DATA_IN, 0, 0, INVALID_STREAM, 0, false);
    finish();
    SAME(endpoint_state(DATA_IN), HALTED);
    command(RESET_ENDPOINT, 0, 0, SLOT_1 | DATA_IN << 16, SUCCESS);
}

/* While the port is suspended (U3) no endpoint has a step, and doorbells wait (4.15.1); the command ring goes on. */
static void suspended(void)
{
    set(PORTSC2, 0x10260);
    SAME(get(PORTSC2), 0x1263);
    begin_command(9, test_unit_ready, 0, 0);
    command(NO_OP_COMMAND, 0, 0, 0, SUCCESS);
    SAME(expected[STATUS_PIPE][9].count, 1);
    set(PORTSC2, 0x10200);
    expect(PORTS, 0, 2 << 24, SUCCESS, 0, false);
    finish();
    check_status(9, 0);
    SAME(get(PORTSC2), 0x401203); /* PLC */
    set(PORTSC2, 0x400200);
}

/* ---- Commands on all tags at once ---- */

static struct running {
    bool busy, writes;
    uint32_t block, count;
    struct piece pieces[MOST_TRBS];
    int used;
} running[TAGS + 1];

/* Cuts so many bytes into pieces from an address on, none of which crosses 64 KiB (6.4.1). */
static int cut(uint64_t *from, uint32_t total, struct piece *pieces)
{
    int count = 0;
    while (total > 0) {
        uint32_t room = 0x10000 - *from % 0x10000, kind = draw(3), length = kind == 0 ? draw(40) : kind == 1 ? draw(6000) : 0x10000;
        length = count > 10 || length > room ? room : length;
        length = length > total ? total : length;
        pieces[count++] = (struct piece){ *from, length, (draw(6) == 0 ? IOC : 0) | (draw(6) == 0 ? ISP : 0) };
        *from += length + 1 + draw(300);
        total -= length;
    }
    return count;
}

/* A command's data: one TD or two, the last of which may have more room than a READ fills. */
static void put_data(int tag, int endpoint, struct running *command)
{
    uint32_t total = command->count * UAS_BLOCK_BYTES, first = draw(3) == 0 ? draw(total / 1024 + 1) * 1024 : 0;
    uint32_t more = command->writes || draw(3) ? 0 : draw(9000);
    uint64_t from = area(tag) + 0x1000 + draw(5000);
    int cuts = first > 0 && first < total ? cut(&from, first, command->pieces) : 0;
    first = cuts > 0 ? first : 0;
    command->used = cuts + cut(&from, total - first + more, command->pieces + cuts);
    if (command->writes)
        scatter(command->pieces, command->used, command->block);
    if (cuts > 0)
        put_td(endpoint, tag, command->pieces, cuts, first, draw(3) ? 0 : 1 + draw(1 << 30));
    put_td(endpoint, tag, command->pieces + cuts, command->used - cuts, total - first, draw(3) ? 0 : 1 + draw(1 << 30));
}

static void begin_random(int tag)
{
    struct running *command = &running[tag];
    *command = (struct running){ .busy = true, .writes = draw(2), .count = 1 + draw(draw(2) ? 20 : 300) };
    command->block = (uint32_t)(tag * ZONE) + draw(ZONE - command->count + 1);
    int endpoint = command->writes ? DATA_OUT : DATA_IN, first = (int)draw(3);
    struct cdb cdb = read_write(command->writes, command->block, command->count);
    clear(tag);
    for (int i = 0; i < 3; i++, first = (first + 1) % 3) {
        int pipe = first == 0 ? COMMAND_PIPE : first == 1 ? STATUS_PIPE : endpoint;
        if (pipe == COMMAND_PIPE)
            put_command(tag, cdb.bytes);
        else if (pipe == STATUS_PIPE)
            put_status(tag, 16);
        else
            put_data(tag, pipe, command);
        ring_doorbell(pipe, pipe == COMMAND_PIPE ? 0 : tag);
        if (draw(2) == 0)
            work(draw(5));
    }
}

/* Stops a pipe in the middle of what it does, and has it go on. */
static void disturb(int endpoint)
{
    stop(endpoint);
    work(draw(9));
    if (endpoint == COMMAND_PIPE)
        ring_doorbell(endpoint, 0);
    for (int tag = 1; endpoint != COMMAND_PIPE && tag <= TAGS; tag++)
        if (running[tag].busy)
            ring_doorbell(endpoint, tag);
}

static bool is_done(int tag)
{
    return running[tag].busy && expected[STATUS_PIPE][tag].count == 0 && expected[DATA_IN][tag].count == 0 && expected[DATA_OUT][tag].count == 0;
}

static void random_commands(uint32_t rounds)
{
    uint32_t begun = 0, done = 0, idle = 0;
    while (done < rounds) {
        int tag = 1 + (int)draw(TAGS);
        if (!running[tag].busy && begun < rounds) {
            begin_random(tag);
            begun++;
        }
        if (draw(40) == 0)
            disturb(COMMAND_PIPE + (int)draw(4));
        for (uint32_t i = draw(30); i > 0; i--)
            work(1 + draw(5));
        take_events();
        if (draw(2))
            serve();
        for (tag = 1; tag <= TAGS; tag++)
            if (is_done(tag)) {
                struct running *command = &running[tag];
                check_status(tag, 0);
                if (!command->writes)
                    gather(command->pieces, command->used, command->block, command->count * UAS_BLOCK_BYTES);
                command->busy = false;
                done++;
                idle = 0;
            }
        MUST(idle++ < 1000000);
    }
    finish();
    MUST(memcmp(disk, blocks, sizeof disk) == 0);
}

/* ---- Ends ---- */

/* A reset of the port in the middle of a READ: its task is gone, what was asked for it is dropped, its status's TD is one of a disk that isn't
 * configured, and the device is set up anew. */
static void port_reset(void)
{
    uint64_t status = next_place(&pipes[STATUS_PIPE][6]);
    held = true;
    begin_command(6, read_write(false, 6 * ZONE, 8).bytes, 0, 0);
    run();
    expected[STATUS_PIPE][6].count = 0;
    expect(STATUS_PIPE, 6, status, TRANSACTION, (uint32_t)load(status + 8, 4) & 0x1ffff, false);
    set(PORTSC2, 0x210);
    expect(PORTS, 0, 2 << 24, SUCCESS, 0, false);
    finish();
    SAME(get(PORTSC2), 0x201203); /* PRC */
    set(PORTSC2, 0x200200);
    SAME(get(PORTSC2), 0x1203);
    answer_one();
    held = false;
    finish();
    command(RESET_DEVICE, 0, 0, SLOT_1, SUCCESS);
    SAME(slot_word(3), 1u << 27);
    for (int endpoint = COMMAND_PIPE; endpoint <= DATA_IN; endpoint++)
        SAME(endpoint_state(endpoint), 0);
    address_device(false);
    configure();
}

/* A TD that nothing answers is told with USB Transaction Error (4.10.2.3) and what is left of it: the endpoint halts, its ring stays there, and with
 * TSP the TD is tried again. Then it is left behind. */
static void unanswered(int endpoint, int stream)
{
    struct ring *ring = endpoint == CONTROL ? &control : &pipes[endpoint][stream];
    uint32_t target = SLOT_1 | (uint32_t)endpoint << 16, length = endpoint == CONTROL ? 8 : 1000;
    uint64_t here = put(ring, area(1), length, endpoint == CONTROL ? SETUP | IDT | IOC : NORMAL | IOC);
    for (int i = 0; i < 2; i++) {
        expect(endpoint, stream, here, TRANSACTION, length, false);
        ring_doorbell(endpoint, stream);
        finish();
        SAME(endpoint_state(endpoint), HALTED);
        command(RESET_ENDPOINT, 0, 0, target | TSP, SUCCESS);
    }
    command(SET_DEQUEUE, next_place(ring) | (stream > 0 ? 1 << 1 : 0) | ring->cycle, (uint32_t)stream << 16, target, SUCCESS);
    ring_doorbell(endpoint, stream);
    finish();
    SAME(endpoint_state(endpoint), RUNNING);
}

static void unanswered_pipes(void)
{
    for (int endpoint = COMMAND_PIPE; endpoint <= DATA_IN; endpoint++)
        unanswered(endpoint, endpoint == COMMAND_PIPE ? 0 : 13);
}

static void plug(bool attached)
{
    uas_xhci_plug(xhci, attached);
    expect(PORTS, 0, 2 << 24, SUCCESS, 0, false);
    finish();
    SAME(get(PORTSC2) & 0x20001, 0x20000 | (uint32_t)attached); /* CSC, CCS */
    set(PORTSC2, 0x20200);
}

/* The disk is pulled in the middle of a READ: its TD is told with what is left of it, and so is that of its status. Nothing answers until it is there
 * again, and then endpoint 0 alone until it is configured. */
static void unplug(uint32_t chunk)
{
    uint32_t bytes = chunk * UAS_BLOCK_BYTES;
    held = true;
    put(&pipes[DATA_IN][2], area(2) + 0x2000, 512, NORMAL | CH);
    uint64_t second = put(&pipes[DATA_IN][2], area(2) + 0x10000, bytes, NORMAL | IOC), status = next_place(&pipes[STATUS_PIPE][2]);
    begin_command(2, read_write(false, 2 * ZONE, chunk + 1).bytes, DATA_IN, 0);
    run();
    answer_one();
    expected[STATUS_PIPE][2].count = 0;
    expect(DATA_IN, 2, second, TRANSACTION, 512, false);
    expect(STATUS_PIPE, 2, status, TRANSACTION, (uint32_t)load(status + 8, 4) & 0x1ffff, false);
    plug(false);
    held = false;
    finish();
    for (int endpoint = STATUS_PIPE; endpoint <= DATA_IN; endpoint += DATA_IN - STATUS_PIPE) {
        uint64_t next = next_place(&pipes[endpoint][2]) | 1 << 1 | pipes[endpoint][2].cycle;
        SAME(endpoint_state(endpoint), HALTED);
        command(RESET_ENDPOINT, 0, 0, SLOT_1 | (uint32_t)endpoint << 16, SUCCESS);
        command(SET_DEQUEUE, next, 2 << 16, SLOT_1 | (uint32_t)endpoint << 16, SUCCESS);
    }
    unanswered(CONTROL, 0);
    unanswered_pipes();
    plug(true);
    control_request(0x80, 8, 0, 1, 1);
    SAME(at(scratch)[0], 0);
    unanswered_pipes();
    control_request(0x00, 9, 1, 0, 0);
    do_command(2, test_unit_ready, 0, 0x062900);
}

/* CA stops the command ring while it runs, by one write or by halves. Its pointer stays, and it goes on there (5.4.5). */
static void abort_commands(void)
{
    ring_doorbell(COMMANDS, 0);
    run();
    SAME(get(CRCR), 8); /* CRR */
    expect(COMMANDS, 0, next_place(&commands), RING_STOPPED, 0, false);
    set_address(CRCR, 4);
    SAME(get(CRCR), 0);
    run();
    command(NO_OP_COMMAND, 0, 0, 0, SUCCESS);
}

/* PED written 1 disables the port; PLS 5, which does nothing where the disk is connected, has it look for the disk again (4.19.1.2). */
static void disable_port(void)
{
    set(PORTSC2, 0x102a0);
    SAME(get(PORTSC2), 0x1203);
    for (int i = 0; i < 2; i++) {
        set(PORTSC2, i == 0 ? 0x202 : 0x102a0);
        expect(PORTS, 0, 2 << 24, SUCCESS, 0, false);
        finish();
        SAME(get(PORTSC2), i == 0 ? 0x20280 : 0x21203); /* CSC; PLS 4, or SuperSpeed, PED, CCS */
        set(PORTSC2, 0x20200);
        if (i == 0) {
            unanswered(CONTROL, 0);
            unanswered_pipes();
        }
    }
    do_command(2, test_unit_ready, 0, 0);
}

/* Address Device of a disk that is pulled (4.6.5): without BSR nothing answers the request, and the slot is as it was. */
static void unanswered_address(void)
{
    start();
    enable_slot();
    plug(false);
    control = new_ring(12);
    input_context(3, 1);
    for (int i = 0; i < 2; i++) {
        command(ADDRESS, input, 0, SLOT_1, TRANSACTION);
        SAME(slot_word(3), i == 0 ? 0 : 1u << 27);
        if (i == 0)
            command(ADDRESS, input, 0, SLOT_1 | BSR, SUCCESS);
    }
    unanswered(CONTROL, 0);
    plug(true);
    input_context(3, 1);
    command(ADDRESS, input, 0, SLOT_1, SUCCESS);
    control_request(0x80, 8, 0, 1, 1);
}

/* An endpoint with MaxPStreams 0 (4.12.2) has one ring, whose end is in its context (6.2.3); a doorbell's stream isn't looked at (5.6). The disk serves
 * none such: a No Op is taken, and a TD stalls at its TRB, with its whole length, where the ring stays. */
static void no_streams(int endpoint)
{
    uint32_t bit = 1u << endpoint, target = SLOT_1 | (uint32_t)endpoint << 16;
    uint64_t context = input + 32 + 32 * (uint64_t)endpoint, dequeue = contexts + 32 * (uint64_t)endpoint + 8;
    struct ring ring = new_ring(32);
    input_context(bit | 1, 5);
    store(input, 4, bit);
    store(context + 4, 4, 1024u << 16 | 15 << 8 | (endpoint % 2 ? 6 : 2) << 3 | 3 << 1);
    store(context + 8, 8, ring.segments[0] | 1);
    store(context + 16, 4, 0x8000);
    command(CONFIGURE, input, 0, SLOT_1, SUCCESS);
    SAME(endpoint_state(endpoint), RUNNING);
    expect(endpoint, 0, put(&ring, 0, 0, NO_OP | IOC), SUCCESS, 0, false);
    uint64_t here = put(&ring, area(1), 1000, NORMAL | IOC);
    for (int i = 0; i < 2; i++) {
        expect(endpoint, 0, here, STALL, 1000, false);
        ring_doorbell(endpoint, 9 * i);
        finish();
        SAME(endpoint_state(endpoint), HALTED);
        SAME(load(dequeue, 8), here | 1);
        command(RESET_ENDPOINT, 0, 0, target, SUCCESS);
    }
    command(SET_DEQUEUE, next_place(&ring) | ring.cycle, 0, target, SUCCESS);
    SAME(load(dequeue, 8), next_place(&ring) | ring.cycle);
    ring_doorbell(endpoint, 3);
    finish();
    SAME(endpoint_state(endpoint), RUNNING);
    /* a TD that a No Op began, and whose rest isn't there yet */
    expect(endpoint, 0, put(&ring, 0, 0, NO_OP | IOC | CH), SUCCESS, 0, false);
    ring_doorbell(endpoint, 3);
    finish();
    stop(endpoint);
    SAME(stops, 1);
    SAME(stopped.code, STOPPED + 1); /* Stopped - Length Invalid */
    SAME(stopped.pointer, next_place(&ring));
    /* bytes that are no TRB of a pipe; Set TR Dequeue Pointer brings the endpoint from Error to Stopped */
    expect(endpoint, 0, put(&ring, 0, 0, SETUP), TRB_ERROR, 0, false);
    ring_doorbell(endpoint, 0);
    finish();
    SAME(endpoint_state(endpoint), 4);
    command(SET_DEQUEUE, next_place(&ring) | ring.cycle, 0, target, SUCCESS);
    SAME(endpoint_state(endpoint), STOPPED_STATE);
}

/* The command ring goes on where no memory is: the controller halts, and its reset makes it whole. */
static void no_memory(void)
{
    write_trb(next_place(&commands), BASE - 0x1000, 0, LINK | commands.cycle);
    ring_doorbell(COMMANDS, 0);
    finish();
    halted();
}

/* No slot is enabled by CONFIG (5.4.7); the event ring's table is longer than ERST Max says (5.3.4). */
static void wrong_settings(void)
{
    start();
    set(CONFIG, 0);
    command(ENABLE_SLOT, 0, 0, 0, NO_SLOTS);
    SAME(last_slot, 0);
    set(ERSTSZ, 2);
    set_address(ERSTBA, uas_xhci_read(xhci, ERSTBA, 8));
    run();
    halted();
}

static void set_up(void)
{
    start();
    full_event_ring();
    enable_slot();
    address_device(true);
    descriptors();
    configure();
}

int main(int words, char **word)
{
    static const uint16_t chunks[] = { 8, 1, 50, 128 };
    uint32_t rounds = words > 1 ? (uint32_t)atoi(word[1]) : 1000;
    random_state = words > 2 ? strtoull(word[2], NULL, 10) : 1;
    for (int i = 0; i < 4; i++) {
        const struct uas_tasks_unit unit = { BLOCKS, 1, UAS_BLOCK_BYTES };
        for (size_t k = 0; k < sizeof disk; k++)
            disk[k] = blocks[k] = (uint8_t)draw(256);
        SAME(uas_xhci_new(&unit, 1, UAS_SET_HOST, 1024, chunks[i], &xhci), UAS_OK);
        printf("chunks of %u blocks\n", chunks[i]);
        registers();
        set_up();
        printf("  set up: registers, ports, a full event ring, descriptors, endpoints with streams\n");
        short_packets();
        long_trbs();
        odd_writes();
        printf("  short packets, TRBs of 64 KiB, Event Data, Immediate Data\n");
        no_ops();
        stop_and_go(chunks[i], false);
        stop_and_go(chunks[i], true);
        stop_before_event_data();
        stop_data_stage();
        printf("  No Ops, Stop Endpoint in a TRB, Set TR Dequeue Pointer\n");
        bad_blocks(chunks[i]);
        no_context();
        wrong_trbs();
        suspended();
        printf("  bad blocks; buffers, streams and contexts that aren't there; a suspended port\n");
        random_commands(rounds);
        printf("  %u commands at random on %d tags\n", rounds, TAGS);
        port_reset();
        random_commands(100);
        unplug(chunks[i]);
        abort_commands();
        disable_port();
        for (int endpoint = STATUS_PIPE; endpoint <= DATA_IN; endpoint++)
            no_streams(endpoint);
        no_memory();
        wrong_settings();
        unanswered_address();
        set_up();
        printf("  a reset of the port, unplugged, endpoints without streams, halted for want of memory, set up again\n");
        uas_xhci_free(xhci);
    }
    printf("%lu events as they were to be, %lu steps\n", events_seen, steps_taken);
    return 0;
}
