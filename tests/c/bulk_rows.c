/* Bulk-Only Transport of a controller of uas_xhci.h, worked out by hand: descriptors and requests of both alternate settings, commands with their data
 * and status byte for byte, halts, and what a TD is told that nothing serves.
 *
 *   bulk_rows */
#include "bulk_hand.h"

static uint32_t get(uint64_t offset)
{
    return (uint32_t)uas_xhci_read(xhci, offset, 4);
}

/* The port is reset, and the device is addressed anew. */
static void reset_port(void)
{
    set(PORTSC2, 4, 0x210);
    work_all();
    set(PORTSC2, 4, 0x200200);
    must_do(RESET_DEVICE, 0, SLOT_1);
    address_device();
}

/* ---- The page's rows ---- */

static void first_row(void)
{
    begin_bulk();
    for (size_t i = 0; i < 8 * UAS_BLOCK_BYTES; i++)
        disk[0][2048 * UAS_BLOCK_BYTES + i] = (uint8_t)(i * 7 + i / 512);
    for (int i = 0; i < 2; i++) {
        uint32_t length = i == 0 ? 4096 : 8192;
        memset(memory.bytes + DATA, 0x5a, length + 1);
        CHECK(cbw(i == 0 ? "55534243 01000000 00100000 80 00 0a 28000000080000000800 00x6" : "55534243 01000000 00200000 80 00 0a 28000000080000000800 00x6"));
        CHECK(last.kind == UAS_REQUEST_READ && last.unit == 0 && last.block == 2048 && last.count == 8);
        CHECK(td(BULK_IN, length, CODE_SUCCESS, 0));
        CHECK(memcmp(memory.bytes + DATA, disk[0] + 2048 * UAS_BLOCK_BYTES, 4096) == 0 && memory.bytes[DATA + length] == 0x5a);
        for (uint32_t k = 4096; k < length; k++)
            CHECK(memory.bytes[DATA + k] == 0);
        csw(i == 0 ? "55534253 01000000 00000000 00" : "55534253 01000000 00100000 00");
    }
    uas_xhci_free(xhci);
}

static void second_row(void)
{
    begin_bulk();
    uint32_t before = requests;
    CHECK(cbw("55534243 02000000 00100000 80 00 0a 2a000000080000000800 00x6"));
    uint32_t place = event_place;
    CHECK(next_place(&pipes[BULK_IN]) == 0x7000);
    CHECK(td(BULK_IN, 4096, CODE_STALL, 4096));
    CHECK_BYTES(memory.bytes + EVENTS + 16 * place, 16, "0070000000000000 00100006 01800501");
    CHECK(requests == before && state_of(BULK_IN) == STATE_HALTED);
    clear_halt(BULK_IN);
    csw("55534253 02000000 00100000 02");
    uas_xhci_free(xhci);
}

/* The attention after a reset of the port, and sense data that are kept for one command. */
static void third_row(void)
{
    begin_bulk();
    reset_port();
    while (take_event().type != 0)
        ;
    CHECK(request(setup_of(0x0009, 1, 0, 0)) == 0);
    configure(0, 1 << BULK_OUT | 1 << BULK_IN, 0);
    CHECK(cbw("55534243 03000000 00000000 00 00 06 00x16"));
    csw("55534253 03000000 00000000 01");
    for (int i = 0; i < 2; i++) {
        memset(memory.bytes + DATA, 0x5a, 32);
        CHECK(cbw("55534243 04000000 12000000 80 00 06 030000001200 00x10"));
        CHECK(td(BULK_IN, 18, CODE_SUCCESS, 0));
        CHECK_BYTES(memory.bytes + DATA, 18, i == 0 ? "700006000000000a 0000000029000000 0000" : "700000000000000a 0000000000000000 0000");
        csw("55534253 04000000 00000000 00");
    }
    uas_xhci_free(xhci);
}

/* The LUN in CDB byte 1, where it is the CBW's. */
static void fourth_row(void)
{
    begin_bulk();
    CHECK(cbw("55534243 05000000 00020000 80 01 0a 28200000080000000100 00x6"));
    CHECK(last.unit == 1 && last.block == 2048 && last.count == 1);
    CHECK(td(BULK_IN, 512, CODE_SUCCESS, 0));
    csw("55534253 05000000 00000000 00");
    CHECK(cbw("55534243 06000000 00020000 80 00 0a 28200000080000000100 00x6"));
    CHECK(td(BULK_IN, 512, CODE_SUCCESS, 0));
    csw("55534253 06000000 00020000 01");
    CHECK(cbw("55534243 07000000 12000000 80 00 06 030000001200 00x10"));
    CHECK(td(BULK_IN, 18, CODE_SUCCESS, 0));
    CHECK(memory.bytes[DATA + 2] == 5 && memory.bytes[DATA + 12] == 0x24 && memory.bytes[DATA + 13] == 0);
    csw("55534253 07000000 00000000 00");
    uas_xhci_free(xhci);
}

static void status_of(uint16_t endpoint, int came, uint8_t bit)
{
    CHECK(request(setup_of(0x8200, 0, endpoint, 2)) == came);
    if (came > 0)
        CHECK(memory.bytes[SCRATCH] == bit && memory.bytes[SCRATCH + 1] == 0);
}

/* An invalid CBW: both pipes are halted until a reset and CLEAR_FEATURE of each. */
static void fifth_row(void)
{
    static const char *const invalid[] = { "55534243 08000000 00000000 00 00 06 00x15", "55534253 08000000 00000000 00 00 06 00x16",
                                           "55534243 08000000 00000000 00 00 11 00x16", "55534243 08000000 00000000 00 00 00 00x16" };
    begin_bulk();
    for (int i = 0; i < 4; i++) {
        CHECK(cbw(invalid[i]));
        for (int k = 0; k < 2; k++) {
            CHECK(td(BULK_OUT, 31, CODE_STALL, 31));
            CHECK(td(BULK_IN, 13, CODE_STALL, 13));
            clear_halt(BULK_OUT);
            clear_halt(BULK_IN);
            status_of(0x02, 2, 1);
            status_of(0x82, 2, 1);
        }
        CHECK(request(setup_of(0x21ff, 0, 0, 0)) == 0);
        status_of(0x02, 2, 1);
        status_of(0x82, 2, 1);
        clear_halt(BULK_OUT);
        clear_halt(BULK_IN);
        status_of(0x02, 2, 0);
        CHECK(cbw("55534243 08000000 00000000 00 00 06 00x16"));
        csw("55534253 08000000 00000000 00");
    }
    uas_xhci_free(xhci);
}

static void sixth_row(void)
{
    begin(true);
    CHECK(command(TRB_NO_OP_COMMAND, 0, 0) == CODE_SUCCESS && command(TRB_NO_OP_COMMAND, 0, 0) == CODE_SUCCESS);
    CHECK((get(CRCR) & 8) != 0 && next_place(&commands) == 0x1040);
    set(CRCR, 4, 4);
    work_all();
    told = take_event();
    CHECK(told.type == COMMAND_EVENT && told.code == 24 && told.pointer == 0x1040);
    CHECK((get(CRCR) & 8) == 0);
    CHECK(command(TRB_NO_OP_COMMAND, 0, 0) == CODE_SUCCESS);
    uas_xhci_free(xhci);
}

/* ---- Requests ---- */

static void descriptor(uint16_t value, int length, const char *text)
{
    CHECK(request(setup_of(0x8006, value, (value >> 8) == 3 ? 0x409 : 0, 255)) == length);
    CHECK_BYTES(memory.bytes + SCRATCH, (size_t)length, text);
}

static void descriptors(void)
{
    begin(true);
    descriptor(0x0100, 18, "120100030000 0009f446 03000000 01020301");
    descriptor(0x0f00, 22, "050f160002 07100202000000 0a100300080003000000");
    descriptor(0x0200, 121, "0902790001 0100c000  0904000002 08065000  07058202000400 06300f000000  07050202000400 06300f000000"
                            "0904000104 08066200  07050102000400 06300f000000 04240100  07058102000400 06300f070000 04240200"
                            "07058202000400 06300f070000 04240300  07050202000400 06300f070000 04240400");
    descriptor(0x0303, 26, "1a03 3000 3000 3000 3000 3000 3000 3000 3000 3000 3000 3000 3100");
    uas_xhci_free(xhci);
    begin(false);
    CHECK(request(setup_of(0x8006, 0x0200, 0, 255)) == 86);
    uas_xhci_free(xhci);
}

static void alternate_is(uint8_t number)
{
    CHECK(request(setup_of(0x810a, 0, 0, 1)) == 1);
    CHECK(memory.bytes[SCRATCH] == number);
    for (uint16_t endpoint = 1; endpoint <= 2; endpoint++) {
        int came = endpoint == 2 || number == 1 ? 2 : -1;
        status_of(endpoint, came, 0);
        status_of(endpoint | 0x80, came, 0);
        for (int i = 0; i < 2; i++) { /* SET_FEATURE, CLEAR_FEATURE */
            uint8_t set = i == 0;
            uint16_t code = set ? 0x0203 : 0x0201;
            CHECK(request(setup_of(code, 0, endpoint, 0)) == (came > 0 ? 0 : -1));
            CHECK(request(setup_of(code, 0, endpoint | 0x80, 0)) == (came > 0 ? 0 : -1));
            status_of(endpoint, came, set);
            status_of(endpoint | 0x80, came, set);
        }
    }
    status_of(0, 2, 0);
    CHECK(request(setup_of(0x0203, 0, 0, 0)) == -1);
    CHECK(request(setup_of(0x0201, 0, 0, 0)) == -1);
    CHECK(request(setup_of(0xa1fe, 0, 0, 1)) == (number == 0 ? 1 : -1));
    if (number == 0)
        CHECK(memory.bytes[SCRATCH] == UNITS - 1);
    CHECK(request(setup_of(0x21ff, 0, 0, 0)) == (number == 0 ? 0 : -1));
}

static void alternates(void)
{
    begin(true);
    CHECK(request(setup_of(0x0009, 1, 0, 0)) == 0);
    alternate_is(0);
    CHECK(request(setup_of(0x010b, 1, 0, 0)) == 0);
    alternate_is(1);
    CHECK(request(setup_of(0x010b, 2, 0, 0)) == -1);
    alternate_is(1);
    CHECK(request(setup_of(0x010b, 0, 0, 0)) == 0);
    alternate_is(0);
    CHECK(request(setup_of(0x010b, 1, 0, 0)) == 0);
    CHECK(request(setup_of(0x0009, 1, 0, 0)) == 0);
    alternate_is(0);
    CHECK(request(setup_of(0x8008, 0, 0, 1)) == 1 && memory.bytes[SCRATCH] == 1);
    uas_xhci_free(xhci);
}

/* The disk offers both alternates behind a reset of the controller or of the function, and once it was pulled; alternate 0 comes first. */
static void still_offered(void)
{
    begin(true);
    for (int i = 0; i < 3; i++) {
        CHECK(request(setup_of(0x0009, 1, 0, 0)) == 0);
        CHECK(request(setup_of(0x010b, 1, 0, 0)) == 0);
        if (i == 0)
            set(USBCMD, 4, 2);
        else if (i == 1)
            uas_xhci_reset(xhci);
        else {
            uas_xhci_plug(xhci, false);
            work_all();
            uas_xhci_plug(xhci, true);
            work_all();
        }
        if (i < 2)
            set_up();
        CHECK(request(setup_of(0x8006, 0x0200, 0, 255)) == 121);
        CHECK(request(setup_of(0x0009, 1, 0, 0)) == 0);
        CHECK(request(setup_of(0x810a, 0, 0, 1)) == 1 && memory.bytes[SCRATCH] == 0);
        configure(0, 1 << BULK_OUT | 1 << BULK_IN, 0);
        CHECK(cbw("55534243 03000000 00000000 00 00 06 00x16"));
        csw("55534253 03000000 00000000 01");
        CHECK(cbw("55534243 04000000 12000000 80 00 06 030000001200 00x10"));
        CHECK(td(BULK_IN, 18, CODE_SUCCESS, 0));
        CHECK_BYTES(memory.bytes + DATA, 18, "700006000000000a 0000000029000000 0000");
        csw("55534253 04000000 00000000 00");
        configure(1 << BULK_OUT | 1 << BULK_IN, 0, 0);
    }
    uas_xhci_free(xhci);
}

/* ---- Who serves an endpoint ---- */

/* A TD is told with this code, its whole length is left, its ring stays there; Reset Endpoint changes nothing of that. */
static void is_unserved(int dci, uint32_t stream, uint8_t code)
{
    uint64_t here = next_place(&pipes[dci]);
    CHECK(td_on(dci, stream, DATA, 100, code, 100) && state_of(dci) == STATE_HALTED);
    if (stream == 0)
        CHECK((second_long(memory.bytes + CONTEXTS + 32 * dci + 8) & ~(uint64_t)15) == here);
    must_do(TRB_RESET_ENDPOINT, 0, SLOT_1 | (uint32_t)dci << 16);
    set(DOORBELL + 4, 4, (uint32_t)dci | stream << 16);
    run();
    told = take_event();
    CHECK(told.type == TRANSFER_EVENT && told.code == code && told.pointer == here && told.length == 100);
    must_do(TRB_RESET_ENDPOINT, 0, SLOT_1 | (uint32_t)dci << 16);
    put(&commands, next_place(&pipes[dci]) | pipes[dci].cycle | (stream > 0 ? 2 : 0), stream << 16, TRB_SET_DEQUEUE << 10 | SLOT_1 | (uint32_t)dci << 16);
    set(DOORBELL, 4, 0);
    run();
    told = take_event();
    CHECK(told.type == COMMAND_EVENT && told.code == CODE_SUCCESS);
}

static void unserved(void)
{
    begin(true);
    configure(0, 0x3c, 0); /* before the disk is configured */
    for (int dci = 2; dci <= BULK_IN; dci++)
        is_unserved(dci, 0, CODE_TRANSACTION);
    CHECK(request(setup_of(0x0009, 1, 0, 0)) == 0);
    is_unserved(2, 0, CODE_TRANSACTION);
    is_unserved(3, 0, CODE_TRANSACTION);
    for (uint16_t alternate = 0; alternate < 2; alternate++) {
        CHECK(request(setup_of(0x010b, alternate, 0, 0)) == 0);
        configure(0x3c, 0x3c, alternate == 0 ? 0x38 : 0);
        for (int dci = 3; dci <= BULK_IN; dci++)
            is_unserved(dci, alternate == 0, alternate == 0 && dci == 3 ? CODE_TRANSACTION : CODE_STALL);
        configure(0x3c, 0x3c, alternate == 0 ? 0 : 0x38);
        for (int dci = BULK_IN; dci >= BULK_OUT; dci--) {
            uint16_t endpoint = dci == BULK_IN ? 0x82 : 0x02;
            CHECK(request(setup_of(0x0203, 0, endpoint, 0)) == 0);
            is_unserved(dci, alternate, CODE_STALL);
            CHECK(request(setup_of(0x0201, 0, endpoint, 0)) == 0);
            CHECK(td_on(dci, alternate, DATA, 100, dci == BULK_OUT && alternate == 0 ? CODE_SUCCESS : 0, 0));
        }
    }
    uas_xhci_free(xhci);
}

int main(void)
{
    first_row();
    second_row();
    third_row();
    fourth_row();
    fifth_row();
    sixth_row();
    descriptors();
    alternates();
    still_offered();
    unserved();
    return tell("bulk_rows");
}
