/* Edges of Bulk-Only Transport by hand: TDs with TRBs of length 0, No Ops and Event Data, halts that come at once, and what is left of a TD that has ended.
 *
 *   bulk_edges */
#include "bulk_hand.h"

#define TEST_UNIT_READY "55534243 02000000 00000000 00 00 06 00x16"
#define READ_TWO "55534243 01000000 00040000 80 00 0a 28000000080000000200 00x6"

/* Puts a TRB of a TD, and works. */
static uint64_t trb(int dci, uint64_t at, uint32_t length, uint32_t control)
{
    uint64_t here = put(&pipes[dci], at, length, control);
    ring_doorbell(dci);
    run();
    return here;
}

/* The next event is of this endpoint, with this pointer, code and length. */
static bool is_told(int dci, uint64_t pointer, uint8_t code, uint32_t length)
{
    told = take_event();
    bool so = told.type == TRANSFER_EVENT && told.endpoint == dci && told.pointer == pointer && told.code == code && told.length == length;
    if (!so)
        fprintf(stderr, "    endpoint %d: type %u, endpoint %u, code %u, length %u\n", dci, told.type, told.endpoint, told.code, told.length);
    return so;
}

static bool nothing_is_told(void)
{
    return take_event().type == 0;
}

static void status_of(uint16_t endpoint, uint8_t bit)
{
    CHECK(request(setup_of(0x8200, 0, endpoint, 2)) == 2 && memory.bytes[SCRATCH] == bit);
}

/* A TD of exactly the data's bytes, or of a CSW's, isn't longer for a TRB of length 0: that is full. */
static void length_0(void)
{
    begin_bulk();
    CHECK(cbw(READ_TWO));
    trb(BULK_IN, DATA, 1024, TRB_NORMAL << 10 | BIT_CHAIN);
    uint64_t last = trb(BULK_IN, DATA, 0, TRB_NORMAL << 10 | BIT_IOC);
    CHECK(is_told(BULK_IN, last, CODE_SUCCESS, 0));
    trb(BULK_IN, DATA, CSW_BYTES, TRB_NORMAL << 10 | BIT_CHAIN);
    last = trb(BULK_IN, DATA, 0, TRB_NORMAL << 10 | BIT_IOC);
    CHECK(is_told(BULK_IN, last, CODE_SUCCESS, 0));
    CHECK(cbw(TEST_UNIT_READY));
    csw("55534253 02000000 00000000 00");
    uas_xhci_free(xhci);
}

/* A CBW's TD of no byte is too short, also where a No Op ends it; a No Op alone, or Event Data, is no CBW. */
static void empty_cbws(void)
{
    for (int ends = 0; ends < 2; ends++) {
        begin_bulk();
        CHECK(is_told(BULK_OUT, trb(BULK_OUT, 0, 0, TRB_NO_OP << 10 | BIT_IOC), CODE_SUCCESS, 0));
        trb(BULK_OUT, 0x77, 0, TRB_EVENT_DATA << 10 | BIT_IOC);
        CHECK(is_told(BULK_OUT, 0x77, CODE_SUCCESS, 0));
        status_of(0x02, 0);
        trb(BULK_OUT, CBWS, 0, TRB_NORMAL << 10 | (ends ? BIT_CHAIN : 0));
        if (ends)
            trb(BULK_OUT, 0, 0, TRB_NO_OP << 10);
        CHECK(nothing_is_told());
        status_of(0x02, 1);
        status_of(0x82, 1);
        uas_xhci_free(xhci);
    }
}

/* Cases 8 and 10 halt their pipe before any TD is there, after 10 the status comes without one, and after 8 with the halt cleared. */
static void at_once(void)
{
    begin_bulk();
    CHECK(cbw("55534243 01000000 00020000 80 00 0a 2a000000080000000100 00x6"));
    status_of(0x82, 1);
    CHECK(request(setup_of(0x0201, 0, 0x82, 0)) == 0);
    csw("55534253 01000000 00020000 02");
    uas_xhci_free(xhci);
    for (int i = 0; i < 2; i++) {
        begin_bulk();
        CHECK(cbw(i == 0 ? "55534243 01000000 00020000 00 00 0a 28000000080000000100 00x6" : "55534243 01000000 00020000 00 00 06 120000002400 00x10"));
        status_of(0x02, 1);
        csw("55534253 01000000 00020000 02");
        CHECK(td(BULK_OUT, 31, CODE_STALL, 31));
        clear_halt(BULK_OUT);
        CHECK(cbw(TEST_UNIT_READY));
        csw("55534253 02000000 00000000 00");
        uas_xhci_free(xhci);
    }
}

/* What is left of a TD that ended short is skipped, and tells its end, also where the disk has halted the pipe since. */
static void ended_and_halted(void)
{
    begin_bulk();
    CHECK(cbw(TEST_UNIT_READY));
    put(&pipes[BULK_IN], DATA, 100, TRB_NORMAL << 10 | BIT_CHAIN);
    ring_doorbell(BULK_IN);
    run();
    CHECK(nothing_is_told());
    CHECK(request(setup_of(0x0203, 0, 0x82, 0)) == 0);
    uint64_t last = trb(BULK_IN, DATA + 100, 50, TRB_NORMAL << 10 | BIT_IOC);
    CHECK(is_told(BULK_IN, last, CODE_SHORT, 50) && state_of(BULK_IN) == STATE_RUNNING);
    uas_xhci_free(xhci);
}

/* A CBW, or a CSW, whose bytes were all moved, isn't lost nor told again where the pipe is halted before a No Op ends its TD. */
static void moved_and_halted(void)
{
    begin_bulk();
    CHECK(cbw(TEST_UNIT_READY));
    trb(BULK_IN, DATA, CSW_BYTES, TRB_NORMAL << 10 | BIT_CHAIN);
    CHECK(request(setup_of(0x0203, 0, 0x82, 0)) == 0);
    trb(BULK_IN, 0, 0, TRB_NO_OP << 10);
    CHECK(request(setup_of(0x0201, 0, 0x82, 0)) == 0);
    CHECK(cbw(TEST_UNIT_READY));
    csw("55534253 02000000 00000000 00");
    uint8_t bytes[CBW_BYTES];
    from_hex("55534243 03000000 00000000 00 00 06 00x16", bytes, sizeof bytes);
    store(CBWS, bytes, sizeof bytes);
    trb(BULK_OUT, CBWS, CBW_BYTES, TRB_NORMAL << 10 | BIT_CHAIN);
    CHECK(request(setup_of(0x0203, 0, 0x02, 0)) == 0);
    trb(BULK_OUT, 0, 0, TRB_NO_OP << 10);
    CHECK(request(setup_of(0x0201, 0, 0x02, 0)) == 0);
    csw("55534253 03000000 00000000 00");
    uas_xhci_free(xhci);
}

/* A TD that ends with a part of a CSW is too short for it, also where the pipe is halted by then: the next one gets it whole. */
static void half_a_csw(void)
{
    begin_bulk();
    CHECK(cbw(TEST_UNIT_READY));
    trb(BULK_IN, DATA, 5, TRB_NORMAL << 10 | BIT_CHAIN);
    CHECK(request(setup_of(0x0203, 0, 0x82, 0)) == 0);
    CHECK(is_told(BULK_IN, trb(BULK_IN, 0, 0, TRB_NO_OP << 10), CODE_BABBLE, 0) && state_of(BULK_IN) == STATE_HALTED);
    clear_halt(BULK_IN);
    csw("55534253 02000000 00000000 00");
    uas_xhci_free(xhci);
}

int main(void)
{
    length_0();
    empty_cbws();
    at_once();
    ended_and_halted();
    moved_and_halted();
    half_a_csw();
    return tell("bulk_edges");
}
