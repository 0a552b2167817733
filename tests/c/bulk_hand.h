/* What the tests of Bulk-Only Transport by hand share: a disk of an array, TDs with what they are told, CBWs and CSWs. */
#ifndef BULK_HAND_H
#define BULK_HAND_H

#include "bulk_rig.h"
#include "check.h"

enum { BLOCKS = 4096, UNITS = 2, CHUNK = 8 };

static uint8_t disk[UNITS][BLOCKS * UAS_BLOCK_BYTES];
static struct uas_request last;
static uint32_t requests;
static struct event told;

/* ---- Work, TDs ---- */

static void answer(const struct uas_request *request)
{
    uint8_t *bytes = disk[request->unit] + request->block * UAS_BLOCK_BYTES;
    size_t length = (size_t)request->count * UAS_BLOCK_BYTES;
    last = *request;
    requests++;
    if (request->kind == UAS_REQUEST_WRITE)
        CHECK(uas_xhci_data(xhci, request->number, bytes, length) == UAS_OK);
    CHECK(uas_xhci_answered(xhci, request->number, UAS_DONE, bytes, request->kind == UAS_REQUEST_READ ? length : 0) == UAS_OK);
}

static void run(void)
{
    struct uas_request request;
    work_all();
    while (uas_xhci_next_request(xhci, &request)) {
        answer(&request);
        work_all();
    }
}

/* Puts a TD of one TRB, and whether it is told with this code and residual; with code 0, that it isn't told. */
static bool td_on(int dci, uint32_t stream, uint64_t at, uint32_t length, uint8_t code, uint32_t residual)
{
    uint64_t here = put(&pipes[dci], at, length, TRB_NORMAL << 10 | BIT_IOC);
    set(DOORBELL + 4, 4, (uint32_t)dci | stream << 16);
    run();
    told = take_event();
    if (told.type == 0 || code == 0)
        return told.type == code;
    bool so = told.type == TRANSFER_EVENT && told.pointer == here && told.endpoint == dci && told.code == code && told.length == residual;
    if (!so)
        fprintf(stderr, "    endpoint %d: type %u, endpoint %u, code %u, length %u\n", dci, told.type, told.endpoint, told.code, told.length);
    return so;
}

static bool td(int dci, uint32_t length, uint8_t code, uint32_t residual)
{
    return td_on(dci, 0, DATA, length, code, residual);
}

/* A CBW's TD, which is told as done. */
static bool cbw(const char *text)
{
    uint8_t bytes[64];
    size_t length = from_hex(text, bytes, sizeof bytes);
    store(CBWS, bytes, length);
    return td_on(BULK_OUT, 0, CBWS, (uint32_t)length, CODE_SUCCESS, 0);
}

/* A TD for a CSW, which comes whole. */
static void csw(const char *text)
{
    memset(memory.bytes + DATA, 0x5a, 64);
    if (CHECK(td(BULK_IN, CSW_BYTES, CODE_SUCCESS, 0)))
        CHECK_BYTES(memory.bytes + DATA, CSW_BYTES, text);
}

static uint8_t state_of(int dci)
{
    return memory.bytes[CONTEXTS + 32 * dci] & 7;
}

/* ---- Setting up ---- */

static void begin(bool offers)
{
    static const struct uas_tasks_unit units[UNITS] = { { BLOCKS, 1, UAS_BLOCK_BYTES }, { BLOCKS, 2, UAS_BLOCK_BYTES } };
    CHECK(uas_xhci_new(units, UNITS, UAS_SET_HOST, 64, CHUNK, &xhci) == UAS_OK);
    if (offers) {
        CHECK(uas_xhci_offer_bulk_only(xhci, 15, 1) == UAS_UNITS);
        CHECK(uas_xhci_offer_bulk_only(xhci, UNITS - 1, 100000000) == UAS_TASKS_SERIAL);
        CHECK(uas_xhci_offer_bulk_only(xhci, UNITS - 1, 1) == UAS_OK);
    }
    set_up();
}

/* The same with the disk configured and Bulk-Only's two endpoints; each logical unit has told its attention. */
static void begin_bulk(void)
{
    begin(true);
    CHECK(request(setup_of(0x0009, 1, 0, 0)) == 0);
    configure(0, 1 << BULK_OUT | 1 << BULK_IN, 0);
    for (int unit = 0; unit < UNITS; unit++) {
        CHECK(cbw(unit == 0 ? "55534243 09000000 00000000 00 00 06 00x16" : "55534243 09000000 00000000 00 01 06 00x16"));
        csw("55534253 09000000 00000000 01");
    }
    configure(1 << BULK_OUT | 1 << BULK_IN, 1 << BULK_OUT | 1 << BULK_IN, 0);
}

/* A halted pipe goes on behind its TDs, with the disk's halt cleared. */
static void clear_halt(int dci)
{
    leave_behind(dci);
    CHECK(request(setup_of(0x0201, 0, dci == BULK_IN ? 0x82 : 0x02, 0)) == 0);
}

#endif
