/* A second implementation of Bulk-Only Transport (BOT) as a controller over a caller's memory serves it: command block wrappers (CBW), data, status
 * wrappers (CSW), the thirteen cases, kept sense data, halts of the disk. Its device is a uas_tasks of the same logical units, which is handed the
 * Command information unit of tag 1 that a CBW becomes. What the pipes tell of TDs is in second_bulk_turns.h.
 *
 * Where the standards say nothing it does as the library: a chunk is taken from the device whole, so the next one is asked for before its bytes are
 * moved; the case, and sense data to keep, come once a TD is there for them; No Op, Event Data and Link TRBs are taken while TDs wait and at a halted
 * pipe, and TRBs of length 0 on the data's pipe; a TD that is longer ends, or is dropped, while a request is out; where a buffer isn't there nothing was
 * moved; what ends tasks forgets sense data, and a reset doesn't; a reset forgets the CBW whose TD was begun; a TD that was begun with data goes on with
 * those of the next command, or is none of it. */
#ifndef UAS_TESTS_SECOND_BULK_H
#define UAS_TESTS_SECOND_BULK_H

#include "second_cbw.h"

enum { BULK_OUT = 4, BULK_IN = 5, BULK_ENDPOINTS = 6, CSW_BYTES = 13, BULK_PIECE = 4096, BULK_GATHERED = 1024, BULK_REQUESTS = 64 };
enum bulk_phase { AWAITS_CBW, MOVES_DATA, SENDS_CSW };
enum bulk_purpose { FOR_NOTHING, FOR_CBW, FOR_DATA, FOR_CSW };

/* What is counted, so that a test can tell whether it saw each kind. */
enum bulk_seen {
    SEEN_CASE, /* and the twelve behind it */
    SEEN_LENGTH = SEEN_CASE + 13, SEEN_SIGNATURE, SEEN_COMMAND_LENGTH, SEEN_HALT_OUT, SEEN_HALT_IN, SEEN_KEPT, SEEN_ZEROS, SEEN_DROPS, SEEN_THROUGH,
    SEEN_LUN_BITS, SEEN_FAILED, SEEN_KINDS
};

/* Of the TRB in front and its TD: what was moved, what the TD is for, and how it ended where its rest is skipped. */
struct bulk_front {
    uint32_t moved, transferred;
    bool begun, owes;
    uint8_t ended;
    enum bulk_purpose purpose;
};

struct bulk_endpoint {
    uint8_t state;
    bool there, rung, halted; /* halted by the disk */
    struct bulk_front front;
};

/* Endpoint 0: the request in front, and what the disk answers. */
struct bulk_control {
    uint8_t setup[8], answer[8];
    uint32_t length;
    bool stalls;
};

struct bulk_commands {
    uint64_t pointer;
    bool cycle, rung;
    uint32_t stops;
};

struct second_bulk {
    struct second_memory memory;
    struct second_event_ring events;
    struct bulk_commands commands;
    uint64_t contexts;
    struct bulk_endpoint endpoints[BULK_ENDPOINTS];
    struct bulk_control control;
    uas_tasks *device;
    uint8_t most_lun, alternate, port_events;
    bool silent, suspended;   /* the disk is pulled or its port disabled; its port is in U3 */
    bool configured;
    /* the transport */
    enum bulk_phase phase;
    bool broken;              /* an invalid CBW came, and no reset since */
    struct bulk_cbw cbw;
    uint8_t gathered[BULK_GATHERED];
    uint32_t gathered_bytes;
    bool own, over;           /* kept sense data answers in the device's place; the device has ended */
    bool gave, took, checks;  /* it gave or took bytes; it ended with sense data */
    uint32_t moved, devices;  /* of the data; what the device gave or took */
    uint8_t chunk[BULK_PIECE];
    uint32_t from, to;        /* what is left of the chunk that was taken from the device; what the next chunk for it has */
    uint8_t status, csw[CSW_BYTES];
    uint32_t sent;
    bool kept;
    uint8_t kept_lun, sense[UAS_MOST_SENSE_BYTES];
    uint32_t sense_length, allocation, answered;
    struct uas_request asked[BULK_REQUESTS];
    uint32_t asks;
    unsigned long seen[SEEN_KINDS], codes[64];
};

/* ---- The device ---- */

/* What the device does next; a request that it asks goes out by that. */
static inline uint8_t bulk_next(struct second_bulk *bulk, uint64_t *left)
{
    uint8_t phase;
    if (bulk->own) {
        *left = bulk->allocation - bulk->answered;
        return *left > 0 ? UAS_GIVES : UAS_ENDS;
    }
    struct uas_request *request = &bulk->asked[bulk->asks];
    uas_tasks_next(bulk->device, 1, &phase, left, request);
    if (phase != UAS_ASKS)
        return phase;
    request->through = request->kind == UAS_REQUEST_WRITE; /* as hosts of this transport don't flush */
    bulk->seen[SEEN_THROUGH] += request->through;
    bulk->asks++;
    return UAS_WAITS;
}

/* A tag whose last Response is sent, or can be now. */
static inline uint16_t bulk_free_tag(struct second_bulk *bulk)
{
    for (uint16_t tag = 2; tag <= UAS_GREATEST_TAG; tag++) {
        struct uas_request request;
        uint64_t left;
        uint8_t phase;
        uas_tasks_next(bulk->device, tag, &phase, &left, &request);
        if (phase == UAS_ENDS)
            uas_tasks_sent(bulk->device, tag);
        if (phase == UAS_ENDS || phase == UAS_ABSENT)
            return tag;
    }
    return 0;
}

/* A task of a logical unit that isn't there has data at most, and no request. */
static inline void bulk_drain(struct second_bulk *bulk)
{
    struct uas_request request;
    uint64_t left;
    uint8_t phase;
    for (;;) {
        uas_tasks_next(bulk->device, 1, &phase, &left, &request);
        if (phase != UAS_GIVES)
            break;
        uas_tasks_give(bulk->device, 1, bulk->chunk, left < BULK_PIECE ? left : BULK_PIECE);
    }
    uas_tasks_sent(bulk->device, 1);
}

/* The task is gone, without an attention: by ABORT TASK. */
static inline void bulk_end_task(struct second_bulk *bulk)
{
    uint16_t tag = bulk_free_tag(bulk), began;
    uint8_t unit[16] = { UAS_UNIT_TASK, 0, (uint8_t)(tag >> 8), (uint8_t)tag, UAS_ABORT_TASK, 0, 0, 1, 0, bulk->cbw.lun };
    bool own = bulk->own;
    bulk->own = false;
    bulk->from = bulk->to = 0;
    if (own || bulk->over)
        return;
    if (bulk->cbw.lun > bulk->most_lun)
        bulk_drain(bulk);
    else
        uas_tasks_receive(bulk->device, unit, sizeof unit, &began);
    bulk_free_tag(bulk);
}

/* Sense data of the device. By uas_tasks_reset each logical unit owes 6/29/03, but by the reset of a port, or of all, 6/29/00. */
static inline void bulk_mend_sense(uint8_t *sense, uint32_t length)
{
    int place = (sense[0] & 0x7f) < 0x72 ? 12 : 2;
    if ((uint32_t)place + 2 <= length && sense[place] == 0x29 && sense[place + 1] == 3)
        sense[place + 1] = 0;
}

/* The task has ended by itself: its status, and sense data to keep. */
static inline void bulk_take_status(struct second_bulk *bulk)
{
    uint8_t unit[UAS_MOST_UNIT_BYTES] = { 0 };
    uint64_t length = 0;
    bulk->over = true;
    bulk->checks = false;
    if (bulk->own) {
        bulk->own = false;
        bulk->status = 0;
        return;
    }
    uas_tasks_status(bulk->device, 1, unit, sizeof unit, &length);
    uas_tasks_sent(bulk->device, 1);
    bulk->status = unit[6] == UAS_GOOD ? 0 : 1;
    bulk->seen[SEEN_FAILED] += bulk->status;
    bulk->checks = unit[6] == UAS_CHECK_CONDITION;
    if (!bulk->checks)
        return;
    bulk->kept_lun = bulk->cbw.lun;
    bulk->sense_length = big(unit + 14, 2);
    memcpy(bulk->sense, unit + 16, bulk->sense_length);
    bulk_mend_sense(bulk->sense, bulk->sense_length);
}

/* ---- CSWs, and cases ---- */

static inline void bulk_case(struct second_bulk *bulk, int number, uint8_t status, uint32_t residue)
{
    bulk->seen[SEEN_CASE + number - 1]++;
    bulk->phase = SENDS_CSW;
    bulk->sent = 0;
    put_little32(0x53425355, bulk->csw);
    put_little32(bulk->cbw.tag, bulk->csw + 4);
    put_little32(residue, bulk->csw + 8);
    bulk->csw[12] = status;
}

/* A phase error: the task is ended, and a pipe is halted where there is one. */
static inline void bulk_phase_error(struct second_bulk *bulk, int number, uint32_t residue, int halted)
{
    bulk_end_task(bulk);
    if (halted != 0)
        bulk->endpoints[halted].halted = true;
    bulk->seen[SEEN_HALT_OUT] += halted == BULK_OUT;
    bulk->seen[SEEN_HALT_IN] += halted == BULK_IN;
    bulk_case(bulk, number, 2, residue);
}

/* The case of a command that ended by itself, all of whose data was moved. */
static inline void bulk_good_case(struct second_bulk *bulk)
{
    uint32_t length = bulk->cbw.length;
    int number = length == 0 ? 1 : bulk->cbw.in ? (!bulk->gave ? 4 : bulk->devices < length ? 5 : 6) : !bulk->took ? 9 : bulk->devices < length ? 11 : 12;
    bulk->kept = bulk->checks;
    bulk_case(bulk, number, bulk->status, length - bulk->devices);
}

/* Whether the device shows the direction that isn't the data's. */
static inline bool bulk_is_wrong(struct second_bulk *bulk)
{
    uint64_t left;
    if (bulk->phase != MOVES_DATA || bulk->over || bulk->cbw.length == 0 || bulk->moved == bulk->cbw.length)
        return false;
    if (bulk->from < bulk->to)
        return bulk->own && !bulk->cbw.in; /* kept sense data */
    return bulk_next(bulk, &left) == (bulk->cbw.in ? UAS_TAKES : UAS_GIVES);
}

/* A pipe is halted at once where that is so, in a step of its own. */
static inline bool bulk_halts_wrong(struct second_bulk *bulk, int dci)
{
    if (bulk->cbw.in != (dci == BULK_IN) || !bulk_is_wrong(bulk))
        return false;
    bulk_phase_error(bulk, bulk->cbw.in ? 8 : 10, bulk->cbw.length, dci);
    return true;
}

/* What the device does by itself: it asks. */
static inline void bulk_run_device(struct second_bulk *bulk)
{
    uint64_t left;
    if (bulk->phase == MOVES_DATA && !bulk->over)
        bulk_next(bulk, &left);
}

/* A TD is there that goes on with the data or takes the status: the case, where the device shows it by now. */
static inline void bulk_settle(struct second_bulk *bulk)
{
    uint32_t length = bulk->cbw.length;
    bool moved = bulk->moved == length;
    uint64_t left;
    if (bulk->phase != MOVES_DATA)
        return;
    if (bulk->cbw.in && bulk->from < bulk->to) {
        if (moved)
            bulk_phase_error(bulk, 7, 0, 0);
        return;
    }
    uint8_t does = bulk->over ? UAS_ENDS : bulk_next(bulk, &left);
    if (does == UAS_ENDS && !bulk->over)
        bulk_take_status(bulk);
    if (does == UAS_ENDS && moved)
        bulk_good_case(bulk);
    else if (does == UAS_GIVES && moved)
        bulk_phase_error(bulk, length == 0 ? 2 : 7, 0, 0);
    else if (does == UAS_TAKES && moved)
        bulk_phase_error(bulk, length == 0 ? 3 : 13, length - bulk->devices, 0);
}

/* ---- CBWs ---- */

/* A REQUEST SENSE that is answered with the sense data that were kept. */
static inline bool bulk_is_kept(const struct second_bulk *bulk)
{
    const struct bulk_cbw *cbw = &bulk->cbw;
    return bulk->kept && cbw->cdb[0] == 0x03 && cbw->lun == bulk->kept_lun && (cbw->cdb[1] & 1) == 0;
}

static inline void bulk_begin(struct second_bulk *bulk)
{
    struct bulk_cbw *cbw = &bulk->cbw;
    uint8_t unit[32] = { UAS_UNIT_COMMAND, 0, 0, 1 };
    uint16_t tag;
    bulk->phase = MOVES_DATA;
    bulk->over = bulk->gave = bulk->took = false;
    bulk->moved = bulk->devices = bulk->from = bulk->to = bulk->answered = 0;
    bulk->own = bulk_is_kept(bulk);
    bulk->kept = false;
    bulk->allocation = cbw->cdb[4] < bulk->sense_length ? cbw->cdb[4] : bulk->sense_length;
    bulk->seen[SEEN_KEPT] += bulk->own;
    if (bulk->own)
        return;
    if (cbw->cdb[1] >> 5 == (cbw->lun & 7)) {
        bulk->seen[SEEN_LUN_BITS] += cbw->cdb[1] >> 5 != 0;
        cbw->cdb[1] &= 31;
    }
    unit[9] = cbw->lun;
    memcpy(unit + 16, cbw->cdb, 16);
    uas_tasks_receive(bulk->device, unit, sizeof unit, &tag);
}

/* The bytes of a TD came, where a CBW is awaited. An invalid one halts both pipes until a reset. */
static inline void bulk_receive(struct second_bulk *bulk)
{
    struct bulk_cbw cbw;
    enum cbw_fault fault = bulk_read_cbw(bulk->gathered, bulk->gathered_bytes, &cbw);
    bulk->gathered_bytes = 0;
    if (fault == CBW_VALID) {
        bulk->cbw = cbw;
        bulk_begin(bulk);
        return;
    }
    bulk->seen[SEEN_LENGTH + fault - CBW_LENGTH]++;
    bulk->broken = bulk->endpoints[BULK_OUT].halted = bulk->endpoints[BULK_IN].halted = true;
}

/* The command is gone, and a CBW is awaited. */
static inline void bulk_reset(struct second_bulk *bulk)
{
    if (bulk->phase == MOVES_DATA)
        bulk_end_task(bulk);
    bulk->phase = AWAITS_CBW;
    bulk->broken = bulk->own = false;
    bulk->gathered_bytes = 0;
    if (bulk->endpoints[BULK_OUT].front.purpose == FOR_CBW)
        bulk->endpoints[BULK_OUT].front.purpose = FOR_NOTHING; /* what comes behind it begins anew */
    if (bulk->endpoints[BULK_IN].front.purpose == FOR_CSW)
        bulk->endpoints[BULK_IN].front.purpose = FOR_DATA; /* no other CSW goes into that TD */
}

/* What ends tasks: nothing is halted then. */
static inline void bulk_clear(struct second_bulk *bulk, uint8_t alternate)
{
    bulk_reset(bulk);
    bulk->kept = false;
    bulk->alternate = alternate;
    for (int dci = 2; dci < BULK_ENDPOINTS; dci++)
        bulk->endpoints[dci].halted = false;
}

#endif
