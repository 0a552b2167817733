/* A second implementation of the device without blocks: tasks by tag, chunks of commands, requests and their answers in any order, and the
 * commands on blocks of both sets. Vital product data, mode pages and supported operation codes it hasn't: tasks.c has their bytes. */
#ifndef UAS_TESTS_SECOND_TASKS_H
#define UAS_TESTS_SECOND_TASKS_H

#include "second.h"
#include "uas_tasks.h"

enum { SECOND_MOST_CHUNK = 8, SECOND_TASK_UNITS = 3 };

/* What a task is at: it gives data of the device; of a command on blocks it asks, waits for the answer, or moves a chunk; it has ended, or a
 * task management has that ended commands and may be told once no write of a gone task of its logical unit is out. */
enum second_stage { NO_TASK, GIVING, ASKING, WAITING, MOVING, ENDED, HELD };

struct second_slot {
    enum second_stage stage;
    int unit;            /* of a command to a logical unit that is there, else -1 */
    int held;            /* of HELD: the logical unit */
    uint8_t kind;        /* of its requests: UAS_REQUEST_... */
    bool through;
    uint64_t lba, count, done; /* in blocks */
    size_t moved, given;       /* of the chunk, or of the device's data */
    uint8_t data[64];
    struct uas_unit answer;
    bool out;            /* a request is out, of this task or of one that is gone */
    uint64_t number;     /* that the library gave it */
    struct uas_request request;
    size_t length;       /* bytes of its blocks */
    uint8_t chunk[SECOND_MOST_CHUNK * 4096];
};

struct second_tasks {
    size_t units;
    struct uas_tasks_unit unit[SECOND_TASK_UNITS];
    bool attention[SECOND_TASK_UNITS];
    uint8_t set;
    uint16_t most, blocks; /* of a command, of a chunk */
    struct second_slot slots[UAS_GREATEST_TAG + 1];
};

static inline uint64_t long_big(const uint8_t *bytes)
{
    return (uint64_t)big(bytes, 4) << 32 | big(bytes + 4, 4);
}

static inline void task_ends(struct second_slot *slot, uint16_t tag, uint32_t sense)
{
    struct uas_sense told = { (uint8_t)(sense >> 16), (uint8_t)(sense >> 8), (uint8_t)sense, 0 };
    memset(&slot->answer, 0, sizeof slot->answer);
    slot->stage = ENDED;
    slot->answer.id = UAS_UNIT_SENSE;
    slot->answer.tag = tag;
    if (sense != 0) {
        slot->answer.status = UAS_CHECK_CONDITION;
        slot->answer.sense_length = 18;
        second_sense_data(&told, slot->answer.sense);
    }
}

static inline void task_responds(struct second_slot *slot, uint16_t tag, uint8_t code)
{
    memset(&slot->answer, 0, sizeof slot->answer);
    slot->stage = ENDED;
    slot->unit = -1;
    slot->answer.id = UAS_UNIT_RESPONSE;
    slot->answer.tag = tag;
    slot->answer.code = code;
}

static inline size_t block_bytes(const struct second_tasks *device, const struct second_slot *slot)
{
    return device->unit[slot->unit].block_bytes;
}

/* How many blocks the chunk has at which a command is. */
static inline uint64_t chunk_of(const struct second_tasks *device, const struct second_slot *slot)
{
    uint64_t left = slot->count - slot->done;
    return left < device->blocks ? left : device->blocks;
}

static inline void begin_chunk(struct second_slot *slot)
{
    bool takes = slot->kind == UAS_REQUEST_WRITE || slot->kind == UAS_REQUEST_COMPARE;
    slot->stage = takes ? MOVING : ASKING;
    slot->moved = 0;
}

static inline void gives(struct second_slot *slot, uint16_t tag, const uint8_t *data, uint64_t length, uint64_t allocation)
{
    slot->stage = GIVING;
    slot->moved = 0;
    slot->given = (size_t)(allocation < length ? allocation : length);
    memcpy(slot->data, data, slot->given);
    if (slot->given == 0)
        task_ends(slot, tag, 0);
}

/* Data of the device; 0, or the sense of a fault. `blocks` is 0 where there is no such logical unit. */
static inline uint32_t device_data(struct second_tasks *device, struct second_slot *slot, uint16_t tag, const uint8_t *cdb, uint64_t blocks)
{
    uint8_t data[64] = { 0 };
    struct uas_sense sense = { 0, 0, 0, 0 };
    switch (cdb[0]) {
    case UAS_INQUIRY:
        if ((cdb[1] & 1) || cdb[2] != 0)
            return 0x052400;
        second_inquiry_data(blocks != 0, data);
        gives(slot, tag, data, 36, big(cdb + 3, 2));
        return 0;
    case UAS_READ_CAPACITY_10:
        put_big(blocks > UINT32_MAX ? UINT32_MAX : (uint32_t)(blocks - 1), data, 4);
        put_big((uint32_t)block_bytes(device, slot), data + 4, 4);
        gives(slot, tag, data, 8, 8);
        return 0;
    case UAS_READ_CAPACITY_16:
        if (cdb[1] % 32 != 16)
            return 0x052400;
        put_big((uint32_t)((blocks - 1) >> 32), data, 4);
        put_big((uint32_t)(blocks - 1), data + 4, 4);
        put_big((uint32_t)block_bytes(device, slot), data + 8, 4);
        gives(slot, tag, data, 32, big(cdb + 10, 4));
        return 0;
    case 0xa0: /* REPORT LUNS */
        if (cdb[2] > 2 || big(cdb + 6, 4) < 16)
            return 0x052400;
        put_big(cdb[2] == 1 ? 0 : (uint32_t)(8 * device->units), data, 4);
        for (size_t i = 0; i < device->units; i++)
            data[8 + 8 * i + 1] = (uint8_t)i;
        gives(slot, tag, data, cdb[2] == 1 ? 8 : 8 + 8 * device->units, big(cdb + 6, 4));
        return 0;
    default: /* REQUEST SENSE */
        if (cdb[1] & 1)
            return 0x052400;
        if (blocks == 0)
            sense = (struct uas_sense){ 5, 0x25, 0, 0 };
        else if (device->attention[slot->unit])
            sense = (struct uas_sense){ 6, 0x29, 3, 0 };
        if (blocks != 0)
            device->attention[slot->unit] = false;
        second_sense_data(&sense, data);
        gives(slot, tag, data, 18, cdb[4]);
        return 0;
    }
}

/* The blocks that a CDB names, and what is asked for them; 0, or the sense of a fault. */
static inline uint32_t block_command(const struct second_tasks *device, struct second_slot *slot, const uint8_t *cdb, uint64_t blocks)
{
    bool compares = false, limited = false;
    switch (cdb[0] & 0x1f) { /* the command; the group tells its length */
    case 0x08:
        slot->kind = UAS_REQUEST_READ;
        limited = true;
        break;
    case 0x0a:
        slot->kind = UAS_REQUEST_WRITE;
        limited = true;
        break;
    case 0x0f:
        if ((cdb[1] >> 1 & 3) > 1)
            return 0x052400;
        compares = cdb[1] >> 1 & 1;
        slot->kind = compares ? UAS_REQUEST_COMPARE : UAS_REQUEST_VERIFY;
        limited = compares;
        break;
    default:
        slot->kind = UAS_REQUEST_SYNC;
    }
    switch (cdb[0] >> 5) {
    case 0:
        slot->lba = big(cdb + 1, 3) & 0x1fffff;
        slot->count = cdb[4] == 0 ? 256 : cdb[4];
        break;
    case 4:
        slot->lba = long_big(cdb + 2);
        slot->count = big(cdb + 10, 4);
        break;
    case 5:
        slot->lba = big(cdb + 2, 4);
        slot->count = big(cdb + 6, 4);
        break;
    default:
        slot->lba = big(cdb + 2, 4);
        slot->count = big(cdb + 7, 2);
    }
    if (cdb[0] >= 0x20 && slot->kind != UAS_REQUEST_SYNC && cdb[1] >> 5 != 0)
        return 0x052400;
    if (limited && slot->count > device->most)
        return 0x052400;
    if (slot->kind == UAS_REQUEST_WRITE && cdb[0] >= 0x20)
        slot->through = cdb[1] >> 3 & 1;
    if (slot->lba >= blocks || slot->count > blocks - slot->lba)
        return 0x052100;
    if (slot->kind == UAS_REQUEST_SYNC && slot->count == 0)
        slot->count = blocks - slot->lba;
    return 0;
}

static inline bool is_known(uint8_t set, uint8_t code)
{
    static const uint8_t both[] = { 0x00, 0x12, 0x25, 0x28, 0x2a, 0x35, 0x88, 0x8a, 0x9e }, hosts[] = { 0x03, 0x08, 0x0a, 0x1b, 0x2f, 0x8f, 0x91, 0xa0, 0xa8, 0xaa, 0xaf };
    return memchr(both, code, sizeof both) != NULL || (set == UAS_SET_HOST && memchr(hosts, code, sizeof hosts) != NULL);
}

/* A command whose code is known, or one that has a fault by its code. */
static inline void execute_task(struct second_tasks *device, uint16_t tag, const struct uas_unit *unit)
{
    struct second_slot *slot = &device->slots[tag];
    const uint8_t *cdb = unit->cdb;
    bool there = unit->lun[0] == 0 && unit->lun[1] < device->units && all_zero(unit->lun, 2, 8);
    bool known = is_known(device->set, cdb[0]), hosts = known && (cdb[0] == 0x03 || cdb[0] == 0xa0);
    uint64_t blocks = there ? device->unit[unit->lun[1]].blocks : 0;
    uint32_t sense = 0;
    slot->unit = there ? unit->lun[1] : -1;
    slot->stage = NO_TASK;
    slot->count = slot->done = 0;
    slot->through = false;
    if (!there && cdb[0] != UAS_INQUIRY && !hosts)
        sense = 0x052500;
    else if (there && device->attention[slot->unit] && cdb[0] != UAS_INQUIRY && !hosts) {
        device->attention[slot->unit] = false;
        sense = 0x062903;
    } else if (!known)
        sense = 0x052000;
    else if (hosts || cdb[0] == UAS_INQUIRY || cdb[0] == UAS_READ_CAPACITY_10 || cdb[0] == UAS_READ_CAPACITY_16)
        sense = device_data(device, slot, tag, cdb, blocks);
    else if (cdb[0] == 0x1b) {
        sense = (cdb[4] & 0xf2) != 0 ? 0x052400 : 0;
        slot->kind = UAS_REQUEST_SYNC;
        slot->lba = 0;
        slot->count = (cdb[4] & 5) == 0 ? blocks : 0;
    } else if (cdb[0] != UAS_TEST_UNIT_READY)
        sense = block_command(device, slot, cdb, blocks);
    if (slot->stage == NO_TASK && sense == 0 && slot->count > 0)
        begin_chunk(slot);
    else if (slot->stage == NO_TASK)
        task_ends(slot, tag, sense);
}

/* A write of this slot is out, on the logical unit, and its task is gone. */
static inline bool is_stale(const struct second_slot *slot)
{
    return slot->out && slot->request.kind == UAS_REQUEST_WRITE && slot->stage != WAITING;
}

static inline bool has_stale(const struct second_tasks *device, int unit)
{
    for (uint16_t tag = 1; tag <= UAS_GREATEST_TAG; tag++)
        if (is_stale(&device->slots[tag]) && device->slots[tag].request.unit == (uint64_t)unit)
            return true;
    return false;
}

static inline void manage_tasks(struct second_tasks *device, const struct uas_unit *unit)
{
    bool there = unit->lun[0] == 0 && unit->lun[1] < device->units && all_zero(unit->lun, 2, 8), any = unit->function == UAS_LOGICAL_UNIT_RESET, ended = false;
    uint8_t code = UAS_RESPONSE_COMPLETE;
    if (!any && unit->function != UAS_ABORT_TASK && unit->function != UAS_QUERY_TASK)
        code = UAS_RESPONSE_NOT_SUPPORTED;
    else if (!there)
        code = UAS_RESPONSE_INCORRECT_LUN;
    for (uint16_t tag = 1; code == UAS_RESPONSE_COMPLETE && tag <= UAS_GREATEST_TAG; tag++) {
        struct second_slot *slot = &device->slots[tag];
        if (slot->stage == NO_TASK || slot->unit != unit->lun[1] || (!any && tag != unit->task_tag))
            continue;
        if (unit->function == UAS_QUERY_TASK)
            code = UAS_RESPONSE_SUCCEEDED;
        else {
            slot->stage = NO_TASK;
            ended = true;
        }
    }
    if (code == UAS_RESPONSE_COMPLETE && any)
        device->attention[unit->lun[1]] = true;
    task_responds(&device->slots[unit->tag], unit->tag, code);
    if (ended && has_stale(device, unit->lun[1])) {
        device->slots[unit->tag].stage = HELD;
        device->slots[unit->tag].held = unit->lun[1];
    }
}

static inline uint8_t second_tasks_receive(struct second_tasks *device, const uint8_t *bytes, size_t length, uint16_t *tag)
{
    struct uas_unit unit;
    bool read = second_unit_read(bytes, length, &unit) == 0;
    uint16_t named = length >= 4 ? (uint16_t)big(bytes + 2, 2) : 0;
    bool is_tag = named >= 1 && named <= UAS_GREATEST_TAG, free = is_tag && device->slots[named].stage == NO_TASK;
    *tag = 0;
    if (!is_tag || (read && (unit.id == UAS_UNIT_SENSE || unit.id == UAS_UNIT_RESPONSE)))
        return UAS_OK;
    if (!free)
        return read ? UAS_TASKS_OVERLAP : UAS_OK;
    if (!read)
        task_responds(&device->slots[named], named, UAS_RESPONSE_INVALID_UNIT);
    else if (unit.id == UAS_UNIT_COMMAND)
        execute_task(device, named, &unit);
    else
        manage_tasks(device, &unit);
    *tag = named;
    return UAS_OK;
}

/* What a tag does next; while a request is out, its own or one of a task that is gone, a command on blocks waits. While a write of a gone
 * task is out on any tag, its logical unit's commands don't ask, and what ended commands there isn't told. */
static inline uint8_t second_tasks_phase(const struct second_tasks *device, uint16_t tag, uint64_t *length)
{
    const struct second_slot *slot = &device->slots[tag <= UAS_GREATEST_TAG ? tag : 0];
    *length = 0;
    if (slot->stage == GIVING) {
        *length = slot->given - slot->moved;
        return UAS_GIVES;
    }
    if (slot->stage == NO_TASK || slot->stage == ENDED)
        return slot->stage == NO_TASK ? UAS_ABSENT : UAS_ENDS;
    if (slot->stage == HELD)
        return has_stale(device, slot->held) ? UAS_WAITS : UAS_ENDS;
    if (slot->out || slot->stage != MOVING)
        return slot->out || slot->stage == WAITING || has_stale(device, slot->unit) ? UAS_WAITS : UAS_ASKS;
    *length = chunk_of(device, slot) * block_bytes(device, slot) - slot->moved;
    return slot->kind == UAS_REQUEST_READ ? UAS_GIVES : UAS_TAKES;
}

/* The request of a tag that asks is out, by the number that the library gave it. */
static inline void second_tasks_ask(struct second_tasks *device, uint16_t tag, uint64_t number)
{
    struct second_slot *slot = &device->slots[tag];
    bool whole = slot->kind == UAS_REQUEST_SYNC || slot->kind == UAS_REQUEST_VERIFY;
    slot->stage = WAITING;
    slot->out = true;
    slot->number = number;
    slot->request = (struct uas_request){ number, (uint64_t)slot->unit, slot->lba + slot->done, whole ? slot->count : chunk_of(device, slot), slot->kind, slot->through };
    slot->length = whole ? 0 : (size_t)slot->request.count * block_bytes(device, slot);
}

static inline void chunk_done(struct second_tasks *device, struct second_slot *slot, uint16_t tag)
{
    slot->done += chunk_of(device, slot);
    if (slot->done < slot->count)
        begin_chunk(slot);
    else
        task_ends(slot, tag, 0);
}

/* So many bytes of a tag that gives or takes have moved. */
static inline void second_tasks_move(struct second_tasks *device, uint16_t tag, size_t bytes)
{
    struct second_slot *slot = &device->slots[tag];
    uint64_t left;
    slot->moved += bytes;
    second_tasks_phase(device, tag, &left);
    if (left > 0)
        return;
    if (slot->stage == GIVING)
        task_ends(slot, tag, 0);
    else if (slot->kind == UAS_REQUEST_READ)
        chunk_done(device, slot, tag);
    else
        slot->stage = ASKING;
}

/* A request that is out is answered, with the bytes of a read. */
static inline uint8_t second_tasks_answer(struct second_tasks *device, uint16_t tag, uint8_t outcome, const uint8_t *bytes, size_t length)
{
    struct second_slot *slot = &device->slots[tag];
    static const uint32_t medium[] = { 0, 0x031100, 0x030c00, 0x031100, 0x031100, 0x030c00 };
    bool waits = slot->stage == WAITING, brings = waits && slot->request.kind == UAS_REQUEST_READ && outcome == UAS_DONE;
    if (brings && length != slot->length)
        return UAS_TASKS_LENGTH;
    slot->out = false;
    if (!waits)
        return UAS_OK;
    if (outcome != UAS_DONE)
        task_ends(slot, tag, outcome == UAS_DIFFERS ? 0x0e1d00 : outcome == UAS_NOT_READY ? 0x020400 : medium[slot->kind]);
    else if (brings) {
        memcpy(slot->chunk, bytes, length);
        slot->stage = MOVING;
        slot->moved = 0;
    } else if (slot->kind == UAS_REQUEST_SYNC || slot->kind == UAS_REQUEST_VERIFY)
        task_ends(slot, tag, 0);
    else
        chunk_done(device, slot, tag);
    return UAS_OK;
}

static inline void second_tasks_reset(struct second_tasks *device)
{
    for (size_t i = 0; i < device->units; i++)
        device->attention[i] = true;
    for (uint16_t tag = 1; tag <= UAS_GREATEST_TAG; tag++)
        device->slots[tag].stage = NO_TASK;
}

#endif
