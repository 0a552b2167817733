/* A second implementation of the codecs and of the device, written from the tables of docs/FORMATS.md and docs/RULES.md alone.
 * The fuzzer compares the library with it. */
#ifndef UAS_TESTS_SECOND_H
#define UAS_TESTS_SECOND_H

#include "uas.h"

#include <string.h>

static inline uint32_t little32(const uint8_t *bytes)
{
    return bytes[0] | (uint32_t)bytes[1] << 8 | (uint32_t)bytes[2] << 16 | (uint32_t)bytes[3] << 24;
}

static inline void put_little32(uint32_t word, uint8_t *bytes)
{
    for (int i = 0; i < 4; i++)
        bytes[i] = (uint8_t)(word >> 8 * i);
}

static inline uint32_t big(const uint8_t *bytes, int count)
{
    uint32_t number = 0;
    for (int i = 0; i < count; i++)
        number = number << 8 | bytes[i];
    return number;
}

static inline void put_big(uint32_t number, uint8_t *bytes, int count)
{
    for (int i = count - 1; i >= 0; i--, number >>= 8)
        bytes[i] = (uint8_t)number;
}

/* ---- TRBs ---- */

static inline uint8_t second_trb_encode(const struct uas_trb *trb, uint8_t bytes[16])
{
    uint64_t parameter = 0;
    uint32_t status = 0, control = 0;
    bool fits = trb->cycle <= 1;
    uint32_t place = (uint32_t)trb->endpoint << 16 | (uint32_t)trb->slot << 24;
    switch (trb->type) {
    case UAS_TRB_NORMAL:
        parameter = trb->pointer;
        status = trb->length | (uint32_t)trb->td_size << 17;
        control = (trb->flags & 63u) << 1 | (trb->flags & 64u) << 3;
        fits = fits && trb->length <= 65536 && trb->td_size <= 31 && trb->flags <= 127;
        break;
    case UAS_TRB_LINK:
        parameter = trb->pointer;
        control = trb->toggle * 2u | trb->chain * 16u | trb->ioc * 32u;
        fits = fits && trb->pointer % 16 == 0 && trb->toggle <= 1 && trb->chain <= 1 && trb->ioc <= 1;
        break;
    case UAS_TRB_STOP_ENDPOINT:
        control = place;
        fits = fits && trb->endpoint <= 31;
        break;
    case UAS_TRB_SET_DEQUEUE:
        parameter = trb->pointer | 2 | trb->dequeue_cycle;
        status = (uint32_t)trb->stream << 16;
        control = place;
        fits = fits && trb->pointer % 16 == 0 && trb->dequeue_cycle <= 1 && trb->endpoint <= 31;
        break;
    case UAS_TRB_TRANSFER_EVENT:
        parameter = trb->pointer;
        status = trb->length | (uint32_t)trb->code << 24;
        control = place;
        fits = fits && trb->length < 1u << 24 && trb->endpoint <= 31;
        break;
    case UAS_TRB_COMMAND_EVENT:
        parameter = trb->pointer;
        status = (uint32_t)trb->code << 24;
        control = (uint32_t)trb->slot << 24;
        fits = fits && trb->pointer % 16 == 0;
        break;
    default:
        return UAS_TRB_UNKNOWN_TYPE;
    }
    if (!fits)
        return UAS_TRB_UNFIT;
    put_little32((uint32_t)parameter, bytes);
    put_little32((uint32_t)(parameter >> 32), bytes + 4);
    put_little32(status, bytes + 8);
    put_little32(control | (uint32_t)trb->type << 10 | trb->cycle, bytes + 12);
    return 0;
}

static inline uint8_t second_trb_decode(const uint8_t bytes[16], struct uas_trb *trb)
{
    uint64_t parameter = little32(bytes) | (uint64_t)little32(bytes + 4) << 32;
    uint32_t status = little32(bytes + 8), control = little32(bytes + 12);
    /* The bits that have a field, beside the type and the Cycle bit. */
    uint64_t in_parameter = 0;
    uint32_t in_status = 0, in_control = 0;
    struct uas_trb read = { .type = control >> 10 & 63, .cycle = control & 1 };
    uint8_t endpoint = control >> 16 & 31, slot = (uint8_t)(control >> 24), code = (uint8_t)(status >> 24);
    bool right = true;
    switch (read.type) {
    case UAS_TRB_NORMAL:
        in_parameter = ~(uint64_t)0, in_status = 0x003fffff, in_control = 0x27e;
        read.pointer = parameter, read.length = status & 0x1ffff, read.td_size = status >> 17 & 31;
        read.flags = (uint8_t)((control >> 1 & 63) | (control >> 9 & 1) << 6);
        if (read.length > 65536)
            return UAS_TRB_LENGTH_OVER;
        break;
    case UAS_TRB_LINK:
        in_parameter = ~(uint64_t)15, in_control = 0x32;
        read.pointer = parameter, read.toggle = control >> 1 & 1, read.chain = control >> 4 & 1, read.ioc = control >> 5 & 1;
        break;
    case UAS_TRB_STOP_ENDPOINT:
        in_control = 0xff1f0000;
        read.endpoint = endpoint, read.slot = slot;
        break;
    case UAS_TRB_SET_DEQUEUE:
        in_parameter = ~(uint64_t)0, in_status = 0xffff0000, in_control = 0xff1f0000;
        right = (parameter & 14) == 2;
        read.pointer = parameter & ~(uint64_t)15, read.dequeue_cycle = parameter & 1, read.stream = (uint16_t)(status >> 16);
        read.endpoint = endpoint, read.slot = slot;
        break;
    case UAS_TRB_TRANSFER_EVENT:
        in_parameter = ~(uint64_t)0, in_status = 0xffffffff, in_control = 0xff1f0000;
        read.pointer = parameter, read.length = status & 0xffffff, read.code = code;
        read.endpoint = endpoint, read.slot = slot;
        break;
    case UAS_TRB_COMMAND_EVENT:
        in_parameter = ~(uint64_t)15, in_status = 0xff000000, in_control = 0xff000000;
        read.pointer = parameter, read.code = code, read.slot = slot;
        break;
    default:
        return UAS_TRB_UNKNOWN_TYPE;
    }
    if (!right || (parameter & ~in_parameter) != 0 || (status & ~in_status) != 0 || (control & ~(in_control | 0xfc01)) != 0)
        return UAS_TRB_RESERVED_SET;
    *trb = read;
    return 0;
}

/* ---- Information units ---- */

static inline bool all_zero(const uint8_t *bytes, size_t from, size_t to)
{
    for (size_t i = from; i < to; i++)
        if (bytes[i] != 0)
            return false;
    return true;
}

static inline uint8_t second_unit_read(const uint8_t *bytes, size_t length, struct uas_unit *unit)
{
    struct uas_unit read;
    memset(&read, 0, sizeof read);
    if (length == 0)
        return UAS_UNIT_SHORT;
    read.id = bytes[0];
    size_t least = read.id == 1 ? 32 : read.id == 3 ? 16 : read.id == 4 ? 8 : read.id == 5 ? 16 : 0;
    size_t most = read.id == 3 ? 112 : least;
    if (least == 0)
        return UAS_UNIT_UNKNOWN_ID;
    if (length < least)
        return UAS_UNIT_SHORT;
    if (length > most)
        return UAS_UNIT_LONG;
    read.tag = (uint16_t)big(bytes + 2, 2);
    bool zero = bytes[1] == 0 && bytes[5] == 0;
    if (read.id == 1) {
        if (!zero || bytes[4] != 0 || bytes[7] != 0)
            return UAS_UNIT_RESERVED_SET;
        if (bytes[6] != 0)
            return UAS_UNIT_LENGTH_FIELD;
        memcpy(read.lun, bytes + 8, 8);
        memcpy(read.cdb, bytes + 16, 16);
    } else if (read.id == 3) {
        if (!zero || bytes[4] != 0 || !all_zero(bytes, 7, 14))
            return UAS_UNIT_RESERVED_SET;
        if (big(bytes + 14, 2) != length - 16)
            return UAS_UNIT_LENGTH_FIELD;
        read.status = bytes[6];
        read.sense_length = (uint8_t)(length - 16);
        memcpy(read.sense, bytes + 16, length - 16);
    } else if (read.id == 4) {
        if (!zero || bytes[4] != 0 || bytes[6] != 0)
            return UAS_UNIT_RESERVED_SET;
        read.code = bytes[7];
    } else {
        if (!zero)
            return UAS_UNIT_RESERVED_SET;
        read.function = bytes[4];
        read.task_tag = (uint16_t)big(bytes + 6, 2);
        memcpy(read.lun, bytes + 8, 8);
    }
    *unit = read;
    return 0;
}

static inline uint8_t second_unit_write(const struct uas_unit *unit, uint8_t *bytes, size_t room, size_t *length)
{
    uint8_t text[112] = { 0 };
    size_t count;
    text[0] = unit->id;
    put_big(unit->tag, text + 2, 2);
    switch (unit->id) {
    case UAS_UNIT_COMMAND:
        memcpy(text + 8, unit->lun, 8);
        memcpy(text + 16, unit->cdb, 16);
        count = 32;
        break;
    case UAS_UNIT_SENSE:
        if (unit->sense_length > 96)
            return UAS_UNIT_UNFIT;
        text[6] = unit->status;
        text[15] = unit->sense_length;
        memcpy(text + 16, unit->sense, unit->sense_length);
        count = 16u + unit->sense_length;
        break;
    case UAS_UNIT_RESPONSE:
        text[7] = unit->code;
        count = 8;
        break;
    case UAS_UNIT_TASK:
        text[4] = unit->function;
        put_big(unit->task_tag, text + 6, 2);
        memcpy(text + 8, unit->lun, 8);
        count = 16;
        break;
    default:
        return UAS_UNIT_UNKNOWN_ID;
    }
    if (count > room)
        return UAS_UNIT_NO_ROOM;
    memcpy(bytes, text, count);
    *length = count;
    return 0;
}

/* ---- CDBs ---- */

static inline uint8_t second_check(struct uas_sense *sense, uint8_t asc)
{
    *sense = (struct uas_sense){ 5, asc, 0, 0 };
    return UAS_CDB_CHECK;
}

static inline bool second_is_read(uint8_t opcode)
{
    return opcode == UAS_READ_10 || opcode == UAS_READ_16;
}

static inline bool second_is_write(uint8_t opcode)
{
    return opcode == UAS_WRITE_10 || opcode == UAS_WRITE_16;
}

/* READ and WRITE of 16 bytes. */
static inline bool second_is_long(uint8_t opcode)
{
    return opcode == UAS_READ_16 || opcode == UAS_WRITE_16;
}

static inline uint8_t second_cdb_parse(const uint8_t cdb[16], uint32_t blocks, struct uas_operation *operation, struct uas_sense *sense)
{
    struct uas_operation asked = { .opcode = cdb[0] };
    bool ranged = false;
    switch (cdb[0]) {
    case UAS_TEST_UNIT_READY:
        break;
    case UAS_INQUIRY:
        if ((cdb[1] & 1) != 0 || cdb[2] != 0)
            return second_check(sense, 0x24);
        asked.count = big(cdb + 3, 2);
        asked.bytes = asked.count < 36 ? asked.count : 36;
        break;
    case UAS_READ_CAPACITY_10:
        asked.bytes = 8;
        break;
    case UAS_READ_10:
    case UAS_WRITE_10:
        asked.count = big(cdb + 7, 2);
        if (cdb[1] >= 32 || asked.count > 128)
            return second_check(sense, 0x24);
        asked.fua = cdb[1] >> 3 & 1;
        asked.bytes = 512 * asked.count;
        ranged = true;
        break;
    case UAS_SYNCHRONIZE_CACHE_10:
        asked.count = big(cdb + 7, 2);
        ranged = true;
        break;
    case UAS_READ_16:
    case UAS_WRITE_16:
        asked.count = big(cdb + 10, 4);
        if (cdb[1] >= 32 || asked.count > 128)
            return second_check(sense, 0x24);
        asked.fua = cdb[1] >> 3 & 1;
        asked.bytes = 512 * (uint64_t)asked.count;
        ranged = true;
        break;
    case UAS_READ_CAPACITY_16:
        if (cdb[1] % 32 != 16)
            return second_check(sense, 0x24);
        asked.count = big(cdb + 10, 4);
        asked.bytes = asked.count < 32 ? asked.count : 32;
        break;
    default:
        return second_check(sense, 0x20);
    }
    if (ranged) {
        asked.lba = big(cdb + 2, 4);
        if (second_is_long(cdb[0]))
            asked.lba = asked.lba << 32 | big(cdb + 6, 4);
        if (asked.lba >= blocks || asked.count > blocks - asked.lba)
            return second_check(sense, 0x21);
    }
    asked.direction = asked.bytes == 0 ? UAS_NO_DATA : second_is_write(asked.opcode) ? UAS_TO_DEVICE : UAS_TO_HOST;
    *operation = asked;
    return 0;
}

static inline uint8_t second_cdb_write(const struct uas_operation *operation, uint8_t cdb[16])
{
    uint8_t text[16] = { operation->opcode };
    bool fua = second_is_read(operation->opcode) || second_is_write(operation->opcode);
    bool wide = second_is_long(operation->opcode) || operation->opcode == UAS_READ_CAPACITY_16;
    bool ranged = fua || operation->opcode == UAS_SYNCHRONIZE_CACHE_10;
    bool counted = ranged || operation->opcode == UAS_INQUIRY;
    if (!counted && !wide && operation->opcode != UAS_TEST_UNIT_READY && operation->opcode != UAS_READ_CAPACITY_10)
        return UAS_CDB_UNKNOWN_OPCODE;
    if ((counted && !wide && operation->count > 65535) || (ranged && !wide && operation->lba >> 32 != 0) || (fua && operation->fua > 1))
        return UAS_CDB_UNFIT;
    if (wide) {
        text[1] = operation->opcode == UAS_READ_CAPACITY_16 ? 16 : operation->fua ? 8 : 0;
        if (ranged) {
            put_big((uint32_t)(operation->lba >> 32), text + 2, 4);
            put_big((uint32_t)operation->lba, text + 6, 4);
        }
        put_big(operation->count, text + 10, 4);
    } else if (ranged) {
        text[1] = fua && operation->fua ? 8 : 0;
        put_big((uint32_t)operation->lba, text + 2, 4);
        put_big(operation->count, text + 7, 2);
    } else if (counted)
        put_big(operation->count, text + 3, 2);
    memcpy(cdb, text, 16);
    return 0;
}

static inline void second_inquiry_data(bool present, uint8_t bytes[36])
{
    memcpy(bytes, "\x00\x00\x06\x02\x1f\x00\x00\x02" "SIMDISK " "UAS SIM DISK    " "0001", 36);
    bytes[0] = present ? 0 : 0x7f;
}

static inline void second_capacity_data(uint32_t blocks, uint8_t bytes[8])
{
    put_big(blocks - 1, bytes, 4);
    put_big(512, bytes + 4, 4);
}

static inline void second_long_capacity_data(uint32_t blocks, uint8_t bytes[32])
{
    memset(bytes, 0, 32);
    put_big(blocks - 1, bytes + 4, 4);
    bytes[10] = 2;
}

static inline void second_sense_data(const struct uas_sense *sense, uint8_t bytes[18])
{
    const uint8_t text[18] = { 0x70, 0, sense->key, 0, 0, 0, 0, 10, 0, 0, 0, 0, sense->asc, sense->ascq, 0, 0, 0, 0 };
    memcpy(bytes, text, 18);
}

/* ---- The device ---- */

enum { SECOND_UNITS = 3, SECOND_BLOCKS = 200 };

struct second_task {
    uint8_t phase; /* UAS_ABSENT, UAS_GIVES or UAS_TAKES, UAS_ENDS */
    int unit;      /* of a command to a unit that is there, else -1 */
    struct uas_operation operation;
    uint32_t done; /* bytes that were moved */
    struct uas_unit answer;
};

struct second_device {
    int units; /* at most SECOND_UNITS */
    uint32_t blocks[SECOND_UNITS];
    uint8_t now[SECOND_UNITS][512 * SECOND_BLOCKS];
    uint8_t medium[SECOND_UNITS][512 * SECOND_BLOCKS];
    bool bad[SECOND_UNITS][SECOND_BLOCKS];
    bool attention[SECOND_UNITS];
    struct second_task tasks[UAS_GREATEST_TAG + 1];
};

/* What a device is opened with. */
struct second_units {
    uint32_t blocks[UAS_MOST_UNITS + 1];
    size_t units;
    const uint8_t *image;
    size_t length;
    struct uas_bad_block bad[16];
    size_t bads;
};

/* The fault of an open but want of memory. */
static inline uint8_t second_units_fault(const struct second_units *given)
{
    uint64_t all = 0;
    if (given->units < 1 || given->units > 31)
        return UAS_UNITS;
    for (size_t i = 0; i < given->units; i++) {
        if (given->blocks[i] < 1 || given->blocks[i] > 65536)
            return UAS_BLOCKS;
        all += given->blocks[i];
    }
    if (given->length != 0 && given->length != 512 * all)
        return UAS_IMAGE;
    for (size_t i = 0; i < given->bads; i++)
        if (given->bad[i].unit >= given->units || given->bad[i].lba >= given->blocks[given->bad[i].unit])
            return UAS_BAD_BLOCK;
    return 0;
}

/* Opens a device of zeros with what has no fault and fits in. */
static inline void second_device_open(struct second_device *device, const struct second_units *given)
{
    const uint8_t *image = given->image;
    device->units = (int)given->units;
    for (size_t i = 0; i < given->units; i++) {
        size_t length = 512 * (size_t)given->blocks[i];
        device->blocks[i] = given->blocks[i];
        if (given->length == 0)
            continue;
        memcpy(device->now[i], image, length);
        memcpy(device->medium[i], image, length);
        image += length;
    }
    for (size_t i = 0; i < given->bads; i++)
        device->bad[given->bad[i].unit][given->bad[i].lba] = true;
}

/* A reset of the whole device. */
static inline void second_device_reset(struct second_device *device)
{
    for (int i = 0; i < device->units; i++)
        device->attention[i] = true;
    for (uint16_t tag = 1; tag <= UAS_GREATEST_TAG; tag++)
        device->tasks[tag].phase = UAS_ABSENT;
}

static inline void second_respond(struct second_device *device, uint16_t tag, uint8_t code)
{
    struct second_task *task = &device->tasks[tag];
    memset(task, 0, sizeof *task);
    task->phase = UAS_ENDS;
    task->unit = -1;
    task->answer.id = UAS_UNIT_RESPONSE;
    task->answer.tag = tag;
    task->answer.code = code;
}

static inline void second_end(struct second_task *task, uint16_t tag, const struct uas_sense *sense)
{
    memset(&task->answer, 0, sizeof task->answer);
    task->phase = UAS_ENDS;
    task->answer.id = UAS_UNIT_SENSE;
    task->answer.tag = tag;
    if (sense != NULL) {
        task->answer.status = UAS_CHECK_CONDITION;
        task->answer.sense_length = 18;
        second_sense_data(sense, task->answer.sense);
    }
}

static inline int second_lun(const struct second_device *device, const struct uas_unit *unit)
{
    bool there = unit->lun[0] == 0 && unit->lun[1] < device->units && all_zero(unit->lun, 2, 8);
    return there ? unit->lun[1] : -1;
}

static inline void second_execute(struct second_device *device, const struct uas_unit *unit)
{
    static const struct uas_sense reset = { 6, 0x29, 3, 0 }, missing = { 5, 0x25, 0, 0 };
    struct second_task *task = &device->tasks[unit->tag];
    struct uas_sense sense;
    int number = second_lun(device, unit);
    bool inquiry = unit->cdb[0] == UAS_INQUIRY;
    memset(task, 0, sizeof *task);
    task->unit = number;
    if (number < 0 && !inquiry)
        second_end(task, unit->tag, &missing);
    else if (number >= 0 && device->attention[number] && !inquiry) {
        device->attention[number] = false;
        second_end(task, unit->tag, &reset);
    } else if (second_cdb_parse(unit->cdb, number < 0 ? 1 : device->blocks[number], &task->operation, &sense) != 0)
        second_end(task, unit->tag, &sense);
    else if (task->operation.direction != UAS_NO_DATA)
        task->phase = task->operation.direction == UAS_TO_HOST ? UAS_GIVES : UAS_TAKES;
    else {
        if (task->operation.opcode == UAS_SYNCHRONIZE_CACHE_10) {
            size_t from = 512 * (size_t)task->operation.lba;
            size_t count = task->operation.count != 0 ? task->operation.count : device->blocks[number] - task->operation.lba;
            memcpy(device->medium[number] + from, device->now[number] + from, 512 * count);
        }
        second_end(task, unit->tag, NULL);
    }
}

static inline void second_manage(struct second_device *device, const struct uas_unit *unit)
{
    int number = second_lun(device, unit);
    bool abort = unit->function == UAS_ABORT_TASK, reset = unit->function == UAS_LOGICAL_UNIT_RESET;
    bool query = unit->function == UAS_QUERY_TASK;
    uint8_t code = UAS_RESPONSE_COMPLETE;
    if (!abort && !reset && !query)
        code = UAS_RESPONSE_NOT_SUPPORTED;
    else if (number < 0)
        code = UAS_RESPONSE_INCORRECT_LUN;
    else
        for (uint16_t tag = 1; tag <= UAS_GREATEST_TAG; tag++) {
            struct second_task *task = &device->tasks[tag];
            if (task->phase == UAS_ABSENT || task->unit != number || (!reset && tag != unit->task_tag))
                continue;
            if (query)
                code = UAS_RESPONSE_SUCCEEDED;
            else
                task->phase = UAS_ABSENT;
        }
    if (code == UAS_RESPONSE_COMPLETE && reset)
        device->attention[number] = true;
    second_respond(device, unit->tag, code);
}

/* *tag is 0 where nothing came of it. */
static inline uint8_t second_receive(struct second_device *device, const uint8_t *bytes, size_t length, uint16_t *tag)
{
    struct uas_unit unit;
    bool read = second_unit_read(bytes, length, &unit) == 0;
    uint16_t named = length >= 4 ? (uint16_t)big(bytes + 2, 2) : 0;
    bool free = named >= 1 && named <= UAS_GREATEST_TAG && device->tasks[named].phase == UAS_ABSENT;
    *tag = 0;
    if (named < 1 || named > UAS_GREATEST_TAG)
        return 0;
    if (!read) {
        if (free) {
            second_respond(device, named, UAS_RESPONSE_INVALID_UNIT);
            *tag = named;
        }
        return 0;
    }
    if (unit.id == UAS_UNIT_SENSE || unit.id == UAS_UNIT_RESPONSE)
        return 0;
    if (!free)
        return UAS_DEVICE_OVERLAP;
    if (unit.id == UAS_UNIT_COMMAND)
        second_execute(device, &unit);
    else
        second_manage(device, &unit);
    *tag = named;
    return 0;
}

static inline uint8_t second_wants(const struct second_device *device, uint16_t tag, uint32_t *length)
{
    *length = 0;
    if (tag < 1 || tag > UAS_GREATEST_TAG)
        return UAS_ABSENT;
    const struct second_task *task = &device->tasks[tag];
    if (task->phase == UAS_GIVES || task->phase == UAS_TAKES) {
        uint32_t left = (uint32_t)task->operation.bytes - task->done;
        *length = left < 4096 ? left : 4096;
    }
    return task->phase;
}

/* Moves a chunk, whose length is right; false at a bad block, which ends the command. */
static inline bool second_move(struct second_device *device, uint16_t tag, uint8_t *data, size_t length)
{
    static const struct uas_sense unread = { 3, 0x11, 0, 0 }, unwritten = { 3, 0x0c, 0, 0 };
    struct second_task *task = &device->tasks[tag];
    uint8_t text[36];
    size_t at = 512 * (size_t)task->operation.lba + task->done;
    bool reads = second_is_read(task->operation.opcode);
    for (size_t block = at / 512; (reads || second_is_write(task->operation.opcode)) && block < (at + length) / 512; block++)
        if (device->bad[task->unit][block]) {
            second_end(task, tag, reads ? &unread : &unwritten);
            return false;
        }
    if (task->operation.opcode == UAS_INQUIRY) {
        second_inquiry_data(task->unit >= 0, text);
        memcpy(data, text, length);
    } else if (task->operation.opcode == UAS_READ_CAPACITY_10) {
        second_capacity_data(device->blocks[task->unit], data);
    } else if (task->operation.opcode == UAS_READ_CAPACITY_16) {
        second_long_capacity_data(device->blocks[task->unit], text);
        memcpy(data, text, length);
    } else if (reads)
        memcpy(data, device->now[task->unit] + at, length);
    else {
        memcpy(device->now[task->unit] + at, data, length);
        if (task->operation.fua)
            memcpy(device->medium[task->unit] + at, data, length);
    }
    task->done += (uint32_t)length;
    if (task->done == task->operation.bytes)
        second_end(task, tag, NULL);
    return true;
}

#endif
