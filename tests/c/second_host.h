/* A second implementation of the commands that hosts send, and of the profile's nine, written from tables of their fields, refusals and pages
 * (SPC, SBC) and not from the library, with which host_cdbs.c compares it. It is a table of commands: a length, and the bits of each byte that
 * are looked at; what is done with them is a function for each kind. */
#ifndef UAS_TESTS_SECOND_HOST_H
#define UAS_TESTS_SECOND_HOST_H

#include "uas_tasks.h"

#include <string.h>

/* A command: its code, and where it has one its service action, else -1; in which sets it is; how long its CDB is; its usage bits. */
struct host_command {
    uint8_t code;
    int action;
    bool profile;
    uint8_t length;
    const char *usage; /* one letter a byte, from byte 1 on: see usage_bits */
};

/* a: all bits; 0: none; d: DBD; e: EVPD or DESC, bit 0; f: protect, DPO, FUA; v: protect, DPO, BYTCHK; s: five bits of a block; p: START
 * STOP UNIT; o: RCTD and options; r: REPD; x: the service action */
static const struct host_command host_commands[] = {
    { 0x00, -1, true, 6, "00000" },           { 0x03, -1, false, 6, "e00a0" },          { 0x08, -1, false, 6, "saaa0" },
    { 0x0a, -1, false, 6, "saaa0" },          { 0x12, -1, true, 6, "eaaa0" },           { 0x1a, -1, false, 6, "daaa0" },
    { 0x1b, -1, false, 6, "000p0" },          { 0x25, -1, true, 10, "000000000" },      { 0x28, -1, true, 10, "faaaa0aa0" },
    { 0x2a, -1, true, 10, "faaaa0aa0" },      { 0x2f, -1, false, 10, "vaaaa0aa0" },     { 0x35, -1, true, 10, "0aaaa0aa0" },
    { 0x5a, -1, false, 10, "daa000aa0" },     { 0x88, -1, true, 16, "faaaaaaaaaaaa00" }, { 0x8a, -1, true, 16, "faaaaaaaaaaaa00" },
    { 0x8f, -1, false, 16, "vaaaaaaaaaaaa00" }, { 0x91, -1, false, 16, "0aaaaaaaaaaaa00" }, { 0x9e, 0x10, true, 16, "x00000000aaaa00" },
    { 0xa0, -1, false, 12, "0a000aaaa00" },   { 0xa3, 0x0c, false, 12, "xoaaaaaaa00" }, { 0xa3, 0x0d, false, 12, "xr000aaaa00" },
    { 0xa8, -1, false, 12, "faaaaaaaa00" },   { 0xaa, -1, false, 12, "faaaaaaaa00" },   { 0xaf, -1, false, 12, "vaaaaaaaa00" },
};
enum { HOST_COMMANDS = sizeof host_commands / sizeof host_commands[0] };

static inline uint8_t usage_bits(const struct host_command *command, int byte)
{
    switch (byte == 0 ? 'c' : command->usage[byte - 1]) {
    case 'c': return command->code;
    case 'a': return 0xff;
    case 'd': return 0x08;
    case 'e': return 0x01;
    case 'f': return 0xf8;
    case 'v': return 0xf6;
    case 's': return 0x1f;
    case 'p': return 0xf7;
    case 'o': return 0x87;
    case 'r': return 0x80;
    case 'x': return (uint8_t)command->action;
    default: return 0;
    }
}

static inline const struct host_command *host_command_of(uint8_t code, int action, bool profile)
{
    for (int i = 0; i < HOST_COMMANDS; i++)
        if (host_commands[i].code == code && (host_commands[i].action < 0 || host_commands[i].action == action) && (host_commands[i].profile || !profile))
            return &host_commands[i];
    return NULL;
}

static inline uint64_t number_at(const uint8_t *bytes, int first, int count)
{
    uint64_t number = 0;
    while (count-- > 0)
        number = number << 8 | bytes[first++];
    return number;
}

/* What came of a CDB: a fault, or the sense of a refusal, or what it asks for and its data, whole. */
struct host_answer {
    uint8_t fault;
    struct uas_sense sense;
    struct uas_tasks_work work;
    uint8_t data[1024];
    size_t length;
};

static inline void host_refuse(struct host_answer *answer, uint8_t key, uint8_t asc, uint8_t ascq)
{
    answer->fault = UAS_CDB_CHECK;
    answer->sense = (struct uas_sense){ key, asc, ascq, 0 };
}

/* ---- Data ---- */

static inline void add(struct host_answer *answer, uint64_t number, int bytes)
{
    while (bytes-- > 0)
        answer->data[answer->length++] = (uint8_t)(bytes < 8 ? number >> 8 * bytes : 0);
}

static inline void add_text(struct host_answer *answer, const char *text)
{
    memcpy(answer->data + answer->length, text, strlen(text));
    answer->length += strlen(text);
}

static inline void add_serial(struct host_answer *answer, uint32_t serial)
{
    for (uint32_t power = 10000000; power > 0; power /= 10)
        add(answer, '0' + serial / power % 10, 1);
}

static inline void add_inquiry(struct host_answer *answer, bool there)
{
    add(answer, there ? 0 : 0x7f, 1);
    add(answer, 0x0006021f000002, 7);
    add_text(answer, "SIMDISK UAS SIM DISK    0001");
}

/* A page of vital product data: false where there is none of this number. */
static inline bool add_page(struct host_answer *answer, uint8_t page, const struct uas_tasks_target *target)
{
    uint32_t serial = target->there ? target->unit.serial : 0;
    add(answer, target->there ? 0 : 0x7f, 1);
    add(answer, page, 1);
    switch (page) {
    case 0x00:
        add(answer, 6, 2);
        add(answer, 0x008083b0b1b2, 6);
        return true;
    case 0x80:
        add(answer, 8, 2);
        add_serial(answer, serial);
        return true;
    case 0x83:
        add(answer, 0x30, 2);
        add(answer, 0x02010020, 4);
        add_text(answer, "SIMDISK UAS SIM DISK    ");
        add_serial(answer, serial);
        add(answer, 0x01030008, 4);
        add(answer, (uint64_t)3 << 60 | serial, 8);
        return true;
    case 0xb0:
        add(answer, 0x3c, 2);
        add(answer, 8, 4);
        add(answer, target->most, 4);
        add(answer, target->most, 4);
        add(answer, 0, 48);
        return true;
    case 0xb1:
        add(answer, 0x3c, 2);
        add(answer, 1, 2);
        add(answer, 0, 58);
        return true;
    case 0xb2:
        add(answer, 4, 2);
        add(answer, 0, 4);
        return true;
    default:
        return false;
    }
}

static inline void add_sense(struct host_answer *answer, uint8_t key, uint8_t asc, uint8_t ascq)
{
    uint8_t sense[18] = { 0x70, 0, key, 0, 0, 0, 0, 10, 0, 0, 0, 0, asc, ascq };
    for (int i = 0; i < 18; i++)
        add(answer, sense[i], 1);
}

static inline void add_mode_page(struct host_answer *answer, uint8_t page, bool changeable)
{
    add(answer, page == 8 ? 0x0812 : 0x0a0a, 2);
    add(answer, changeable ? 0 : page == 8 ? 0x04 : 0x02, 1);
    add(answer, changeable || page == 8 ? 0 : 0x10, 1);
    add(answer, 0, page == 8 ? 16 : 8);
}

/* Mode data with a header of 4 or 8 bytes: pages 08h and 0Ah, or one of them. */
static inline void add_mode(struct host_answer *answer, bool long_header, bool described, uint8_t page, bool changeable,
                            const struct uas_tasks_unit *unit)
{
    int descriptor = described ? 8 : 0, pages = (page == 0x0a ? 0 : 20) + (page == 0x08 ? 0 : 12);
    if (long_header) {
        add(answer, (uint64_t)(6 + descriptor + pages), 2);
        add(answer, 0x00100000, 4);
        add(answer, (uint64_t)descriptor, 2);
    } else {
        add(answer, (uint64_t)(3 + descriptor + pages), 1);
        add(answer, 0x0010, 2);
        add(answer, (uint64_t)descriptor, 1);
    }
    if (described) {
        add(answer, unit->blocks > 0xffffffff ? 0xffffffff : unit->blocks, 4);
        add(answer, unit->block_bytes, 4);
    }
    if (page != 0x0a)
        add_mode_page(answer, 8, changeable);
    if (page != 0x08)
        add_mode_page(answer, 10, changeable);
}

static inline void add_timeouts(struct host_answer *answer)
{
    add(answer, 0x000a, 2);
    add(answer, 0, 10);
}

/* REPORT SUPPORTED OPERATION CODES: all_commands, or the one-command format. */
static inline void add_all_codes(struct host_answer *answer, bool timeouts)
{
    add(answer, (uint64_t)(HOST_COMMANDS * (timeouts ? 20 : 8)), 4);
    for (int i = 0; i < HOST_COMMANDS; i++) {
        const struct host_command *command = &host_commands[i];
        add(answer, (uint64_t)command->code << 8, 2);
        add(answer, command->action < 0 ? 0 : (uint64_t)command->action, 2);
        add(answer, 0, 1);
        add(answer, (timeouts ? 2 : 0) | (command->action < 0 ? 0 : 1), 1);
        add(answer, command->length, 2);
        if (timeouts)
            add_timeouts(answer);
    }
}

static inline void add_one_code(struct host_answer *answer, const struct host_command *command, bool timeouts)
{
    if (command == NULL) {
        add(answer, 0x00010000, 4);
        return;
    }
    add(answer, timeouts ? 0x0083 : 0x0003, 2);
    add(answer, command->length, 2);
    for (int byte = 0; byte < command->length; byte++)
        add(answer, usage_bits(command, byte), 1);
    if (timeouts)
        add_timeouts(answer);
}

/* ---- What a CDB asks ---- */

static inline void host_gives(struct host_answer *answer, uint32_t allocation)
{
    answer->work = (struct uas_tasks_work){ .kind = UAS_WORK_GIVES, .allocation = allocation };
    answer->length = answer->length < allocation ? answer->length : allocation;
}

/* Blocks that are moved or looked at: too many, then blocks that aren't there. */
static inline void host_blocks(struct host_answer *answer, uint8_t kind, bool limited, uint64_t lba, uint64_t count, bool through,
                               const struct uas_tasks_target *target)
{
    uint64_t blocks = target->unit.blocks, most = target->set == UAS_SET_PROFILE ? 128 : target->most;
    if (limited && count > most)
        host_refuse(answer, 5, 0x24, 0);
    else if (lba >= blocks || count > blocks - lba)
        host_refuse(answer, 5, 0x21, 0);
    else
        answer->work = (struct uas_tasks_work){ .kind = kind, .lba = lba, .count = (uint32_t)count, .through = through };
}

/* READ, WRITE, VERIFY and SYNCHRONIZE CACHE of 6, 10, 12 and 16 bytes. */
static inline void host_transfer(struct host_answer *answer, const uint8_t *cdb, const struct uas_tasks_target *target)
{
    uint64_t lba, count;
    uint8_t group = cdb[0] >> 5, low = cdb[0] & 0x1f;
    if (group == 0) {
        lba = number_at(cdb, 1, 3) & 0x1fffff;
        count = cdb[4] == 0 ? 256 : cdb[4];
        host_blocks(answer, low == 8 ? UAS_WORK_READS : UAS_WORK_WRITES, true, lba, count, false, target);
        return;
    }
    lba = group == 4 ? number_at(cdb, 2, 8) : number_at(cdb, 2, 4);
    count = group == 1 ? number_at(cdb, 7, 2) : group == 4 ? number_at(cdb, 10, 4) : number_at(cdb, 6, 4);
    if (low == 0x15 || low == 0x11) {
        host_blocks(answer, UAS_WORK_SYNCHRONIZES, false, lba, count, false, target);
        return;
    }
    uint8_t check = cdb[1] >> 1 & 3;
    if (cdb[1] >> 5 != 0 || (low == 0x0f && check > 1))
        host_refuse(answer, 5, 0x24, 0);
    else if (low == 0x0f)
        host_blocks(answer, check == 1 ? UAS_WORK_COMPARES : UAS_WORK_VERIFIES, check == 1, lba, count, false, target);
    else if (low == 8)
        host_blocks(answer, UAS_WORK_READS, true, lba, count, false, target);
    else
        host_blocks(answer, UAS_WORK_WRITES, true, lba, count, cdb[1] >> 3 & 1, target);
}

static inline void host_mode_sense(struct host_answer *answer, const uint8_t *cdb, const struct uas_tasks_target *target)
{
    uint8_t control = cdb[2] >> 6, page = cdb[2] & 0x3f, subpage = cdb[3];
    bool known = ((page == 0x08 || page == 0x0a) && subpage == 0) || (page == 0x3f && (subpage == 0 || subpage == 0xff));
    if (control == 3) {
        host_refuse(answer, 5, 0x39, 0);
        return;
    }
    if (!known) {
        host_refuse(answer, 5, 0x24, 0);
        return;
    }
    add_mode(answer, cdb[0] == 0x5a, (cdb[1] & 8) == 0, page, control == 1, &target->unit);
    host_gives(answer, cdb[0] == 0x5a ? (uint32_t)number_at(cdb, 7, 2) : cdb[4]);
}

static inline void host_codes(struct host_answer *answer, const uint8_t *cdb)
{
    uint8_t option = cdb[2] & 7, code = cdb[3];
    int action = (int)number_at(cdb, 4, 2);
    bool timeouts = cdb[2] >> 7, acts = code == 0xa3 || code == 0x9e;
    if (option > 3 || (option == 1 && acts) || (option == 2 && !acts)) {
        host_refuse(answer, 5, 0x24, 0);
        return;
    }
    if (option == 0)
        add_all_codes(answer, timeouts);
    else if (option == 3 && !acts && action != 0)
        add_one_code(answer, NULL, timeouts);
    else
        add_one_code(answer, host_command_of(code, action, false), timeouts);
    host_gives(answer, (uint32_t)number_at(cdb, 6, 4));
}

static inline void host_start_stop(struct host_answer *answer, const uint8_t *cdb)
{
    if ((cdb[4] & 0xf2) != 0)
        host_refuse(answer, 5, 0x24, 0);
    else if ((cdb[4] & 5) == 0)
        answer->work = (struct uas_tasks_work){ .kind = UAS_WORK_SYNCHRONIZES };
}

static inline void host_inquiry(struct host_answer *answer, const uint8_t *cdb, const struct uas_tasks_target *target)
{
    bool page = cdb[1] & 1, known = true;
    if (page && target->set == UAS_SET_HOST)
        known = add_page(answer, cdb[2], target);
    else if (page || cdb[2] != 0)
        known = false;
    else
        add_inquiry(answer, target->there);
    if (known)
        host_gives(answer, (uint32_t)number_at(cdb, 3, 2));
    else
        host_refuse(answer, 5, 0x24, 0);
}

static inline void host_request_sense(struct host_answer *answer, const uint8_t *cdb, const struct uas_tasks_target *target)
{
    if (cdb[1] & 1) {
        host_refuse(answer, 5, 0x24, 0);
        return;
    }
    if (!target->there)
        add_sense(answer, 5, 0x25, 0);
    else if (target->attention == UAS_ATTENTION_POWER_ON)
        add_sense(answer, 6, 0x29, 0);
    else if (target->attention == UAS_ATTENTION_RESET)
        add_sense(answer, 6, 0x29, 3);
    else
        add_sense(answer, 0, 0, 0);
    host_gives(answer, cdb[4]);
}

static inline void host_luns(struct host_answer *answer, const uint8_t *cdb, const struct uas_tasks_target *target)
{
    uint32_t allocation = (uint32_t)number_at(cdb, 6, 4), count = cdb[2] == 1 ? 0 : target->units;
    if (cdb[2] > 2 || allocation < 16) {
        host_refuse(answer, 5, 0x24, 0);
        return;
    }
    add(answer, (uint64_t)8 * count, 4);
    add(answer, 0, 4);
    for (uint32_t i = 0; i < count; i++)
        add(answer, (uint64_t)i << 48, 8);
    host_gives(answer, allocation);
}

static inline void host_task_functions(struct host_answer *answer, const uint8_t *cdb)
{
    bool more = cdb[2] >> 7;
    uint32_t allocation = (uint32_t)number_at(cdb, 6, 4);
    if (allocation < (more ? 16u : 4u)) {
        host_refuse(answer, 5, 0x24, 0);
        return;
    }
    add(answer, more ? 0x8c00000c : 0x8c000000, 4);
    add(answer, 0, more ? 12 : 0);
    host_gives(answer, allocation);
}

static inline void host_capacity(struct host_answer *answer, const uint8_t *cdb, const struct uas_tasks_target *target)
{
    uint64_t last = target->unit.blocks - 1;
    if (cdb[0] == 0x25) {
        add(answer, last > 0xffffffff ? 0xffffffff : last, 4);
        add(answer, target->unit.block_bytes, 4);
        host_gives(answer, 8);
        return;
    }
    add(answer, last, 8);
    add(answer, target->unit.block_bytes, 4);
    add(answer, 0, 20);
    host_gives(answer, (uint32_t)number_at(cdb, 10, 4));
}

static inline void host_asks(struct host_answer *answer, const uint8_t *cdb, const struct uas_tasks_target *target)
{
    bool profile = target->set == UAS_SET_PROFILE;
    if (!target->there && cdb[0] != 0x12 && (profile || (cdb[0] != 0x03 && cdb[0] != 0xa0))) {
        host_refuse(answer, 5, 0x25, 0);
        return;
    }
    const struct host_command *command = host_command_of(cdb[0], cdb[1] & 0x1f, profile);
    if (command == NULL) {
        host_refuse(answer, 5, cdb[0] == 0x9e ? 0x24 : 0x20, 0);
        return;
    }
    switch (cdb[0]) {
    case 0x00: break;
    case 0x03: host_request_sense(answer, cdb, target); break;
    case 0x12: host_inquiry(answer, cdb, target); break;
    case 0x1a: case 0x5a: host_mode_sense(answer, cdb, target); break;
    case 0x1b: host_start_stop(answer, cdb); break;
    case 0x25: case 0x9e: host_capacity(answer, cdb, target); break;
    case 0xa0: host_luns(answer, cdb, target); break;
    case 0xa3:
        if (command->action == 0x0c)
            host_codes(answer, cdb);
        else
            host_task_functions(answer, cdb);
        break;
    default: host_transfer(answer, cdb, target); break;
    }
}

/* The first fault of what is asked of, or what came of it. */
static inline void second_cdb(const uint8_t *cdb, const struct uas_tasks_target *target, struct host_answer *answer)
{
    const struct uas_tasks_unit *unit = &target->unit;
    memset(answer, 0, sizeof *answer);
    if (target->units == 0 || target->units > 15)
        answer->fault = UAS_UNITS;
    else if (target->there && (unit->blocks == 0 || unit->blocks > (uint64_t)1 << 48))
        answer->fault = UAS_BLOCKS;
    else if (target->there && unit->block_bytes != 512 && unit->block_bytes != 4096)
        answer->fault = UAS_TASKS_BLOCK_BYTES;
    else if (target->there && unit->serial > 99999999)
        answer->fault = UAS_TASKS_SERIAL;
    else if (target->set > 1 || (target->set == 1 && (target->most == 0 || target->most % 8 != 0)))
        answer->fault = UAS_TASKS_SET;
    else
        host_asks(answer, cdb, target);
}

#endif
