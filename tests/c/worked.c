/* Cases worked out by hand from the standards' tables: bytes of TRBs, units, CDBs and data, commands on the device, TRBs and steps of
 * the controller, the driver's TRBs with the events that answer them, and a script of two clients on the bus. */
#include "check.h"
#include "uas.h"

/* The data of a door's call that has none. */
static uint8_t no_data[1];

/* ---- TRBs ---- */

static void trb_is(struct uas_trb trb, const char *text)
{
    uint8_t bytes[16] = { 0 }, wanted[16];
    struct uas_trb read;
    memset(&read, 0xee, sizeof read);
    CHECK(uas_trb_encode(&trb, bytes) == 0);
    CHECK_BYTES(bytes, sizeof bytes, text);
    from_hex(text, wanted, sizeof wanted);
    CHECK(uas_trb_decode(wanted, &read) == 0);
    CHECK(memcmp(&read, &trb, sizeof trb) == 0);
}

static void trb_texts(void)
{
    /* A command TRB and a status TRB of tag 1, and the event of a Sense unit of 16 bytes: 112 - 16 weren't moved, short packet. */
    trb_is((struct uas_trb){ .type = UAS_TRB_NORMAL, .cycle = 1, .pointer = 0x10000100, .length = 32, .flags = UAS_TRB_IOC },
           "00 01 00 10 00 00 00 00 20 00 00 00 21 04 00 00");
    trb_is((struct uas_trb){ .type = UAS_TRB_NORMAL, .cycle = 1, .pointer = 0x20000100, .length = 112, .flags = UAS_TRB_ISP | UAS_TRB_IOC },
           "00 01 00 20 00 00 00 00 70 00 00 00 25 04 00 00");
    trb_is((struct uas_trb){ .type = UAS_TRB_TRANSFER_EVENT, .cycle = 1, .pointer = 0x42001000, .length = 96, .code = 13, .endpoint = 3, .slot = 1 },
           "00 10 00 42 00 00 00 00 60 00 00 0d 01 80 03 01");
    /* Data TRBs of a READ of 128 blocks: the first, the ninth (28 packets after it), the last; and the first with Cycle 0. */
    trb_is((struct uas_trb){ .type = UAS_TRB_NORMAL, .cycle = 1, .pointer = 0x100010000, .length = 4096, .td_size = 31, .flags = UAS_TRB_CH },
           "00 00 01 00 01 00 00 00 00 10 3e 00 11 04 00 00");
    trb_is((struct uas_trb){ .type = UAS_TRB_NORMAL, .cycle = 1, .pointer = 0x100018000, .length = 4096, .td_size = 28, .flags = UAS_TRB_CH },
           "00 80 01 00 01 00 00 00 00 10 38 00 11 04 00 00");
    trb_is((struct uas_trb){ .type = UAS_TRB_NORMAL, .cycle = 1, .pointer = 0x10001f000, .length = 4096, .flags = UAS_TRB_IOC },
           "00 f0 01 00 01 00 00 00 00 10 00 00 21 04 00 00");
    trb_is((struct uas_trb){ .type = UAS_TRB_NORMAL, .pointer = 0x100010000, .length = 4096, .td_size = 31, .flags = UAS_TRB_CH },
           "00 00 01 00 01 00 00 00 00 10 3e 00 10 04 00 00");
    /* All flags; 65,536 bytes. */
    trb_is((struct uas_trb){ .type = UAS_TRB_NORMAL, .pointer = 0xffffffffffffffff, .length = 65536, .td_size = 31, .flags = 127 },
           "ff ff ff ff ff ff ff ff 00 00 3f 00 7e 06 00 00");
    /* A Link inside a TD. */
    trb_is((struct uas_trb){ .type = UAS_TRB_LINK, .cycle = 1, .pointer = 0x43001000, .toggle = 1, .chain = 1 },
           "00 10 00 43 00 00 00 00 00 00 00 00 13 18 00 00");
    trb_is((struct uas_trb){ .type = UAS_TRB_LINK, .pointer = 0x43001000, .toggle = 1, .ioc = 1 },
           "00 10 00 43 00 00 00 00 00 00 00 00 22 18 00 00");
    /* A retirement's two commands and the event of the second. */
    trb_is((struct uas_trb){ .type = UAS_TRB_STOP_ENDPOINT, .cycle = 1, .endpoint = 5, .slot = 1 },
           "00 00 00 00 00 00 00 00 00 00 00 00 01 3c 05 01");
    trb_is((struct uas_trb){ .type = UAS_TRB_SET_DEQUEUE, .cycle = 1, .pointer = 0x43012030, .dequeue_cycle = 1, .stream = 18, .endpoint = 5, .slot = 1 },
           "33 20 01 43 00 00 00 00 00 00 12 00 01 40 05 01");
    trb_is((struct uas_trb){ .type = UAS_TRB_COMMAND_EVENT, .cycle = 1, .pointer = 0x50000010, .code = 1, .slot = 1 },
           "10 00 00 50 00 00 00 00 00 00 00 01 01 84 00 01");
}

static void trb_misread(const char *text, uint8_t fault)
{
    uint8_t bytes[16];
    struct uas_trb read, before;
    memset(&read, 0xee, sizeof read);
    before = read;
    CHECK(from_hex(text, bytes, sizeof bytes) == 16);
    if (!CHECK(uas_trb_decode(bytes, &read) == fault))
        fprintf(stderr, "    %s\n", text);
    CHECK(memcmp(&read, &before, sizeof read) == 0);
}

static void trb_unwritten(struct uas_trb trb, uint8_t fault)
{
    uint8_t bytes[16];
    memset(bytes, 0xee, sizeof bytes);
    CHECK(uas_trb_encode(&trb, bytes) == fault);
    CHECK_BYTES(bytes, sizeof bytes, "ee x16");
}

static void trb_faults(void)
{
    trb_misread("00 x16", UAS_TRB_UNKNOWN_TYPE);
    trb_misread("00 x12 00 08 00 00", UAS_TRB_UNKNOWN_TYPE);          /* type 2, Setup Stage */
    trb_misread("00 x8 01 00 01 00 00 04 00 00", UAS_TRB_LENGTH_OVER); /* 65,537 bytes */
    trb_misread("00 x8 01 00 41 00 00 04 00 00", UAS_TRB_LENGTH_OVER); /* and an interrupter target */
    trb_misread("00 x8 00 00 41 00 00 04 00 00", UAS_TRB_RESERVED_SET); /* an interrupter target */
    trb_misread("00 x8 00 00 00 00 80 04 00 00", UAS_TRB_RESERVED_SET); /* control bit 7 */
    trb_misread("01 00 x12 18 00 00", UAS_TRB_RESERVED_SET);            /* a Link to no multiple of 16 */
    trb_misread("31 20 01 43 00 00 00 00 00 00 12 00 01 40 05 01", UAS_TRB_RESERVED_SET); /* SCT 0 */
    trb_misread("00 x12 01 3c 25 01", UAS_TRB_RESERVED_SET);            /* endpoint bit 5 */
    trb_unwritten((struct uas_trb){ .type = 0 }, UAS_TRB_UNKNOWN_TYPE);
    trb_unwritten((struct uas_trb){ .type = 2 }, UAS_TRB_UNKNOWN_TYPE);
    trb_unwritten((struct uas_trb){ .type = UAS_TRB_NORMAL, .td_size = 32 }, UAS_TRB_UNFIT);
    trb_unwritten((struct uas_trb){ .type = UAS_TRB_NORMAL, .flags = 128 }, UAS_TRB_UNFIT);
    trb_unwritten((struct uas_trb){ .type = UAS_TRB_NORMAL, .cycle = 2 }, UAS_TRB_UNFIT);
    trb_unwritten((struct uas_trb){ .type = UAS_TRB_NORMAL, .length = 65537 }, UAS_TRB_UNFIT);
    trb_unwritten((struct uas_trb){ .type = UAS_TRB_NORMAL, .length = 1u << 17 }, UAS_TRB_UNFIT);
    trb_unwritten((struct uas_trb){ .type = UAS_TRB_LINK, .pointer = 8 }, UAS_TRB_UNFIT);
    trb_unwritten((struct uas_trb){ .type = UAS_TRB_LINK, .toggle = 2 }, UAS_TRB_UNFIT);
    trb_unwritten((struct uas_trb){ .type = UAS_TRB_SET_DEQUEUE, .endpoint = 32 }, UAS_TRB_UNFIT);
    trb_unwritten((struct uas_trb){ .type = UAS_TRB_TRANSFER_EVENT, .length = 1u << 24 }, UAS_TRB_UNFIT);
    trb_unwritten((struct uas_trb){ .type = UAS_TRB_COMMAND_EVENT, .pointer = 1 }, UAS_TRB_UNFIT);
}

/* ---- Information units ---- */

static void unit_is(struct uas_unit unit, const char *text)
{
    uint8_t bytes[112], wanted[112];
    size_t length = 0, count = from_hex(text, wanted, sizeof wanted);
    struct uas_unit read;
    memset(&read, 0xee, sizeof read);
    memset(bytes, 0xee, sizeof bytes);
    CHECK(uas_unit_write(&unit, bytes, sizeof bytes, &length) == 0);
    CHECK_BYTES(bytes, length, text);
    for (size_t i = count; i < sizeof bytes; i++)
        if (bytes[i] != 0xee)
            CHECK(!"bytes behind the unit stay");
    CHECK(uas_unit_read(wanted, count, &read) == 0);
    CHECK(memcmp(&read, &unit, sizeof unit) == 0);
    /* Just enough room, and one byte too few. */
    CHECK(uas_unit_write(&unit, bytes, count, &length) == 0 && length == count);
    memset(bytes, 0xee, sizeof bytes);
    length = 7777;
    CHECK(uas_unit_write(&unit, bytes, count - 1, &length) == UAS_UNIT_NO_ROOM);
    CHECK(length == 7777);
    CHECK_BYTES(bytes, sizeof bytes, "ee x112");
}

static const struct uas_sense out_of_range = { 5, 0x21, 0, 0 };

static void unit_texts(void)
{
    /* TEST UNIT READY on tag 1, INQUIRY of 36 by client 2 on tag 18, and the answer GOOD. */
    unit_is((struct uas_unit){ .id = UAS_UNIT_COMMAND, .tag = 1 }, "01 00 00 01 00 x28");
    unit_is((struct uas_unit){ .id = UAS_UNIT_COMMAND, .tag = 18, .lun = { 0, 2 }, .cdb = { 0x12, 0, 0, 0, 0x24 } },
            "01 00 00 12 00 00 00 00 00 02 00 00 00 00 00 00 12 00 00 00 24 00 00 x10");
    unit_is((struct uas_unit){ .id = UAS_UNIT_SENSE, .tag = 1 }, "03 00 00 01 00 x12");
    /* A READ beyond the last block on tag 18. */
    struct uas_unit check = { .id = UAS_UNIT_SENSE, .tag = 18, .status = UAS_CHECK_CONDITION, .sense_length = 18 };
    uas_sense_data(&out_of_range, check.sense);
    unit_is(check, "03 00 00 12 00 00 02 00 x7 00 12 70 00 05 00 00 00 00 0a 00 00 00 00 21 00 00 00 00 00");
    /* ABORT TASK of tag 18 by tag 24, and its answer. */
    unit_is((struct uas_unit){ .id = UAS_UNIT_TASK, .tag = 24, .function = UAS_ABORT_TASK, .task_tag = 18, .lun = { 0, 2 } },
            "05 00 00 18 01 00 00 12 00 02 00 x6");
    unit_is((struct uas_unit){ .id = UAS_UNIT_RESPONSE, .tag = 24 }, "04 00 00 18 00 00 00 00");
    /* QUERY TASK of tag 34 by tag 48, and its answer while the command is there. */
    unit_is((struct uas_unit){ .id = UAS_UNIT_TASK, .tag = 48, .function = UAS_QUERY_TASK, .task_tag = 34, .lun = { 0, 2 } },
            "05 00 00 30 80 00 00 22 00 02 00 x6");
    unit_is((struct uas_unit){ .id = UAS_UNIT_RESPONSE, .tag = 48, .code = UAS_RESPONSE_SUCCEEDED }, "04 00 00 30 00 00 00 08");
    unit_is((struct uas_unit){ .id = UAS_UNIT_RESPONSE, .tag = 0x1234, .code = UAS_RESPONSE_INVALID_UNIT }, "04 00 12 34 00 00 00 02");
    /* All the sense that there is room for. */
    struct uas_unit most = { .id = UAS_UNIT_SENSE, .tag = 0xffff, .status = 0x28, .sense_length = 96 };
    memset(most.sense, 0xab, sizeof most.sense);
    unit_is(most, "03 00 ff ff 00 00 28 00 x7 00 60 ab x96");
}

static void unit_misread(const char *text, uint8_t fault)
{
    uint8_t bytes[200];
    struct uas_unit read, before;
    memset(&read, 0xee, sizeof read);
    before = read;
    size_t length = from_hex(text, bytes, sizeof bytes);
    if (!CHECK(uas_unit_read(bytes, length, &read) == fault))
        fprintf(stderr, "    %s\n", text);
    CHECK(memcmp(&read, &before, sizeof read) == 0);
}

static void unit_faults(void)
{
    unit_misread("", UAS_UNIT_SHORT);
    unit_misread("00", UAS_UNIT_UNKNOWN_ID);
    unit_misread("02 00 x31", UAS_UNIT_UNKNOWN_ID);
    unit_misread("01 00 00 12 00 x27", UAS_UNIT_SHORT);
    unit_misread("01 00 x32", UAS_UNIT_LONG);
    unit_misread("01 01 00 12 00 x28", UAS_UNIT_RESERVED_SET);
    unit_misread("01 00 00 12 08 00 x27", UAS_UNIT_RESERVED_SET); /* priority */
    unit_misread("01 00 00 12 00 00 04 00 x25", UAS_UNIT_LENGTH_FIELD);
    unit_misread("01 00 00 12 00 00 04 01 00 x24", UAS_UNIT_RESERVED_SET);
    unit_misread("03 00 x14", UAS_UNIT_SHORT);
    unit_misread("03 00 00 01 00 x11 61 00 x97", UAS_UNIT_LONG);
    unit_misread("03 00 00 01 00 01 00 00 x9", UAS_UNIT_RESERVED_SET); /* a status qualifier */
    unit_misread("03 00 00 01 00 x11 01", UAS_UNIT_LENGTH_FIELD);
    unit_misread("03 00 00 01 00 x13", UAS_UNIT_LENGTH_FIELD);
    unit_misread("04 00 00 18 00 00 00", UAS_UNIT_SHORT);
    unit_misread("04 00 00 18 00 00 01 00", UAS_UNIT_RESERVED_SET);
    unit_misread("04 00 00 18 00 x5", UAS_UNIT_LONG);
    unit_misread("05 00 00 18 01 01 00 12 00 x8", UAS_UNIT_RESERVED_SET);
    unit_misread("05 00 x14", UAS_UNIT_SHORT);

    uint8_t bytes[128];
    size_t length = 7777;
    struct uas_unit unit = { .id = UAS_UNIT_SENSE, .sense_length = 97 };
    memset(bytes, 0xee, sizeof bytes);
    CHECK(uas_unit_write(&unit, bytes, sizeof bytes, &length) == UAS_UNIT_UNFIT);
    unit.id = 2;
    CHECK(uas_unit_write(&unit, bytes, sizeof bytes, &length) == UAS_UNIT_UNKNOWN_ID);
    unit.id = 0;
    CHECK(uas_unit_write(&unit, bytes, sizeof bytes, &length) == UAS_UNIT_UNKNOWN_ID);
    CHECK(length == 7777);
    CHECK_BYTES(bytes, sizeof bytes, "ee x128");
}

/* ---- CDBs, sense and data ---- */

static void cdb_is(struct uas_operation operation, uint32_t blocks, const char *text)
{
    uint8_t cdb[16] = { 0xee }, wanted[16];
    struct uas_operation asked;
    struct uas_sense sense = { 0xee, 0xee, 0xee, 0xee };
    memset(&asked, 0xee, sizeof asked);
    CHECK(uas_cdb_write(&operation, cdb) == 0);
    CHECK_BYTES(cdb, sizeof cdb, text);
    from_hex(text, wanted, sizeof wanted);
    CHECK(uas_cdb_parse(wanted, blocks, &asked, &sense) == 0);
    CHECK(memcmp(&asked, &operation, sizeof asked) == 0);
    CHECK_BYTES((uint8_t *)&sense, sizeof sense, "ee x4");
}

static void cdb_texts(void)
{
    cdb_is((struct uas_operation){ .opcode = UAS_TEST_UNIT_READY }, 100, "00 x16");
    cdb_is((struct uas_operation){ .opcode = UAS_INQUIRY, .count = 36, .bytes = 36, .direction = UAS_TO_HOST }, 100, "12 00 00 00 24 00 x11");
    cdb_is((struct uas_operation){ .opcode = UAS_INQUIRY, .count = 5, .bytes = 5, .direction = UAS_TO_HOST }, 100, "12 00 00 00 05 00 x11");
    cdb_is((struct uas_operation){ .opcode = UAS_INQUIRY }, 100, "12 00 x15");
    cdb_is((struct uas_operation){ .opcode = UAS_INQUIRY, .count = 65535, .bytes = 36, .direction = UAS_TO_HOST }, 100, "12 00 00 ff ff 00 x11");
    cdb_is((struct uas_operation){ .opcode = UAS_READ_CAPACITY_10, .bytes = 8, .direction = UAS_TO_HOST }, 1, "25 00 x15");
    cdb_is((struct uas_operation){ .opcode = UAS_READ_10, .lba = 0xff80, .count = 128, .bytes = 65536, .direction = UAS_TO_HOST }, 65536,
           "28 00 00 00 ff 80 00 00 80 00 x7");
    cdb_is((struct uas_operation){ .opcode = UAS_READ_10, .lba = 99, .fua = 1 }, 100, "28 08 00 00 00 63 00 x10");
    cdb_is((struct uas_operation){ .opcode = UAS_WRITE_10, .lba = 0x102, .count = 3, .bytes = 1536, .fua = 1, .direction = UAS_TO_DEVICE }, 65536,
           "2a 08 00 00 01 02 00 00 03 00 x7");
    cdb_is((struct uas_operation){ .opcode = UAS_SYNCHRONIZE_CACHE_10, .lba = 1, .count = 99 }, 100, "35 00 00 00 00 01 00 00 63 00 x7");
    cdb_is((struct uas_operation){ .opcode = UAS_READ_16, .lba = 98, .count = 2, .bytes = 1024, .direction = UAS_TO_HOST }, 100,
           "88 00 00 00 00 00 00 00 00 62 00 00 00 02 00 00");
    cdb_is((struct uas_operation){ .opcode = UAS_WRITE_16, .lba = 1, .count = 1, .bytes = 512, .fua = 1, .direction = UAS_TO_DEVICE }, 100,
           "8a 08 00 00 00 00 00 00 00 01 00 00 00 01 00 00");
    cdb_is((struct uas_operation){ .opcode = UAS_READ_CAPACITY_16, .count = 12, .bytes = 12, .direction = UAS_TO_HOST }, 1,
           "9e 10 00 x11 0c 00 00");
    cdb_is((struct uas_operation){ .opcode = UAS_READ_CAPACITY_16, .count = 0xffffffff, .bytes = 32, .direction = UAS_TO_HOST }, 1,
           "9e 10 00 x8 ff ff ff ff 00 00");
}

static void cdb_checks(const char *text, uint32_t blocks, uint8_t asc)
{
    uint8_t cdb[16];
    struct uas_operation asked, before;
    struct uas_sense sense = { 0xee, 0xee, 0xee, 0xee };
    memset(&asked, 0xee, sizeof asked);
    before = asked;
    CHECK(from_hex(text, cdb, sizeof cdb) == 16);
    CHECK(uas_cdb_parse(cdb, blocks, &asked, &sense) == UAS_CDB_CHECK);
    if (!CHECK(sense.key == 5 && sense.asc == asc && sense.ascq == 0 && sense.reserved == 0))
        fprintf(stderr, "    %s: %02x/%02x/%02x\n", text, sense.key, sense.asc, sense.ascq);
    CHECK(memcmp(&asked, &before, sizeof asked) == 0);
}

static void cdb_faults(void)
{
    cdb_checks("03 00 x15", 100, 0x20);                       /* REQUEST SENSE */
    cdb_checks("8e 00 x15", 100, 0x20);                       /* WRITE AND VERIFY(16) */
    cdb_checks("12 01 00 00 24 00 x11", 100, 0x24);           /* EVPD */
    cdb_checks("12 00 80 00 24 00 x11", 100, 0x24);           /* a page */
    cdb_checks("28 20 00 x6 01 00 x7", 100, 0x24);            /* protection */
    cdb_checks("2a 00 00 x5 00 81 00 x7", 65536, 0x24);       /* 129 blocks */
    cdb_checks("28 00 ff ff ff ff 00 00 81 00 x7", 10, 0x24); /* the field first */
    cdb_checks("28 00 00 00 00 63 00 00 02 00 x7", 100, 0x21);
    cdb_checks("28 00 00 00 00 64 00 00 00 00 x7", 100, 0x21); /* no block, at block 100 of 100 */
    cdb_checks("35 00 00 00 00 64 00 00 00 00 x7", 100, 0x21);
    cdb_checks("35 00 00 00 00 01 00 00 64 00 x7", 100, 0x21);
    cdb_checks("28 00 ff ff ff ff 00 00 01 00 x7", 65536, 0x21);
    cdb_checks("88 00 00 00 00 01 00 00 00 00 00 00 00 01 00 00", 65536, 0x21); /* block 2^32 */
    cdb_checks("8a 00 00 00 00 01 00 00 00 00 00 00 00 81 00 00", 65536, 0x24); /* the field first */
    cdb_checks("88 00 00 x8 ff ff ff ff 00 00", 65536, 0x24);                   /* 2^32 - 1 blocks */
    cdb_checks("9e 11 00 x11 20 00 00", 100, 0x24);                             /* another service action */

    /* DPO, the immediate bit and bits without a field are ignored. */
    uint8_t cdb[16];
    struct uas_operation asked;
    struct uas_sense sense;
    from_hex("28 10 00 00 00 01 ff 00 01 ff x7", cdb, sizeof cdb);
    CHECK(uas_cdb_parse(cdb, 2, &asked, &sense) == 0 && asked.lba == 1 && asked.count == 1 && asked.fua == 0);
    from_hex("35 02 00 00 00 01 ff 00 01 ff x7", cdb, sizeof cdb);
    CHECK(uas_cdb_parse(cdb, 2, &asked, &sense) == 0 && asked.direction == UAS_NO_DATA);

    struct uas_operation operation = { .opcode = UAS_READ_10, .count = 65536 };
    memset(cdb, 0xee, sizeof cdb);
    CHECK(uas_cdb_write(&operation, cdb) == UAS_CDB_UNFIT);
    operation = (struct uas_operation){ .opcode = UAS_READ_10, .lba = (uint64_t)1 << 32 };
    CHECK(uas_cdb_write(&operation, cdb) == UAS_CDB_UNFIT);
    operation = (struct uas_operation){ .opcode = UAS_READ_10, .fua = 2 };
    CHECK(uas_cdb_write(&operation, cdb) == UAS_CDB_UNFIT);
    operation.opcode = 0x8e;
    CHECK(uas_cdb_write(&operation, cdb) == UAS_CDB_UNKNOWN_OPCODE);
    CHECK_BYTES(cdb, sizeof cdb, "ee x16");
    /* More than a READ may move has a CDB; the device answers it. */
    operation = (struct uas_operation){ .opcode = UAS_READ_10, .count = 65535 };
    CHECK(uas_cdb_write(&operation, cdb) == 0);
    CHECK_BYTES(cdb, sizeof cdb, "28 00 x6 ff ff 00 x7");
}

static void data_texts(void)
{
    uint8_t bytes[36];
    const struct uas_sense reset = { 6, 0x29, 3, 0xff };
    uas_sense_data(&reset, bytes);
    CHECK_BYTES(bytes, 18, "70 00 06 00 00 00 00 0a 00 00 00 00 29 03 00 00 00 00");
    uas_inquiry_data(true, bytes);
    CHECK_BYTES(bytes, 36, "000006021f000002 53494d4449534b20 5541532053494d204449534b20202020 30303031");
    uas_inquiry_data(false, bytes);
    CHECK_BYTES(bytes, 36, "7f0006021f000002 53494d4449534b20 5541532053494d204449534b20202020 30303031");
    CHECK(uas_capacity_data(100, bytes) == 0);
    CHECK_BYTES(bytes, 8, "00 00 00 63 00 00 02 00");
    CHECK(uas_capacity_data(0, bytes) == UAS_CAPACITY_NO_BLOCKS);
    CHECK_BYTES(bytes, 8, "00 00 00 63 00 00 02 00");
    CHECK(uas_capacity_data(0xffffffff, bytes) == 0);
    CHECK_BYTES(bytes, 8, "ff ff ff fe 00 00 02 00");
    CHECK(uas_long_capacity_data(100, bytes) == 0);
    CHECK_BYTES(bytes, 32, "00 x7 63 00 00 02 00 00 x20");
    CHECK(uas_long_capacity_data(0, bytes) == UAS_CAPACITY_NO_BLOCKS);
}

/* ---- The device ---- */

static uas_device *new_device(size_t units, uint32_t blocks)
{
    uint32_t all[UAS_MOST_UNITS];
    uas_device *device = NULL;
    for (size_t i = 0; i < units; i++)
        all[i] = blocks;
    if (uas_device_new(all, units, &device) != 0 || device == NULL) {
        fprintf(stderr, "no device\n");
        exit(2);
    }
    return device;
}

static uint8_t received(uas_device *device, const char *text, uint16_t *tag)
{
    uint8_t bytes[128];
    size_t length = from_hex(text, bytes, sizeof bytes);
    return uas_device_receive(device, bytes, length, tag);
}

/* The bytes of a Command unit of this operation. */
static void command_text(uint16_t tag, uint8_t unit, struct uas_operation operation, uint8_t bytes[32])
{
    struct uas_unit command = { .id = UAS_UNIT_COMMAND, .tag = tag, .lun = { 0, unit } };
    size_t length = 0;
    CHECK(uas_cdb_write(&operation, command.cdb) == 0);
    CHECK(uas_unit_write(&command, bytes, 32, &length) == 0 && length == 32);
}

static void begins(uas_device *device, uint16_t tag, uint8_t unit, struct uas_operation operation)
{
    uint8_t bytes[32];
    uint16_t began = 0;
    command_text(tag, unit, operation, bytes);
    CHECK(uas_device_receive(device, bytes, sizeof bytes, &began) == 0);
    CHECK(began == tag);
}

static void is_at(uas_device *device, uint16_t tag, uint8_t phase, uint32_t length)
{
    uint8_t got = 0xee;
    uint32_t bytes = 7777;
    CHECK(uas_device_wants(device, tag, &got, &bytes) == 0);
    CHECK(got == phase);
    if (phase == UAS_GIVES || phase == UAS_TAKES)
        CHECK(bytes == length);
}

/* The task ends with this unit; then it is gone. */
static void ends(uas_device *device, uint16_t tag, const char *text)
{
    uint8_t bytes[112];
    uint32_t length = 0;
    is_at(device, tag, UAS_ENDS, 0);
    CHECK(uas_device_status(device, tag, bytes, sizeof bytes, &length) == 0);
    CHECK_BYTES(bytes, length, text);
    CHECK(uas_device_sent(device, tag) == 0);
    is_at(device, tag, UAS_ABSENT, 0);
}

static void gives(uas_device *device, uint16_t tag, uint8_t *data, uint32_t length)
{
    bool good = false;
    is_at(device, tag, UAS_GIVES, length);
    CHECK(uas_device_give(device, tag, data, length, &good) == 0 && good);
}

static void takes(uas_device *device, uint16_t tag, const uint8_t *data, uint32_t length)
{
    bool good = false;
    is_at(device, tag, UAS_TAKES, length);
    CHECK(uas_device_take(device, tag, data, length, &good) == 0 && good);
}

static bool all_are(const uint8_t *bytes, size_t length, uint8_t byte)
{
    for (size_t i = 0; i < length; i++)
        if (bytes[i] != byte)
            return false;
    return true;
}

static const struct uas_operation ready = { .opcode = UAS_TEST_UNIT_READY };

static void device_new_faults(void)
{
    uint32_t blocks[32];
    uas_device *device = NULL;
    for (int i = 0; i < 32; i++)
        blocks[i] = 1;
    CHECK(uas_device_new(blocks, 0, &device) == UAS_UNITS);
    CHECK(uas_device_new(blocks, 32, &device) == UAS_UNITS);
    blocks[30] = 0;
    CHECK(uas_device_new(blocks, 31, &device) == UAS_BLOCKS);
    blocks[30] = 65537;
    CHECK(uas_device_new(blocks, 31, &device) == UAS_BLOCKS);
    CHECK(device == NULL);
    blocks[30] = 65536;
    CHECK(uas_device_new(blocks, 31, &device) == 0 && device != NULL);
    uint32_t size = 0;
    CHECK(uas_device_size(device, 30, &size) == 0 && size == 65536);
    CHECK(uas_device_size(device, 0, &size) == 0 && size == 1);
    CHECK(uas_device_size(device, 31, &size) == UAS_DEVICE_UNIT && size == 1);
    uas_device_free(device);
}

static void device_answers(void)
{
    uint8_t data[36];
    uint16_t tag = 0;
    uas_device *device = new_device(3, 100);
    is_at(device, 1, UAS_ABSENT, 0);
    is_at(device, 0, UAS_ABSENT, 0);
    is_at(device, 65535, UAS_ABSENT, 0);
    CHECK(received(device, "01 00 00 01 00 x28", &tag) == 0 && tag == 1);
    ends(device, 1, "03 00 00 01 00 x12");

    begins(device, 18, 2, (struct uas_operation){ .opcode = UAS_INQUIRY, .count = 36 });
    gives(device, 18, data, 36);
    CHECK_BYTES(data, 36, "000006021f000002 53494d4449534b20 5541532053494d204449534b20202020 30303031");
    ends(device, 18, "03 00 00 12 00 x12");
    begins(device, 18, 2, (struct uas_operation){ .opcode = UAS_INQUIRY, .count = 5 });
    gives(device, 18, data, 5);
    CHECK_BYTES(data, 5, "00 00 06 02 1f");
    ends(device, 18, "03 00 00 12 00 x12");
    begins(device, 18, 2, (struct uas_operation){ .opcode = UAS_INQUIRY });
    ends(device, 18, "03 00 00 12 00 x12");

    begins(device, 240, 0, (struct uas_operation){ .opcode = UAS_READ_CAPACITY_10 });
    gives(device, 240, data, 8);
    CHECK_BYTES(data, 8, "00 00 00 63 00 00 02 00");
    ends(device, 240, "03 00 00 f0 00 x12");

    /* Blocks 99 and 100 of 100; no block at block 100, and at block 99. */
    begins(device, 18, 2, (struct uas_operation){ .opcode = UAS_READ_10, .lba = 99, .count = 2 });
    ends(device, 18, "03 00 00 12 00 00 02 00 x7 00 12 70 00 05 00 00 00 00 0a 00 00 00 00 21 00 00 00 00 00");
    begins(device, 18, 2, (struct uas_operation){ .opcode = UAS_READ_10, .lba = 100 });
    ends(device, 18, "03 00 00 12 00 00 02 00 x7 00 12 70 00 05 00 00 00 00 0a 00 00 00 00 21 00 00 00 00 00");
    begins(device, 18, 2, (struct uas_operation){ .opcode = UAS_READ_10, .lba = 99 });
    ends(device, 18, "03 00 00 12 00 x12");

    /* A unit that isn't there: 5/25/00, and INQUIRY data that says so. */
    begins(device, 18, 3, ready);
    ends(device, 18, "03 00 00 12 00 00 02 00 x7 00 12 70 00 05 00 00 00 00 0a 00 00 00 00 25 00 00 00 00 00");
    begins(device, 18, 3, (struct uas_operation){ .opcode = UAS_INQUIRY, .count = 1 });
    gives(device, 18, data, 1);
    CHECK(data[0] == 0x7f);
    ends(device, 18, "03 00 00 12 00 x12");
    uas_device_free(device);
}

static void device_moves(void)
{
    static uint8_t data[16 * 512], blocks[100 * 512];
    bool good = true;
    uas_device *device = new_device(2, 100);

    /* WRITE of 9 blocks at 3: a chunk of 8 and one of 1. */
    memset(data, 0xaa, sizeof data);
    begins(device, 1, 1, (struct uas_operation){ .opcode = UAS_WRITE_10, .lba = 3, .count = 9 });
    CHECK(uas_device_take(device, 1, data, 4095, &good) == UAS_DEVICE_LENGTH);
    CHECK(uas_device_give(device, 1, data, 4096, &good) == UAS_DEVICE_PHASE);
    takes(device, 1, data, 4096);
    takes(device, 1, data, 512);
    ends(device, 1, "03 00 00 01 00 x12");
    CHECK(uas_device_blocks(device, 1, 0, blocks, sizeof blocks) == 0);
    CHECK(all_are(blocks, 3 * 512, 0) && all_are(blocks + 3 * 512, 9 * 512, 0xaa) && all_are(blocks + 12 * 512, 88 * 512, 0));
    CHECK(uas_device_medium(device, 1, 0, blocks, sizeof blocks) == 0);
    CHECK(all_are(blocks, sizeof blocks, 0));
    CHECK(uas_device_blocks(device, 0, 0, blocks, sizeof blocks) == 0);
    CHECK(all_are(blocks, sizeof blocks, 0));

    /* READ of it, on another tag. */
    begins(device, 2, 1, (struct uas_operation){ .opcode = UAS_READ_10, .lba = 2, .count = 10 });
    gives(device, 2, data, 4096);
    CHECK(all_are(data, 512, 0) && all_are(data + 512, 7 * 512, 0xaa));
    gives(device, 2, data, 1024);
    CHECK(all_are(data, 1024, 0xaa));
    ends(device, 2, "03 00 00 02 00 x12");

    /* SYNCHRONIZE CACHE from block 4 on, then WRITE with FUA of block 3. */
    begins(device, 1, 1, (struct uas_operation){ .opcode = UAS_SYNCHRONIZE_CACHE_10, .lba = 4 });
    ends(device, 1, "03 00 00 01 00 x12");
    memset(data, 0x55, 512);
    begins(device, 1, 1, (struct uas_operation){ .opcode = UAS_WRITE_10, .lba = 0, .count = 1, .fua = 1 });
    takes(device, 1, data, 512);
    ends(device, 1, "03 00 00 01 00 x12");
    CHECK(uas_device_medium(device, 1, 0, blocks, sizeof blocks) == 0);
    CHECK(all_are(blocks, 512, 0x55) && all_are(blocks + 512, 3 * 512, 0));
    CHECK(all_are(blocks + 4 * 512, 8 * 512, 0xaa) && all_are(blocks + 12 * 512, 88 * 512, 0));

    /* A READ gives the blocks of its own moment: two chunks, and a WRITE between them. */
    memset(data, 0x11, sizeof data);
    begins(device, 1, 0, (struct uas_operation){ .opcode = UAS_READ_10, .count = 16 });
    begins(device, 2, 0, (struct uas_operation){ .opcode = UAS_WRITE_10, .count = 16 });
    takes(device, 2, data, 4096);
    gives(device, 1, data, 4096);
    gives(device, 1, data + 4096, 4096);
    CHECK(all_are(data, 4096, 0x11) && all_are(data + 4096, 4096, 0));
    takes(device, 2, data, 4096);
    ends(device, 1, "03 00 00 01 00 x12");
    ends(device, 2, "03 00 00 02 00 x12");
    uas_device_free(device);
}

static void device_manages(void)
{
    uint8_t data[4096] = { 0 };
    uint16_t tag = 7;
    uas_device *device = new_device(3, 100);

    /* ABORT TASK of tag 18 by tag 24. Its READ has moved two chunks of three. */
    begins(device, 18, 2, (struct uas_operation){ .opcode = UAS_READ_10, .count = 24 });
    begins(device, 17, 2, (struct uas_operation){ .opcode = UAS_READ_10, .count = 24 });
    begins(device, 1, 0, ready);
    gives(device, 18, data, 4096);
    gives(device, 18, data, 4096);
    CHECK(received(device, "05 00 00 18 01 00 00 12 00 02 00 x6", &tag) == 0 && tag == 24);
    is_at(device, 18, UAS_ABSENT, 0);
    is_at(device, 17, UAS_GIVES, 4096);
    ends(device, 24, "04 00 00 18 00 00 00 00");
    /* It answers COMPLETE where there is no such task too. */
    CHECK(received(device, "05 00 00 18 01 00 00 12 00 02 00 x6", &tag) == 0 && tag == 24);
    ends(device, 24, "04 00 00 18 00 00 00 00");
    /* Nor does it end a task of another unit. */
    CHECK(received(device, "05 00 00 18 01 00 00 11 00 01 00 x6", &tag) == 0);
    is_at(device, 17, UAS_GIVES, 4096);
    ends(device, 24, "04 00 00 18 00 00 00 00");

    /* QUERY TASK of tag 17 by tag 24: it is there, and stays; tag 18 isn't, nor is it of unit 1; unit 3 isn't. */
    CHECK(received(device, "05 00 00 18 80 00 00 11 00 02 00 x6", &tag) == 0 && tag == 24);
    ends(device, 24, "04 00 00 18 00 00 00 08");
    is_at(device, 17, UAS_GIVES, 4096);
    CHECK(received(device, "05 00 00 18 80 00 00 12 00 02 00 x6", &tag) == 0);
    ends(device, 24, "04 00 00 18 00 00 00 00");
    CHECK(received(device, "05 00 00 18 80 00 00 11 00 01 00 x6", &tag) == 0);
    ends(device, 24, "04 00 00 18 00 00 00 00");
    CHECK(received(device, "05 00 00 18 80 00 00 11 00 03 00 x6", &tag) == 0);
    ends(device, 24, "04 00 00 18 00 00 00 09");

    /* LOGICAL UNIT RESET of unit 2: its tasks go, INQUIRY is answered, the next command is told, the one after it is good. */
    CHECK(received(device, "05 00 00 18 08 00 00 00 00 02 00 x6", &tag) == 0 && tag == 24);
    ends(device, 24, "04 00 00 18 00 00 00 00");
    is_at(device, 17, UAS_ABSENT, 0);
    ends(device, 1, "03 00 00 01 00 x12");
    begins(device, 17, 2, (struct uas_operation){ .opcode = UAS_INQUIRY, .count = 5 });
    gives(device, 17, data, 5);
    ends(device, 17, "03 00 00 11 00 x12");
    begins(device, 17, 2, ready);
    ends(device, 17, "03 00 00 11 00 00 02 00 x7 00 12 70 00 06 00 00 00 00 0a 00 00 00 00 29 03 00 00 00 00");
    begins(device, 17, 2, ready);
    ends(device, 17, "03 00 00 11 00 x12");

    /* Another function, and a unit that isn't there. */
    CHECK(received(device, "05 00 00 18 04 00 00 00 00 02 00 x6", &tag) == 0);
    ends(device, 24, "04 00 00 18 00 00 00 04");
    CHECK(received(device, "05 00 00 18 08 00 00 00 00 03 00 x6", &tag) == 0);
    ends(device, 24, "04 00 00 18 00 00 00 09");
    uas_device_free(device);
}

static void device_refuses(void)
{
    uint8_t data[1024], bytes[112];
    uint16_t tag = 7;
    uint32_t length = 7777;
    bool good = true;
    uas_device *device = new_device(1, 10);

    /* Overlapped tags: nothing changes, the tag of the caller neither. */
    begins(device, 18, 0, (struct uas_operation){ .opcode = UAS_READ_10, .count = 2 });
    CHECK(received(device, "01 00 00 12 00 x28", &tag) == UAS_DEVICE_OVERLAP);
    CHECK(received(device, "05 00 00 12 08 00 x11", &tag) == UAS_DEVICE_OVERLAP);
    CHECK(tag == 7);
    is_at(device, 18, UAS_GIVES, 1024);
    CHECK(uas_device_status(device, 18, bytes, sizeof bytes, &length) == UAS_DEVICE_PHASE);
    CHECK(uas_device_sent(device, 18) == UAS_DEVICE_PHASE);
    CHECK(uas_device_take(device, 18, data, 1024, &good) == UAS_DEVICE_PHASE);
    memset(data, 0xee, sizeof data);
    CHECK(uas_device_give(device, 18, data, 1023, &good) == UAS_DEVICE_LENGTH);
    CHECK(uas_device_give(device, 18, data, 0, &good) == UAS_DEVICE_LENGTH);
    CHECK(uas_device_give(device, 17, data, 1024, &good) == UAS_DEVICE_PHASE);
    CHECK(all_are(data, sizeof data, 0xee));
    gives(device, 18, data, 1024);
    memset(bytes, 0xee, sizeof bytes);
    CHECK(uas_device_status(device, 18, bytes, 15, &length) == UAS_DEVICE_LENGTH && length == 7777);
    CHECK(all_are(bytes, sizeof bytes, 0xee));
    CHECK(uas_device_status(device, 18, bytes, 16, &length) == 0 && length == 16);
    ends(device, 18, "03 00 00 12 00 x12");
    CHECK(uas_device_sent(device, 18) == UAS_DEVICE_PHASE);

    /* Bytes that are no unit: 31 of a Command are answered on their tag, the rest is dropped. */
    CHECK(received(device, "01 00 00 12 00 x27", &tag) == 0 && tag == 18);
    CHECK(received(device, "01 00 00 12 00 x27", &tag) == 0 && tag == 0);
    ends(device, 18, "04 00 00 12 00 00 00 02");
    tag = 7;
    CHECK(received(device, "", &tag) == 0 && tag == 0);
    tag = 7;
    CHECK(uas_device_receive(device, NULL, 0, &tag) == 0 && tag == 0);
    CHECK(uas_device_blocks(device, 0, 1, NULL, 0) == 0);
    CHECK(received(device, "01 00 00", &tag) == 0 && tag == 0);
    CHECK(received(device, "01 00 00 00 00 x28", &tag) == 0 && tag == 0);
    CHECK(received(device, "01 00 00 f9 00 x28", &tag) == 0 && tag == 0);
    CHECK(received(device, "03 00 00 01 00 x12", &tag) == 0 && tag == 0);
    CHECK(received(device, "04 00 00 01 00 x4", &tag) == 0 && tag == 0);
    is_at(device, 1, UAS_ABSENT, 0);

    /* Blocks that aren't there. */
    memset(data, 0xee, sizeof data);
    CHECK(uas_device_blocks(device, 0, 9, data, 1024) == UAS_DEVICE_RANGE);
    CHECK(uas_device_medium(device, 0, 11, data, 0) == UAS_DEVICE_RANGE);
    CHECK(uas_device_blocks(device, 0, 0xffffffff, data, 512) == UAS_DEVICE_RANGE);
    CHECK(uas_device_blocks(device, 0, 0, data, 511) == UAS_DEVICE_LENGTH);
    CHECK(uas_device_medium(device, 1, 0, data, 512) == UAS_DEVICE_UNIT);
    CHECK(all_are(data, sizeof data, 0xee));
    CHECK(uas_device_blocks(device, 0, 10, data, 0) == 0);
    CHECK(uas_device_blocks(device, 0, 9, data, 512) == 0 && all_are(data, 512, 0));

    struct uas_device_door door;
    memset(&door, 0xee, sizeof door);
    door.call = 0;
    CHECK(uas_device_call(device, &door, data, 0) == UAS_DEVICE_CALL);
    door.call = 12;
    CHECK(uas_device_call(device, &door, data, 0) == UAS_DEVICE_CALL);
    door.call = 0xee;
    CHECK(all_are((const uint8_t *)&door, sizeof door, 0xee));
    uas_device_free(device);
}

/* ---- What handles are opened with ---- */

enum { IMAGE_BLOCKS = 24 + 3 };

/* Two logical units, of 24 and of 3 blocks: all bytes of block k of the first are k + 1, of the second 101 + k. */
static const uint32_t image_blocks[2] = { 24, 3 };

static const uint8_t *two_images(void)
{
    static uint8_t image[512 * IMAGE_BLOCKS];
    for (size_t i = 0; i < IMAGE_BLOCKS; i++)
        memset(image + 512 * i, (int)(i < 24 ? i + 1 : 101 + i - 24), 512);
    return image;
}

/* Blocks 3 and 17 of logical unit 0 and block 2 of logical unit 1 are bad; one is named twice. */
static const struct uas_bad_block three_bad[4] = { { 0, 17 }, { 1, 2 }, { 0, 3 }, { 0, 17 } };

static uas_device *opened_device(void)
{
    uas_device *device = NULL;
    if (uas_device_open(image_blocks, 2, two_images(), 512 * IMAGE_BLOCKS, three_bad, 4, &device) != 0 || device == NULL) {
        fprintf(stderr, "no device\n");
        exit(2);
    }
    return device;
}

/* The open of each handle with this answers the fault, and then the pointer is as it was. */
static void opens(const uint32_t *blocks, size_t units, size_t length, const struct uas_bad_block *bad, size_t bads, uint8_t fault)
{
    uas_device *device = NULL;
    uas_controller *controller = NULL;
    uas_bus *bus = NULL;
    CHECK(uas_device_open(blocks, units, two_images(), length, bad, bads, &device) == fault && (device != NULL) == (fault == UAS_OK));
    CHECK(uas_controller_open(blocks, units, two_images(), length, bad, bads, &controller) == fault && (controller != NULL) == (fault == UAS_OK));
    CHECK(uas_bus_open(blocks, units, two_images(), length, bad, bads, NULL, &bus) == fault && (bus != NULL) == (fault == UAS_OK));
    uas_device_free(device);
    uas_controller_free(controller);
    uas_bus_free(bus);
}

static void open_faults(void)
{
    static const uint32_t none[2] = { 24, 0 }, many[2] = { 65537, 3 };
    static const struct uas_bad_block beyond_unit = { 2, 0 }, beyond_blocks = { 1, 3 }, far = { 0xffffffff, 0xffffffff };
    const size_t all = 512 * IMAGE_BLOCKS;
    uint32_t ones[32];
    for (int i = 0; i < 32; i++)
        ones[i] = 1;
    opens(image_blocks, 0, 0, three_bad, 0, UAS_UNITS);
    opens(ones, 32, 32 * 512, three_bad, 0, UAS_UNITS);
    opens(none, 2, 24 * 512, three_bad, 0, UAS_BLOCKS);
    opens(many, 2, 512, three_bad, 0, UAS_BLOCKS);
    opens(image_blocks, 2, all - 1, three_bad, 0, UAS_IMAGE);
    opens(image_blocks, 2, all - 512, three_bad, 0, UAS_IMAGE);
    opens(image_blocks, 2, 1, three_bad, 0, UAS_IMAGE);
    opens(image_blocks, 1, all, three_bad, 0, UAS_IMAGE);
    opens(image_blocks, 2, all, &beyond_unit, 1, UAS_BAD_BLOCK);
    opens(image_blocks, 2, all, &beyond_blocks, 1, UAS_BAD_BLOCK);
    opens(image_blocks, 2, 0, &far, 1, UAS_BAD_BLOCK);
    opens(image_blocks, 1, 0, three_bad, 2, UAS_BAD_BLOCK);
    /* The first that holds. */
    opens(none, 0, 1, &far, 1, UAS_UNITS);
    opens(none, 2, 1, &far, 1, UAS_BLOCKS);
    opens(image_blocks, 2, 1, &far, 1, UAS_IMAGE);
    opens(image_blocks, 2, all, three_bad, 4, UAS_OK);
    opens(image_blocks, 2, 0, three_bad, 0, UAS_OK);
    opens(image_blocks, 1, 24 * 512, three_bad, 1, UAS_OK);
    uas_device_free(NULL);
    uas_controller_free(NULL);
    uas_driver_free(NULL);
    uas_bus_free(NULL);
}

/* Images are blocks and medium; a bad block ends a READ with 3/11/00 and a WRITE with 3/0c/00, and the chunks before it stand. */
static void device_of_images(void)
{
    static uint8_t data[24 * 512];
    const uint8_t *image = two_images();
    bool good = true;
    uas_device *device = opened_device();
    CHECK(uas_device_blocks(device, 0, 0, data, 24 * 512) == 0 && memcmp(data, image, 24 * 512) == 0);
    CHECK(uas_device_medium(device, 0, 0, data, 24 * 512) == 0 && memcmp(data, image, 24 * 512) == 0);
    CHECK(uas_device_blocks(device, 1, 1, data, 1024) == 0 && all_are(data, 512, 102) && all_are(data + 512, 512, 103));
    CHECK(uas_device_medium(device, 1, 0, data, 512) == 0 && all_are(data, 512, 101));

    /* READ of 16 blocks from 4 on: blocks 4 to 11, then 12 to 19, of which 17 is bad. */
    begins(device, 1, 0, (struct uas_operation){ .opcode = UAS_READ_10, .lba = 4, .count = 16 });
    gives(device, 1, data, 4096);
    CHECK(all_are(data, 512, 5) && all_are(data + 7 * 512, 512, 12));
    memset(data, 0xee, sizeof data);
    is_at(device, 1, UAS_GIVES, 4096);
    CHECK(uas_device_give(device, 1, data, 4096, &good) == 0 && !good && all_are(data, 4096, 0xee));
    ends(device, 1, "03 00 00 01 00 00 02 00 x7 00 12 70 00 03 00 00 00 00 0a 00 00 00 00 11 00 00 00 00 00");

    /* WRITE of the same with FUA: the first chunk stands, in both. */
    memset(data, 0xaa, sizeof data);
    begins(device, 1, 0, (struct uas_operation){ .opcode = UAS_WRITE_10, .lba = 4, .count = 16, .fua = 1 });
    takes(device, 1, data, 4096);
    good = true;
    CHECK(uas_device_take(device, 1, data, 4096, &good) == 0 && !good);
    ends(device, 1, "03 00 00 01 00 00 02 00 x7 00 12 70 00 03 00 00 00 00 0a 00 00 00 00 0c 00 00 00 00 00");
    CHECK(uas_device_blocks(device, 0, 0, data, 24 * 512) == 0);
    CHECK(memcmp(data, image, 4 * 512) == 0 && all_are(data + 4 * 512, 8 * 512, 0xaa) && memcmp(data + 12 * 512, image + 12 * 512, 12 * 512) == 0);
    CHECK(uas_device_medium(device, 0, 0, data, 24 * 512) == 0);
    CHECK(memcmp(data, image, 4 * 512) == 0 && all_are(data + 4 * 512, 8 * 512, 0xaa) && memcmp(data + 12 * 512, image + 12 * 512, 12 * 512) == 0);

    /* The bad blocks of the other logical unit are its own; beside a bad block blocks are good, and so is SYNCHRONIZE CACHE over one. */
    begins(device, 1, 1, (struct uas_operation){ .opcode = UAS_READ_16, .lba = 0, .count = 2 });
    gives(device, 1, data, 1024);
    ends(device, 1, "03 00 00 01 00 x12");
    begins(device, 1, 1, (struct uas_operation){ .opcode = UAS_READ_16, .lba = 2, .count = 1 });
    CHECK(uas_device_give(device, 1, data, 512, &good) == 0 && !good);
    ends(device, 1, "03 00 00 01 00 00 02 00 x7 00 12 70 00 03 00 00 00 00 0a 00 00 00 00 11 00 00 00 00 00");
    begins(device, 1, 0, (struct uas_operation){ .opcode = UAS_READ_10, .lba = 2, .count = 1 });
    gives(device, 1, data, 512);
    CHECK(all_are(data, 512, 3));
    ends(device, 1, "03 00 00 01 00 x12");
    begins(device, 1, 0, (struct uas_operation){ .opcode = UAS_SYNCHRONIZE_CACHE_10 });
    ends(device, 1, "03 00 00 01 00 x12");
    uas_device_free(device);
}

/* ---- The device's tasks ---- */

/* The next task above a tag is that of `next`; 0: there is none. */
static void next_is(uas_device *device, uint16_t tag, uint16_t next)
{
    bool there = next == 0;
    uint16_t found = tag;
    CHECK(uas_device_next(device, &found, &there) == 0);
    CHECK(there == (next != 0) && found == (next != 0 ? next : tag));
}

/* What a task management ended, told as bits. */
static void ended_is(uas_device *device, const char *unit, uint8_t fault, const char *bits)
{
    uint8_t bytes[112], ended[32];
    uint16_t tag = 7;
    size_t length = from_hex(unit, bytes, sizeof bytes);
    memset(ended, 0xee, sizeof ended);
    CHECK(uas_device_receive_ended(device, bytes, length, &tag, ended) == fault);
    CHECK_BYTES(ended, sizeof ended, bits);
    CHECK(fault == UAS_OK || tag == 7);
}

static void device_tells_tasks(void)
{
    static const uint16_t tags[] = { 1, 15, 16, 129, 240 };
    uas_device *device = new_device(2, 100);
    next_is(device, 0, 0);
    next_is(device, 65535, 0);
    for (size_t i = 0; i < 5; i++)
        begins(device, tags[i], tags[i] == 129, (struct uas_operation){ .opcode = UAS_READ_10, .count = 1 });
    next_is(device, 0, 1);
    next_is(device, 1, 15);
    next_is(device, 15, 16);
    next_is(device, 16, 129);
    next_is(device, 129, 240);
    next_is(device, 240, 0);
    next_is(device, 65535, 0);
    /* A tag in use is refused, and `ended` is as it was; a command, a query and bytes that are no information unit end nothing. */
    ended_is(device, "01 00 00 0f 00 x28", UAS_DEVICE_OVERLAP, "ee x32");
    ended_is(device, "01 00 00 02 00 x28", UAS_OK, "00 x32");
    ended_is(device, "05 00 00 03 80 00 00 10 00 x8", UAS_OK, "00 x32");
    ended_is(device, "01 00 00 04 00 x27", UAS_OK, "00 x32");
    ended_is(device, "", UAS_OK, "00 x32");
    /* ABORT TASK of tag 16 by tag 5, and of one that isn't there by tag 6; LOGICAL UNIT RESET of logical unit 0 by tag 17. */
    ended_is(device, "05 00 00 05 01 00 00 10 00 x8", UAS_OK, "00 x2 01 00 x29");
    ended_is(device, "05 00 00 06 01 00 00 64 00 x8", UAS_OK, "00 x32");
    next_is(device, 15, 129);
    ended_is(device, "05 00 00 11 08 00 x11", UAS_OK, "06 80 00 x28 01 00");
    next_is(device, 0, 3);
    next_is(device, 6, 17);
    next_is(device, 17, 129);
    next_is(device, 129, 0);
    uas_device_free(device);
}

/* A reset leaves no task; each logical unit tells it once, and keeps its blocks. */
static void device_resets(void)
{
    static uint8_t data[4096];
    uas_device *device = new_device(2, 100);
    uint16_t tag = 7;
    memset(data, 0xaa, sizeof data);
    begins(device, 1, 1, (struct uas_operation){ .opcode = UAS_WRITE_10, .lba = 3, .count = 16, .fua = 1 });
    takes(device, 1, data, 4096);
    begins(device, 240, 0, (struct uas_operation){ .opcode = UAS_READ_10, .count = 1 });
    begins(device, 100, 5, ready);
    CHECK(received(device, "05 00 00 18 01 00 00 12 00 x8", &tag) == 0 && tag == 24);
    CHECK(uas_device_reset(device) == 0);
    next_is(device, 0, 0);
    is_at(device, 1, UAS_ABSENT, 0);
    is_at(device, 24, UAS_ABSENT, 0);
    CHECK(uas_device_blocks(device, 1, 3, data, 512) == 0 && all_are(data, 512, 0xaa));
    CHECK(uas_device_medium(device, 1, 10, data, 1024) == 0 && all_are(data, 512, 0xaa) && all_are(data + 512, 512, 0));
    begins(device, 1, 0, (struct uas_operation){ .opcode = UAS_INQUIRY, .count = 5 });
    gives(device, 1, data, 5);
    ends(device, 1, "03 00 00 01 00 x12");
    for (uint8_t unit = 0; unit < 2; unit++) {
        begins(device, 1, unit, ready);
        ends(device, 1, "03 00 00 01 00 00 02 00 x7 00 12 70 00 06 00 00 00 00 0a 00 00 00 00 29 03 00 00 00 00");
        begins(device, 1, unit, ready);
        ends(device, 1, "03 00 00 01 00 x12");
    }
    /* A second reset before anything was told is told once too. */
    CHECK(uas_device_reset(device) == 0 && uas_device_reset(device) == 0);
    begins(device, 1, 0, (struct uas_operation){ .opcode = UAS_READ_10, .lba = 200, .count = 1 });
    ends(device, 1, "03 00 00 01 00 00 02 00 x7 00 12 70 00 06 00 00 00 00 0a 00 00 00 00 29 03 00 00 00 00");
    begins(device, 1, 0, ready);
    ends(device, 1, "03 00 00 01 00 x12");
    uas_device_free(device);
}

/* ---- The controller and its disk ---- */

static uas_controller *new_controller(size_t units, uint32_t blocks)
{
    uint32_t all[UAS_MOST_UNITS];
    uas_controller *controller = NULL;
    for (size_t i = 0; i < units; i++)
        all[i] = blocks;
    if (uas_controller_new(all, units, &controller) != 0 || controller == NULL) {
        fprintf(stderr, "no controller\n");
        exit(2);
    }
    return controller;
}

/* Puts 16 bytes on a ring, which then stand at this address. */
static void puts_at(uas_controller *controller, uint8_t ring, uint16_t stream, uint64_t address, const char *text)
{
    uint8_t bytes[16];
    uint64_t got = 7777;
    CHECK(from_hex(text, bytes, sizeof bytes) == 16);
    CHECK(uas_controller_put_raw(controller, ring, stream, bytes, &got) == 0);
    if (!CHECK(got == address))
        fprintf(stderr, "    at %llx\n", (unsigned long long)got);
}

/* The step acts, on this tag. */
static void step_acts(uas_controller *controller, uint8_t step, uint16_t tag, uint16_t on)
{
    bool acted = false;
    CHECK(uas_controller_step(controller, step, &tag, &acted) == 0);
    CHECK(acted && tag == on);
}

static void step_is_idle(uas_controller *controller, uint8_t step, uint16_t tag)
{
    struct uas_controller_door door, before;
    memset(&door, 0xee, sizeof door);
    door.call = UAS_CONTROLLER_CALL_STEP;
    door.step = step;
    door.tag = tag;
    before = door;
    before.acted = 0;
    CHECK(uas_controller_call(controller, &door, no_data, 0) == 0);
    CHECK(memcmp(&door, &before, sizeof door) == 0);
}

/* The oldest event. */
static void event_is(uas_controller *controller, uint8_t type, uint64_t address, uint32_t residual, uint8_t code, uint8_t endpoint)
{
    struct uas_controller_door event;
    memset(&event, 0xee, sizeof event);
    CHECK(uas_controller_event(controller, &event) == 0);
    CHECK(event.acted == 1 && event.type == type && event.slot == 1 && event.endpoint == endpoint);
    if (!CHECK(event.address == address && event.value == residual && event.code == code))
        fprintf(stderr, "    code %u at %llx, residual %u\n", event.code, (unsigned long long)event.address, event.value);
}

static void transfer_is(uas_controller *controller, uint64_t address, uint32_t residual, uint8_t code, uint8_t endpoint)
{
    event_is(controller, UAS_TRB_TRANSFER_EVENT, address, residual, code, endpoint);
}

/* A command of the controller's own ring is executed with this code. */
static void command_is(uas_controller *controller, uint64_t address, uint8_t code, const char *text)
{
    puts_at(controller, UAS_RING_COMMANDS, 0, address, text);
    step_acts(controller, UAS_STEP_ENGINE, 7, 0);
    event_is(controller, UAS_TRB_COMMAND_EVENT, address, 0, code, 0);
}

static void no_event(uas_controller *controller)
{
    struct uas_controller_door door, before;
    memset(&door, 0xee, sizeof door);
    door.call = UAS_CONTROLLER_CALL_EVENT;
    before = door;
    before.acted = 0;
    CHECK(uas_controller_call(controller, &door, no_data, 0) == 0);
    CHECK(memcmp(&door, &before, sizeof door) == 0);
}

static void memory_gets(uas_controller *controller, uint64_t address, const char *text)
{
    uint8_t bytes[112];
    size_t length = from_hex(text, bytes, sizeof bytes);
    CHECK(uas_controller_write(controller, address, bytes, length) == 0);
}

static void memory_is(uas_controller *controller, uint64_t address, const char *text)
{
    uint8_t bytes[112], wanted[112];
    size_t length = from_hex(text, wanted, sizeof wanted);
    memset(bytes, 0xee, sizeof bytes);
    CHECK(uas_controller_read(controller, address, bytes, length) == 0);
    CHECK_BYTES(bytes, length, text);
    CHECK(all_are(bytes + length, sizeof bytes - length, 0xee));
}

static void context_is(uas_controller *controller, uint8_t ring, uint16_t stream, const char *text)
{
    uint8_t bytes[16];
    memset(bytes, 0xee, sizeof bytes);
    CHECK(uas_controller_context(controller, ring, stream, bytes) == 0);
    CHECK_BYTES(bytes, sizeof bytes, text);
}

static void reclaims(uas_controller *controller, uint8_t ring, uint16_t stream, uint64_t address)
{
    CHECK(uas_controller_reclaim(controller, ring, stream, address) == 0);
    CHECK(uas_controller_reclaim(controller, ring, stream, address) == UAS_CONTROLLER_NOT_CONSUMED);
}

/* 16 zeros on data-in, stream 18. A stream is served once its doorbell was rung, and no other value rings it. */
static void controller_steps_over(void)
{
    static const uint32_t others[] = { 0, 0x00120002, 0x00120004, 0x00120006, 0x00120105, 0x00128005, 0x00000005, 0x00130005, 0x00f90005, 0xffff0005 };
    uas_controller *controller = new_controller(1, 100);
    puts_at(controller, UAS_RING_DATA_IN, 18, 0x43012000, "00 x16");
    context_is(controller, UAS_RING_DATA_IN, 18, "03 20 01 43 00 x12");
    for (size_t i = 0; i < sizeof others / sizeof others[0]; i++) {
        CHECK(uas_controller_doorbell(controller, others[i]) == 0);
        step_is_idle(controller, UAS_STEP_DATA, 18);
    }
    CHECK(uas_controller_doorbell(controller, 0x00120005) == 0);
    step_is_idle(controller, UAS_STEP_DATA, 17);
    step_is_idle(controller, UAS_STEP_STATUS, 18);
    no_event(controller);
    step_acts(controller, UAS_STEP_DATA, 18, 18);
    context_is(controller, UAS_RING_DATA_IN, 18, "13 20 01 43 00 x12");
    transfer_is(controller, 0x43012000, 0, 5, 5);
    no_event(controller);
    step_is_idle(controller, UAS_STEP_DATA, 18);
    reclaims(controller, UAS_RING_DATA_IN, 18, 0x43012000);
    uas_controller_free(controller);
}

/* On data-in, stream 18: what a step doesn't carry out, and what waits for the device. */
static void controller_tells_own(void)
{
    uas_controller *controller = new_controller(1, 100);
    CHECK(uas_controller_doorbell(controller, 0x00120005) == 0);
    /* A Link, ENT, IDT, a buffer that isn't lent. */
    puts_at(controller, UAS_RING_DATA_IN, 18, 0x43012000, "00 20 01 43 00 x8 03 18 00 00");
    puts_at(controller, UAS_RING_DATA_IN, 18, 0x43012010, "00 12 00 20 00 00 00 00 08 00 00 00 03 04 00 00");
    puts_at(controller, UAS_RING_DATA_IN, 18, 0x43012020, "00 12 00 20 00 00 00 00 08 00 00 00 41 04 00 00");
    puts_at(controller, UAS_RING_DATA_IN, 18, 0x43012030, "00 00 12 00 01 00 00 00 01 00 00 00 01 04 00 00");
    for (uint64_t place = 0; place < 4; place++) {
        step_acts(controller, UAS_STEP_DATA, 18, 18);
        transfer_is(controller, 0x43012000 + 16 * place, 0, 5, 5);
    }
    /* 8 bytes of the status buffer; none at all, at an address where nothing is. */
    puts_at(controller, UAS_RING_DATA_IN, 18, 0x43012040, "00 12 00 20 00 00 00 00 08 00 00 00 01 04 00 00");
    step_is_idle(controller, UAS_STEP_DATA, 18);
    puts_at(controller, UAS_RING_DATA_IN, 17, 0x43011000, "ff x8 00 x5 04 00 00");
    CHECK(uas_controller_doorbell(controller, 0x00110005) == 0);
    step_is_idle(controller, UAS_STEP_DATA, 17);
    no_event(controller);
    uas_controller_free(controller);
}

/* WRITE(10) of 9 blocks at 3, tag 1: two TRBs, of which the first has CH. Block 3 + i gets bytes i + 1. */
static void controller_writes(uas_controller *controller)
{
    static uint8_t data[9 * 512];
    uint32_t length = 0;
    for (size_t i = 0; i < sizeof data; i++)
        data[i] = (uint8_t)(i / 512 + 1);
    memory_gets(controller, 0x10000100, "01 00 00 01 00 x12 2a 00 00 00 00 03 00 00 09 00 x7");
    CHECK(uas_controller_lend(controller, 1, data, sizeof data) == 0);
    puts_at(controller, UAS_RING_DATA_OUT, 1, 0x44001000, "00 00 01 00 01 00 00 00 00 10 02 00 11 04 00 00");
    puts_at(controller, UAS_RING_DATA_OUT, 1, 0x44001010, "00 10 01 00 01 00 00 00 00 02 00 00 21 04 00 00");
    puts_at(controller, UAS_RING_STATUS, 1, 0x42001000, "00 01 00 20 00 00 00 00 70 00 00 00 25 04 00 00");
    puts_at(controller, UAS_RING_COMMAND_PIPE, 0, 0x41000000, "00 01 00 10 00 00 00 00 20 00 00 00 21 04 00 00");
    CHECK(uas_controller_doorbell(controller, 0x00010004) == 0);
    CHECK(uas_controller_doorbell(controller, 0x00010003) == 0);
    step_is_idle(controller, UAS_STEP_DATA, 1);
    step_acts(controller, UAS_STEP_COMMAND, 7, 1);
    step_is_idle(controller, UAS_STEP_STATUS, 1);
    transfer_is(controller, 0x41000000, 0, 1, 2);
    step_acts(controller, UAS_STEP_DATA, 1, 1);
    no_event(controller);
    step_acts(controller, UAS_STEP_DATA, 1, 1);
    step_is_idle(controller, UAS_STEP_DATA, 1);
    step_acts(controller, UAS_STEP_STATUS, 1, 1);
    transfer_is(controller, 0x44001010, 0, 1, 4);
    transfer_is(controller, 0x42001000, 96, 13, 3);
    memory_is(controller, 0x20000100, "03 00 00 01 00 x108");
    reclaims(controller, UAS_RING_DATA_OUT, 1, 0x44001010);
    memset(data, 0xee, sizeof data);
    CHECK(uas_controller_take_back(controller, 1, data, sizeof data, &length) == 0 && length == sizeof data);
    CHECK(all_are(data, 512, 1) && all_are(data + 8 * 512, 512, 9));
}

/* READ(10) of 8 blocks at 4, tag 18, after that. */
static void controller_reads(void)
{
    static uint8_t data[4096 + 1];
    uint32_t length = 0;
    uas_controller *controller = new_controller(1, 100);
    controller_writes(controller);
    memory_gets(controller, 0x10001200, "01 00 00 12 00 x12 28 00 00 00 00 04 00 00 08 00 x7");
    memset(data, 0x77, sizeof data);
    CHECK(uas_controller_lend(controller, 18, data, 4096) == 0);
    puts_at(controller, UAS_RING_DATA_IN, 18, 0x43012000, "00 00 12 00 01 00 00 00 00 10 00 00 21 04 00 00");
    puts_at(controller, UAS_RING_STATUS, 18, 0x42012000, "00 12 00 20 00 00 00 00 70 00 00 00 25 04 00 00");
    puts_at(controller, UAS_RING_COMMAND_PIPE, 0, 0x41000010, "00 12 00 10 00 00 00 00 20 00 00 00 21 04 00 00");
    CHECK(uas_controller_doorbell(controller, 0x00120005) == 0);
    CHECK(uas_controller_doorbell(controller, 0x00120003) == 0);
    step_acts(controller, UAS_STEP_COMMAND, 7, 18);
    step_acts(controller, UAS_STEP_DATA, 18, 18);
    step_is_idle(controller, UAS_STEP_DATA, 18);
    step_acts(controller, UAS_STEP_STATUS, 18, 18);
    step_is_idle(controller, UAS_STEP_STATUS, 18);
    transfer_is(controller, 0x41000010, 0, 1, 2);
    transfer_is(controller, 0x43012000, 0, 1, 5);
    transfer_is(controller, 0x42012000, 96, 13, 3);
    no_event(controller);
    memory_is(controller, 0x20001200, "03 00 00 12 00 x108");
    memory_is(controller, 0x100120ffe, "09 09");
    reclaims(controller, UAS_RING_COMMAND_PIPE, 0, 0x41000010);
    CHECK(uas_controller_take_back(controller, 18, data, sizeof data, &length) == 0 && length == 4096);
    for (uint8_t block = 0; block < 8; block++)
        CHECK(all_are(data + 512 * block, 512, (uint8_t)(block + 2)));
    CHECK(data[4096] == 0x77);
    CHECK(uas_controller_blocks(controller, 0, 11, data, 1024) == 0 && all_are(data, 512, 9) && all_are(data + 512, 512, 0));
    CHECK(uas_controller_medium(controller, 0, 11, data, 512) == 0 && all_are(data, 512, 0));
    uas_controller_free(controller);
}

/* On tag 2, whose command buffer has a READ(10) of 8 blocks: command TRBs of another length, and the answer to bytes that are no unit. */
static void controller_shorter_units(uas_controller *controller)
{
    /* 33 bytes of a window; 31 of the Command unit, which are none; 3, which name no tag. */
    puts_at(controller, UAS_RING_COMMAND_PIPE, 0, 0x41000000, "00 00 02 00 01 00 00 00 21 00 00 00 21 04 00 00");
    puts_at(controller, UAS_RING_COMMAND_PIPE, 0, 0x41000010, "00 02 00 10 00 00 00 00 1f 00 00 00 21 04 00 00");
    puts_at(controller, UAS_RING_COMMAND_PIPE, 0, 0x41000020, "00 02 00 10 00 00 00 00 03 00 00 00 21 04 00 00");
    step_acts(controller, UAS_STEP_COMMAND, 7, 0);
    step_acts(controller, UAS_STEP_COMMAND, 7, 2);
    step_acts(controller, UAS_STEP_COMMAND, 7, 0);
    transfer_is(controller, 0x41000000, 0, 5, 2);
    transfer_is(controller, 0x41000010, 0, 1, 2);
    transfer_is(controller, 0x41000020, 0, 1, 2);
    /* The Response unit has 8 bytes: a status TRB of 7 is stepped over; one of 8 takes it, here at the buffer's end. */
    puts_at(controller, UAS_RING_STATUS, 2, 0x42002000, "00 02 00 20 00 00 00 00 07 00 00 00 25 04 00 00");
    puts_at(controller, UAS_RING_STATUS, 2, 0x42002010, "68 02 00 20 00 00 00 00 08 00 00 00 25 04 00 00");
    CHECK(uas_controller_doorbell(controller, 0x00020003) == 0);
    step_acts(controller, UAS_STEP_STATUS, 2, 2);
    step_acts(controller, UAS_STEP_STATUS, 2, 2);
    transfer_is(controller, 0x42002000, 0, 5, 3);
    transfer_is(controller, 0x42002010, 104, 13, 3);
    memory_is(controller, 0x20000200, "00 x104 04 00 00 02 00 00 00 02");
}

/* TRBs of another length than what is to be moved. */
static void controller_lengths(void)
{
    static const uint8_t window[4097];
    uas_controller *controller = new_controller(1, 100);
    memory_gets(controller, 0x10000200, "01 00 00 02 00 x12 28 00 00 00 00 00 00 00 08 00 x7");
    CHECK(uas_controller_lend(controller, 2, window, sizeof window) == 0);
    controller_shorter_units(controller);
    /* The READ gives 4096 bytes: data-in TRBs of 4095 and of 4097 are stepped over, then foreign bytes on data-out, then it gives. */
    puts_at(controller, UAS_RING_COMMAND_PIPE, 0, 0x41000030, "00 02 00 10 00 00 00 00 20 00 00 00 21 04 00 00");
    puts_at(controller, UAS_RING_DATA_IN, 2, 0x43002000, "00 00 02 00 01 00 00 00 ff 0f 00 00 21 04 00 00");
    puts_at(controller, UAS_RING_DATA_IN, 2, 0x43002010, "00 00 02 00 01 00 00 00 01 10 00 00 21 04 00 00");
    puts_at(controller, UAS_RING_DATA_IN, 2, 0x43002020, "01 00 02 00 01 00 00 00 00 10 00 00 21 04 00 00");
    puts_at(controller, UAS_RING_DATA_OUT, 2, 0x44002000, "00 x16");
    CHECK(uas_controller_doorbell(controller, 0x00020005) == 0);
    CHECK(uas_controller_doorbell(controller, 0x00020004) == 0);
    step_acts(controller, UAS_STEP_COMMAND, 7, 2);
    for (int i = 0; i < 4; i++)
        step_acts(controller, UAS_STEP_DATA, 2, 2);
    transfer_is(controller, 0x41000030, 0, 1, 2);
    transfer_is(controller, 0x43002000, 0, 5, 5);
    transfer_is(controller, 0x43002010, 0, 5, 5);
    transfer_is(controller, 0x44002000, 0, 5, 4);
    transfer_is(controller, 0x43002020, 0, 1, 5);
    /* The tag has a task: its unit comes to nothing. */
    puts_at(controller, UAS_RING_COMMAND_PIPE, 0, 0x41000040, "00 02 00 10 00 00 00 00 20 00 00 00 21 04 00 00");
    step_acts(controller, UAS_STEP_COMMAND, 7, 0);
    transfer_is(controller, 0x41000040, 0, 1, 2);
    no_event(controller);
    uas_controller_free(controller);
}

/* Commands on the stopped data-in pipe, where stream 18 has an item at place 0 that was taken and two behind it. */
static void controller_moves_dequeue(uas_controller *controller)
{
    command_is(controller, 0x50000020, 19, "00 x13 3c 05 01"); /* it is stopped */
    command_is(controller, 0x50000030, 5, "22 20 01 43 00 x6 12 00 00 40 05 01"); /* the other cycle state */
    command_is(controller, 0x50000040, 5, "03 20 01 43 00 x6 12 00 00 40 05 01"); /* place 0 */
    command_is(controller, 0x50000050, 5, "43 20 01 43 00 x6 12 00 00 40 05 01"); /* place 4, behind the enqueue place */
    command_is(controller, 0x50000060, 34, "23 20 01 43 00 x6 00 00 00 40 05 01"); /* stream 0 */
    command_is(controller, 0x50000070, 34, "23 20 01 43 00 x6 00 01 00 40 05 01"); /* stream 256 */
    command_is(controller, 0x50000080, 5, "23 20 01 43 00 x6 f9 00 00 40 05 01"); /* stream 249 */
    command_is(controller, 0x50000090, 5, "23 20 01 43 00 x6 12 00 00 40 05 02"); /* slot 2 */
    command_is(controller, 0x500000a0, 5, "00 x13 3c 02 01"); /* endpoint 2 */
    context_is(controller, UAS_RING_DATA_IN, 18, "13 20 01 43 00 x12");
    command_is(controller, 0x500000b0, 1, "23 20 01 43 00 x6 12 00 00 40 05 01"); /* place 2 */
    context_is(controller, UAS_RING_DATA_IN, 18, "23 20 01 43 00 x12");
    command_is(controller, 0x500000c0, 1, "33 20 01 43 00 x6 12 00 00 40 05 01"); /* the enqueue place */
    context_is(controller, UAS_RING_DATA_IN, 18, "33 20 01 43 00 x12");
    command_is(controller, 0x500000d0, 5, "00 x16");
    /* The zeros are given back with a command behind them; the Link's place is stepped over. */
    CHECK(uas_controller_reclaim(controller, UAS_RING_COMMANDS, 0, 0x500000d0) == UAS_CONTROLLER_NOT_CONSUMED);
    reclaims(controller, UAS_RING_COMMANDS, 0, 0x500000c0);
    command_is(controller, 0x500000e0, 5, "00 x13 04 00 00"); /* a Normal TRB */
    command_is(controller, 0x50000000, 19, "00 x13 3c 05 01");
    reclaims(controller, UAS_RING_COMMANDS, 0, 0x500000e0);
    reclaims(controller, UAS_RING_DATA_IN, 18, 0x43012020);
}

/* Stop Endpoint and Set TR Dequeue Pointer. */
static void controller_stops(void)
{
    uas_controller *controller = new_controller(1, 100);
    for (uint64_t place = 0; place < 3; place++)
        puts_at(controller, UAS_RING_DATA_IN, 18, 0x43012000 + 16 * place, "00 x16");
    CHECK(uas_controller_doorbell(controller, 0x00120005) == 0);
    step_is_idle(controller, UAS_STEP_ENGINE, 0);
    step_acts(controller, UAS_STEP_DATA, 18, 18);
    transfer_is(controller, 0x43012000, 0, 5, 5);
    command_is(controller, 0x50000000, 19, "23 20 01 43 00 x6 12 00 00 40 05 01"); /* it runs */
    command_is(controller, 0x50000010, 1, "00 x13 3c 05 01");
    step_is_idle(controller, UAS_STEP_DATA, 18);
    controller_moves_dequeue(controller);
    /* A doorbell starts the endpoint; other streams of it need theirs. */
    puts_at(controller, UAS_RING_DATA_IN, 18, 0x43012030, "00 x16");
    step_is_idle(controller, UAS_STEP_DATA, 18);
    CHECK(uas_controller_doorbell(controller, 0x00110005) == 0);
    step_is_idle(controller, UAS_STEP_DATA, 18);
    CHECK(uas_controller_doorbell(controller, 0x00120005) == 0);
    step_acts(controller, UAS_STEP_DATA, 18, 18);
    transfer_is(controller, 0x43012030, 0, 5, 5);
    no_event(controller);
    uas_controller_free(controller);
}

/* Puts zeros on a ring until it has no room; how many. */
static int puts_until_full(uas_controller *controller, uint8_t ring, uint16_t stream)
{
    static const uint8_t zeros[16];
    uint64_t address;
    int count = 0;
    while (count < 1000 && uas_controller_put_raw(controller, ring, stream, zeros, &address) == 0)
        count++;
    CHECK(uas_controller_put_raw(controller, ring, stream, zeros, &address) == UAS_CONTROLLER_FULL);
    return count;
}

/* Rings have room for so many, and go round over the Link's place. */
static void controller_rings(void)
{
    uas_controller *controller = new_controller(1, 100);
    CHECK(puts_until_full(controller, UAS_RING_COMMANDS, 0) == 14);
    CHECK(puts_until_full(controller, UAS_RING_COMMAND_PIPE, 0) == 254);
    CHECK(puts_until_full(controller, UAS_RING_DATA_OUT, 248) == 18);
    context_is(controller, UAS_RING_DATA_OUT, 248, "03 80 0f 44 00 x12");
    CHECK(uas_controller_doorbell(controller, 0x00f80004) == 0);
    for (int i = 0; i < 2; i++)
        step_acts(controller, UAS_STEP_DATA, 248, 248);
    CHECK(puts_until_full(controller, UAS_RING_DATA_OUT, 248) == 0);
    reclaims(controller, UAS_RING_DATA_OUT, 248, 0x440f8010);
    puts_at(controller, UAS_RING_DATA_OUT, 248, 0x440f8120, "00 x16");
    puts_at(controller, UAS_RING_DATA_OUT, 248, 0x440f8000, "00 x16");
    for (int i = 0; i < 17; i++)
        step_acts(controller, UAS_STEP_DATA, 248, 248);
    context_is(controller, UAS_RING_DATA_OUT, 248, "02 80 0f 44 00 x12"); /* the second round: Cycle bit 0 */
    step_acts(controller, UAS_STEP_DATA, 248, 248);
    context_is(controller, UAS_RING_DATA_OUT, 248, "12 80 0f 44 00 x12");
    CHECK(uas_controller_reclaim(controller, UAS_RING_DATA_OUT, 248, 0x440f8130) == UAS_CONTROLLER_NOT_CONSUMED); /* the Link's */
    reclaims(controller, UAS_RING_DATA_OUT, 248, 0x440f8000);
    uas_controller_free(controller);
}

/* 1,023 events wait at most, and then no step is due until one is taken. */
static void controller_full_of_events(void)
{
    static const uint8_t zeros[16];
    uint64_t address = 0;
    uas_controller *controller = new_controller(1, 100);
    puts_at(controller, UAS_RING_STATUS, 1, 0x42001000, "00 x16");
    puts_at(controller, UAS_RING_COMMAND_PIPE, 0, 0x41000000, "00 x16");
    puts_at(controller, UAS_RING_COMMANDS, 0, 0x50000000, "00 x16");
    CHECK(uas_controller_doorbell(controller, 0x00010003) == 0);
    CHECK(uas_controller_doorbell(controller, 0x00f80004) == 0);
    for (int i = 0; i < 1023; i++) {
        CHECK(uas_controller_put_raw(controller, UAS_RING_DATA_OUT, 248, zeros, &address) == 0);
        step_acts(controller, UAS_STEP_DATA, 248, 248);
        CHECK(uas_controller_reclaim(controller, UAS_RING_DATA_OUT, 248, address) == 0);
    }
    CHECK(uas_controller_put_raw(controller, UAS_RING_DATA_OUT, 248, zeros, &address) == 0);
    step_is_idle(controller, UAS_STEP_COMMAND, 0);
    step_is_idle(controller, UAS_STEP_ENGINE, 0);
    step_is_idle(controller, UAS_STEP_STATUS, 1);
    step_is_idle(controller, UAS_STEP_DATA, 248);
    transfer_is(controller, 0x440f8000, 0, 5, 4);
    step_acts(controller, UAS_STEP_STATUS, 1, 1);
    step_is_idle(controller, UAS_STEP_COMMAND, 0);
    uas_controller_free(controller);
}

/* A call of this door, of which all that isn't named here is EEh; it is refused and changes neither door nor data. */
static void controller_refuses_call(uas_controller *controller, struct uas_controller_door named, size_t length, uint8_t fault)
{
    static uint8_t data[UAS_MOST_DATA_BYTES + 1];
    struct uas_controller_door door = named;
    door.acted = door.type = door.code = door.endpoint = door.slot = door.reserved[0] = door.reserved[1] = 0xee;
    named = door;
    memset(data, 0xee, sizeof data);
    if (!CHECK(uas_controller_call(controller, &door, data, length) == fault))
        fprintf(stderr, "    fault %u, call %u\n", fault, named.call);
    CHECK(memcmp(&door, &named, sizeof door) == 0);
    CHECK(all_are(data, sizeof data, 0xee));
}

#define REFUSES(fault, size, name, ...) \
    controller_refuses_call(controller, (struct uas_controller_door){ .call = UAS_CONTROLLER_CALL_##name, __VA_ARGS__ }, size, UAS_CONTROLLER_##fault)

static void controller_refuses_rings(uas_controller *controller)
{
    REFUSES(LENGTH, 15, PUT, .ring = 0);
    REFUSES(LENGTH, 17, PUT, .ring = UAS_RING_COMMAND_PIPE);
    REFUSES(RING, 16, PUT, .ring = 0);
    REFUSES(RING, 16, PUT, .ring = 6);
    REFUSES(RING, 16, PUT, .ring = UAS_RING_STATUS, .stream = 0);
    REFUSES(RING, 16, PUT, .ring = UAS_RING_DATA_IN, .stream = 249);
    REFUSES(RING, 16, PUT, .ring = UAS_RING_DATA_OUT, .stream = 65535);
    REFUSES(RING, 16, PUT, .ring = UAS_RING_COMMAND_PIPE, .stream = 1);
    REFUSES(RING, 16, PUT, .ring = UAS_RING_COMMANDS, .stream = 1);
    REFUSES(RING, 0, RECLAIM, .ring = UAS_RING_COMMANDS, .stream = 1, .address = 0x50000000);
    REFUSES(RING, 0, RECLAIM, .ring = UAS_RING_STATUS, .stream = 249, .address = 0x420f9000);
    REFUSES(NOT_CONSUMED, 0, RECLAIM, .ring = UAS_RING_STATUS, .stream = 1, .address = 0x42001000);
    REFUSES(LENGTH, 15, CONTEXT, .ring = UAS_RING_STATUS, .stream = 1);
    REFUSES(LENGTH, 17, CONTEXT, .ring = 0);
    REFUSES(RING, 16, CONTEXT, .ring = UAS_RING_COMMAND_PIPE);
    REFUSES(RING, 16, CONTEXT, .ring = UAS_RING_COMMANDS);
    REFUSES(RING, 16, CONTEXT, .ring = UAS_RING_DATA_OUT, .stream = 0);
    REFUSES(RING, 16, CONTEXT, .ring = UAS_RING_DATA_OUT, .stream = 249);
    REFUSES(STEP, 0, STEP, .step = 0, .tag = 1);
    REFUSES(STEP, 0, STEP, .step = UAS_STEP_EVENT, .tag = 1);
    REFUSES(STEP, 0, STEP, .step = UAS_STEP_RETIRE, .tag = 1);
    REFUSES(STEP, 0, STEP, .step = 255, .tag = 1);
    step_is_idle(controller, UAS_STEP_DATA, 0);
    step_is_idle(controller, UAS_STEP_DATA, 249);
    step_is_idle(controller, UAS_STEP_STATUS, 65535);
}

static void controller_refuses_addresses(uas_controller *controller)
{
    REFUSES(ADDRESS, 1, WRITE, .address = 0x10000000);
    REFUSES(ADDRESS, 33, WRITE, .address = 0x10000100);
    REFUSES(ADDRESS, 1, WRITE, .address = 0x10000120);
    REFUSES(ADDRESS, 32, WRITE, .address = 0x100000ff);
    REFUSES(ADDRESS, 1, WRITE, .address = 0x1000f900);
    REFUSES(ADDRESS, 113, READ, .address = 0x20000100);
    REFUSES(ADDRESS, 2, READ, .address = 0x2000f86f);
    REFUSES(ADDRESS, 101, READ, .address = 0x100f80000);
    REFUSES(ADDRESS, 1, READ, .address = 0x100f80064);
    REFUSES(ADDRESS, 1, READ, .address = 0x100f70000);
    REFUSES(ADDRESS, 1, READ, .address = 0x100010000);
    REFUSES(ADDRESS, 1, READ, .address = 0x43012000);
    REFUSES(ADDRESS, 1, READ, .address = 0xffffffffffffffff);
    CHECK(uas_controller_read(controller, 0xffffffffffffffff, NULL, 0) == 0);
    CHECK(uas_controller_write(controller, 0, NULL, 0) == 0);
    memory_is(controller, 0x2000f86f, "00");
    memory_is(controller, 0x100f80000, "00 x100");
}

static void controller_refuses(void)
{
    static const uint8_t window[100];
    uint32_t length = 7777;
    uas_controller *controller = new_controller(2, 10);
    controller_refuses_call(controller, (struct uas_controller_door){ .call = 0 }, 0, UAS_CONTROLLER_CALL);
    controller_refuses_call(controller, (struct uas_controller_door){ .call = 13 }, 16, UAS_CONTROLLER_CALL);
    controller_refuses_call(controller, (struct uas_controller_door){ .call = 255 }, 16, UAS_CONTROLLER_CALL);
    controller_refuses_rings(controller);
    /* 100 bytes are lent for tag 248, and none for tag 247. */
    CHECK(uas_controller_lend(controller, 248, window, 100) == 0);
    CHECK(uas_controller_lend(controller, 247, NULL, 0) == 0);
    controller_refuses_addresses(controller);
    REFUSES(TAG, UAS_MOST_DATA_BYTES + 1, LEND, .tag = 0);
    REFUSES(TAG, 1, LEND, .tag = 249);
    REFUSES(LENGTH, UAS_MOST_DATA_BYTES + 1, LEND, .tag = 248);
    REFUSES(LENT, 1, LEND, .tag = 248);
    REFUSES(LENT, 0, LEND, .tag = 247);
    REFUSES(TAG, 0, TAKE_BACK, .tag = 0);
    REFUSES(TAG, 0, TAKE_BACK, .tag = 249);
    REFUSES(NOT_LENT, 0, TAKE_BACK, .tag = 1);
    REFUSES(LENGTH, 99, TAKE_BACK, .tag = 248);
    CHECK(uas_controller_take_back(controller, 247, NULL, 0, &length) == 0 && length == 0);
    REFUSES(NOT_LENT, 0, TAKE_BACK, .tag = 247);
    REFUSES(UNIT, 511, BLOCKS, .unit = 2, .lba = 11);
    REFUSES(LENGTH, 511, BLOCKS, .unit = 1, .lba = 11);
    REFUSES(RANGE, 1024, BLOCKS, .unit = 1, .lba = 9);
    REFUSES(RANGE, 0, MEDIUM, .unit = 1, .lba = 11);
    REFUSES(RANGE, 512, MEDIUM, .unit = 1, .lba = 0xffffffff);
    CHECK(uas_controller_medium(controller, 1, 10, NULL, 0) == 0);
    no_event(controller);
    uas_controller_free(controller);
}

static void controller_new_faults(void)
{
    uint32_t blocks[32];
    uint8_t block[512];
    uas_controller *controller = NULL;
    for (int i = 0; i < 32; i++)
        blocks[i] = 1;
    CHECK(uas_controller_new(blocks, 0, &controller) == UAS_UNITS);
    CHECK(uas_controller_new(blocks, 32, &controller) == UAS_UNITS);
    blocks[30] = 0;
    CHECK(uas_controller_new(blocks, 31, &controller) == UAS_BLOCKS);
    blocks[30] = 65537;
    CHECK(uas_controller_new(blocks, 31, &controller) == UAS_BLOCKS);
    CHECK(controller == NULL);
    blocks[30] = 65536;
    CHECK(uas_controller_new(blocks, 31, &controller) == 0 && controller != NULL);
    CHECK(uas_controller_blocks(controller, 30, 65535, block, sizeof block) == 0 && all_are(block, sizeof block, 0));
    CHECK(uas_controller_blocks(controller, 29, 1, block, sizeof block) == UAS_CONTROLLER_RANGE);
    uas_controller_free(controller);
}

/* READ of 2 blocks at 16, tag 18, where block 17 is bad: the step takes no TRB, and the status tells. */
static void controller_of_images(void)
{
    static uint8_t data[1024];
    uint32_t length = 0;
    uas_controller *controller = NULL;
    CHECK(uas_controller_open(image_blocks, 2, two_images(), 512 * IMAGE_BLOCKS, three_bad, 4, &controller) == 0);
    CHECK(uas_controller_medium(controller, 1, 2, data, 512) == 0 && all_are(data, 512, 103));
    memset(data, 0x77, sizeof data);
    memory_gets(controller, 0x10001200, "01 00 00 12 00 x12 28 00 00 00 00 10 00 00 02 00 x7");
    CHECK(uas_controller_lend(controller, 18, data, 1024) == 0);
    puts_at(controller, UAS_RING_DATA_IN, 18, 0x43012000, "00 00 12 00 01 00 00 00 00 04 00 00 21 04 00 00");
    puts_at(controller, UAS_RING_STATUS, 18, 0x42012000, "00 12 00 20 00 00 00 00 70 00 00 00 25 04 00 00");
    puts_at(controller, UAS_RING_COMMAND_PIPE, 0, 0x41000000, "00 12 00 10 00 00 00 00 20 00 00 00 21 04 00 00");
    CHECK(uas_controller_doorbell(controller, 0x00120005) == 0);
    CHECK(uas_controller_doorbell(controller, 0x00120003) == 0);
    step_acts(controller, UAS_STEP_COMMAND, 7, 18);
    transfer_is(controller, 0x41000000, 0, 1, 2);
    step_is_idle(controller, UAS_STEP_STATUS, 18);
    step_acts(controller, UAS_STEP_DATA, 18, 18);
    no_event(controller);
    step_is_idle(controller, UAS_STEP_DATA, 18);
    context_is(controller, UAS_RING_DATA_IN, 18, "03 20 01 43 00 x12");
    step_acts(controller, UAS_STEP_STATUS, 18, 18);
    transfer_is(controller, 0x42012000, 78, 13, 3);
    memory_is(controller, 0x20001200, "03 00 00 12 00 00 02 00 x7 00 12 70 00 03 00 00 00 00 0a 00 00 00 00 11 00 00 00 00 00");
    CHECK(uas_controller_take_back(controller, 18, data, 1024, &length) == 0 && length == 1024 && all_are(data, 1024, 0x77));
    uas_controller_free(controller);
}

/* ---- The driver ---- */

static uint8_t bytes_of_replies[UAS_MOST_DATA_BYTES];

static uas_driver *new_driver(size_t clients)
{
    uas_driver *driver = NULL;
    if (uas_driver_new(clients, &driver) != 0 || driver == NULL) {
        fprintf(stderr, "no driver\n");
        exit(2);
    }
    return driver;
}

/* These doorbells were told, in hexadecimal. */
static void tells(const struct uas_driver_door *told, const char *values)
{
    uint16_t count = 0;
    for (char *at; *values != '\0'; values = at) {
        unsigned long value = strtoul(values, &at, 16);
        if (at == values)
            break;
        if (!CHECK(count < told->doorbells && told->doorbell[count] == value))
            fprintf(stderr, "    told %u, %08x for %08lx\n", told->doorbells, told->doorbell[count], value);
        count++;
    }
    CHECK(told->doorbells == count);
}

/* A client's command is accepted, and tells these doorbells; its data is `length` times `byte`. */
static void driver_takes(uas_driver *driver, uint32_t client, uint16_t tag, uint64_t ticket, struct uas_operation operation, uint8_t byte,
                         size_t length, const char *doorbells)
{
    static uint8_t data[128 * 512];
    struct uas_driver_door told;
    memset(&told, 0xee, sizeof told);
    memset(data, byte, length);
    CHECK(uas_driver_submit(driver, client, tag, ticket, &operation, data, length, &told) == 0);
    tells(&told, doorbells);
}

static void item_is(uas_driver *driver, uint64_t address, const char *text)
{
    uint8_t bytes[16];
    memset(bytes, 0xee, sizeof bytes);
    CHECK(uas_driver_item(driver, address, bytes) == 0);
    CHECK_BYTES(bytes, sizeof bytes, text);
}

static void no_item(uas_driver *driver, uint64_t address)
{
    uint8_t bytes[16];
    memset(bytes, 0xee, sizeof bytes);
    CHECK(uas_driver_item(driver, address, bytes) == UAS_DRIVER_ADDRESS);
    CHECK(all_are(bytes, sizeof bytes, 0xee));
}

static void driver_memory_is(uas_driver *driver, uint64_t address, const char *text)
{
    uint8_t bytes[112], wanted[112];
    size_t length = from_hex(text, wanted, sizeof wanted);
    memset(bytes, 0xee, sizeof bytes);
    CHECK(uas_driver_read(driver, address, bytes, length) == 0);
    CHECK_BYTES(bytes, length, text);
    CHECK(all_are(bytes + length, sizeof bytes - length, 0xee));
}

static void driver_memory_gets(uas_driver *driver, uint64_t address, const char *text)
{
    uint8_t bytes[112];
    size_t length = from_hex(text, bytes, sizeof bytes);
    CHECK(uas_driver_write(driver, address, bytes, length) == 0);
}

static void driver_context_is(uas_driver *driver, uint8_t pipe, uint16_t stream, const char *text)
{
    uint8_t bytes[16];
    memset(bytes, 0xee, sizeof bytes);
    CHECK(uas_driver_context(driver, pipe, stream, bytes) == 0);
    CHECK_BYTES(bytes, sizeof bytes, text);
}

/* The endpoint of the ring that an address is of. */
static uint8_t endpoint_at(uint64_t address)
{
    static const uint8_t endpoints[] = { UAS_ENDPOINT_COMMAND, UAS_ENDPOINT_STATUS, UAS_ENDPOINT_DATA_IN, UAS_ENDPOINT_DATA_OUT };
    return address >> 24 >= 0x41 && address >> 24 <= 0x44 ? endpoints[(address >> 24) - 0x41] : 0;
}

/* What an event of this type, at this address, with this residual and code is, and the doorbells that it tells. */
static struct uas_driver_door took(uas_driver *driver, uint8_t type, uint64_t address, uint32_t residual, uint8_t code, uint8_t what,
                                   const char *doorbells)
{
    const struct uas_trb event = { .type = type, .pointer = address, .length = residual, .code = code,
                                   .endpoint = type == UAS_TRB_TRANSFER_EVENT ? endpoint_at(address) : 0, .slot = 1 };
    struct uas_driver_door told;
    memset(&told, 0xee, sizeof told);
    CHECK(uas_driver_event(driver, &event, &told) == 0);
    if (!CHECK(told.acted == what))
        fprintf(stderr, "    %u for %u at %llx, code %u\n", told.acted, what, (unsigned long long)address, code);
    tells(&told, doorbells);
    return told;
}

static void matches(uas_driver *driver, uint64_t address, uint32_t residual, uint8_t code, uint16_t tag)
{
    struct uas_driver_door told = took(driver, UAS_TRB_TRANSFER_EVENT, address, residual, code, UAS_EVENT_MATCHED, "");
    CHECK(told.tag == tag);
}

static void is_stray(uas_driver *driver, uint64_t address, uint32_t residual, uint8_t code)
{
    took(driver, UAS_TRB_TRANSFER_EVENT, address, residual, code, UAS_EVENT_STRAY, "");
}

static void is_noted(uas_driver *driver, uint64_t address, uint32_t residual, uint8_t code)
{
    took(driver, UAS_TRB_TRANSFER_EVENT, address, residual, code, UAS_EVENT_NOTED, "");
}

static void is_of_engine(uas_driver *driver, uint64_t address, const char *doorbells)
{
    took(driver, UAS_TRB_COMMAND_EVENT, address, 0, 1, UAS_EVENT_ENGINE, doorbells);
}

static void no_driver_reply(uas_driver *driver, uint32_t client)
{
    struct uas_driver_door told;
    memset(&told, 0xee, sizeof told);
    CHECK(uas_driver_reply(driver, client, bytes_of_replies, sizeof bytes_of_replies, &told) == 0 && told.acted == 0);
}

/* The next reply of a client. */
static struct uas_driver_door driver_replies(uas_driver *driver, uint32_t client, uint64_t ticket, uint16_t tag, uint8_t reply, uint8_t status,
                                             uint32_t length)
{
    struct uas_driver_door told;
    memset(&told, 0xee, sizeof told);
    memset(bytes_of_replies, 0xee, sizeof bytes_of_replies);
    CHECK(uas_driver_reply(driver, client, bytes_of_replies, sizeof bytes_of_replies, &told) == 0);
    CHECK(told.acted == 1 && told.ticket == ticket && told.tag == tag && told.reply == reply);
    CHECK(told.status == status && told.length == length);
    CHECK(all_are(bytes_of_replies + length, sizeof bytes_of_replies - length, 0xee));
    return told;
}

/* No TD of a tag above `tag` is left over on a pipe but that of `next`; 0: none at all. */
static void left_over_is(uas_driver *driver, uint8_t pipe, uint16_t tag, uint16_t next)
{
    bool there = next == 0;
    uint16_t found = tag;
    CHECK(uas_driver_left_over(driver, pipe, &found, &there) == 0);
    CHECK(there == (next != 0) && found == (next != 0 ? next : tag));
}

/* A retirement begins, or doesn't. */
static void retires(uas_driver *driver, uint8_t pipe, uint16_t tag, bool acts)
{
    struct uas_driver_door told;
    memset(&told, 0xee, sizeof told);
    CHECK(uas_driver_retire(driver, pipe, tag, &told) == 0 && told.acted == acts);
    tells(&told, acts ? "0" : "");
}

/* TEST UNIT READY of client 0 under tag 1, and its events; events that are none. */
static void driver_answers(void)
{
    uas_driver *driver = new_driver(2);
    driver_takes(driver, 0, 1, 5, ready, 0, 0, "00010003 00000002");
    driver_memory_is(driver, 0x10000100, "01 00 00 01 00 x28");
    item_is(driver, 0x42001000, "00 01 00 20 00 00 00 00 70 00 00 00 25 04 00 00");
    item_is(driver, 0x41000000, "00 01 00 10 00 00 00 00 20 00 00 00 21 04 00 00");
    no_item(driver, 0x42001010);
    no_item(driver, 0x41000010);
    driver_context_is(driver, UAS_PIPE_STATUS, 1, "03 10 00 42 00 x12");
    no_driver_reply(driver, 0);
    took(driver, UAS_TRB_COMMAND_EVENT, 0x41000000, 0, 1, UAS_EVENT_STRAY, "");
    is_stray(driver, 0x41000008, 0, 1);
    is_stray(driver, 0x41000010, 0, 1);
    matches(driver, 0x41000000, 0, 1, 1);
    is_stray(driver, 0x41000000, 0, 1);
    no_item(driver, 0x41000000);
    /* Bytes that are no unit, a Response, another tag's, a code that is none of a status, fewer bytes than the unit has; then the
     * status itself. */
    is_noted(driver, 0x42001000, 96, 13);
    driver_context_is(driver, UAS_PIPE_STATUS, 1, "13 10 00 42 00 x12");
    driver_memory_gets(driver, 0x20000100, "04 00 00 01 00 x12");
    is_stray(driver, 0x42001000, 104, 13);
    driver_memory_gets(driver, 0x20000100, "03 00 00 02 00 x12");
    is_stray(driver, 0x42001000, 96, 13);
    driver_memory_gets(driver, 0x20000100, "03 00 00 01 00 x12");
    is_stray(driver, 0x42001000, 96, 1);
    is_stray(driver, 0x42001000, 113, 13);
    is_stray(driver, 0x42001000, 0xffffff, 13);
    is_stray(driver, 0x42001000, 97, 13);
    no_driver_reply(driver, 0);
    item_is(driver, 0x42001000, "00 01 00 20 00 00 00 00 70 00 00 00 25 04 00 00");
    matches(driver, 0x42001000, 96, 13, 1);
    is_stray(driver, 0x42001000, 96, 13);
    no_item(driver, 0x42001000);
    no_driver_reply(driver, 1);
    no_driver_reply(driver, 2);
    CHECK(driver_replies(driver, 0, 5, 1, UAS_REPLY_STATUS, UAS_GOOD, 0).sense_length == 0);
    no_driver_reply(driver, 0);
    driver_takes(driver, 0, 1, 6, ready, 0, 0, "00010003 00000002");
    item_is(driver, 0x42001010, "00 01 00 20 00 00 00 00 70 00 00 00 25 04 00 00");
    uas_driver_free(driver);
}

/* READ of 9 blocks of client 1 under tag 18: two data TRBs, of which the second ends the TD. */
static void driver_reads(void)
{
    static const struct uas_operation read_9 = { .opcode = UAS_READ_10, .lba = 7, .count = 9 };
    uas_driver *driver = new_driver(2);
    uint8_t byte = 0;
    driver_takes(driver, 1, 18, 0, read_9, 0x77, 9 * 512, "00120005 00120003 00000002");
    driver_memory_is(driver, 0x10001200, "01 00 00 12 00 x5 01 00 x6 28 00 00 00 00 07 00 00 09 00 x7");
    item_is(driver, 0x43012000, "00 00 12 00 01 00 00 00 00 10 02 00 11 04 00 00");
    item_is(driver, 0x43012010, "00 10 12 00 01 00 00 00 00 02 00 00 21 04 00 00");
    no_item(driver, 0x43012020);
    no_item(driver, 0x44012000);
    CHECK(uas_driver_read(driver, 0x1001211ff, &byte, 1) == 0 && byte == 0x77);
    CHECK(uas_driver_read(driver, 0x100121200, &byte, 1) == UAS_DRIVER_ADDRESS);
    driver_memory_gets(driver, 0x100120000, "a1 a2 a3");
    driver_memory_gets(driver, 0x1001211fe, "a4 a5");
    matches(driver, 0x41000000, 0, 1, 18);
    /* The first TRB's event moves the context; the second's is the TD's. */
    is_noted(driver, 0x43012000, 0, 1);
    driver_context_is(driver, UAS_PIPE_DATA_IN, 18, "13 20 01 43 00 x12");
    item_is(driver, 0x43012000, "00 00 12 00 01 00 00 00 00 10 02 00 11 04 00 00");
    matches(driver, 0x43012010, 0, 1, 18);
    driver_context_is(driver, UAS_PIPE_DATA_IN, 18, "23 20 01 43 00 x12");
    no_item(driver, 0x43012000);
    driver_memory_gets(driver, 0x20001200, "03 00 00 12 00 x12");
    matches(driver, 0x42012000, 96, 13, 18);
    driver_replies(driver, 1, 0, 18, UAS_REPLY_STATUS, UAS_GOOD, 9 * 512);
    CHECK_BYTES(bytes_of_replies, 4, "a1 a2 a3 77");
    CHECK_BYTES(bytes_of_replies + 9 * 512 - 3, 3, "77 a4 a5");
    CHECK(uas_driver_read(driver, 0x100120000, &byte, 1) == UAS_DRIVER_ADDRESS);
    uas_driver_free(driver);
}

/* A CHECK CONDITION leaves a data TD over: Stop Endpoint, Set TR Dequeue Pointer, and the doorbells of those that wait. */
static void driver_retires(void)
{
    static const struct uas_operation read_1 = { .opcode = UAS_READ_10, .count = 1 };
    uas_driver *driver = new_driver(2);
    driver_takes(driver, 1, 18, 0, read_1, 0x55, 512, "00120005 00120003 00000002");
    driver_memory_gets(driver, 0x20001200, "03 00 00 12 00 00 02 00 x8 12 70 00 05 00 00 00 00 0a 00 x4 21 00 x5");
    matches(driver, 0x41000000, 0, 1, 18);
    left_over_is(driver, UAS_PIPE_DATA_IN, 0, 0);
    matches(driver, 0x42012000, 78, 13, 18);
    left_over_is(driver, UAS_PIPE_DATA_IN, 0, 18);
    left_over_is(driver, UAS_PIPE_DATA_IN, 18, 0);
    left_over_is(driver, UAS_PIPE_STATUS, 0, 0);
    no_driver_reply(driver, 1);
    retires(driver, UAS_PIPE_STATUS, 18, false);
    retires(driver, UAS_PIPE_DATA_IN, 17, false);
    retires(driver, UAS_PIPE_DATA_IN, 18, true);
    item_is(driver, 0x50000000, "00 x12 01 3c 05 01");
    retires(driver, UAS_PIPE_DATA_IN, 18, false);
    left_over_is(driver, UAS_PIPE_DATA_IN, 0, 18);
    /* While the pipe is held, its doorbells wait. */
    driver_takes(driver, 0, 1, 0, read_1, 0, 512, "00010003 00000002");
    driver_takes(driver, 1, 17, 1, read_1, 0, 512, "00110003 00000002");
    took(driver, UAS_TRB_TRANSFER_EVENT, 0x50000000, 0, 1, UAS_EVENT_STRAY, "");
    is_of_engine(driver, 0x50000000, "0");
    no_item(driver, 0x50000000);
    item_is(driver, 0x50000010, "13 20 01 43 00 00 00 00 00 00 12 00 01 40 05 01");
    driver_context_is(driver, UAS_PIPE_DATA_IN, 18, "03 20 01 43 00 x12");
    is_of_engine(driver, 0x50000010, "00010005 00110005");
    driver_context_is(driver, UAS_PIPE_DATA_IN, 18, "13 20 01 43 00 x12");
    no_item(driver, 0x43012000);
    left_over_is(driver, UAS_PIPE_DATA_IN, 0, 0);
    struct uas_driver_door told = driver_replies(driver, 1, 0, 18, UAS_REPLY_STATUS, UAS_CHECK_CONDITION, 512);
    CHECK_BYTES(told.sense, told.sense_length, "70 00 05 00 00 00 00 0a 00 x4 21 00 x5");
    CHECK(all_are(bytes_of_replies, 512, 0x55));
    uas_driver_free(driver);
}

/* A driver with a READ of each of its two clients, under tags 1 and 18, whose command TRBs are consumed. */
static uas_driver *reading_driver(void)
{
    static const struct uas_operation read_1 = { .opcode = UAS_READ_10, .count = 1 };
    uas_driver *driver = new_driver(2);
    driver_takes(driver, 0, 1, 0, read_1, 0x55, 512, "00010005 00010003 00000002");
    driver_takes(driver, 1, 18, 0, read_1, 0x66, 512, "00120005 00120003 00000002");
    matches(driver, 0x41000000, 0, 1, 1);
    matches(driver, 0x41000010, 0, 1, 18);
    return driver;
}

/* The command under way is done with this code. */
static void command_ends(uas_driver *driver, uint64_t address, uint8_t code, const char *doorbells)
{
    took(driver, UAS_TRB_COMMAND_EVENT, address, 0, code, UAS_EVENT_ENGINE, doorbells);
}

static void driver_takes_no_more(uas_driver *driver)
{
    struct uas_driver_door told;
    CHECK(uas_driver_submit(driver, 0, 2, 9, &ready, NULL, 0, &told) == UAS_DRIVER_RING);
    CHECK(uas_driver_task(driver, 0, 9, UAS_LOGICAL_UNIT_RESET, 0, &told) == UAS_DRIVER_RING);
}

/* A stall of tag 1's data TD: Reset Endpoint, Set TR Dequeue Pointer behind it, and the next TD of the same command's; tag 18 goes on. */
static void driver_recovers(void)
{
    uas_driver *driver = reading_driver();
    took(driver, UAS_TRB_TRANSFER_EVENT, 0x43001000, 412, 6, UAS_EVENT_NOTED, "0");
    item_is(driver, 0x50000000, "00 x12 01 38 05 01");
    command_ends(driver, 0x50000000, 1, "0");
    item_is(driver, 0x50000010, "13 10 00 43 00 00 00 00 00 00 01 00 01 40 05 01");
    command_ends(driver, 0x50000010, 1, "00120005 0");
    item_is(driver, 0x50000020, "00 x12 01 3c 03 01");
    command_ends(driver, 0x50000020, 1, "0");
    command_ends(driver, 0x50000030, 1, "00120003");
    CHECK(driver_replies(driver, 0, 0, 1, UAS_REPLY_FAILED, 6, 512).moved == 100);
    matches(driver, 0x43012000, 0, 1, 18);
    uas_driver_free(driver);
}

/* An error of no TD: a dequeue pointer is set where an empty ring stands, so that no TD that has begun begins again. */
static void driver_recovers_without_td(void)
{
    static const struct uas_trb error = { .type = UAS_TRB_TRANSFER_EVENT, .code = 34, .endpoint = UAS_ENDPOINT_DATA_IN, .slot = 1 };
    struct uas_driver_door told;
    uas_driver *driver = reading_driver();
    CHECK(uas_driver_event(driver, &error, &told) == 0 && told.acted == UAS_EVENT_NOTED);
    tells(&told, "0");
    command_ends(driver, 0x50000000, 19, "0");
    item_is(driver, 0x50000010, "03 80 0f 43 00 00 00 00 00 00 f8 00 01 40 05 01");
    command_ends(driver, 0x50000010, 34, "0");
    item_is(driver, 0x50000020, "00 x12 01 3c 05 01");
    command_ends(driver, 0x50000020, 19, "0");
    item_is(driver, 0x50000030, "03 80 0f 43 00 00 00 00 00 00 f8 00 01 40 05 01");
    command_ends(driver, 0x50000030, 1, "00010005 00120005");
    uas_driver_free(driver);
}

/* A Set TR Dequeue Pointer that is refused twice: each command on the pipe has failed, and nothing is submitted any more. */
static void driver_gives_a_pipe_up(void)
{
    uas_driver *driver = reading_driver();
    took(driver, UAS_TRB_TRANSFER_EVENT, 0x43001000, 512, 6, UAS_EVENT_NOTED, "0");
    command_ends(driver, 0x50000000, 1, "0");
    command_ends(driver, 0x50000010, 5, "0");
    command_ends(driver, 0x50000020, 19, "0");
    item_is(driver, 0x50000030, "13 10 00 43 00 00 00 00 00 00 01 00 01 40 05 01");
    command_ends(driver, 0x50000030, 34, "0");
    item_is(driver, 0x50000040, "00 x12 01 3c 03 01");
    driver_takes_no_more(driver);
    command_ends(driver, 0x50000040, 1, "0");
    command_ends(driver, 0x50000050, 1, "0");
    driver_replies(driver, 0, 0, 1, UAS_REPLY_FAILED, 6, 512);
    no_driver_reply(driver, 1);
    command_ends(driver, 0x50000060, 1, "");
    driver_replies(driver, 1, 0, 18, UAS_REPLY_FAILED, 34, 512);
    uas_driver_free(driver);
}

/* A command that is given up, and Stop Endpoint that is answered with Context State Error although the endpoint is told to run: once more, and
 * then the pipe is given up. */
static void driver_gives_up(void)
{
    struct uas_driver_door told;
    uint8_t pipe = 0;
    bool wanted = false;
    uas_driver *driver = reading_driver();
    CHECK(uas_driver_give_up(driver, 0, 1, &told) == 0);
    tells(&told, "0");
    for (int i = 0; i < 2; i++) {
        command_ends(driver, i == 0 ? 0x50000000 : 0x50000010, 19, "");
        CHECK(uas_driver_wanted_state(driver, &pipe, &wanted) == 0 && wanted && pipe == UAS_PIPE_DATA_IN);
        CHECK(uas_driver_endpoint_state(driver, pipe, UAS_STATE_RUNNING, &told) == 0);
        tells(&told, "0");
    }
    item_is(driver, 0x50000020, "00 x12 01 3c 03 01");
    driver_takes_no_more(driver);
    command_ends(driver, 0x50000020, 1, "0");
    command_ends(driver, 0x50000030, 1, "0");
    driver_replies(driver, 0, 0, 1, UAS_REPLY_ABORTED, 0, 512);
    command_ends(driver, 0x50000040, 1, "");
    driver_replies(driver, 1, 0, 18, UAS_REPLY_FAILED, 19, 512);
    uas_driver_free(driver);
}

/* ABORT TASK of client 0 under its tag 16; the command's status TD is left over by the response. */
static void driver_aborts(void)
{
    uas_driver *driver = new_driver(1);
    struct uas_driver_door told;
    driver_takes(driver, 0, 3, 0, ready, 0, 0, "00030003 00000002");
    CHECK(uas_driver_task(driver, 0, 1, UAS_ABORT_TASK, 3, &told) == 0);
    tells(&told, "00100003 00000002");
    driver_memory_is(driver, 0x10001000, "05 00 00 10 01 00 00 03 00 x8");
    item_is(driver, 0x41000010, "00 10 00 10 00 00 00 00 10 00 00 00 21 04 00 00");
    item_is(driver, 0x42010000, "00 10 00 20 00 00 00 00 70 00 00 00 25 04 00 00");
    /* The second command's event comes before the first's: its place is freed with that of the first. */
    matches(driver, 0x41000010, 0, 1, 16);
    item_is(driver, 0x41000000, "00 03 00 10 00 00 00 00 20 00 00 00 21 04 00 00");
    item_is(driver, 0x41000010, "00 10 00 10 00 00 00 00 10 00 00 00 21 04 00 00");
    matches(driver, 0x41000000, 0, 1, 3);
    no_item(driver, 0x41000000);
    no_item(driver, 0x41000010);
    driver_memory_gets(driver, 0x20001000, "04 00 00 10 00 00 00 00");
    matches(driver, 0x42010000, 104, 13, 16);
    driver_replies(driver, 0, 1, 16, UAS_REPLY_TASK, UAS_RESPONSE_COMPLETE, 0);
    left_over_is(driver, UAS_PIPE_STATUS, 2, 3);
    retires(driver, UAS_PIPE_STATUS, 3, true);
    item_is(driver, 0x50000000, "00 x12 01 3c 03 01");
    is_of_engine(driver, 0x50000000, "0");
    item_is(driver, 0x50000010, "13 30 00 42 00 00 00 00 00 00 03 00 01 40 03 01");
    is_of_engine(driver, 0x50000010, "");
    driver_replies(driver, 0, 0, 3, UAS_REPLY_ABORTED, 0, 0);
    uas_driver_free(driver);
}

/* Responses that end nothing: COMPLETE of a query, and what isn't COMPLETE of a reset. A status that isn't CHECK CONDITION leaves no
 * data over, whatever it is. */
static void driver_leaves_nothing(void)
{
    static const struct uas_operation read_1 = { .opcode = UAS_READ_10, .count = 1 };
    uas_driver *driver = new_driver(1);
    struct uas_driver_door told;
    driver_takes(driver, 0, 3, 0, read_1, 0, 512, "00030005 00030003 00000002");
    matches(driver, 0x41000000, 0, 1, 3);
    CHECK(uas_driver_task(driver, 0, 1, UAS_QUERY_TASK, 3, &told) == 0);
    driver_memory_is(driver, 0x10001000, "05 00 00 10 80 00 00 03 00 x8");
    driver_memory_gets(driver, 0x20001000, "04 00 00 10 00 00 00 00");
    matches(driver, 0x41000010, 0, 1, 16);
    matches(driver, 0x42010000, 104, 13, 16);
    driver_replies(driver, 0, 1, 16, UAS_REPLY_TASK, UAS_RESPONSE_COMPLETE, 0);
    CHECK(uas_driver_task(driver, 0, 2, UAS_LOGICAL_UNIT_RESET, 3, &told) == 0);
    driver_memory_is(driver, 0x10001000, "05 00 00 10 08 00 x11");
    driver_memory_gets(driver, 0x20001000, "04 00 00 10 00 00 00 09");
    matches(driver, 0x41000020, 0, 1, 16);
    matches(driver, 0x42010010, 104, 13, 16);
    driver_replies(driver, 0, 2, 16, UAS_REPLY_TASK, UAS_RESPONSE_INCORRECT_LUN, 0);
    left_over_is(driver, UAS_PIPE_STATUS, 0, 0);
    driver_memory_gets(driver, 0x20000300, "03 00 00 03 00 00 08 00 x9");
    matches(driver, 0x42003000, 96, 13, 3);
    left_over_is(driver, UAS_PIPE_DATA_IN, 0, 0);
    no_driver_reply(driver, 0);
    matches(driver, 0x43003000, 0, 1, 3);
    driver_replies(driver, 0, 0, 3, UAS_REPLY_STATUS, 8, 512);
    uas_driver_free(driver);
}

/* A command's event that never comes holds all places behind it on the command pipe's ring, of which 254 are filled. */
static void driver_without_room(void)
{
    uas_driver *driver = new_driver(1);
    struct uas_driver_door told, kept;
    uint8_t data[1] = { 0 };
    driver_takes(driver, 0, 1, 0, ready, 0, 0, "00010003 00000002");
    driver_memory_gets(driver, 0x20000200, "03 00 00 02 00 x12");
    for (uint32_t ticket = 1; ticket < 254; ticket++) {
        driver_takes(driver, 0, 2, ticket, ready, 0, 0, "00020003 00000002");
        matches(driver, 0x41000000 + 16 * ticket, 0, 1, 2);
        matches(driver, 0x42002000 + 16 * ((ticket - 1) % 19), 96, 13, 2);
        driver_replies(driver, 0, ticket, 2, UAS_REPLY_STATUS, UAS_GOOD, 0);
    }
    no_item(driver, 0x41000fe0);
    memset(&told, 0xee, sizeof told);
    kept = told;
    CHECK(uas_driver_submit(driver, 0, 2, 254, &ready, data, 0, &told) == UAS_DRIVER_ROOM);
    CHECK(uas_driver_task(driver, 0, 254, UAS_QUERY_TASK, 1, &told) == UAS_DRIVER_ROOM);
    CHECK(memcmp(&told, &kept, sizeof told) == 0);
    matches(driver, 0x41000000, 0, 1, 1);
    driver_takes(driver, 0, 2, 254, ready, 0, 0, "00020003 00000002");
    item_is(driver, 0x41000fe0, "00 02 00 10 00 00 00 00 20 00 00 00 21 04 00 00");
    item_is(driver, 0x41000ff0, "00 00 00 41 00 00 00 00 00 00 00 00 03 18 00 00");
    driver_takes(driver, 0, 3, 255, ready, 0, 0, "00030003 00000002");
    item_is(driver, 0x41000000, "00 03 00 10 00 00 00 00 20 00 00 00 20 04 00 00");
    uas_driver_free(driver);
}

/* ---- What the driver refuses ---- */

/* The call is refused with this fault, and neither its door nor its data is written. */
static void driver_refuses_call(uas_driver *driver, struct uas_driver_door named, size_t length, uint8_t fault)
{
    static uint8_t data[129 * 512];
    struct uas_driver_door door = named;
    door.doorbells = 0xeeee;
    door.acted = door.reply = door.status = door.sense_length = 0xee;
    memset(door.sense, 0xee, sizeof door.sense);
    memset(door.doorbell, 0xee, sizeof door.doorbell);
    named = door;
    memset(data, 0xee, sizeof data);
    if (!CHECK(uas_driver_call(driver, &door, data, length) == fault))
        fprintf(stderr, "    fault %u, call %u\n", fault, named.call);
    CHECK(memcmp(&door, &named, sizeof door) == 0);
    CHECK(all_are(data, sizeof data, 0xee));
}

#define DRIVER_REFUSES(fault, size, name, ...) \
    driver_refuses_call(driver, (struct uas_driver_door){ .call = UAS_DRIVER_CALL_##name, __VA_ARGS__ }, size, UAS_##fault)

static void driver_refuses_commands(uas_driver *driver)
{
    const struct uas_operation read = { .opcode = UAS_READ_10, .count = 1 }, many = { .opcode = UAS_WRITE_16, .count = 129 };
    const struct uas_operation none = { .opcode = 0xee }, unfit = { .opcode = UAS_READ_10, .count = 65536 };
    DRIVER_REFUSES(CLIENT_TICKET, 0, SUBMIT, .tag = 1, .ticket = (uint64_t)1 << 60, .operation = none);
    DRIVER_REFUSES(CLIENT_OPERATION, 0, SUBMIT, .client = 2, .tag = 1, .operation = none);
    DRIVER_REFUSES(CLIENT_OPERATION, 512, SUBMIT, .tag = 1, .operation = unfit);
    DRIVER_REFUSES(CLIENT_NOT_YOURS, 512, SUBMIT, .client = 2, .tag = 33, .operation = read);
    DRIVER_REFUSES(CLIENT_NOT_YOURS, 512, SUBMIT, .client = 0xffffffff, .tag = 1, .operation = read);
    DRIVER_REFUSES(CLIENT_NOT_YOURS, 512, SUBMIT, .tag = 16, .operation = read);
    DRIVER_REFUSES(CLIENT_NOT_YOURS, 512, SUBMIT, .tag = 0, .operation = read);
    DRIVER_REFUSES(CLIENT_NOT_YOURS, 512, SUBMIT, .client = 1, .tag = 1, .operation = read);
    DRIVER_REFUSES(CLIENT_NOT_YOURS, 512, SUBMIT, .client = 1, .tag = 65535, .operation = read);
    DRIVER_REFUSES(CLIENT_BAD_LENGTH, 511, SUBMIT, .tag = 1, .operation = read);
    DRIVER_REFUSES(CLIENT_BAD_LENGTH, 1, SUBMIT, .tag = 1, .operation = ready);
    DRIVER_REFUSES(CLIENT_TOO_LONG, 129 * 512, SUBMIT, .tag = 1, .operation = many);
    driver_takes(driver, 0, 1, 5, read, 0, 512, "00010005 00010003 00000002");
    DRIVER_REFUSES(CLIENT_OUT_OF_TURN, 512, SUBMIT, .tag = 2, .ticket = 5, .operation = read);
    /* Of a tag that has a command, the room of its data is asked for before anything of the client. */
    DRIVER_REFUSES(DRIVER_ROOM, 0, SUBMIT, .tag = 1, .ticket = 6, .operation = ready);
    DRIVER_REFUSES(DRIVER_ROOM, 1, SUBMIT, .client = 1, .tag = 1, .operation = ready);
    DRIVER_REFUSES(CLIENT_TICKET, 0, TASK, .ticket = (uint64_t)1 << 60, .function = 0xee, .tag = 1);
    DRIVER_REFUSES(CLIENT_FUNCTION, 0, TASK, .client = 2, .ticket = 6, .function = 2, .tag = 1);
    DRIVER_REFUSES(CLIENT_NOT_YOURS, 0, TASK, .client = 2, .ticket = 6, .function = UAS_ABORT_TASK, .tag = 1);
    DRIVER_REFUSES(CLIENT_OUT_OF_TURN, 0, TASK, .ticket = 5, .function = UAS_ABORT_TASK, .tag = 2);
    DRIVER_REFUSES(CLIENT_NO_SUCH_TASK, 0, TASK, .ticket = 6, .function = UAS_ABORT_TASK, .tag = 2);
    DRIVER_REFUSES(CLIENT_NO_SUCH_TASK, 0, TASK, .client = 1, .ticket = 6, .function = UAS_QUERY_TASK, .tag = 1);
    struct uas_driver_door told;
    CHECK(uas_driver_task(driver, 0, 6, UAS_LOGICAL_UNIT_RESET, 0xeeee, &told) == 0);
    DRIVER_REFUSES(CLIENT_IN_USE, 0, TASK, .ticket = 0, .function = UAS_QUERY_TASK, .tag = 2);
}

static void driver_refuses(void)
{
    uas_driver *driver = new_driver(2);
    driver_refuses_commands(driver);
    DRIVER_REFUSES(DRIVER_RING, 0, RETIRE, .pipe = 0, .tag = 1);
    DRIVER_REFUSES(DRIVER_RING, 0, RETIRE, .pipe = 4, .tag = 1);
    DRIVER_REFUSES(DRIVER_RING, 0, LEFT_OVER, .pipe = 0);
    DRIVER_REFUSES(DRIVER_RING, 0, LEFT_OVER, .pipe = 255);
    DRIVER_REFUSES(DRIVER_EVENT, 0, EVENT, .type = UAS_TRB_NORMAL, .address = 0x41000000, .code = 1);
    DRIVER_REFUSES(DRIVER_EVENT, 0, EVENT, .type = 34, .address = 0x41000000, .code = 1);
    DRIVER_REFUSES(CLIENT_LENGTH, UAS_MOST_DATA_BYTES - 1, REPLY, .client = 9);
    DRIVER_REFUSES(DRIVER_ADDRESS, 33, READ, .address = 0x10000100);
    DRIVER_REFUSES(DRIVER_ADDRESS, 1, READ, .address = 0x10000120);
    DRIVER_REFUSES(DRIVER_ADDRESS, 113, WRITE, .address = 0x20000100);
    DRIVER_REFUSES(DRIVER_ADDRESS, 32, WRITE, .address = 0x10000000);
    DRIVER_REFUSES(DRIVER_ADDRESS, 1, WRITE, .address = 0x1000f900);
    DRIVER_REFUSES(DRIVER_ADDRESS, 513, READ, .address = 0x100010000);
    DRIVER_REFUSES(DRIVER_ADDRESS, 1, READ, .address = 0x100020000);
    DRIVER_REFUSES(DRIVER_ADDRESS, 16, READ, .address = 0x41000000);
    DRIVER_REFUSES(CLIENT_LENGTH, 15, ITEM, .address = 0x41000000);
    DRIVER_REFUSES(CLIENT_LENGTH, 17, ITEM, .address = 0);
    DRIVER_REFUSES(DRIVER_ADDRESS, 16, ITEM, .address = 0x41000020);
    DRIVER_REFUSES(DRIVER_ADDRESS, 16, ITEM, .address = 0x41000008);
    DRIVER_REFUSES(DRIVER_ADDRESS, 16, ITEM, .address = 0x41000ff0);
    DRIVER_REFUSES(DRIVER_ADDRESS, 16, ITEM, .address = 0x50000100);
    DRIVER_REFUSES(DRIVER_ADDRESS, 16, ITEM, .address = 0xfffffffffffffff0);
    DRIVER_REFUSES(CLIENT_LENGTH, 0, CONTEXT, .pipe = 1, .stream = 1);
    DRIVER_REFUSES(CLIENT_LENGTH, 17, CONTEXT, .pipe = 9, .stream = 1);
    DRIVER_REFUSES(DRIVER_RING, 16, CONTEXT, .pipe = 0, .stream = 1);
    DRIVER_REFUSES(DRIVER_RING, 16, CONTEXT, .pipe = 4, .stream = 1);
    DRIVER_REFUSES(DRIVER_RING, 16, CONTEXT, .pipe = 1, .stream = 0);
    DRIVER_REFUSES(DRIVER_RING, 16, CONTEXT, .pipe = 3, .stream = 249);
    driver_refuses_call(driver, (struct uas_driver_door){ .call = 0 }, 0, UAS_CLIENT_CALL);
    driver_refuses_call(driver, (struct uas_driver_door){ .call = 15 }, 16, UAS_CLIENT_CALL);
    DRIVER_REFUSES(CLIENT_NOT_YOURS, 0, GIVE_UP, .client = 1, .tag = 1);
    DRIVER_REFUSES(CLIENT_NO_SUCH_TASK, 0, GIVE_UP, .tag = 2);
    DRIVER_REFUSES(DRIVER_RING, 0, STATE, .pipe = 5, .state = UAS_STATE_RUNNING);
    DRIVER_REFUSES(DRIVER_STATE, 0, STATE, .pipe = UAS_PIPE_STATUS, .state = 0);
    DRIVER_REFUSES(DRIVER_STATE, 0, STATE, .pipe = UAS_PIPE_STATUS, .state = UAS_STATE_ERROR + 1);
    driver_context_is(driver, UAS_PIPE_DATA_OUT, 248, "03 80 0f 44 00 x12");
    CHECK(uas_driver_read(driver, 0x1000f800, NULL, 0) == 0 && uas_driver_write(driver, 0x2000f800, NULL, 0) == 0);
    uas_driver_free(driver);
}

static void driver_new_faults(void)
{
    uas_driver *driver = NULL;
    CHECK(uas_driver_new(0, &driver) == UAS_DRIVER_CLIENTS);
    CHECK(uas_driver_new(16, &driver) == UAS_DRIVER_CLIENTS);
    CHECK(uas_driver_new(SIZE_MAX, &driver) == UAS_DRIVER_CLIENTS);
    CHECK(uas_driver_open(1, &(struct uas_bus_options){ 8, 1 }, &driver) == UAS_TAGS);
    CHECK(uas_driver_open(1, &(struct uas_bus_options){ 8, 17 }, &driver) == UAS_TAGS);
    CHECK(uas_driver_open(0, &(struct uas_bus_options){ 8, 17 }, &driver) == UAS_TAGS);
    CHECK(uas_driver_open(32, &(struct uas_bus_options){ 8, 8 }, &driver) == UAS_DRIVER_CLIENTS);
    CHECK(uas_driver_open(28, &(struct uas_bus_options){ 8, 9 }, &driver) == UAS_DRIVER_CLIENTS);
    CHECK(uas_driver_open(16, &(struct uas_bus_options){ 4, 8 }, &driver) == UAS_DRIVER_CLIENTS);
    CHECK(uas_driver_open(16, &(struct uas_bus_options){ 8, 0 }, &driver) == UAS_DRIVER_CLIENTS);
    CHECK(driver == NULL);
    CHECK(uas_driver_open(31, &(struct uas_bus_options){ 8, 8 }, &driver) == UAS_OK);
    driver_takes(driver, 30, 241, 0, ready, 0, 0, "00f10003 00000002");
    driver_memory_is(driver, 0x1000f100, "01 00 00 f1 00 x5 1e 00 x22");
    uas_driver_free(driver);
    driver = new_driver(15);
    driver_takes(driver, 14, 239, 0, ready, 0, 0, "00ef0003 00000002");
    driver_memory_is(driver, 0x1000ef00, "01 00 00 ef 00 x5 0e 00 x22");
    item_is(driver, 0x420ef000, "00 ef 00 20 00 00 00 00 70 00 00 00 25 04 00 00");
    struct uas_driver_door told;
    CHECK(uas_driver_task(driver, 14, 1, UAS_QUERY_TASK, 239, &told) == 0);
    tells(&told, "00f00003 00000002");
    driver_memory_is(driver, 0x1000f000, "05 00 00 f0 80 00 00 ef 00 0e 00 x6");
    uas_driver_free(driver);
}

/* ---- The bus ---- */

static uas_bus *new_bus(size_t clients, uint32_t blocks)
{
    uint32_t all[UAS_MOST_UNITS];
    uas_bus *bus = NULL;
    for (size_t i = 0; i < clients; i++)
        all[i] = blocks;
    if (uas_bus_new(all, clients, &bus) != 0 || bus == NULL) {
        fprintf(stderr, "no bus\n");
        exit(2);
    }
    return bus;
}

/* Submits with a buffer of `length` times `byte`. */
static uint8_t submitted(uas_bus *bus, uint32_t client, uint16_t tag, uint64_t ticket, struct uas_operation operation, uint8_t byte, size_t length)
{
    static uint8_t data[129 * 512];
    memset(data, byte, length);
    return uas_bus_submit(bus, client, tag, ticket, &operation, data, length);
}

/* The steps that are due act, in this order: c command, g engine, e event; dN, sN data and status of tag N; rPN retirement on pipe P (s, i, o). */
static void acts(uas_bus *bus, const char *steps)
{
    for (const char *at = steps; *at != '\0';) {
        uint8_t step = 0, pipe = 0;
        char *end = NULL;
        uint16_t tag = 0;
        bool due = false, acted = false;
        int owner = -2;
        switch (*at++) {
        case 'c':
            step = UAS_STEP_COMMAND;
            break;
        case 'g':
            step = UAS_STEP_ENGINE;
            break;
        case 'e':
            step = UAS_STEP_EVENT;
            break;
        case 'd':
            step = UAS_STEP_DATA;
            break;
        case 's':
            step = UAS_STEP_STATUS;
            break;
        case 'r':
            step = UAS_STEP_RETIRE;
            pipe = *at == 's' ? UAS_PIPE_STATUS : *at == 'i' ? UAS_PIPE_DATA_IN : UAS_PIPE_DATA_OUT;
            at++;
            break;
        default:
            continue;
        }
        if (step == UAS_STEP_DATA || step == UAS_STEP_STATUS || step == UAS_STEP_RETIRE) {
            tag = (uint16_t)strtoul(at, &end, 10);
            at = end;
        }
        CHECK(uas_bus_due(bus, step, pipe, tag, &due) == 0);
        CHECK(uas_bus_step(bus, step, pipe, tag, &acted, &owner) == 0);
        bool tagged = step == UAS_STEP_DATA || step == UAS_STEP_STATUS || step == UAS_STEP_RETIRE;
        if (!CHECK(due && acted && (tagged ? owner == (tag - 1) / UAS_CLIENT_TAGS : owner >= 0)))
            fprintf(stderr, "    at \"%s\" of \"%s\"\n", at, steps);
    }
}

static void is_idle(uas_bus *bus, uint8_t step, uint8_t pipe, uint16_t tag)
{
    bool due = true, acted = true;
    int owner = 7;
    CHECK(uas_bus_due(bus, step, pipe, tag, &due) == 0 && !due);
    CHECK(uas_bus_step(bus, step, pipe, tag, &acted, &owner) == 0 && !acted && owner == -1);
}

static void drains(uas_bus *bus)
{
    uint64_t taken = 0;
    bool quiet = false;
    CHECK(uas_bus_drain(bus, 100000, &taken, &quiet) == 0 && quiet);
}

/* The client's next reply; its data is in bytes_of_replies. */
static void replies(uas_bus *bus, uint32_t client, uint64_t ticket, uint16_t tag, uint8_t reply, uint8_t status, uint32_t length)
{
    struct uas_bus_door got;
    memset(bytes_of_replies, 0xee, sizeof bytes_of_replies);
    memset(&got, 0xee, sizeof got);
    CHECK(uas_bus_reply(bus, client, bytes_of_replies, sizeof bytes_of_replies - 1, &got) == UAS_CLIENT_LENGTH);
    CHECK(all_are((const uint8_t *)&got, sizeof got, 0xee));
    CHECK(all_are(bytes_of_replies, sizeof bytes_of_replies, 0xee));
    CHECK(uas_bus_reply(bus, client, bytes_of_replies, sizeof bytes_of_replies, &got) == 0);
    CHECK(got.acted == 1 && got.ticket == ticket && got.tag == tag && got.reply == reply && got.status == status && got.length == length);
    if (reply == UAS_REPLY_STATUS && status == UAS_CHECK_CONDITION)
        CHECK(got.sense_length == 18);
    else
        CHECK(got.sense_length == 0);
    if (length < sizeof bytes_of_replies)
        CHECK(all_are(bytes_of_replies + length, sizeof bytes_of_replies - length, 0xee));
}

/* The same with CHECK CONDITION and this sense. */
static void replies_check(uas_bus *bus, uint32_t client, uint64_t ticket, uint16_t tag, uint32_t length, const char *sense)
{
    struct uas_bus_door got;
    memset(&got, 0xee, sizeof got);
    CHECK(uas_bus_reply(bus, client, bytes_of_replies, sizeof bytes_of_replies, &got) == 0);
    CHECK(got.acted == 1 && got.ticket == ticket && got.tag == tag && got.reply == UAS_REPLY_STATUS && got.length == length);
    CHECK(got.status == UAS_CHECK_CONDITION);
    CHECK_BYTES(got.sense, got.sense_length, sense);
}

static void no_reply(uas_bus *bus, uint32_t client)
{
    struct uas_bus_door got;
    CHECK(uas_bus_reply(bus, client, bytes_of_replies, sizeof bytes_of_replies, &got) == 0 && got.acted == 0);
}

static struct uas_operation reads(uint32_t lba, uint32_t count)
{
    return (struct uas_operation){ .opcode = UAS_READ_10, .lba = lba, .count = count };
}

static struct uas_operation writes(uint32_t lba, uint32_t count)
{
    return (struct uas_operation){ .opcode = UAS_WRITE_10, .lba = lba, .count = count };
}

/* Two clients write and read the same block numbers, each of its own unit. */
static void bus_of_two(void)
{
    uas_bus *bus = new_bus(2, 100);
    CHECK(submitted(bus, 0, 1, 0, writes(0, 8), 0xaa, 4096) == 0);
    drains(bus);
    replies(bus, 0, 0, 1, UAS_REPLY_STATUS, UAS_GOOD, 4096);
    CHECK(submitted(bus, 0, 1, 1, reads(0, 1), 0x77, 512) == 0);
    CHECK(submitted(bus, 1, 17, 0, reads(0, 1), 0x77, 512) == 0);
    CHECK(submitted(bus, 1, 18, 1, (struct uas_operation){ .opcode = UAS_INQUIRY, .count = 36 }, 0, 36) == 0);
    drains(bus);
    replies(bus, 0, 1, 1, UAS_REPLY_STATUS, UAS_GOOD, 512);
    CHECK(all_are(bytes_of_replies, 512, 0xaa));
    no_reply(bus, 0);
    replies(bus, 1, 0, 17, UAS_REPLY_STATUS, UAS_GOOD, 512);
    CHECK(all_are(bytes_of_replies, 512, 0));
    replies(bus, 1, 1, 18, UAS_REPLY_STATUS, UAS_GOOD, 36);
    CHECK_BYTES(bytes_of_replies, 36, "000006021f000002 53494d4449534b20 5541532053494d204449534b20202020 30303031");
    no_reply(bus, 1);
    uint8_t blocks[1024];
    CHECK(uas_bus_blocks(bus, 0, 7, blocks, 1024) == 0 && all_are(blocks, 512, 0xaa) && all_are(blocks + 512, 512, 0));
    CHECK(uas_bus_medium(bus, 0, 7, blocks, 1024) == 0 && all_are(blocks, 1024, 0));
    CHECK(uas_bus_blocks(bus, 1, 7, blocks, 1024) == 0 && all_are(blocks, 1024, 0));
    uas_bus_free(bus);
}

/* A READ of 16 blocks between the chunks of a WRITE of the same blocks. */
static void bus_read_sees_write(void)
{
    uas_bus *bus = new_bus(2, 100);
    CHECK(submitted(bus, 0, 1, 0, writes(0, 16), 1, 8192) == 0);
    CHECK(submitted(bus, 0, 2, 1, reads(0, 16), 0x77, 8192) == 0);
    CHECK(submitted(bus, 1, 17, 0, writes(0, 16), 9, 8192) == 0);
    acts(bus, "c c c d1 d17 d2 d2 d17 d1");
    is_idle(bus, UAS_STEP_DATA, 0, 1);
    drains(bus);
    replies(bus, 0, 0, 1, UAS_REPLY_STATUS, UAS_GOOD, 8192);
    replies(bus, 0, 1, 2, UAS_REPLY_STATUS, UAS_GOOD, 8192);
    CHECK(all_are(bytes_of_replies, 4096, 1) && all_are(bytes_of_replies + 4096, 4096, 0));
    uas_bus_free(bus);
}

/* A READ beyond the last block: its data TD is retired before the reply. */
static void bus_out_of_range(void)
{
    uas_bus *bus = new_bus(3, 100);
    CHECK(submitted(bus, 2, 34, 0, reads(99, 2), 0x77, 1024) == 0);
    acts(bus, "c s34 e e");
    no_reply(bus, 2);
    is_idle(bus, UAS_STEP_RETIRE, UAS_PIPE_STATUS, 34);
    is_idle(bus, UAS_STEP_RETIRE, UAS_PIPE_DATA_OUT, 34);
    acts(bus, "ri34 g e g e");
    replies_check(bus, 2, 0, 34, 1024, "70 00 05 00 00 00 00 0a 00 00 00 00 21 00 00 00 00 00");
    CHECK(all_are(bytes_of_replies, 1024, 0x77));
    uas_bus_free(bus);
}

/* A READ of three chunks is aborted after two. */
static void bus_abort(void)
{
    uas_bus *bus = new_bus(3, 100);
    CHECK(submitted(bus, 2, 33, 0, reads(0, 24), 0x77, 24 * 512) == 0);
    acts(bus, "c d33 d33");
    CHECK(uas_bus_task(bus, 2, 1, UAS_ABORT_TASK, 33) == 0);
    CHECK(uas_bus_task(bus, 2, 2, UAS_LOGICAL_UNIT_RESET, 0) == UAS_CLIENT_IN_USE);
    drains(bus);
    replies(bus, 2, 1, 48, UAS_REPLY_TASK, UAS_RESPONSE_COMPLETE, 0);
    replies(bus, 2, 0, 33, UAS_REPLY_ABORTED, 0, 24 * 512);
    CHECK(all_are(bytes_of_replies, 8192, 0) && all_are(bytes_of_replies + 8192, 4096, 0x77));
    no_reply(bus, 2);
    uas_bus_free(bus);
}

/* LOGICAL UNIT RESET while a WRITE is under way; what comes after it is told, once, of the reset. */
static void bus_reset(void)
{
    uas_bus *bus = new_bus(2, 100);
    uint8_t blocks[9 * 512];
    CHECK(submitted(bus, 1, 17, 0, writes(0, 24), 170, 24 * 512) == 0);
    CHECK(uas_bus_task(bus, 1, 1, UAS_LOGICAL_UNIT_RESET, 0) == 0);
    CHECK(submitted(bus, 1, 18, 2, (struct uas_operation){ .opcode = UAS_INQUIRY, .count = 5 }, 0, 5) == 0);
    CHECK(submitted(bus, 1, 19, 3, ready, 0, 0) == 0);
    CHECK(submitted(bus, 1, 20, 4, ready, 0, 0) == 0);
    CHECK(submitted(bus, 0, 1, 0, reads(0, 1), 0x77, 512) == 0);
    drains(bus);
    replies(bus, 0, 0, 1, UAS_REPLY_STATUS, UAS_GOOD, 512);
    replies(bus, 1, 1, 32, UAS_REPLY_TASK, UAS_RESPONSE_COMPLETE, 0);
    replies(bus, 1, 2, 18, UAS_REPLY_STATUS, UAS_GOOD, 5);
    CHECK_BYTES(bytes_of_replies, 5, "00 00 06 02 1f");
    replies_check(bus, 1, 3, 19, 0, "70 00 06 00 00 00 00 0a 00 00 00 00 29 03 00 00 00 00");
    replies(bus, 1, 4, 20, UAS_REPLY_STATUS, UAS_GOOD, 0);
    replies(bus, 1, 0, 17, UAS_REPLY_ABORTED, 0, 24 * 512);
    no_reply(bus, 1);
    CHECK(uas_bus_blocks(bus, 1, 0, blocks, sizeof blocks) == 0);
    CHECK(all_are(blocks, 8 * 512, 0xaa) && all_are(blocks + 8 * 512, 512, 0));
    uas_bus_free(bus);
}

/* An abort never reaches a later command on the same tag. */
static void bus_reused_tag(void)
{
    uas_bus *bus = new_bus(3, 100);
    CHECK(submitted(bus, 2, 34, 0, ready, 0, 0) == 0);
    acts(bus, "c s34");
    CHECK(uas_bus_task(bus, 2, 1, UAS_ABORT_TASK, 34) == 0);
    acts(bus, "e e");
    replies(bus, 2, 0, 34, UAS_REPLY_STATUS, UAS_GOOD, 0);
    CHECK(submitted(bus, 2, 34, 2, ready, 0, 0) == 0);
    acts(bus, "c s48 c s34 e e e e");
    replies(bus, 2, 1, 48, UAS_REPLY_TASK, UAS_RESPONSE_COMPLETE, 0);
    replies(bus, 2, 2, 34, UAS_REPLY_STATUS, UAS_GOOD, 0);
    no_reply(bus, 2);
    uas_bus_free(bus);
}

/* A query is answered by what the device has as it receives it: the command, then nothing once its status was sent, and nothing where its
 * tag holds a later command. It ends none of them. */
static void bus_query(void)
{
    uas_bus *bus = new_bus(3, 100);
    CHECK(submitted(bus, 2, 34, 0, ready, 0, 0) == 0);
    CHECK(uas_bus_task(bus, 2, 1, UAS_QUERY_TASK, 33) == UAS_CLIENT_NO_SUCH_TASK);
    CHECK(uas_bus_task(bus, 2, 1, UAS_QUERY_TASK, 34) == 0);
    acts(bus, "c c s48 e e e");
    replies(bus, 2, 1, 48, UAS_REPLY_TASK, UAS_RESPONSE_SUCCEEDED, 0);
    no_reply(bus, 2);
    acts(bus, "s34");
    CHECK(uas_bus_task(bus, 2, 2, UAS_QUERY_TASK, 34) == 0);
    acts(bus, "c s48 e e e");
    replies(bus, 2, 0, 34, UAS_REPLY_STATUS, UAS_GOOD, 0);
    replies(bus, 2, 2, 48, UAS_REPLY_TASK, UAS_RESPONSE_COMPLETE, 0);
    CHECK(submitted(bus, 2, 34, 3, ready, 0, 0) == 0);
    acts(bus, "c s34");
    CHECK(uas_bus_task(bus, 2, 4, UAS_QUERY_TASK, 34) == 0);
    acts(bus, "e e");
    replies(bus, 2, 3, 34, UAS_REPLY_STATUS, UAS_GOOD, 0);
    CHECK(submitted(bus, 2, 34, 5, ready, 0, 0) == 0);
    acts(bus, "c c s48 e e e");
    replies(bus, 2, 4, 48, UAS_REPLY_TASK, UAS_RESPONSE_COMPLETE, 0);
    acts(bus, "s34 e");
    replies(bus, 2, 5, 34, UAS_REPLY_STATUS, UAS_GOOD, 0);
    uas_bus_free(bus);
}

/* A TD of client 2 is retired beside a READ of client 3 on the same pipe: while the pipe is held nothing moves on it, and then the READ
 * goes on with its tenth TRB. */
static void bus_retirement_beside_read(void)
{
    uas_bus *bus = new_bus(4, 200);
    CHECK(submitted(bus, 2, 33, 0, ready, 0, 0) == 0);
    CHECK(submitted(bus, 2, 34, 1, reads(0, 24), 0x77, 24 * 512) == 0);
    CHECK(submitted(bus, 3, 49, 0, ready, 0, 0) == 0);
    CHECK(submitted(bus, 3, 50, 1, reads(0, 128), 0x77, 65536) == 0);
    acts(bus, "c c c c d50 d50 d50 d50 d50 d50 d50 d50 d50");
    CHECK(uas_bus_task(bus, 2, 2, UAS_ABORT_TASK, 34) == 0);
    acts(bus, "c s48 e e e e e e ri34");
    is_idle(bus, UAS_STEP_RETIRE, UAS_PIPE_STATUS, 34);
    acts(bus, "g");
    is_idle(bus, UAS_STEP_DATA, 0, 50);
    acts(bus, "e g");
    is_idle(bus, UAS_STEP_DATA, 0, 50);
    acts(bus, "e d50");
    drains(bus);
    replies(bus, 2, 2, 48, UAS_REPLY_TASK, UAS_RESPONSE_COMPLETE, 0);
    replies(bus, 2, 0, 33, UAS_REPLY_STATUS, UAS_GOOD, 0);
    replies(bus, 2, 1, 34, UAS_REPLY_ABORTED, 0, 24 * 512);
    CHECK(all_are(bytes_of_replies, 24 * 512, 0x77));
    replies(bus, 3, 0, 49, UAS_REPLY_STATUS, UAS_GOOD, 0);
    replies(bus, 3, 1, 50, UAS_REPLY_STATUS, UAS_GOOD, 65536);
    CHECK(all_are(bytes_of_replies, 65536, 0));
    uas_bus_free(bus);
}

/* Images and bad blocks of a bus: client 0 writes over a bad block, client 1 reads one, and its other blocks. */
static void bus_of_images(void)
{
    static uint8_t data[24 * 512];
    uas_bus *bus = NULL;
    CHECK(uas_bus_open(image_blocks, 2, two_images(), 512 * IMAGE_BLOCKS, three_bad, 4, NULL, &bus) == 0);
    CHECK(submitted(bus, 0, 1, 0, writes(4, 16), 0xaa, 16 * 512) == 0);
    CHECK(submitted(bus, 1, 17, 0, reads(1, 2), 0x77, 1024) == 0);
    CHECK(submitted(bus, 1, 18, 1, reads(1, 1), 0x77, 512) == 0);
    drains(bus);
    replies_check(bus, 0, 0, 1, 16 * 512, "70 00 03 00 00 00 00 0a 00 00 00 00 0c 00 00 00 00 00");
    replies(bus, 1, 1, 18, UAS_REPLY_STATUS, UAS_GOOD, 512);
    CHECK(all_are(bytes_of_replies, 512, 102));
    replies_check(bus, 1, 0, 17, 1024, "70 00 03 00 00 00 00 0a 00 00 00 00 11 00 00 00 00 00");
    CHECK(all_are(bytes_of_replies, 1024, 0x77));
    CHECK(uas_bus_blocks(bus, 0, 0, data, 24 * 512) == 0);
    CHECK(memcmp(data, two_images(), 4 * 512) == 0 && all_are(data + 4 * 512, 8 * 512, 0xaa));
    CHECK(memcmp(data + 12 * 512, two_images() + 12 * 512, 12 * 512) == 0);
    CHECK(uas_bus_medium(bus, 0, 0, data, 24 * 512) == 0 && memcmp(data, two_images(), 24 * 512) == 0);
    uas_bus_free(bus);
}

/* Each call on a handle that has data takes none of it at a null pointer, and answers as of any other. */
static void no_data_at_null(void)
{
    uas_device *device = new_device(1, 10);
    uas_controller *controller = new_controller(1, 10);
    uas_driver *driver = new_driver(1);
    uas_bus *bus = new_bus(1, 10);
    struct uas_driver_door told;
    struct uas_bus_door got;
    uint8_t ended[32];
    uint16_t tag = 7;
    uint32_t length = 7;
    bool good = true;
    CHECK(uas_device_receive(device, NULL, 0, &tag) == 0 && tag == 0);
    tag = 7;
    CHECK(uas_device_receive_ended(device, NULL, 0, &tag, ended) == 0 && tag == 0 && all_are(ended, 32, 0));
    CHECK(uas_device_give(device, 1, NULL, 0, &good) == UAS_DEVICE_PHASE && uas_device_take(device, 1, NULL, 0, &good) == UAS_DEVICE_PHASE);
    begins(device, 1, 0, (struct uas_operation){ .opcode = UAS_READ_10, .count = 1 });
    begins(device, 2, 0, (struct uas_operation){ .opcode = UAS_WRITE_10, .count = 1 });
    begins(device, 3, 0, ready);
    CHECK(uas_device_give(device, 1, NULL, 0, &good) == UAS_DEVICE_LENGTH && uas_device_take(device, 2, NULL, 0, &good) == UAS_DEVICE_LENGTH);
    CHECK(uas_device_status(device, 3, NULL, 0, &length) == UAS_DEVICE_LENGTH && uas_device_status(device, 1, NULL, 0, &length) == UAS_DEVICE_PHASE);
    CHECK(uas_device_blocks(device, 0, 10, NULL, 0) == 0 && uas_device_medium(device, 0, 0, NULL, 0) == 0);
    CHECK(uas_controller_write(controller, 0, NULL, 0) == 0 && uas_controller_read(controller, 0x10000100, NULL, 0) == 0);
    CHECK(uas_controller_lend(controller, 1, NULL, 0) == 0 && uas_controller_take_back(controller, 1, NULL, 0, &length) == 0 && length == 0);
    CHECK(uas_controller_blocks(controller, 0, 10, NULL, 0) == 0 && uas_controller_medium(controller, 0, 0, NULL, 0) == 0);
    CHECK(uas_driver_submit(driver, 0, 1, 0, &ready, NULL, 0, &told) == 0 && uas_driver_reply(driver, 0, NULL, 0, &told) == UAS_CLIENT_LENGTH);
    CHECK(uas_driver_read(driver, 0x10000100, NULL, 0) == 0 && uas_driver_write(driver, 0x20000100, NULL, 0) == 0);
    CHECK(uas_bus_submit(bus, 0, 1, 0, &ready, NULL, 0) == 0 && uas_bus_reply(bus, 0, NULL, 0, &got) == UAS_CLIENT_LENGTH);
    CHECK(uas_bus_blocks(bus, 0, 10, NULL, 0) == 0 && uas_bus_medium(bus, 0, 0, NULL, 0) == 0);
    uas_device_free(device);
    uas_controller_free(controller);
    uas_driver_free(driver);
    uas_bus_free(bus);
}

static void bus_refuses(void)
{
    uas_bus *bus = new_bus(2, 100);
    uint8_t data[1024];
    uint64_t taken = 7777;
    bool quiet = true;
    struct uas_operation odd = { .opcode = 0x8e };
    CHECK(submitted(bus, 0, 1, 0, odd, 0, 0) == UAS_CLIENT_OPERATION);
    CHECK(submitted(bus, 0, 1, 0, reads(0, 65536), 0, 512) == UAS_CLIENT_OPERATION);
    CHECK(submitted(bus, 0, 1, (uint64_t)1 << 60, odd, 0, 0) == UAS_CLIENT_TICKET);
    CHECK(submitted(bus, 2, 33, 0, ready, 0, 0) == UAS_CLIENT_NOT_YOURS);
    CHECK(submitted(bus, 0, 17, 0, ready, 0, 0) == UAS_CLIENT_NOT_YOURS);
    CHECK(submitted(bus, 0, 16, 0, ready, 0, 0) == UAS_CLIENT_NOT_YOURS);
    CHECK(submitted(bus, 0, 0, 0, ready, 0, 0) == UAS_CLIENT_NOT_YOURS);
    CHECK(submitted(bus, 0, 1, 0, reads(0, 1), 0, 511) == UAS_CLIENT_BAD_LENGTH);
    CHECK(submitted(bus, 0, 1, 0, reads(0, 129), 0, 129 * 512) == UAS_CLIENT_TOO_LONG);
    CHECK(submitted(bus, 0, 1, 0, reads(0, 129), 0, 129 * 512 - 1) == UAS_CLIENT_BAD_LENGTH);
    drains(bus);
    CHECK(uas_bus_drain(bus, 0, &taken, &quiet) == 0 && taken == 0 && !quiet);
    no_reply(bus, 0);

    CHECK(submitted(bus, 0, 1, 5, ready, 0, 0) == 0);
    CHECK(submitted(bus, 0, 1, 6, ready, 0, 0) == UAS_CLIENT_IN_USE);
    CHECK(submitted(bus, 0, 2, 5, ready, 0, 0) == UAS_CLIENT_OUT_OF_TURN);
    CHECK(uas_bus_submit(bus, 1, 17, 0, &ready, NULL, 0) == 0);
    CHECK(uas_bus_task(bus, 0, 4, UAS_ABORT_TASK, 1) == UAS_CLIENT_OUT_OF_TURN);
    CHECK(uas_bus_task(bus, 0, 6, UAS_ABORT_TASK, 2) == UAS_CLIENT_NO_SUCH_TASK);
    CHECK(uas_bus_task(bus, 0, 6, UAS_ABORT_TASK, 17) == UAS_CLIENT_NO_SUCH_TASK);
    CHECK(uas_bus_task(bus, 0, 6, 2, 1) == UAS_CLIENT_FUNCTION);
    CHECK(uas_bus_task(bus, 0, (uint64_t)1 << 60, 2, 1) == UAS_CLIENT_TICKET);
    CHECK(uas_bus_task(bus, 2, 6, UAS_LOGICAL_UNIT_RESET, 0) == UAS_CLIENT_NOT_YOURS);
    /* Each takes four steps: carried, its status moved, two events. */
    CHECK(uas_bus_drain(bus, 3, &taken, &quiet) == 0 && taken == 3 && !quiet);
    drains(bus);
    replies(bus, 0, 5, 1, UAS_REPLY_STATUS, UAS_GOOD, 0);
    replies(bus, 1, 0, 17, UAS_REPLY_STATUS, UAS_GOOD, 0);

    is_idle(bus, UAS_STEP_COMMAND, 0, 0);
    is_idle(bus, UAS_STEP_DATA, 0, 65535);
    is_idle(bus, UAS_STEP_STATUS, 0, 0);
    is_idle(bus, UAS_STEP_ENGINE, 0, 0);
    is_idle(bus, UAS_STEP_EVENT, 0, 0);
    is_idle(bus, UAS_STEP_RETIRE, UAS_PIPE_DATA_IN, 1);
    bool acted = true;
    int owner = 7;
    CHECK(uas_bus_step(bus, 0, 0, 0, &acted, &owner) == UAS_BUS_STEP);
    CHECK(uas_bus_step(bus, 7, 0, 0, &acted, &owner) == UAS_BUS_STEP);
    CHECK(uas_bus_step(bus, UAS_STEP_RETIRE, 0, 1, &acted, &owner) == UAS_BUS_STEP);
    CHECK(uas_bus_due(bus, UAS_STEP_RETIRE, 4, 1, &acted) == UAS_BUS_STEP);
    CHECK(acted && owner == 7);

    memset(data, 0xee, sizeof data);
    struct uas_bus_door got;
    no_reply(bus, 2);
    no_reply(bus, 0xffffffff);
    CHECK(uas_bus_reply(bus, 2, data, 0, &got) == UAS_CLIENT_LENGTH);
    CHECK(uas_bus_blocks(bus, 2, 0, data, 512) == UAS_BUS_CLIENT);
    CHECK(uas_bus_blocks(bus, 0, 99, data, 1024) == UAS_BUS_RANGE);
    CHECK(uas_bus_medium(bus, 0, 0xffffffff, data, 512) == UAS_BUS_RANGE);
    CHECK(uas_bus_medium(bus, 0, 0, data, 513) == UAS_CLIENT_LENGTH);
    CHECK(all_are(data, sizeof data, 0xee));
    memset(&got, 0xee, sizeof got);
    got.call = 6;
    CHECK(uas_bus_call(bus, &got, data, 0) == UAS_CLIENT_CALL);
    got.call = 10;
    CHECK(uas_bus_call(bus, &got, data, 0) == UAS_CLIENT_CALL);
    got.call = 0xee;
    CHECK(all_are((const uint8_t *)&got, sizeof got, 0xee));
    uas_bus_free(bus);
}

static void bus_new_faults(void)
{
    uint32_t blocks[16];
    uas_bus *bus = NULL;
    for (int i = 0; i < 16; i++)
        blocks[i] = 1;
    CHECK(uas_bus_new(blocks, 0, &bus) == UAS_UNITS);
    CHECK(uas_bus_new(blocks, 16, &bus) == UAS_UNITS);
    blocks[14] = 0;
    CHECK(uas_bus_new(blocks, 15, &bus) == UAS_BLOCKS);
    blocks[14] = 65537;
    CHECK(uas_bus_new(blocks, 15, &bus) == UAS_BLOCKS);
    CHECK(bus == NULL);
    blocks[14] = 65536;
    CHECK(uas_bus_new(blocks, 15, &bus) == 0 && bus != NULL);
    CHECK(submitted(bus, 14, 225, 0, (struct uas_operation){ .opcode = UAS_READ_CAPACITY_10 }, 0, 8) == 0);
    drains(bus);
    replies(bus, 14, 0, 225, UAS_REPLY_STATUS, UAS_GOOD, 8);
    CHECK_BYTES(bytes_of_replies, 8, "00 00 ff ff 00 00 02 00");
    uas_bus_free(bus);
}

/* A bus of `clients` clients with `tags` tags each, of blocks that hold nothing. */
static uint8_t opens_bus(size_t clients, uint32_t size, uint32_t tags, uas_bus **bus)
{
    static const struct uas_bad_block none = { 0 };
    const uint8_t image = 0;
    uint32_t blocks[32];
    for (int i = 0; i < 32; i++)
        blocks[i] = 3;
    return uas_bus_open(blocks, clients, &image, 0, &none, 0, &(struct uas_bus_options){ size, tags }, bus);
}

static void bus_of_other_tags(void)
{
    uas_bus *bus = NULL;
    CHECK(opens_bus(1, 8, 1, &bus) == UAS_TAGS && opens_bus(1, 8, 17, &bus) == UAS_TAGS && opens_bus(0, 8, 17, &bus) == UAS_TAGS);
    CHECK(opens_bus(32, 8, 8, &bus) == UAS_UNITS && opens_bus(0, 8, 8, &bus) == UAS_UNITS && opens_bus(28, 8, 9, &bus) == UAS_UNITS);
    /* What isn't there by `size`, and 0, are 16 tags. */
    CHECK(opens_bus(16, 8, 0, &bus) == UAS_UNITS && opens_bus(16, 4, 8, &bus) == UAS_UNITS && opens_bus(16, 8, 16, &bus) == UAS_UNITS);
    CHECK(bus == NULL && opens_bus(31, 8, 8, &bus) == UAS_OK);
    /* The last client's tags are 241 to 248, its eighth for task management. */
    CHECK(submitted(bus, 30, 240, 0, ready, 0, 0) == UAS_CLIENT_NOT_YOURS && submitted(bus, 30, 248, 0, ready, 0, 0) == UAS_CLIENT_NOT_YOURS);
    CHECK(submitted(bus, 30, 247, 0, ready, 0, 0) == 0 && submitted(bus, 0, 1, 0, ready, 0, 0) == 0);
    drains(bus);
    replies(bus, 30, 0, 247, UAS_REPLY_STATUS, UAS_GOOD, 0);
    replies(bus, 0, 0, 1, UAS_REPLY_STATUS, UAS_GOOD, 0);
    uas_bus_free(bus);
    /* With two tags a client has one for commands. */
    bus = NULL;
    CHECK(opens_bus(31, 8, 2, &bus) == UAS_OK);
    CHECK(submitted(bus, 30, 62, 0, ready, 0, 0) == UAS_CLIENT_NOT_YOURS && submitted(bus, 30, 61, 0, ready, 0, 0) == 0);
    drains(bus);
    replies(bus, 30, 0, 61, UAS_REPLY_STATUS, UAS_GOOD, 0);
    uas_bus_free(bus);
}

int main(void)
{
    trb_texts();
    trb_faults();
    unit_texts();
    unit_faults();
    cdb_texts();
    cdb_faults();
    data_texts();
    device_new_faults();
    device_answers();
    device_moves();
    device_manages();
    device_refuses();
    open_faults();
    device_of_images();
    device_tells_tasks();
    device_resets();
    controller_new_faults();
    controller_steps_over();
    controller_tells_own();
    controller_reads();
    controller_lengths();
    controller_stops();
    controller_rings();
    controller_full_of_events();
    controller_refuses();
    controller_of_images();
    driver_new_faults();
    driver_answers();
    driver_reads();
    driver_retires();
    driver_recovers();
    driver_recovers_without_td();
    driver_gives_a_pipe_up();
    driver_gives_up();
    driver_aborts();
    driver_leaves_nothing();
    driver_without_room();
    driver_refuses();
    bus_new_faults();
    bus_of_two();
    bus_read_sees_write();
    bus_out_of_range();
    bus_abort();
    bus_reset();
    bus_reused_tag();
    bus_query();
    bus_retirement_beside_read();
    bus_refuses();
    bus_of_images();
    bus_of_other_tags();
    no_data_at_null();
    return tell("worked");
}
