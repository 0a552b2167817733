/* The header's numbers against the library: faults and their names, the greatest of everything, flags, rings, buffers, endpoints, contexts,
 * doorbells, the version. tests/c/wrong-constants changes each constant of the header in turn; this file or worked.c has to meet it. */
#include "check.h"
#include "uas.h"

/* ---- Faults ---- */

/* The numbers as they were given out, each for good. */
#define FAULT(name, number) { name, number, #name }

static const struct {
    int constant, number;
    const char *name;
} faults[] = {
    FAULT(UAS_OK, 0), FAULT(UAS_NO_MEMORY, 1),
    FAULT(UAS_TRB_UNKNOWN_TYPE, 16), FAULT(UAS_TRB_LENGTH_OVER, 17), FAULT(UAS_TRB_RESERVED_SET, 18), FAULT(UAS_TRB_UNFIT, 19),
    FAULT(UAS_UNIT_UNKNOWN_ID, 32), FAULT(UAS_UNIT_SHORT, 33), FAULT(UAS_UNIT_LONG, 34), FAULT(UAS_UNIT_RESERVED_SET, 35),
    FAULT(UAS_UNIT_LENGTH_FIELD, 36), FAULT(UAS_UNIT_UNFIT, 37), FAULT(UAS_UNIT_NO_ROOM, 38),
    FAULT(UAS_CDB_CHECK, 48), FAULT(UAS_CDB_UNKNOWN_OPCODE, 49), FAULT(UAS_CDB_UNFIT, 50), FAULT(UAS_CAPACITY_NO_BLOCKS, 51),
    FAULT(UAS_UNITS, 56), FAULT(UAS_BLOCKS, 57), FAULT(UAS_IMAGE, 58), FAULT(UAS_BAD_BLOCK, 59), FAULT(UAS_TAGS, 60),
    FAULT(UAS_DEVICE_CALL, 64), FAULT(UAS_DEVICE_OVERLAP, 65), FAULT(UAS_DEVICE_PHASE, 66), FAULT(UAS_DEVICE_LENGTH, 67),
    FAULT(UAS_DEVICE_UNIT, 68), FAULT(UAS_DEVICE_RANGE, 69),
    FAULT(UAS_CONTROLLER_CALL, 80), FAULT(UAS_CONTROLLER_RING, 81), FAULT(UAS_CONTROLLER_FULL, 82), FAULT(UAS_CONTROLLER_STEP, 83),
    FAULT(UAS_CONTROLLER_ADDRESS, 84), FAULT(UAS_CONTROLLER_TAG, 85), FAULT(UAS_CONTROLLER_LENGTH, 86), FAULT(UAS_CONTROLLER_LENT, 87),
    FAULT(UAS_CONTROLLER_NOT_LENT, 88), FAULT(UAS_CONTROLLER_NOT_CONSUMED, 89), FAULT(UAS_CONTROLLER_UNIT, 90), FAULT(UAS_CONTROLLER_RANGE, 91),
    FAULT(UAS_CLIENT_NOT_YOURS, 96), FAULT(UAS_CLIENT_IN_USE, 97), FAULT(UAS_CLIENT_BAD_LENGTH, 98), FAULT(UAS_CLIENT_TOO_LONG, 99),
    FAULT(UAS_CLIENT_OUT_OF_TURN, 100), FAULT(UAS_CLIENT_NO_SUCH_TASK, 101), FAULT(UAS_CLIENT_CALL, 102), FAULT(UAS_CLIENT_OPERATION, 103),
    FAULT(UAS_CLIENT_TICKET, 104), FAULT(UAS_CLIENT_LENGTH, 105), FAULT(UAS_CLIENT_FUNCTION, 106),
    FAULT(UAS_DRIVER_CLIENTS, 112), FAULT(UAS_DRIVER_ROOM, 113), FAULT(UAS_DRIVER_ADDRESS, 114), FAULT(UAS_DRIVER_RING, 115),
    FAULT(UAS_DRIVER_EVENT, 116), FAULT(UAS_DRIVER_STATE, 117),
    FAULT(UAS_BUS_STEP, 128), FAULT(UAS_BUS_CLIENT, 129), FAULT(UAS_BUS_RANGE, 130),
    FAULT(UAS_TASKS_CALL, 144), FAULT(UAS_TASKS_OVERLAP, 145), FAULT(UAS_TASKS_PHASE, 146), FAULT(UAS_TASKS_LENGTH, 147),
    FAULT(UAS_TASKS_NOT_OUT, 148), FAULT(UAS_TASKS_BLOCK_BYTES, 149), FAULT(UAS_TASKS_SERIAL, 150), FAULT(UAS_TASKS_SET, 151),
    FAULT(UAS_TASKS_CHUNK, 152), FAULT(UAS_TASKS_SIZE, 153), FAULT(UAS_TASKS_DISK, 154), FAULT(UAS_TASKS_PLACE, 155),
    FAULT(UAS_XHCI_MANY, 160), FAULT(UAS_XHCI_WRAPS, 161), FAULT(UAS_XHCI_OVERLAP, 162), FAULT(UAS_XHCI_NULL, 163),
    FAULT(UAS_XHCI_OUT, 164), FAULT(UAS_XHCI_ROOM, 165), FAULT(UAS_XHCI_SHORT, 166), FAULT(UAS_XHCI_MAGIC, 167), FAULT(UAS_XHCI_VERSION, 168),
    FAULT(UAS_XHCI_LENGTH, 169), FAULT(UAS_XHCI_SUM, 170), FAULT(UAS_XHCI_SHAPE, 171), FAULT(UAS_XHCI_VALUE, 172),
    FAULT(UAS_BLOCK_CALL, 176), FAULT(UAS_BLOCK_OPTIONS, 177), FAULT(UAS_BLOCK_NOT_ASKED, 178),
    FAULT(UAS_BLOCK_LENGTH, 179), FAULT(UAS_BLOCK_ALIGNMENT, 180), FAULT(UAS_BLOCK_REACH, 181),
    FAULT(UAS_BLOCK_NOT_READY, 182), FAULT(UAS_BLOCK_OTHER_DISK, 183), FAULT(UAS_BLOCK_RANGE, 184),
    FAULT(UAS_BLOCK_TOO_LONG, 185), FAULT(UAS_BLOCK_NO_UNMAP, 186), FAULT(UAS_BLOCK_NO_FUA, 187),
    FAULT(UAS_BLOCK_PIECES, 188), FAULT(UAS_BLOCK_NO_TAG, 189), FAULT(UAS_BLOCK_NO_SUCH_TAG, 190),
};

static void faults_have_names(void)
{
    int named = 0, count = sizeof faults / sizeof faults[0];
    for (int number = 0; number < 256; number++) {
        const char *name = uas_fault_name((uint8_t)number), *wanted = NULL;
        for (int i = 0; i < count; i++)
            if (faults[i].number == number)
                wanted = faults[i].name;
        bool same = name == NULL || wanted == NULL ? name == wanted : strcmp(name, wanted) == 0;
        if (!CHECK(same))
            fprintf(stderr, "    %d: %s for %s\n", number, name != NULL ? name : "-", wanted != NULL ? wanted : "-");
        named += name != NULL;
        /* A fault that has a name has a sentence of its own words, and no other number has one. */
        const char *text = uas_fault_text((uint8_t)number);
        CHECK((text != NULL) == (name != NULL));
        CHECK(text == NULL || (strlen(text) > 8 && text[0] >= 'A' && text[0] <= 'Z' && text[strlen(text) - 1] == '.'));
    }
    CHECK(named == count);
    for (int i = 0; i < count; i++)
        if (!CHECK(faults[i].constant == faults[i].number))
            fprintf(stderr, "    %s is %d\n", faults[i].name, faults[i].constant);
}

static void version(void)
{
    CHECK(uas_version() == 0x00010000);
    CHECK(uas_version() == ((uint32_t)UAS_VERSION_MAJOR << 16 | UAS_VERSION_MINOR));
    CHECK(UAS_VERSION_MAJOR == uas_version() >> 16);
}

/* ---- The greatest of everything ---- */

static void most_of_units(void)
{
    uint32_t blocks[UAS_MOST_UNITS + 1];
    uint8_t data[2 * UAS_BLOCK_BYTES], capacity[8];
    uas_device *device = NULL;
    for (int i = 0; i <= UAS_MOST_UNITS; i++)
        blocks[i] = 1;
    CHECK(uas_device_new(blocks, UAS_MOST_UNITS + 1, &device) == UAS_UNITS);
    CHECK(uas_device_new(blocks, UAS_MOST_UNITS, &device) == UAS_OK);
    CHECK(uas_device_blocks(device, UAS_MOST_UNITS - 1, 0, data, UAS_BLOCK_BYTES) == UAS_OK);
    CHECK(uas_device_blocks(device, 0, 0, data, 2 * UAS_BLOCK_BYTES) == UAS_DEVICE_RANGE);
    CHECK(uas_capacity_data(1, capacity) == UAS_OK && capacity[6] * 256 + capacity[7] == UAS_BLOCK_BYTES);
    uas_device_free(device);
    blocks[0] = UAS_MOST_BLOCKS + 1;
    device = NULL;
    CHECK(uas_device_new(blocks, 1, &device) == UAS_BLOCKS && device == NULL);
    blocks[0] = UAS_MOST_BLOCKS;
    CHECK(uas_device_new(blocks, 1, &device) == UAS_OK);
    CHECK(uas_device_blocks(device, 0, UAS_MOST_BLOCKS - 1, data, UAS_BLOCK_BYTES) == UAS_OK);
    uas_device_free(device);
}

static void most_of_commands(void)
{
    struct uas_operation read = { .opcode = UAS_READ_10, .count = UAS_MOST_BLOCKS_MOVED }, asked;
    struct uas_sense sense;
    uint8_t cdb[16];
    CHECK(uas_cdb_write(&read, cdb) == UAS_OK && uas_cdb_parse(cdb, UAS_MOST_BLOCKS, &asked, &sense) == UAS_OK);
    CHECK(asked.bytes == UAS_MOST_DATA_BYTES && asked.bytes == (uint64_t)UAS_MOST_BLOCKS_MOVED * UAS_BLOCK_BYTES);
    read.count = UAS_MOST_BLOCKS_MOVED + 1;
    CHECK(uas_cdb_write(&read, cdb) == UAS_OK && uas_cdb_parse(cdb, UAS_MOST_BLOCKS, &asked, &sense) == UAS_CDB_CHECK && sense.asc == 0x24);
}

static void most_of_information_units(void)
{
    struct uas_unit unit = { .id = UAS_UNIT_SENSE, .tag = 1, .sense_length = UAS_MOST_SENSE_BYTES };
    uint8_t bytes[256] = { 0 };
    size_t length = 0;
    uint16_t tag = 7;
    uint32_t one = 1;
    uas_device *device = NULL;
    CHECK(uas_unit_write(&unit, bytes, UAS_MOST_UNIT_BYTES, &length) == UAS_OK && length == UAS_MOST_UNIT_BYTES);
    CHECK(uas_unit_write(&unit, bytes, UAS_MOST_UNIT_BYTES - 1, &length) == UAS_UNIT_NO_ROOM);
    CHECK(sizeof unit.sense == UAS_MOST_SENSE_BYTES);
    unit.sense_length = UAS_MOST_SENSE_BYTES + 1;
    CHECK(uas_unit_write(&unit, bytes, sizeof bytes, &length) == UAS_UNIT_UNFIT);
    CHECK(uas_device_new(&one, 1, &device) == UAS_OK);
    unit = (struct uas_unit){ .id = UAS_UNIT_COMMAND, .tag = UAS_GREATEST_TAG };
    CHECK(uas_unit_write(&unit, bytes, sizeof bytes, &length) == UAS_OK);
    CHECK(uas_device_receive(device, bytes, length, &tag) == UAS_OK && tag == UAS_GREATEST_TAG);
    unit.tag = UAS_GREATEST_TAG + 1;
    CHECK(uas_unit_write(&unit, bytes, sizeof bytes, &length) == UAS_OK);
    CHECK(uas_device_receive(device, bytes, length, &tag) == UAS_OK && tag == 0);
    uas_device_free(device);
}

static void most_of_memory(void)
{
    static uint8_t data[UAS_MOST_DATA_BYTES + 1];
    static const uint32_t blocks[2] = { 8, 8 };
    static const struct uas_operation ready = { .opcode = UAS_TEST_UNIT_READY };
    struct uas_bus_door reply;
    uas_controller *controller = NULL;
    uas_bus *bus = NULL;
    CHECK(uas_controller_new(blocks, 1, &controller) == UAS_OK && uas_bus_new(blocks, 2, &bus) == UAS_OK);
    CHECK(uas_controller_lend(controller, 1, data, UAS_MOST_DATA_BYTES + 1) == UAS_CONTROLLER_LENGTH);
    CHECK(uas_controller_lend(controller, 1, data, UAS_MOST_DATA_BYTES) == UAS_OK);
    CHECK(uas_bus_reply(bus, 0, data, UAS_MOST_DATA_BYTES - 1, &reply) == UAS_CLIENT_LENGTH);
    CHECK(uas_bus_reply(bus, 0, data, UAS_MOST_DATA_BYTES, &reply) == UAS_OK);
    /* The tags of two clients. */
    CHECK(uas_bus_submit(bus, 0, UAS_CLIENT_TAGS - 1, 0, &ready, NULL, 0) == UAS_OK);
    CHECK(uas_bus_submit(bus, 0, UAS_CLIENT_TAGS, 1, &ready, NULL, 0) == UAS_CLIENT_NOT_YOURS);
    CHECK(uas_bus_submit(bus, 1, UAS_CLIENT_TAGS + 1, 0, &ready, NULL, 0) == UAS_OK);
    uas_controller_free(controller);
    uas_bus_free(bus);
}

/* ---- Numbers in bytes ---- */

/* Flags of a Normal TRB (6.4.1.1): their bits of the last four bytes. */
static void flags(void)
{
    static const struct {
        uint8_t flag, bit;
    } bits[] = { { UAS_TRB_ENT, 1 }, { UAS_TRB_ISP, 2 }, { UAS_TRB_NS, 3 }, { UAS_TRB_CH, 4 }, { UAS_TRB_IOC, 5 }, { UAS_TRB_IDT, 6 }, { UAS_TRB_BEI, 9 } };
    uint8_t bytes[16];
    struct uas_trb read;
    for (size_t i = 0; i < sizeof bits / sizeof bits[0]; i++) {
        const struct uas_trb trb = { .type = UAS_TRB_NORMAL, .flags = bits[i].flag };
        CHECK(uas_trb_encode(&trb, bytes) == UAS_OK);
        if (!CHECK((bytes[12] | bytes[13] << 8) == (1 << 10 | 1 << bits[i].bit)))
            fprintf(stderr, "    bit %u\n", bits[i].bit);
        CHECK(uas_trb_decode(bytes, &read) == UAS_OK && read.flags == bits[i].flag);
    }
}

/* The byte 0 of each information unit that the library writes, and the fields of a Response. */
static void bytes_of_information_units(void)
{
    static const uint8_t ids[] = { UAS_UNIT_COMMAND, UAS_UNIT_SENSE, UAS_UNIT_RESPONSE, UAS_UNIT_TASK };
    static const size_t lengths[] = { 32, 16, 8, 16 };
    static const uint8_t wanted[] = { 1, 3, 4, 5 };
    uint8_t bytes[UAS_MOST_UNIT_BYTES];
    for (int i = 0; i < 4; i++) {
        const struct uas_unit unit = { .id = ids[i], .tag = 1 };
        size_t length = 0;
        CHECK(uas_unit_write(&unit, bytes, sizeof bytes, &length) == UAS_OK && length == lengths[i] && bytes[0] == wanted[i]);
    }
}

/* What a device answers a task management: the functions and the response codes. */
static void responses(void)
{
    static const struct {
        uint8_t function, unit, code, named;
    } rows[] = {
        { UAS_ABORT_TASK, 0, UAS_RESPONSE_COMPLETE, 0x00 },          { UAS_LOGICAL_UNIT_RESET, 0, UAS_RESPONSE_COMPLETE, 0x00 },
        { UAS_QUERY_TASK, 0, UAS_RESPONSE_COMPLETE, 0x00 },          { UAS_QUERY_TASK, 0, UAS_RESPONSE_SUCCEEDED, 0x08 },
        { UAS_LOGICAL_UNIT_RESET, 1, UAS_RESPONSE_INCORRECT_LUN, 9 }, { 2, 0, UAS_RESPONSE_NOT_SUPPORTED, 4 },
    };
    uint32_t one = 1, length32 = 0;
    for (size_t i = 0; i < sizeof rows / sizeof rows[0]; i++) {
        uint8_t bytes[UAS_MOST_UNIT_BYTES];
        size_t length = 0;
        uint16_t tag = 0;
        uas_device *device = NULL;
        CHECK(uas_device_new(&one, 1, &device) == UAS_OK);
        const struct uas_unit command = { .id = UAS_UNIT_COMMAND, .tag = 2 };
        struct uas_unit task = { .id = UAS_UNIT_TASK, .tag = 9, .task_tag = 2, .lun = { 0, rows[i].unit }, .function = rows[i].function };
        if (rows[i].code == UAS_RESPONSE_SUCCEEDED)
            CHECK(uas_unit_write(&command, bytes, sizeof bytes, &length) == UAS_OK && uas_device_receive(device, bytes, length, &tag) == UAS_OK);
        CHECK(uas_unit_write(&task, bytes, sizeof bytes, &length) == UAS_OK && uas_device_receive(device, bytes, length, &tag) == UAS_OK && tag == 9);
        CHECK(uas_device_status(device, 9, bytes, sizeof bytes, &length32) == UAS_OK && length32 == 8);
        CHECK(bytes[0] == UAS_UNIT_RESPONSE && bytes[7] == rows[i].code && bytes[7] == rows[i].named);
        uas_device_free(device);
    }
}

/* ---- Where things lie ---- */

static void ring_is(uint8_t ring, uint16_t stream, size_t place, uint64_t address)
{
    uint8_t at_ring = 0xee;
    uint16_t at_stream = 0xeeee;
    size_t at_place = 7777;
    if (!CHECK(uas_ring_address(ring, stream, place) == address))
        fprintf(stderr, "    ring %u, stream %u, place %zu\n", ring, stream, place);
    CHECK(uas_ring_place(address, &at_ring, &at_stream, &at_place));
    CHECK(at_ring == ring && at_stream == stream && at_place == place);
}

static void no_place(uint64_t address)
{
    uint8_t ring = 0xee;
    uint16_t stream = 0xeeee;
    size_t place = 7777;
    if (!CHECK(!uas_ring_place(address, &ring, &stream, &place)))
        fprintf(stderr, "    %llx\n", (unsigned long long)address);
    CHECK(ring == 0xee && stream == 0xeeee && place == 7777);
}

static void places(void)
{
    ring_is(UAS_RING_COMMAND_PIPE, 0, 0, 0x41000000);
    ring_is(UAS_RING_COMMAND_PIPE, 0, 255, 0x41000ff0);
    ring_is(UAS_RING_STATUS, 1, 0, 0x42001000);
    ring_is(UAS_RING_STATUS, 248, 19, 0x420f8130);
    ring_is(UAS_RING_DATA_IN, 18, 1, 0x43012010);
    ring_is(UAS_RING_DATA_OUT, 248, 18, 0x440f8120);
    ring_is(UAS_RING_COMMANDS, 0, 0, 0x50000000);
    ring_is(UAS_RING_COMMANDS, 0, 15, 0x500000f0);
    CHECK(uas_ring_address(0, 0, 0) == 0 && uas_ring_address(6, 0, 0) == 0 && uas_ring_address(255, 1, 0) == 0);
    CHECK(uas_ring_address(UAS_RING_STATUS, 0, 0) == 0 && uas_ring_address(UAS_RING_STATUS, 249, 0) == 0);
    CHECK(uas_ring_address(UAS_RING_DATA_IN, 1, 20) == 0 && uas_ring_address(UAS_RING_DATA_OUT, 65535, 0) == 0);
    CHECK(uas_ring_address(UAS_RING_COMMAND_PIPE, 1, 0) == 0 && uas_ring_address(UAS_RING_COMMAND_PIPE, 0, 256) == 0);
    CHECK(uas_ring_address(UAS_RING_COMMANDS, 1, 0) == 0 && uas_ring_address(UAS_RING_COMMANDS, 0, 16) == 0);
    CHECK(uas_ring_address(UAS_RING_COMMANDS, 0, SIZE_MAX) == 0);
    static const uint64_t none[] = { 0, 0x10000100, 0x40000000, 0x40ffffff, 0x41000008, 0x41001000, 0x42000000, 0x42001140, 0x420f9000, 0x43012001,
                                     0x45001000, 0x50000100, 0x50001000, 0x51000000, 0x100010000, 0x141000000, 0xfffffffffffffff0 };
    for (size_t i = 0; i < sizeof none / sizeof none[0]; i++)
        no_place(none[i]);
}

/* Where the controller puts what it is given, and whose doorbell serves it. */
static void rings_of_controller(void)
{
    static const struct {
        uint8_t ring;
        uint16_t stream;
        size_t room;
    } rows[] = { { UAS_RING_STATUS, 3, 18 },     { UAS_RING_DATA_IN, 248, 18 }, { UAS_RING_DATA_OUT, 1, 18 },
                 { UAS_RING_COMMAND_PIPE, 0, 254 }, { UAS_RING_COMMANDS, 0, 14 } };
    static const uint8_t zeros[16];
    uint32_t one = 1;
    uas_controller *controller = NULL;
    CHECK(uas_controller_new(&one, 1, &controller) == UAS_OK);
    for (size_t i = 0; i < sizeof rows / sizeof rows[0]; i++) {
        uint64_t address = 0;
        for (size_t place = 0; place < rows[i].room; place++) {
            CHECK(uas_controller_put_raw(controller, rows[i].ring, rows[i].stream, zeros, &address) == UAS_OK);
            CHECK(address == uas_ring_address(rows[i].ring, rows[i].stream, place));
        }
        CHECK(uas_controller_put_raw(controller, rows[i].ring, rows[i].stream, zeros, &address) == UAS_CONTROLLER_FULL);
    }
    static const struct {
        uint8_t ring, endpoint, wanted, step;
        uint16_t stream;
    } bells[] = { { UAS_RING_STATUS, UAS_ENDPOINT_STATUS, 3, UAS_STEP_STATUS, 3 },
                  { UAS_RING_DATA_IN, UAS_ENDPOINT_DATA_IN, 5, UAS_STEP_DATA, 248 },
                  { UAS_RING_DATA_OUT, UAS_ENDPOINT_DATA_OUT, 4, UAS_STEP_DATA, 1 } };
    for (size_t i = 0; i < 3; i++) {
        uint8_t context[16], cycle = 7, type = 7, endpoint = 0;
        uint64_t pointer = 7;
        uint16_t tag = bells[i].stream, stream = 0;
        bool acted = false;
        struct uas_controller_door event;
        uint32_t value = uas_doorbell(bells[i].endpoint, bells[i].stream);
        CHECK(value == ((uint32_t)bells[i].stream << 16 | bells[i].wanted));
        uas_doorbell_parts(value | 0xff00, &endpoint, &stream);
        CHECK(endpoint == bells[i].endpoint && stream == bells[i].stream);
        CHECK(uas_controller_context(controller, bells[i].ring, stream, context) == UAS_OK);
        uas_context_read(context, &pointer, &cycle, &type);
        CHECK(pointer == uas_ring_address(bells[i].ring, stream, 0) && cycle == 1 && type == 1);
        CHECK(uas_controller_step(controller, bells[i].step, &tag, &acted) == UAS_OK && !acted);
        CHECK(uas_controller_doorbell(controller, value) == UAS_OK);
        CHECK(uas_controller_step(controller, bells[i].step, &tag, &acted) == UAS_OK && acted);
        CHECK(uas_controller_event(controller, &event) == UAS_OK && event.acted == 1 && event.endpoint == bells[i].endpoint);
        CHECK(uas_controller_context(controller, bells[i].ring, stream, context) == UAS_OK);
        uint8_t written[16];
        uas_context_write(uas_ring_address(bells[i].ring, stream, 1), 1, 1, written);
        CHECK(memcmp(context, written, 16) == 0);
    }
    uint16_t tag = 7;
    bool acted = false;
    struct uas_controller_door event;
    CHECK(uas_controller_step(controller, UAS_STEP_COMMAND, &tag, &acted) == UAS_OK && acted);
    CHECK(uas_controller_event(controller, &event) == UAS_OK && event.endpoint == UAS_ENDPOINT_COMMAND && event.endpoint == 2);
    uas_controller_free(controller);
}

/* The buffers that the controller has, and the driver's. */
static void buffers(void)
{
    static const struct {
        uint8_t buffer;
        size_t bytes;
        uint64_t of_1, of_248;
    } rows[] = { { UAS_BUFFER_COMMAND, 32, 0x10000100, 0x1000f800 },
                 { UAS_BUFFER_STATUS, 112, 0x20000100, 0x2000f800 },
                 { UAS_BUFFER_DATA, 100, 0x100010000, 0x100f80000 } };
    static uint8_t data[113];
    static const struct uas_operation inquiry = { .opcode = UAS_INQUIRY, .count = 36 };
    uint32_t one = 1;
    uas_controller *controller = NULL;
    uas_driver *driver = NULL;
    struct uas_driver_door told;
    CHECK(uas_controller_new(&one, 1, &controller) == UAS_OK && uas_driver_new(1, &driver) == UAS_OK);
    CHECK(uas_controller_lend(controller, 248, data, 100) == UAS_OK);
    CHECK(uas_driver_submit(driver, 0, 1, 0, &inquiry, data, 36, &told) == UAS_OK);
    for (size_t i = 0; i < 3; i++) {
        uint64_t address = uas_buffer_address(rows[i].buffer, 248);
        CHECK(uas_buffer_address(rows[i].buffer, 1) == rows[i].of_1 && address == rows[i].of_248);
        CHECK(uas_controller_read(controller, address, data, rows[i].bytes) == UAS_OK);
        CHECK(uas_controller_read(controller, address, data, rows[i].bytes + 1) == UAS_CONTROLLER_ADDRESS);
        size_t bytes = i == 2 ? 36 : rows[i].bytes;
        CHECK(uas_driver_read(driver, rows[i].of_1, data, bytes) == UAS_OK);
        CHECK(uas_driver_read(driver, rows[i].of_1, data, bytes + 1) == UAS_DRIVER_ADDRESS);
        CHECK(uas_buffer_address(rows[i].buffer, 0) == 0 && uas_buffer_address(rows[i].buffer, 249) == 0);
    }
    CHECK(uas_buffer_address(0, 1) == 0 && uas_buffer_address(4, 1) == 0 && uas_buffer_address(255, 1) == 0);
    uas_controller_free(controller);
    uas_driver_free(driver);
}

/* The fields of a stream context (6.2.4.1) alone. */
static void contexts(void)
{
    static const uint8_t all_ones[16] = { 255, 255, 255, 255, 255, 255, 255, 255, 255, 255, 255, 255, 255, 255, 255, 255 };
    uint8_t bytes[16], cycle = 7, type = 0;
    uint64_t pointer = 0;
    memset(bytes, 0xee, sizeof bytes);
    uas_context_write(0x0123456789abcde0, 1, 1, bytes);
    CHECK_BYTES(bytes, 16, "e3 cd ab 89 67 45 23 01 00 x8");
    uas_context_write(0x0123456789abcdef, 2, 9, bytes);
    CHECK_BYTES(bytes, 16, "e2 cd ab 89 67 45 23 01 00 x8");
    uas_context_write(0, 0, 7, bytes);
    CHECK_BYTES(bytes, 16, "0e 00 x15");
    uas_context_read(all_ones, &pointer, &cycle, &type);
    CHECK(pointer == 0xfffffffffffffff0 && cycle == 1 && type == 7);
    uas_context_read(bytes, &pointer, &cycle, &type);
    CHECK(pointer == 0 && cycle == 0 && type == 7);
    CHECK(uas_doorbell(0, 0) == 0 && uas_doorbell(255, 65535) == 0xffff00ff);
}

/* ---- Calls of the doors, by their numbers ---- */

/* The bytes of a READ or a WRITE of block 0, of a tag. */
static size_t moving(uint8_t opcode, uint16_t tag, uint8_t bytes[UAS_MOST_UNIT_BYTES])
{
    const struct uas_operation operation = { .opcode = opcode, .count = 1 };
    struct uas_unit unit = { .id = UAS_UNIT_COMMAND, .tag = tag };
    size_t length = 0;
    CHECK(uas_cdb_write(&operation, unit.cdb) == UAS_OK && uas_unit_write(&unit, bytes, UAS_MOST_UNIT_BYTES, &length) == UAS_OK);
    return length;
}

static bool are(const uint8_t *bytes, uint8_t byte)
{
    for (size_t i = 0; i < 512; i++)
        if (bytes[i] != byte)
            return false;
    return true;
}

static void calls_of_device(void)
{
    uint8_t data[512], bytes[UAS_MOST_UNIT_BYTES];
    uint32_t ten = 10;
    uas_device *device = NULL;
    CHECK(uas_device_new(&ten, 1, &device) == UAS_OK);
    struct uas_device_door door = { .call = UAS_DEVICE_CALL_RECEIVE };
    size_t length = moving(UAS_READ_10, 5, bytes);
    CHECK(uas_device_call(device, &door, bytes, length) == UAS_OK && door.good == 1 && door.tag == 5);
    door.call = UAS_DEVICE_CALL_WANTS;
    CHECK(uas_device_call(device, &door, data, 0) == UAS_OK && door.phase == UAS_GIVES && door.length == 512);
    door = (struct uas_device_door){ .call = UAS_DEVICE_CALL_NEXT };
    CHECK(uas_device_call(device, &door, data, 0) == UAS_OK && door.good == 1 && door.tag == 5);
    door.call = UAS_DEVICE_CALL_GIVE;
    CHECK(uas_device_call(device, &door, data, 512) == UAS_OK && are(data, 0));
    door.call = UAS_DEVICE_CALL_STATUS;
    CHECK(uas_device_call(device, &door, bytes, sizeof bytes) == UAS_OK && door.length == 16);
    door.call = UAS_DEVICE_CALL_SENT;
    CHECK(uas_device_call(device, &door, data, 0) == UAS_OK);
    door.call = UAS_DEVICE_CALL_WANTS;
    CHECK(uas_device_call(device, &door, data, 0) == UAS_OK && door.phase == UAS_ABSENT);
    door.call = UAS_DEVICE_CALL_RECEIVE;
    CHECK(uas_device_call(device, &door, bytes, moving(UAS_WRITE_10, 6, bytes)) == UAS_OK);
    memset(data, 0xaa, sizeof data);
    door = (struct uas_device_door){ .call = UAS_DEVICE_CALL_TAKE, .tag = 6 };
    CHECK(uas_device_call(device, &door, data, 512) == UAS_OK && door.good == 1);
    door = (struct uas_device_door){ .call = UAS_DEVICE_CALL_SIZE };
    CHECK(uas_device_call(device, &door, data, 0) == UAS_OK && door.length == 10);
    door.call = UAS_DEVICE_CALL_MEDIUM;
    CHECK(uas_device_call(device, &door, data, 512) == UAS_OK && are(data, 0));
    door.call = UAS_DEVICE_CALL_BLOCKS;
    CHECK(uas_device_call(device, &door, data, 512) == UAS_OK && are(data, 0xaa));
    door.call = UAS_DEVICE_CALL_RESET;
    CHECK(uas_device_call(device, &door, data, 0) == UAS_OK);
    door = (struct uas_device_door){ .call = UAS_DEVICE_CALL_WANTS, .tag = 6, .phase = 7 };
    CHECK(uas_device_call(device, &door, data, 0) == UAS_OK && door.phase == UAS_ABSENT);
    uas_device_free(device);
}

/* A TRB of `length` bytes for a tag's buffer. */
static void puts_normal(uas_controller *controller, uint8_t ring, uint16_t stream, uint8_t buffer, uint32_t length)
{
    const struct uas_trb trb = { .type = UAS_TRB_NORMAL, .pointer = uas_buffer_address(buffer, 1), .length = length };
    struct uas_controller_door door = { .call = UAS_CONTROLLER_CALL_PUT, .ring = ring, .stream = stream };
    uint8_t bytes[16];
    CHECK(uas_trb_encode(&trb, bytes) == UAS_OK && uas_controller_call(controller, &door, bytes, 16) == UAS_OK);
    CHECK(door.address == uas_ring_address(ring, stream, 0));
}

static void calls_of_controller(void)
{
    uint8_t data[512], bytes[UAS_MOST_UNIT_BYTES];
    uint32_t ten = 10;
    uas_controller *controller = NULL;
    CHECK(uas_controller_new(&ten, 1, &controller) == UAS_OK);
    struct uas_controller_door door = { .call = UAS_CONTROLLER_CALL_WRITE, .address = uas_buffer_address(UAS_BUFFER_COMMAND, 1) };
    size_t length = moving(UAS_WRITE_10, 1, bytes);
    CHECK(uas_controller_call(controller, &door, bytes, length) == UAS_OK);
    door.call = UAS_CONTROLLER_CALL_READ;
    memset(data, 0xee, sizeof data);
    CHECK(uas_controller_call(controller, &door, data, length) == UAS_OK && memcmp(data, bytes, length) == 0);
    memset(data, 0xaa, sizeof data);
    door = (struct uas_controller_door){ .call = UAS_CONTROLLER_CALL_LEND, .tag = 1 };
    CHECK(uas_controller_call(controller, &door, data, 512) == UAS_OK);
    puts_normal(controller, UAS_RING_COMMAND_PIPE, 0, UAS_BUFFER_COMMAND, 32);
    puts_normal(controller, UAS_RING_DATA_OUT, 1, UAS_BUFFER_DATA, 512);
    door = (struct uas_controller_door){ .call = UAS_CONTROLLER_CALL_DOORBELL, .value = uas_doorbell(UAS_ENDPOINT_DATA_OUT, 1) };
    CHECK(uas_controller_call(controller, &door, data, 0) == UAS_OK);
    for (uint8_t step = UAS_STEP_COMMAND; step <= UAS_STEP_DATA; step++) {
        door = (struct uas_controller_door){ .call = UAS_CONTROLLER_CALL_STEP, .step = step, .tag = 1 };
        CHECK(uas_controller_call(controller, &door, data, 0) == UAS_OK && door.acted == 1);
        door = (struct uas_controller_door){ .call = UAS_CONTROLLER_CALL_EVENT };
        CHECK(uas_controller_call(controller, &door, data, 0) == UAS_OK && door.acted == 1 && door.code == 1);
    }
    door.call = UAS_CONTROLLER_CALL_RECLAIM;
    door.ring = UAS_RING_DATA_OUT;
    door.stream = 1;
    CHECK(uas_controller_call(controller, &door, data, 0) == UAS_OK);
    door.call = UAS_CONTROLLER_CALL_CONTEXT;
    CHECK(uas_controller_call(controller, &door, data, 16) == UAS_OK && data[0] == 0x13);
    door = (struct uas_controller_door){ .call = UAS_CONTROLLER_CALL_TAKE_BACK, .tag = 1 };
    CHECK(uas_controller_call(controller, &door, data, 512) == UAS_OK && door.value == 512);
    door.call = UAS_CONTROLLER_CALL_MEDIUM;
    CHECK(uas_controller_call(controller, &door, data, 512) == UAS_OK && are(data, 0));
    door.call = UAS_CONTROLLER_CALL_BLOCKS;
    CHECK(uas_controller_call(controller, &door, data, 512) == UAS_OK && are(data, 0xaa));
    uas_controller_free(controller);
}

static void calls_of_driver(void)
{
    static struct uas_driver_door door;
    static uint8_t data[UAS_MOST_DATA_BYTES];
    uas_driver *driver = NULL;
    CHECK(uas_driver_new(1, &driver) == UAS_OK);
    door = (struct uas_driver_door){ .call = UAS_DRIVER_CALL_SUBMIT, .tag = 1, .operation = { .opcode = UAS_TEST_UNIT_READY } };
    CHECK(uas_driver_call(driver, &door, data, 0) == UAS_OK && door.doorbells == 2);
    door = (struct uas_driver_door){ .call = UAS_DRIVER_CALL_TASK, .ticket = 1, .function = UAS_QUERY_TASK, .tag = 1 };
    CHECK(uas_driver_call(driver, &door, data, 0) == UAS_OK && door.doorbells == 2);
    door = (struct uas_driver_door){ .call = UAS_DRIVER_CALL_RETIRE, .pipe = UAS_PIPE_STATUS, .tag = 1, .doorbells = 7, .acted = 7 };
    CHECK(uas_driver_call(driver, &door, data, 0) == UAS_OK && door.doorbells == 0 && door.acted == 0);
    door = (struct uas_driver_door){ .call = UAS_DRIVER_CALL_LEFT_OVER, .pipe = UAS_PIPE_STATUS, .doorbells = 7, .acted = 7 };
    CHECK(uas_driver_call(driver, &door, data, 0) == UAS_OK && door.doorbells == 7 && door.acted == 0);
    door = (struct uas_driver_door){ .call = UAS_DRIVER_CALL_READ, .address = uas_buffer_address(UAS_BUFFER_COMMAND, 1) };
    memset(data, 0xee, 32);
    CHECK(uas_driver_call(driver, &door, data, 32) == UAS_OK && data[0] == 1 && data[31] == 0);
    static const uint8_t good[16] = { UAS_UNIT_SENSE, 0, 0, 1 };
    memcpy(data, good, 16);
    door = (struct uas_driver_door){ .call = UAS_DRIVER_CALL_WRITE, .address = uas_buffer_address(UAS_BUFFER_STATUS, 1) };
    CHECK(uas_driver_call(driver, &door, data, 16) == UAS_OK);
    door = (struct uas_driver_door){ .call = UAS_DRIVER_CALL_ITEM, .address = uas_ring_address(UAS_RING_STATUS, 1, 0) };
    CHECK(uas_driver_call(driver, &door, data, 16) == UAS_OK && data[8] == UAS_MOST_UNIT_BYTES);
    door = (struct uas_driver_door){ .call = UAS_DRIVER_CALL_CONTEXT, .pipe = UAS_PIPE_DATA_OUT, .stream = 1 };
    CHECK(uas_driver_call(driver, &door, data, 16) == UAS_OK && data[0] == 3 && data[1] == 0x10 && data[3] == 0x44);
    door = (struct uas_driver_door){ .call = UAS_DRIVER_CALL_EVENT, .type = UAS_TRB_TRANSFER_EVENT, .code = 1, .slot = 1 };
    door.address = uas_ring_address(UAS_RING_COMMAND_PIPE, 0, 0);
    door.endpoint = UAS_ENDPOINT_COMMAND;
    CHECK(uas_driver_call(driver, &door, data, 0) == UAS_OK && door.acted == UAS_EVENT_MATCHED && door.tag == 1);
    door.address = uas_ring_address(UAS_RING_STATUS, 1, 0);
    door.endpoint = UAS_ENDPOINT_STATUS;
    door.length = 96;
    door.code = 13;
    CHECK(uas_driver_call(driver, &door, data, 0) == UAS_OK && door.acted == UAS_EVENT_MATCHED);
    door.call = UAS_DRIVER_CALL_REPLY;
    CHECK(uas_driver_call(driver, &door, data, sizeof data) == UAS_OK && door.acted == 1 && door.reply == UAS_REPLY_STATUS);
    uas_driver_free(driver);
}

static void calls_of_bus(void)
{
    static uint8_t data[UAS_MOST_DATA_BYTES];
    uint32_t ten = 10;
    uas_bus *bus = NULL;
    CHECK(uas_bus_new(&ten, 1, &bus) == UAS_OK);
    struct uas_bus_door door = { .call = UAS_BUS_CALL_SUBMIT, .tag = 1, .operation = { .opcode = UAS_WRITE_10, .count = 1 } };
    memset(data, 0xaa, 512);
    CHECK(uas_bus_call(bus, &door, data, 512) == UAS_OK);
    door = (struct uas_bus_door){ .call = UAS_BUS_CALL_DUE, .step = UAS_STEP_COMMAND, .has_owner = 7 };
    CHECK(uas_bus_call(bus, &door, data, 0) == UAS_OK && door.acted == 1 && door.has_owner == 7);
    door.call = UAS_BUS_CALL_STEP;
    CHECK(uas_bus_call(bus, &door, data, 0) == UAS_OK && door.acted == 1 && door.has_owner == 1);
    door = (struct uas_bus_door){ .call = UAS_BUS_CALL_TASK, .ticket = 1, .function = UAS_QUERY_TASK, .tag = 1 };
    CHECK(uas_bus_call(bus, &door, data, 0) == UAS_OK);
    door = (struct uas_bus_door){ .call = UAS_BUS_CALL_DRAIN, .steps = 1000 };
    CHECK(uas_bus_call(bus, &door, data, 0) == UAS_OK && door.acted == 1 && door.steps > 5 && door.steps < 1000);
    door = (struct uas_bus_door){ .call = UAS_BUS_CALL_REPLY };
    CHECK(uas_bus_call(bus, &door, data, sizeof data) == UAS_OK && door.acted == 1);
    door = (struct uas_bus_door){ .call = UAS_BUS_CALL_MEDIUM };
    CHECK(uas_bus_call(bus, &door, data, 512) == UAS_OK && are(data, 0));
    door.call = UAS_BUS_CALL_BLOCKS;
    CHECK(uas_bus_call(bus, &door, data, 512) == UAS_OK && are(data, 0xaa));
    uas_bus_free(bus);
}

int main(void)
{
    faults_have_names();
    version();
    most_of_units();
    most_of_commands();
    most_of_information_units();
    most_of_memory();
    flags();
    bytes_of_information_units();
    responses();
    places();
    rings_of_controller();
    buffers();
    contexts();
    calls_of_device();
    calls_of_controller();
    calls_of_driver();
    calls_of_bus();
    return tell("numbers");
}
