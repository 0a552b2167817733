/* Memory: what new takes free gives back, and want of it is answered by its fault and changes nothing.
 *
 *   leaks         all of it
 *   leaks lose    leaves a device, a controller, a driver and a bus behind, which the leak check of the address sanitizer must tell */
#include "check.h"
#include "counted.h"
#include "uas.h"

static const uint32_t blocks[3] = { 1, 8, 100 };
static const struct uas_operation read_24 = { .opcode = UAS_READ_10, .count = 24 };
static const struct uas_operation ready = { .opcode = UAS_TEST_UNIT_READY };
static uint8_t data[UAS_MOST_DATA_BYTES];
static const uint8_t image[512 * (1 + 8 + 100)];
static const struct uas_bad_block bad[3] = { { 2, 99 }, { 1, 3 }, { 2, 98 } };

/* A device with tasks of each kind under way. */
static uas_device *used_device(void)
{
    uas_device *device = NULL;
    uint8_t bytes[32];
    size_t length;
    uint16_t tag;
    bool good;
    if (uas_device_open(blocks, 3, image, sizeof image, bad, 3, &device) != 0)
        return NULL;
    struct uas_unit unit = { .id = UAS_UNIT_COMMAND, .tag = 1, .lun = { 0, 2 } };
    uas_cdb_write(&read_24, unit.cdb);
    uas_unit_write(&unit, bytes, sizeof bytes, &length);
    CHECK(uas_device_receive(device, bytes, length, &tag) == 0 && tag == 1);
    CHECK(uas_device_give(device, 1, data, 4096, &good) == 0 && good);
    CHECK(uas_device_receive(device, bytes, 4, &tag) == 0);
    CHECK(uas_device_receive(device, bytes, 31, &tag) == 0);
    return device;
}

/* Puts a Normal TRB of tag 18 on a ring. */
static void puts_trb(uas_controller *controller, uint8_t ring, uint16_t stream, uint64_t pointer, uint32_t length)
{
    const struct uas_trb trb = { .type = UAS_TRB_NORMAL, .pointer = pointer, .length = length };
    uint8_t bytes[16];
    uint64_t address;
    CHECK(uas_trb_encode(&trb, bytes) == 0);
    CHECK(uas_controller_put_raw(controller, ring, stream, bytes, &address) == 0);
}

static void step_acts(uas_controller *controller, uint8_t step)
{
    uint16_t tag = 18;
    bool acted = false;
    CHECK(uas_controller_step(controller, step, &tag, &acted) == 0 && acted && tag == 18);
}

/* A READ of 24 blocks under tag 18, of which one chunk is moved. Its window is lent. */
static void begins_read(uas_controller *controller)
{
    uint8_t bytes[32];
    size_t length;
    struct uas_unit unit = { .id = UAS_UNIT_COMMAND, .tag = 18, .lun = { 0, 2 } };
    uas_cdb_write(&read_24, unit.cdb);
    uas_unit_write(&unit, bytes, sizeof bytes, &length);
    CHECK(uas_controller_write(controller, 0x10001200, bytes, length) == 0);
    puts_trb(controller, UAS_RING_COMMAND_PIPE, 0, 0x10001200, 32);
    puts_trb(controller, UAS_RING_DATA_IN, 18, 0x100120000, 4096);
    puts_trb(controller, UAS_RING_DATA_IN, 18, 0x100121000, 4096);
    CHECK(uas_controller_doorbell(controller, 0x00120005) == 0);
    step_acts(controller, UAS_STEP_COMMAND);
    step_acts(controller, UAS_STEP_DATA);
}

/* A controller with a command under way, TRBs on rings, events that nobody took, and memory that is lent. */
static uas_controller *used_controller(void)
{
    uas_controller *controller = NULL;
    uint32_t length = 0;
    if (uas_controller_open(blocks, 3, image, sizeof image, bad, 3, &controller) != 0)
        return NULL;
    CHECK(uas_controller_lend(controller, 18, data, 24 * 512) == 0);
    CHECK(uas_controller_lend(controller, 248, data, sizeof data) == 0);
    CHECK(uas_controller_lend(controller, 1, data, 512) == 0);
    CHECK(uas_controller_lend(controller, 2, data, 0) == 0);
    CHECK(uas_controller_lend(controller, 1, data, 512) == UAS_CONTROLLER_LENT);
    begins_read(controller);
    CHECK(uas_controller_take_back(controller, 248, data, sizeof data, &length) == 0 && length == sizeof data);
    CHECK(uas_controller_take_back(controller, 1, data, 511, &length) == UAS_CONTROLLER_LENGTH);
    return controller;
}

/* The endpoint of the ring that an address is of. */
static uint8_t endpoint_at(uint64_t address)
{
    static const uint8_t endpoints[] = { UAS_ENDPOINT_COMMAND, UAS_ENDPOINT_STATUS, UAS_ENDPOINT_DATA_IN, UAS_ENDPOINT_DATA_OUT };
    return address >> 24 >= 0x41 && address >> 24 <= 0x44 ? endpoints[(address >> 24) - 0x41] : 0;
}

/* Hands an event in, which is of some tag's TD. */
static void event_matches(uas_driver *driver, uint64_t address, uint32_t residual, uint8_t code)
{
    const struct uas_trb event = { .type = UAS_TRB_TRANSFER_EVENT, .pointer = address, .length = residual, .code = code,
                                   .endpoint = endpoint_at(address), .slot = 1 };
    struct uas_driver_door told;
    CHECK(uas_driver_event(driver, &event, &told) == 0 && told.acted == UAS_EVENT_MATCHED);
}

/* The second command on the rings, which moves no data, is answered under tag 1. */
static void answers_ready(uas_driver *driver)
{
    static const uint8_t good[16] = { UAS_UNIT_SENSE, 0, 0, 1 };
    CHECK(uas_driver_write(driver, 0x20000100, good, sizeof good) == 0);
    event_matches(driver, 0x41000010, 0, 1);
    event_matches(driver, 0x42001000, 96, 13);
}

/* A driver with a reply that nobody took, and a command under way. */
static uas_driver *used_driver(void)
{
    uas_driver *driver = NULL;
    struct uas_driver_door told;
    if (uas_driver_new(3, &driver) != 0)
        return NULL;
    CHECK(uas_driver_submit(driver, 2, 33, 0, &read_24, data, 24 * 512, &told) == 0 && told.doorbells == 3);
    CHECK(uas_driver_submit(driver, 0, 1, 0, &ready, data, 0, &told) == 0 && told.doorbells == 2);
    CHECK(uas_driver_submit(driver, 1, 17, 0, &ready, data, 1, &told) == UAS_CLIENT_BAD_LENGTH);
    CHECK(uas_driver_submit(driver, 2, 33, 1, &read_24, data, 24 * 512, &told) != 0);
    answers_ready(driver);
    return driver;
}

/* A bus with replies that nobody took, and commands that are under way. */
static uas_bus *used_bus(void)
{
    uas_bus *bus = NULL;
    uint64_t taken;
    bool quiet;
    if (uas_bus_open(blocks, 3, image, 0, bad, 3, NULL, &bus) != 0)
        return NULL;
    CHECK(uas_bus_submit(bus, 2, 33, 0, &read_24, data, 24 * 512) == 0);
    CHECK(uas_bus_submit(bus, 0, 1, 0, &ready, data, 0) == 0);
    CHECK(uas_bus_drain(bus, 1000, &taken, &quiet) == 0 && quiet);
    CHECK(uas_bus_submit(bus, 2, 34, 1, &read_24, data, 24 * 512) == 0);
    CHECK(uas_bus_submit(bus, 1, 17, 0, &ready, data, 1) == UAS_CLIENT_BAD_LENGTH);
    CHECK(uas_bus_drain(bus, 2, &taken, &quiet) == 0);
    return bus;
}

static void a_thousand_times(void)
{
    for (int i = 0; i < 1000; i++) {
        uas_device *device = used_device();
        uas_controller *controller = used_controller();
        uas_driver *driver = used_driver();
        uas_bus *bus = used_bus();
        if (!CHECK(device != NULL && controller != NULL && driver != NULL && bus != NULL && held > 0))
            return;
        uas_device_free(device);
        uas_controller_free(controller);
        uas_driver_free(driver);
        uas_bus_free(bus);
        if (!CHECK(held == 0))
            return;
    }
}

/* Whether each memory that `new` asks for may be refused. */
static void each_refused(void)
{
    uas_device *device = NULL;
    uas_bus *bus = NULL;
    uint8_t fault = UAS_NO_MEMORY;
    unsigned long times = 0;
    for (refused_at = 1; fault != 0 && refused_at < 10000; refused_at++, times++) {
        asks = 0;
        fault = uas_device_new(blocks, 3, &device);
        CHECK(fault == 0 || (fault == UAS_NO_MEMORY && device == NULL && held == 0));
    }
    CHECK(times > 3 && fault == 0);
    uas_device_free(device);
    CHECK(held == 0);
    fault = UAS_NO_MEMORY;
    times = 0;
    for (refused_at = 1; fault != 0 && refused_at < 10000; refused_at++, times++) {
        asks = 0;
        fault = uas_bus_new(blocks, 3, &bus);
        CHECK(fault == 0 || (fault == UAS_NO_MEMORY && bus == NULL && held == 0));
    }
    CHECK(times > 3 && fault == 0);
    /* A submission copies its data; refused, it changes nothing and may come again. */
    long before = held;
    asks = 0;
    refused_at = 1;
    CHECK(uas_bus_submit(bus, 2, 33, 0, &read_24, data, 24 * 512) == UAS_NO_MEMORY);
    CHECK(held == before);
    bool due = true;
    CHECK(uas_bus_due(bus, UAS_STEP_COMMAND, 0, 0, &due) == 0 && !due);
    refused_at = 0;
    CHECK(uas_bus_submit(bus, 2, 33, 0, &read_24, data, 24 * 512) == 0);
    /* Steps and replies ask for none. */
    uint64_t taken = 0;
    struct uas_bus_door reply;
    asks = 0;
    CHECK(uas_bus_drain(bus, 1000, &taken, &due) == 0 && due && taken > 5);
    CHECK(uas_bus_reply(bus, 2, data, sizeof data, &reply) == 0 && reply.acted && reply.length == 24 * 512);
    CHECK(asks == 0);
    CHECK(held == before);
    uas_bus_free(bus);
    CHECK(held == 0);
}

/* What an open asks of a handle's number: 0 a device, 1 a controller, 2 a bus. */
static uint8_t opened(int which, void **handle)
{
    uas_device *device = NULL;
    uas_controller *controller = NULL;
    uas_bus *bus = NULL;
    uint8_t fault = which == 0   ? uas_device_open(blocks, 3, image, sizeof image, bad, 3, &device)
                    : which == 1 ? uas_controller_open(blocks, 3, image, sizeof image, bad, 3, &controller)
                                 : uas_bus_open(blocks, 3, image, sizeof image, bad, 3, NULL, &bus);
    *handle = which == 0 ? (void *)device : which == 1 ? (void *)controller : (void *)bus;
    return fault;
}

static void ends_opened(int which, void *handle)
{
    if (which == 0)
        uas_device_free(handle);
    else if (which == 1)
        uas_controller_free(handle);
    else
        uas_bus_free(handle);
}

/* Each memory that an open asks for may be refused: it answers so and leaves none, or does with less. What is refused for another fault
 * leaves none either. */
static void each_refused_of_opens(void)
{
    static const struct uas_bad_block beyond = { 1, 8 };
    for (int which = 0; which < 3; which++) {
        unsigned long times = 0;
        bool refused = true;
        for (refused_at = 1; refused && refused_at < 10000; refused_at++) {
            void *handle = NULL;
            asks = 0;
            uint8_t fault = opened(which, &handle);
            CHECK(fault == 0 ? handle != NULL && held > 0 : fault == UAS_NO_MEMORY && handle == NULL && held == 0);
            refused = asks >= refused_at;
            CHECK(fault == 0 || refused);
            times += fault != 0;
            if (fault == 0)
                ends_opened(which, handle);
            if (!CHECK(held == 0))
                return;
        }
        CHECK(times > 5);
    }
    refused_at = 0;
    uas_device *device = NULL;
    CHECK(uas_device_open(blocks, 3, image, sizeof image, &beyond, 1, &device) == UAS_BAD_BLOCK && device == NULL && held == 0);
    CHECK(uas_device_open(blocks, 3, image, sizeof image - 512, bad, 3, &device) == UAS_IMAGE && device == NULL && held == 0);
}

/* The device's calls ask for none. */
static void device_asks_for_none(void)
{
    uas_device *device = used_device();
    uint8_t bytes[32], ended[32], phase;
    size_t length = 0;
    uint16_t tag = 0;
    uint32_t chunk;
    bool there = false;
    const struct uas_unit reset = { .id = UAS_UNIT_TASK, .function = UAS_LOGICAL_UNIT_RESET, .tag = 9, .lun = { 0, 2 } };
    CHECK(device != NULL && uas_unit_write(&reset, bytes, sizeof bytes, &length) == 0);
    long before = held;
    asks = 0;
    CHECK(uas_device_next(device, &tag, &there) == 0 && there && tag == 1);
    CHECK(uas_device_receive_ended(device, bytes, length, &tag, ended) == 0 && tag == 9 && ended[0] == 2);
    CHECK(uas_device_status(device, 9, data, sizeof data, &chunk) == 0 && uas_device_sent(device, 9) == 0);
    CHECK(uas_device_wants(device, 1, &phase, &chunk) == 0 && phase == UAS_ABSENT);
    CHECK(uas_device_blocks(device, 2, 0, data, 512) == 0 && uas_device_reset(device) == 0);
    CHECK(asks == 0 && held == before);
    uas_device_free(device);
    CHECK(held == 0);
}

/* The same of the controller. */
static void each_refused_of_controller(void)
{
    uas_controller *controller = NULL;
    uint8_t fault = UAS_NO_MEMORY, byte = 7;
    unsigned long times = 0;
    uint32_t length = 0;
    for (refused_at = 1; fault != 0 && refused_at < 10000; refused_at++, times++) {
        asks = 0;
        fault = uas_controller_new(blocks, 3, &controller);
        CHECK(fault == 0 || (fault == UAS_NO_MEMORY && controller == NULL && held == 0));
    }
    CHECK(times > 3 && fault == 0);
    /* What is lent is copied; refused, it changes nothing and may come again. */
    long before = held;
    asks = 0;
    refused_at = 1;
    CHECK(uas_controller_lend(controller, 249, data, 1) == UAS_CONTROLLER_TAG);
    CHECK(uas_controller_lend(controller, 18, data, 24 * 512) == UAS_NO_MEMORY);
    CHECK(held == before);
    CHECK(uas_controller_read(controller, 0x100120000, &byte, 1) == UAS_CONTROLLER_ADDRESS && byte == 7);
    refused_at = 0;
    CHECK(uas_controller_lend(controller, 18, data, 24 * 512) == 0 && held > before);
    /* The other calls ask for none. */
    struct uas_controller_door event = { 0 };
    asks = 0;
    begins_read(controller);
    CHECK(uas_controller_event(controller, &event) == 0 && event.acted && event.address == 0x41000000);
    CHECK(uas_controller_reclaim(controller, UAS_RING_COMMAND_PIPE, 0, event.address) == 0);
    CHECK(uas_controller_take_back(controller, 18, data, sizeof data, &length) == 0 && length == 24 * 512);
    CHECK(asks == 0);
    CHECK(held == before);
    uas_controller_free(controller);
    CHECK(held == 0);
}

/* A retirement of client 2's data TD, which a CHECK CONDITION leaves over, with all calls that go with it. */
static void retires_read(uas_driver *driver)
{
    static const uint8_t check[16] = { UAS_UNIT_SENSE, 0, 0, 33, 0, 0, UAS_CHECK_CONDITION };
    struct uas_trb event = { .type = UAS_TRB_COMMAND_EVENT, .code = 1, .slot = 1 };
    struct uas_driver_door told;
    uint16_t tag = 0;
    bool there = false;
    CHECK(uas_driver_write(driver, 0x20002100, check, sizeof check) == 0);
    event_matches(driver, 0x41000000, 0, 1);
    event_matches(driver, 0x42021000, 96, 13);
    CHECK(uas_driver_left_over(driver, UAS_PIPE_DATA_IN, &tag, &there) == 0 && there && tag == 33);
    CHECK(uas_driver_retire(driver, UAS_PIPE_DATA_IN, 33, &told) == 0 && told.acted);
    for (event.pointer = 0x50000000; event.pointer <= 0x50000010; event.pointer += 16)
        CHECK(uas_driver_event(driver, &event, &told) == 0 && told.acted == UAS_EVENT_ENGINE);
}

/* The same of the driver. */
static void each_refused_of_driver(void)
{
    uas_driver *driver = NULL;
    struct uas_driver_door told;
    uint8_t fault = UAS_NO_MEMORY, bytes[16];
    unsigned long times = 0;
    for (refused_at = 1; fault != 0 && refused_at < 10000; refused_at++, times++) {
        asks = 0;
        fault = uas_driver_new(3, &driver);
        CHECK(fault == 0 || (fault == UAS_NO_MEMORY && driver == NULL && held == 0));
    }
    CHECK(times > 3 && fault == 0);
    /* A submission copies its data; refused, it changes nothing and may come again. */
    long before = held;
    asks = 0;
    refused_at = 1;
    CHECK(uas_driver_submit(driver, 2, 33, 0, &read_24, data, 24 * 512, &told) == UAS_NO_MEMORY);
    CHECK(held == before && uas_driver_item(driver, 0x41000000, bytes) == UAS_DRIVER_ADDRESS);
    refused_at = 0;
    CHECK(uas_driver_submit(driver, 2, 33, 0, &read_24, data, 24 * 512, &told) == 0 && held > before);
    CHECK(uas_driver_submit(driver, 0, 1, 0, &ready, data, 0, &told) == 0);
    /* The other calls ask for none. */
    asks = 0;
    answers_ready(driver);
    retires_read(driver);
    CHECK(uas_driver_task(driver, 1, 0, UAS_LOGICAL_UNIT_RESET, 0, &told) == 0 && told.doorbells == 2);
    CHECK(uas_driver_item(driver, 0x41000020, bytes) == 0 && uas_driver_context(driver, UAS_PIPE_STATUS, 32, bytes) == 0);
    CHECK(uas_driver_read(driver, 0x100210000, data, 24 * 512) == 0);
    CHECK(uas_driver_reply(driver, 2, data, sizeof data, &told) == 0 && told.acted && told.length == 24 * 512);
    CHECK(uas_driver_reply(driver, 0, data, sizeof data, &told) == 0 && told.acted && told.length == 0);
    CHECK(asks == 0);
    CHECK(held == before);
    uas_driver_free(driver);
    CHECK(held == 0);
}

int main(int words, char **word)
{
    if (words == 2 && strcmp(word[1], "lose") == 0) {
        bool all = used_device() != NULL && used_controller() != NULL && used_driver() != NULL && used_bus() != NULL;
        printf("leaks: lost %ld blocks\n", held);
        return all ? 0 : 2;
    }
    a_thousand_times();
    each_refused();
    each_refused_of_opens();
    device_asks_for_none();
    each_refused_of_controller();
    each_refused_of_driver();
    return tell("leaks");
}
