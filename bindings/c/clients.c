/* The functions of include/uas.h that make one call of the driver's or the bus's door. */
#include "calls.h"

/* ---- The driver ---- */

static uas_driver *called_driver(const uas_driver *driver)
{
    return (uas_driver *)(uintptr_t)driver;
}

/* The number of tags of each client that these options ask for. */
static size_t tags_of(const struct uas_bus_options *options)
{
    bool has_tags = options != NULL && options->size >= offsetof(struct uas_bus_options, tags) + sizeof options->tags;
    return has_tags && options->tags != 0 ? options->tags : UAS_CLIENT_TAGS;
}

uint8_t uas_driver_open(size_t clients, const struct uas_bus_options *options, uas_driver **driver)
{
    return uas_driver_open_tags(clients, tags_of(options), driver);
}

uint8_t uas_driver_new(size_t clients, uas_driver **driver)
{
    return uas_driver_open_tags(clients, UAS_CLIENT_TAGS, driver);
}

void uas_driver_free(uas_driver *driver)
{
    if (driver != NULL)
        uas_driver_close(driver);
    free(driver);
}

uint8_t uas_driver_submit(uas_driver *driver, uint32_t client, uint16_t tag, uint64_t ticket, const struct uas_operation *operation,
                          const uint8_t *data, size_t length, struct uas_driver_door *told)
{
    struct uas_driver_door door = { .call = UAS_DRIVER_CALL_SUBMIT, .client = client, .tag = tag, .ticket = ticket,
                                    .operation = *operation };
    uint8_t fault = uas_driver_call(driver, &door, bytes_of(data, length), length);
    if (fault == UAS_OK)
        *told = door;
    return fault;
}

uint8_t uas_driver_task(uas_driver *driver, uint32_t client, uint64_t ticket, uint8_t function, uint16_t tag, struct uas_driver_door *told)
{
    struct uas_driver_door door = { .call = UAS_DRIVER_CALL_TASK, .client = client, .ticket = ticket, .function = function, .tag = tag };
    uint8_t fault = uas_driver_call(driver, &door, bytes_of(NULL, 0), 0);
    if (fault == UAS_OK)
        *told = door;
    return fault;
}

uint8_t uas_driver_retire(uas_driver *driver, uint8_t pipe, uint16_t tag, struct uas_driver_door *told)
{
    struct uas_driver_door door = { .call = UAS_DRIVER_CALL_RETIRE, .pipe = pipe, .tag = tag };
    uint8_t fault = uas_driver_call(driver, &door, bytes_of(NULL, 0), 0);
    if (fault == UAS_OK)
        *told = door;
    return fault;
}

uint8_t uas_driver_left_over(const uas_driver *driver, uint8_t pipe, uint16_t *tag, bool *there)
{
    struct uas_driver_door door = { .call = UAS_DRIVER_CALL_LEFT_OVER, .pipe = pipe, .tag = *tag };
    uint8_t fault = uas_driver_call(called_driver(driver), &door, bytes_of(NULL, 0), 0);
    if (fault == UAS_OK) {
        *there = door.acted != 0;
        *tag = door.tag;
    }
    return fault;
}

uint8_t uas_driver_event(uas_driver *driver, const struct uas_trb *event, struct uas_driver_door *told)
{
    struct uas_driver_door door = { .call = UAS_DRIVER_CALL_EVENT, .address = event->pointer, .length = event->length,
                                    .type = event->type, .code = event->code, .endpoint = event->endpoint, .slot = event->slot };
    uint8_t fault = uas_driver_call(driver, &door, bytes_of(NULL, 0), 0);
    if (fault == UAS_OK)
        *told = door;
    return fault;
}

uint8_t uas_driver_wanted_state(const uas_driver *driver, uint8_t *pipe, bool *wanted)
{
    struct uas_driver_door door = { .call = UAS_DRIVER_CALL_WANTED };
    uint8_t fault = uas_driver_call(called_driver(driver), &door, bytes_of(NULL, 0), 0);
    if (fault == UAS_OK) {
        *wanted = door.acted != 0;
        if (*wanted)
            *pipe = door.pipe;
    }
    return fault;
}

uint8_t uas_driver_endpoint_state(uas_driver *driver, uint8_t pipe, uint8_t state, struct uas_driver_door *told)
{
    struct uas_driver_door door = { .call = UAS_DRIVER_CALL_STATE, .pipe = pipe, .state = state };
    uint8_t fault = uas_driver_call(driver, &door, bytes_of(NULL, 0), 0);
    if (fault == UAS_OK)
        *told = door;
    return fault;
}

uint8_t uas_driver_give_up(uas_driver *driver, uint32_t client, uint16_t tag, struct uas_driver_door *told)
{
    struct uas_driver_door door = { .call = UAS_DRIVER_CALL_GIVE_UP, .client = client, .tag = tag };
    uint8_t fault = uas_driver_call(driver, &door, bytes_of(NULL, 0), 0);
    if (fault == UAS_OK)
        *told = door;
    return fault;
}

uint8_t uas_driver_strays(const uas_driver *driver, uint64_t *strays)
{
    struct uas_driver_door door = { .call = UAS_DRIVER_CALL_STRAYS };
    uint8_t fault = uas_driver_call(called_driver(driver), &door, bytes_of(NULL, 0), 0);
    if (fault == UAS_OK)
        *strays = door.address;
    return fault;
}

uint8_t uas_driver_reply(uas_driver *driver, uint32_t client, uint8_t *data, size_t length, struct uas_driver_door *reply)
{
    struct uas_driver_door door = { .call = UAS_DRIVER_CALL_REPLY, .client = client };
    uint8_t fault = uas_driver_call(driver, &door, bytes_of(data, length), length);
    if (fault == UAS_OK)
        *reply = door;
    return fault;
}

static uint8_t driver_memory(uas_driver *driver, uint8_t call, uint64_t address, uint8_t *data, size_t length)
{
    struct uas_driver_door door = { .call = call, .address = address };
    return uas_driver_call(driver, &door, bytes_of(data, length), length);
}

uint8_t uas_driver_read(const uas_driver *driver, uint64_t address, uint8_t *data, size_t length)
{
    return driver_memory(called_driver(driver), UAS_DRIVER_CALL_READ, address, data, length);
}

uint8_t uas_driver_write(uas_driver *driver, uint64_t address, const uint8_t *data, size_t length)
{
    return driver_memory(driver, UAS_DRIVER_CALL_WRITE, address, bytes_of(data, length), length);
}

uint8_t uas_driver_item(const uas_driver *driver, uint64_t address, uint8_t bytes[16])
{
    return driver_memory(called_driver(driver), UAS_DRIVER_CALL_ITEM, address, bytes, 16);
}

uint8_t uas_driver_context(const uas_driver *driver, uint8_t pipe, uint16_t stream, uint8_t bytes[16])
{
    struct uas_driver_door door = { .call = UAS_DRIVER_CALL_CONTEXT, .pipe = pipe, .stream = stream };
    return uas_driver_call(called_driver(driver), &door, bytes_of(bytes, 16), 16);
}

/* ---- The bus ---- */

static uas_bus *called_bus(const uas_bus *bus)
{
    return (uas_bus *)(uintptr_t)bus;
}

uint8_t uas_bus_open(const uint32_t *blocks, size_t clients, const uint8_t *image, size_t length, const struct uas_bad_block *bad,
                     size_t bads, const struct uas_bus_options *options, uas_bus **bus)
{
    return uas_bus_open_tags(tags_of(options), blocks, clients, image, length, bad, bads, bus);
}

uint8_t uas_bus_new(const uint32_t *blocks, size_t clients, uas_bus **bus)
{
    const struct uas_bad_block none = { 0 };
    return uas_bus_open_tags(UAS_CLIENT_TAGS, blocks, clients, bytes_of(NULL, 0), 0, &none, 0, bus);
}

void uas_bus_free(uas_bus *bus)
{
    if (bus != NULL)
        uas_bus_close(bus);
    free(bus);
}

uint8_t uas_bus_submit(uas_bus *bus, uint32_t client, uint16_t tag, uint64_t ticket, const struct uas_operation *operation,
                       const uint8_t *data, size_t length)
{
    struct uas_bus_door door = { .call = UAS_BUS_CALL_SUBMIT, .client = client, .tag = tag, .ticket = ticket, .operation = *operation };
    return uas_bus_call(bus, &door, bytes_of(data, length), length);
}

uint8_t uas_bus_task(uas_bus *bus, uint32_t client, uint64_t ticket, uint8_t function, uint16_t tag)
{
    struct uas_bus_door door = { .call = UAS_BUS_CALL_TASK, .client = client, .ticket = ticket, .function = function, .tag = tag };
    return uas_bus_call(bus, &door, bytes_of(NULL, 0), 0);
}

uint8_t uas_bus_step(uas_bus *bus, uint8_t step, uint8_t pipe, uint16_t tag, bool *acted, int *owner)
{
    struct uas_bus_door door = { .call = UAS_BUS_CALL_STEP, .step = step, .pipe = pipe, .tag = tag };
    uint8_t fault = uas_bus_call(bus, &door, bytes_of(NULL, 0), 0);
    if (fault == UAS_OK) {
        *acted = door.acted != 0;
        *owner = door.has_owner ? (int)door.client : -1;
    }
    return fault;
}

uint8_t uas_bus_due(const uas_bus *bus, uint8_t step, uint8_t pipe, uint16_t tag, bool *due)
{
    struct uas_bus_door door = { .call = UAS_BUS_CALL_DUE, .step = step, .pipe = pipe, .tag = tag };
    uint8_t fault = uas_bus_call(called_bus(bus), &door, bytes_of(NULL, 0), 0);
    if (fault == UAS_OK)
        *due = door.acted != 0;
    return fault;
}

uint8_t uas_bus_drain(uas_bus *bus, uint64_t most, uint64_t *taken, bool *quiet)
{
    struct uas_bus_door door = { .call = UAS_BUS_CALL_DRAIN, .steps = most };
    uint8_t fault = uas_bus_call(bus, &door, bytes_of(NULL, 0), 0);
    if (fault == UAS_OK) {
        *taken = door.steps;
        *quiet = door.acted != 0;
    }
    return fault;
}

uint8_t uas_bus_reply(uas_bus *bus, uint32_t client, uint8_t *data, size_t length, struct uas_bus_door *reply)
{
    struct uas_bus_door door = { .call = UAS_BUS_CALL_REPLY, .client = client };
    uint8_t fault = uas_bus_call(bus, &door, bytes_of(data, length), length);
    if (fault == UAS_OK)
        *reply = door;
    return fault;
}

static uint8_t bus_copy(const uas_bus *bus, uint8_t call, uint32_t client, uint32_t lba, uint8_t *data, size_t length)
{
    struct uas_bus_door door = { .call = call, .client = client };
    door.operation.lba = lba;
    return uas_bus_call(called_bus(bus), &door, bytes_of(data, length), length);
}

uint8_t uas_bus_blocks(const uas_bus *bus, uint32_t client, uint32_t lba, uint8_t *data, size_t length)
{
    return bus_copy(bus, UAS_BUS_CALL_BLOCKS, client, lba, data, length);
}

uint8_t uas_bus_medium(const uas_bus *bus, uint32_t client, uint32_t lba, uint8_t *data, size_t length)
{
    return bus_copy(bus, UAS_BUS_CALL_MEDIUM, client, lba, data, length);
}
