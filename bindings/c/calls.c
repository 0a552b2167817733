/* The functions of include/uas.h that libuas_device.a has beside the proved exports: where things lie, and those that make one call of the device's or the controller's door. */
#include "calls.h"

#include <string.h>

/* ---- Where things lie ---- */

enum { STREAMS = 248, PLACE_BYTES = 16 };

/* How many places the rings of a number have, that of the Link TRB included; 0 where there is no such ring. */
static size_t places_of(uint8_t ring)
{
    switch (ring) {
    case UAS_RING_STATUS:
    case UAS_RING_DATA_IN:
    case UAS_RING_DATA_OUT:
        return 20;
    case UAS_RING_COMMAND_PIPE:
        return 256;
    case UAS_RING_COMMANDS:
        return 16;
    default:
        return 0;
    }
}

static bool has_streams(uint8_t ring)
{
    return ring == UAS_RING_STATUS || ring == UAS_RING_DATA_IN || ring == UAS_RING_DATA_OUT;
}

/* Where the rings of a number begin: that of stream 0, if there were one. */
static uint64_t base_of(uint8_t ring)
{
    if (ring == UAS_RING_COMMANDS)
        return 0x50000000;
    return ring == UAS_RING_COMMAND_PIPE ? 0x41000000 : 0x41000000 + 0x1000000 * (uint64_t)ring;
}

uint64_t uas_ring_address(uint8_t ring, uint16_t stream, size_t place)
{
    bool stands = has_streams(ring) ? stream >= 1 && stream <= STREAMS : stream == 0;
    if (!stands || place >= places_of(ring))
        return 0;
    return base_of(ring) + 0x1000 * (uint64_t)stream + PLACE_BYTES * (uint64_t)place;
}

bool uas_ring_place(uint64_t address, uint8_t *ring, uint16_t *stream, size_t *place)
{
    for (uint8_t each = UAS_RING_STATUS; each <= UAS_RING_COMMANDS; each++) {
        uint64_t base = base_of(each), inside = address - base;
        if (address < base || inside >= 0x1000000)
            continue;
        uint16_t at_stream = (uint16_t)(inside / 0x1000);
        size_t at_place = (size_t)(inside % 0x1000 / PLACE_BYTES);
        if (uas_ring_address(each, at_stream, at_place) != address)
            return false;
        *ring = each;
        *stream = at_stream;
        *place = at_place;
        return true;
    }
    return false;
}

uint64_t uas_buffer_address(uint8_t buffer, uint16_t tag)
{
    if (tag < 1 || tag > STREAMS)
        return 0;
    switch (buffer) {
    case UAS_BUFFER_COMMAND:
        return 0x10000000 + 0x100 * (uint64_t)tag;
    case UAS_BUFFER_STATUS:
        return 0x20000000 + 0x100 * (uint64_t)tag;
    case UAS_BUFFER_DATA:
        return 0x100000000 + 0x10000 * (uint64_t)tag;
    default:
        return 0;
    }
}

uint32_t uas_doorbell(uint8_t endpoint, uint16_t stream)
{
    return endpoint | (uint32_t)stream << 16;
}

void uas_doorbell_parts(uint32_t value, uint8_t *endpoint, uint16_t *stream)
{
    *endpoint = (uint8_t)value;
    *stream = (uint16_t)(value >> 16);
}

void uas_context_read(const uint8_t bytes[16], uint64_t *pointer, uint8_t *cycle, uint8_t *type)
{
    uint64_t word = 0;
    for (int i = 7; i >= 0; i--)
        word = word << 8 | bytes[i];
    *pointer = word & ~(uint64_t)15;
    *cycle = word & 1;
    *type = word >> 1 & 7;
}

void uas_context_write(uint64_t pointer, uint8_t cycle, uint8_t type, uint8_t bytes[16])
{
    uint64_t word = (pointer & ~(uint64_t)15) | (type & 7u) << 1 | (cycle & 1u);
    for (int i = 0; i < 16; i++)
        bytes[i] = i < 8 ? (uint8_t)(word >> 8 * i) : 0;
}

/* ---- The device ---- */

static uas_device *called_device(const uas_device *device)
{
    return (uas_device *)(uintptr_t)device;
}

void uas_device_free(uas_device *device)
{
    if (device != NULL)
        uas_device_close(device);
    free(device);
}

static uint8_t device_receive(uas_device *device, const uint8_t *bytes, size_t length, uint16_t *tag, struct uas_device_door *door)
{
    uint8_t fault = uas_device_call(device, door, bytes_of(bytes, length), length);
    if (fault == UAS_OK)
        *tag = door->good ? door->tag : 0;
    return fault;
}

uint8_t uas_device_receive(uas_device *device, const uint8_t *bytes, size_t length, uint16_t *tag)
{
    struct uas_device_door door = { .call = UAS_DEVICE_CALL_RECEIVE };
    return device_receive(device, bytes, length, tag, &door);
}

uint8_t uas_device_receive_ended(uas_device *device, const uint8_t *bytes, size_t length, uint16_t *tag, uint8_t ended[32])
{
    struct uas_device_door door = { .call = UAS_DEVICE_CALL_RECEIVE };
    uint8_t fault = device_receive(device, bytes, length, tag, &door);
    if (fault == UAS_OK)
        memcpy(ended, door.ended, sizeof door.ended);
    return fault;
}

uint8_t uas_device_wants(const uas_device *device, uint16_t tag, uint8_t *phase, uint32_t *length)
{
    struct uas_device_door door = { .call = UAS_DEVICE_CALL_WANTS, .tag = tag };
    uint8_t fault = uas_device_call(called_device(device), &door, bytes_of(NULL, 0), 0);
    if (fault == UAS_OK) {
        *phase = door.phase;
        *length = door.length;
    }
    return fault;
}

uint8_t uas_device_next(const uas_device *device, uint16_t *tag, bool *there)
{
    struct uas_device_door door = { .call = UAS_DEVICE_CALL_NEXT, .tag = *tag };
    uint8_t fault = uas_device_call(called_device(device), &door, bytes_of(NULL, 0), 0);
    if (fault == UAS_OK) {
        *there = door.good != 0;
        *tag = door.tag;
    }
    return fault;
}

uint8_t uas_device_give(uas_device *device, uint16_t tag, uint8_t *data, size_t length, bool *good)
{
    struct uas_device_door door = { .call = UAS_DEVICE_CALL_GIVE, .tag = tag };
    uint8_t fault = uas_device_call(device, &door, bytes_of(data, length), length);
    if (fault == UAS_OK)
        *good = door.good != 0;
    return fault;
}

uint8_t uas_device_take(uas_device *device, uint16_t tag, const uint8_t *data, size_t length, bool *good)
{
    struct uas_device_door door = { .call = UAS_DEVICE_CALL_TAKE, .tag = tag };
    uint8_t fault = uas_device_call(device, &door, bytes_of(data, length), length);
    if (fault == UAS_OK)
        *good = door.good != 0;
    return fault;
}

uint8_t uas_device_status(const uas_device *device, uint16_t tag, uint8_t *bytes, size_t room, uint32_t *length)
{
    struct uas_device_door door = { .call = UAS_DEVICE_CALL_STATUS, .tag = tag };
    uint8_t fault = uas_device_call(called_device(device), &door, bytes_of(bytes, room), room);
    if (fault == UAS_OK)
        *length = door.length;
    return fault;
}

uint8_t uas_device_sent(uas_device *device, uint16_t tag)
{
    struct uas_device_door door = { .call = UAS_DEVICE_CALL_SENT, .tag = tag };
    return uas_device_call(device, &door, bytes_of(NULL, 0), 0);
}

uint8_t uas_device_reset(uas_device *device)
{
    struct uas_device_door door = { .call = UAS_DEVICE_CALL_RESET };
    return uas_device_call(device, &door, bytes_of(NULL, 0), 0);
}

uint8_t uas_device_size(const uas_device *device, uint16_t unit, uint32_t *blocks)
{
    struct uas_device_door door = { .call = UAS_DEVICE_CALL_SIZE, .unit = unit };
    uint8_t fault = uas_device_call(called_device(device), &door, bytes_of(NULL, 0), 0);
    if (fault == UAS_OK)
        *blocks = door.length;
    return fault;
}

static uint8_t device_copy(const uas_device *device, uint8_t call, uint16_t unit, uint32_t lba, uint8_t *data, size_t length)
{
    struct uas_device_door door = { .call = call, .unit = unit, .lba = lba };
    return uas_device_call(called_device(device), &door, bytes_of(data, length), length);
}

uint8_t uas_device_blocks(const uas_device *device, uint16_t unit, uint32_t lba, uint8_t *data, size_t length)
{
    return device_copy(device, UAS_DEVICE_CALL_BLOCKS, unit, lba, data, length);
}

uint8_t uas_device_medium(const uas_device *device, uint16_t unit, uint32_t lba, uint8_t *data, size_t length)
{
    return device_copy(device, UAS_DEVICE_CALL_MEDIUM, unit, lba, data, length);
}

/* ---- The controller and its disk ---- */

static uas_controller *called_controller(const uas_controller *controller)
{
    return (uas_controller *)(uintptr_t)controller;
}

void uas_controller_free(uas_controller *controller)
{
    if (controller != NULL)
        uas_controller_close(controller);
    free(controller);
}

uint8_t uas_controller_put_raw(uas_controller *controller, uint8_t ring, uint16_t stream, const uint8_t bytes[16], uint64_t *address)
{
    struct uas_controller_door door = { .call = UAS_CONTROLLER_CALL_PUT, .ring = ring, .stream = stream };
    uint8_t fault = uas_controller_call(controller, &door, bytes_of(bytes, 16), 16);
    if (fault == UAS_OK)
        *address = door.address;
    return fault;
}

uint8_t uas_controller_doorbell(uas_controller *controller, uint32_t value)
{
    struct uas_controller_door door = { .call = UAS_CONTROLLER_CALL_DOORBELL, .value = value };
    return uas_controller_call(controller, &door, bytes_of(NULL, 0), 0);
}

uint8_t uas_controller_step(uas_controller *controller, uint8_t step, uint16_t *tag, bool *acted)
{
    struct uas_controller_door door = { .call = UAS_CONTROLLER_CALL_STEP, .step = step, .tag = *tag };
    uint8_t fault = uas_controller_call(controller, &door, bytes_of(NULL, 0), 0);
    if (fault == UAS_OK) {
        *acted = door.acted != 0;
        *tag = door.tag;
    }
    return fault;
}

uint8_t uas_controller_event(uas_controller *controller, struct uas_controller_door *event)
{
    struct uas_controller_door door = { .call = UAS_CONTROLLER_CALL_EVENT };
    uint8_t fault = uas_controller_call(controller, &door, bytes_of(NULL, 0), 0);
    if (fault == UAS_OK)
        *event = door;
    return fault;
}

static uint8_t controller_memory(uas_controller *controller, uint8_t call, uint64_t address, uint8_t *data, size_t length)
{
    struct uas_controller_door door = { .call = call, .address = address };
    return uas_controller_call(controller, &door, bytes_of(data, length), length);
}

uint8_t uas_controller_write(uas_controller *controller, uint64_t address, const uint8_t *data, size_t length)
{
    return controller_memory(controller, UAS_CONTROLLER_CALL_WRITE, address, bytes_of(data, length), length);
}

uint8_t uas_controller_read(const uas_controller *controller, uint64_t address, uint8_t *data, size_t length)
{
    return controller_memory(called_controller(controller), UAS_CONTROLLER_CALL_READ, address, data, length);
}

uint8_t uas_controller_lend(uas_controller *controller, uint16_t tag, const uint8_t *data, size_t length)
{
    struct uas_controller_door door = { .call = UAS_CONTROLLER_CALL_LEND, .tag = tag };
    return uas_controller_call(controller, &door, bytes_of(data, length), length);
}

uint8_t uas_controller_take_back(uas_controller *controller, uint16_t tag, uint8_t *data, size_t room, uint32_t *length)
{
    struct uas_controller_door door = { .call = UAS_CONTROLLER_CALL_TAKE_BACK, .tag = tag };
    uint8_t fault = uas_controller_call(controller, &door, bytes_of(data, room), room);
    if (fault == UAS_OK)
        *length = door.value;
    return fault;
}

uint8_t uas_controller_reclaim(uas_controller *controller, uint8_t ring, uint16_t stream, uint64_t address)
{
    struct uas_controller_door door = { .call = UAS_CONTROLLER_CALL_RECLAIM, .ring = ring, .stream = stream, .address = address };
    return uas_controller_call(controller, &door, bytes_of(NULL, 0), 0);
}

uint8_t uas_controller_context(const uas_controller *controller, uint8_t ring, uint16_t stream, uint8_t bytes[16])
{
    struct uas_controller_door door = { .call = UAS_CONTROLLER_CALL_CONTEXT, .ring = ring, .stream = stream };
    return uas_controller_call(called_controller(controller), &door, bytes_of(bytes, 16), 16);
}

static uint8_t controller_copy(const uas_controller *controller, uint8_t call, uint16_t unit, uint32_t lba, uint8_t *data, size_t length)
{
    struct uas_controller_door door = { .call = call, .unit = unit, .lba = lba };
    return uas_controller_call(called_controller(controller), &door, bytes_of(data, length), length);
}

uint8_t uas_controller_blocks(const uas_controller *controller, uint16_t unit, uint32_t lba, uint8_t *data, size_t length)
{
    return controller_copy(controller, UAS_CONTROLLER_CALL_BLOCKS, unit, lba, data, length);
}

uint8_t uas_controller_medium(const uas_controller *controller, uint16_t unit, uint32_t lba, uint8_t *data, size_t length)
{
    return controller_copy(controller, UAS_CONTROLLER_CALL_MEDIUM, unit, lba, data, length);
}
