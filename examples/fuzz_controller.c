/* A harness of libFuzzer over the controller's rings: the bytes of an input are calls. Nothing may crash, each fault has a name, and what is
 * refused isn't written.
 *
 *   clang -g -fsanitize=fuzzer,address -Iinclude examples/fuzz_controller.c $(bindings/archive) -o fuzz && ./fuzz -max_total_time=60 */
#include "uas.h"
#include <stdio.h>
#include <stdlib.h>
#include <string.h>

int LLVMFuzzerTestOneInput(const uint8_t *data, size_t size);

/* What of the input is left. */
struct input {
    const uint8_t *at;
    size_t left;
};

/* The next bytes of the input, zeros where it ends. */
static void take(struct input *input, void *bytes, size_t length)
{
    size_t there = length < input->left ? length : input->left;
    memset(bytes, 0, length);
    memcpy(bytes, input->at, there);
    input->at += there;
    input->left -= there;
}

static uint8_t byte(struct input *input)
{
    uint8_t one;
    take(input, &one, 1);
    return one;
}

/* A tag, mostly one of few, so that calls meet. */
static uint16_t tag_of(struct input *input)
{
    uint8_t one = byte(input);
    return one < 0xf0 ? 1 + one % 4 : (uint16_t)(one << 8 | byte(input));
}

static void check(bool good, const char *what)
{
    if (good)
        return;
    fprintf(stderr, "%s\n", what);
    abort();
}

/* 16 bytes for a ring: a Normal TRB that names a buffer of the tag, or any bytes. */
static void item(struct input *input, uint8_t ring, uint16_t tag, uint8_t bytes[16])
{
    uint8_t kind = byte(input);
    struct uas_trb trb = { .type = UAS_TRB_NORMAL, .flags = kind & UAS_TRB_CH, .length = 16 * (uint32_t)byte(input) };
    uint8_t buffer = ring == UAS_RING_COMMAND_PIPE ? UAS_BUFFER_COMMAND : ring == UAS_RING_STATUS ? UAS_BUFFER_STATUS : UAS_BUFFER_DATA;
    trb.pointer = uas_buffer_address(buffer, tag);
    if (ring == UAS_RING_COMMANDS) {
        trb = (struct uas_trb){ .type = kind % 2 ? UAS_TRB_STOP_ENDPOINT : UAS_TRB_SET_DEQUEUE, .endpoint = byte(input) % 8, .slot = 1 };
        trb.stream = tag;
        trb.dequeue_cycle = kind >> 1 & 1;
        trb.pointer = uas_ring_address(byte(input) % 6, tag, byte(input) % 20);
    }
    if (kind >= 0xf0 || uas_trb_encode(&trb, bytes) != UAS_OK)
        take(input, bytes, 16);
}

/* Writes a Command or Task Management information unit into the tag's command buffer, or any bytes to any address. */
static uint8_t write_memory(uas_controller *controller, struct input *input)
{
    static const uint8_t opcodes[] = { UAS_TEST_UNIT_READY, UAS_INQUIRY, UAS_READ_10, UAS_WRITE_10, UAS_SYNCHRONIZE_CACHE_10, UAS_READ_16, UAS_WRITE_16 };
    uint8_t kind = byte(input), bytes[UAS_MOST_UNIT_BYTES];
    uint64_t address;
    size_t length = 0;
    struct uas_unit unit = { .id = kind & 1 ? UAS_UNIT_TASK : UAS_UNIT_COMMAND, .lun = { 0, kind >> 1 & 1 } };
    unit.tag = tag_of(input);
    unit.task_tag = tag_of(input);
    unit.function = byte(input) % 2 ? UAS_ABORT_TASK : byte(input);
    struct uas_operation asked = { .opcode = opcodes[byte(input) % 7], .lba = byte(input) % 32, .count = byte(input) % 20 };
    address = uas_buffer_address(UAS_BUFFER_COMMAND, unit.tag);
    if (kind < 0xf0 && uas_cdb_write(&asked, unit.cdb) == UAS_OK && uas_unit_write(&unit, bytes, sizeof bytes, &length) == UAS_OK)
        return uas_controller_write(controller, address, bytes, length);
    take(input, &address, sizeof address);
    length = byte(input) % (sizeof bytes + 1);
    take(input, bytes, length);
    return uas_controller_write(controller, address, bytes, length);
}

static uint8_t step(uas_controller *controller, struct input *input)
{
    uint8_t number = byte(input);
    uint16_t tag = tag_of(input), before = tag;
    bool acted = false;
    uint8_t fault = uas_controller_step(controller, number < 0xf0 ? 1 + number % 4 : number, &tag, &acted);
    check(fault == UAS_OK || (!acted && tag == before), "a refused step wrote");
    return fault;
}

/* Takes the oldest event, which tells a place of a ring, and mostly gives that place back. */
static uint8_t event(uas_controller *controller, struct input *input)
{
    struct uas_controller_door told = { .acted = 7 };
    uint8_t ring = 0, fault = uas_controller_event(controller, &told);
    uint16_t stream = 0;
    size_t place = 0;
    check(fault == UAS_OK && told.acted <= 1, "no event, and no word of it");
    if (told.acted == 0)
        return fault;
    check(uas_ring_place(told.address, &ring, &stream, &place), "an event of no place");
    check((ring == UAS_RING_COMMANDS) == (told.type == UAS_TRB_COMMAND_EVENT), "an event of another ring's type");
    return byte(input) < 0x40 ? fault : uas_controller_reclaim(controller, ring, stream, told.address);
}

static uint8_t call(uas_controller *controller, struct input *input)
{
    static uint8_t window[UAS_MOST_DATA_BYTES];
    static const uint8_t endpoints[] = { UAS_ENDPOINT_STATUS, UAS_ENDPOINT_DATA_IN, UAS_ENDPOINT_DATA_OUT, 0 };
    uint8_t bytes[16], number = byte(input), ring = 1 + number / 8 % 5;
    uint32_t value = 0;
    uint16_t tag;
    uint64_t address = 7;
    switch (number % 8) {
    case 0:
    case 1:
        tag = tag_of(input);
        item(input, ring, tag, bytes);
        return uas_controller_put_raw(controller, ring, ring < UAS_RING_COMMAND_PIPE ? tag : 0, bytes, &address);
    case 2:
        value = uas_doorbell(endpoints[byte(input) % 4], tag_of(input));
        return uas_controller_doorbell(controller, value);
    case 3:
    case 4:
        return step(controller, input);
    case 5:
        return event(controller, input);
    case 6:
        return number & 0x80 ? uas_controller_take_back(controller, tag_of(input), window, sizeof window, &value)
                             : uas_controller_lend(controller, tag_of(input), window, 512 * (size_t)(byte(input) % 17));
    default:
        return write_memory(controller, input);
    }
}

int LLVMFuzzerTestOneInput(const uint8_t *data, size_t size)
{
    static const uint32_t blocks[2] = { 24, 3 };
    static const struct uas_bad_block bad[2] = { { 0, 11 }, { 1, 2 } };
    struct input input = { data, size };
    uas_controller *controller = NULL;
    uint8_t none = 0;
    if (uas_controller_open(blocks, 2, &none, 0, bad, 2, &controller) != UAS_OK)
        return 0;
    while (input.left > 0)
        check(uas_fault_name(call(controller, &input)) != NULL, "a fault without a name");
    uas_controller_free(controller);
    return 0;
}
