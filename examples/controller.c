/* A driver's side of one command to the first of 31 logical units, and to the last, against what stands behind a driver: information units
 * and TRBs go in, steps are taken, events come out.
 *
 *   cc -Iinclude examples/controller.c $(bindings/archive) -o controller && ./controller */
#include "uas.h"
#include <stdio.h>

enum { TAG = 18 };

/* Puts a Normal TRB, which names a buffer of the tag, on a ring. */
static bool put(uas_controller *controller, uint8_t ring, uint16_t stream, uint8_t buffer, uint32_t length)
{
    const struct uas_trb trb = { .type = UAS_TRB_NORMAL, .pointer = uas_buffer_address(buffer, TAG), .length = length, .flags = UAS_TRB_IOC };
    uint8_t bytes[16];
    uint64_t address;
    return uas_trb_encode(&trb, bytes) == 0 && uas_controller_put_raw(controller, ring, stream, bytes, &address) == 0;
}

/* Takes a step that is due, and prints the event that came of it. */
static bool step(uas_controller *controller, uint8_t step)
{
    struct uas_controller_door event;
    uint16_t tag = TAG;
    bool acted;
    if (uas_controller_step(controller, step, &tag, &acted) != 0 || !acted || uas_controller_event(controller, &event) != 0 || !event.acted)
        return false;
    printf("event at %llx: code %u, %u bytes left\n", (unsigned long long)event.address, event.code, event.value);
    return true;
}

/* READ CAPACITY(10) of a logical unit as a driver does it, whose 8 bytes come back in `data`; whether all of it was done. */
static bool read_capacity(uas_controller *controller, uint8_t number, uint8_t data[8])
{
    const struct uas_unit unit = { .id = UAS_UNIT_COMMAND, .tag = TAG, .lun = { 0, number }, .cdb = { UAS_READ_CAPACITY_10 } };
    uint8_t bytes[UAS_MOST_UNIT_BYTES];
    size_t length;
    uint32_t lent;
    return uas_unit_write(&unit, bytes, sizeof bytes, &length) == 0 &&
           uas_controller_write(controller, uas_buffer_address(UAS_BUFFER_COMMAND, TAG), bytes, length) == 0 &&
           uas_controller_lend(controller, TAG, data, 8) == 0 &&
           put(controller, UAS_RING_DATA_IN, TAG, UAS_BUFFER_DATA, 8) &&
           put(controller, UAS_RING_STATUS, TAG, UAS_BUFFER_STATUS, UAS_MOST_UNIT_BYTES) &&
           put(controller, UAS_RING_COMMAND_PIPE, 0, UAS_BUFFER_COMMAND, 32) &&
           uas_controller_doorbell(controller, uas_doorbell(UAS_ENDPOINT_DATA_IN, TAG)) == 0 &&
           uas_controller_doorbell(controller, uas_doorbell(UAS_ENDPOINT_STATUS, TAG)) == 0 &&
           step(controller, UAS_STEP_COMMAND) && step(controller, UAS_STEP_DATA) && step(controller, UAS_STEP_STATUS) &&
           uas_controller_take_back(controller, TAG, data, 8, &lent) == 0;
}

static void print(const char *name, const uint8_t *bytes, size_t length)
{
    printf("%s", name);
    for (size_t i = 0; i < length; i++)
        printf(" %02x", bytes[i]);
    printf("\n");
}

int main(void)
{
    static const uint8_t numbers[] = { 0, UAS_MOST_UNITS - 1 };
    uint32_t blocks[UAS_MOST_UNITS];
    uint8_t data[8] = { 0 }, unit[16];
    uas_controller *controller;
    for (uint32_t i = 0; i < UAS_MOST_UNITS; i++)
        blocks[i] = 100 + i;
    if (uas_controller_new(blocks, UAS_MOST_UNITS, &controller) != 0)
        return 1;
    for (size_t i = 0; i < sizeof numbers; i++) {
        if (!read_capacity(controller, numbers[i], data) ||
            uas_controller_read(controller, uas_buffer_address(UAS_BUFFER_STATUS, TAG), unit, sizeof unit) != 0)
            return 1;
        print("data", data, sizeof data);
        print("answer", unit, sizeof unit);
    }
    /* A TRB whose buffer isn't there, as nothing is lent any more. */
    if (!put(controller, UAS_RING_DATA_IN, TAG, UAS_BUFFER_DATA, 8) || !step(controller, UAS_STEP_DATA))
        return 1;
    uas_controller_free(controller);
}
