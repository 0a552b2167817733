/* A controller of one's own beneath a driver: doorbells come out, items and information units are read by address, data and statuses are
 * written, events go in. Its disk is of 100 blocks, block n of 512 bytes n.
 *
 *   cc -Iinclude examples/driver.c $(bindings/archive) -o driver && ./driver */
#include "uas.h"
#include <stdio.h>
#include <string.h>

/* Reads the item at a place. */
static bool item(const uas_driver *driver, uint64_t place, struct uas_trb *trb)
{
    uint8_t bytes[16];
    return uas_driver_item(driver, place, bytes) == 0 && uas_trb_decode(bytes, trb) == 0;
}

/* The place behind an item that is still there: where a Link TRB stands, the place to which it leads. */
static uint64_t behind(const uas_driver *driver, uint64_t place)
{
    struct uas_trb trb;
    return item(driver, place + 16, &trb) && trb.type == UAS_TRB_LINK ? trb.pointer : place + 16;
}

/* Where a stream's consumer stands, by its context. */
static uint64_t standing(const uas_driver *driver, uint8_t pipe, uint16_t stream)
{
    uint8_t context[16] = { 0 }, cycle, type;
    uint64_t place;
    uas_driver_context(driver, pipe, stream, context);
    uas_context_read(context, &place, &cycle, &type);
    return place;
}

/* Hands in a Transfer Event of the item at a place, from the endpoint of its ring; whether the driver waited for it. */
static bool post(uas_driver *driver, uint64_t place, uint32_t left, uint8_t code)
{
    static const uint8_t endpoint[] = { 0, UAS_ENDPOINT_STATUS, UAS_ENDPOINT_DATA_IN, UAS_ENDPOINT_DATA_OUT, UAS_ENDPOINT_COMMAND };
    struct uas_trb event = { .type = UAS_TRB_TRANSFER_EVENT, .pointer = place, .length = left, .code = code, .slot = 1 };
    uint8_t ring;
    uint16_t stream;
    size_t number;
    if (uas_ring_place(place, &ring, &stream, &number) && ring < sizeof endpoint)
        event.endpoint = endpoint[ring];
    struct uas_driver_door told;
    printf("event at %llx: code %u, %u bytes left\n", (unsigned long long)place, code, left);
    return uas_driver_event(driver, &event, &told) == 0 && told.acted == UAS_EVENT_MATCHED;
}

/* Moves blocks from `lba` on to the buffers of a TD, to its last TRB, which alone has an event. */
static bool move(uas_driver *driver, uint16_t stream, uint64_t lba)
{
    uint64_t place = standing(driver, UAS_PIPE_DATA_IN, stream);
    uint8_t data[4096];
    struct uas_trb trb;
    while (item(driver, place, &trb) && trb.length <= sizeof data) {
        for (uint32_t at = 0; at < trb.length; at += UAS_BLOCK_BYTES)
            memset(data + at, (int)lba++, UAS_BLOCK_BYTES);
        if (uas_driver_write(driver, trb.pointer, data, trb.length) != 0)
            return false;
        if ((trb.flags & UAS_TRB_CH) == 0)
            return post(driver, place, 0, 1);
        place = behind(driver, place);
    }
    return false;
}

/* The doorbell of the command pipe: its next command is received, done and answered. */
static bool serve(uas_driver *driver, uint64_t *place)
{
    struct uas_unit unit, answer = { .id = UAS_UNIT_SENSE, .status = UAS_GOOD };
    struct uas_operation asked;
    struct uas_sense sense;
    struct uas_trb trb;
    uint8_t bytes[UAS_MOST_UNIT_BYTES];
    size_t length;
    uint64_t at = *place;
    if (!item(driver, at, &trb) || trb.length > sizeof bytes || uas_driver_read(driver, trb.pointer, bytes, trb.length) != 0)
        return false;
    *place = behind(driver, at);
    if (uas_unit_read(bytes, trb.length, &unit) != 0 || uas_cdb_parse(unit.cdb, 100, &asked, &sense) != 0 || !post(driver, at, 0, 1))
        return false;
    if (asked.direction != UAS_NO_DATA && (asked.opcode != UAS_READ_10 || !move(driver, unit.tag, asked.lba)))
        return false;
    uint64_t status = standing(driver, UAS_PIPE_STATUS, unit.tag);
    answer.tag = unit.tag;
    return uas_unit_write(&answer, bytes, sizeof bytes, &length) == 0 && item(driver, status, &trb) &&
           uas_driver_write(driver, trb.pointer, bytes, length) == 0 && post(driver, status, trb.length - (uint32_t)length, 13);
}

int main(void)
{
    static const struct uas_operation read = { .opcode = UAS_READ_10, .lba = 40, .count = 9 };
    static uint8_t data[UAS_MOST_DATA_BYTES];
    uint64_t place = uas_ring_address(UAS_RING_COMMAND_PIPE, 0, 0);
    uas_driver *driver;
    struct uas_driver_door told, reply;
    if (uas_driver_new(1, &driver) != 0 || uas_driver_submit(driver, 0, 1, 7, &read, data, 9 * UAS_BLOCK_BYTES, &told) != 0)
        return 1;
    for (uint16_t i = 0; i < told.doorbells; i++) {
        printf("doorbell %08x\n", told.doorbell[i]);
        if (told.doorbell[i] == uas_doorbell(UAS_ENDPOINT_COMMAND, 0) && !serve(driver, &place))
            return 1;
    }
    if (uas_driver_reply(driver, 0, data, sizeof data, &reply) != 0 || !reply.acted)
        return 1;
    printf("reply to %llu: status %02x, %u bytes, %02x .. %02x\n", (unsigned long long)reply.ticket, reply.status, reply.length, data[0],
           data[reply.length - 1]);
    uas_driver_free(driver);
}
