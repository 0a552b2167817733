/* A driver's rings and buffers, which lie at the same addresses in QEMU's memory: copied there with each doorbell, and back with each event. */
#ifndef COPIED_RINGS_H
#define COPIED_RINGS_H

#include "qemu_xhci.h"
#include "written_blocks.h"

enum { PIPES = 5, STREAMS = 256 };

static const uint8_t dci[PIPES] = { 0, DCI_STATUS, DCI_DATA_IN, DCI_DATA_OUT, DCI_COMMAND };
static const uint8_t endpoint_of[PIPES] = { 0, UAS_ENDPOINT_STATUS, UAS_ENDPOINT_DATA_IN, UAS_ENDPOINT_DATA_OUT, UAS_ENDPOINT_COMMAND };
static uas_driver *driver;
static uint64_t next_place[PIPES][STREAMS], next_command; /* of each ring, the first place that wasn't copied */
static uint64_t stops;

static bool is_link(const uint8_t bytes[16])
{
    return bytes[13] >> 2 == UAS_TRB_LINK;
}

/* An item as QEMU is to see it. After Stop Endpoint QEMU takes every stream's cycle state for 1 (xhci_find_stream), so it is 1 for good: no Link
 * TRB toggles it, and the place behind an item is cleared. */
static void translate(uint8_t bytes[16])
{
    uint8_t type = bytes[13] >> 2, pipe = 1;
    bytes[12] |= 1;
    if (is_link(bytes))
        bytes[12] &= (uint8_t)~2u;
    if (type == UAS_TRB_NORMAL || is_link(bytes))
        return;
    while (pipe < PIPES && endpoint_of[pipe] != (bytes[14] & 31))
        pipe++;
    if (pipe == PIPES || bytes[15] != SLOT)
        fail("a command of no endpoint", bytes[14]);
    bytes[14] = dci[pipe];
    if (type == UAS_TRB_SET_DEQUEUE)
        bytes[0] |= 1;
    stops += type == UAS_TRB_STOP_ENDPOINT;
}

/* Copies what was put on a ring. */
static void copy_ring(uint64_t *next)
{
    uint8_t bytes[16], behind[16];
    while (uas_driver_item(driver, *next, bytes) == UAS_OK) {
        uint64_t place = *next, pointer;
        memcpy(&pointer, bytes, sizeof pointer);
        *next = is_link(bytes) ? pointer & ~(uint64_t)15 : place + 16;
        if (uas_driver_item(driver, *next, behind) != UAS_OK || !is_link(behind))
            set_guest_word(*next + 12, 0);
        translate(bytes);
        set_guest_trb(place, bytes);
    }
}

/* Writes the doorbells that a call told. */
static void ring(const struct uas_driver_door *door)
{
    for (uint16_t i = 0; i < door->doorbells; i++) {
        uint32_t value = door->doorbell[i];
        if (value == 0) {
            copy_ring(&next_command);
            ring_doorbell(0, 0);
        }
        for (uint8_t pipe = 1; pipe < PIPES && value != 0; pipe++) {
            if (endpoint_of[pipe] == (value & 0xff)) {
                copy_ring(&next_place[pipe][value >> 16]);
                ring_doorbell(SLOT, dci[pipe] | (value & 0xffff0000));
            }
        }
    }
    settle();
}

static uint64_t buffer(uint64_t base, uint64_t span, uint16_t tag)
{
    return base + span * tag;
}

static uint64_t window(uint16_t tag)
{
    return buffer(0x100000000, 0x10000, tag);
}

/* Copies what a submission wrote to buffers. */
static void copy_buffers(uint16_t tag, uint32_t length)
{
    uint64_t unit = buffer(0x10000000, 0x100, tag);
    memset(guest(buffer(0x20000000, 0x100, tag)), 0, 112);
    if (uas_driver_read(driver, unit, guest(unit), 32) != UAS_OK ||
        (length != 0 && uas_driver_read(driver, window(tag), guest(window(tag)), length) != UAS_OK))
        fail("no buffers", tag);
}

/* Copies back what a pipe's TD brought. */
static void copy_back(uint8_t pipe, uint16_t stream)
{
    uint64_t status = buffer(0x20000000, 0x100, stream);
    if (pipe == UAS_PIPE_STATUS && uas_driver_write(driver, status, guest(status), 112) != UAS_OK)
        fail("no status buffer", stream);
    if (pipe == UAS_PIPE_DATA_IN && stream <= TAGS && asked[stream].there && asked[stream].length != 0 &&
        uas_driver_write(driver, window(stream), guest(window(stream)), asked[stream].length) != UAS_OK)
        fail("no data buffer", stream);
}

/* Empty rings, and the contexts of their streams. */
static void empty_rings(void)
{
    for (uint8_t pipe = UAS_PIPE_STATUS; pipe < PIPES; pipe++) {
        for (uint16_t stream = 0; stream < STREAMS; stream++) {
            bool there = pipe == UAS_RING_COMMAND_PIPE ? stream == 0 : stream != 0 && stream < 249;
            uint64_t base = there ? uas_ring_address(pipe, stream, 0) : 0;
            next_place[pipe][stream] = base;
            if (there && stream <= TAGS)
                memset(guest(base), 0, 4096);
            uint64_t context[2] = { base | 3, 0 };
            if (there && stream != 0)
                memcpy(guest(STREAM_ARRAYS + 0x1000 * (pipe - 1u) + 16 * stream), context, sizeof context);
        }
    }
    next_command = uas_ring_address(UAS_RING_COMMANDS, 0, 0);
    memset(guest(next_command), 0, 4096);
}

#endif
