/* A disk driver in C: it takes a controller as it finds it, brings it up, and reads a block of the disk behind it. What a driver's author replaces
 * are the five functions, and the memory: here registers, memory and time are those of a controller in the same process (uas_xhci.h).
 *
 *   cc -Iinclude examples/block.c $(bindings/archive block) $(bindings/archive xhci) -o block && ./block */
#include "uas_block.h"
#include "uas_xhci.h"
#include <stdio.h>
#include <stdlib.h>
#include <string.h>

enum { MEMORY = 0x10000000, BYTES = 1 << 20, DATA = 0xf0000 /* in it: where the block goes */, BLOCKS = 1000, BLOCK = 512 };

static uint8_t memory[BYTES], disk[BLOCKS * BLOCK];
static uint64_t milliseconds;

/* ---- What a driver's author writes ---- */

static uint32_t read32(void *xhci, uint32_t offset)
{
    return (uint32_t)uas_xhci_read((uas_xhci *)xhci, offset, 4);
}

static void write32(void *xhci, uint32_t offset, uint32_t value)
{
    uas_xhci_write((uas_xhci *)xhci, offset, 4, value); /* on hardware a write barrier before it */
}

static void load(void *xhci, uint64_t address, uint8_t *bytes, uint32_t length)
{
    (void)xhci;
    memcpy(bytes, memory + (address - MEMORY), length); /* on hardware a read barrier before it */
}

static void store(void *xhci, uint64_t address, const uint8_t *bytes, uint32_t length)
{
    (void)xhci;
    memcpy(memory + (address - MEMORY), bytes, length); /* on hardware four bytes are one store, with a write barrier before it */
}

static uint64_t now(void *xhci)
{
    (void)xhci;
    return milliseconds;
}

/* Asks for a block, for the first of the memory's bytes that weren't lent. */
static bool read_block(uas_block *block, const struct uas_block_state *disk, uint64_t number)
{
    const struct uas_block_request read = {
        .disk = disk->disk, .kind = UAS_BLOCK_REQUEST_READ, .block = number, .count = 1, .limit = milliseconds + 30000
    };
    const struct uas_segment segment = { MEMORY + DATA, BLOCK, 0 };
    uint16_t tag;
    return uas_block_submit(block, &read, &segment, 1, &tag) == UAS_OK;
}

/* ---- The controller, which works by itself where it is hardware, and its disk's blocks ---- */

/* Waits until an interrupt comes, which is true, or that time. Meanwhile the controller works, and the disk's blocks are read. */
static bool interrupted(uas_xhci *xhci, uint64_t until)
{
    struct uas_region region = { MEMORY, memory, sizeof memory };
    struct uas_request request;
    uint32_t steps;
    bool more, asks;
    do {
        uas_xhci_work(xhci, &region, 1, 1000, &steps, &more);
        asks = uas_xhci_next_request(xhci, &request);
        if (asks)
            uas_xhci_answered(xhci, request.number, UAS_DONE, disk + BLOCK * request.block, BLOCK * (size_t)request.count);
    } while (more || asks);
    if (uas_xhci_take_message(xhci))
        return true;
    if (until == UINT64_MAX)
        exit(1); /* nothing comes any more */
    if (until > milliseconds)
        milliseconds = until;
    return false;
}

int main(void)
{
    const struct uas_tasks_unit unit = { BLOCKS, 1, BLOCK };
    const struct uas_block_options options = { .bar_bytes = UAS_XHCI_REGISTER_BYTES, .tags = 15, .trbs = 31, .address_bits = 64 };
    static uint8_t buffer[UAS_BLOCK_LOAD_BYTES];
    struct uas_block_state state;
    struct uas_block_reply reply;
    uas_block *block;
    uas_xhci *xhci;
    bool asked = false;
    memcpy(disk + 7 * BLOCK, "block 7", 7);
    if (uas_xhci_new(&unit, 1, UAS_SET_HOST, 128, 8, &xhci) != UAS_OK)
        return 1;
    const struct uas_block_user user = { xhci, read32, write32, load, store, now, buffer };

    if (uas_block_new(&options, &block) != UAS_OK)
        return 1;
    for (;;) {
        uint64_t until = uas_block_turn(block, &user, 1000);
        if (uas_block_take_reply(block, &reply))
            break;
        uas_block_state(block, &state);
        if (state.state == UAS_BLOCK_WANTS_MEMORY)
            uas_block_lend(block, MEMORY);
        else if (state.state == UAS_BLOCK_READY && !asked)
            asked = read_block(block, &state, 7);
        else if (interrupted(xhci, until))
            uas_block_interrupted(block);
    }

    printf("disk %u: %u blocks of %u bytes\n", (unsigned)state.disk, (unsigned)state.blocks, (unsigned)state.block_bytes);
    printf("reply %u: %u bytes: %.7s\n", (unsigned)reply.kind, (unsigned)reply.moved, (const char *)memory + DATA);
    uas_block_free(block);
    uas_xhci_free(xhci);
    return 0;
}
