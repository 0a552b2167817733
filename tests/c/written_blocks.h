/* What waits under the tags of a client, and a model of its disk: by which WRITE each block may have been written last. A WRITE that was
 * aborted, failed or given up was done or not, block by block. */
#ifndef WRITTEN_BLOCKS_H
#define WRITTEN_BLOCKS_H

#include "qtest.h"
#include "uas.h"

enum { TAGS = UAS_CLIENT_TAGS, TASK_TAG = TAGS, BLOCKS = 4096, CANDIDATES = 4 };

/* What waits under a tag. */
struct asked {
    bool there, given_up;
    bool moving; /* no event told yet that its data TD is over */
    uint8_t function;
    uint64_t ticket, stamp; /* what a WRITE writes */
    uint32_t length;
    struct uas_operation operation;
};

static struct asked asked[TAGS + 1];
static uint64_t may_be[BLOCKS][CANDIDATES]; /* numbers of WRITEs, 0 for none */
static uint8_t candidates[BLOCKS];

static uint64_t word_of(uint64_t block, uint64_t stamp, uint32_t at)
{
    return stamp == 0 ? 0 : (stamp * 0x9e3779b97f4a7c15u ^ block << 40 ^ at) * 0xbf58476d1ce4e5b9u;
}

static bool is_block(const uint8_t *bytes, uint64_t block, uint64_t stamp)
{
    for (uint32_t i = 0; i < UAS_BLOCK_BYTES / 8; i++) {
        uint64_t word = word_of(block, stamp, i);
        if (memcmp(bytes + 8 * i, &word, 8) != 0)
            return false;
    }
    return true;
}

static bool is_read(const struct uas_operation *operation)
{
    return operation->opcode == UAS_READ_10 || operation->opcode == UAS_READ_16;
}

static bool is_write(const struct uas_operation *operation)
{
    return operation->opcode == UAS_WRITE_10 || operation->opcode == UAS_WRITE_16;
}

static bool is_beyond(const struct uas_operation *operation)
{
    return (is_read(operation) || is_write(operation)) && operation->lba + operation->count > BLOCKS;
}

/* Each of so many blocks was written last by one of the WRITEs that may have been the last, which is known from here on. */
static void see_blocks(const struct asked *now, const uint8_t *data, uint32_t bytes)
{
    for (uint32_t i = 0; i < bytes / UAS_BLOCK_BYTES; i++) {
        uint64_t block = now->operation.lba + i;
        uint8_t which = 0;
        while (which < candidates[block] && !is_block(data + (size_t)i * UAS_BLOCK_BYTES, block, may_be[block][which]))
            which++;
        if (which == candidates[block])
            fail("another block is read", block);
        may_be[block][0] = may_be[block][which];
        candidates[block] = 1;
    }
}

/* The blocks of a WRITE are written, or may be. */
static void note_write(const struct asked *now, bool done)
{
    for (uint64_t block = now->operation.lba; block < now->operation.lba + now->operation.count; block++) {
        if (done)
            candidates[block] = 0;
        may_be[block][candidates[block]++] = now->stamp;
    }
}

/* Whether blocks are free for a command: no WRITE's that waits, for a WRITE no READ's either, and not written by too many that were aborted. */
static bool are_free(const struct uas_operation *operation)
{
    for (uint16_t tag = 1; tag < TAGS; tag++) {
        const struct uas_operation *other = &asked[tag].operation;
        if (asked[tag].there && (is_write(other) || (is_write(operation) && is_read(other))) && other->lba < operation->lba + operation->count &&
            operation->lba < other->lba + other->count)
            return false;
    }
    for (uint64_t block = operation->lba; is_write(operation) && block < operation->lba + operation->count; block++) {
        if (block < BLOCKS && candidates[block] == CANDIDATES)
            return false;
    }
    return true;
}

#endif
