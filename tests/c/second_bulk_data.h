/* A second implementation of the data of Bulk-Only Transport: what the device gives, and zeros; what it takes, and what is dropped. */
#ifndef UAS_TESTS_SECOND_BULK_DATA_H
#define UAS_TESTS_SECOND_BULK_DATA_H

#include "second_bulk.h"

/* Where nothing is left of the last chunk, another one is taken from the device where it gives one. */
static inline void bulk_take_chunk(struct second_bulk *bulk)
{
    uint64_t gives;
    if (bulk->from < bulk->to || bulk->over || bulk_next(bulk, &gives) != UAS_GIVES)
        return;
    bulk->from = 0;
    bulk->to = gives < BULK_PIECE ? (uint32_t)gives : BULK_PIECE;
    if (bulk->own)
        memcpy(bulk->chunk, bulk->sense + bulk->answered, bulk->to);
    else
        uas_tasks_give(bulk->device, 1, bulk->chunk, bulk->to);
    if (bulk->cbw.cdb[0] == 0x03)
        bulk_mend_sense(bulk->chunk, bulk->to);
    bulk->answered += bulk->to;
    bulk->gave = true;
}

/* How many bytes the next step gives to a TRB that has so much room: of a chunk, else zeros. */
static inline uint32_t bulk_offer(struct second_bulk *bulk, uint8_t *bytes, uint32_t room)
{
    uint32_t left = bulk->cbw.length - bulk->moved, count = room < left ? room : left;
    bulk_take_chunk(bulk);
    uint32_t most = bulk->from < bulk->to ? bulk->to - bulk->from : BULK_PIECE;
    count = count < most ? count : most;
    if (bulk->from < bulk->to)
        memcpy(bytes, bulk->chunk + bulk->from, count);
    else
        memset(bytes, 0, count);
    return count;
}

/* They are given. */
static inline void bulk_give(struct second_bulk *bulk, uint32_t count)
{
    bulk->moved += count;
    if (bulk->from < bulk->to) {
        bulk->from += count;
        bulk->devices += count;
    } else
        bulk->seen[SEEN_ZEROS]++;
}

/* Of a TRB that is dropped so many bytes were the data's. */
static inline void bulk_drop(struct second_bulk *bulk, uint32_t count)
{
    uint32_t left = bulk->cbw.length - bulk->moved;
    bulk->moved += count < left ? count : left;
    bulk->seen[SEEN_DROPS]++;
}

/* How many bytes of a whole chunk the device takes next. */
static inline uint32_t bulk_whole(struct second_bulk *bulk)
{
    uint64_t takes = 0;
    bulk_next(bulk, &takes);
    return takes < BULK_PIECE ? (uint32_t)takes : BULK_PIECE;
}

/* How many bytes the next step takes from a TRB that has so many. */
static inline uint32_t bulk_room(struct second_bulk *bulk, uint32_t count)
{
    uint32_t left = bulk->cbw.length - bulk->moved, room = bulk_whole(bulk) - bulk->to;
    count = count < left ? count : left;
    return count < room ? count : room;
}

/* Bytes for the device: a chunk that is full goes to it. */
static inline void bulk_take(struct second_bulk *bulk, const uint8_t *bytes, uint32_t count)
{
    uint32_t whole = bulk_whole(bulk);
    memcpy(bulk->chunk + bulk->to, bytes, count);
    bulk->moved += count;
    bulk->to += count;
    if (bulk->to < whole)
        return;
    uas_tasks_take(bulk->device, 1, bulk->chunk, whole);
    bulk->devices += whole;
    bulk->took = true;
    bulk->to = 0;
}

#endif
