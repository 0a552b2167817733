/* A second implementation of what the pipes of a controller over a caller's memory stand on: memory of one block, TRBs in it, and the event
 * ring's producer. */
#ifndef UAS_TESTS_SECOND_EVENTS_H
#define UAS_TESTS_SECOND_EVENTS_H

#include "second_tasks.h"

#ifndef SECOND_MEMORY_BYTES
#define SECOND_MEMORY_BYTES (1 << 18)
#endif
enum { TRANSFER_EVENT = 32, COMMAND_EVENT = 33, CONTROLLER_EVENT = 37, EVENT_RING_FULL = 21 };

struct second_memory {
    uint64_t base;
    uint8_t bytes[SECOND_MEMORY_BYTES];
};

struct second_trb {
    uint64_t at, parameter;
    uint32_t status, control;
};

static inline bool second_is_there(const struct second_memory *memory, uint64_t at, uint64_t length)
{
    uint64_t from = at - memory->base;
    return from <= SECOND_MEMORY_BYTES && length <= SECOND_MEMORY_BYTES - from;
}

static inline uint8_t *second_at(struct second_memory *memory, uint64_t at)
{
    return memory->bytes + (at - memory->base);
}

static inline uint64_t second_long(const uint8_t *bytes)
{
    return little32(bytes) | (uint64_t)little32(bytes + 4) << 32;
}

static inline void second_put_long(uint64_t value, uint8_t *bytes)
{
    put_little32((uint32_t)value, bytes);
    put_little32((uint32_t)(value >> 32), bytes + 4);
}

static inline struct second_trb second_trb_at(struct second_memory *memory, uint64_t at)
{
    const uint8_t *bytes = second_at(memory, at);
    return (struct second_trb){ at, second_long(bytes), little32(bytes + 8), little32(bytes + 12) };
}

/* The event ring of one segment, and the driver's ERDP. */
struct second_event_ring {
    uint64_t segment, dequeue;
    uint32_t places, place;
    bool cycle, told_full;
};

/* How many events fit, the last place included that a full ring's error takes. */
static inline uint32_t second_free_places(const struct second_event_ring *ring)
{
    uint32_t first = (uint32_t)((ring->dequeue - ring->segment) / 16);
    return ring->places - 1 - (ring->place + ring->places - first) % ring->places;
}

static inline void second_post(struct second_memory *memory, struct second_event_ring *ring, uint64_t parameter, uint32_t status, uint32_t control)
{
    uint8_t *bytes = second_at(memory, ring->segment + 16 * (uint64_t)ring->place);
    second_put_long(parameter, bytes);
    put_little32(status, bytes + 8);
    put_little32(control | ring->cycle, bytes + 12);
    if (++ring->place == ring->places) {
        ring->place = 0;
        ring->cycle = !ring->cycle;
    }
}

/* Whether an event may be posted. Where it may not, Event Ring Full Error takes the last place once: *acted is true then. */
static inline bool second_has_room(struct second_memory *memory, struct second_event_ring *ring, bool *acted)
{
    uint32_t free = second_free_places(ring);
    *acted = false;
    if (free >= 2)
        return true;
    if (free == 1 && !ring->told_full) {
        second_post(memory, ring, 0, (uint32_t)EVENT_RING_FULL << 24, CONTROLLER_EVENT << 10);
        ring->told_full = true;
        *acted = true;
    }
    return false;
}

#endif
