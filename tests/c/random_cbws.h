/* Random command block wrappers for random_bulk.c: commands of many kinds, with a length that is theirs, less or more, or of the other direction, and invalid
 * ones. */
#ifndef RANDOM_CBWS_H
#define RANDOM_CBWS_H

#include "random_bulk.h"

enum { MOST_DATA = 5000 };

/* A command as the driver sees it: the bytes that it moves, and whether to the host. */
struct plan {
    uint8_t cdb[16], cdb_length;
    uint32_t lun, natural, length;
    bool in;
};

static void draw_blocks(struct plan *plan, uint8_t code, bool in)
{
    uint32_t size = plan->lun < unit_count ? units[plan->lun].block_bytes : 512, most = size == 512 ? 12 : 3;
    uint32_t count = below(8) ? 1 + below(most) : 0, block = below(20) ? below(BLOCKS - most) : below(80);
    plan->cdb[0] = code;
    plan->cdb[1] = (uint8_t)(below(8) == 0 ? 8 : 0);
    plan->in = in;
    plan->natural = count * size;
    plan->cdb_length = (uint8_t)(code >> 5 == 4 ? 16 : 10);
    if (code >> 5 == 4) {
        put_big(block, plan->cdb + 6, 4);
        put_big(count, plan->cdb + 10, 4);
    } else {
        put_big(block, plan->cdb + 2, 4);
        put_big(count, plan->cdb + 7, 2);
    }
}

/* A command that gives data of the device, with an allocation length. */
static void draw_inquiry(struct plan *plan)
{
    static const uint8_t codes[] = { 0x12, 0x03, 0x03, 0x1a, 0x25, 0x9e, 0xa0 };
    uint32_t allocation = below(3) ? 18 + below(40) : below(256);
    plan->cdb[0] = codes[below(sizeof codes)];
    plan->in = true;
    plan->cdb_length = plan->cdb[0] == 0x25 ? 10 : plan->cdb[0] == 0x9e ? 16 : plan->cdb[0] == 0xa0 ? 12 : 6;
    plan->cdb[4] = (uint8_t)allocation;
    plan->natural = plan->cdb[0] == 0x03 && allocation > 18 ? 18 : plan->cdb[0] == 0x25 ? 8 : plan->cdb[0] == 0x12 && allocation > 36 ? 36 : allocation;
    if (plan->cdb[0] == 0x12 && below(4) == 0) {
        plan->cdb[1] = 1;
        plan->cdb[2] = (uint8_t)(below(2) ? 0x80 + below(4) : 0xb0 + below(3));
    } else if (plan->cdb[0] == 0x03)
        plan->cdb[1] = below(8) == 0;
    else if (plan->cdb[0] == 0x1a)
        plan->cdb[2] = (uint8_t)(below(2) ? 0x3f : 8);
    else if (plan->cdb[0] == 0x25)
        plan->cdb[4] = 0;
    else if (plan->cdb[0] >= 0x9e) {
        plan->cdb[4] = 0;
        plan->cdb[plan->cdb[0] == 0x9e ? 13 : 9] = (uint8_t)allocation;
        plan->cdb[1] = plan->cdb[0] == 0x9e ? 0x10 : 0;
    }
}

static void draw_command(struct plan *plan)
{
    uint32_t kind = below(20);
    memset(plan, 0, sizeof *plan);
    plan->lun = below(12) ? below(unit_count) : below(16);
    plan->cdb_length = 6;
    if (kind < 5)
        draw_blocks(plan, below(3) ? 0x28 : 0x88, true);
    else if (kind < 10)
        draw_blocks(plan, below(3) ? 0x2a : 0x8a, false);
    else if (kind < 15)
        draw_inquiry(plan);
    else if (kind == 15) {
        draw_blocks(plan, 0x2f, false);
        plan->cdb[1] = below(3) ? 2 : 0;
        plan->natural = plan->cdb[1] ? plan->natural : 0;
    } else if (kind == 16)
        draw_blocks(plan, 0x35, false), plan->natural = 0;
    else if (kind == 17)
        plan->cdb[0] = (uint8_t)drawn();
    if (model.kept && below(3) == 0) {
        draw_inquiry(plan);
        plan->cdb[0] = 0x03;
        plan->cdb[1] = below(4) == 0;
        plan->cdb_length = 6;
        plan->lun = below(4) ? model.kept_lun : plan->lun;
    }
    if (below(4) == 0)
        plan->cdb[1] = (uint8_t)((plan->cdb[1] & 31) | (below(4) ? plan->lun & 7 : below(8)) << 5);
    if (below(60) == 0)
        plan->cdb[below(16)] ^= (uint8_t)drawn();
}

static void draw_length(struct plan *plan)
{
    uint32_t kind = below(10);
    plan->length = plan->natural;
    if (kind == 0)
        plan->length = 0;
    else if (kind < 3)
        plan->length = below(plan->natural + 1);
    else if (kind < 5)
        plan->length += 1 + below(below(2) ? 100 : MOST_DATA);
    if (below(6) == 0)
        plan->in = !plan->in;
}

/* A CBW, at times an invalid one: how many bytes it has. */
static uint32_t draw_cbw(struct plan *plan, uint8_t bytes[64])
{
    draw_command(plan);
    draw_length(plan);
    memset(bytes, 0, 64);
    put_little32(0x43425355, bytes);
    put_little32((uint32_t)drawn(), bytes + 4);
    put_little32(plan->length, bytes + 8);
    bytes[12] = (uint8_t)((plan->in ? 128 : 0) | (below(20) ? 0 : below(128)));
    bytes[13] = (uint8_t)(plan->lun | (below(20) ? 0 : below(16) << 4));
    bytes[14] = (uint8_t)((below(20) ? plan->cdb_length : 1 + below(16)) | (below(20) ? 0 : below(8) << 5));
    memcpy(bytes + 15, plan->cdb, 16);
    if (below(60) == 0)
        bytes[below(4)] ^= (uint8_t)(1 << below(8));
    if (below(60) == 0)
        bytes[14] = (uint8_t)(below(2) ? 0 : 17 + below(15));
    return below(50) ? CBW_BYTES : below(64);
}

#endif
