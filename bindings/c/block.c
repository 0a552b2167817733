/* The functions of include/uas_block.h that libuas_block.a has beside the proved exports: each makes one call of these. */
#include "uas_block.h"

#include <stdlib.h>
#include <string.h>

void uas_block_free(uas_block *block)
{
    if (block == NULL)
        return;
    uas_block_close(block);
    free(block);
}

/* A call that moves no bytes. */
static uint8_t call(uas_block *block, struct uas_block_door *door)
{
    uint8_t none = 0;
    return uas_block_call(block, door, &none, 0);
}

uint8_t uas_block_next(uas_block *block, uint64_t now, struct uas_block_access *access)
{
    struct uas_block_door door = { .call = UAS_BLOCK_CALL_NEXT, .at = now };
    uint8_t fault = uas_block_call(block, &door, access->bytes, sizeof access->bytes);
    access->kind = door.kind;
    access->length = door.length;
    access->at = door.at;
    access->value = door.value;
    return fault;
}

uint8_t uas_block_answer(uas_block *block, const uint8_t *bytes, size_t length)
{
    struct uas_block_door door = { .call = UAS_BLOCK_CALL_ANSWER };
    uint8_t none = 0;
    return uas_block_call(block, &door, length > 0 ? (uint8_t *)(uintptr_t)bytes : &none, length);
}

uint8_t uas_block_interrupted(uas_block *block)
{
    struct uas_block_door door = { .call = UAS_BLOCK_CALL_INTERRUPTED };
    return call(block, &door);
}

uint8_t uas_block_state(const uas_block *block, struct uas_block_state *state)
{
    struct uas_block_door door = { .call = UAS_BLOCK_CALL_STATE };
    uint8_t fault = call((uas_block *)(uintptr_t)block, &door);
    *state = (struct uas_block_state){ .state = door.kind,
                                       .row = door.kind == UAS_BLOCK_BRINGING_UP ? door.code : 0,
                                       .why = door.kind == UAS_BLOCK_REFUSED ? door.code : 0,
                                       .can_unmap = door.can_unmap != 0,
                                       .has_fua = door.has_fua != 0,
                                       .tags = door.tag,
                                       .bytes = door.length,
                                       .block_bytes = door.block_bytes,
                                       .disk = door.number,
                                       .blocks = door.blocks,
                                       .most_blocks = door.most_blocks,
                                       .most_unmap = door.most_unmap };
    return fault;
}

uint8_t uas_block_refusal(const uas_block *block, uint8_t port)
{
    struct uas_block_door door = { .call = UAS_BLOCK_CALL_REFUSAL, .code = port };
    call((uas_block *)(uintptr_t)block, &door);
    return door.code;
}

uint8_t uas_block_lend(uas_block *block, uint64_t base)
{
    struct uas_block_door door = { .call = UAS_BLOCK_CALL_LEND, .at = base };
    return call(block, &door);
}

uint8_t uas_block_submit(uas_block *block, const struct uas_block_request *request, const struct uas_segment *segments, size_t count,
                         uint16_t *tag)
{
    struct uas_block_command command = { .disk = request->disk,
                                         .block = request->block,
                                         .mark = request->mark,
                                         .limit = request->limit,
                                         .count = request->count,
                                         .kind = request->kind,
                                         .fua = request->fua };
    struct uas_segment none = { 0, 0, 0 };
    uint8_t fault = uas_block_put(block, &command, count > 0 ? (struct uas_segment *)(uintptr_t)segments : &none, count);
    if (fault == UAS_OK)
        *tag = command.tag;
    return fault;
}

bool uas_block_take_reply(uas_block *block, struct uas_block_reply *reply)
{
    struct uas_block_door door = { .call = UAS_BLOCK_CALL_REPLY };
    uint8_t sense[sizeof reply->sense] = { 0 };
    uas_block_call(block, &door, sense, sizeof sense);
    if (door.good == 0)
        return false;
    *reply = (struct uas_block_reply){ .mark = door.number,
                                       .moved = door.length,
                                       .tag = door.tag,
                                       .kind = door.kind,
                                       .code = door.code,
                                       .sense_length = (uint8_t)door.value };
    memcpy(reply->sense, sense, sizeof sense);
    return true;
}

uint8_t uas_block_restart(uas_block *block)
{
    struct uas_block_door door = { .call = UAS_BLOCK_CALL_RESTART };
    return call(block, &door);
}

uint8_t uas_block_abort(uas_block *block, uint16_t tag)
{
    struct uas_block_door door = { .call = UAS_BLOCK_CALL_ABORT, .tag = tag };
    return call(block, &door);
}

uint8_t uas_block_shut_down(uas_block *block)
{
    struct uas_block_door door = { .call = UAS_BLOCK_CALL_SHUT_DOWN };
    return call(block, &door);
}
