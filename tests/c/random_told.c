/* Random commands on a virtual disk whose requests come to random ends, at random places, beside a model of one command at a time.
 *
 *   random_told COUNT SEED    COUNT commands, with chunks of another length after each 500 */
#include "check.h"
#include "uas_tasks.h"

enum { BLOCKS = 4096, MOST = 64, TAG = 9 };
enum way { READS, WRITES, COMPARES, VERIFIES, SYNCS, WAYS };

static uas_tasks *tasks;
static uint64_t state, number_of_command;
static uint32_t chunk;
static uint8_t disk[BLOCKS * UAS_BLOCK_BYTES], data[MOST * UAS_BLOCK_BYTES];
static unsigned long told[8], placed, refused[256];

static uint32_t below(uint32_t bound)
{
    state ^= state << 13;
    state ^= state >> 7;
    state ^= state << 17;
    return (uint32_t)((state * 0x2545f4914f6cdd1d >> 32) % bound);
}

static void agree(bool good, const char *what, int line)
{
    if (good)
        return;
    fprintf(stderr, "random_told.c:%d: command %llu: %s\n", line, (unsigned long long)number_of_command, what);
    exit(1);
}

#define AGREE(good) agree((good), #good, __LINE__)

static void renew(void)
{
    static const uint16_t chunks[] = { 1, 2, 7, 8, 64, 128 };
    struct uas_disk unit = { .size = sizeof unit, .blocks = BLOCKS };
    chunk = chunks[below(6)];
    uas_tasks_free(tasks);
    AGREE(uas_tasks_new_disks(&unit, sizeof unit, UAS_SET_DISK, 128, (uint16_t)chunk, &tasks) == UAS_OK);
}

static void begin(enum way way, uint32_t block, uint32_t count)
{
    static const uint8_t codes[] = { 0x28, 0x2a, 0x2f, 0x2f, 0x35 };
    uint8_t unit[32] = { UAS_UNIT_COMMAND, 0, 0, TAG, [16] = codes[way], way == COMPARES ? 0x02 : 0, 0, 0, (uint8_t)(block >> 8), (uint8_t)block, 0, (uint8_t)(count >> 8), (uint8_t)count };
    uint16_t began = 0;
    AGREE(uas_tasks_receive(tasks, unit, sizeof unit, &began) == UAS_OK && began == TAG);
}

/* The next phase, which moves exactly `moves` bytes first where that isn't 0. */
static uint8_t next(uint64_t moves, uint8_t *at, struct uas_request *request)
{
    uint8_t phase;
    uint64_t length;
    for (;;) {
        AGREE(uas_tasks_next(tasks, TAG, &phase, &length, request) == UAS_OK);
        if (phase != UAS_GIVES && phase != UAS_TAKES)
            break;
        AGREE(length == moves && length > 0);
        uint64_t part = 1 + below((uint32_t)length);
        AGREE((phase == UAS_GIVES ? uas_tasks_give(tasks, TAG, at, (size_t)part) : uas_tasks_take(tasks, TAG, at, (size_t)part)) == UAS_OK);
        at += part, moves -= part;
    }
    AGREE(moves == 0);
    return phase;
}

/* Why an answer is refused: the first of these that holds. */
static uint8_t fault_of(const struct uas_request *request, const struct uas_outcome *outcome, size_t length)
{
    bool reads = request->kind == UAS_REQUEST_READ, has_place = outcome->flags == UAS_OUTCOME_AT;
    bool changes = request->kind == UAS_REQUEST_WRITE || request->kind == UAS_REQUEST_SYNC;
    if (outcome->what > UAS_BUSY)
        return UAS_TASKS_CALL;
    if ((outcome->what == UAS_NO_SPACE || outcome->what == UAS_WRITE_PROTECTED) && !changes)
        return UAS_TASKS_CALL;
    if (outcome->what == UAS_DIFFERS && has_place && request->kind != UAS_REQUEST_COMPARE)
        return UAS_TASKS_CALL;
    if (outcome->what == UAS_DIFFERS && has_place && outcome->at >= request->count * UAS_BLOCK_BYTES)
        return UAS_TASKS_PLACE;
    if (outcome->what == UAS_MEDIUM_ERROR && has_place && (outcome->at < request->block || outcome->at >= request->block + request->count))
        return UAS_TASKS_PLACE;
    if (reads && outcome->what == UAS_DONE && length != request->count * UAS_BLOCK_BYTES)
        return UAS_TASKS_LENGTH;
    if (reads && outcome->what == UAS_MEDIUM_ERROR && has_place && length > 0 && length != (outcome->at - request->block) * UAS_BLOCK_BYTES)
        return UAS_TASKS_LENGTH;
    return UAS_OK;
}

/* A random answer to a request, with bytes that mostly fit. */
static struct uas_outcome drawn(const struct uas_request *request, size_t *length)
{
    struct uas_outcome outcome = { .size = sizeof outcome, .what = below(3) ? UAS_DONE : (uint8_t)below(9), .flags = (uint8_t)below(2) };
    if (outcome.what == UAS_DIFFERS)
        outcome.at = below(20) ? below((uint32_t)request->count * UAS_BLOCK_BYTES + 2) : state;
    else
        outcome.at = request->block + below((uint32_t)request->count + 1) - (below(20) == 0);
    *length = 0;
    if (request->kind == UAS_REQUEST_READ && outcome.what == UAS_DONE)
        *length = (size_t)request->count * UAS_BLOCK_BYTES;
    else if (request->kind == UAS_REQUEST_READ && outcome.what == UAS_MEDIUM_ERROR && below(4) && outcome.at > request->block && outcome.at - request->block < request->count)
        *length = (size_t)(outcome.at - request->block) * UAS_BLOCK_BYTES;
    if (below(50) == 0)
        *length = below(sizeof data);
    return outcome;
}

/* The request is answered until an answer is taken, which is returned with the bytes that came with it. */
static struct uas_outcome settle(const struct uas_request *request, size_t *length)
{
    for (;;) {
        struct uas_outcome outcome = drawn(request, length);
        uint8_t fault = fault_of(request, &outcome, *length);
        AGREE(uas_tasks_tell(tasks, request->number, &outcome, disk + request->block * UAS_BLOCK_BYTES, *length) == fault);
        refused[fault]++;
        if (fault == UAS_OK) {
            told[outcome.what]++;
            placed += outcome.flags;
            return outcome;
        }
    }
}

/* The status of a failed request, and its sense data: key, codes, and a place where it is told. */
static void ends(enum way way, uint32_t done, const struct uas_outcome *outcome)
{
    static const uint8_t sense[8][3] = { { 0, 0, 0 }, { 0x0e, 0x1d, 0 }, { 3, 0x11, 0 }, { 2, 4, 0 }, { 7, 0x27, 7 }, { 7, 0x27, 0 }, { 0x0b, 8, 0 }, { 0, 0, 0 } };
    uint8_t answer[UAS_MOST_UNIT_BYTES], wanted[18] = { 0x70, [7] = 0x0a };
    uint64_t length, place = outcome->at + (outcome->what == UAS_DIFFERS ? done * UAS_BLOCK_BYTES : 0);
    bool has_place = outcome->flags != 0 && (outcome->what == UAS_DIFFERS || outcome->what == UAS_MEDIUM_ERROR);
    AGREE(uas_tasks_status(tasks, TAG, answer, sizeof answer, &length) == UAS_OK && uas_tasks_sent(tasks, TAG) == UAS_OK);
    if (outcome->what == UAS_DONE || outcome->what == UAS_BUSY) {
        AGREE(length == 16 && answer[6] == (outcome->what == UAS_DONE ? 0 : 8));
        return;
    }
    wanted[2] = sense[outcome->what][0], wanted[12] = sense[outcome->what][1], wanted[13] = sense[outcome->what][2];
    if (outcome->what == UAS_MEDIUM_ERROR && (way == WRITES || way == SYNCS))
        wanted[12] = 0x0c;
    if (has_place) {
        wanted[0] = 0xf0;
        for (int k = 0; k < 4; k++)
            wanted[3 + k] = (uint8_t)(place >> (24 - 8 * k));
    }
    AGREE(length == 34 && answer[6] == 2 && memcmp(answer + 16, wanted, sizeof wanted) == 0);
}

static void command(void)
{
    enum way way = (enum way)below(WAYS);
    uint32_t count = 1 + below(MOST), block = below(BLOCKS - MOST), done = 0;
    struct uas_request request;
    struct uas_outcome outcome;
    size_t length;
    uint64_t moves = 0;
    begin(way, block, count);
    for (;;) {
        uint32_t part = way == VERIFIES || way == SYNCS ? count : count - done < chunk ? count - done : chunk;
        bool takes = way == WRITES || way == COMPARES;
        AGREE(next(takes ? part * UAS_BLOCK_BYTES : moves, data, &request) == UAS_ASKS);
        AGREE(moves == 0 || memcmp(data, disk + (block + done) * UAS_BLOCK_BYTES - moves, (size_t)moves) == 0);
        AGREE(request.block == block + done && request.count == part);
        outcome = settle(&request, &length);
        moves = way == READS && (outcome.what == UAS_DONE || (outcome.what == UAS_MEDIUM_ERROR && outcome.flags)) ? length : 0;
        if (outcome.what != UAS_DONE || done + part == count)
            break;
        done += part;
    }
    AGREE(next(moves, data, &request) == UAS_ENDS);
    AGREE(moves == 0 || memcmp(data, disk + (block + done) * UAS_BLOCK_BYTES, (size_t)moves) == 0);
    ends(way, done, &outcome);
}

int main(int words, char **word)
{
    uint64_t count = words > 1 ? strtoull(word[1], NULL, 10) : 10000;
    state = (words > 2 ? strtoull(word[2], NULL, 10) : 1) * 2 + 1;
    for (size_t k = 0; k < sizeof disk; k++)
        disk[k] = (uint8_t)(k * 7 + k / 512);
    for (number_of_command = 0; number_of_command < count; number_of_command++) {
        if (number_of_command % 500 == 0)
            renew();
        command();
    }
    uas_tasks_free(tasks);
    printf("%llu commands: %lu done, %lu differ, %lu medium error, %lu not ready, %lu no space, %lu protected, %lu aborted, %lu busy, %lu with a place; refused "
           "%lu outcomes, %lu places, %lu lengths\n", (unsigned long long)count, told[0], told[1], told[2], told[3], told[4], told[5], told[6], told[7], placed,
        refused[UAS_TASKS_CALL], refused[UAS_TASKS_PLACE], refused[UAS_TASKS_LENGTH]);
    for (int k = 0; k < 8; k++)
        if (told[k] == 0)
            return 1;
    return refused[UAS_TASKS_CALL] == 0 || refused[UAS_TASKS_PLACE] == 0 || refused[UAS_TASKS_LENGTH] == 0;
}
