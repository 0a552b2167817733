/* Commands a second of a device without blocks (include/uas_tasks.h), of 8 blocks each, with one tag and with 240 that have a command at once.
 * The backend is memory and answers in the tag's next turn; tags have turns of one call of the device, one behind the other.
 *
 * bench/tasks builds and runs it. */
#include "uas_tasks.h"
#include <stdio.h>
#include <stdlib.h>
#include <string.h>
#include <time.h>

enum { MOST_TAGS = 240, COUNT = 8, BYTES = COUNT * UAS_BLOCK_BYTES, ZONE = 64 };

static uas_tasks *tasks;
static uint8_t blocks[MOST_TAGS * ZONE * UAS_BLOCK_BYTES], chunk[BYTES];
static struct uas_request out[MOST_TAGS + 1];
static uint64_t turns[MOST_TAGS + 1], ended;

static void must(uint8_t fault)
{
    if (fault != UAS_OK) {
        fprintf(stderr, "bench: %s\n", uas_fault_name(fault));
        exit(1);
    }
}

static double now(void)
{
    struct timespec at;
    clock_gettime(CLOCK_MONOTONIC, &at);
    return (double)at.tv_sec + (double)at.tv_nsec / 1e9;
}

/* The tag's next command, READ(10) or WRITE(10), somewhere in its zone. */
static void submit(uint16_t tag, bool writes)
{
    uint32_t block = (uint32_t)(tag - 1) * ZONE + (uint32_t)(turns[tag]++ % (ZONE / COUNT)) * COUNT;
    uint8_t unit[32] = { UAS_UNIT_COMMAND, 0, (uint8_t)(tag >> 8), (uint8_t)tag };
    uint8_t cdb[10] = { writes ? 0x2a : 0x28, 0, block >> 24, block >> 16 & 0xff, block >> 8 & 0xff, block & 0xff, 0, 0, COUNT, 0 };
    memcpy(unit + 16, cdb, sizeof cdb);
    must(uas_tasks_receive(tasks, unit, sizeof unit, &tag));
}

/* What the backend does. */
static void serve(const struct uas_request *request)
{
    uint8_t *at = blocks + request->block * UAS_BLOCK_BYTES;
    bool reads = request->kind == UAS_REQUEST_READ;
    if (!reads)
        must(uas_tasks_data(tasks, request->number, at, (size_t)request->count * UAS_BLOCK_BYTES));
    must(uas_tasks_answered(tasks, request->number, UAS_DONE, at, reads ? (size_t)request->count * UAS_BLOCK_BYTES : 0));
}

/* A tag's turn. */
static void turn(uint16_t tag, bool writes)
{
    uint8_t phase, status[UAS_MOST_UNIT_BYTES];
    uint64_t length;
    if (out[tag].number != 0) {
        serve(&out[tag]);
        out[tag].number = 0;
        return;
    }
    must(uas_tasks_next(tasks, tag, &phase, &length, &out[tag]));
    if (phase != UAS_ASKS)
        out[tag].number = 0;
    if (phase == UAS_GIVES) {
        must(uas_tasks_give(tasks, tag, chunk, (size_t)length));
    } else if (phase == UAS_TAKES) {
        must(uas_tasks_take(tasks, tag, chunk, (size_t)length));
    } else if (phase == UAS_ENDS) {
        must(uas_tasks_status(tasks, tag, status, sizeof status, &length));
        must(uas_tasks_sent(tasks, tag));
        if (status[6] != UAS_GOOD && ended > 0) {
            fprintf(stderr, "bench: status %u\n", status[6]);
            exit(1);
        }
        ended++;
        submit(tag, writes);
    }
}

/* Commands a second in the fastest of three parts of a second. */
static double rate(uint16_t tags, bool writes)
{
    struct uas_tasks_unit unit = { MOST_TAGS * ZONE, 1, UAS_BLOCK_BYTES };
    double best = 0;
    must(uas_tasks_new(&unit, 1, UAS_SET_HOST, 1024, COUNT, &tasks));
    memset(out, 0, sizeof out);
    ended = 0;
    for (uint16_t tag = 1; tag <= tags; tag++)
        submit(tag, writes);
    for (int part = 0; part < 3; part++) {
        uint64_t before = ended;
        double begun = now(), seconds;
        do {
            for (int round = 0; round < 1000 / tags + 1; round++)
                for (uint16_t tag = 1; tag <= tags; tag++)
                    turn(tag, writes);
            seconds = now() - begun;
        } while (seconds < 1);
        if ((double)(ended - before) / seconds > best)
            best = (double)(ended - before) / seconds;
    }
    uas_tasks_free(tasks);
    return best;
}

int main(void)
{
    printf("| 8 blocks, commands a second | 1 tag | 240 tags |\n|---|---|---|\n");
    printf("| READ | %.0f | %.0f |\n", rate(1, false), rate(MOST_TAGS, false));
    printf("| WRITE | %.0f | %.0f |\n", rate(1, true), rate(MOST_TAGS, true));
    return 0;
}
