/* A guest that puts its next command on the ring while a caller works over copies (copied_work.h): the command lies in the grain that has the event
 * ring too, so what the controller writes stands next to it. It may not be written over by the older copy. A driver of a few registers.
 *
 *   raced_copies */
#include "copied_work.h"
#include <stdio.h>

enum { BASE = 0x100000, TABLE = 0, ARRAY = 0x40, EVENTS = 0x400, COMMANDS = 0x800, PLACES = 48, NO_OP = 23, COMMAND_EVENT = 33, ROUNDS = 20 };

static uint8_t memory[4096];
static uas_xhci *xhci;
static unsigned put_so_far;

static void must(bool so, const char *what)
{
    if (so)
        return;
    fprintf(stderr, "raced_copies: %s\n", what);
    exit(1);
}

static void store(size_t place, uint64_t parameter, uint32_t control)
{
    memcpy(memory + place, &parameter, sizeof parameter);
    memcpy(memory + place + 12, &control, sizeof control);
}

/* The guest puts the next command on its ring. */
static void put_command(void)
{
    store(COMMANDS + 16 * put_so_far++, 0, NO_OP << 10 | 1);
    meanwhile = NULL;
}

static void work(void)
{
    const struct uas_region all = { BASE, memory, sizeof memory };
    bool more = true;
    for (uint32_t steps; more;)
        must(copied_work(xhci, &all, 1, 1, &steps, &more) == UAS_OK, "copies were refused");
}

/* How many commands have ended, each by the event of its own TRB. */
static unsigned ended(void)
{
    unsigned count = 0;
    for (size_t place = EVENTS; place < EVENTS + 16 * PLACES && memory[place + 12] & 1; place += 16) {
        uint64_t pointer;
        memcpy(&pointer, memory + place, sizeof pointer);
        if (memory[place + 13] >> 2 != COMMAND_EVENT)
            continue;
        must(pointer == BASE + COMMANDS + 16 * count, "an event of another command");
        count++;
    }
    return count;
}

static void begin(void)
{
    static const struct { uint16_t offset; uint8_t width; uint64_t value; } writes[] = {
        { 0x78, 4, 1 }, { 0x70, 8, BASE + ARRAY }, { 0x58, 8, BASE + COMMANDS + 1 }, { 0x628, 4, 1 },
        { 0x638, 8, BASE + EVENTS }, { 0x630, 8, BASE + TABLE }, { 0x40, 4, 1 },
    };
    store(TABLE, BASE + EVENTS, 0);
    memory[TABLE + 8] = PLACES;
    for (size_t i = 0; i < sizeof writes / sizeof writes[0]; i++)
        uas_xhci_write(xhci, writes[i].offset, writes[i].width, writes[i].value);
    work();
}

static void ring(void)
{
    uas_xhci_write(xhci, 0x800, 4, 0);
    work();
}

int main(void)
{
    const struct uas_tasks_unit unit = { 64, 1, UAS_BLOCK_BYTES };
    must(uas_xhci_new(&unit, 1, UAS_SET_HOST, 64, 8, &xhci) == UAS_OK, "no controller");
    begin();
    for (unsigned round = 1; round <= ROUNDS; round++) {
        put_command();
        meanwhile = put_command;
        ring();
        ring();
        must(put_so_far == 2 * round && ended() == put_so_far, "a command was lost");
    }
    uas_xhci_free(xhci);
    printf("%d commands that were put meanwhile ended\n", ROUNDS);
}
