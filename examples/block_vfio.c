/* A disk driver in a process of Linux: the driver of uas_block.h over vfio-pci. The controller reaches the memory that is mapped here and nothing else:
 * the memory that the driver was lent, and the buffers of data.
 *
 *   cc -Iinclude examples/block_vfio.c $(bindings/archive block) -o block_vfio
 *   ./block_vfio 0000:00:05.0 info                        the disk
 *   ./block_vfio 0000:00:05.0 read BLOCK COUNT            blocks, to standard output
 *   ./block_vfio 0000:00:05.0 verify SEED                 writes every block, and compares what is read
 *   ./block_vfio 0000:00:05.0 bench SECONDS DEPTH BYTES   reads at random places, so many at a time
 *
 * The controller, an xHCI one, is bound to vfio-pci before (docs of Linux: driver_override). The status is 1 for a fault, 2 for wrong words. */
#include "vfio_pci.h"
#include "uas_block.h"
#include <inttypes.h>

/* Where the controller finds the memory: DMA addresses, multiples of 64 KiB below those of interrupts. */
#define LENT_AT 0x10000000u
#define DATA_AT 0x40000000u
enum { TAGS = 64, TRBS = 31, ROOM = 0x10000 /* bytes of a command's data, at most */, COMMAND_MS = 30000, PATIENCE_MS = 60000, CLOCK_EVERY = 32 };

static uas_block *block;
static struct uas_block_state disk;
static uint8_t *lent, *data;
static uint32_t lent_bytes, data_bytes;
static uint64_t milliseconds, calls, random_state = 1;
static struct { uint64_t reads, writes, loads, stores; } counted;

static void must_be_ok(uint8_t fault, const char *what)
{
    if (fault != UAS_OK)
        fail(what, uas_fault_name(fault) ? uas_fault_name(fault) : "unknown");
}

/* ---- The five functions ---- */

static uint32_t read32(void *context, uint32_t offset)
{
    (void)context;
    counted.reads++;
    return le32toh(*(volatile uint32_t *)(pci.registers + offset));
}

/* C's fences order registers and memory on x86-64; elsewhere it takes those that reach devices. */
static void write32(void *context, uint32_t offset, uint32_t value)
{
    (void)context;
    counted.writes++;
    __atomic_thread_fence(__ATOMIC_SEQ_CST);
    *(volatile uint32_t *)(pci.registers + offset) = htole32(value);
}

static void load(void *context, uint64_t address, uint8_t *bytes, uint32_t length)
{
    const uint8_t *from = lent + (address - LENT_AT);
    (void)context;
    counted.loads++;
    __atomic_thread_fence(__ATOMIC_ACQUIRE);
    if (length == 4) {
        uint32_t word = __atomic_load_n((const uint32_t *)from, __ATOMIC_ACQUIRE);
        memcpy(bytes, &word, 4);
    } else
        memcpy(bytes, from, length);
}

static void store(void *context, uint64_t address, const uint8_t *bytes, uint32_t length)
{
    uint8_t *to = lent + (address - LENT_AT);
    uint32_t word;
    (void)context;
    counted.stores++;
    if (length == 4) {
        memcpy(&word, bytes, 4);
        __atomic_store_n((uint32_t *)to, word, __ATOMIC_RELEASE);
    } else
        memcpy(to, bytes, length);
}

/* The clock may cost more than an access: it is looked at once for so many of them. */
static uint64_t now(void *context)
{
    (void)context;
    if (calls++ % CLOCK_EVERY == 0)
        milliseconds = microseconds() / 1000;
    return milliseconds;
}

/* ---- The driver ---- */

/* Does what there is to do, and tells until when there is nothing more. */
static uint64_t turn(void)
{
    static uint8_t buffer[UAS_BLOCK_LOAD_BYTES];
    static const struct uas_block_user user = { NULL, read32, write32, load, store, now, buffer };
    calls = 0; /* the clock is looked at */
    return uas_block_turn(block, &user, 1000);
}

static void await(uint64_t until)
{
    if (await_interrupt(until))
        must_be_ok(uas_block_interrupted(block), "an interrupt");
}

static void lend(void)
{
    lent_bytes = (disk.bytes + PAGE - 1) / PAGE * PAGE;
    lent = map_memory(LENT_AT, lent_bytes);
    must_be_ok(uas_block_lend(block, LENT_AT), "memory isn't taken");
}

static _Noreturn void fail_on_the_way(uint64_t state)
{
    static const char *const reasons[] = {
        "it was not done in time", "older than xHCI 1.0", "registers behind BAR 0", "a bad list of capabilities", "no slots", "no ports of USB 3",
        "no streams", "pages above 64 KiB", "it can't be halted", "the port's reset found no device", "not SuperSpeed", "no address", "silent",
        "a bad device descriptor", "a hub", "a long configuration", "a bad descriptor", "no UAS", "bad pipes", "no companion", "UAS broken in this bridge",
        "not configured", "not a disk", "no medium", "never ready", "a bad capacity", "such blocks aren't taken"
    };
    static const char *const states[] = {
        "", "surveying", "wanting memory", "bringing up", "no device", "the controller is refused", "asking the device", "ready", "restarting",
        "shutting down", "stopped", "the controller is gone", "the controller is dead"
    };
    uint8_t why = state == UAS_BLOCK_REFUSED ? disk.why : 0;
    for (uint8_t port = 255; port > 0 && state != UAS_BLOCK_REFUSED; port--)
        if (uas_block_refusal(block, port) != 0)
            why = uas_block_refusal(block, port);
    fail(state < sizeof states / sizeof states[0] ? states[state] : "unknown", why < sizeof reasons / sizeof reasons[0] ? reasons[why] : "unknown");
}

/* Goes on until a state. */
static void go_on(uint8_t wanted)
{
    for (uint64_t ends = microseconds() / 1000 + PATIENCE_MS;;) {
        uint64_t until = turn();
        uas_block_state(block, &disk);
        if (disk.state == wanted)
            return;
        if (disk.state == UAS_BLOCK_WANTS_MEMORY)
            lend();
        else if (disk.state == UAS_BLOCK_REFUSED || disk.state >= UAS_BLOCK_STOPPED || microseconds() / 1000 > ends)
            fail_on_the_way(disk.state);
        else
            await(until);
    }
}

static void begin(const char *address)
{
    open_controller(address);
    const struct uas_block_options options = {
        .bar_bytes = pci.register_bytes, .tags = TAGS, .trbs = TRBS, .address_bits = 64, .quirks = uas_block_quirks(pci.vendor, pci.number)
    };
    must_be_ok(uas_block_new(&options, &block), "no driver");
    go_on(UAS_BLOCK_READY);
    data_bytes = disk.tags * ROOM;
    data = map_memory(DATA_AT, data_bytes);
}

/* Shuts down. The controller uses no memory any more: it is unmapped while its bus mastering is still on. */
static void end(void)
{
    must_be_ok(uas_block_shut_down(block), "shutting down is refused");
    go_on(UAS_BLOCK_STOPPED);
    unmap_memory(DATA_AT, data_bytes);
    unmap_memory(LENT_AT, lent_bytes);
    set_command(PCI_MASTER, 0);
    uas_block_free(block);
}

/* ---- Jobs ---- */

/* Commands of one kind, of `count` blocks each, as many at a time as `depth`: from `next` to `end`, or at random places up to a time. */
struct job {
    uint8_t kind;
    uint32_t depth, count;
    uint64_t next, end, until_us, done;
    void (*before)(uint64_t first, uint32_t count, uint8_t *bytes);
    void (*after)(uint64_t first, uint32_t count, const uint8_t *bytes);
};
static struct { uint64_t first; uint32_t count; } commands[TAGS];

static uint64_t mixed(uint64_t number)
{
    number = (number ^ (number >> 30)) * 0xbf58476d1ce4e5b9u;
    number = (number ^ (number >> 27)) * 0x94d049bb133111ebu;
    return number ^ (number >> 31);
}

/* The next command's blocks; false where there is none. */
static bool next_blocks(struct job *job, uint64_t *first, uint32_t *count)
{
    *count = job->count;
    if (job->until_us != 0) {
        *first = mixed(random_state++ << 20) % (disk.blocks / job->count) * job->count;
        return microseconds() < job->until_us;
    }
    *first = job->next;
    if (job->end - job->next < *count)
        *count = (uint32_t)(job->end - job->next);
    job->next += *count;
    return *count > 0;
}

/* Submits the next command, with the buffer of that place; false where there is none. */
static bool submit(struct job *job, uint64_t place)
{
    uint64_t first;
    uint32_t count;
    uint16_t tag;
    if (!next_blocks(job, &first, &count))
        return false;
    if (job->before != NULL)
        job->before(first, count, data + place * ROOM);
    const struct uas_segment segment = { DATA_AT + place * ROOM, count * disk.block_bytes, 0 };
    const struct uas_block_request request = {
        .disk = disk.disk, .block = first, .mark = place, .limit = microseconds() / 1000 + COMMAND_MS, .count = count, .kind = job->kind
    };
    must_be_ok(uas_block_submit(block, &request, &segment, 1, &tag), "a command is refused");
    commands[place].first = first;
    commands[place].count = count;
    return true;
}

static void must_be_good(const struct uas_block_reply *reply, uint32_t bytes)
{
    static const char *const kinds[] = { "no kind", "good", "short", "a status", "a response", "aborted", "lost" };
    char why[100];
    if (reply->kind == UAS_BLOCK_GOOD && reply->moved == bytes)
        return;
    snprintf(why, sizeof why, "%s, code %u, %u bytes, sense %02x %02x/%02x", reply->kind < 7 ? kinds[reply->kind] : "unknown", reply->code,
             (unsigned)reply->moved, reply->sense[2], reply->sense[12], reply->sense[13]);
    fail("a command ended otherwise than well", why);
}

/* Does a job. What is free again is submitted before the next turn, so that its accesses are of many commands. */
static void run(struct job *job)
{
    struct uas_block_reply reply;
    uint32_t out = 0;
    while (out < job->depth && submit(job, out))
        out++;
    while (out > 0) {
        uint64_t until = turn();
        bool took = false;
        while (uas_block_take_reply(block, &reply)) {
            uint64_t place = reply.mark;
            must_be_good(&reply, commands[place].count * disk.block_bytes);
            if (job->after != NULL)
                job->after(commands[place].first, commands[place].count, data + place * ROOM);
            job->done++;
            took = true;
            if (!submit(job, place))
                out--;
        }
        if (!took)
            await(until);
    }
}

static void sync_all(void)
{
    const struct uas_block_request request = { .disk = disk.disk, .limit = microseconds() / 1000 + COMMAND_MS, .kind = UAS_BLOCK_REQUEST_SYNC };
    struct uas_block_reply reply;
    uint16_t tag;
    must_be_ok(uas_block_submit(block, &request, NULL, 0, &tag), "a sync is refused");
    for (uint64_t until = turn(); !uas_block_take_reply(block, &reply); until = turn())
        await(until);
    must_be_good(&reply, 0);
}

/* The most blocks of a command: those of a buffer, or fewer where the disk takes fewer. */
static uint32_t most_blocks(void)
{
    uint32_t most = ROOM / disk.block_bytes;
    return disk.most_blocks != 0 && disk.most_blocks < most ? disk.most_blocks : most;
}

static void write_out(uint64_t first, uint32_t count, const uint8_t *bytes)
{
    (void)first;
    must(fwrite(bytes, disk.block_bytes, count, stdout) == count, "standard output");
}

static void read_blocks(uint64_t first, uint64_t count)
{
    struct job job = { .kind = UAS_BLOCK_REQUEST_READ, .depth = 1, .count = most_blocks(), .next = first, .end = first + count, .after = write_out };
    if (first > disk.blocks || count > disk.blocks - first)
        fail("read", "there are no such blocks");
    run(&job);
    must(fflush(stdout) == 0, "standard output");
}

/* Each eight bytes are of the seed and their own place. */
static void fill(uint64_t first, uint32_t count, uint8_t *bytes)
{
    for (uint64_t i = 0, place = first * disk.block_bytes; i < (uint64_t)count * disk.block_bytes; i += 8) {
        uint64_t word = mixed(random_state ^ (place + i) << 16);
        memcpy(bytes + i, &word, 8);
    }
}

static void compare(uint64_t first, uint32_t count, const uint8_t *bytes)
{
    static uint8_t wanted[ROOM];
    char where[60];
    fill(first, count, wanted);
    snprintf(where, sizeof where, "among %u blocks from %" PRIu64 " on", (unsigned)count, first);
    if (memcmp(bytes, wanted, (size_t)count * disk.block_bytes) != 0)
        fail("other bytes were read than were written", where);
}

static void verify(uint64_t seed)
{
    struct job writes = { .kind = UAS_BLOCK_REQUEST_WRITE, .depth = disk.tags - 1u, .count = most_blocks(), .end = disk.blocks, .before = fill };
    struct job reads = { .kind = UAS_BLOCK_REQUEST_READ, .depth = disk.tags - 1u, .count = most_blocks(), .end = disk.blocks, .after = compare };
    random_state = mixed(seed + 1);
    run(&writes);
    sync_all();
    memset(data, 0, data_bytes);
    run(&reads);
    printf("verify: %" PRIu64 " blocks written, read back and the same, %u commands at a time\n", disk.blocks, (unsigned)writes.depth);
}

static void bench(uint64_t seconds, uint64_t depth, uint64_t bytes)
{
    if (depth == 0 || depth >= disk.tags || bytes == 0 || bytes % disk.block_bytes != 0 || bytes / disk.block_bytes > most_blocks())
        fail("bench", "the disk doesn't take so many commands, or such ones");
    uint64_t begin = microseconds();
    struct job job = { .kind = UAS_BLOCK_REQUEST_READ, .depth = (uint32_t)depth, .count = (uint32_t)(bytes / disk.block_bytes),
                       .until_us = begin + seconds * 1000000 };
    memset(&counted, 0, sizeof counted);
    pci.sleeps = 0;
    run(&job);
    uint64_t time = microseconds() - begin;
    double done = job.done > 0 ? (double)job.done : 1;
    printf("bench: depth %u, %u bytes: %.0f reads a second (%" PRIu64 " in %" PRIu64 " ms)\n", (unsigned)depth, (unsigned)bytes,
           (double)job.done * 1e6 / (double)time, job.done, time / 1000);
    printf("bench: a read cost %.2f register reads, %.2f register writes, %.2f loads, %.2f stores, %.2f sleeps\n", (double)counted.reads / done,
           (double)counted.writes / done, (double)counted.loads / done, (double)counted.stores / done, (double)pci.sleeps / done);
}

/* A number, or the end of the program. */
static uint64_t number(const char *word)
{
    char *end = NULL;
    errno = 0;
    uint64_t value = strtoull(word, &end, 10);
    if (word[0] < '0' || word[0] > '9' || *end != '\0' || errno != 0) {
        fprintf(stderr, "block_vfio: %s: no number\n", word);
        exit(2);
    }
    return value;
}

int main(int count, char **words)
{
    static const struct { const char *name; int numbers; } jobs[] = { { "info", 0 }, { "read", 2 }, { "verify", 1 }, { "bench", 3 } };
    uint64_t numbers[3] = { 0 };
    size_t job = 0;
    while (count > 2 && job < 4 && (strcmp(words[2], jobs[job].name) != 0 || count != 3 + jobs[job].numbers))
        job++;
    if (count < 3 || job == 4) {
        fprintf(stderr, "usage: block_vfio ADDRESS info | read BLOCK COUNT | verify SEED | bench SECONDS DEPTH BYTES\n");
        return 2;
    }
    for (int i = 0; i < jobs[job].numbers; i++)
        numbers[i] = number(words[3 + i]);
    begin(words[1]);
    if (job == 0)
        printf("disk %" PRIu64 ": %" PRIu64 " blocks of %u bytes, %u commands at a time, %u bytes lent, interrupt %s\n", disk.disk, disk.blocks,
               (unsigned)disk.block_bytes, disk.tags - 1u, (unsigned)lent_bytes,
               pci.irq == VFIO_PCI_MSIX_IRQ_INDEX ? "MSI-X" : pci.irq == VFIO_PCI_MSI_IRQ_INDEX ? "MSI" : "INTx");
    else if (job == 1)
        read_blocks(numbers[0], numbers[1]);
    else if (job == 2)
        verify(numbers[0]);
    else
        bench(numbers[0], numbers[1], numbers[2]);
    end();
    return 0;
}
