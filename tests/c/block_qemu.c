/* The driver of uas_block.h before QEMU's own controllers and disk: it brings each up from its reset, writes every block of a small disk and reads it
 * back, as many commands out as can be, while the file behind the disk is looked at; blocks are unmapped, and a hole of the file is where they were;
 * the disk is unplugged and plugged in again; and a block of another disk can't be read.
 *
 *   block_qemu ROUNDS SEED    in an empty folder, in which it leaves nothing but the disk's file */
#include "qtest.h"
#include "uas_block.h"

#define BAR 0xe0000000u
#define ARENA 0x10000000u
#define DATA 0x20000000u
enum { PCI_DEVICE = 4, BAR_BYTES = 0x4000, BLOCKS = 4096, BAD = 1800, UNMAPPED = 512, BLOCK = 512, MOST = 64, TAGS = 31, ROOM = 0x10000, PATIENCE_MS = 60000 };

static uas_block *block;
static struct uas_block_state state;
static uint8_t written[BLOCKS * BLOCK], buffer[UAS_BLOCK_LOAD_BYTES];
static uint64_t random_state;
static uint32_t lent;
static int monitor = -1;

static void show_state(void)
{
    if (block != NULL && uas_block_state(block, &state) == UAS_OK)
        fprintf(stderr, "state %u row %u why %u, port 1 to 8 refused:", state.state, state.row, state.why);
    for (uint8_t port = 1; block != NULL && port <= 8; port++)
        fprintf(stderr, " %u", uas_block_refusal(block, port));
    fprintf(stderr, "\n");
}

static void must(bool good, const char *what, uint64_t number)
{
    if (!good)
        fail(what, number);
}

static uint32_t below(uint32_t most)
{
    random_state = random_state * 6364136223846793005u + 1442695040888963407u;
    return (uint32_t)((random_state >> 33) % most);
}

/* ---- The driver's side ---- */

static uint32_t read32(void *context, uint32_t offset)
{
    (void)context;
    must(offset <= BAR_BYTES - 4, "a register that isn't there", offset);
    return reg(BAR + offset);
}

static void write32(void *context, uint32_t offset, uint32_t value)
{
    (void)context;
    must(offset <= BAR_BYTES - 4, "a register that isn't there", offset);
    set_reg(BAR + offset, value);
    settle();
}

static void load(void *context, uint64_t address, uint8_t *bytes, uint32_t length)
{
    (void)context;
    must(address >= ARENA && address + length <= ARENA + (uint64_t)lent, "memory that wasn't lent", address);
    if (length == 4) {
        uint32_t word = guest_word(address);
        memcpy(bytes, &word, 4);
    } else
        memcpy(bytes, guest(address), length);
}

static void store(void *context, uint64_t address, const uint8_t *bytes, uint32_t length)
{
    uint32_t word;
    (void)context;
    must(address >= ARENA && address + length <= ARENA + (uint64_t)lent, "memory that wasn't lent", address);
    if (length == 4) {
        memcpy(&word, bytes, 4);
        set_guest_word(address, word);
    } else
        memcpy(guest(address), bytes, length);
}

static uint64_t now(void *context)
{
    struct timespec time;
    (void)context;
    clock_gettime(CLOCK_MONOTONIC, &time);
    return (uint64_t)time.tv_sec * 1000 + (uint64_t)time.tv_nsec / 1000000;
}

static const struct uas_block_user user = { NULL, read32, write32, load, store, now, buffer };

static void turn(void)
{
    uas_block_interrupted(block);
    if (uas_block_turn(block, &user, 1000) > now(NULL))
        usleep(100);
    uas_block_state(block, &state);
}

/* Goes on until a state. */
static void go_on(uint8_t until)
{
    uint64_t begin = now(NULL);
    do {
        must(now(NULL) - begin < PATIENCE_MS, "the driver doesn't come so far", until);
        turn();
        if (state.state == UAS_BLOCK_WANTS_MEMORY && until != UAS_BLOCK_WANTS_MEMORY) {
            lent = state.bytes;
            must(uas_block_lend(block, ARENA) == UAS_OK, "memory isn't taken", lent);
        }
    } while (state.state != until);
}

/* ---- Blocks ---- */

/* All blocks, MOST or fewer a command, in any order of replies; what is read is compared with what was written. */
static void move_all(uint8_t kind)
{
    uint32_t next = 0, out = 0, first_of[TAGS + 1], count_of[TAGS + 1];
    uint64_t begin = now(NULL);
    bool is_out[TAGS + 1] = { false };
    struct uas_block_reply reply;
    while (next < BLOCKS || out > 0) {
        must(now(NULL) - begin < PATIENCE_MS, "commands don't come to an end", out);
        while (next < BLOCKS && out + 1 < state.tags) {
            uint32_t count = 1 + below(MOST), place = 0;
            uint16_t tag;
            if (count > BLOCKS - next)
                count = BLOCKS - next;
            for (place = 1; is_out[place];)
                place++;
            uint32_t half = count / 2 * BLOCK;
            struct uas_segment segments[2] = { { DATA + place * ROOM, count * BLOCK - half, 0 }, { DATA + place * ROOM + ROOM / 2, half, 0 } };
            struct uas_block_request request = { .disk = state.disk, .block = next, .mark = place, .limit = now(NULL) + 30000, .count = count, .kind = kind };
            if (kind == UAS_BLOCK_REQUEST_WRITE) {
                memcpy(guest(segments[0].address), written + (size_t)next * BLOCK, segments[0].length);
                memcpy(guest(segments[1].address), written + (size_t)next * BLOCK + segments[0].length, half);
            }
            uint8_t fault = uas_block_submit(block, &request, segments, half > 0 ? 2 : 1, &tag);
            must(fault == UAS_OK && tag == place, "a command is refused", fault);
            is_out[place] = true;
            first_of[place] = next;
            count_of[place] = count;
            next += count;
            out++;
        }
        turn();
        while (uas_block_take_reply(block, &reply)) {
            uint32_t place = reply.tag, half = count_of[place] / 2 * BLOCK, rest = count_of[place] * BLOCK - half;
            must(is_out[place] && reply.mark == place, "a reply of no command", place);
            must(reply.kind == UAS_BLOCK_GOOD && reply.moved == count_of[place] * BLOCK, "a reply", reply.kind);
            const uint8_t *wanted = written + (size_t)first_of[place] * BLOCK;
            must(memcmp(guest(DATA + place * ROOM), wanted, rest) == 0 && memcmp(guest(DATA + place * ROOM + ROOM / 2), wanted + rest, half) == 0,
                 "other bytes were read", first_of[place]);
            is_out[place] = false;
            out--;
        }
    }
}

/* A command alone, and its reply. */
static struct uas_block_reply do_one(uint8_t kind, uint64_t first, uint32_t count)
{
    struct uas_block_request request = { .disk = state.disk, .block = first, .count = count, .limit = now(NULL) + 30000, .kind = kind };
    const struct uas_segment segment = { DATA, count * BLOCK, 0 };
    struct uas_block_reply reply;
    uint16_t tag;
    must(uas_block_submit(block, &request, &segment, kind == UAS_BLOCK_REQUEST_READ, &tag) == UAS_OK, "a command alone is refused", kind);
    for (uint64_t begin = now(NULL); !uas_block_take_reply(block, &reply); turn())
        must(now(NULL) - begin < PATIENCE_MS, "a command alone doesn't come to an end", kind);
    return reply;
}

static void sync_all(void)
{
    must(do_one(UAS_BLOCK_REQUEST_SYNC, 0, 0).kind == UAS_BLOCK_GOOD, "a sync", 0);
    static uint8_t kept[BLOCKS * BLOCK];
    int file = open("disk", O_RDONLY);
    must(file >= 0 && read(file, kept, sizeof kept) == sizeof kept && memcmp(kept, written, sizeof kept) == 0, "the disk's file has other bytes", 0);
    close(file);
}

/* Gives blocks back, which read zeros then. */
static void unmap_some(void)
{
    uint32_t first = below((BLOCKS - UNMAPPED) / 8) * 8; /* of the file's blocks of 4 KiB */
    must(state.can_unmap, "this disk can't unmap", 0);
    must(do_one(UAS_BLOCK_REQUEST_UNMAP, first, UNMAPPED).kind == UAS_BLOCK_GOOD, "an unmap", first);
    memset(written + (size_t)first * BLOCK, 0, UNMAPPED * BLOCK);
    sync_all();
    int file = open("disk", O_RDONLY);
    must(file >= 0 && lseek(file, (off_t)first * BLOCK, SEEK_HOLE) == (off_t)first * BLOCK, "the file has no hole", first);
    close(file);
    move_all(UAS_BLOCK_REQUEST_READ);
}

/* Reads each block alone: one can't be read, and the others can, before it and behind it. */
static void read_past_bad(void)
{
    for (uint32_t number = BAD - 50; number < BAD + 50; number++) {
        struct uas_block_reply reply = do_one(UAS_BLOCK_REQUEST_READ, number, 1);
        if (number == BAD)
            must(reply.kind == UAS_BLOCK_STATUS && reply.code == UAS_CHECK_CONDITION && reply.sense_length >= 14, "a bad block is read", reply.kind);
        else
            must(reply.kind == UAS_BLOCK_GOOD && reply.moved == BLOCK, "a block isn't read", number);
    }
}

/* ---- QEMU ---- */

/* A command of QEMU's monitor, which is done once something was answered. */
static void tell_monitor(const char *line)
{
    char answer[4096];
    struct pollfd readable = { .fd = monitor, .events = POLLIN };
    must(write(monitor, line, strlen(line)) == (ssize_t)strlen(line), "the monitor has gone", 0);
    do
        must(poll(&readable, 1, QTEST_SECONDS * 1000) == 1 && read(monitor, answer, sizeof answer) > 0, "the monitor is silent", 0);
    while (poll(&readable, 1, 50) == 1);
}

static void open_monitor(void)
{
    struct sockaddr_un name = { .sun_family = AF_UNIX, .sun_path = "monitor.socket" };
    monitor = socket(AF_UNIX, SOCK_STREAM, 0);
    must(connect(monitor, (struct sockaddr *)&name, sizeof name) == 0, "no monitor", 0);
    unlink(name.sun_path);
    tell_monitor("{\"execute\":\"qmp_capabilities\"}\n");
}

static void begin(const char *controller, bool bad)
{
    static const char good[] = "scsi-hd,id=hd,bus=uas.0,scsi-id=0,lun=0,drive=disk", behind[] = "scsi-hd,id=hd,bus=uas.0,scsi-id=0,lun=0,drive=bad";
    static const char errors[] = "driver=blkdebug,node-name=bad,image=disk,inject-error.0.event=none,inject-error.0.iotype=read,inject-error.0.sector=1800,"
                                 "inject-error.0.errno=5,inject-error.0.once=off";
    _Static_assert(BAD == 1800, "as the words say");
    const char *words[] = { "-device", controller, "-blockdev", "driver=file,node-name=disk,filename=disk,discard=unmap", "-device", "usb-uas,id=uas,bus=xhci.0",
                            "-device", bad ? behind : good, "-qmp", "unix:monitor.socket,server=on,wait=off", bad ? "-blockdev" : NULL, errors, NULL };
    const struct uas_block_options options = { .bar_bytes = BAR_BYTES, .tags = TAGS, .trbs = 31, .address_bits = 64 };
    close(new_file("disk", sizeof written));
    start_qemu(words);
    open_monitor();
    set_config(PCI_DEVICE, 0x10, BAR);
    set_config(PCI_DEVICE, 0x14, 0);
    set_config(PCI_DEVICE, 4, 6); /* memory space, bus master */
    settle();
    must(uas_block_new(&options, &block) == UAS_OK, "no driver", 0);
    lent = 0;
}

static void end(void)
{
    must(uas_block_shut_down(block) == UAS_OK, "shutting down is refused", 0);
    go_on(UAS_BLOCK_STOPPED);
    uas_block_free(block);
    block = NULL;
    close(monitor);
    end_qemu();
}

static void unplug(void)
{
    uint64_t before = state.disk;
    tell_monitor("{\"execute\":\"device_del\",\"arguments\":{\"id\":\"hd\"}}\n");
    tell_monitor("{\"execute\":\"device_del\",\"arguments\":{\"id\":\"uas\"}}\n");
    go_on(UAS_BLOCK_NO_DEVICE);
    tell_monitor("{\"execute\":\"device_add\",\"arguments\":{\"driver\":\"usb-uas\",\"id\":\"uas\",\"bus\":\"xhci.0\"}}\n");
    tell_monitor("{\"execute\":\"device_add\",\"arguments\":{\"driver\":\"scsi-hd\",\"id\":\"hd\",\"bus\":\"uas.0\",\"scsi-id\":0,\"lun\":0,\"drive\":\"disk\"}}\n");
    tell_monitor("{\"execute\":\"qom-set\",\"arguments\":{\"path\":\"/machine/peripheral/uas\",\"property\":\"attached\",\"value\":true}}\n");
    go_on(UAS_BLOCK_READY);
    must(state.disk > before, "a disk that was plugged in has an old number", state.disk);
}

static void try_controller(const char *controller, uint32_t rounds)
{
    begin(controller, false);
    go_on(UAS_BLOCK_READY);
    must(state.blocks == BLOCKS && state.block_bytes == BLOCK, "another disk", state.blocks);
    printf("%s: %u tags, %u bytes lent\n", controller, state.tags, (unsigned)lent);
    for (uint32_t round = 0; round < rounds; round++) {
        for (size_t i = 0; i < sizeof written; i++)
            written[i] = (uint8_t)below(256);
        move_all(UAS_BLOCK_REQUEST_WRITE);
        sync_all();
        for (uint32_t place = 1; place <= TAGS; place++)
            memset(guest(DATA + place * ROOM), 0xee, ROOM);
        move_all(UAS_BLOCK_REQUEST_READ);
        unmap_some();
        unplug();
        move_all(UAS_BLOCK_REQUEST_READ);
    }
    end();
    begin(controller, true);
    go_on(UAS_BLOCK_READY);
    read_past_bad();
    end();
}

int main(int count, char **words)
{
    uint32_t rounds = count > 1 ? (uint32_t)strtoul(words[1], NULL, 10) : 1;
    random_state = count > 2 ? strtoull(words[2], NULL, 10) : 1;
    try_controller("qemu-xhci,id=xhci,addr=4", rounds);
    try_controller("nec-usb-xhci,id=xhci,addr=4,streams=on", rounds);
    return 0;
}
