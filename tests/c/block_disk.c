/* A disk behind the driver of uas_block.h, beside a map of its blocks: reads, writes, syncs and unmaps at random, as many out as can be, with blocks
 * that can't be read or written, while commands are aborted, the disk is pulled and plugged in again, the device is restarted, and a command's time is
 * over; then the driver is shut down. Each command has one reply; a write that failed or was lost has been done or not, block by block.
 *
 *   block_disk [COUNT [SEED [wide]]]    COUNT commands, 200,000 where none are named; wide: of a controller behind the shim */
#include "block_rig.h"

enum { MOST = 64 /* blocks of a command */, PIECES = 4, BAD = 5 };

/* What stands in a block, by a number that its bytes are drawn from: surely `is`; or else `may` if that isn't it. */
static struct {
    uint32_t is, may;
    bool unsure;
} map[BLOCKS];

/* The commands that are out, by tag. */
static struct {
    bool there;
    uint8_t kind;
    uint32_t first, count, fill;
    uint64_t mark;
    struct uas_segment segments[PIECES];
    size_t pieces;
} out[TAGS + 1];

static uint64_t commands, outs, marks, ended[8], lost[9], pulls, restarts, late, aborts, refusals;
static uint32_t fills;

static void fill(uint8_t *bytes, uint32_t number, uint32_t of)
{
    uint32_t word = (number * 2654435761u) ^ (of * 40503u);
    for (int i = 0; i < BLOCK; i += 4, word = word * 1664525u + 1013904223u)
        memcpy(bytes + i, &word, 4);
}

static bool has(const uint8_t *bytes, uint32_t number, uint32_t of)
{
    uint8_t wanted[BLOCK];
    fill(wanted, number, of);
    return memcmp(bytes, wanted, BLOCK) == 0;
}

/* Some accesses, some steps and some answers; time goes on where nothing else does. False where nothing goes on for ever. */
static bool turn(uint32_t budget)
{
    bool interrupts = uas_xhci_take_message(xhci);
    if (interrupts)
        must(uas_block_interrupted(block) == UAS_OK, "an interrupt is refused", 0);
    uint64_t until = uas_block_turn(block, &user, 1 + below(budget));
    bool worked = work(1 + below(budget)), served = serve();
    look();
    if (state.state == UAS_BLOCK_WANTS_MEMORY && lent == 0) {
        lend();
        return true;
    }
    if (interrupts || worked || served || uas_xhci_interrupt(xhci) || until <= milliseconds)
        return true;
    if (until == UINT64_MAX)
        return false;
    milliseconds = until;
    return true;
}

/* ---- Submissions ---- */

/* Whether no command that is out has one of these blocks, but reads beside reads. */
static bool is_free(uint32_t first, uint32_t count, bool reads)
{
    for (int tag = 1; tag <= TAGS; tag++)
        if (out[tag].there && out[tag].count > 0 && !(reads && out[tag].kind == UAS_BLOCK_REQUEST_READ) && first < out[tag].first + out[tag].count &&
            out[tag].first < first + count)
            return false;
    return true;
}

static bool any_unsure(uint32_t first, uint32_t count)
{
    for (uint32_t i = first; i < first + count; i++)
        if (map[i].unsure)
            return true;
    return false;
}

/* Cuts so many bytes into segments, in any order, in the room of a place. */
static size_t cut(struct uas_segment *segments, uint32_t place, uint32_t bytes)
{
    size_t pieces = 1 + below(PIECES);
    if (pieces > bytes / BLOCK)
        pieces = bytes / BLOCK;
    for (size_t i = 0; i < pieces; i++) {
        uint32_t rest = (uint32_t)(pieces - i - 1) * BLOCK, length = i + 1 == pieces ? bytes : BLOCK * (1 + below((bytes - rest) / BLOCK));
        uint32_t slot = ROOM / PIECES * (uint32_t)((i + place) % PIECES);
        segments[i] = (struct uas_segment){ BASE + ARENA + (uint64_t)place * ROOM + slot, length, 0 };
        bytes -= length;
    }
    return pieces;
}

/* The memory of the n-th block of a command. */
static uint8_t *data_of(int tag, uint32_t number)
{
    uint64_t at = (uint64_t)number * BLOCK;
    for (size_t i = 0; i < out[tag].pieces; at -= out[tag].segments[i].length, i++)
        if (at < out[tag].segments[i].length)
            return memory + (out[tag].segments[i].address - BASE) + at;
    fail("no such block of a command", number);
}

static uint32_t free_place(void)
{
    static uint32_t place;
    for (bool used = true; used;) {
        place = (place + 1) % TAGS;
        used = false;
        for (int tag = 1; tag <= TAGS; tag++)
            if (out[tag].there && out[tag].pieces > 0 && (out[tag].segments[0].address - BASE - ARENA) / ROOM == place)
                used = true;
    }
    return place;
}

/* A request of a kind at blocks that are free, or of a sync; false where none are. */
static bool draw_request(struct uas_block_request *request)
{
    static const uint8_t kinds[] = { 1, 1, 1, 1, 2, 2, 2, 2, 3, 4, 5 };
    *request = (struct uas_block_request){ .disk = state.disk, .kind = kinds[below(sizeof kinds)], .mark = ++marks, .limit = milliseconds + 30000 };
    if (request->kind == UAS_BLOCK_REQUEST_SYNC || request->kind == UAS_BLOCK_REQUEST_READY)
        return true;
    request->count = 1 + below(below(8) ? 8 : MOST);
    request->block = below(BLOCKS - request->count + 1);
    request->fua = request->kind == UAS_BLOCK_REQUEST_WRITE && below(4) == 0;
    if (request->kind == UAS_BLOCK_REQUEST_WRITE && any_unsure((uint32_t)request->block, request->count)) {
        request->kind = UAS_BLOCK_REQUEST_READ;
        request->fua = false;
    }
    return is_free((uint32_t)request->block, request->count, request->kind == UAS_BLOCK_REQUEST_READ);
}

/* Some submissions that are refused. */
static void submit_refused(const struct uas_block_request *good, const struct uas_segment *segments, size_t pieces)
{
    static struct uas_segment many[128];
    struct uas_block_request other = *good;
    uint16_t tag = 999;
    other.disk++;
    must(uas_block_submit(block, &other, segments, pieces, &tag) == UAS_BLOCK_OTHER_DISK, "another disk is taken", other.disk);
    other = *good;
    other.kind = below(2) ? 0 : 6;
    must(uas_block_submit(block, &other, segments, pieces, &tag) == UAS_BLOCK_CALL, "a kind is taken", other.kind);
    must(uas_block_submit(block, good, many, 128, &tag) == UAS_BLOCK_PIECES, "128 segments are taken", 0);
    other = *good;
    other.kind = UAS_BLOCK_REQUEST_READ;
    other.block = BLOCKS;
    other.count = 1;
    must(uas_block_submit(block, &other, segments, pieces, &tag) == UAS_BLOCK_RANGE, "a block behind the last is taken", 0);
    other = *good;
    other.kind = UAS_BLOCK_REQUEST_READ;
    other.block = 0;
    other.count = 1;
    must(uas_block_submit(block, &other, NULL, 0, &tag) == UAS_BLOCK_LENGTH, "a read without memory is taken", 0);
    must(tag == 999, "a refusal wrote a tag", tag);
    refusals += 5;
}

static void submit(void)
{
    struct uas_block_request request;
    struct uas_segment segments[PIECES];
    size_t pieces = 0;
    uint16_t tag = 0;
    if (!draw_request(&request))
        return;
    bool moves = request.kind == UAS_BLOCK_REQUEST_READ || request.kind == UAS_BLOCK_REQUEST_WRITE;
    if (moves && outs < DEPTH)
        pieces = cut(segments, free_place(), request.count * BLOCK);
    if (below(64) == 0)
        submit_refused(&request, segments, pieces);
    uint32_t number = ++fills;
    for (uint32_t i = 0, piece = 0, at = 0; request.kind == UAS_BLOCK_REQUEST_WRITE && pieces > 0 && i < request.count; i++, at += BLOCK) {
        if (at == segments[piece].length) {
            piece++;
            at = 0;
        }
        fill(memory + (segments[piece].address - BASE) + at, number, (uint32_t)request.block + i);
    }
    uint8_t fault = uas_block_submit(block, &request, segments, pieces, &tag);
    if (request.kind == UAS_BLOCK_REQUEST_UNMAP && !state.can_unmap) {
        must(fault == UAS_BLOCK_NO_UNMAP, "an UNMAP is taken", fault);
        refusals++;
        return;
    }
    if (outs == DEPTH) {
        must(fault == (moves ? UAS_BLOCK_LENGTH : UAS_BLOCK_NO_TAG), "a command too many is taken", fault);
        return;
    }
    must(fault == UAS_OK, "a command is refused", fault);
    must(tag >= 1 && tag <= DEPTH && !out[tag].there, "a tag is given twice", tag);
    out[tag].there = true;
    out[tag].kind = request.kind;
    out[tag].first = (uint32_t)request.block;
    out[tag].count = request.count;
    out[tag].fill = number;
    out[tag].mark = request.mark;
    out[tag].pieces = pieces;
    memcpy(out[tag].segments, segments, sizeof segments);
    outs++;
    commands++;
}

/* ---- Replies ---- */

static void read_done(int tag)
{
    for (uint32_t i = 0; i < out[tag].count; i++) {
        uint32_t at = out[tag].first + i;
        const uint8_t *bytes = data_of(tag, i);
        if (map[at].unsure && has(bytes, map[at].may, at))
            map[at].is = map[at].may;
        must(has(bytes, map[at].is, at), "another block was read", at);
        map[at].unsure = false;
    }
}

static void write_done(int tag, bool surely)
{
    for (uint32_t i = 0; i < out[tag].count; i++) {
        uint32_t at = out[tag].first + i;
        if (surely)
            map[at].is = out[tag].fill;
        else
            map[at].may = out[tag].fill;
        map[at].unsure = !surely;
    }
}

static bool meets_bad(int tag)
{
    for (uint32_t i = 0; i < out[tag].count; i++)
        if (bad[out[tag].first + i])
            return true;
    return false;
}

static void take(const struct uas_block_reply *reply)
{
    must(reply->tag <= TAGS && out[reply->tag].there, "a reply of no command", reply->tag);
    int tag = reply->tag;
    must(reply->mark == out[tag].mark, "a reply of another mark", reply->mark);
    must(reply->kind >= 1 && reply->kind <= 6, "a reply of no kind", reply->kind);
    bool moves = out[tag].kind == UAS_BLOCK_REQUEST_READ || out[tag].kind == UAS_BLOCK_REQUEST_WRITE, is_bad = moves && meets_bad(tag);
    if (reply->kind == UAS_BLOCK_GOOD) {
        must(!is_bad && reply->moved == (moves ? out[tag].count * BLOCK : 0), "a GOOD reply moved", reply->moved);
        if (out[tag].kind == UAS_BLOCK_REQUEST_READ)
            read_done(tag);
    } else if (reply->kind == UAS_BLOCK_STATUS) {
        bool attends = reply->sense_length >= 14 && (reply->sense[2] & 15) == 6, errs = reply->sense_length >= 14 && (reply->sense[2] & 15) == 3;
        must(reply->code == 2 && (attends || (errs && is_bad)), "a status", reply->sense[2]);
    } else if (reply->kind != UAS_BLOCK_ABORTED) {
        must(reply->kind == UAS_BLOCK_LOST, "a reply of another kind", reply->kind);
        must(reply->code >= 1 && reply->code <= 8, "a loss", reply->code);
        lost[reply->code]++;
    }
    if (out[tag].kind == UAS_BLOCK_REQUEST_WRITE)
        write_done(tag, reply->kind == UAS_BLOCK_GOOD);
    ended[reply->kind]++;
    out[tag].there = false;
    outs--;
}

static void take_all(void)
{
    struct uas_block_reply reply;
    while (uas_block_take_reply(block, &reply))
        take(&reply);
}

/* ---- What befalls the disk ---- */

static void abort_one(void)
{
    uint16_t tag = (uint16_t)below(TAGS + 2);
    bool is_out = tag <= TAGS && out[tag].there;
    must(uas_block_abort(block, tag) == (is_out ? UAS_OK : UAS_BLOCK_NO_SUCH_TAG), "an abort", tag);
    aborts += is_out;
}

/* Goes on until the disk is used and no command is out. */
static void settle(bool until_ready)
{
    for (uint64_t turns = 0; outs > 0 || (until_ready && state.state != UAS_BLOCK_READY); turns++) {
        must(turns < 2000000, "the driver doesn't come to an end", outs);
        turn(50);
        take_all();
    }
}

static void pull(void)
{
    struct uas_block_request request = { .disk = state.disk, .kind = UAS_BLOCK_REQUEST_READY, .limit = UINT64_MAX };
    uint64_t before = state.disk;
    uint16_t tag;
    uas_xhci_plug(xhci, false);
    for (uint64_t turns = 0; outs > 0 || state.state != UAS_BLOCK_NO_DEVICE; turns++) {
        must(turns < 2000000, "a disk that was pulled is still used", outs);
        turn(50);
        take_all();
    }
    must(uas_block_submit(block, &request, NULL, 0, &tag) == UAS_BLOCK_NOT_READY, "a command without a disk is taken", 0);
    uas_xhci_plug(xhci, true);
    settle(true);
    must(state.disk > before, "a disk that was plugged in has an old number", state.disk);
    must(uas_block_submit(block, &request, NULL, 0, &tag) == UAS_BLOCK_OTHER_DISK, "the disk before is used", 0);
    pulls++;
}

static void restart(void)
{
    must(uas_block_restart(block) == UAS_OK, "a restart is refused", 0);
    must(uas_block_restart(block) == UAS_BLOCK_NOT_READY, "a restart of a restart is taken", 0);
    settle(true);
    restarts++;
}

/* The medium says nothing until the time of each command is over. */
static void hush(void)
{
    is_silent = true;
    for (uint64_t turns = 0; outs > 0; turns++) {
        must(turns < 2000000, "the time of a command isn't over", outs);
        turn(50);
        take_all();
    }
    is_silent = false;
    settle(true);
    late++;
}

/* All end, and the memory is the caller's again. */
static void shut_down(void)
{
    struct uas_block_request request = { .disk = state.disk, .kind = UAS_BLOCK_REQUEST_READY, .limit = UINT64_MAX };
    uint16_t tag;
    must(uas_block_shut_down(block) == UAS_OK, "shutting down is refused", 0);
    must(uas_block_submit(block, &request, NULL, 0, &tag) == UAS_BLOCK_NOT_READY, "a command is taken while it shuts down", 0);
    for (uint64_t turns = 0; state.state != UAS_BLOCK_STOPPED; turns++) {
        must(turns < 2000000, "the driver doesn't stop", outs);
        turn(50);
    }
    lent = 0;
    must((uas_xhci_read(xhci, 0x44, 4) & 1) == 1, "the controller still runs", 0);
    must(uas_block_turn(block, &user, 100) == UINT64_MAX, "a driver that stopped goes on", 0);
}

int main(int count, char **words)
{
    uint64_t most = count > 1 ? strtoull(words[1], NULL, 10) : 200000;
    seed = (count > 2 ? strtoull(words[2], NULL, 10) : 1) * 2654435761u + 1;
    wide = count > 3 && strcmp(words[3], "wide") == 0;
    begin(TAGS);
    for (uint32_t i = 0; i < BLOCKS; i++)
        fill(disk + (size_t)i * BLOCK, 0, i);
    for (int i = 0; i < BAD; i++)
        bad[below(BLOCKS)] = true;
    settle(true);
    must(state.disk == 1 && state.blocks == BLOCKS && state.block_bytes == BLOCK && state.tags == TAGS, "another disk", state.blocks);
    while (commands < most) {
        if (state.state != UAS_BLOCK_READY)
            settle(true);
        for (uint32_t tries = below(2 * DEPTH); tries > 0; tries--)
            submit();
        turn(200);
        take_all();
        if (below(500) == 0)
            abort_one();
        uint32_t what = below(20000);
        if (what < 4)
            pull();
        else if (what < 8)
            restart();
        else if (what < 10)
            hush();
    }
    settle(true);
    shut_down();
    while (asks > 0)
        turn(50);
    for (uint32_t i = 0; i < BLOCKS; i++)
        must(has(disk + (size_t)i * BLOCK, map[i].is, i) || (map[i].unsure && has(disk + (size_t)i * BLOCK, map[i].may, i)), "another block stands", i);
    printf("%" PRIu64 " commands: %" PRIu64 " good, %" PRIu64 " with a status, %" PRIu64 " lost; %" PRIu64 " refused; %" PRIu64 " pulls, %" PRIu64
           " restarts, %" PRIu64 " times over, %" PRIu64 " aborts; %" PRIu64 " tempers; %" PRIu64 " accesses\n",
           commands, ended[UAS_BLOCK_GOOD], ended[UAS_BLOCK_STATUS], ended[UAS_BLOCK_LOST], refusals, pulls, restarts, late,
           aborts, tempers, accesses);
    end();
    return 0;
}
