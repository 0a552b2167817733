/* A wild controller before the driver of uas_block.h: a controller of uas_xhci.h of which many an answer is changed, by so much as is drawn for each
 * run: any bytes, one bit, all ones, zeros, and events that name a TD which is pending. Calls are made at any time, some of them refused. No access
 * may be outside the registers or the lent memory, each command has one reply, and all comes to an end once the answers are the controller's.
 *
 *   block_wild [COUNT [SEED]]    COUNT answers, 1,000,000 where none are named */
#include "block_rig.h"

enum { RUN = 20000 /* answers of a run at most */, PATIENCE = 3000000 /* accesses to its end */ };

static bool is_out[TAGS + 1];
static uint64_t mark_of[TAGS + 1], marks, outs, answers, changed, runs, commands, ended[8];
static uint32_t rate; /* one of so many answers is changed; 0 for none */

/* ---- Answers ---- */

/* An event that names a TRB of the memory that was lent, at a tag's rings as often as elsewhere, with any code and length. */
static void forge(uint8_t bytes[16])
{
    static const uint8_t types[] = { 32, 32, 32, 32, 33, 34, 37, 39 };
    static const uint8_t codes[] = { 1, 1, 13, 4, 6, 26, 27, 28, 11, 19, 36, 200 };
    uint32_t tag = 1 + below(TAGS), place[] = { 0x10040 + 512 * (tag - 1), 0x12000 + 3072 * (tag - 1), 0x840, 0x980, 0x3000 };
    uint64_t at = BASE + place[below(5)] + 16 * below(below(2) ? 3 : 96);
    uint32_t words[4] = { (uint32_t)at, (uint32_t)(at >> 32), (uint32_t)codes[below(sizeof codes)] << 24 | below(below(2) ? 2 : 1 << 17),
                          1u << 24 | below(32) << 16 | (uint32_t)types[below(sizeof types)] << 10 | below(2) };
    memcpy(bytes, words, 16);
}

static void change(uint8_t *bytes, uint32_t length)
{
    uint32_t kind = below(10), byte = below(length);
    changed++;
    if (kind < 3)
        bytes[byte] ^= (uint8_t)(1 << below(8));
    else if (kind < 5)
        bytes[byte] = (uint8_t)drawn();
    else if (kind < 7 && length == 16)
        forge(bytes);
    else if (kind == 7)
        memset(bytes, 0, length);
    else if (kind == 8 && length > 4)
        memset(bytes, 0xff, length);
    else
        for (uint32_t i = 0; i < length; i++)
            bytes[i] = (uint8_t)(drawn() >> 20);
}

static void tell(uint8_t *bytes, uint32_t length)
{
    if (rate > 0 && below(rate) == 0)
        change(bytes, length);
    if (below(200) == 0)
        must(uas_block_answer(block, bytes, length + 1) == UAS_BLOCK_LENGTH, "other bytes are taken", length);
    must(uas_block_answer(block, bytes, length) == UAS_OK, "an answer is refused", length);
    must(uas_block_answer(block, bytes, length) == UAS_BLOCK_NOT_ASKED, "an answer is taken twice", length);
    answers++;
}

/* ---- Calls ---- */

static void submit(void)
{
    struct uas_block_request request = { .disk = state.disk, .mark = ++marks, .limit = milliseconds + below(40000), .kind = (uint8_t)(1 + below(5)) };
    uint32_t place = below(TAGS);
    uint16_t tag;
    request.count = below(80);
    request.block = below(BLOCKS);
    struct uas_segment segment = { BASE + ARENA + (uint64_t)place * ROOM, request.count * state.block_bytes, 0 };
    bool moves = request.kind <= UAS_BLOCK_REQUEST_WRITE && request.count > 0;
    if (segment.length > ROOM)
        return;
    if (uas_block_submit(block, &request, &segment, moves ? 1 : 0, &tag) != UAS_OK)
        return;
    must(tag >= 1 && tag < TAGS && !is_out[tag], "a tag is given twice", tag);
    is_out[tag] = true;
    mark_of[tag] = request.mark;
    outs++;
    commands++;
}

static void take_all(void)
{
    struct uas_block_reply reply;
    while (uas_block_take_reply(block, &reply)) {
        must(reply.tag <= TAGS && is_out[reply.tag] && mark_of[reply.tag] == reply.mark, "a reply of no command", reply.tag);
        must(reply.kind >= 1 && reply.kind <= 6 && reply.sense_length <= 96, "a reply of no kind", reply.kind);
        is_out[reply.tag] = false;
        ended[reply.kind]++;
        outs--;
    }
}

static void call(void)
{
    uint32_t what = below(400);
    if (what < 20)
        uas_block_interrupted(block);
    else if (what == 20)
        uas_block_restart(block);
    else if (what == 21 && lent > 0)
        must(uas_block_lend(block, BASE) == UAS_BLOCK_NOT_ASKED, "memory is taken twice", 0);
    else if (what == 22)
        must(uas_block_refusal(block, (uint8_t)below(256)) <= UAS_BLOCK_BLOCK_LENGTH, "a refusal of no kind", 0);
    else if (what == 23)
        uas_xhci_plug(xhci, below(2) != 0);
    else if (what == 24)
        uas_block_abort(block, (uint16_t)below(TAGS + 2));
    else if (what == 25 && below(30) == 0)
        uas_block_shut_down(block);
    else if (what < 120 && state.state == UAS_BLOCK_READY)
        submit();
}

/* One access, or a step of all else; whether there is more. */
static bool step(void)
{
    struct uas_block_access access;
    uint8_t bytes[4];
    accesses++;
    must(uas_block_next(block, milliseconds, &access) == UAS_OK, "no access", 0);
    switch (access.kind) {
    case UAS_BLOCK_READ32: {
        uint32_t word = read32(NULL, (uint32_t)access.at);
        memcpy(bytes, &word, 4);
        tell(bytes, 4);
        return true;
    }
    case UAS_BLOCK_LOAD:
        load(NULL, access.at, buffer, access.length);
        tell(buffer, access.length);
        return true;
    case UAS_BLOCK_REST:
        break;
    default:
        must(access.kind >= UAS_BLOCK_WRITE32 && access.kind <= UAS_BLOCK_ZERO, "an access of no kind", access.kind);
        must(access.kind != UAS_BLOCK_STORE || access.length <= UAS_BLOCK_STORE_BYTES, "a store of so many bytes", access.length);
        must(access.kind != UAS_BLOCK_ZERO || access.length <= UAS_BLOCK_LOAD_BYTES, "a store of so many zeros", access.length);
        uas_block_do(block, &user, &access);
        return true;
    }
    bool worked = work(1 + below(100)), served = serve(), interrupts = uas_xhci_take_message(xhci);
    if (interrupts)
        uas_block_interrupted(block);
    look();
    take_all();
    if (state.state == UAS_BLOCK_STOPPED)
        lent = 0;
    if (state.state == UAS_BLOCK_WANTS_MEMORY && lent == 0 && state.bytes <= ARENA) {
        lend();
        return true;
    }
    if (worked || served || interrupts || access.at <= milliseconds)
        return true;
    if (access.at == UINT64_MAX)
        return false;
    milliseconds = access.at;
    return true;
}

static void run(void)
{
    static const uint32_t rates[] = { 1, 3, 20, 100, 500, 3000, 20000 };
    uint64_t last = answers + RUN, first;
    bool is_late = below(2) != 0; /* no answer is changed until a disk is used */
    begin((uint8_t)(2 + below(TAGS - 1)));
    for (int i = 0; i < 5; i++)
        bad[below(BLOCKS)] = true;
    uint32_t wild = rates[below(sizeof rates / sizeof rates[0])];
    rate = is_late ? 0 : wild;
    for (int idle = 0; answers < last && idle < 50;) {
        if (state.state == UAS_BLOCK_READY)
            rate = wild;
        call();
        idle = step() ? 0 : idle + 1;
        if (state.state == UAS_BLOCK_STOPPED || state.state == UAS_BLOCK_GONE || state.state == UAS_BLOCK_DEAD || state.state == UAS_BLOCK_REFUSED)
            break;
    }
    rate = 0;
    for (first = accesses; outs > 0; take_all()) {
        must(accesses - first < PATIENCE, "it doesn't come to an end", outs);
        step();
    }
    end();
    memset(bad, 0, sizeof bad);
    runs++;
}

int main(int count, char **words)
{
    uint64_t most = count > 1 ? strtoull(words[1], NULL, 10) : 1000000;
    seed = (count > 2 ? strtoull(words[2], NULL, 10) : 1) * 2654435761u + 1;
    while (answers < most)
        run();
    printf("%" PRIu64 " answers, %" PRIu64 " changed, in %" PRIu64 " runs: %" PRIu64 " commands, %" PRIu64 " good, %" PRIu64 " with a status, %" PRIu64
           " lost\n",
           answers, changed, runs, commands, ended[UAS_BLOCK_GOOD], ended[UAS_BLOCK_STATUS], ended[UAS_BLOCK_LOST]);
    return 0;
}
