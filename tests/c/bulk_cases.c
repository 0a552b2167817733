/* The thirteen cases of Bulk-Only Transport (BOT 6.7), worked out by hand: the data, the status and the residue of each, over data TDs that are as long, longer
 * or in two, and TDs for the status that are as long, longer or shorter.
 *
 *   bulk_cases */
#include "bulk_hand.h"

/* A command of logical unit 0: H, whether to the host, its CDB; then its data, what is in the first `given` bytes, the status and the residue. */
static const struct bulk_case {
    int number;
    uint32_t length;
    bool in;
    const char *cdb;
    uint32_t given;
    uint8_t status;
    uint32_t residue;
} cases[] = {
    { 1, 0, false, "00", 0, 0, 0 },
    { 1, 0, true, "ff", 0, 1, 0 },
    { 2, 0, true, "28000000080000000100", 0, 2, 0 },
    { 2, 0, false, "28000000080000000100", 0, 2, 0 },
    { 3, 0, false, "2a000000080000000100", 0, 2, 0 },
    { 3, 0, true, "2a000000080000000100", 0, 2, 0 },
    { 4, 64, true, "00", 0, 0, 64 },
    { 4, 512, true, "28000000100000000100", 0, 1, 512 },
    { 5, 9000, true, "28000000080000001000", 8192, 0, 808 },
    { 6, 8192, true, "28000000080000001000", 8192, 0, 0 },
    { 7, 5000, true, "28000000080000001000", 5000, 2, 0 },
    { 7, 20, true, "28000000080000000100", 20, 2, 0 },
    { 8, 512, true, "2a000000080000000100", 0, 2, 512 },
    { 9, 100, false, "00", 0, 0, 100 },
    { 9, 100, false, "2a000000100000000100", 0, 1, 100 },
    { 10, 512, false, "28000000080000000100", 0, 2, 512 },
    { 11, 1000, false, "2a000000080000000100", 512, 0, 488 },
    { 12, 8192, false, "2a000000080000001000", 8192, 0, 0 },
    { 13, 5000, false, "2a000000080000001000", 4096, 2, 904 },
    { 13, 100, false, "2a000000080000000100", 0, 2, 100 },
};

enum { FIRST = 2048 * UAS_BLOCK_BYTES, WHOLE = 0, LONGER = 1, IN_TWO = 2 };

static void fill(uint8_t *bytes, size_t length, uint8_t seed)
{
    for (size_t i = 0; i < length; i++)
        bytes[i] = (uint8_t)(seed + i * 13 + i / 256);
}

static void put_cbw(const struct bulk_case *one)
{
    uint8_t bytes[CBW_BYTES] = { 0x55, 0x53, 0x42, 0x43, 1, 2, 3, 4 };
    put_little32(one->length, bytes + 8);
    bytes[12] = one->in ? 0x80 : 0;
    bytes[14] = (uint8_t)from_hex(one->cdb, bytes + 15, 16);
    store(CBWS, bytes, sizeof bytes);
    CHECK(td_on(BULK_OUT, 0, CBWS, CBW_BYTES, CODE_SUCCESS, 0));
}

/* The data's TDs, of which the last may be longer: bytes in end short, bytes out are dropped. */
static void move_data(const struct bulk_case *one, int variant)
{
    int dci = one->in ? BULK_IN : BULK_OUT;
    uint32_t first = variant == IN_TWO ? one->length / 2 + 1 : 0, rest = one->length - first;
    if (one->length == 0)
        return;
    if (one->number == 8 || one->number == 10) {
        CHECK(td(dci, one->length, CODE_STALL, one->length));
        return;
    }
    if (first > 0)
        CHECK(td(dci, first, CODE_SUCCESS, 0));
    uint8_t code = one->in && variant == LONGER ? CODE_SHORT : CODE_SUCCESS;
    CHECK(td_on(dci, 0, DATA + first, rest + (variant == LONGER ? 77 : 0), code, code == CODE_SHORT ? 77 : 0));
}

/* The status, in a TD that is as long, longer, or shorter and then as long. */
static void take_status(const struct bulk_case *one, uint32_t length)
{
    uint8_t wanted[CSW_BYTES] = { 0x55, 0x53, 0x42, 0x53, 1, 2, 3, 4 };
    put_little32(one->residue, wanted + 8);
    wanted[12] = one->status;
    memset(memory.bytes + CBWS + 64, 0x5a, 128);
    if (length < CSW_BYTES) {
        CHECK(td_on(BULK_IN, 0, CBWS + 64, length, CODE_BABBLE, 0) && state_of(BULK_IN) == STATE_HALTED);
        leave_behind(BULK_IN);
        length = CSW_BYTES;
    }
    CHECK(td_on(BULK_IN, 0, CBWS + 64, length, length > CSW_BYTES ? CODE_SHORT : CODE_SUCCESS, length - CSW_BYTES));
    CHECK(memcmp(memory.bytes + CBWS + 64, wanted, CSW_BYTES) == 0 && memory.bytes[CBWS + 64 + CSW_BYTES] == 0x5a);
}

static void check_data(const struct bulk_case *one, const uint8_t *source)
{
    const uint8_t *blocks = disk[0] + FIRST;
    if (one->number == 8 || one->number == 10)
        return;
    if (!one->in) {
        CHECK(memcmp(blocks, source, one->given) == 0);
        CHECK(one->given == 8192 || blocks[one->given] == 0x77);
        return;
    }
    CHECK(memcmp(memory.bytes + DATA, blocks, one->given) == 0);
    for (uint32_t i = one->given; i < one->length; i++)
        CHECK(memory.bytes[DATA + i] == 0);
    CHECK(memory.bytes[DATA + one->length] == 0x5a);
}

static void one_case(const struct bulk_case *one, int variant, uint32_t status_length)
{
    static uint8_t source[16384];
    if (one->in) {
        fill(disk[0] + FIRST, 8192, (uint8_t)one->number);
        memset(memory.bytes + DATA, 0x5a, 16384);
    } else {
        memset(disk[0] + FIRST, 0x77, 16384);
        fill(memory.bytes + DATA, 16384, (uint8_t)one->number);
    }
    memcpy(source, memory.bytes + DATA, sizeof source);
    put_cbw(one);
    move_data(one, variant);
    if (one->number == 8)
        clear_halt(BULK_IN);
    take_status(one, status_length);
    check_data(one, source);
    if (one->number == 10)
        clear_halt(BULK_OUT);
}

int main(void)
{
    static const uint32_t lengths[] = { CSW_BYTES, 64, 12, 0 };
    begin_bulk();
    for (size_t i = 0; i < sizeof cases / sizeof *cases; i++)
        for (int variant = WHOLE; variant <= IN_TWO; variant++)
            for (int k = 0; k < 4; k++)
                one_case(&cases[i], variant, lengths[k]);
    uas_xhci_free(xhci);
    return tell("bulk_cases");
}
