/* Random CDBs of both command sets, and targets of any kind, by the library and by second_host.h: the same work, sense, faults and data, and
 * nothing written that isn't told. Most CDBs have a code of the sets, a field near a limit, and reserved bits.
 *
 *   host_cdbs [COUNT [SEED]] */
#include "check.h"
#include "second_host.h"

static uint64_t state;

static uint32_t draw(uint32_t below)
{
    state = state * 6364136223846793005u + 1442695040888963407u;
    return (uint32_t)((state >> 33) % below);
}

static uint64_t draw_blocks(void)
{
    static const uint64_t some[] = { 1, 1000, 100, 128, 129, 65536, 0xffffffff, 0x100000000, 0x100000001, (uint64_t)1 << 48, ((uint64_t)1 << 48) + 1, 0 };
    return draw(20) ? some[draw(10)] : some[draw(12)];
}

static struct uas_tasks_target draw_target(void)
{
    static const uint16_t mosts[] = { 8, 128, 128, 256, 2048, 65528, 0, 4, 65535 };
    struct uas_tasks_target target = { .unit = { draw_blocks(), draw(100000000), draw(2) ? 512 : 4096 } };
    target.there = draw(8) ? (uint8_t)(1 + draw(255)) : 0;
    target.units = (uint8_t)(draw(50) ? 1 + draw(15) : draw(20));
    target.set = (uint8_t)(draw(50) ? draw(5) != 0 : draw(4));
    target.attention = (uint8_t)draw(4);
    target.most = mosts[draw(30) ? draw(6) : draw(9)];
    target.reserved = (uint16_t)draw(3);
    if (draw(100) == 0)
        target.unit.block_bytes = draw(5000);
    if (draw(100) == 0)
        target.unit.serial += 99999990;
    return target;
}

static void put_number(uint8_t *cdb, int first, int count, uint64_t number)
{
    while (count-- > 0) {
        cdb[first + count] = (uint8_t)number;
        number >>= 8;
    }
}

/* A block near an end of the logical unit. */
static uint64_t draw_lba(uint64_t blocks)
{
    return draw(3) ? draw(blocks < 130 ? (uint32_t)blocks + 1 : 130) : blocks - 1 - draw(130) + draw(4);
}

static void draw_cdb(uint8_t *cdb, const struct uas_tasks_target *target)
{
    static const uint8_t lengths[] = { 0, 1, 3, 4, 8, 15, 16, 18, 32, 36, 64, 96, 255 }, pages[] = { 0, 0x80, 0x83, 0xb0, 0xb1, 0xb2, 8, 0x0a, 0x3f, 0x48, 0x7f, 0xc8 };
    const struct host_command *command = &host_commands[draw(HOST_COMMANDS)];
    for (int i = 0; i < 16; i++)
        cdb[i] = draw(3) ? 0 : (uint8_t)draw(256);
    cdb[0] = draw(16) ? command->code : (uint8_t)draw(256);
    if (draw(16) && command->action >= 0)
        cdb[1] = (uint8_t)((cdb[1] & 0xe0) | command->action);
    else if (draw(4)) /* no protection; of VERIFY any BYTCHK */
        cdb[1] = (uint8_t)((cdb[1] & (draw(2) ? 0x19 : 0x18)) | (draw(3) ? draw(2) << 1 : draw(4) << 1));
    if (draw(4) == 0)
        return;
    uint64_t count = draw(3) ? draw(draw(2) ? 20 : 140) : target->most + draw(3) - 1, length = draw(8) ? lengths[draw(sizeof lengths)] : 400 + draw(200);
    if (draw(8)) /* of pages, options, codes, subpages */
        cdb[2] = draw(2) ? (uint8_t)(draw(8) | (draw(2) ? 0x80 : 0)) : pages[draw(sizeof pages)];
    if (draw(2))
        cdb[3] = draw(3) == 0 ? host_commands[draw(HOST_COMMANDS)].code : draw(2) ? 0 : 0xff;
    if (cdb[0] == 0xa3 && draw(2))
        put_number(cdb, 4, 2, draw(2) ? 0x0c + draw(3) : draw(3) ? 0 : 0x10);
    switch (cdb[0]) {
    case 0x03: case 0x1a: cdb[4] = (uint8_t)length; break;
    case 0x12: put_number(cdb, 3, 2, length); break;
    case 0x5a: put_number(cdb, 7, 2, length); break;
    case 0xa0: case 0xa3: put_number(cdb, 6, 4, length); break;
    case 0x9e: put_number(cdb, 10, 4, length); break;
    case 0x08: case 0x0a: put_number(cdb, 2, 2, draw_lba(target->unit.blocks)); cdb[4] = (uint8_t)count; break;
    case 0x28: case 0x2a: case 0x2f: case 0x35:
        put_number(cdb, 2, 4, draw_lba(target->unit.blocks));
        put_number(cdb, 7, 2, count);
        break;
    case 0xa8: case 0xaa: case 0xaf:
        put_number(cdb, 2, 4, draw_lba(target->unit.blocks));
        put_number(cdb, 6, 4, count);
        break;
    case 0x88: case 0x8a: case 0x8f: case 0x91:
        put_number(cdb, 2, 8, draw_lba(target->unit.blocks));
        put_number(cdb, 10, 4, count);
        break;
    default: break;
    }
}

static void tell_both(const uint8_t *cdb, const struct uas_tasks_target *target)
{
    fprintf(stderr, "   ");
    for (int i = 0; i < 16; i++)
        fprintf(stderr, " %02x", cdb[i]);
    fprintf(stderr, "  blocks %llx of %u there %u units %u set %u attention %u most %u\n", (unsigned long long)target->unit.blocks,
            target->unit.block_bytes, target->there, target->units, target->set, target->attention, target->most);
}

static unsigned long kinds[8], refusals, faults, given;

static bool same_work(const struct uas_tasks_work *one, const struct uas_tasks_work *other)
{
    return one->lba == other->lba && one->count == other->count && one->allocation == other->allocation && one->kind == other->kind &&
           one->through == other->through && one->reserved == other->reserved && one->reserved_too == other->reserved_too;
}

static bool compare(const uint8_t *cdb, const struct uas_tasks_target *target, struct guarded memory)
{
    static struct host_answer answer;
    const struct uas_tasks_work untouched = { 1, 2, 3, 4, 5, 6, 7 };
    const struct uas_sense unsaid = { 9, 9, 9, 9 };
    struct uas_tasks_work work = untouched;
    struct uas_sense sense = unsaid;
    uint64_t length = 4321;
    second_cdb(cdb, target, &answer);
    bool good = CHECK(uas_tasks_cdb_parse(cdb, target, &work, &sense) == answer.fault);
    const struct uas_sense *said = answer.fault == UAS_CDB_CHECK ? &answer.sense : &unsaid;
    good = CHECK(same_work(&work, answer.fault == UAS_OK ? &answer.work : &untouched)) && good;
    good = CHECK(memcmp(&sense, said, sizeof sense) == 0) && good;
    size_t room = draw(3) ? UAS_TASKS_DATA_BYTES : draw(40);
    uint8_t *bytes = at_end(memory, room), fault = answer.fault;
    bool fits = fault != UAS_OK || answer.length <= room, written = fault == UAS_OK && fits;
    memset(bytes, 0x5a, room);
    good = CHECK(uas_tasks_cdb_data(cdb, target, bytes, room, &length) == (fits ? fault : UAS_TASKS_LENGTH)) && good;
    good = CHECK(length == (written ? answer.length : 4321)) && good;
    size_t from = written ? answer.length : 0;
    good = CHECK(memcmp(bytes, answer.data, from) == 0) && good;
    for (size_t i = from; i < room; i++)
        good = (bytes[i] == 0x5a || CHECK(bytes[i] == 0x5a)) && good;
    kinds[fault == UAS_OK ? answer.work.kind : 7]++;
    refusals += fault == UAS_CDB_CHECK;
    faults += fault != UAS_OK && fault != UAS_CDB_CHECK;
    given += written ? answer.length : 0;
    return good;
}

int main(int words, char **word)
{
    uint64_t count = words > 1 ? strtoull(word[1], NULL, 10) : 20000;
    int unlike = 0;
    struct guarded memory = guard(1024);
    state = words > 2 ? strtoull(word[2], NULL, 10) : 1;
    for (uint64_t i = 0; i < count && unlike < 20; i++) {
        uint8_t cdb[16];
        struct uas_tasks_target target = draw_target();
        draw_cdb(cdb, &target);
        if (!compare(cdb, &target, memory)) {
            tell_both(cdb, &target);
            unlike++;
        }
    }
    printf("nothing %lu, data %lu (%lu bytes), reads %lu, writes %lu, synchronizes %lu, verifies %lu, compares %lu, refused %lu, faults %lu\n",
           kinds[0], kinds[1], given, kinds[2], kinds[3], kinds[4], kinds[5], kinds[6], refusals, faults);
    return tell("host_cdbs");
}
