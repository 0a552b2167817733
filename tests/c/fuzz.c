/* Random inputs, each compared with a second implementation or with the bus itself in another setting.
 *
 *   fuzz KIND COUNT SEED    KIND is trb, unit, cdb, place, open, device, bus, controller or driver
 *
 * It takes all memory at the start. The last line tells how often each fault was answered; a fault that is never answered in
 * 100,000 inputs or more is a failure too. */
#include "check.h"
#include "second_bus.h"
#include "second_controller.h"
#include "uas.h"

static uint64_t state;

static uint64_t drawn(void)
{
    state ^= state << 13;
    state ^= state >> 7;
    state ^= state << 17;
    return state * 0x2545f4914f6cdd1d >> 16;
}

static uint32_t below(uint32_t bound)
{
    return (uint32_t)(drawn() % bound);
}

static bool one_in(uint32_t count)
{
    return below(count) == 0;
}

static void draw_bytes(uint8_t *bytes, size_t length)
{
    for (size_t i = 0; i < length; i++)
        bytes[i] = (uint8_t)drawn();
}

/* Sets a few bits or bytes to others. */
static void spoil(uint8_t *bytes, size_t length)
{
    for (uint32_t times = 1 + below(3); length > 0 && times > 0; times--) {
        size_t at = below((uint32_t)length);
        bytes[at] = one_in(2) ? (uint8_t)(bytes[at] ^ 1u << below(8)) : (uint8_t)drawn();
    }
}

/* How often each fault came, and, by numbers that are no fault's, what else is counted. */
enum { NUMBERS = 256, END = NUMBERS };

static unsigned long seen[NUMBERS];

static uint8_t saw(uint8_t fault)
{
    seen[fault]++;
    return fault;
}

static unsigned long input;

static bool agree(bool good, const char *what, int line)
{
    if (good)
        return true;
    if (failed++ < 20)
        fprintf(stderr, "fuzz.c:%d: input %lu: %s\n", line, input, what);
    return false;
}

#define AGREE(good) agree((good), #good, __LINE__)

/* The data of a door's call that has none. */
static uint8_t no_data[1];

static uint8_t small_or_any(uint32_t most)
{
    return (uint8_t)(one_in(16) ? drawn() : below(most + 1));
}

/* ---- TRBs ---- */

static const uint8_t trb_types[] = { 1, 6, 15, 16, 32, 33 };

static void draw_trb(struct uas_trb *trb)
{
    draw_bytes((uint8_t *)trb, sizeof *trb);
    trb->type = one_in(16) ? (uint8_t)drawn() : trb_types[below(6)];
    trb->cycle = small_or_any(1);
    trb->td_size = small_or_any(31);
    trb->flags = small_or_any(127);
    trb->toggle = small_or_any(1);
    trb->chain = small_or_any(1);
    trb->ioc = small_or_any(1);
    trb->dequeue_cycle = small_or_any(1);
    trb->endpoint = small_or_any(31);
    if (!one_in(8))
        trb->pointer &= ~(uint64_t)15;
    switch (below(4)) {
    case 0:
        trb->length %= 65536;
        break;
    case 1:
        trb->length = 65530 + below(16);
        break;
    case 2:
        trb->length = (1u << 24) - 8 + below(16);
        break;
    default:
        trb->length %= 1u << 24;
    }
}

static void fuzz_trb(struct guarded memory, struct guarded out)
{
    struct uas_trb drawn_trb, second, before;
    struct uas_trb *trb = (struct uas_trb *)(void *)at_end(out, sizeof *trb);
    uint8_t *bytes = at_end(memory, 16), text[16], kept[16];

    draw_trb(&drawn_trb);
    draw_bytes(kept, 16);
    memcpy(bytes, kept, 16);
    memcpy(text, kept, 16);
    *trb = drawn_trb;
    uint8_t fault = saw(uas_trb_encode(trb, bytes));
    AGREE(fault == second_trb_encode(&drawn_trb, text));
    AGREE(memcmp(bytes, text, 16) == 0);
    AGREE(memcmp(trb, &drawn_trb, sizeof *trb) == 0);

    if (fault != 0 || one_in(3)) {
        draw_bytes(bytes, 16);
        uint8_t high = one_in(2) ? 3 : 0;
        bytes[13] = (uint8_t)(trb_types[below(6)] << 2 | (bytes[13] & high));
    } else if (one_in(2))
        spoil(bytes, 16);
    memcpy(text, bytes, 16);
    draw_trb(&before);
    second = *trb = before;
    fault = saw(uas_trb_decode(bytes, trb));
    AGREE(fault == second_trb_decode(bytes, &second));
    AGREE(memcmp(trb, &second, sizeof *trb) == 0);
    if (fault == 0) {
        AGREE(uas_trb_encode(trb, bytes) == 0);
        AGREE(memcmp(bytes, text, 16) == 0);
    }
}

/* ---- Information units ---- */

static void draw_unit(struct uas_unit *unit)
{
    static const uint8_t ids[] = { 1, 3, 4, 5 };
    draw_bytes((uint8_t *)unit, sizeof *unit);
    unit->id = one_in(16) ? (uint8_t)drawn() : ids[below(4)];
    unit->sense_length = one_in(16) ? (uint8_t)(90 + below(16)) : (uint8_t)below(97);
}

static void fuzz_unit(struct guarded memory, struct guarded out)
{
    struct uas_unit before, second;
    struct uas_unit *unit = (struct uas_unit *)(void *)at_end(out, sizeof *unit);
    uint8_t text[160], kept[160];
    size_t room = one_in(2) ? 112 : below(120), length = 7777, second_length = 7777;
    uint8_t *bytes = at_end(memory, room);

    draw_unit(&before);
    *unit = before;
    draw_bytes(kept, room);
    memcpy(bytes, kept, room);
    memcpy(text, kept, room);
    uint8_t fault = saw(uas_unit_write(unit, bytes, room, &length));
    AGREE(fault == second_unit_write(&before, text, room, &second_length));
    AGREE(length == second_length);
    AGREE(memcmp(bytes, text, room) == 0);
    AGREE(memcmp(unit, &before, sizeof *unit) == 0);

    if (fault != 0 || one_in(4)) {
        length = below(130);
        draw_bytes(text, length);
        for (size_t i = 0; i < length; i++)
            if (!one_in(64))
                text[i] = 0;
        if (length > 0)
            text[0] = (uint8_t)below(7);
    } else if (one_in(2))
        spoil(text, length);
    if (one_in(16))
        length = length > 0 ? length - 1 : length;
    else if (one_in(16))
        text[length++] = (uint8_t)below(2);
    bytes = at_end(memory, length);
    memcpy(bytes, text, length);
    draw_unit(&before);
    second = *unit = before;
    fault = saw(uas_unit_read(bytes, length, unit));
    AGREE(fault == second_unit_read(bytes, length, &second));
    AGREE(memcmp(unit, &second, sizeof *unit) == 0);
    AGREE(memcmp(bytes, text, length) == 0);
    if (fault == 0) {
        size_t again = 0;
        AGREE(uas_unit_write(unit, bytes, length, &again) == 0);
        AGREE(again == length && memcmp(bytes, text, length) == 0);
    }
}

/* ---- CDBs ---- */

static const uint8_t opcodes[] = { 0x00, 0x12, 0x25, 0x28, 0x2a, 0x35, 0x88, 0x8a, 0x9e };

enum { OPCODES = sizeof opcodes };

static void draw_operation(struct uas_operation *operation, uint32_t blocks)
{
    draw_bytes((uint8_t *)operation, sizeof *operation);
    operation->opcode = one_in(32) ? (uint8_t)drawn() : opcodes[below(OPCODES)];
    operation->fua = small_or_any(1);
    if (!one_in(16)) {
        operation->lba = one_in(8) ? blocks - 2 + below(4) : below(blocks + 1);
        if (one_in(32))
            operation->lba += (uint64_t)1 << 32;
        operation->count = one_in(8) ? 120 + below(16) : below(20);
    } else
        operation->count = one_in(2) ? 65530 + below(12) : (uint32_t)drawn();
}

static void fuzz_cdb(struct guarded memory, struct guarded out)
{
    struct uas_operation before, second;
    struct uas_operation *operation = (struct uas_operation *)(void *)at_end(out, sizeof *operation);
    struct uas_sense sense, second_sense;
    uint8_t *cdb = at_end(memory, 16), text[36], given[36];
    uint32_t blocks = one_in(4) ? (uint32_t)drawn() : below(200);

    draw_operation(&before, blocks);
    *operation = before;
    draw_bytes(cdb, 16);
    memcpy(text, cdb, 16);
    uint8_t fault = saw(uas_cdb_write(operation, cdb));
    AGREE(fault == second_cdb_write(&before, text));
    AGREE(memcmp(cdb, text, 16) == 0);

    if (fault != 0 || one_in(8)) {
        draw_bytes(cdb, 16);
        cdb[0] = one_in(4) ? cdb[0] : opcodes[below(OPCODES)];
    } else if (one_in(2))
        spoil(cdb, one_in(2) ? 9 : 16);
    draw_bytes((uint8_t *)&before, sizeof before);
    draw_bytes((uint8_t *)&sense, sizeof sense);
    second = *operation = before;
    second_sense = sense;
    fault = saw(uas_cdb_parse(cdb, blocks, operation, &sense));
    AGREE(fault == second_cdb_parse(cdb, blocks, &second, &second_sense));
    AGREE(memcmp(operation, &second, sizeof second) == 0);
    AGREE(memcmp(&sense, &second_sense, sizeof sense) == 0);

    draw_bytes((uint8_t *)&sense, sizeof sense);
    uas_sense_data(&sense, at_end(memory, 18));
    second_sense_data(&sense, text);
    AGREE(memcmp(at_end(memory, 18), text, 18) == 0);
    bool present = one_in(2);
    uas_inquiry_data(present, at_end(memory, 36));
    second_inquiry_data(present, text);
    AGREE(memcmp(at_end(memory, 36), text, 36) == 0);
    draw_bytes(given, 8);
    memcpy(at_end(memory, 8), given, 8);
    fault = uas_capacity_data(blocks, at_end(memory, 8));
    AGREE(fault == (blocks == 0 ? UAS_CAPACITY_NO_BLOCKS : 0));
    if (blocks != 0)
        second_capacity_data(blocks, given);
    AGREE(memcmp(at_end(memory, 8), given, 8) == 0);
    draw_bytes(given, 32);
    memcpy(at_end(memory, 32), given, 32);
    fault = uas_long_capacity_data(blocks, at_end(memory, 32));
    AGREE(fault == (blocks == 0 ? UAS_CAPACITY_NO_BLOCKS : 0));
    if (blocks != 0)
        second_long_capacity_data(blocks, given);
    AGREE(memcmp(at_end(memory, 32), given, 32) == 0);
}

/* ---- Where things lie ---- */

enum { SEEN_PLACE = 200, SEEN_NO_PLACE = 201 };

/* What is at an address, told from the header's list: the ring, its stream and the place, or nothing. */
static bool second_place(uint64_t address, uint8_t *ring, uint16_t *stream, size_t *place)
{
    for (uint32_t number = 1; number <= 5; number++)
        for (uint32_t s = 0; s <= SECOND_STREAMS; s++) {
            bool streams = number <= 3;
            uint64_t n = number == 4 ? 1 : number + 1, base = number == 5 ? 0x50000000 : 0x40000000 + 0x1000000 * n + 0x1000 * s;
            size_t places = number == 5 ? 15 + 1 : number == 4 ? 255 + 1 : 19 + 1;
            if (streams == (s == 0) || address < base || address >= base + 16 * places || (address - base) % 16 != 0)
                continue;
            *ring = (uint8_t)number;
            *stream = (uint16_t)s;
            *place = (size_t)(address - base) / 16;
            return true;
        }
    return false;
}

static void fuzz_place(struct guarded memory, struct guarded out)
{
    uint8_t ring[2] = { 0xee, 0xee }, endpoint = 0, cycle = 7, type = 7, *bytes = at_end(memory, 16), kept[16];
    uint16_t stream[2] = { 0xeeee, 0xeeee }, of_bell = 0;
    size_t place[2] = { 7777, 7777 };
    uint64_t address = one_in(8) ? drawn() : 0x40000000 + 0x1000000 * (uint64_t)below(6) + 0x1000 * (uint64_t)below(260), pointer = 7;
    (void)out;
    address += one_in(4) ? 16 * (uint64_t)below(300) : one_in(2) ? 0x10000000 : 16 * (uint64_t)below(24);
    address += one_in(8) ? below(16) : 0;
    bool there = uas_ring_place(address, &ring[0], &stream[0], &place[0]);
    AGREE(there == second_place(address, &ring[1], &stream[1], &place[1]));
    AGREE(ring[0] == ring[1] && stream[0] == stream[1] && place[0] == place[1]);
    AGREE(!there || uas_ring_address(ring[0], stream[0], place[0]) == address);
    ring[0] = one_in(8) ? (uint8_t)drawn() : (uint8_t)below(7);
    stream[0] = one_in(4) ? (uint16_t)drawn() : one_in(3) ? 0 : (uint16_t)below(260);
    place[0] = one_in(16) ? (size_t)drawn() : below(one_in(2) ? 22 : 260);
    address = uas_ring_address(ring[0], stream[0], place[0]);
    if (address != 0)
        AGREE(second_place(address, &ring[1], &stream[1], &place[1]) && ring[0] == ring[1] && stream[0] == stream[1] && place[0] == place[1]);
    else
        AGREE(ring[0] < 1 || ring[0] > 5 || (stream[0] == 0) != (ring[0] > 3) || stream[0] > 248 ||
              place[0] >= (ring[0] == 5 ? 16u : ring[0] == 4 ? 256u : 20u));
    uint32_t bell = (uint32_t)drawn();
    uas_doorbell_parts(bell, &endpoint, &of_bell);
    AGREE(endpoint == bell % 256 && of_bell == bell / 65536 && uas_doorbell(endpoint, of_bell) == (bell & 0xffff00ff));
    draw_bytes(bytes, 16);
    memcpy(kept, bytes, 16);
    uas_context_read(bytes, &pointer, &cycle, &type);
    AGREE(memcmp(bytes, kept, 16) == 0 && pointer % 16 == 0 && cycle == kept[0] % 2 && type == kept[0] / 2 % 8);
    AGREE((uint32_t)pointer == (little32(kept) & ~15u) && pointer >> 32 == little32(kept + 4));
    memset(kept + 8, 0, 8);
    uas_context_write(pointer | below(16), (uint8_t)(cycle | (drawn() & 0xfe)), (uint8_t)(type | (drawn() & 0xf8)), bytes);
    AGREE(memcmp(bytes, kept, 16) == 0);
    seen[there ? SEEN_PLACE : SEEN_NO_PLACE]++;
}

/* ---- What handles are opened with ---- */

static uint8_t image[512 * SECOND_UNITS * SECOND_BLOCKS + 1];

/* Blocks, an image or none, and bad blocks that a device of the second implementation has room for. */
static struct second_units draw_units(const uint32_t *sizes, uint32_t count)
{
    struct second_units given = { .units = SECOND_UNITS, .image = image };
    size_t all = 0;
    for (size_t i = 0; i < given.units; i++) {
        given.blocks[i] = sizes[below(count)];
        all += 512 * (size_t)given.blocks[i];
    }
    given.length = one_in(3) ? 0 : all;
    for (size_t at = 0; at < given.length; at += 512) {
        memset(image + at, (int)below(256), 512);
        draw_bytes(image + at, 8);
    }
    given.bads = one_in(4) ? 0 : 1 + below(8);
    for (size_t i = 0; i < given.bads; i++) {
        given.bad[i].unit = below(SECOND_UNITS);
        given.bad[i].lba = below(given.blocks[given.bad[i].unit]);
        if (i > 0 && one_in(8))
            given.bad[i] = given.bad[i - 1];
    }
    return given;
}

/* What logical unit `number` has of it, as the only one. */
static struct second_units alone_of(const struct second_units *given, uint32_t number)
{
    struct second_units made = { .units = 1, .image = given->image };
    made.blocks[0] = given->blocks[number];
    made.length = given->length > 0 ? 512 * (size_t)made.blocks[0] : 0;
    for (uint32_t i = 0; i < number && given->length > 0; i++)
        made.image += 512 * (size_t)given->blocks[i];
    for (size_t i = 0; i < given->bads; i++)
        if (given->bad[i].unit == number)
            made.bad[made.bads++].lba = given->bad[i].lba;
    return made;
}

static uint8_t open_device(const struct second_units *given, uas_device **device)
{
    return uas_device_open(given->blocks, given->units, given->image, given->length, given->bad, given->bads, device);
}

static uint8_t open_controller(const struct second_units *given, uas_controller **controller)
{
    return uas_controller_open(given->blocks, given->units, given->image, given->length, given->bad, given->bads, controller);
}

static uint8_t open_bus(const struct second_units *given, uas_bus **bus)
{
    return uas_bus_open(given->blocks, given->units, given->image, given->length, given->bad, given->bads, NULL, bus);
}

/* What may be wrong with what a handle is opened with. */
static void spoil_units(struct second_units *given)
{
    if (one_in(6))
        given->units = one_in(2) ? 0 : one_in(2) ? 32 : 32 + (size_t)drawn();
    if (one_in(6))
        given->blocks[below(SECOND_UNITS)] = one_in(2) ? 0 : 65537 + below(one_in(2) ? 2 : 1u << 31);
    if (one_in(4))
        given->length = one_in(3) ? 512 : one_in(2) ? given->length + 1 : given->length > 0 ? given->length - 1 : 1;
    if (given->bads > 0 && one_in(3)) {
        struct uas_bad_block *bad = &given->bad[below((uint32_t)given->bads)];
        if (one_in(2))
            bad->unit = one_in(2) ? SECOND_UNITS : SECOND_UNITS + (uint32_t)(drawn() % 1000000);
        else
            bad->lba = one_in(2) ? given->blocks[bad->unit] : (uint32_t)drawn();
    }
}

static void fuzz_open(struct guarded memory, struct guarded out)
{
    static const uint32_t sizes[] = { 1, 2, 9 };
    static struct second_device second;
    struct second_units given = draw_units(sizes, 3);
    if (one_in(2))
        spoil_units(&given);
    uint32_t *blocks = (uint32_t *)(void *)at_end(out, sizeof given.blocks[0] * (given.units <= 32 ? given.units : 32));
    uint8_t wanted = second_units_fault(&given), *bytes = at_end(memory, given.length);
    memcpy(blocks, given.blocks, sizeof given.blocks[0] * (given.units <= 32 ? given.units : 32));
    memcpy(bytes, image, given.length);
    uas_device *made = NULL;
    AGREE(saw(uas_device_open(blocks, given.units, bytes, given.length, given.bad, given.bads, &made)) == wanted);
    AGREE((made != NULL) == (wanted == 0));
    if (one_in(64)) {
        uas_controller *also = NULL;
        uas_bus *and_also = NULL;
        given.image = bytes;
        AGREE(open_controller(&given, &also) == wanted && (also != NULL) == (wanted == 0));
        AGREE(open_bus(&given, &and_also) == wanted && (and_also != NULL) == (wanted == 0));
        uas_controller_free(also);
        uas_bus_free(and_also);
    }
    if (made == NULL)
        return;
    memset(&second, 0, sizeof second);
    given.image = image;
    second_device_open(&second, &given);
    uint16_t unit = (uint16_t)below(SECOND_UNITS);
    size_t length = 512 * (size_t)given.blocks[unit];
    AGREE(uas_device_blocks(made, unit, 0, bytes = at_end(memory, length), length) == 0 && memcmp(bytes, second.now[unit], length) == 0);
    AGREE(uas_device_medium(made, unit, 0, bytes, length) == 0 && memcmp(bytes, second.medium[unit], length) == 0);
    uas_device_free(made);
}

/* ---- The device ---- */

enum { SEEN_ENDED = 202, SEEN_DEVICE_BAD = 203 };

static struct second_device model;
static uas_device *device;

static void renew_device(void)
{
    static const uint32_t sizes[] = { 1, 8, 9, 17, SECOND_BLOCKS };
    if (device != NULL)
        uas_device_free(device);
    memset(&model, 0, sizeof model);
    struct second_units given = draw_units(sizes, 5);
    second_device_open(&model, &given);
    bool plain = given.length == 0 && given.bads == 0;
    if ((plain ? uas_device_new(given.blocks, SECOND_UNITS, &device) : open_device(&given, &device)) != 0) {
        fprintf(stderr, "no device\n");
        exit(2);
    }
}

static uint16_t draw_tag(void)
{
    static const uint16_t odd[] = { 0, 15, 239, 240, 241, 256, 65535 };
    return one_in(12) ? odd[below(7)] : (uint16_t)(1 + below(6));
}

/* The bytes of a unit, mostly one of this tag that asks for something of units of so many blocks; how many. */
static size_t draw_received(uint16_t tag, const uint32_t blocks[SECOND_UNITS], uint8_t *bytes)
{
    struct uas_unit unit;
    struct uas_operation operation;
    size_t length = 0;
    draw_unit(&unit);
    unit.tag = tag;
    memset(unit.lun, 0, sizeof unit.lun);
    unit.lun[1] = (uint8_t)below(SECOND_UNITS + 1);
    if (one_in(64))
        spoil(unit.lun, sizeof unit.lun);
    if (!one_in(16))
        unit.id = one_in(6) ? UAS_UNIT_TASK : UAS_UNIT_COMMAND;
    unit.task_tag = draw_tag();
    unit.function = one_in(8) ? (uint8_t)drawn() : one_in(4) ? 8 : 1;
    draw_operation(&operation, blocks[unit.lun[1] % SECOND_UNITS]);
    uas_cdb_write(&operation, unit.cdb);
    if (one_in(32))
        spoil(unit.cdb, sizeof unit.cdb);
    if (uas_unit_write(&unit, bytes, 112, &length) != 0 || one_in(32)) {
        length = below(113);
        draw_bytes(bytes, length);
    }
    if (one_in(32))
        spoil(bytes, length);
    if (one_in(32) && length > 0)
        length--;
    return length;
}

/* How long the data of a call is. */
static size_t draw_length(uint8_t call, uint16_t tag)
{
    uint32_t chunk;
    second_wants(&model, tag, &chunk);
    if (call == UAS_DEVICE_CALL_STATUS)
        return one_in(4) ? below(40) : 112;
    if (call == UAS_DEVICE_CALL_BLOCKS || call == UAS_DEVICE_CALL_MEDIUM)
        return one_in(16) ? below(2000) : 512 * (size_t)below(one_in(4) ? SECOND_BLOCKS + 2 : 12);
    return one_in(16) ? below(5000) : chunk;
}

static uint8_t wanted_copy(const struct uas_device_door *door, uint8_t *data, size_t length)
{
    if (door->unit >= SECOND_UNITS)
        return UAS_DEVICE_UNIT;
    if (length % 512 != 0)
        return UAS_DEVICE_LENGTH;
    uint32_t blocks = model.blocks[door->unit];
    if (door->lba > blocks || length / 512 > blocks - door->lba)
        return UAS_DEVICE_RANGE;
    memcpy(data, (door->call == UAS_DEVICE_CALL_BLOCKS ? model.now : model.medium)[door->unit] + 512 * (size_t)door->lba, length);
    return 0;
}

static uint8_t wanted_chunk(struct uas_device_door *door, uint8_t *data, size_t length)
{
    uint32_t chunk;
    uint8_t phase = second_wants(&model, door->tag, &chunk);
    if (phase != (door->call == UAS_DEVICE_CALL_GIVE ? UAS_GIVES : UAS_TAKES))
        return UAS_DEVICE_PHASE;
    if (length != chunk)
        return UAS_DEVICE_LENGTH;
    door->good = second_move(&model, door->tag, data, length);
    seen[SEEN_DEVICE_BAD] += !door->good;
    return 0;
}

static uint8_t wanted_status(struct uas_device_door *door, uint8_t *data, size_t length)
{
    uint32_t chunk;
    size_t written;
    if (second_wants(&model, door->tag, &chunk) != UAS_ENDS)
        return UAS_DEVICE_PHASE;
    if (second_unit_write(&model.tasks[door->tag].answer, data, length, &written) != 0)
        return UAS_DEVICE_LENGTH;
    door->length = (uint32_t)written;
    return 0;
}

static uint8_t wanted_receive(struct uas_device_door *door, const uint8_t *data, size_t length)
{
    bool before[UAS_GREATEST_TAG + 1];
    uint16_t began;
    for (uint16_t tag = 1; tag <= UAS_GREATEST_TAG; tag++)
        before[tag] = model.tasks[tag].phase != UAS_ABSENT;
    if (second_receive(&model, data, length, &began) != 0)
        return UAS_DEVICE_OVERLAP;
    door->good = began != 0;
    if (began != 0)
        door->tag = began;
    memset(door->ended, 0, sizeof door->ended);
    for (uint16_t tag = 1; tag <= UAS_GREATEST_TAG; tag++)
        if (before[tag] && model.tasks[tag].phase == UAS_ABSENT) {
            door->ended[tag / 8] |= (uint8_t)(1 << tag % 8);
            seen[SEEN_ENDED]++;
        }
    return 0;
}

static uint8_t wanted_next(struct uas_device_door *door)
{
    uint32_t tag = door->tag + 1u;
    while (tag <= UAS_GREATEST_TAG && model.tasks[tag].phase == UAS_ABSENT)
        tag++;
    door->good = tag <= UAS_GREATEST_TAG;
    if (door->good)
        door->tag = (uint16_t)tag;
    return 0;
}

/* What a call of the device is to do to its door and its data. */
static uint8_t wanted_call(struct uas_device_door *door, uint8_t *data, size_t length)
{
    uint32_t chunk;
    switch (door->call) {
    case UAS_DEVICE_CALL_RECEIVE:
        return wanted_receive(door, data, length);
    case UAS_DEVICE_CALL_NEXT:
        return wanted_next(door);
    case UAS_DEVICE_CALL_RESET:
        second_device_reset(&model);
        return 0;
    case UAS_DEVICE_CALL_WANTS:
        door->phase = second_wants(&model, door->tag, &chunk);
        door->length = chunk;
        return 0;
    case UAS_DEVICE_CALL_GIVE:
    case UAS_DEVICE_CALL_TAKE:
        return wanted_chunk(door, data, length);
    case UAS_DEVICE_CALL_STATUS:
        return wanted_status(door, data, length);
    case UAS_DEVICE_CALL_SENT:
        if (second_wants(&model, door->tag, &chunk) != UAS_ENDS)
            return UAS_DEVICE_PHASE;
        model.tasks[door->tag].phase = UAS_ABSENT;
        return 0;
    case UAS_DEVICE_CALL_SIZE:
        if (door->unit >= SECOND_UNITS)
            return UAS_DEVICE_UNIT;
        door->length = model.blocks[door->unit];
        return 0;
    case UAS_DEVICE_CALL_BLOCKS:
    case UAS_DEVICE_CALL_MEDIUM:
        return wanted_copy(door, data, length);
    default:
        return UAS_DEVICE_CALL;
    }
}

static uint8_t draw_call(uint16_t tag)
{
    uint32_t chunk;
    uint8_t phase = second_wants(&model, tag, &chunk);
    if (one_in(3))
        return one_in(32) ? (uint8_t)drawn() : (uint8_t)(1 + below(one_in(16) ? 11 : 10));
    if (phase == UAS_GIVES)
        return UAS_DEVICE_CALL_GIVE;
    if (phase == UAS_TAKES)
        return UAS_DEVICE_CALL_TAKE;
    if (phase == UAS_ENDS)
        return one_in(2) ? UAS_DEVICE_CALL_STATUS : UAS_DEVICE_CALL_SENT;
    return UAS_DEVICE_CALL_RECEIVE;
}

static void fuzz_device(struct guarded memory, struct guarded out)
{
    static uint8_t wanted[512 * (SECOND_BLOCKS + 2)];
    struct uas_device_door *door = (struct uas_device_door *)(void *)at_end(out, sizeof *door), second;
    size_t length;
    if (device == NULL || input % 5000 == 0)
        renew_device();
    draw_bytes((uint8_t *)door, sizeof *door);
    door->tag = draw_tag();
    door->call = draw_call(door->tag);
    door->unit = one_in(16) ? door->unit : (uint16_t)below(SECOND_UNITS);
    door->lba = one_in(16) ? door->lba : below(one_in(2) ? SECOND_BLOCKS + 2 : 4);
    if (door->call == UAS_DEVICE_CALL_RECEIVE)
        length = draw_received(draw_tag(), model.blocks, wanted);
    else {
        length = draw_length(door->call, door->tag);
        memset(wanted, (int)below(256), length);
        draw_bytes(wanted, length < 8 ? length : 8);
    }
    uint8_t *data = at_end(memory, length);
    memcpy(data, wanted, length);
    second = *door;
    uint8_t fault = saw(uas_device_call(device, door, data, length));
    AGREE(fault == wanted_call(&second, wanted, length));
    AGREE(memcmp(door, &second, sizeof second) == 0);
    AGREE(memcmp(data, wanted, length) == 0);
}

/* ---- The bus ----
 *
 * One bus takes single steps, a second one the same with drains in place of their steps, and for each client a bus of its own
 * takes that client's steps. All tell the client the same, and what the second implementation does. */

enum {
    CLIENTS = SECOND_UNITS,
    MOST_DATA = 129 * 512,
    /* What is counted beside the faults. */
    SEEN_BUS_REPLY = 176, /* and the kind of reply: 177 to 179 */
    SEEN_BUS_BAD = 180    /* a step at a bad block */
};

static struct second_bus model_bus;
static uas_bus *stepped, *drained, *alone[CLIENTS];
static uint32_t bus_blocks[CLIENTS];

static bool in_use(uint32_t client, uint32_t index)
{
    return model_bus.entries[UAS_CLIENT_TAGS * client + index].used;
}

static void free_buses(void)
{
    if (stepped == NULL)
        return;
    uas_bus_free(stepped);
    uas_bus_free(drained);
    for (int i = 0; i < CLIENTS; i++)
        uas_bus_free(alone[i]);
}

static void renew_buses(void)
{
    static const uint32_t sizes[] = { 1, 8, 24, 200 };
    uint8_t fault = 0;
    free_buses();
    struct second_units given = draw_units(sizes, 4);
    memcpy(bus_blocks, given.blocks, sizeof bus_blocks);
    second_bus_open(&model_bus, &given);
    fault |= open_bus(&given, &stepped);
    fault |= open_bus(&given, &drained);
    for (uint32_t i = 0; i < CLIENTS; i++) {
        struct second_units own = alone_of(&given, i);
        fault |= open_bus(&own, &alone[i]);
    }
    if (fault != 0) {
        fprintf(stderr, "no bus\n");
        exit(2);
    }
}

/* The tag as its client's own bus has it. */
static uint16_t own_tag(uint16_t tag, uint32_t client)
{
    return (uint16_t)(tag - UAS_CLIENT_TAGS * client);
}

/* A step of the first bus, and of its owner's; whether it acted. `twice`: of the second bus too. */
static bool bus_step(uint8_t step, uint8_t pipe, uint16_t tag, bool twice)
{
    bool due = false, acted = false, other = false;
    int owner = -1, other_owner = -1;
    AGREE(uas_bus_due(stepped, step, pipe, tag, &due) == 0);
    AGREE(saw(uas_bus_step(stepped, step, pipe, tag, &acted, &owner)) == 0);
    AGREE(acted == due && acted == (owner >= 0));
    uint32_t moved = tag <= UAS_CLIENT_TAGS * CLIENTS ? model_bus.entries[tag].moved : 0;
    AGREE(owner == second_step(&model_bus, step, pipe, tag));
    if (step == UAS_STEP_DATA && owner >= 0)
        seen[SEEN_BUS_BAD] += model_bus.entries[tag].moved == moved;
    if (twice) {
        AGREE(uas_bus_step(drained, step, pipe, tag, &other, &other_owner) == 0);
        AGREE(other == acted && other_owner == owner);
    }
    if (acted && owner >= 0 && owner < CLIENTS) {
        AGREE(uas_bus_step(alone[owner], step, pipe, own_tag(tag, (uint32_t)owner), &other, &other_owner) == 0);
        AGREE(other && other_owner == 0);
    }
    return acted;
}

/* One round of a drain, by steps, at most *left of them. */
static bool drain_round(uint64_t *left)
{
    static const uint8_t first[] = { UAS_STEP_COMMAND, UAS_STEP_ENGINE, UAS_STEP_EVENT };
    bool any = false;
    for (int i = 0; i < 3 && *left > 0; i++)
        if (bus_step(first[i], 0, 0, false))
            any = true, --*left;
    for (uint8_t step = UAS_STEP_DATA; step <= UAS_STEP_STATUS; step++)
        for (uint16_t tag = 1; tag <= UAS_CLIENT_TAGS * CLIENTS && *left > 0; tag++)
            if (bus_step(step, 0, tag, false))
                any = true, --*left;
    for (uint8_t pipe = UAS_PIPE_STATUS; pipe <= UAS_PIPE_DATA_OUT; pipe++)
        for (uint16_t tag = 1; tag <= UAS_CLIENT_TAGS * CLIENTS && *left > 0; tag++)
            if (bus_step(UAS_STEP_RETIRE, pipe, tag, false))
                any = true, --*left;
    return any;
}

static void bus_drain(void)
{
    uint64_t most = one_in(3) ? below(40) : 100000, left = most, taken = 7777;
    bool quiet = false, any = true;
    while (left > 0 && any)
        any = drain_round(&left);
    AGREE(uas_bus_drain(drained, most, &taken, &quiet) == 0);
    AGREE(taken == most - left);
    AGREE(quiet == (left > 0));
}

static uint8_t wanted_submission(uint32_t client, uint16_t tag, uint64_t ticket, const struct uas_operation *operation, size_t length)
{
    uint8_t cdb[16];
    size_t moved = 0;
    bool many = second_is_read(operation->opcode) || second_is_write(operation->opcode);
    if (ticket >> 60 != 0)
        return UAS_CLIENT_TICKET;
    if (second_cdb_write(operation, cdb) != 0)
        return UAS_CLIENT_OPERATION;
    if (client >= CLIENTS || tag <= UAS_CLIENT_TAGS * client || tag >= UAS_CLIENT_TAGS * (client + 1))
        return UAS_CLIENT_NOT_YOURS;
    if (in_use(client, tag - UAS_CLIENT_TAGS * client))
        return UAS_CLIENT_IN_USE;
    if (operation->opcode == UAS_INQUIRY)
        moved = operation->count < 36 ? operation->count : 36;
    else if (operation->opcode == UAS_READ_CAPACITY_10)
        moved = 8;
    else if (operation->opcode == UAS_READ_CAPACITY_16)
        moved = operation->count < 32 ? operation->count : 32;
    else if (many)
        moved = 512 * (size_t)operation->count;
    if (length != moved)
        return UAS_CLIENT_BAD_LENGTH;
    if (many && operation->count > 128)
        return UAS_CLIENT_TOO_LONG;
    return ticket < model_bus.least[client] ? UAS_CLIENT_OUT_OF_TURN : 0;
}

static uint64_t draw_ticket(uint32_t client)
{
    if (one_in(64))
        return (uint64_t)1 << 60 | drawn();
    if (client < CLIENTS && !one_in(32))
        return model_bus.least[client] + below(3);
    return below(1000);
}

/* What a client submits. */
struct submission {
    struct uas_operation operation;
    uint64_t ticket;
    uint8_t *data;
    size_t length;
    uint32_t client;
    uint16_t tag;
};

/* As many bytes as an operation moves, or none where they are too many. */
static size_t data_length(const struct uas_operation *operation)
{
    if (operation->opcode == UAS_INQUIRY)
        return operation->count < 36 ? operation->count : 36;
    if (operation->opcode == UAS_READ_CAPACITY_10)
        return 8;
    if (operation->opcode == UAS_READ_CAPACITY_16)
        return operation->count < 32 ? operation->count : 32;
    bool many = second_is_read(operation->opcode) || second_is_write(operation->opcode);
    return many && operation->count <= 129 ? 512 * (size_t)operation->count : 0;
}

/* A submission, whose data are in `memory`, and a copy in `kept`. */
static struct submission draw_submission(struct guarded memory, uint8_t kept[MOST_DATA])
{
    struct submission made;
    struct uas_operation *operation = &made.operation;
    made.client = one_in(64) ? CLIENTS + below(3) : below(CLIENTS);
    made.tag = one_in(32) ? draw_tag() : (uint16_t)(UAS_CLIENT_TAGS * made.client + 1 + below(UAS_CLIENT_TAGS - 1));
    made.ticket = draw_ticket(made.client);
    draw_operation(operation, bus_blocks[made.client % CLIENTS]);
    if (operation->count > 65535 && !one_in(8))
        operation->count %= 130;
    if (operation->fua > 1 && !one_in(8))
        operation->fua = 0;
    bool many = second_is_read(operation->opcode) || second_is_write(operation->opcode);
    if (many && operation->count <= 65535 && operation->count > 129)
        operation->count = 129;
    made.length = one_in(32) ? below(MOST_DATA) : data_length(operation);
    made.data = at_end(memory, made.length);
    memset(made.data, (int)below(256), made.length);
    draw_bytes(made.data, made.length < 8 ? made.length : 8);
    memcpy(kept, made.data, made.length);
    return made;
}

static uint8_t submission_fault(const struct submission *made)
{
    return wanted_submission(made->client, made->tag, made->ticket, &made->operation, made->length);
}

static uint8_t submitted(uas_bus *bus, const struct submission *made)
{
    return uas_bus_submit(bus, made->client, made->tag, made->ticket, &made->operation, made->data, made->length);
}

static void bus_submit(struct guarded memory)
{
    static uint8_t kept[MOST_DATA];
    struct submission made = draw_submission(memory, kept), own = made;
    uint8_t wanted = submission_fault(&made);
    AGREE(saw(submitted(stepped, &made)) == wanted);
    AGREE(submitted(drained, &made) == wanted);
    AGREE(memcmp(made.data, kept, made.length) == 0);
    if (wanted != 0)
        return;
    own.client = 0;
    own.tag = own_tag(made.tag, made.client);
    AGREE(submitted(alone[made.client], &own) == 0);
    second_submit(&model_bus, made.tag, made.ticket, &made.operation, made.data, made.length);
}

/* What a client asks for by a task management. */
struct management {
    uint64_t ticket;
    uint32_t client;
    uint16_t tag;
    uint8_t function;
};

static struct management draw_management(void)
{
    struct management made;
    made.client = one_in(32) ? CLIENTS + below(3) : below(CLIENTS);
    made.ticket = draw_ticket(made.client);
    made.function = one_in(32) ? (uint8_t)drawn() : one_in(3) ? UAS_LOGICAL_UNIT_RESET : one_in(3) ? UAS_QUERY_TASK : UAS_ABORT_TASK;
    made.tag = one_in(16) ? draw_tag() : (uint16_t)(UAS_CLIENT_TAGS * made.client + 1 + below(UAS_CLIENT_TAGS - 1));
    return made;
}

static uint8_t management_fault(const struct management *made)
{
    uint32_t first = UAS_CLIENT_TAGS * made->client, last = first + UAS_CLIENT_TAGS;
    if (made->ticket >> 60 != 0)
        return UAS_CLIENT_TICKET;
    if (made->function != UAS_ABORT_TASK && made->function != UAS_LOGICAL_UNIT_RESET && made->function != UAS_QUERY_TASK)
        return UAS_CLIENT_FUNCTION;
    if (made->client >= CLIENTS)
        return UAS_CLIENT_NOT_YOURS;
    if (in_use(made->client, UAS_CLIENT_TAGS))
        return UAS_CLIENT_IN_USE;
    if (made->ticket < model_bus.least[made->client])
        return UAS_CLIENT_OUT_OF_TURN;
    if (made->function == UAS_LOGICAL_UNIT_RESET)
        return 0;
    bool named = made->tag > first && made->tag < last && in_use(made->client, made->tag - first);
    return named ? 0 : UAS_CLIENT_NO_SUCH_TASK;
}

static void bus_task(void)
{
    struct management made = draw_management();
    uint8_t wanted = management_fault(&made);
    AGREE(saw(uas_bus_task(stepped, made.client, made.ticket, made.function, made.tag)) == wanted);
    AGREE(uas_bus_task(drained, made.client, made.ticket, made.function, made.tag) == wanted);
    if (wanted != 0)
        return;
    AGREE(uas_bus_task(alone[made.client], 0, made.ticket, made.function, own_tag(made.tag, made.client)) == 0);
    second_task(&model_bus, (int)made.client, made.ticket, made.function, made.tag);
}

/* What the second implementation replies. */
static void wanted_reply(uint32_t client, const struct uas_bus_door *reply, const uint8_t *data)
{
    struct uas_bus_door wanted = *reply;
    const uint8_t *bytes = second_reply(&model_bus, (int)client, &wanted);
    AGREE(memcmp(&wanted, reply, sizeof wanted) == 0);
    AGREE(bytes == NULL || wanted.length > MOST_DATA || memcmp(bytes, data, wanted.length) == 0);
}

/* A client takes its next reply, from all three buses. */
static void bus_reply(struct guarded memory)
{
    static uint8_t others[UAS_MOST_DATA_BYTES], kept[UAS_MOST_DATA_BYTES + 64];
    uint32_t client = one_in(64) ? CLIENTS + below(3) : below(CLIENTS);
    struct uas_bus_door reply, other;
    size_t room = UAS_MOST_DATA_BYTES + (one_in(4) ? below(64) : 0);
    uint8_t *data = at_end(memory, room);
    if (kept[0] == 0)
        memset(kept, 0xee, sizeof kept);
    memset(&reply, 0, sizeof reply);
    memset(&other, 0, sizeof other);
    memcpy(data, kept, room);
    if (one_in(16))
        AGREE(saw(uas_bus_reply(stepped, client, data, below(UAS_MOST_DATA_BYTES), &reply)) == UAS_CLIENT_LENGTH);
    AGREE(uas_bus_reply(stepped, client, data, room, &reply) == 0);
    size_t length = reply.acted ? reply.length : 0;
    if (!AGREE(length <= UAS_MOST_DATA_BYTES))
        return;
    AGREE(memcmp(data + length, kept, room - length) == 0);
    AGREE(uas_bus_reply(drained, client, others, sizeof others, &other) == 0);
    AGREE(memcmp(&other, &reply, sizeof other) == 0 && memcmp(others, data, length) == 0);
    if (client >= CLIENTS) {
        AGREE(!reply.acted);
        return;
    }
    wanted_reply(client, &reply, data);
    AGREE(uas_bus_reply(alone[client], 0, others, sizeof others, &other) == 0);
    if (reply.acted) {
        other.tag = (uint16_t)(other.tag + UAS_CLIENT_TAGS * client);
        seen[SEEN_BUS_REPLY + (reply.reply & 3)]++;
    }
    other.client = reply.client;
    AGREE(memcmp(&other, &reply, sizeof other) == 0 && memcmp(others, data, length) == 0);
}

static void bus_blocks_agree(struct guarded memory)
{
    static uint8_t others[(SECOND_BLOCKS + 1) * 512];
    uint32_t client = below(CLIENTS);
    uint32_t lba = below(bus_blocks[client] + 1), count = below(bus_blocks[client] - lba + 1);
    uint8_t *data = at_end(memory, 512 * (size_t)count);
    size_t length = 512 * (size_t)count, from = 512 * (size_t)lba;
    AGREE(uas_bus_blocks(stepped, client, lba, data, length) == 0);
    AGREE(memcmp(data, model_bus.device.now[client] + from, length) == 0);
    AGREE(uas_bus_blocks(alone[client], 0, lba, others, length) == 0);
    AGREE(memcmp(data, others, length) == 0);
    AGREE(uas_bus_medium(drained, client, lba, data, length) == 0);
    AGREE(memcmp(data, model_bus.device.medium[client] + from, length) == 0);
    AGREE(uas_bus_medium(alone[client], 0, lba, others, length) == 0);
    AGREE(memcmp(data, others, length) == 0);
    AGREE(saw(uas_bus_blocks(stepped, client, bus_blocks[client] - count, others, 512 * (size_t)(count + 1))) == UAS_BUS_RANGE);
    AGREE(saw(uas_bus_medium(stepped, client, 0, others, 1 + below(511))) == UAS_CLIENT_LENGTH);
    AGREE(saw(uas_bus_blocks(stepped, CLIENTS + below(5), 0, others, 512)) == UAS_BUS_CLIENT);
}

/* Any door at all, of calls that are none, and of steps that are none. */
static void bus_junk(struct guarded out)
{
    struct uas_bus_door *door = (struct uas_bus_door *)(void *)at_end(out, sizeof *door), before;
    uint8_t none[1] = { 0 };
    draw_bytes((uint8_t *)door, sizeof *door);
    bool no_call = one_in(2);
    if (no_call)
        door->call = one_in(2) ? one_in(2) ? 0 : 6 : (uint8_t)(10 + below(246));
    else {
        door->call = one_in(2) ? UAS_BUS_CALL_STEP : UAS_BUS_CALL_DUE;
        if (one_in(2))
            door->step = one_in(2) ? 0 : (uint8_t)(7 + below(249));
        else {
            door->step = UAS_STEP_RETIRE;
            door->pipe = one_in(2) ? 0 : (uint8_t)(4 + below(252));
        }
    }
    before = *door;
    AGREE(saw(uas_bus_call(stepped, door, none, 0)) == (no_call ? UAS_CLIENT_CALL : UAS_BUS_STEP));
    AGREE(memcmp(door, &before, sizeof before) == 0);
}

/* A tag that something is under, where there is one. */
static uint16_t busy_tag(void)
{
    for (int tries = 0; tries < 8; tries++) {
        uint32_t client = below(CLIENTS), index = 1 + below(UAS_CLIENT_TAGS);
        if (in_use(client, index))
            return (uint16_t)(UAS_CLIENT_TAGS * client + index);
    }
    return draw_tag();
}

static void fuzz_bus(struct guarded memory, struct guarded out)
{
    if (stepped == NULL || input % 10000 == 0)
        renew_buses();
    uint32_t which = below(100);
    if (which < 12)
        bus_submit(memory);
    else if (which < 14)
        bus_task();
    else if (which < 26)
        bus_reply(memory);
    else if (which < 27)
        bus_junk(out);
    else if (one_in(256))
        bus_drain();
    else if (one_in(32))
        bus_blocks_agree(memory);
    else {
        static const uint8_t steps[] = { 1, 1, 2, 2, 2, 3, 3, 4, 5, 5, 5, 5, 6 };
        uint8_t step = steps[below(13)];
        uint8_t pipe = (uint8_t)(UAS_PIPE_STATUS + below(3));
        uint16_t tag = one_in(16) ? draw_tag() : busy_tag();
        bus_step(step, pipe, tag, true);
    }
}

/* ---- The controller and its disk ----
 *
 * One handle takes random calls, each of which is then made of the second implementation too. Mostly the call is one that brings a
 * tag further by what the second implementation has of it: a unit, a TRB that names it, memory, a doorbell, a step. */

enum {
    CONTROLLER_INPUTS = 20000, /* of one handle */
    /* What is counted beside the faults. */
    SEEN_SUCCESS = 144, /* events with these completion codes */
    SEEN_SHORT_PACKET = 145,
    SEEN_TRB_ERROR = 146,
    SEEN_CONTEXT_STATE = 147,
    SEEN_INVALID_STREAM = 148,
    SEEN_GOOD = 149,        /* a status that was sent */
    SEEN_GIVEN = 150,       /* a chunk */
    SEEN_TAKEN = 151,
    SEEN_MOVED = 152,       /* Set TR Dequeue Pointer went past items */
    SEEN_FULL_EVENTS = 153, /* a step that isn't due where the event ring is full */
    SEEN_BEGUN = 154,       /* a task */
    SEEN_NEXT_TURN = 155,  /* a context with Cycle bit 0 */
    SEEN_BAD = 156         /* a chunk that met a bad block */
};

static struct second_controller model_controller;
static uas_controller *controller;

/* The next call: what goes in, and, once the second implementation was asked, what comes out. */
static struct {
    struct uas_controller_door door;
    size_t length;
    uint8_t data[512 * (SECOND_BLOCKS + 2)];
} asked;

/* Whether now something is left undone, so that things fill up: with one handle in four by turns, with each other one thing in the
 * second half of its inputs. */
static bool leaves_undone(unsigned long which)
{
    unsigned long handle = input / CONTROLLER_INPUTS % 4;
    bool late = input % CONTROLLER_INPUTS >= CONTROLLER_INPUTS / 2;
    return !one_in(16) && (handle == 0 ? input / 1000 % 4 == which : handle == which && late);
}

static bool keeps_events(void)
{
    return leaves_undone(1);
}

static bool keeps_items(void)
{
    return leaves_undone(2);
}

static bool keeps_pipes_stopped(void)
{
    return leaves_undone(3);
}

static uint16_t draw_stream(void)
{
    static const uint16_t odd[] = { 0, 240, 241, 248, 249, 255, 256, 65535 };
    return one_in(16) ? odd[below(8)] : (uint16_t)(1 + below(5));
}

/* Bytes that tell their place. */
static void draw_data(size_t length)
{
    memset(asked.data, (int)below(256), length);
    for (size_t at = 0; at < length; at += 61)
        asked.data[at] = (uint8_t)drawn();
    asked.length = length;
}

/* The ring of a pipe with streams; a stopped one rather, where `stopped`. */
static uint8_t draw_pipe(bool stopped)
{
    uint8_t ring = (uint8_t)(UAS_RING_STATUS + below(3));
    for (int tries = 0; tries < 3 && model_controller.running[ring] == stopped; tries++)
        ring = (uint8_t)(UAS_RING_STATUS + below(3));
    return ring;
}

/* What stands behind a tag, of any number: that of tag 0, which nothing uses, of one without buffers. */
static uint16_t with_buffers(uint16_t tag)
{
    return tag <= SECOND_STREAMS ? tag : 0;
}

/* ---- What is put on rings ---- */

/* As many bytes as a step takes of a TRB on a ring. */
static uint32_t wanted_length(uint8_t ring, uint16_t tag)
{
    uint32_t chunk;
    if (ring == UAS_RING_COMMAND_PIPE)
        return model_controller.commands[with_buffers(tag)][0] == UAS_UNIT_TASK ? 16 : 32;
    if (ring == UAS_RING_STATUS)
        return one_in(4) ? below(113) : one_in(8) ? 16 : 112;
    second_wants(&model_controller.device, tag, &chunk);
    return chunk > 0 ? chunk : below(4097);
}

/* Where the buffer of a tag for a ring has so many bytes. */
static uint64_t wanted_pointer(uint8_t ring, uint16_t tag, uint32_t length)
{
    uint32_t lent = model_controller.lent_length[with_buffers(tag)];
    if (one_in(32))
        ring = (uint8_t)(UAS_RING_STATUS + below(4));
    if (ring == UAS_RING_COMMAND_PIPE)
        return 0x10000000 + 0x100 * (uint64_t)tag;
    if (ring == UAS_RING_STATUS)
        return 0x20000000 + 0x100 * (uint64_t)tag + (length < 112 ? below(113 - length) : 0);
    uint64_t window = 0x100000000 + 0x10000 * (uint64_t)tag;
    return lent < length ? window : window + (one_in(4) ? lent - length : below(lent - length + 1));
}

/* A Normal TRB that a step may carry out, or that is a little off. */
static void draw_normal(uint8_t ring, uint16_t tag, struct uas_trb *trb)
{
    static const uint8_t other_flags[] = { UAS_TRB_ISP, UAS_TRB_NS, UAS_TRB_CH, UAS_TRB_IOC, UAS_TRB_BEI };
    *trb = (struct uas_trb){ .type = UAS_TRB_NORMAL, .cycle = (uint8_t)below(2), .td_size = (uint8_t)below(32) };
    trb->length = wanted_length(ring, tag);
    trb->pointer = wanted_pointer(ring, tag, trb->length);
    if (ring == UAS_RING_COMMAND_PIPE && one_in(12)) {
        trb->length = below(48);
        trb->pointer += one_in(2) ? 0x10000000 : 0; /* the status buffer */
    }
    if (one_in(24))
        trb->length = trb->length == 0 || one_in(2) ? trb->length + 1 : trb->length - 1;
    if (one_in(48))
        trb->length = one_in(2) ? 0 : below(65537);
    if (one_in(32))
        trb->pointer += (uint64_t)below(3) - 1;
    if (one_in(64))
        trb->pointer ^= (uint64_t)1 << below(64);
    for (uint32_t times = below(4); times > 0; times--)
        trb->flags |= other_flags[below(5)];
    if (one_in(32))
        trb->flags |= one_in(2) ? UAS_TRB_ENT : UAS_TRB_IDT;
}

/* A command of the controller's own ring. */
static void draw_command(struct uas_trb *trb)
{
    static const uint16_t odd[] = { 0, 248, 249, 255, 256, 65535 };
    uint8_t ring = draw_pipe(one_in(2));
    bool stop = one_in(8) ? one_in(2) : model_controller.running[ring];
    *trb = (struct uas_trb){ .type = stop ? UAS_TRB_STOP_ENDPOINT : UAS_TRB_SET_DEQUEUE, .slot = 1, .endpoint = second_endpoint(ring) };
    trb->stream = one_in(6) ? odd[below(6)] : (uint16_t)(1 + below(5));
    const struct second_line *line = second_line_of(&model_controller, ring, trb->stream);
    if (line != NULL) {
        uint64_t item = line->taken + (one_in(3) ? below((uint32_t)(line->put - line->taken) + 1) : line->put - line->taken);
        if (one_in(8))
            item = line->freed + below(line->turn);
        trb->pointer = second_address(line, item);
        trb->dequeue_cycle = second_cycle(line, item) ^ one_in(12);
    }
    if (one_in(16))
        trb->pointer += 16 * (uint64_t)below(24) - 32;
    if (one_in(24))
        trb->endpoint = (uint8_t)below(8);
    if (one_in(32))
        trb->slot = (uint8_t)drawn();
}

/* 16 bytes for a ring. */
static void draw_item(uint8_t ring, uint16_t tag)
{
    struct uas_trb trb;
    draw_bytes(asked.data, 16);
    asked.length = 16;
    if (one_in(32)) {
        if (one_in(2))
            memset(asked.data, 0, 16);
        return;
    }
    if (one_in(24))
        draw_trb(&trb);
    else if (ring == UAS_RING_COMMANDS ? !one_in(16) : one_in(64))
        draw_command(&trb);
    else
        draw_normal(ring, tag, &trb);
    second_trb_encode(&trb, asked.data);
    if (one_in(64))
        spoil(asked.data, 16);
}

/* ---- Calls ---- */

/* A TRB for a tag's buffer on the command pipe, or on the ring of the tag's stream. */
static void ask_put(uint8_t ring, uint16_t tag)
{
    asked.door.call = UAS_CONTROLLER_CALL_PUT;
    asked.door.ring = ring;
    asked.door.stream = second_has_streams(ring) ? tag : 0;
    draw_item(ring, tag);
}

static void ask_step(uint8_t step, uint16_t tag)
{
    asked.door.call = UAS_CONTROLLER_CALL_STEP;
    asked.door.step = step;
    asked.door.tag = tag;
}

static void ask_doorbell(uint8_t ring, uint16_t stream)
{
    asked.door.call = UAS_CONTROLLER_CALL_DOORBELL;
    asked.door.value = second_endpoint(ring) | (uint32_t)stream << 16;
    if (one_in(32))
        asked.door.value ^= 1u << below(32);
    else if (one_in(32))
        asked.door.value = (uint32_t)drawn();
}

/* A READ or a WRITE that moves blocks. */
static void draw_moving(uint16_t tag)
{
    static const uint8_t moving[] = { UAS_READ_10, UAS_READ_16, UAS_WRITE_10, UAS_WRITE_16 };
    struct uas_unit unit = { .id = UAS_UNIT_COMMAND, .tag = tag, .lun = { 0, (uint8_t)below(SECOND_UNITS) } };
    struct uas_operation operation = { .opcode = moving[below(4)], .fua = (uint8_t)below(2) };
    uint32_t blocks = model_controller.device.blocks[unit.lun[1]];
    operation.lba = below(blocks);
    operation.count = blocks - (uint32_t)operation.lba;
    operation.count = 1 + below(operation.count < 20 ? operation.count : 20);
    second_cdb_write(&operation, unit.cdb);
    second_unit_write(&unit, asked.data, 32, &asked.length);
}

static void ask_write(uint16_t tag)
{
    asked.door.call = UAS_CONTROLLER_CALL_WRITE;
    asked.door.address = (one_in(8) ? 0x20000000 : 0x10000000) + 0x100 * (uint64_t)tag;
    if (one_in(2))
        draw_moving(tag);
    else
        asked.length = draw_received(one_in(16) ? draw_tag() : tag, model_controller.device.blocks, asked.data);
}

static void ask_lend(uint16_t tag)
{
    asked.door.call = UAS_CONTROLLER_CALL_LEND;
    asked.door.tag = tag;
    draw_data(one_in(32) ? 65530 + below(12) : one_in(16) ? below(20) : one_in(2) ? 512 * (size_t)below(129) : 4096 + below(8192));
}

static void ask_take_back(uint16_t tag)
{
    asked.door.call = UAS_CONTROLLER_CALL_TAKE_BACK;
    asked.door.tag = tag;
    uint32_t lent = model_controller.lent_length[with_buffers(tag)];
    draw_data(one_in(8) ? below(UAS_MOST_DATA_BYTES + 64) : one_in(8) && lent > 0 ? lent - 1 : lent + (one_in(4) ? below(64) : 0));
}

/* A ring, mostly one from which something was taken that wasn't given back; NULL where there is none. */
static const struct second_line *draw_line(void)
{
    const struct second_line *line = NULL;
    for (int tries = 0; tries < 8 && (line == NULL || line->freed == line->taken); tries++) {
        asked.door.ring = one_in(64) ? (uint8_t)below(8) : (uint8_t)(1 + below(5));
        asked.door.stream = second_has_streams(asked.door.ring) || one_in(64) ? draw_stream() : 0;
        line = second_line_of(&model_controller, asked.door.ring, asked.door.stream);
        if (one_in(16))
            break;
    }
    return line;
}

/* What is taken off a ring goes back to it, up to some item. */
static void ask_reclaim(void)
{
    asked.door.call = UAS_CONTROLLER_CALL_RECLAIM;
    const struct second_line *line = draw_line();
    if (line == NULL)
        return;
    uint64_t taken = line->taken - line->freed, item = line->freed + (taken > 0 ? taken - 1 : 0);
    if (taken > 0 && one_in(2))
        item = line->freed + below((uint32_t)taken);
    if (one_in(16))
        item = line->freed + below(line->turn);
    asked.door.address = second_address(line, item);
    if (one_in(32))
        asked.door.address += 16 * (uint64_t)below(24) - 32;
    if (one_in(64))
        asked.door.address ^= (uint64_t)1 << below(64);
}

/* Memory that a tag has, or that it hasn't. */
static void ask_memory(uint16_t tag)
{
    static const uint8_t rings[] = { UAS_RING_COMMAND_PIPE, UAS_RING_STATUS, UAS_RING_DATA_IN };
    uint32_t which = below(3), lent = model_controller.lent_length[with_buffers(tag)];
    uint32_t most = which == 0 ? 32 : which == 1 ? 112 : lent;
    uint32_t length = one_in(2) ? most : below(most + 1);
    asked.door.call = one_in(4) ? UAS_CONTROLLER_CALL_WRITE : UAS_CONTROLLER_CALL_READ;
    asked.door.address = wanted_pointer(rings[which], tag, length);
    if (one_in(8))
        asked.door.address += (uint64_t)below(3) - 1;
    if (one_in(16))
        asked.door.address ^= (uint64_t)1 << below(64);
    draw_data(one_in(16) ? (one_in(2) ? 0 : length + 1) : length);
}

static void ask_context(uint16_t stream)
{
    asked.door.call = UAS_CONTROLLER_CALL_CONTEXT;
    asked.door.ring = one_in(16) ? (uint8_t)below(8) : (uint8_t)(UAS_RING_STATUS + below(3));
    asked.door.stream = stream;
    draw_data(one_in(32) ? below(33) : 16);
}

static void ask_copy(void)
{
    asked.door.call = one_in(2) ? UAS_CONTROLLER_CALL_BLOCKS : UAS_CONTROLLER_CALL_MEDIUM;
    asked.door.unit = one_in(16) ? (uint16_t)drawn() : (uint16_t)below(SECOND_UNITS);
    asked.door.lba = one_in(16) ? (uint32_t)drawn() : below(one_in(2) ? SECOND_BLOCKS + 2 : 4);
    draw_data(one_in(16) ? below(2000) : 512 * (size_t)below(one_in(8) ? SECOND_BLOCKS + 2 : 12));
}

/* A TRB for a tag's stream, its doorbell, its step: what is wanted first. */
static void ask_stream(uint8_t ring, uint16_t tag)
{
    const struct second_line *line = second_line_of(&model_controller, ring, tag);
    if (line == NULL || line->taken == line->put || one_in(8))
        ask_put(ring, tag);
    else if (!model_controller.running[ring] || !model_controller.rung[ring][tag])
        ask_doorbell(ring, tag);
    else
        ask_step(ring == UAS_RING_STATUS ? UAS_STEP_STATUS : UAS_STEP_DATA, tag);
}

/* What brings a tag further. */
static void ask_further(uint16_t tag)
{
    uint32_t chunk;
    uint8_t phase = second_wants(&model_controller.device, tag, &chunk);
    uint16_t held = with_buffers(tag);
    bool fits = model_controller.lent[held] && model_controller.lent_length[held] >= chunk;
    if (phase == UAS_ENDS)
        ask_stream(UAS_RING_STATUS, tag);
    else if (phase != UAS_ABSENT && (fits || one_in(8)))
        ask_stream(phase == UAS_GIVES ? UAS_RING_DATA_IN : UAS_RING_DATA_OUT, tag);
    else if (phase != UAS_ABSENT && model_controller.lent[held])
        ask_take_back(tag);
    else if (phase != UAS_ABSENT)
        ask_lend(tag);
    else if (one_in(3))
        ask_write(tag);
    else if (model_controller.pipe.taken == model_controller.pipe.put || one_in(3))
        ask_put(UAS_RING_COMMAND_PIPE, tag);
    else
        ask_step(UAS_STEP_COMMAND, tag);
}

/* Any call, whatever it is good for. */
static void ask_any(uint16_t tag)
{
    switch (below(12)) {
    case 0:
        ask_put((uint8_t)(one_in(8) ? drawn() : 1 + below(5)), tag);
        if (one_in(8))
            asked.door.stream = tag;
        if (one_in(8))
            asked.length = 15 + below(3);
        break;
    case 1:
        ask_step((uint8_t)(one_in(8) ? drawn() : 1 + below(6)), tag);
        break;
    case 2:
        ask_doorbell((uint8_t)(UAS_RING_STATUS + below(4)), tag);
        break;
    case 3:
        ask_lend(tag);
        break;
    case 4:
        ask_take_back(tag);
        break;
    case 5:
        asked.door.call = (uint8_t)(one_in(2) ? drawn() : 0);
        draw_data(below(64));
        break;
    case 6:
    case 7:
        ask_context(tag);
        break;
    case 8:
    case 9:
        ask_copy();
        break;
    default:
        ask_memory(tag);
    }
}

static void ask_something(void)
{
    uint16_t tag = draw_stream();
    uint32_t which = below(100);
    draw_bytes((uint8_t *)&asked.door, sizeof asked.door);
    asked.length = 0;
    if (which < 17 && !keeps_events())
        asked.door.call = UAS_CONTROLLER_CALL_EVENT;
    else if (which < 32 && !keeps_items())
        ask_reclaim();
    else if (which < 36)
        ask_put(UAS_RING_COMMANDS, tag);
    else if (which < 40)
        ask_step(UAS_STEP_ENGINE, tag);
    else if (which < 55)
        ask_any(tag);
    else
        ask_further(tag);
    if (asked.door.call == UAS_CONTROLLER_CALL_DOORBELL && keeps_pipes_stopped())
        asked.door.value &= 0xffff;
    if (asked.length == 0 && one_in(64))
        draw_data(below(64));
}

/* ---- Both ---- */

/* What the streams' rings have taken in all. */
static uint64_t items_taken(void)
{
    uint64_t taken = 0;
    for (uint8_t ring = UAS_RING_STATUS; ring <= UAS_RING_DATA_OUT; ring++)
        for (uint32_t stream = 1; stream <= SECOND_STREAMS; stream++)
            taken += model_controller.streams[ring][stream].taken;
    return taken;
}

/* Asks the second implementation for a step, and counts what comes of it. */
static uint8_t wanted_step(void)
{
    uint16_t tag = asked.door.tag;
    struct second_task none = { .phase = UAS_ABSENT };
    const struct second_task *task = tag >= 1 && tag <= UAS_GREATEST_TAG ? &model_controller.device.tasks[tag] : &none;
    uint8_t step = asked.door.step, phase = task->phase;
    uint32_t done = task->done;
    uint64_t taken = step == UAS_STEP_ENGINE ? items_taken() : 0;
    uint8_t fault = second_controller_call(&model_controller, &asked.door, asked.data, asked.length);
    if (fault != 0)
        return fault;
    if (!asked.door.acted)
        seen[SEEN_FULL_EVENTS] += model_controller.pending_events == SECOND_EVENTS;
    else if (step == UAS_STEP_COMMAND)
        seen[SEEN_BEGUN] += asked.door.tag != 0;
    else if (step == UAS_STEP_DATA && task->done != done)
        seen[phase == UAS_GIVES ? SEEN_GIVEN : SEEN_TAKEN]++;
    else if (step == UAS_STEP_DATA && phase != UAS_ENDS && task->phase == UAS_ENDS)
        seen[SEEN_BAD]++;
    else if (step == UAS_STEP_STATUS && phase == UAS_ENDS && task->phase == UAS_ABSENT)
        seen[SEEN_GOOD] += task->answer.id == UAS_UNIT_SENSE && task->answer.status == UAS_GOOD;
    else if (step == UAS_STEP_ENGINE)
        seen[SEEN_MOVED] += items_taken() != taken;
    return 0;
}

static uint8_t wanted_of_controller(void)
{
    static const uint8_t codes[] = { 1, 13, 5, 19, 34 };
    if (asked.door.call == UAS_CONTROLLER_CALL_STEP)
        return wanted_step();
    uint8_t fault = second_controller_call(&model_controller, &asked.door, asked.data, asked.length);
    if (fault == 0 && asked.door.call == UAS_CONTROLLER_CALL_EVENT && asked.door.acted)
        for (int i = 0; i < 5; i++)
            seen[SEEN_SUCCESS + i] += asked.door.code == codes[i];
    if (fault == 0 && asked.door.call == UAS_CONTROLLER_CALL_CONTEXT)
        seen[SEEN_NEXT_TURN] += asked.data[0] % 2 == 0;
    return fault;
}

/* Makes the call that was asked for, of both. */
static void call_both(struct guarded memory, struct guarded out)
{
    struct uas_controller_door *door = (struct uas_controller_door *)(void *)at_end(out, sizeof *door);
    size_t length = asked.length;
    uint8_t *data = at_end(memory, length);
    *door = asked.door;
    memcpy(data, asked.data, length);
    uint8_t fault = saw(uas_controller_call(controller, door, data, length));
    AGREE(fault == wanted_of_controller());
    AGREE(memcmp(door, &asked.door, sizeof *door) == 0);
    AGREE(memcmp(data, asked.data, length) == 0);
}

/* Asks for what a handle has of a tag: contexts, buffers. */
static void ask_all_of(uint16_t tag, struct guarded memory, struct guarded out)
{
    static const uint64_t buffers[] = { 0x10000000, 0x20000000 };
    for (uint8_t ring = UAS_RING_STATUS; ring <= UAS_RING_DATA_OUT; ring++) {
        asked.door = (struct uas_controller_door){ .call = UAS_CONTROLLER_CALL_CONTEXT, .ring = ring, .stream = tag };
        draw_data(16);
        call_both(memory, out);
    }
    for (int i = 0; i < 2; i++) {
        asked.door = (struct uas_controller_door){ .call = UAS_CONTROLLER_CALL_READ, .address = buffers[i] + 0x100 * (uint64_t)tag };
        draw_data(i == 0 ? 32 : 112);
        call_both(memory, out);
    }
    asked.door = (struct uas_controller_door){ .call = UAS_CONTROLLER_CALL_TAKE_BACK, .tag = tag };
    draw_data(model_controller.lent_length[tag]);
    call_both(memory, out);
}

/* Asks for everything that a handle has: that, events, blocks. */
static void ask_all(struct guarded memory, struct guarded out)
{
    for (uint16_t tag = 1; tag <= SECOND_STREAMS; tag++)
        ask_all_of(tag, memory, out);
    for (asked.door.acted = 1; asked.door.acted == 1 && failed < 20; call_both(memory, out)) {
        asked.door.call = UAS_CONTROLLER_CALL_EVENT;
        asked.length = 0;
    }
    for (uint16_t unit = 0; unit < SECOND_UNITS; unit++)
        for (uint8_t call = UAS_CONTROLLER_CALL_BLOCKS; call <= UAS_CONTROLLER_CALL_MEDIUM; call++) {
            asked.door = (struct uas_controller_door){ .call = call, .unit = unit };
            draw_data(512 * (size_t)model_controller.device.blocks[unit]);
            call_both(memory, out);
        }
}

static void renew_controller(void)
{
    static const uint32_t sizes[] = { 1, 9, 17, SECOND_BLOCKS, SECOND_BLOCKS };
    if (controller != NULL)
        uas_controller_free(controller);
    struct second_units given = draw_units(sizes, 5);
    second_controller_open(&model_controller, &given);
    bool plain = given.length == 0 && given.bads == 0;
    if ((plain ? uas_controller_new(given.blocks, SECOND_UNITS, &controller) : open_controller(&given, &controller)) != 0) {
        fprintf(stderr, "no controller\n");
        exit(2);
    }
}

static void fuzz_controller(struct guarded memory, struct guarded out)
{
    if (controller == NULL || input % CONTROLLER_INPUTS == 0)
        renew_controller();
    ask_something();
    call_both(memory, out);
    if (input % CONTROLLER_INPUTS == CONTROLLER_INPUTS - 1)
        ask_all(memory, out);
}

/* ---- The driver ----
 *
 * A driver and a controller, joined by copying bytes, are a bus. Each act is done of both and of a bus, and both answer alike. What is
 * copied: items by address, then the doorbells that were told; buffers as a command begins, and after each step that writes them.
 * What an event frees at the driver's side is given back on the controller's rings too. */

enum {
    HALVES_INPUTS = 20000, /* of one pair */
    HALVES_TAGS = UAS_CLIENT_TAGS * CLIENTS,
    /* What is counted beside the faults. */
    SEEN_REPLY = 160,   /* and the kind of reply: 161 to 163 */
    SEEN_EVENT = 164,   /* and what an event was: 164 to 166 */
    SEEN_RETIRED = 167, /* a retirement that ended */
    SEEN_LINK = 168,    /* a ring that went round */
    SEEN_CHUNK = 169,   /* an event of a chunk that doesn't end its TD, by which the driver's context comes after */
    SEEN_HALVES_BAD = 170 /* a chunk that met a bad block */
};

static uas_driver *driver;
static uas_controller *beyond;
static uas_bus *whole;
static struct uas_driver_door told; /* what goes in; after a call, what came out */

/* How many items the rings got since the start; their places are the handles' own. */
static struct second_line got[4][HALVES_TAGS + 1], got_pipe, got_engine;

static struct second_line *line_got(uint8_t ring, uint16_t stream)
{
    return ring == UAS_RING_COMMAND_PIPE ? &got_pipe : ring == UAS_RING_COMMANDS ? &got_engine : &got[ring][stream];
}

static uint64_t window_of(uint16_t tag)
{
    return 0x100000000 + 0x10000 * (uint64_t)tag;
}

static void free_halves(void)
{
    if (driver == NULL)
        return;
    uas_driver_free(driver);
    uas_controller_free(beyond);
    uas_bus_free(whole);
}

static void renew_halves(void)
{
    static const uint32_t sizes[] = { 1, 8, 24, 200 };
    free_halves();
    struct second_units given = draw_units(sizes, 4);
    memcpy(bus_blocks, given.blocks, sizeof bus_blocks);
    second_bus_open(&model_bus, &given);
    memset(got, 0, sizeof got);
    for (uint8_t ring = UAS_RING_STATUS; ring <= UAS_RING_DATA_OUT; ring++)
        for (uint32_t tag = 1; tag <= HALVES_TAGS; tag++)
            second_line_open(&got[ring][tag], 0x41000000 + 0x1000000 * (uint64_t)ring + 0x1000 * tag, SECOND_STREAM_TURN, NULL);
    got_pipe = (struct second_line){ .base = 0x41000000, .turn = SECOND_PIPE_TURN };
    got_engine = (struct second_line){ .base = 0x50000000, .turn = SECOND_ENGINE_TURN };
    uint8_t fault = uas_driver_new(CLIENTS, &driver);
    fault |= open_controller(&given, &beyond);
    fault |= open_bus(&given, &whole);
    if (fault != 0) {
        fprintf(stderr, "no driver, controller or bus\n");
        exit(2);
    }
}

/* Fills `told` with anything, and the number of a call. */
static void draw_driver_door(uint8_t call)
{
    draw_bytes((uint8_t *)&told, sizeof told);
    told.call = call;
}

/* Writes into `wanted` what the call has to have told by `told`, and nothing else. */
static void expect_told(struct uas_driver_door *wanted)
{
    if (wanted->call <= UAS_DRIVER_CALL_RETIRE || wanted->call == UAS_DRIVER_CALL_EVENT) {
        wanted->doorbells = told.doorbells;
        if (AGREE(told.doorbells <= 256))
            memcpy(wanted->doorbell, told.doorbell, told.doorbells * sizeof told.doorbell[0]);
    }
    if (wanted->call >= UAS_DRIVER_CALL_RETIRE && wanted->call <= UAS_DRIVER_CALL_REPLY)
        wanted->acted = told.acted;
    if (wanted->call == UAS_DRIVER_CALL_LEFT_OVER || (wanted->call == UAS_DRIVER_CALL_EVENT && told.acted == UAS_EVENT_MATCHED))
        wanted->tag = told.tag;
    if (wanted->call != UAS_DRIVER_CALL_REPLY || told.acted != 1)
        return;
    wanted->ticket = told.ticket;
    wanted->length = told.length;
    wanted->tag = told.tag;
    wanted->reply = told.reply;
    wanted->status = told.status;
    wanted->sense_length = told.sense_length;
    wanted->moved = told.moved;
    if (AGREE(told.sense_length <= 96))
        memcpy(wanted->sense, told.sense, sizeof told.sense);
}

/* Makes the call in `told`, which then is what came of it; what the call hasn't to write is as it was. */
static uint8_t call_driver(struct guarded out, uint8_t *data, size_t length)
{
    struct uas_driver_door *door = (struct uas_driver_door *)(void *)at_end(out, sizeof *door), wanted = told;
    *door = told;
    uint8_t fault = saw(uas_driver_call(driver, door, data, length));
    told = *door;
    if (fault == 0)
        expect_told(&wanted);
    AGREE(memcmp(&told, &wanted, sizeof wanted) == 0);
    return fault;
}

/* ---- What is copied between them ---- */

/* The place behind a ring's last is the Link's, which stands where the item before it does. */
static void link_stands(const struct second_line *line)
{
    struct uas_trb link;
    uint8_t bytes[16];
    if (!AGREE(uas_driver_item(driver, line->base + 16 * (uint64_t)line->turn, bytes) == 0))
        return;
    AGREE(uas_trb_decode(bytes, &link) == 0 && link.type == UAS_TRB_LINK);
    AGREE(link.pointer == line->base && link.toggle == 1 && link.cycle == second_cycle(line, line->put - 1));
    seen[SEEN_LINK]++;
}

/* Puts what a ring has got on the controller's, at the same addresses: these TRBs, and no others. */
static void bring_items(uint8_t ring, uint16_t stream, const struct uas_trb *wanted, uint32_t count)
{
    struct second_line *line = line_got(ring, stream);
    struct uas_trb trb;
    uint8_t bytes[16];
    uint32_t brought = 0;
    for (; uas_driver_item(driver, second_address(line, line->put), bytes) == 0; brought++) {
        uint64_t address = 0;
        AGREE(uas_controller_put_raw(beyond, ring, stream, bytes, &address) == 0);
        if (!AGREE(brought < count && address == second_address(line, line->put)))
            return;
        AGREE(uas_trb_decode(bytes, &trb) == 0 && trb.cycle == second_cycle(line, line->put));
        trb.cycle = 0;
        AGREE(memcmp(&trb, &wanted[brought], sizeof trb) == 0);
        line->put++;
        if (line->put % line->turn == 0)
            link_stands(line);
    }
    AGREE(brought == count);
}

static void bring_normal(uint8_t ring, uint16_t stream, uint64_t pointer, uint32_t length, uint8_t flags)
{
    const struct uas_trb wanted = { .type = UAS_TRB_NORMAL, .pointer = pointer, .length = length, .flags = flags };
    bring_items(ring, stream, &wanted, 1);
}

/* The data TD of a command: TRBs of 4,096 bytes, and how many packets of 1,024 come behind each. */
static void bring_data_td(uint8_t pipe, uint16_t tag, uint32_t length)
{
    struct uas_trb wanted[16];
    uint32_t count = 0;
    for (uint32_t at = 0; at < length; at += 4096, count++) {
        uint32_t left = length - at, packets = left > 4096 ? (left - 4096 + 1023) / 1024 : 0;
        wanted[count] = (struct uas_trb){ .type = UAS_TRB_NORMAL, .pointer = window_of(tag) + at };
        wanted[count].length = left < 4096 ? left : 4096;
        wanted[count].td_size = (uint8_t)(packets < 31 ? packets : 31);
        wanted[count].flags = left > 4096 ? UAS_TRB_CH : UAS_TRB_IOC;
    }
    bring_items(pipe, tag, wanted, count);
}

/* A command of a retirement. */
static void bring_engine_command(uint8_t type, uint8_t pipe, uint16_t tag)
{
    const struct second_line *line = line_got(pipe, tag);
    struct uas_trb wanted = { .type = type, .endpoint = second_endpoint(pipe), .slot = 1 };
    if (type == UAS_TRB_SET_DEQUEUE) {
        wanted.stream = tag;
        wanted.pointer = second_address(line, line->put);
        wanted.dequeue_cycle = second_cycle(line, line->put);
    }
    bring_items(UAS_RING_COMMANDS, 0, &wanted, 1);
}

/* Writes the doorbells that were told. */
static void bring_doorbells(void)
{
    for (uint16_t i = 0; i < told.doorbells && i < 256; i++)
        AGREE(uas_controller_doorbell(beyond, told.doorbell[i]) == 0);
}

/* Copies `length` bytes at an address from the controller to the driver. */
static void bring_back(uint64_t address, size_t length)
{
    static uint8_t bytes[UAS_MOST_DATA_BYTES];
    AGREE(uas_controller_read(beyond, address, bytes, length) == 0);
    AGREE(uas_driver_write(driver, address, bytes, length) == 0);
}

/* Whether these doorbells were told: of a submission those of its data, its status and its command, but of no pipe under retirement. */
static bool told_submission(uint8_t data_pipe, uint16_t tag)
{
    uint32_t wanted[3], count = 0;
    if (data_pipe != 0 && model_bus.retiring != data_pipe)
        wanted[count++] = (data_pipe == UAS_PIPE_DATA_IN ? 5u : 4u) | (uint32_t)tag << 16;
    if (model_bus.retiring != UAS_PIPE_STATUS)
        wanted[count++] = 3 | (uint32_t)tag << 16;
    wanted[count++] = 2;
    return told.doorbells == count && memcmp(told.doorbell, wanted, count * sizeof wanted[0]) == 0;
}

/* A unit, its TDs and its doorbells, once the driver took it. */
static void bring_unit(uint16_t tag, uint8_t data_pipe, uint32_t data_length)
{
    uint64_t buffer = 0x10000000 + 0x100 * (uint64_t)tag;
    uint32_t unit_length = model_bus.entries[tag].is_task ? 16 : 32;
    uint8_t unit[32], wanted[32];
    size_t length;
    AGREE(told_submission(data_pipe, tag));
    AGREE(uas_driver_read(driver, buffer, unit, sizeof unit) == 0);
    AGREE(second_unit_write(&model_bus.entries[tag].unit, wanted, sizeof wanted, &length) == 0 && memcmp(unit, wanted, length) == 0);
    AGREE(uas_controller_write(beyond, buffer, unit, sizeof unit) == 0);
    if (data_pipe != 0)
        bring_data_td(data_pipe, tag, data_length);
    bring_normal(UAS_RING_STATUS, tag, 0x20000000 + 0x100 * (uint64_t)tag, UAS_MOST_UNIT_BYTES, UAS_TRB_ISP | UAS_TRB_IOC);
    bring_normal(UAS_RING_COMMAND_PIPE, 0, buffer, unit_length, UAS_TRB_IOC);
    bring_doorbells();
}

/* The data of a command, lent to the controller. */
static void bring_data(uint16_t tag, const uint8_t *data, size_t length)
{
    static uint8_t bytes[UAS_MOST_DATA_BYTES];
    if (length == 0)
        return;
    AGREE(uas_driver_read(driver, window_of(tag), bytes, length) == 0);
    AGREE(memcmp(bytes, data, length) == 0);
    AGREE(uas_controller_lend(beyond, tag, bytes, length) == 0);
}

/* ---- Acts ---- */

/* The fault of the driver's for a submission: it has no room where a command is under the tag, whoever's, and asks for that first. */
static uint8_t driver_submission_fault(const struct submission *made)
{
    uint8_t wanted = submission_fault(made);
    bool there = made->tag >= 1 && made->tag <= HALVES_TAGS && made->tag % UAS_CLIENT_TAGS != 0;
    bool held = there && model_bus.entries[made->tag].used;
    return held && wanted != UAS_CLIENT_TICKET && wanted != UAS_CLIENT_OPERATION ? UAS_DRIVER_ROOM : wanted;
}

static void halves_submit(struct guarded memory, struct guarded out)
{
    static uint8_t kept[MOST_DATA];
    struct submission made = draw_submission(memory, kept);
    uint8_t wanted = submission_fault(&made), data_pipe = 0;
    draw_driver_door(UAS_DRIVER_CALL_SUBMIT);
    told.client = made.client;
    told.tag = made.tag;
    told.ticket = made.ticket;
    told.operation = made.operation;
    AGREE(submitted(whole, &made) == wanted);
    AGREE(call_driver(out, made.data, made.length) == driver_submission_fault(&made));
    AGREE(memcmp(made.data, kept, made.length) == 0);
    if (wanted != 0)
        return;
    second_submit(&model_bus, made.tag, made.ticket, &made.operation, made.data, made.length);
    if (made.length > 0)
        data_pipe = second_is_write(made.operation.opcode) ? UAS_PIPE_DATA_OUT : UAS_PIPE_DATA_IN;
    bring_data(made.tag, made.data, made.length);
    bring_unit(made.tag, data_pipe, (uint32_t)made.length);
}

static void halves_task(struct guarded out)
{
    struct management made = draw_management();
    uint8_t wanted = management_fault(&made);
    draw_driver_door(UAS_DRIVER_CALL_TASK);
    told.client = made.client;
    told.tag = made.tag;
    told.ticket = made.ticket;
    told.function = made.function;
    AGREE(uas_bus_task(whole, made.client, made.ticket, made.function, made.tag) == wanted);
    AGREE(call_driver(out, no_data, 0) == wanted);
    if (wanted != 0)
        return;
    second_task(&model_bus, (int)made.client, made.ticket, made.function, made.tag);
    bring_unit((uint16_t)(UAS_CLIENT_TAGS * (made.client + 1)), 0, 0);
}

/* Hands an event in, as the controller told it but for its code: what it was. */
static uint8_t hand_in(struct guarded out, const struct uas_controller_door *event, uint8_t code)
{
    draw_driver_door(UAS_DRIVER_CALL_EVENT);
    told.address = event->address;
    told.length = event->value;
    told.type = event->type;
    told.code = code;
    told.endpoint = event->endpoint;
    told.slot = event->slot;
    if (!AGREE(call_driver(out, no_data, 0) == 0) || !AGREE(told.acted <= UAS_EVENT_NOTED))
        return UAS_EVENT_STRAY;
    if (told.acted != UAS_EVENT_NOTED)
        seen[SEEN_EVENT + told.acted]++;
    return told.acted;
}

/* Whether an event is stray, and tells no doorbell. */
static bool is_stray(struct guarded out, const struct uas_controller_door *event, uint8_t code)
{
    return hand_in(out, event, code) == UAS_EVENT_STRAY && told.doorbells == 0;
}

/* The address of the item before the one that a stream's context names at the controller's side. */
static uint64_t last_taken(uint8_t pipe, uint16_t tag)
{
    const struct second_line *line = line_got(pipe, tag);
    uint8_t bytes[16];
    AGREE(uas_controller_context(beyond, pipe, tag, bytes) == 0);
    uint64_t next = (little32(bytes) & ~(uint64_t)15);
    return next == line->base ? line->base + 16 * (uint64_t)(line->turn - 1) : next - 16;
}

/* After the chunk of a TD that has more, an event of it frees nothing, and is noted. */
static void bring_chunk_event(struct guarded out, uint16_t tag)
{
    const struct second_entry *entry = &model_bus.entries[tag];
    struct uas_controller_door event = { .type = UAS_TRB_TRANSFER_EVENT, .slot = 1 };
    uint8_t bytes[2][16];
    if (entry->moved == entry->length)
        return;
    event.address = last_taken(entry->data_pipe, tag);
    event.endpoint = entry->data_pipe == UAS_PIPE_DATA_IN ? UAS_ENDPOINT_DATA_IN : UAS_ENDPOINT_DATA_OUT;
    AGREE(hand_in(out, &event, 1) == UAS_EVENT_NOTED && told.doorbells == 0);
    AGREE(uas_driver_context(driver, entry->data_pipe, tag, bytes[0]) == 0);
    AGREE(uas_controller_context(beyond, entry->data_pipe, tag, bytes[1]) == 0);
    AGREE(memcmp(bytes[0], bytes[1], 16) == 0);
    seen[SEEN_CHUNK]++;
}

/* COMMAND, DATA, STATUS and ENGINE: steps of the controller. */
static void halves_step(struct guarded out, uint8_t step, uint16_t tag)
{
    bool acted = false, acted_beyond = false;
    uint16_t on = tag;
    int owner = -1;
    uint32_t moved = tag <= HALVES_TAGS ? model_bus.entries[tag].moved : 0;
    AGREE(uas_bus_step(whole, step, 0, tag, &acted, &owner) == 0);
    AGREE(owner == second_step(&model_bus, step, 0, tag));
    AGREE(uas_controller_step(beyond, step, &on, &acted_beyond) == 0);
    AGREE(acted_beyond == acted);
    if (!acted)
        return;
    if (step == UAS_STEP_COMMAND)
        AGREE(on != 0 && second_owner(on) == owner);
    else if (step == UAS_STEP_DATA) {
        bring_back(window_of(tag), model_bus.entries[tag].length);
        if (model_bus.entries[tag].moved == moved)
            seen[SEEN_HALVES_BAD]++;
        else if (one_in(3))
            bring_chunk_event(out, tag);
    } else if (step == UAS_STEP_STATUS)
        bring_back(0x20000000 + 0x100 * (uint64_t)tag, UAS_MOST_UNIT_BYTES);
}

/* Whether the doorbells of a pipe's streams that wait were told, by rising stream. */
static bool told_resumed(uint8_t pipe)
{
    uint32_t endpoint = pipe == UAS_PIPE_STATUS ? 3 : pipe == UAS_PIPE_DATA_OUT ? 4 : 5, count = 0;
    for (uint16_t tag = 1; tag <= HALVES_TAGS; tag++)
        if (second_has_trb(&model_bus, pipe, tag) && told.doorbell[count++] != (endpoint | (uint32_t)tag << 16))
            return false;
    return told.doorbells == count;
}

/* The ring that has a place at an address; *stream is 0 where it has none. */
static uint8_t ring_at(uint64_t address, uint16_t *stream)
{
    *stream = 0;
    if (address >= 0x50000000)
        return UAS_RING_COMMANDS;
    if (address < 0x42000000)
        return UAS_RING_COMMAND_PIPE;
    *stream = (uint16_t)((address & 0xffffff) >> 12);
    return (uint8_t)((address >> 24) - 0x41);
}

/* Gives back on the controller's rings what the driver gave back on its own. */
static void give_back(uint64_t address, uint8_t retired_pipe, uint16_t retired_tag)
{
    uint16_t stream;
    uint8_t ring = ring_at(address, &stream);
    AGREE(uas_controller_reclaim(beyond, ring, stream, address) == 0);
    if (retired_pipe == 0)
        return;
    AGREE(uas_controller_reclaim(beyond, retired_pipe, retired_tag, last_taken(retired_pipe, retired_tag)) == 0);
    seen[SEEN_RETIRED]++;
}

static void halves_event(struct guarded out)
{
    struct uas_controller_door event = { .acted = 0 };
    uint8_t pipe = model_bus.retiring;
    uint16_t tag = model_bus.retired_tag;
    bool acted = false;
    int owner = -1;
    AGREE(uas_bus_step(whole, UAS_STEP_EVENT, 0, 0, &acted, &owner) == 0);
    AGREE(owner == second_step(&model_bus, UAS_STEP_EVENT, 0, 0));
    AGREE(uas_controller_event(beyond, &event) == 0);
    if (!AGREE(event.acted == acted) || !acted)
        return;
    bool transfer = event.type == UAS_TRB_TRANSFER_EVENT;
    if (transfer && one_in(8))
        AGREE(is_stray(out, &event, (uint8_t)(one_in(2) ? 14 + below(2) : 20 + below(6))));
    AGREE(hand_in(out, &event, event.code) == (transfer ? UAS_EVENT_MATCHED : UAS_EVENT_ENGINE));
    bool ended = !transfer && model_bus.retiring == 0;
    if (transfer)
        AGREE(second_owner(told.tag) == owner && told.doorbells == 0);
    else
        AGREE(ended ? told_resumed(pipe) : told.doorbells == 1 && told.doorbell[0] == 0);
    if (transfer || ended)
        bring_items(UAS_RING_COMMANDS, 0, NULL, 0);
    else
        bring_engine_command(UAS_TRB_SET_DEQUEUE, pipe, tag);
    bring_doorbells();
    give_back(event.address, ended ? pipe : 0, tag);
    if (one_in(8))
        AGREE(is_stray(out, &event, event.code));
}

static void halves_retire(struct guarded out, uint8_t pipe, uint16_t tag)
{
    bool acted = false;
    int owner = -1;
    AGREE(uas_bus_step(whole, UAS_STEP_RETIRE, pipe, tag, &acted, &owner) == 0);
    AGREE(owner == second_step(&model_bus, UAS_STEP_RETIRE, pipe, tag));
    draw_driver_door(UAS_DRIVER_CALL_RETIRE);
    told.pipe = pipe;
    told.tag = tag;
    AGREE(call_driver(out, no_data, 0) == 0);
    AGREE(told.acted == acted && told.doorbells == acted);
    AGREE(!acted || told.doorbell[0] == 0);
    if (acted)
        bring_engine_command(UAS_TRB_STOP_ENDPOINT, pipe, tag);
    else
        bring_items(UAS_RING_COMMANDS, 0, NULL, 0);
    bring_doorbells();
}

/* What was lent for a tag comes back as the reply has it. */
static void end_loan(uint16_t tag, const uint8_t *data, uint32_t length)
{
    static uint8_t lent[UAS_MOST_DATA_BYTES];
    uint32_t lent_length = 0;
    uint8_t fault = uas_controller_take_back(beyond, tag, lent, sizeof lent, &lent_length);
    AGREE(fault == (length > 0 ? 0 : UAS_CONTROLLER_NOT_LENT) && lent_length == length);
    AGREE(memcmp(lent, data, length) == 0);
}

/* A client takes its next reply, from the bus and from the driver. */
static void halves_reply(struct guarded memory, struct guarded out)
{
    static uint8_t whole_data[UAS_MOST_DATA_BYTES], kept[UAS_MOST_DATA_BYTES + 64];
    uint32_t client = one_in(64) ? CLIENTS + below(3) : below(CLIENTS);
    struct uas_bus_door reply = { .acted = 0 };
    size_t room = UAS_MOST_DATA_BYTES + (one_in(4) ? below(64) : 0);
    uint8_t *data = at_end(memory, room);
    if (kept[0] == 0)
        memset(kept, 0xee, sizeof kept);
    memcpy(data, kept, room);
    AGREE(uas_bus_reply(whole, client, whole_data, sizeof whole_data, &reply) == 0);
    if (client < CLIENTS)
        wanted_reply(client, &reply, whole_data);
    draw_driver_door(UAS_DRIVER_CALL_REPLY);
    told.client = client;
    AGREE(call_driver(out, data, room) == 0);
    size_t length = reply.acted ? reply.length : 0;
    AGREE(memcmp(data, whole_data, length) == 0 && memcmp(data + length, kept, room - length) == 0);
    if (!AGREE(told.acted == reply.acted) || !reply.acted)
        return;
    AGREE(told.ticket == reply.ticket && told.tag == reply.tag && told.reply == reply.reply);
    AGREE(told.status == reply.status && told.length == reply.length && told.sense_length == reply.sense_length);
    AGREE(memcmp(told.sense, reply.sense, reply.sense_length) == 0);
    end_loan(reply.tag, data, reply.length);
    seen[SEEN_REPLY + (reply.reply & 3)]++;
}

/* ---- What both have ---- */

/* Whether no item of a stream was taken whose event the driver didn't get. */
static bool is_settled(uint8_t pipe, uint16_t tag)
{
    const struct second_entry *entry = &model_bus.entries[tag];
    bool moving = entry->used && entry->data_pipe == pipe && entry->moved > 0 && (entry->data == WAITS || entry->data == LEFT_OVER);
    return model_bus.events.count == 0 && (pipe == UAS_PIPE_STATUS || !moving);
}

static void contexts_agree(uint16_t tag)
{
    uint8_t bytes[2][16];
    for (uint8_t pipe = UAS_PIPE_STATUS; pipe <= UAS_PIPE_DATA_OUT; pipe++)
        if (is_settled(pipe, tag)) {
            AGREE(uas_driver_context(driver, pipe, tag, bytes[0]) == 0);
            AGREE(uas_controller_context(beyond, pipe, tag, bytes[1]) == 0);
            AGREE(memcmp(bytes[0], bytes[1], 16) == 0);
        }
}

static void halves_blocks_agree(void)
{
    static uint8_t data[2][SECOND_BLOCKS * 512];
    uint32_t client = below(CLIENTS), lba = below(bus_blocks[client] + 1);
    size_t length = 512 * (size_t)below(bus_blocks[client] - lba + 1);
    AGREE(uas_bus_blocks(whole, client, lba, data[0], length) == 0);
    AGREE(uas_controller_blocks(beyond, (uint16_t)client, lba, data[1], length) == 0);
    AGREE(memcmp(data[0], data[1], length) == 0);
    AGREE(uas_bus_medium(whole, client, lba, data[0], length) == 0);
    AGREE(uas_controller_medium(beyond, (uint16_t)client, lba, data[1], length) == 0);
    AGREE(memcmp(data[0], data[1], length) == 0);
}

/* The TDs that are left over, of one pipe, from some tag on. */
static void left_over_agree(struct guarded out)
{
    uint8_t pipe = (uint8_t)(UAS_PIPE_STATUS + below(3));
    uint16_t tag = one_in(4) ? draw_tag() : (uint16_t)below(HALVES_TAGS), next = tag == 65535 ? 65535 : tag + 1;
    while (next <= HALVES_TAGS && *second_td_of(&model_bus, pipe, next) != LEFT_OVER &&
           (model_bus.retiring != pipe || model_bus.retired_tag != next))
        next++;
    draw_driver_door(UAS_DRIVER_CALL_LEFT_OVER);
    told.pipe = pipe;
    told.tag = tag;
    AGREE(call_driver(out, no_data, 0) == 0);
    AGREE(told.acted == (next <= HALVES_TAGS) && told.tag == (next <= HALVES_TAGS ? next : tag));
}

/* ---- What is refused, or stray ---- */

/* A place of any ring, mostly the next one. */
static uint64_t draw_place(void)
{
    uint8_t ring = (uint8_t)(UAS_RING_STATUS + below(5));
    const struct second_line *line = line_got(ring, (uint16_t)(1 + below(HALVES_TAGS)));
    return second_address(line, line->put + (one_in(2) ? 0 : below(line->turn)));
}

/* An event of no item, or of the other type. */
static void halves_stray(struct guarded out)
{
    struct uas_controller_door event = { .value = below(1 << 24), .code = (uint8_t)(one_in(4) ? drawn() : one_in(2) ? 1 : 13) };
    event.type = one_in(2) ? UAS_TRB_TRANSFER_EVENT : UAS_TRB_COMMAND_EVENT;
    event.address = draw_place();
    uint16_t stream;
    uint8_t ring = ring_at(event.address, &stream);
    const struct second_line *line = line_got(ring, stream);
    switch (below(5)) {
    case 0:
        event.address = second_address(line, line->put);
        break;
    case 1:
        event.address = line->base + 16 * (uint64_t)line->turn;
        break;
    case 2:
        event.address += 1 + below(15);
        break;
    case 3:
        event.type = line == &got_engine ? UAS_TRB_TRANSFER_EVENT : UAS_TRB_COMMAND_EVENT;
        break;
    default:
        event.address = one_in(2) ? drawn() : event.address ^ (uint64_t)1 << (32 + below(32));
    }
    AGREE(is_stray(out, &event, event.code));
}

/* How many bytes of data a tag has. */
static uint32_t window_length(uint16_t tag)
{
    return tag <= HALVES_TAGS && model_bus.entries[tag].used ? model_bus.entries[tag].length : 0;
}

/* An address at which no item stands, or where so many bytes aren't in one buffer. */
static void draw_address(uint8_t call, size_t *length)
{
    uint16_t tag = (uint16_t)(1 + below(SECOND_STREAMS));
    *length = call == UAS_DRIVER_CALL_ITEM ? 16 : 1 + below(112);
    if (call == UAS_DRIVER_CALL_ITEM && one_in(2)) {
        uint8_t ring = (uint8_t)(UAS_RING_STATUS + below(5));
        const struct second_line *line = line_got(ring, (uint16_t)(1 + below(HALVES_TAGS)));
        told.address = second_address(line, line->put) + (one_in(2) ? 0 : 1 + below(15));
    } else if (call == UAS_DRIVER_CALL_ITEM || one_in(3))
        told.address = drawn() << 40;
    else if (one_in(3))
        told.address = 0x10000000 + 0x100 * (uint64_t)tag + 33 - *length;
    else if (one_in(2))
        told.address = 0x20000000 + 0x100 * (uint64_t)tag + 113 - *length;
    else
        told.address = window_of(tag) + window_length(tag) + 1 - *length;
}

/* A call that is none, or that names what isn't there; the fault that it is to be refused with. */
static uint8_t draw_refused(size_t *length)
{
    static const uint8_t with_pipe[] = { UAS_DRIVER_CALL_RETIRE, UAS_DRIVER_CALL_LEFT_OVER, UAS_DRIVER_CALL_CONTEXT };
    *length = 16;
    switch (below(7)) {
    case 0:
        told.call = one_in(2) ? 0 : (uint8_t)(15 + below(241));
        return UAS_CLIENT_CALL;
    case 1:
        told.call = UAS_DRIVER_CALL_REPLY;
        *length = one_in(2) ? UAS_MOST_DATA_BYTES - 1 : below(UAS_MOST_DATA_BYTES);
        return UAS_CLIENT_LENGTH;
    case 2:
        told.call = one_in(2) ? UAS_DRIVER_CALL_ITEM : UAS_DRIVER_CALL_CONTEXT;
        told.pipe = (uint8_t)(UAS_PIPE_STATUS + below(3));
        told.stream = (uint16_t)(1 + below(SECOND_STREAMS));
        *length = one_in(2) ? 15 : 17 + below(64);
        return UAS_CLIENT_LENGTH;
    case 3:
        told.call = with_pipe[below(3)];
        told.pipe = one_in(2) ? 0 : (uint8_t)(4 + below(252));
        told.stream = (uint16_t)(1 + below(SECOND_STREAMS));
        return UAS_DRIVER_RING;
    case 4:
        told.call = UAS_DRIVER_CALL_CONTEXT;
        told.pipe = (uint8_t)(UAS_PIPE_STATUS + below(3));
        told.stream = one_in(2) ? 0 : (uint16_t)(SECOND_STREAMS + 1 + below(65535 - SECOND_STREAMS));
        return UAS_DRIVER_RING;
    case 5:
        told.call = UAS_DRIVER_CALL_EVENT;
        while (told.type == UAS_TRB_TRANSFER_EVENT || told.type == UAS_TRB_COMMAND_EVENT)
            told.type = (uint8_t)drawn();
        return UAS_DRIVER_EVENT;
    default:
        told.call = one_in(3) ? UAS_DRIVER_CALL_ITEM : one_in(2) ? UAS_DRIVER_CALL_READ : UAS_DRIVER_CALL_WRITE;
        draw_address(told.call, length);
        return UAS_DRIVER_ADDRESS;
    }
}

static void halves_junk(struct guarded memory, struct guarded out)
{
    static uint8_t kept[UAS_MOST_DATA_BYTES];
    size_t length;
    draw_driver_door(0);
    uint8_t wanted = draw_refused(&length);
    uint8_t *data = at_end(memory, length);
    memset(kept, (int)below(256), length);
    memcpy(data, kept, length);
    AGREE(call_driver(out, data, length) == wanted);
    AGREE(memcmp(data, kept, length) == 0);
}

static void fuzz_driver(struct guarded memory, struct guarded out)
{
    static const uint8_t steps[] = { 1, 1, 2, 2, 2, 3, 3, 4, 5, 5, 5, 5, 6 };
    if (driver == NULL || input % HALVES_INPUTS == 0)
        renew_halves();
    uint32_t which = below(100);
    uint16_t tag = one_in(16) ? draw_tag() : busy_tag();
    uint8_t step = steps[below(13)];
    if (which < 12)
        halves_submit(memory, out);
    else if (which < 14)
        halves_task(out);
    else if (which < 26)
        halves_reply(memory, out);
    else if (which < 28)
        halves_junk(memory, out);
    else if (which < 30)
        halves_stray(out);
    else if (which < 31)
        left_over_agree(out);
    else if (which < 32)
        contexts_agree((uint16_t)(1 + below(HALVES_TAGS)));
    else if (one_in(64))
        halves_blocks_agree();
    else if (step == UAS_STEP_EVENT)
        halves_event(out);
    else if (step == UAS_STEP_RETIRE)
        halves_retire(out, (uint8_t)(UAS_PIPE_STATUS + below(3)), tag);
    else
        halves_step(out, step, tag);
}

/* ---- */

struct kind {
    const char *name;
    void (*fuzz)(struct guarded memory, struct guarded out);
    const uint16_t *must_come; /* faults and what else is counted, ended by END */
};

/* All but want of memory, and but what `new` and `open` answer, which come of their own kind. */
static const uint16_t of_trb[] = { UAS_OK, UAS_TRB_UNKNOWN_TYPE, UAS_TRB_LENGTH_OVER, UAS_TRB_RESERVED_SET, UAS_TRB_UNFIT, END };
static const uint16_t of_unit[] = { UAS_OK, UAS_UNIT_UNKNOWN_ID, UAS_UNIT_SHORT, UAS_UNIT_LONG, UAS_UNIT_RESERVED_SET, UAS_UNIT_LENGTH_FIELD,
                                    UAS_UNIT_UNFIT, UAS_UNIT_NO_ROOM, END };
static const uint16_t of_cdb[] = { UAS_OK, UAS_CDB_CHECK, UAS_CDB_UNKNOWN_OPCODE, UAS_CDB_UNFIT, END };
static const uint16_t of_place[] = { SEEN_PLACE, SEEN_NO_PLACE, END };
static const uint16_t of_open[] = { UAS_OK, UAS_UNITS, UAS_BLOCKS, UAS_IMAGE, UAS_BAD_BLOCK, END };
static const uint16_t of_device[] = { UAS_OK, UAS_DEVICE_CALL, UAS_DEVICE_OVERLAP, UAS_DEVICE_PHASE, UAS_DEVICE_LENGTH, UAS_DEVICE_UNIT,
                                      UAS_DEVICE_RANGE, SEEN_ENDED, SEEN_DEVICE_BAD, END };
static const uint16_t of_bus[] = { UAS_OK, UAS_CLIENT_NOT_YOURS, UAS_CLIENT_IN_USE, UAS_CLIENT_BAD_LENGTH, UAS_CLIENT_TOO_LONG, UAS_CLIENT_OUT_OF_TURN,
                                   UAS_CLIENT_NO_SUCH_TASK, UAS_CLIENT_CALL, UAS_CLIENT_OPERATION, UAS_CLIENT_TICKET, UAS_CLIENT_LENGTH,
                                   UAS_CLIENT_FUNCTION, UAS_BUS_STEP, UAS_BUS_CLIENT, UAS_BUS_RANGE, SEEN_BUS_REPLY + UAS_REPLY_STATUS,
                                   SEEN_BUS_REPLY + UAS_REPLY_ABORTED, SEEN_BUS_REPLY + UAS_REPLY_TASK, SEEN_BUS_BAD, END };
static const uint16_t of_controller[] = { UAS_OK, UAS_CONTROLLER_CALL, UAS_CONTROLLER_RING, UAS_CONTROLLER_FULL, UAS_CONTROLLER_STEP,
                                          UAS_CONTROLLER_ADDRESS, UAS_CONTROLLER_TAG, UAS_CONTROLLER_LENGTH, UAS_CONTROLLER_LENT,
                                          UAS_CONTROLLER_NOT_LENT, UAS_CONTROLLER_NOT_CONSUMED, UAS_CONTROLLER_UNIT, UAS_CONTROLLER_RANGE,
                                          SEEN_SUCCESS, SEEN_SHORT_PACKET, SEEN_TRB_ERROR, SEEN_CONTEXT_STATE, SEEN_INVALID_STREAM, SEEN_GOOD,
                                          SEEN_GIVEN, SEEN_TAKEN, SEEN_MOVED, SEEN_FULL_EVENTS, SEEN_BEGUN, SEEN_NEXT_TURN, SEEN_BAD, END };
static const uint16_t of_driver[] = { UAS_OK, UAS_CLIENT_NOT_YOURS, UAS_CLIENT_IN_USE, UAS_CLIENT_BAD_LENGTH, UAS_CLIENT_TOO_LONG,
                                      UAS_CLIENT_OUT_OF_TURN, UAS_CLIENT_NO_SUCH_TASK, UAS_CLIENT_CALL, UAS_CLIENT_OPERATION, UAS_CLIENT_TICKET,
                                      UAS_CLIENT_LENGTH, UAS_CLIENT_FUNCTION, UAS_DRIVER_ROOM, UAS_DRIVER_ADDRESS, UAS_DRIVER_RING,
                                      UAS_DRIVER_EVENT, SEEN_REPLY + UAS_REPLY_STATUS, SEEN_REPLY + UAS_REPLY_ABORTED, SEEN_REPLY + UAS_REPLY_TASK,
                                      SEEN_EVENT + UAS_EVENT_STRAY, SEEN_EVENT + UAS_EVENT_MATCHED, SEEN_EVENT + UAS_EVENT_ENGINE, SEEN_RETIRED,
                                      SEEN_LINK, SEEN_CHUNK, SEEN_HALVES_BAD, END };

static const struct kind kinds[] = {
    { "trb", fuzz_trb, of_trb },
    { "unit", fuzz_unit, of_unit },
    { "cdb", fuzz_cdb, of_cdb },
    { "place", fuzz_place, of_place },
    { "open", fuzz_open, of_open },
    { "device", fuzz_device, of_device },
    { "bus", fuzz_bus, of_bus },
    { "controller", fuzz_controller, of_controller },
    { "driver", fuzz_driver, of_driver },
};

static int usage(void)
{
    fprintf(stderr, "usage: fuzz trb|unit|cdb|place|open|device|bus|controller|driver COUNT SEED\n");
    return 2;
}

int main(int words, char **word)
{
    const struct kind *kind = NULL;
    if (words != 4)
        return usage();
    for (size_t i = 0; i < sizeof kinds / sizeof kinds[0]; i++)
        if (strcmp(word[1], kinds[i].name) == 0)
            kind = &kinds[i];
    if (kind == NULL)
        return usage();
    unsigned long count = strtoul(word[2], NULL, 10);
    state = strtoul(word[3], NULL, 10) * 0x9e3779b97f4a7c15 + 1;
    struct guarded memory = guard(512 * (SECOND_BLOCKS + 2)), out = guard(2048);
    for (input = 0; input < count && failed < 20; input++)
        kind->fuzz(memory, out);
    if (device != NULL)
        uas_device_free(device);
    free_buses();
    if (controller != NULL)
        uas_controller_free(controller);
    free_halves();
    printf("fuzz %s: %lu inputs, seed %s, %lu disagreements; faults", kind->name, input, word[3], failed);
    bool missed = false;
    for (int i = 0; i < NUMBERS; i++)
        if (seen[i] > 0)
            printf(" %d:%lu", i, seen[i]);
    for (const uint16_t *number = kind->must_come; count >= 100000 && *number != END; number++)
        if (seen[*number] == 0) {
            printf(" %u:never", *number);
            missed = true;
        }
    printf("\n");
    return failed > 0 || missed ? 1 : 0;
}
