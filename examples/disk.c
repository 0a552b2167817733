/* A disk backend in C: information units go in, data and information units come out. The loop is the same for every tag and every
 * transport.
 *
 *   cc -Iinclude examples/disk.c $(bindings/archive) -o disk && ./disk */
#include "uas.h"
#include <stdio.h>
#include <string.h>

enum { TAG = 18, LAST = 99 };

static void print(const char *name, const uint8_t *bytes, uint32_t length)
{
    printf("%s", name);
    for (uint32_t i = 0; i < length; i++)
        printf(" %02x", bytes[i]);
    printf("\n");
}

/* Answers one information unit: takes or gives chunks until the device has its answer, and prints that. */
static bool answer(uas_device *disk, const uint8_t *unit, size_t length, uint8_t *data)
{
    uint8_t bytes[UAS_MOST_UNIT_BYTES];
    uint32_t size;
    uint16_t tag;
    if (uas_device_receive(disk, unit, length, &tag) != 0)
        return false;
    for (;;) {
        uint8_t phase;
        bool good;
        if (uas_device_wants(disk, tag, &phase, &size) != 0)
            return false;
        if (phase == UAS_ENDS)
            break;
        if ((phase == UAS_GIVES ? uas_device_give(disk, tag, data, size, &good) : uas_device_take(disk, tag, data, size, &good)) != 0)
            return false;
        data += size;
    }
    if (uas_device_status(disk, tag, bytes, sizeof bytes, &size) != 0)
        return false;
    print("answer", bytes, size);
    return uas_device_sent(disk, tag) == 0;
}

/* Writes the Command information unit (INCITS 471) of an operation on logical unit 0. */
static bool command(const struct uas_operation *operation, uint8_t bytes[UAS_MOST_UNIT_BYTES], size_t *length)
{
    struct uas_unit unit = { .id = UAS_UNIT_COMMAND, .tag = TAG };
    return uas_cdb_write(operation, unit.cdb) == 0 && uas_unit_write(&unit, bytes, UAS_MOST_UNIT_BYTES, length) == 0;
}

int main(void)
{
    const uint32_t blocks = LAST + 1;
    const struct uas_operation write = { .opcode = UAS_WRITE_10, .lba = LAST, .count = 1 };
    const struct uas_operation read = { .opcode = UAS_READ_10, .lba = LAST, .count = 1 };
    const struct uas_operation beyond = { .opcode = UAS_READ_10, .lba = LAST, .count = 2 };
    uint8_t unit[UAS_MOST_UNIT_BYTES], data[2 * UAS_BLOCK_BYTES];
    size_t length;
    uas_device *disk;
    if (uas_device_new(&blocks, 1, &disk) != 0)
        return 1;

    memset(data, 0xaa, UAS_BLOCK_BYTES);
    if (!command(&write, unit, &length) || !answer(disk, unit, length, data))
        return 1;
    memset(data, 0, sizeof data);
    if (!command(&read, unit, &length) || !answer(disk, unit, length, data))
        return 1;
    print("block", data, 4);
    if (!command(&beyond, unit, &length) || !answer(disk, unit, length, data))
        return 1;
    uas_device_free(disk);
}
