/* What the maker of a virtual machine does with uas_xhci.h: memory that is reached by a reader and a writer alone (as behind an IOMMU), a machine
 * that is saved and loaded, a cable that is pulled, a reset. Its guest puts Enable Slot on the command ring, and the machine is saved between the
 * doorbell and the event.
 *
 *   cc -Iinclude examples/machine.c $(bindings/archive xhci) -o machine && ./machine */
#include "uas_xhci.h"
#include <inttypes.h>
#include <stdio.h>
#include <stdlib.h>
#include <string.h>

enum { FIRST = 0x10000, PAGE = 4096, RAM = 8 * PAGE, PAGES = 32, RANGES = 8 };

/* Where the guest has its tables and rings, and the registers that it writes (xHCI 5.3 to 5.6). */
enum { CONTEXTS = FIRST, COMMANDS = FIRST + PAGE, EVENTS = FIRST + 2 * PAGE, SEGMENTS = FIRST + 3 * PAGE };
enum { USBCMD = 0x40, USBSTS = 0x44, CRCR = 0x58, DCBAAP = 0x70, CONFIG = 0x78, PORTSC = 0x450, ERSTSZ = 0x628, ERSTBA = 0x630, ERDP = 0x638 };

static uint8_t ram[RAM]; /* the guest's, from address FIRST on */

/* The reader and the writer: false where nothing is there. */
static bool read_guest(uint64_t address, uint8_t *bytes, size_t length)
{
    if (address - FIRST > RAM - length)
        return false;
    memcpy(bytes, ram + (address - FIRST), length);
    return true;
}

static void write_guest(uint64_t address, const uint8_t *bytes, size_t length)
{
    memcpy(ram + (address - FIRST), bytes, length);
}

/* ---- Work over a reader and a writer ---- */

/* Copies of pages of the guest's memory, which are lent. */
struct copies {
    uint8_t bytes[PAGES][PAGE];
    struct uas_region lent[PAGES];
    size_t count;
};

/* Copies the pages of a range that aren't copied yet: whether one is new. */
static bool copy_in(struct copies *copies, const struct uas_range *wanted)
{
    size_t before = copies->count;
    uint64_t end = (wanted->address + wanted->length - 1) / PAGE;
    for (uint64_t page = wanted->address / PAGE; page <= end && copies->count < PAGES; page++) {
        bool is_there = false;
        for (size_t i = 0; i < copies->count; i++)
            is_there = is_there || copies->lent[i].address == page * PAGE;
        if (is_there || !read_guest(page * PAGE, copies->bytes[copies->count], PAGE))
            continue;
        copies->lent[copies->count] = (struct uas_region){ page * PAGE, copies->bytes[copies->count], PAGE };
        copies->count++;
    }
    return copies->count > before;
}

/* Writes back what the steps wrote and nothing beside it, in its order: elsewhere the guest may have written since. */
static void write_back(const struct copies *copies, const struct uas_xhci_turn *turn, const struct uas_range *written)
{
    for (size_t k = 0; k < turn->noted; k++) {
        for (uint64_t done = 0, part; done < written[k].length; done += part) {
            uint64_t at = written[k].address + done;
            part = PAGE - at % PAGE < written[k].length - done ? PAGE - at % PAGE : written[k].length - done;
            for (size_t i = 0; i < copies->count; i++)
                if (copies->lent[i].address == at / PAGE * PAGE)
                    write_guest(at, copies->bytes[i] + at % PAGE, part);
        }
    }
}

/* Takes all steps that there are. A step notes some three ranges, so there is room for those of one at a time. What the guest hasn't got either is
 * left out: that step finds out. */
static void work(uas_xhci *xhci, struct copies *copies)
{
    struct uas_xhci_turn turn = { .more = 1 };
    for (copies->count = 0; turn.more == 1;) {
        struct uas_range wanted = { 0, 0 }, written[RANGES];
        turn = (struct uas_xhci_turn){ .budget = 1 };
        uint8_t fault = uas_xhci_work_asking(xhci, copies->lent, copies->count, &turn, written, RANGES, &wanted);
        if (fault == UAS_OK && wanted.length > 0 && !copy_in(copies, &wanted)) {
            turn = (struct uas_xhci_turn){ .budget = 1 };
            fault = uas_xhci_work_noting(xhci, copies->lent, copies->count, &turn, written, RANGES);
        }
        if (fault != UAS_OK || turn.lost == 1)
            abort();
        write_back(copies, &turn, written);
    }
}

/* ---- The machine ---- */

static const struct uas_disk disk = { .size = sizeof disk, .blocks = 1000 };

/* Saves a controller while nothing is at work, and frees it, as where its machine ends. */
static uint8_t *save(uas_xhci *xhci, size_t *length)
{
    uint8_t *text = NULL;
    if (uas_xhci_save(xhci, NULL, 0, length) == UAS_XHCI_ROOM && (text = malloc(*length)) != NULL && uas_xhci_save(xhci, text, *length, length) != UAS_OK)
        abort();
    uas_xhci_free(xhci);
    return text;
}

static uint32_t word(uint64_t address)
{
    uint32_t value = 0;
    read_guest(address, (uint8_t *)&value, sizeof value);
    return value;
}

static void set_pair(uint64_t address, uint64_t value)
{
    write_guest(address, (const uint8_t *)&value, sizeof value);
}

/* What a driver does first: its tables, its rings, Run. */
static void begin(uas_xhci *xhci)
{
    set_pair(SEGMENTS, EVENTS);
    set_pair(SEGMENTS + 8, 256);
    uas_xhci_write(xhci, CONFIG, 4, 1);
    uas_xhci_write(xhci, DCBAAP, 8, CONTEXTS);
    uas_xhci_write(xhci, CRCR, 8, COMMANDS | 1);
    uas_xhci_write(xhci, ERSTSZ, 4, 1);
    uas_xhci_write(xhci, ERDP, 8, EVENTS);
    uas_xhci_write(xhci, ERSTBA, 8, SEGMENTS);
    uas_xhci_write(xhci, USBCMD, 4, 1);
}

/* Prints the events from a place on, and returns the place behind them. */
static uint64_t print_events(uint64_t at)
{
    for (; word(at + 12) & 1; at += 16)
        printf("event: type %" PRIu32 ", code %" PRIu32 ", slot %" PRIu32 "\n", word(at + 12) >> 10 & 63, word(at + 8) >> 24, word(at + 12) >> 24);
    return at;
}

int main(void)
{
    static struct copies copies;
    uas_xhci *xhci;
    size_t length = 0;
    if (uas_xhci_new_disks(&disk, sizeof disk, UAS_SET_DISK, 0, 128, &xhci) != UAS_OK)
        return 1;
    begin(xhci);
    set_pair(COMMANDS + 8, UINT64_C(0x0000240100000000)); /* Enable Slot, cycle 1 (6.4.3.2) */
    uas_xhci_write(xhci, uas_xhci_read(xhci, 0x14, 4), 4, 0); /* the command ring's doorbell */
    uint8_t *text = save(xhci, &length);
    if (text == NULL || uas_xhci_load_disks(&disk, sizeof disk, UAS_SET_DISK, 0, 128, text, length, &xhci) != UAS_OK)
        return 1;
    printf("saved and loaded: the text begins with %.6s\n", (const char *)text);
    work(xhci, &copies);
    uint64_t at = print_events(EVENTS);
    uas_xhci_write(xhci, PORTSC, 4, 0x20200); /* its change is seen: CSC, and PP stays (5.4.8) */
    uas_xhci_plug(xhci, false); /* the cable is pulled; requests that are at work for the disk are awaited before, where there are some */
    work(xhci, &copies);
    at = print_events(at);
    printf("the port: connected %d\n", (int)(uas_xhci_read(xhci, PORTSC, 4) & 1));
    text[length / 2] ^= 1;
    uas_xhci *none = NULL;
    printf("a changed text: %s\n", uas_fault_name(uas_xhci_load_disks(&disk, sizeof disk, UAS_SET_DISK, 0, 128, text, length, &none)));
    uas_xhci_reset(xhci); /* likewise */
    printf("after a reset: USBSTS %" PRIx64 "\n", uas_xhci_read(xhci, USBSTS, 4));
    uas_xhci_free(xhci);
    free(text);
}
