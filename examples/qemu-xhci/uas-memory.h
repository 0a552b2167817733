/* The device of uas-xhci.c, and the machine's memory, which it lends to the library. */
#ifndef UAS_XHCI_MEMORY_H
#define UAS_XHCI_MEMORY_H
#include "exec/memory.h"
#include "hw/pci/pci.h"
#include "qemu/error-report.h"
#include "qom/object.h"
#include "sysemu/sysemu.h"
#include "uas-jobs.h"
#include "uas_xhci.h"

/* Most steps write two or three ranges. */
enum { STEPS_A_TURN = 256, RANGES = 4 * STEPS_A_TURN, MICROFRAME_NS = 125000 };

/* Copies of pages, which are lent where nothing of the machine's RAM is. */
enum { PAGE_BYTES = 4096, COPIED_STEPS = STEPS_A_TURN / 4 }; /* room to note all that so many steps write */

struct copies {
    uint8_t bytes[UAS_XHCI_REGIONS][PAGE_BYTES];
    struct uas_region lent[UAS_XHCI_REGIONS];
    size_t count;
};

#define TYPE_UAS_XHCI "uas-xhci"
OBJECT_DECLARE_SIMPLE_TYPE(UasXhci, UAS_XHCI)

struct UasXhci {
    PCIDevice parent;
    MemoryRegion bar, registers;
    MemoryListener listener;
    struct uas_region regions[UAS_XHCI_REGIONS]; /* what the device reaches of the machine's RAM: nothing where it isn't bus master */
    size_t lent;
    struct uas_range written[RANGES];
    struct copies copies;
    QEMUBH *turn;
    uas_xhci *xhci;
    uint32_t jobs; /* requests that are at work */
    bool drains;   /* they are waited for, and none begins */
    bool runs;     /* the machine does: else nothing writes its memory */
    VMChangeStateEntry *runs_told;
    uint8_t *saved; /* the controller as bytes, while it is saved or loaded */
    uint32_t saved_bytes;
    bool attached;
    bool bulk_only; /* the disk tells Bulk-Only Transport before UAS */
    int32_t bootindex;
    OnOffAuto msix, msi;
    uint64_t bad; /* of unit 0 */
    struct unit units[MOST_UNITS];
};

/* Lends a range of RAM: with the region before it where both are one. */
static inline bool lend(Int128 start, Int128 length, const MemoryRegion *region, hwaddr offset, void *opaque)
{
    UasXhci *device = opaque;
    struct uas_region *last = device->lent > 0 ? &device->regions[device->lent - 1] : NULL;
    if (!region->ram || region->readonly || region->ram_device)
        return false;
    struct uas_region one = { int128_get64(start), memory_region_get_ram_ptr((MemoryRegion *)region) + offset, int128_get64(length) };
    if (last != NULL && last->address + last->length == one.address && last->bytes + last->length == one.bytes)
        last->length += one.length;
    else if (device->lent < UAS_XHCI_REGIONS)
        device->regions[device->lent++] = one;
    else
        warn_report_once("uas-xhci: the machine's memory is in more than %d parts, of which the others aren't reached", UAS_XHCI_REGIONS);
    return false;
}

static inline void memory_changed(MemoryListener *listener)
{
    UasXhci *device = container_of(listener, UasXhci, listener);
    RCU_READ_LOCK_GUARD();
    device->lent = 0;
    flatview_for_each_range(address_space_to_flatview(pci_get_address_space(&device->parent)), lend, device);
    qemu_bh_schedule(device->turn);
}

/* Tells QEMU that RAM was written, as a mapping that ends does: translated code is dropped, pages are dirty. */
static inline void tell_written(UasXhci *device, uint64_t address, uint64_t length)
{
    AddressSpace *space = pci_get_address_space(&device->parent);
    for (hwaddr part; length > 0; address += part, length -= part) {
        part = length;
        void *bytes = address_space_map(space, address, &part, true, MEMTXATTRS_UNSPECIFIED);
        if (bytes == NULL)
            break;
        address_space_unmap(space, bytes, part, true, part);
    }
}

/* ---- Behind an IOMMU: the pages that a step lacks are copied in, and what it wrote is written back, so that no translation grows stale ---- */

/* Copies the pages of a range that aren't copied yet and that the device may read: whether one is new. */
static inline bool copy_in(UasXhci *device, const struct uas_range *wanted)
{
    struct copies *copies = &device->copies;
    size_t before = copies->count;
    uint64_t end = (wanted->address + wanted->length - 1) / PAGE_BYTES;
    for (uint64_t page = wanted->address / PAGE_BYTES; page <= end && copies->count < UAS_XHCI_REGIONS; page++) {
        struct uas_region one = { page * PAGE_BYTES, copies->bytes[copies->count], PAGE_BYTES };
        bool is_there = false;
        for (size_t i = 0; i < copies->count; i++)
            is_there = is_there || copies->lent[i].address == one.address;
        if (!is_there && pci_dma_read(&device->parent, one.address, one.bytes, PAGE_BYTES) == MEMTX_OK)
            copies->lent[copies->count++] = one;
    }
    return copies->count > before;
}

/* In the order of the writes. Where the device may not write nothing is written, as on a real bus. */
static inline void write_back(UasXhci *device, const struct uas_xhci_turn *turn)
{
    const struct copies *copies = &device->copies;
    for (size_t k = 0; k < turn->noted; k++) {
        const struct uas_range *range = &device->written[k];
        for (uint64_t done = 0, part; done < range->length; done += part) {
            uint64_t at = range->address + done;
            part = MIN(PAGE_BYTES - at % PAGE_BYTES, range->length - done);
            for (size_t i = 0; i < copies->count; i++)
                if (copies->lent[i].address == at - at % PAGE_BYTES)
                    pci_dma_write(&device->parent, at, copies->bytes[i] + at % PAGE_BYTES, part);
        }
    }
}

/* Steps up to the first that lacks memory; whether there may be more. A step that lacks what isn't there either is taken without it. Where there is
 * no room for more copies they begin anew, once before a step. */
static inline bool copied_steps(UasXhci *device, uint32_t budget, uint32_t *steps, uint32_t *anew_at)
{
    struct copies *copies = &device->copies;
    struct uas_xhci_turn turn = { .budget = budget };
    struct uas_range wanted = { 0, 0 };
    if (uas_xhci_work_asking(device->xhci, copies->lent, copies->count, &turn, device->written, RANGES, &wanted) != UAS_OK)
        return false;
    write_back(device, &turn);
    *steps += turn.steps;
    if (wanted.length == 0 || copy_in(device, &wanted))
        return turn.more;
    if (copies->count == UAS_XHCI_REGIONS && *anew_at != *steps) {
        copies->count = 0;
        *anew_at = *steps;
        return true;
    }
    turn = (struct uas_xhci_turn){ .budget = 1 };
    if (uas_xhci_work_noting(device->xhci, copies->lent, copies->count, &turn, device->written, RANGES) != UAS_OK)
        return false;
    write_back(device, &turn);
    *steps += turn.steps;
    return turn.more;
}

static inline bool copied_work(UasXhci *device)
{
    uint32_t steps = 0, anew_at = UINT32_MAX;
    bool more = true;
    for (device->copies.count = 0; more && steps < COPIED_STEPS;)
        more = copied_steps(device, COPIED_STEPS - steps, &steps, &anew_at);
    return more;
}

#endif
