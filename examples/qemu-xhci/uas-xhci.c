/* A PCI device for QEMU 7.2: the library's xHCI controller with its disk, over the guest's memory, with each logical unit's blocks in a file or a
 * drive of QEMU's. It is saved and moved with its machine.
 *
 *   -device uas-xhci,file=PATH|drive=ID[,serial=N][,file1=PATH|drive1=ID[,serial1=N]]..[,bootindex=N][,bulk-only=off][,msix=on|off|auto]
 *           [,msi=on|off|auto][,attached=off][,bad=BLOCK]
 *
 * QEMU's part is the bus: configuration space, the page of registers, the guest's memory by address, an interrupt, and threads for the files.
 * Rings, contexts, commands and the disk are the library's. A register write notes what is to be done and takes a number of steps; what is
 * left is done by a bottom half, in turns, so that no processor of the guest waits in its register access for a long ring. README.md says
 * how it is built, and what is trusted. */
#include "qemu/osdep.h"
#include "hw/pci/msi.h"
#include "hw/pci/msix.h"
#include "hw/qdev-properties.h"
#include "migration/vmstate.h"
#include "qapi/error.h"
#include "qemu/error-report.h"
#include "qemu/module.h"
#include "qemu/timer.h"
#include "uas-memory.h"

/* More than any saved controller has: 240 tags, each with a chunk. */
enum { MOST_SAVED_BYTES = 32 << 20 };

enum { MSI_AT = 0x70, MSIX_AT = 0x90, MSIX_TABLE = 0x2000, MSIX_PBA = 0x3000, BAR_BYTES = 0x4000 }; /* in configuration space; in BAR 0 */

/* ---- Blocks ---- */

/* The controller drops the answer itself where the task is gone. */
static void job_ended(struct job *job)
{
    UasXhci *device = job->device;
    uas_xhci_tell(device->xhci, job->request.number, &job->outcome, job->bytes, bytes_of(&job->request, &job->outcome));
    device->jobs--;
    qemu_bh_schedule(device->turn);
    g_free(job);
}

static void begin_request(UasXhci *device, const struct uas_request *request)
{
    struct job *job = g_new(struct job, 1);
    job->ended = job_ended;
    job->device = device;
    job->unit = &device->units[request->unit];
    job->given_up = &device->drains;
    job->request = *request;
    job->looked = 0;
    if (request->kind == UAS_REQUEST_WRITE || request->kind == UAS_REQUEST_COMPARE)
        uas_xhci_data(device->xhci, request->number, job->bytes, request->count * UAS_BLOCK_BYTES);
    device->jobs++;
    submit(job);
}

/* Waits for the requests that are at work, so that nothing of them lands in a file later. */
static void drain(UasXhci *device)
{
    device->drains = true;
    while (device->jobs > 0)
        aio_poll(qemu_get_aio_context(), true);
    device->drains = false;
}

/* ---- Registers, steps, interrupts ---- */

static void work(UasXhci *device)
{
    struct uas_xhci_turn turn = { .budget = STEPS_A_TURN };
    if (device->lent == 0) {
        bool is_master = pci_get_word(device->parent.config + PCI_COMMAND) & PCI_COMMAND_MASTER;
        turn.more = is_master && copied_work(device);
    } else if (uas_xhci_work_noting(device->xhci, device->regions, device->lent, &turn, device->written, RANGES) != UAS_OK)
        error_report_once("uas-xhci: the machine's memory was refused");
    for (size_t i = 0; i < turn.noted; i++)
        tell_written(device, device->written[i].address, device->written[i].length);
    for (size_t i = 0; turn.lost && i < device->lent; i++)
        tell_written(device, device->regions[i].address, device->regions[i].length);
    if (turn.more)
        qemu_bh_schedule(device->turn);
}

/* QEMU keeps a message of MSI-X that is masked. */
static void interrupt(UasXhci *device)
{
    PCIDevice *parent = &device->parent;
    bool has_table = msix_enabled(parent);
    if (!has_table && !msi_enabled(parent))
        pci_set_irq(parent, uas_xhci_interrupt(device->xhci));
    else if (uas_xhci_take_message(device->xhci))
        (has_table ? msix_notify : msi_notify)(parent, 0);
}

static void turn(void *opaque)
{
    UasXhci *device = opaque;
    struct uas_request request;
    if (device->drains || !device->runs)
        return;
    work(device);
    while (uas_xhci_next_request(device->xhci, &request))
        begin_request(device, &request);
    interrupt(device);
}

static uint64_t read_register(void *opaque, hwaddr at, unsigned width)
{
    UasXhci *device = opaque;
    uas_xhci_set_frame(device->xhci, (uint16_t)(qemu_clock_get_ns(QEMU_CLOCK_VIRTUAL) / MICROFRAME_NS));
    return uas_xhci_read(device->xhci, at, (uint8_t)width);
}

static void write_register(void *opaque, hwaddr at, uint64_t value, unsigned width)
{
    UasXhci *device = opaque;
    uas_xhci_write(device->xhci, at, (uint8_t)width, value);
    turn(device);
}

static const MemoryRegionOps register_ops = {
    .read = read_register,
    .write = write_register,
    .endianness = DEVICE_LITTLE_ENDIAN,
    .valid = { .min_access_size = 1, .max_access_size = 8 },
    .impl = { .min_access_size = 1, .max_access_size = 8 },
};

static void reset(DeviceState *state)
{
    UasXhci *device = UAS_XHCI(state);
    drain(device);
    uas_xhci_reset(device->xhci);
    interrupt(device);
}

/* ---- Saving and moving ---- */

/* While the machine stands still no request is at work and nothing is written; what was left to do is done when it runs again. A machine that was moved
 * while usb-storage had the disk lost pages now and then, as if a write hadn't been noted; until that is understood all memory that is lent counts as
 * written here, so that it is sent once more. */
static void runs_changed(void *opaque, bool running, RunState state)
{
    UasXhci *device = opaque;
    device->runs = running;
    if (!running) {
        drain(device);
        for (size_t i = 0; i < device->lent; i++)
            tell_written(device, device->regions[i].address, device->regions[i].length);
        return;
    }
    lock_units(device->units);
    qemu_bh_schedule(device->turn);
}

static void forget_saved(UasXhci *device)
{
    g_free(device->saved);
    device->saved = NULL;
    device->saved_bytes = 0;
}

/* The files of a machine that moves are left to the other one. */
static int before_save(void *opaque)
{
    UasXhci *device = opaque;
    size_t length = 0;
    drain(device);
    forget_saved(device);
    uint8_t fault = uas_xhci_save(device->xhci, NULL, 0, &length);
    if (fault == UAS_XHCI_ROOM && length <= MOST_SAVED_BYTES) {
        device->saved = g_malloc(length);
        device->saved_bytes = (uint32_t)length;
        fault = uas_xhci_save(device->xhci, device->saved, length, &length);
    }
    if (fault != UAS_OK) {
        error_report("uas-xhci: not saved: %s", uas_fault_name(fault));
        return -EINVAL;
    }
    if (runstate_check(RUN_STATE_FINISH_MIGRATE))
        leave_units(device->units);
    return 0;
}

static int after_save(void *opaque)
{
    forget_saved(opaque);
    return 0;
}

static int before_load(void *opaque)
{
    UasXhci *device = opaque;
    drain(device);
    forget_saved(device);
    return 0;
}

static bool is_of_saved_size(void *opaque, int version)
{
    return ((UasXhci *)opaque)->saved_bytes <= MOST_SAVED_BYTES;
}

/* A machine whose bytes are refused doesn't run: QEMU says which device it was. */
static int after_load(void *opaque, int version)
{
    UasXhci *device = opaque;
    struct uas_xhci_loaded loaded = { 0 };
    struct uas_region text = { 0, device->saved, device->saved_bytes };
    uint8_t fault = device->saved_bytes == 0 ? UAS_XHCI_SHORT : uas_xhci_take_state(device->xhci, &loaded, &text, 1);
    if (fault != UAS_OK)
        error_report("uas-xhci: not loaded: %s at byte %" PRIu64, uas_fault_name(fault), loaded.at);
    forget_saved(device);
    return fault == UAS_OK ? 0 : -EINVAL;
}

static const VMStateDescription state = {
    .name = TYPE_UAS_XHCI,
    .version_id = 1,
    .minimum_version_id = 1,
    .pre_save = before_save,
    .post_save = after_save,
    .pre_load = before_load,
    .post_load = after_load,
    .fields = (VMStateField[]){
        VMSTATE_PCI_DEVICE(parent, UasXhci),
        VMSTATE_MSIX(parent, UasXhci),
        VMSTATE_BOOL(attached, UasXhci),
        VMSTATE_UINT32(saved_bytes, UasXhci),
        VMSTATE_VALIDATE("uas-xhci's bytes", is_of_saved_size),
        VMSTATE_VARRAY_UINT32_ALLOC(saved, UasXhci, saved_bytes, 1, vmstate_info_uint8, uint8_t),
        VMSTATE_END_OF_LIST() },
};

/* ---- The device ---- */

/* Opens the logical units and makes a controller with a disk of as many. */
static bool open_disk(UasXhci *device, Error **errp)
{
    struct uas_disk disks[MOST_UNITS];
    unsigned count = open_units(device->units, disks, errp);
    if (count == 0)
        return false;
    device->units[0].image.bad = device->bad;
    uint8_t fault = uas_xhci_new_disks(disks, count * sizeof disks[0], UAS_SET_DISK, 0, CHUNK_BLOCKS, &device->xhci);
    if (fault == UAS_OK && device->bulk_only)
        fault = uas_xhci_offer_bulk_only(device->xhci, (uint8_t)(count - 1), device->units[0].serial);
    if (fault != UAS_OK)
        error_setg(errp, "uas-xhci: %s", uas_fault_name(fault));
    return fault == UAS_OK;
}

static void close_disk(UasXhci *device)
{
    uas_xhci_free(device->xhci);
    device->xhci = NULL;
    close_units(device->units);
}

/* A bottom half, in which the device's registers can't be reached by its own hand, where this QEMU has such. */
static QEMUBH *new_turn(UasXhci *device)
{
#ifdef qemu_bh_new_guarded
    return qemu_bh_new_guarded(turn, device, &DEVICE(device)->mem_reentrancy_guard);
#else
    return qemu_bh_new(turn, device);
#endif
}

/* Whether messages may be missing: with auto a machine that knows none has the pin. */
static bool may_lack(OnOffAuto wanted, Error *why, Error **errp)
{
    if (wanted == ON_OFF_AUTO_ON)
        error_propagate(errp, why);
    else
        error_free(why);
    return wanted != ON_OFF_AUTO_ON;
}

static bool add_messages(UasXhci *device, Error **errp)
{
    PCIDevice *parent = &device->parent;
    Error *why = NULL;
    if (device->msi != ON_OFF_AUTO_OFF && msi_init(parent, MSI_AT, 1, true, false, &why) != 0 && !may_lack(device->msi, why, errp))
        return false;
    if (device->msix == ON_OFF_AUTO_OFF)
        return true;
    why = NULL;
    if (msix_init(parent, 1, &device->bar, 0, MSIX_TABLE, &device->bar, 0, MSIX_PBA, MSIX_AT, &why) != 0)
        return may_lack(device->msix, why, errp);
    msix_vector_use(parent, 0);
    return true;
}

static void drop_messages(UasXhci *device)
{
    msix_uninit(&device->parent, &device->bar, &device->bar);
    msi_uninit(&device->parent);
}

static void realize(PCIDevice *parent, Error **errp)
{
    UasXhci *device = UAS_XHCI(parent);
    memory_region_init(&device->bar, OBJECT(device), "uas-xhci-bar", BAR_BYTES);
    memory_region_init_io(&device->registers, OBJECT(device), &register_ops, device, TYPE_UAS_XHCI, UAS_XHCI_REGISTER_BYTES);
    memory_region_add_subregion(&device->bar, 0, &device->registers);
    if (!open_disk(device, errp) || !add_messages(device, errp)) {
        drop_messages(device);
        close_disk(device);
        return;
    }
    uas_xhci_plug(device->xhci, device->attached);
    parent->config[PCI_CLASS_PROG] = 0x30; /* xHCI */
    parent->config[0x60] = 0x30;           /* USB 3.0, which drivers read here (xHCI 5.2.3) */
    pci_config_set_interrupt_pin(parent->config, 1);
    pci_register_bar(parent, 0, PCI_BASE_ADDRESS_SPACE_MEMORY | PCI_BASE_ADDRESS_MEM_TYPE_64, &device->bar);
    device->turn = new_turn(device);
    device->runs = runstate_is_running();
    device->runs_told = qdev_add_vm_change_state_handler(DEVICE(device), runs_changed, device);
    device->listener = (MemoryListener){ .name = TYPE_UAS_XHCI, .commit = memory_changed };
    memory_listener_register(&device->listener, pci_get_address_space(parent));
}

/* The device is taken out of the machine, after its requests, each of which has a pointer to it. */
static void unrealize(PCIDevice *parent)
{
    UasXhci *device = UAS_XHCI(parent);
    memory_listener_unregister(&device->listener);
    qemu_del_vm_change_state_handler(device->runs_told);
    device->lent = 0;
    drain(device);
    forget_saved(device);
    qemu_bh_delete(device->turn);
    drop_messages(device);
    close_disk(device);
}

/* The disk's cable: `qom-set PATH attached off` pulls it. */
static bool is_attached(Object *object, Error **errp)
{
    return UAS_XHCI(object)->attached;
}

static void attach(Object *object, bool attached, Error **errp)
{
    UasXhci *device = UAS_XHCI(object);
    device->attached = attached;
    if (device->xhci == NULL)
        return;
    drain(device);
    uas_xhci_plug(device->xhci, attached);
    qemu_bh_schedule(device->turn);
}

static void init(Object *object)
{
    UasXhci *device = UAS_XHCI(object);
    device->attached = true;
    device_add_bootindex_property(object, &device->bootindex, "bootindex", "/storage@1/channel@0/disk@0,0", DEVICE(object));
}

static Property properties[] = {
    UNITS_PROPERTIES(UasXhci),
    DEFINE_PROP_BOOL("bulk-only", UasXhci, bulk_only, true), /* firmware boots from it; with off the disk is UAS alone */
    DEFINE_PROP_ON_OFF_AUTO("msix", UasXhci, msix, ON_OFF_AUTO_AUTO), /* before MSI, where the guest takes it */
    DEFINE_PROP_ON_OFF_AUTO("msi", UasXhci, msi, ON_OFF_AUTO_AUTO),
    DEFINE_PROP_UINT64("bad", UasXhci, bad, UINT64_MAX), /* a block of unit 0 that can't be read or written, for tests */
    DEFINE_PROP_END_OF_LIST(),
};

static void class_init(ObjectClass *class, void *data)
{
    PCIDeviceClass *pci = PCI_DEVICE_CLASS(class);
    DeviceClass *device = DEVICE_CLASS(class);
    pci->realize = realize;
    pci->vendor_id = PCI_VENDOR_ID_REDHAT_QUMRANET;
    pci->device_id = 0x10f0; /* for experiments (docs/specs/pci-ids.txt): a product has a number of its own */
    pci->class_id = PCI_CLASS_SERIAL_USB;
    device->desc = "xHCI controller with a USB disk (UAS), from a library";
    device->reset = reset;
    device->vmsd = &state;
    pci->exit = unrealize;
    object_class_property_add_bool(class, "attached", is_attached, attach);
    device_class_set_props(device, properties);
    set_bit(DEVICE_CATEGORY_USB, device->categories);
}

static const TypeInfo type = {
    .name = TYPE_UAS_XHCI,
    .parent = TYPE_PCI_DEVICE,
    .instance_size = sizeof(UasXhci),
    .instance_init = init,
    .class_init = class_init,
    .interfaces = (InterfaceInfo[]){ { INTERFACE_CONVENTIONAL_PCI_DEVICE }, { } },
};

static void register_types(void)
{
    type_register_static(&type);
}

type_init(register_types)
