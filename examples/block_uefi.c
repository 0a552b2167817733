/* SPDX-License-Identifier: Apache-2.0 */
/* block.c as a UEFI application for x86-64: it takes an xHCI controller from firmware, brings it up, reads block 0 of the UAS disk behind it, and
 * gives the controller back. It prints what it found, or the reason why not. gnu-efi has the headers, the start code, which relocates the program,
 * and the linker's script; tests/c/uefi builds it so and boots it:
 *
 *   cc -std=c11 -O2 -ffreestanding -fno-stack-protector -fpic -mno-red-zone -DGNU_EFI_USE_MS_ABI -I/usr/include/efi -Iinclude \
 *       -c examples/block_uefi.c examples/region.c
 *   ld -nostdlib -shared -Bsymbolic -znocombreloc -T /usr/lib/elf_x86_64_efi.lds /usr/lib/crt0-efi-x86_64.o block_uefi.o region.o \
 *       $(bindings/archive block) /usr/lib/libgnuefi.a -o block_uefi.so
 *   objcopy -j .text -j .sdata -j .data -j .dynamic -j .dynsym -j '.rel*' -j .reloc --target=efi-app-x86_64 block_uefi.so block_uefi.efi
 *
 * Interrupts: firmware's timer interrupts on the stack of what runs, and the processor writes right below its stack pointer. The archive's code keeps
 * values there (the red zone of its ABI), so each call of the library stands between `enter` and `leave`, where no interrupt comes
 * (TPL_HIGH_LEVEL). Few services may be called there: so registers and memory are accessed directly, time is read from the processor, and malloc
 * takes from a region (region.c) that was allocated before. Of stack firmware has 128 KiB at least.
 *
 * Time is the time stamp counter (TSC), whose ticks in a ms are counted once during a `Stall`. */
#include "region.h"
#include "uas_block.h"
#include "uefi_xhci.h"
#include <cpuid.h>
#include <stdatomic.h>

enum {
    REGION_BYTES = 2 << 20, /* for malloc */
    TURN = 200,             /* accesses between two chances of an interrupt */
    NO_DEVICE_MS = 3000,    /* so long a device is waited for */
    PATIENCE_MS = 30000,    /* so long everything else is */
    SHOWN = 32              /* bytes of block 0 */
};

/* What is lent to the controller. */
static uint8_t *memory;      /* and behind it the data of a block */
static uint64_t memory_base; /* its DMA address */
static uint32_t lent_bytes;

static uas_block *block;
static struct uas_block_state state;

#define NAMED(why) [why] = #why
static const char *const whys[] = {
    "no reason", NAMED(UAS_BLOCK_TOO_OLD), NAMED(UAS_BLOCK_SMALL_BAR), NAMED(UAS_BLOCK_BAD_LIST), NAMED(UAS_BLOCK_NO_SLOTS),
    NAMED(UAS_BLOCK_NO_PORTS), NAMED(UAS_BLOCK_NO_STREAMS), NAMED(UAS_BLOCK_PAGE_SIZE), NAMED(UAS_BLOCK_STILL_RUNS), NAMED(UAS_BLOCK_NO_RESET),
    NAMED(UAS_BLOCK_NOT_SUPER_SPEED), NAMED(UAS_BLOCK_NO_ADDRESS), NAMED(UAS_BLOCK_SILENT), NAMED(UAS_BLOCK_BAD_DEVICE), NAMED(UAS_BLOCK_HUB),
    NAMED(UAS_BLOCK_LONG_CONFIGURATION), NAMED(UAS_BLOCK_BAD_DESCRIPTOR), NAMED(UAS_BLOCK_NO_UAS), NAMED(UAS_BLOCK_BAD_PIPES),
    NAMED(UAS_BLOCK_NO_COMPANION), NAMED(UAS_BLOCK_BROKEN_UAS), NAMED(UAS_BLOCK_NOT_CONFIGURED), NAMED(UAS_BLOCK_NOT_A_DISK),
    NAMED(UAS_BLOCK_NO_MEDIUM), NAMED(UAS_BLOCK_NEVER_READY), NAMED(UAS_BLOCK_BAD_CAPACITY), NAMED(UAS_BLOCK_BLOCK_LENGTH)
};

static const char *const ends[] = {
    "no end", NAMED(UAS_BLOCK_GOOD), NAMED(UAS_BLOCK_SHORT), NAMED(UAS_BLOCK_STATUS), NAMED(UAS_BLOCK_RESPONSE), NAMED(UAS_BLOCK_ABORTED),
    NAMED(UAS_BLOCK_LOST)
};

#define NAME_OF(names, number) ((number) < sizeof names / sizeof names[0] ? names[number] : "a number without a name")

/* ---- What a driver's author writes: registers, memory, time ---- */

static uint32_t read32(void *context, uint32_t offset)
{
    (void)context;
    return *(volatile uint32_t *)(registers + offset);
}

/* On x86-64 stores are seen in their order, so the fences of these functions are the compiler's alone. */
static void write32(void *context, uint32_t offset, uint32_t value)
{
    (void)context;
    atomic_thread_fence(memory_order_release);
    *(volatile uint32_t *)(registers + offset) = value;
}

static void load(void *context, uint64_t address, uint8_t *bytes, uint32_t length)
{
    const uint8_t *from = memory + (address - memory_base);
    (void)context;
    atomic_thread_fence(memory_order_acquire);
    if (length == 4) {
        const uint32_t word = *(const volatile uint32_t *)(const void *)from;
        memcpy(bytes, &word, sizeof word);
    } else {
        memcpy(bytes, from, length);
    }
}

static void store(void *context, uint64_t address, const uint8_t *bytes, uint32_t length)
{
    uint8_t *to = memory + (address - memory_base);
    (void)context;
    atomic_thread_fence(memory_order_release);
    if (length == 4) {
        uint32_t word;
        memcpy(&word, bytes, sizeof word);
        *(volatile uint32_t *)(void *)to = word;
    } else {
        memcpy(to, bytes, length);
    }
}

static uint64_t now(void *context)
{
    (void)context;
    return time_now();
}

/* ---- The driver ---- */

/* Goes on with the driver, and waits a little where there is nothing to do now. */
static void turn(void)
{
    static uint8_t loaded[UAS_BLOCK_LOAD_BYTES];
    static const struct uas_block_user user = { NULL, read32, write32, load, store, now, loaded };
    const EFI_TPL level = enter();
    uas_block_interrupted(block);
    const uint64_t until = uas_block_turn(block, &user, TURN);
    uas_block_state(block, &state);
    leave(level);
    if (until > time_now())
        boot->Stall(50);
}

/* Lends what the driver wants; a page for the data of a block is behind it. */
static EFI_STATUS lend(void)
{
    const EFI_STATUS status = get_memory((UINTN)state.bytes + 2 * EFI_PAGE_SIZE, &memory, &memory_base);
    if (EFI_ERROR(status))
        return status;
    lent_bytes = state.bytes;
    const EFI_TPL level = enter();
    const uint8_t fault = uas_block_lend(block, memory_base);
    leave(level);
    return fault == UAS_OK ? EFI_SUCCESS : fail("the memory isn't taken", uas_fault_name(fault), EFI_UNSUPPORTED);
}

/* No port has a disk: says of each why not. */
static EFI_STATUS tell_ports(void)
{
    for (unsigned port = 1; port <= 255; port++) {
        const EFI_TPL level = enter();
        const uint8_t why = uas_block_refusal(block, (uint8_t)port);
        leave(level);
        if (why == 0)
            continue;
        put_number("block_uefi: the device at port ", port, " isn't used, ");
        put(NAME_OF(whys, why));
        end_line();
    }
    return fail("no UAS disk at a USB 3 port", "UAS_BLOCK_NO_DEVICE", EFI_NOT_FOUND);
}

/* Goes on until the disk is ready. */
static EFI_STATUS bring_up(void)
{
    const uint64_t from = time_now();
    for (;;) {
        turn();
        const uint64_t passed = time_now() - from;
        if (state.state == UAS_BLOCK_READY)
            return EFI_SUCCESS;
        if (state.state == UAS_BLOCK_REFUSED)
            return fail("the controller isn't used", NAME_OF(whys, state.why), EFI_UNSUPPORTED);
        if (state.state == UAS_BLOCK_GONE || state.state == UAS_BLOCK_DEAD)
            return fail("the controller doesn't work", state.state == UAS_BLOCK_GONE ? "UAS_BLOCK_GONE" : "UAS_BLOCK_DEAD", EFI_DEVICE_ERROR);
        if (state.state == UAS_BLOCK_WANTS_MEMORY) {
            const EFI_STATUS status = lend();
            if (EFI_ERROR(status))
                return status;
        }
        if (state.state == UAS_BLOCK_NO_DEVICE && passed > NO_DEVICE_MS)
            return tell_ports();
        if (passed > PATIENCE_MS)
            return fail("the disk isn't ready in time", NULL, EFI_TIMEOUT);
    }
}

/* Reads block 0 to `bytes`, which are behind what is lent. */
static EFI_STATUS read_block(const uint8_t **bytes)
{
    const uint32_t place = (lent_bytes + EFI_PAGE_MASK) & ~(uint32_t)EFI_PAGE_MASK;
    const struct uas_segment segment = { memory_base + place, state.block_bytes, 0 };
    const uint64_t limit = time_now() + PATIENCE_MS;
    const struct uas_block_request read = { .disk = state.disk, .kind = UAS_BLOCK_REQUEST_READ, .block = 0, .count = 1, .limit = limit };
    struct uas_block_reply reply;
    uint16_t tag;
    bool replied = false;
    EFI_TPL level = enter();
    const uint8_t fault = uas_block_submit(block, &read, &segment, 1, &tag);
    leave(level);
    if (fault != UAS_OK)
        return fail("block 0 isn't asked for", uas_fault_name(fault), EFI_DEVICE_ERROR);
    while (!replied && time_now() < limit + PATIENCE_MS) {
        turn();
        level = enter();
        replied = uas_block_take_reply(block, &reply);
        leave(level);
    }
    if (!replied)
        return fail("block 0 doesn't come", NULL, EFI_TIMEOUT);
    *bytes = memory + place;
    return reply.kind == UAS_BLOCK_GOOD ? EFI_SUCCESS : fail("block 0 isn't read", NAME_OF(ends, reply.kind), EFI_DEVICE_ERROR);
}

static void show_block(const uint8_t *bytes, uint64_t from)
{
    const uint64_t there = time_now();
    UINT32 crc = 0;
    boot->CalculateCrc32((void *)(uintptr_t)bytes, state.block_bytes, &crc);
    put_number("block_uefi: the disk has ", state.blocks, " blocks of ");
    put_number("", state.block_bytes, " bytes");
    end_line();
    put("block_uefi: block 0 begins");
    for (unsigned i = 0; i < SHOWN; i++) {
        put(" ");
        put_digits(bytes[i], 16, 2);
    }
    put(", its CRC-32 is ");
    put_digits(crc, 16, 8);
    end_line();
    put_number("block_uefi: it came ", there, " ms after the start, and ");
    put_number("", there - from, " ms after the driver's; ");
    put_number("", region_most(), " bytes were in use, ");
    put_number("", lent_bytes, " lent");
    end_line();
}

/* Ends the driver of a disk. */
static EFI_STATUS shut_down(void)
{
    const uint64_t limit = time_now() + PATIENCE_MS;
    const EFI_TPL level = enter();
    const uint8_t fault = uas_block_shut_down(block);
    leave(level);
    if (fault != UAS_OK)
        return fail("the driver isn't shut down", uas_fault_name(fault), EFI_DEVICE_ERROR);
    while (state.state != UAS_BLOCK_STOPPED && time_now() < limit)
        turn();
    return state.state == UAS_BLOCK_STOPPED ? EFI_SUCCESS : fail("the controller isn't stopped", NULL, EFI_TIMEOUT);
}

/* Halts and resets a controller whose driver has no disk, and so can't be shut down, or didn't stop: after it memory is left alone (xHCI 5.4.1). Bus
 * mastering goes off too, for one that doesn't listen. */
static void reset_controller(void)
{
    enum { RUN = 1, RESET = 2, HALTED = 1, STATUS = 4, LIMIT_MS = 1000 };
    const uint32_t command = read32(NULL, 0) & 0xff;
    const uint64_t limit = time_now() + LIMIT_MS;
    write32(NULL, command, read32(NULL, command) & ~(uint32_t)RUN);
    while ((read32(NULL, command + STATUS) & HALTED) == 0 && time_now() < limit)
        boot->Stall(100);
    write32(NULL, command, RESET);
    while ((read32(NULL, command) & RESET) != 0 && time_now() < limit)
        boot->Stall(100);
    pci->Attributes(pci, EfiPciIoAttributeOperationDisable, EFI_PCI_IO_ATTRIBUTE_BUS_MASTER, NULL);
}

static EFI_STATUS drive(uint8_t quirks)
{
    const struct uas_block_options options = { .bar_bytes = bar_bytes, .tags = 15, .trbs = 31, .address_bits = 32, .quirks = quirks };
    const uint64_t from = time_now();
    const uint8_t *bytes = NULL;
    EFI_TPL level = enter();
    const uint8_t fault = uas_block_new(&options, &block);
    leave(level);
    if (fault != UAS_OK)
        return fail("there is no driver", uas_fault_name(fault), EFI_OUT_OF_RESOURCES);
    EFI_STATUS status = bring_up();
    if (!EFI_ERROR(status)) {
        status = read_block(&bytes);
        if (!EFI_ERROR(status))
            show_block(bytes, from);
        const EFI_STATUS ended = shut_down();
        status = EFI_ERROR(status) ? status : ended;
    }
    if (state.state != UAS_BLOCK_STOPPED)
        reset_controller();
    level = enter();
    uas_block_free(block);
    leave(level);
    return status;
}

static EFI_STATUS use(UINT32 ids)
{
    const struct found before = tell_firmware("at first");
    EFI_STATUS status = take();
    if (!EFI_ERROR(status))
        status = drive(uas_block_quirks((uint16_t)ids, (uint16_t)(ids >> 16)));
    const EFI_STATUS given = give_back(before);
    return EFI_ERROR(status) ? status : given;
}

/* Uses one controller after another until a block was read. */
static EFI_STATUS use_any(void)
{
    EFI_HANDLE *handles;
    UINTN count = 0;
    UINT32 ids;
    bool any = false;
    EFI_STATUS status = boot->LocateHandleBuffer(ByProtocol, &pci_io_protocol, NULL, &count, &handles);
    if (EFI_ERROR(status))
        return fail("no PCI function at all", NULL, status);
    status = EFI_NOT_FOUND;
    for (UINTN i = 0; i < count && EFI_ERROR(status); i++) {
        handle = handles[i];
        if (boot->HandleProtocol(handle, &pci_io_protocol, (void **)&pci) != EFI_SUCCESS || !is_xhci(&ids))
            continue;
        any = true;
        status = use(ids);
    }
    boot->FreePool(handles);
    return any ? status : fail("no PCI function of class 0c0330h", "an xHCI controller", EFI_NOT_FOUND);
}

/* Whether the processor has what the archive is compiled for, x86-64-v2: SSE3, SSSE3, CMPXCHG16B, SSE4.1, SSE4.2, POPCNT. */
static bool runs_archive(void)
{
    const unsigned wanted = 1u << 0 | 1u << 9 | 1u << 13 | 1u << 19 | 1u << 20 | 1u << 23;
    unsigned a, b, c, d;
    return __get_cpuid(1, &a, &b, &c, &d) != 0 && (c & wanted) == wanted;
}

EFI_STATUS efi_main(EFI_HANDLE image, EFI_SYSTEM_TABLE *table);

EFI_STATUS efi_main(EFI_HANDLE image, EFI_SYSTEM_TABLE *table)
{
    EFI_PHYSICAL_ADDRESS region = 0;
    EFI_STATUS status;
    (void)image;
    uefi = table;
    boot = table->BootServices;
    begin_time();
    if (!runs_archive())
        return fail("the processor isn't one of x86-64-v2", NULL, EFI_UNSUPPORTED);
    status = boot->AllocatePages(AllocateAnyPages, EfiBootServicesData, EFI_SIZE_TO_PAGES(REGION_BYTES), &region);
    if (EFI_ERROR(status))
        return fail("no memory for malloc", NULL, status);
    region_begin((void *)(uintptr_t)region, REGION_BYTES);
    status = use_any();
    boot->FreePages(region, EFI_SIZE_TO_PAGES(REGION_BYTES));
    put(EFI_ERROR(status) ? "block_uefi: no block was read" : "block_uefi: done");
    end_line();
    return status;
}
