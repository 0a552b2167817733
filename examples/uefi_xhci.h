/* SPDX-License-Identifier: Apache-2.0 */
/* uefi_xhci.h: an xHCI controller that is taken from firmware and given back, by EFI_PCI_IO_PROTOCOL: its registers, and memory for it. One at a
 * time. */
#ifndef UEFI_XHCI_H
#define UEFI_XHCI_H

#include "uefi.h"

static EFI_GUID pci_io_protocol = EFI_PCI_IO_PROTOCOL_GUID;
static EFI_GUID block_io_protocol = EFI_BLOCK_IO_PROTOCOL_GUID;
static EFI_GUID usb2_hc_protocol = { 0x3e745226, 0x9818, 0x45b6, { 0xa2, 0xac, 0xd7, 0xcd, 0x0e, 0x8b, 0xa2, 0xbc } };
static EFI_GUID usb_io_protocol = { 0x2b2f68d6, 0x0cd2, 0x44cf, { 0x8e, 0x8b, 0xbb, 0xa2, 0x0b, 0x1b, 0x5b, 0x75 } };

static EFI_HANDLE handle;
static EFI_PCI_IO_PROTOCOL *pci;
static volatile uint8_t *registers; /* BAR 0 */
static uint32_t bar_bytes;
static void *buffer, *mapping;
static UINTN buffer_pages;
static UINT64 attributes; /* of the function, as firmware's driver left them */
static bool taken;        /* and they were changed */

enum {
    ALIGNMENT = 65536, /* of the memory that it is lent */
    FIRMWARE_MS = 3000 /* so long firmware's driver has time to find its devices again */
};

/* What firmware has of USB. */
struct found {
    bool driven;        /* it drives the controller */
    UINTN usb, blocks;  /* USB interfaces, and block devices of all kinds */
};

static struct found find(void)
{
    void *interface;
    return (struct found){ boot->HandleProtocol(handle, &usb2_hc_protocol, &interface) == EFI_SUCCESS, count_of(&usb_io_protocol),
                           count_of(&block_io_protocol) };
}

static struct found tell_firmware(const char *when)
{
    const struct found found = find();
    put("block_uefi: ");
    put(when);
    put(found.driven ? " firmware drives the controller" : " firmware doesn't drive the controller");
    put_number(", USB interfaces ", found.usb, "");
    put_number(", block devices ", found.blocks, "");
    end_line();
    return found;
}

/* What GetBarAttributes tells of a BAR: ACPI's QWORD Address Space Descriptor. `least` is the address at which the processor finds it. */
struct __attribute__((packed)) address_space {
    uint8_t kind; /* 8ah */
    uint16_t bytes;
    uint8_t type; /* 0: memory */
    uint8_t flags[2];
    uint64_t granularity, least, most, translation, length;
};

static EFI_STATUS find_registers(void)
{
    struct address_space *found;
    const EFI_STATUS status = pci->GetBarAttributes(pci, 0, NULL, (void **)&found);
    if (EFI_ERROR(status))
        return fail("BAR 0 isn't told", NULL, status);
    const bool good = found->kind == 0x8a && found->type == 0 && found->length > 0;
    registers = (volatile uint8_t *)(uintptr_t)found->least;
    bar_bytes = found->length < UINT32_MAX ? (uint32_t)found->length : UINT32_MAX;
    boot->FreePool(found);
    return good ? EFI_SUCCESS : fail("BAR 0 isn't memory", NULL, EFI_UNSUPPORTED);
}

/* Takes the controller from firmware's driver, and turns memory space and bus mastering on. */
static EFI_STATUS take(void)
{
    EFI_STATUS status = boot->DisconnectController(handle, NULL, NULL);
    if (EFI_ERROR(status) || tell_firmware("now").driven)
        return fail("firmware's driver doesn't leave the controller", NULL, EFI_ERROR(status) ? status : EFI_ACCESS_DENIED);
    status = pci->Attributes(pci, EfiPciIoAttributeOperationGet, 0, &attributes);
    if (EFI_ERROR(status))
        return fail("the function's attributes aren't told", NULL, status);
    status = pci->Attributes(pci, EfiPciIoAttributeOperationEnable, EFI_PCI_IO_ATTRIBUTE_MEMORY | EFI_PCI_IO_ATTRIBUTE_BUS_MASTER, NULL);
    if (EFI_ERROR(status))
        return fail("memory space and bus mastering aren't turned on", NULL, status);
    taken = true;
    return find_registers();
}

/* Allocates memory that the controller reaches: `bytes` from *memory on, which it finds at *address, a multiple of ALIGNMENT. Firmware's buffers are
 * below 4 GiB, unless something else is asked for. */
static EFI_STATUS get_memory(UINTN bytes, uint8_t **memory, uint64_t *address)
{
    EFI_PHYSICAL_ADDRESS base;
    EFI_STATUS status;
    UINTN length;
    buffer_pages = EFI_SIZE_TO_PAGES(ALIGNMENT + bytes);
    status = pci->AllocateBuffer(pci, AllocateAnyPages, EfiBootServicesData, buffer_pages, &buffer, 0);
    if (EFI_ERROR(status)) {
        buffer = NULL;
        return fail("no memory for the controller", NULL, status);
    }
    length = buffer_pages * EFI_PAGE_SIZE;
    status = pci->Map(pci, EfiPciIoOperationBusMasterCommonBuffer, buffer, &length, &base, &mapping);
    if (EFI_ERROR(status)) {
        mapping = NULL;
        return fail("memory can't be mapped", NULL, status);
    }
    if (length < buffer_pages * EFI_PAGE_SIZE)
        return fail("memory is mapped in part", NULL, EFI_OUT_OF_RESOURCES);
    *memory = (uint8_t *)buffer + (-base & (ALIGNMENT - 1));
    *address = base + (-base & (ALIGNMENT - 1));
    return EFI_SUCCESS;
}

static void free_memory(void)
{
    if (mapping != NULL)
        pci->Unmap(pci, mapping);
    if (buffer != NULL)
        pci->FreeBuffer(pci, buffer_pages, buffer);
    buffer = mapping = NULL;
}

/* Gives back a controller that leaves memory alone; firmware drives it again where it did before. */
static EFI_STATUS give_back(struct found before)
{
    EFI_STATUS status = EFI_SUCCESS;
    struct found again;
    free_memory();
    if (taken)
        status = pci->Attributes(pci, EfiPciIoAttributeOperationSet, attributes, NULL);
    taken = false;
    if (EFI_ERROR(status))
        return fail("the function's attributes aren't set", NULL, status);
    if (!before.driven)
        return EFI_SUCCESS;
    status = boot->ConnectController(handle, NULL, NULL, TRUE);
    const uint64_t from = time_now();
    for (again = find(); (again.usb < before.usb || again.blocks < before.blocks) && time_now() - from < FIRMWARE_MS; again = find())
        boot->Stall(10000); /* its driver finds devices in its timer's calls */
    tell_firmware("again");
    if (EFI_ERROR(status) || !again.driven)
        return fail("firmware doesn't drive the controller again", NULL, EFI_ERROR(status) ? status : EFI_NOT_STARTED);
    if (again.usb < before.usb || again.blocks < before.blocks)
        return fail("firmware has less than before", NULL, EFI_DEVICE_ERROR);
    return EFI_SUCCESS;
}

/* Whether it is an xHCI controller, which it tells; `ids` are its device and vendor. */
static bool is_xhci(UINT32 *ids)
{
    UINTN segment, bus, device, function;
    UINT32 class_code;
    if (pci->Pci.Read(pci, EfiPciIoWidthUint32, 8, 1, &class_code) != EFI_SUCCESS || class_code >> 8 != 0x0c0330)
        return false;
    if (pci->Pci.Read(pci, EfiPciIoWidthUint32, 0, 1, ids) != EFI_SUCCESS || pci->GetLocation(pci, &segment, &bus, &device, &function) != EFI_SUCCESS)
        return false;
    put_number("block_uefi: xHCI controller ", segment, ":");
    put_number("", bus, ":");
    put_number("", device, ".");
    put_number("", function, ", device and vendor ");
    put_digits(*ids, 16, 8);
    end_line();
    return true;
}

#endif
