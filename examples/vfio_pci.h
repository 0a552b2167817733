/* A PCI device in a process of Linux, by vfio-pci: its registers, its first interrupt, and memory that it reaches, for the examples. The device is bound
 * to vfio-pci before. It reaches what `map_memory` gave it and nothing else. A fault ends the program with its reason and the status 1. */
#ifndef EXAMPLES_VFIO_PCI_H
#define EXAMPLES_VFIO_PCI_H
#include <endian.h>
#include <errno.h>
#include <fcntl.h>
#include <linux/vfio.h>
#include <poll.h>
#include <stdbool.h>
#include <stdint.h>
#include <stdio.h>
#include <stdlib.h>
#include <string.h>
#include <sys/eventfd.h>
#include <sys/ioctl.h>
#include <sys/mman.h>
#include <time.h>
#include <unistd.h>

enum { PCI_COMMAND = 4, PCI_MEMORY_AND_MASTER = 6, PCI_MASTER = 4, PAGE = 4096 };

static struct {
    int container, group, device, interrupt;
    uint32_t irq;              /* VFIO_PCI_MSIX_IRQ_INDEX and its like */
    bool is_masked, is_master; /* an INTx that came is masked until it is unmasked */
    off_t configuration;       /* where its bytes are, of `device` */
    uint16_t vendor, number;
    volatile uint8_t *registers; /* of BAR 0 */
    uint32_t register_bytes;
    uint64_t sleeps;
} pci;

static void set_command(uint16_t clear, uint16_t set)
{
    uint16_t word = 0;
    if (pread(pci.device, &word, sizeof word, pci.configuration + PCI_COMMAND) == sizeof word) {
        word = htole16((uint16_t)((le16toh(word) & ~clear) | set));
        if (pwrite(pci.device, &word, sizeof word, pci.configuration + PCI_COMMAND) == sizeof word)
            pci.is_master = set != 0;
    }
}

/* Ends the program, and before that what the controller may still do with memory. */
static _Noreturn void fail(const char *what, const char *why)
{
    if (pci.is_master)
        set_command(PCI_MASTER, 0);
    fprintf(stderr, "block_vfio: %s: %s\n", what, why);
    exit(1);
}

static void must(bool good, const char *what)
{
    if (!good)
        fail(what, strerror(errno));
}

static void open_group(const char *address)
{
    char path[300], group[256];
    snprintf(path, sizeof path, "/sys/bus/pci/devices/%s/iommu_group", address);
    ssize_t length = readlink(path, group, sizeof group - 1);
    must(length > 0, "the controller has no IOMMU group");
    group[length] = '\0';
    snprintf(path, sizeof path, "/dev/vfio%s", strrchr(group, '/') ? strrchr(group, '/') : "/");
    must((pci.container = open("/dev/vfio/vfio", O_RDWR | O_CLOEXEC)) >= 0, "/dev/vfio/vfio");
    if (ioctl(pci.container, VFIO_GET_API_VERSION) != VFIO_API_VERSION || ioctl(pci.container, VFIO_CHECK_EXTENSION, VFIO_TYPE1_IOMMU) != 1)
        fail("/dev/vfio/vfio", "it has no type 1 IOMMU");
    must((pci.group = open(path, O_RDWR | O_CLOEXEC)) >= 0, "the controller's group, which vfio-pci has to drive");
    struct vfio_group_status status = { .argsz = sizeof status };
    must(ioctl(pci.group, VFIO_GROUP_GET_STATUS, &status) == 0, "the group's status");
    if (!(status.flags & VFIO_GROUP_FLAGS_VIABLE))
        fail("the controller's group", "another device of it has a driver");
    must(ioctl(pci.group, VFIO_GROUP_SET_CONTAINER, &pci.container) == 0, "the group in its container");
    must(ioctl(pci.container, VFIO_SET_IOMMU, VFIO_TYPE1_IOMMU) == 0, "the IOMMU");
    must((pci.device = ioctl(pci.group, VFIO_GROUP_GET_DEVICE_FD, address)) >= 0, "the controller");
}

static struct vfio_region_info region(uint32_t index)
{
    struct vfio_region_info info = { .argsz = sizeof info, .index = index };
    must(ioctl(pci.device, VFIO_DEVICE_GET_REGION_INFO, &info) == 0, "a region of the controller");
    return info;
}

static void map_registers(void)
{
    struct vfio_region_info bar = region(VFIO_PCI_BAR0_REGION_INDEX);
    if (!(bar.flags & VFIO_REGION_INFO_FLAG_MMAP) || bar.size < PAGE || bar.size > UINT32_MAX)
        fail("the controller's registers", "they can't be mapped");
    void *mapped = mmap(NULL, bar.size, PROT_READ | PROT_WRITE, MAP_SHARED, pci.device, (off_t)bar.offset);
    must(mapped != MAP_FAILED, "the controller's registers");
    pci.registers = mapped;
    pci.register_bytes = (uint32_t)bar.size;
    pci.configuration = (off_t)region(VFIO_PCI_CONFIG_REGION_INDEX).offset;
}

/* Has the kernel write an eventfd at the device's interrupt. */
static void set_interrupt(void)
{
    uint8_t asked[sizeof(struct vfio_irq_set) + sizeof(int32_t)];
    const struct vfio_irq_set set = {
        .argsz = sizeof asked, .flags = VFIO_IRQ_SET_DATA_EVENTFD | VFIO_IRQ_SET_ACTION_TRIGGER, .index = pci.irq, .count = 1
    };
    const int32_t file = pci.interrupt;
    memcpy(asked, &set, sizeof set);
    memcpy(asked + sizeof set, &file, sizeof file);
    must(ioctl(pci.device, VFIO_DEVICE_SET_IRQS, asked) == 0, "the controller's interrupt");
}

/* Takes the first kind of interrupt that the device has, best first. */
static void open_interrupt(void)
{
    static const uint32_t kinds[] = { VFIO_PCI_MSIX_IRQ_INDEX, VFIO_PCI_MSI_IRQ_INDEX, VFIO_PCI_INTX_IRQ_INDEX };
    must((pci.interrupt = eventfd(0, EFD_NONBLOCK | EFD_CLOEXEC)) >= 0, "an eventfd");
    for (size_t i = 0; i < sizeof kinds / sizeof kinds[0]; i++) {
        struct vfio_irq_info info = { .argsz = sizeof info, .index = kinds[i] };
        if (ioctl(pci.device, VFIO_DEVICE_GET_IRQ_INFO, &info) == 0 && info.count > 0 && (info.flags & VFIO_IRQ_INFO_EVENTFD)) {
            pci.irq = kinds[i];
            set_interrupt();
            return;
        }
    }
    fail("the controller's interrupt", "it has none");
}

static void unmask(void)
{
    struct vfio_irq_set set = { .argsz = sizeof set, .flags = VFIO_IRQ_SET_DATA_NONE | VFIO_IRQ_SET_ACTION_UNMASK, .index = pci.irq, .count = 1 };
    must(ioctl(pci.device, VFIO_DEVICE_SET_IRQS, &set) == 0, "the interrupt isn't unmasked");
    pci.is_masked = false;
}

/* Memory that the controller reaches from a DMA address on. */
static uint8_t *map_memory(uint64_t address, uint64_t bytes)
{
    void *memory = mmap(NULL, bytes, PROT_READ | PROT_WRITE, MAP_PRIVATE | MAP_ANONYMOUS, -1, 0);
    must(memory != MAP_FAILED, "memory");
    struct vfio_iommu_type1_dma_map map = {
        .argsz = sizeof map, .flags = VFIO_DMA_MAP_FLAG_READ | VFIO_DMA_MAP_FLAG_WRITE, .vaddr = (uintptr_t)memory, .iova = address, .size = bytes
    };
    must(ioctl(pci.container, VFIO_IOMMU_MAP_DMA, &map) == 0, "memory isn't mapped for the controller");
    return memory;
}

static void unmap_memory(uint64_t address, uint64_t bytes)
{
    struct vfio_iommu_type1_dma_unmap unmap = { .argsz = sizeof unmap, .iova = address, .size = bytes };
    must(ioctl(pci.container, VFIO_IOMMU_UNMAP_DMA, &unmap) == 0 && unmap.size == bytes, "memory isn't unmapped");
}

static uint64_t microseconds(void)
{
    struct timespec time;
    clock_gettime(CLOCK_MONOTONIC, &time);
    return (uint64_t)time.tv_sec * 1000000 + (uint64_t)time.tv_nsec / 1000;
}

static bool take_interrupt(void)
{
    uint64_t count;
    if (read(pci.interrupt, &count, sizeof count) != sizeof count)
        return false;
    pci.is_masked = pci.irq == VFIO_PCI_INTX_IRQ_INDEX;
    return true;
}

/* Waits for an interrupt up to a time in ms, for a second at most. Whether one came. */
static bool await_interrupt(uint64_t until)
{
    struct pollfd readable = { .fd = pci.interrupt, .events = POLLIN };
    if (pci.is_masked)
        unmask();
    if (take_interrupt())
        return true;
    uint64_t time = microseconds() / 1000;
    if (until <= time)
        return false;
    pci.sleeps++;
    must(poll(&readable, 1, until - time > 1000 ? 1000 : (int)(until - time)) >= 0 || errno == EINTR, "no wait");
    return take_interrupt();
}

/* Takes a device, by an address as 0000:00:05.0: its registers, its interrupt, and its accesses to memory, of which none is mapped yet. */
static void open_controller(const char *address)
{
    uint16_t id[2];
    open_group(address);
    map_registers();
    must(pread(pci.device, id, sizeof id, pci.configuration) == sizeof id, "the controller's configuration");
    pci.vendor = le16toh(id[0]);
    pci.number = le16toh(id[1]);
    open_interrupt();
    set_command(0, PCI_MEMORY_AND_MASTER);
    if (!pci.is_master)
        fail("the controller's configuration", "it isn't written");
}

#endif
