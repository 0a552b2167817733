/* QEMU's own xHCI controller with its USB Attached SCSI disk, set up for streams (xHCI 1.2, 4.2, 4.3 and 4.6): slot 1, the disk's configuration 1,
 * and its four pipes, with 256 streams each but for the command pipe. */
#ifndef QEMU_XHCI_H
#define QEMU_XHCI_H

#include "qtest.h"

/* Where things lie: the controller's registers, and in guest memory what it is told of. */
#define BAR 0xe0000000u
enum { PCI_DEVICE = 4, SLOT = 1, DCBAA = 0x200000, SEGMENTS = 0x201000, INPUT = 0x202000, OUTPUT = 0x203000, CONTROL_RING = 0x204000,
       SETUP_RING = 0x205000, EVENT_RING = 0x210000, EVENT_PLACES = 4096, STREAM_ARRAYS = 0x220000 };

/* Types of TRBs (6.4.6). */
enum { TRB_SETUP = 2, TRB_STATUS_STAGE = 4, TRB_ENABLE_SLOT = 9, TRB_ADDRESS_DEVICE = 11, TRB_CONFIGURE_ENDPOINT = 12, TRB_TRANSFER = 32,
       TRB_COMMAND = 33, TRB_PORT_STATUS = 34 };

/* The pipes of usb-uas, by endpoint ID. */
enum { DCI_COMMAND = 2, DCI_STATUS = 5, DCI_DATA_IN = 7, DCI_DATA_OUT = 8 };

struct event {
    uint64_t pointer;
    uint32_t length;
    uint8_t type, code, endpoint, slot;
};

static uint64_t operational, runtime, doorbells;
static uint32_t next_event, event_cycle, next_setup;

static void ring_doorbell(uint32_t slot, uint32_t value)
{
    set_reg(doorbells + 4 * slot, value);
}

/* Takes the next event off the event ring, if there is one. */
static bool next_of_ring(struct event *event)
{
    uint64_t place = EVENT_RING + 16 * (uint64_t)next_event;
    uint32_t last = guest_word(place + 12), words[3];
    if ((last & 1) != event_cycle)
        return false;
    memcpy(words, guest(place), sizeof words);
    *event = (struct event){ .pointer = words[0] | (uint64_t)words[1] << 32, .length = words[2] & 0xffffff, .code = (uint8_t)(words[2] >> 24),
                             .type = last >> 10 & 63, .endpoint = last >> 16 & 31, .slot = (uint8_t)(last >> 24) };
    if (++next_event == EVENT_PLACES) {
        next_event = 0;
        event_cycle ^= 1;
    }
    if (next_event % 256 == 0)
        set_reg(runtime + 0x38, (uint32_t)(EVENT_RING + 16 * next_event) | 8); /* Event Ring Dequeue Pointer */
    return true;
}

/* Waits for an event of this type, and wants this code. */
static struct event wait_for(uint8_t type, uint8_t code)
{
    struct event event;
    settle();
    for (unsigned tries = 0; tries < 100000; tries++) {
        if (!next_of_ring(&event)) {
            usleep(100);
            continue;
        }
        if (event.type == TRB_PORT_STATUS)
            continue;
        if (event.type != type || event.code != code)
            fail("another event in the setup", event.code);
        return event;
    }
    fail("no event in the setup", type);
    return event;
}

/* A command of the setup, by its parameter, type and slot. */
static struct event command(uint64_t parameter, uint32_t type, uint32_t slot)
{
    uint32_t trb[4] = { (uint32_t)parameter, (uint32_t)(parameter >> 32), 0, 1 | type << 10 | slot << 24 };
    set_guest_trb(SETUP_RING + 16 * (uint64_t)next_setup++, trb);
    ring_doorbell(0, 0);
    return wait_for(TRB_COMMAND, 1);
}

static void set_pointer(uint64_t at, uint64_t value)
{
    set_reg(at, (uint32_t)value);
    set_reg(at + 4, (uint32_t)(value >> 32));
}

/* Resets the controller and has it run with an event ring, and a command ring for the setup. */
static void run_controller(void)
{
    set_reg(operational, 0);
    set_reg(operational, 2); /* HCRST */
    while (reg(operational) & 2)
        usleep(100);
    memset(guest(DCBAA), 0, STREAM_ARRAYS + 0x10000 - DCBAA);
    next_event = next_setup = 0;
    event_cycle = 1;
    uint64_t output = OUTPUT, segment[2] = { EVENT_RING, EVENT_PLACES };
    memcpy(guest(DCBAA + 8 * SLOT), &output, sizeof output);
    memcpy(guest(SEGMENTS), segment, sizeof segment);
    set_reg(operational + 0x38, SLOT);
    set_pointer(operational + 0x30, DCBAA);
    set_pointer(operational + 0x18, SETUP_RING | 1);
    set_reg(runtime + 0x28, 1);
    set_pointer(runtime + 0x38, EVENT_RING);
    set_pointer(runtime + 0x30, SEGMENTS);
    set_reg(operational, 1);
}

/* The port, from 1 on, at which there is a device of SuperSpeed. */
static uint32_t find_port(void)
{
    uint32_t ports = reg(BAR + 4) >> 24;
    for (uint32_t port = 1; port <= ports; port++) {
        uint32_t status = reg(operational + 0x400 + 16 * (port - 1));
        if ((status & 1) && (status >> 10 & 15) == 4)
            return port;
    }
    fail("no device of SuperSpeed", ports);
    return 0;
}

/* An endpoint context (6.2.3) of the input context. */
static void set_endpoint(uint32_t endpoint, uint32_t streams, uint32_t type, uint32_t packet, uint64_t dequeue)
{
    uint32_t words[5] = { streams != 0 ? streams << 10 | 1u << 15 : 0, 3u << 1 | type << 3 | packet << 16, (uint32_t)dequeue,
                          (uint32_t)(dequeue >> 32), packet };
    memcpy(guest(INPUT + 32 + 32 * endpoint), words, sizeof words);
}

/* The disk gets an address, its configuration and its pipes; the streams' contexts have been written. */
static void configure_disk(uint64_t command_pipe)
{
    enum { BULK_OUT = 2, CONTROL = 4, BULK_IN = 6, MOST_STREAMS = 7 };
    if (command(0, TRB_ENABLE_SLOT, 0).slot != SLOT)
        fail("another slot", 0);
    uint32_t control[2] = { 0, 3 }, slot[2] = { 1u << 27 | 4u << 20, find_port() << 16 };
    memcpy(guest(INPUT), control, sizeof control);
    memcpy(guest(INPUT + 32), slot, sizeof slot);
    set_endpoint(1, 0, CONTROL, 512, CONTROL_RING | 1);
    command(INPUT, TRB_ADDRESS_DEVICE, SLOT);
    uint32_t set_configuration[4] = { 0x00010900, 0, 8, 1 | 1u << 6 | TRB_SETUP << 10 }, stage[4] = { 0, 0, 0, 1 | 1u << 5 | TRB_STATUS_STAGE << 10 | 1u << 16 };
    set_guest_trb(CONTROL_RING + 16, stage);
    set_guest_trb(CONTROL_RING, set_configuration);
    ring_doorbell(SLOT, 1);
    wait_for(TRB_TRANSFER, 1);
    control[1] = 1 | 1u << DCI_COMMAND | 1u << DCI_STATUS | 1u << DCI_DATA_IN | 1u << DCI_DATA_OUT;
    slot[0] = (uint32_t)DCI_DATA_OUT << 27 | 4u << 20;
    memcpy(guest(INPUT), control, sizeof control);
    memcpy(guest(INPUT + 32), slot, sizeof slot);
    set_endpoint(DCI_COMMAND, 0, BULK_OUT, 1024, command_pipe | 1);
    set_endpoint(DCI_STATUS, MOST_STREAMS, BULK_IN, 1024, STREAM_ARRAYS);
    set_endpoint(DCI_DATA_IN, MOST_STREAMS, BULK_IN, 1024, STREAM_ARRAYS + 0x1000);
    set_endpoint(DCI_DATA_OUT, MOST_STREAMS, BULK_OUT, 1024, STREAM_ARRAYS + 0x2000);
    command(INPUT, TRB_CONFIGURE_ENDPOINT, SLOT);
}

/* Stops the command ring of the setup, and hands the controller another one. */
static void change_command_ring(uint64_t commands)
{
    set_pointer(operational + 0x18, 4); /* Command Stop */
    wait_for(TRB_COMMAND, 24);
    set_pointer(operational + 0x18, commands | 1);
}

/* The state of an endpoint, by its context (6.2.3). */
static uint8_t endpoint_state(uint32_t endpoint)
{
    return guest_word(OUTPUT + 32 * (uint64_t)endpoint) & 7;
}

static void start_controller(void)
{
    static const char *const words[] = { "-device", "qemu-xhci,id=xhci,addr=4", "-drive", "if=none,id=disk,file=disk,format=raw,throttling.iops-total=500", "-device",
                                         "usb-uas,id=uas,bus=xhci.0", "-device", "scsi-hd,bus=uas.0,scsi-id=0,lun=0,drive=disk", NULL };
    start_qemu(words);
    set_config(PCI_DEVICE, 0x10, BAR);
    set_config(PCI_DEVICE, 0x14, 0);
    set_config(PCI_DEVICE, 4, 6); /* memory space, bus master */
    operational = BAR + (reg(BAR) & 0xff);
    doorbells = BAR + reg(BAR + 0x14);
    runtime = BAR + reg(BAR + 0x18);
}

#endif
