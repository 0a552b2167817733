/* A Data Stage to the device with an Event Data TRB behind it, which tells how many bytes went there (4.11.5.2); and a stop of the command ring that is
 * still to be told when the controller halts, of which nothing comes once it runs anew.
 *
 *   endpoint_0 */
#include "guest_disk.h"

enum { NEXT = CONTROL + 32, BUFFER = CONTROL + 0x800, TOLD = 0x1234, CYCLE = 1, CHAIN = 1 << 4, IOC = 1 << 5, IMMEDIATE = 1 << 6, IN = 1 << 16, ED = 7 };

static void put(uint64_t at, uint64_t parameter, uint32_t status, uint32_t control)
{
    store(at, 8, parameter);
    store(at + 8, 4, status);
    store(at + 12, 4, control | CYCLE);
}

static void is_told(uint64_t pointer, uint32_t length)
{
    struct event event = { 0 };
    must(take_event(&event) && event.type == UAS_TRB_TRANSFER_EVENT && event.code == 1 && event.endpoint == 1, "no event of endpoint 0");
    must(event.pointer == pointer && event.length == length, "another place or length");
}

/* SET_SEL: 6 bytes to the device (USB 3.2, 9.4.12), the first 4 and the last 2 of them in a TRB each. */
static void set_sel(void)
{
    put(NEXT, 0x0006000000003000, 8, 2 << 10 | 2 << 16 | IMMEDIATE);
    put(NEXT + 16, BUFFER, 4, 3 << 10 | CHAIN);
    put(NEXT + 32, BUFFER + 4, 2, 1 << 10 | CHAIN);
    put(NEXT + 48, TOLD, 0, ED << 10 | IOC);
    put(NEXT + 64, 0, 0, 4 << 10 | IN | IOC);
    set(DOORBELL + 4, 4, 1);
    work();
    is_told(TOLD, 6);
    is_told(NEXT + 64, 0);
}

static void halted_with_a_stop_owed(void)
{
    struct event event;
    set(DOORBELL, 4, 0);
    set(CRCR, 8, 2);
    set(USBCMD, 4, 4);
    set(CRCR, 8, COMMANDS | 1);
    set(USBCMD, 4, 5);
    work();
    must(!take_event(&event), "a stop of the ring from before the halt is told");
}

int main(void)
{
    open_guest();
    set_sel();
    halted_with_a_stop_owed();
    uas_xhci_free(guest);
    printf("6 bytes to the device were told, and a stop that was owed at a halt wasn't\n");
}
