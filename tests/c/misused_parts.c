/* Mistakes in calls of the checked archive of uas.h: codecs, device, controller, driver and bus.
 *
 *   misused_parts */
#include "misused.h"
#include "uas.h"

static const uint32_t blocks[] = { 64 };
static uas_device *device;
static uas_controller *controller;
static uas_driver *driver;
static uas_bus *bus;
static uint8_t bytes[UAS_MOST_DATA_BYTES];

static void null_trb(void) { uas_trb_encode(NULL, bytes); }
static void null_unit(void) { uas_unit_read(bytes, 32, NULL); }
static void null_ring(void) { uas_ring_place(0, NULL, NULL, NULL); }
static void null_blocks(void) { uas_device_new(NULL, 1, &device); }
static void null_image(void) { uas_device_open(blocks, 1, NULL, 0, NULL, 0, &device); }
static void null_device(void) { uas_device_reset(NULL); }
static void null_reply(void)
{
    struct uas_bus_door reply;
    uas_bus_reply(bus, 0, NULL, sizeof bytes, &reply);
}
static void null_operation(void)
{
    struct uas_driver_door told;
    uas_driver_submit(driver, 0, 1, 1, NULL, NULL, 0, &told);
}

static void device_for_controller(void) { uas_controller_doorbell((uas_controller *)(void *)device, 0); }
static void controller_for_device(void) { uas_device_sent((uas_device *)(void *)controller, 1); }
static void bus_for_driver(void) { uas_driver_free((uas_driver *)(void *)bus); }
static void driver_for_bus(void) { uas_bus_free((uas_bus *)(void *)driver); }

static void closed_device(void)
{
    uint32_t count;
    uas_device_free(device);
    uas_device_size(device, 0, &count);
}

static void closed_controller(void)
{
    uint16_t tag = 1;
    bool acted;
    uas_controller_free(controller);
    uas_controller_step(controller, UAS_STEP_COMMAND, &tag, &acted);
}

static void closed_driver(void)
{
    uint64_t strays;
    uas_driver_free(driver);
    uas_driver_strays(driver, &strays);
}

static void closed_bus(void)
{
    uas_bus_free(bus);
    uas_bus_blocks(bus, 0, 0, bytes, UAS_BLOCK_BYTES);
}

static const struct mistake mistakes[] = {
    { "uas_trb_encode: trb is a null pointer\n", null_trb },
    { "uas_unit_read: unit is a null pointer\n", null_unit },
    { "uas_ring_place: ring is a null pointer\n", null_ring },
    { "uas_device_new: blocks is a null pointer\n", null_blocks },
    { "uas_device_open: image is a null pointer\n", null_image },
    { "uas_device_reset: device is a null pointer\n", null_device },
    { "uas_bus_reply: data is a null pointer\n", null_reply },
    { "uas_driver_submit: operation is a null pointer\n", null_operation },
    { "uas_controller_doorbell: controller is no uas_controller\n", device_for_controller },
    { "uas_device_sent: device is no uas_device\n", controller_for_device },
    { "uas_driver_free: driver is no uas_driver\n", bus_for_driver },
    { "uas_bus_free: bus is no uas_bus\n", driver_for_bus },
    { "uas_device_size: device is closed\n", closed_device },
    { "uas_controller_step: controller is closed\n", closed_controller },
    { "uas_driver_strays: driver is closed\n", closed_driver },
    { "uas_bus_blocks: bus is closed\n", closed_bus },
};

int main(void)
{
    if (uas_device_new(blocks, 1, &device) != UAS_OK || uas_controller_new(blocks, 1, &controller) != UAS_OK ||
        uas_driver_new(1, &driver) != UAS_OK || uas_bus_new(blocks, 1, &bus) != UAS_OK)
        return 2;
    for (size_t i = 0; i < sizeof mistakes / sizeof mistakes[0]; i++)
        is_told(&mistakes[i]);
    uas_device_free(device);
    uas_controller_free(controller);
    uas_driver_free(driver);
    uas_bus_free(bus);
    return tell("misused_parts");
}
