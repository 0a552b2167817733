/* A data-in endpoint that is stopped behind a READ's last bytes and in front of the end of its short TD: the status waits, and once the doorbell is
 * rung again the TD ends as a short packet and the status goes out. Its driver is examples/bench_driver.c.
 *
 *   stopped_read */
#define main bench_main
#include "../../examples/bench_driver.c"
#undef main

enum { TAG = 3 };

/* Events that are still to come, of the READ's data and of its status. */
static void is_to_come(int data, int status)
{
    for (int i = 0; i < 20; i++)
        work(5);
    take_events();
    SAME(expected[DATA_IN][TAG].count, data);
    SAME(expected[STATUS_PIPE][TAG].count, status);
}

int main(void)
{
    const struct uas_tasks_unit unit = { BLOCKS, 1, UAS_BLOCK_BYTES };
    struct piece buffer = { area(TAG) + 0x2000, 1024, IOC | ISP };
    (void)bench_main;
    random_state = 5;
    SAME(uas_xhci_new(&unit, 1, UAS_SET_PROFILE, 64, 8, &xhci), UAS_OK);
    set_up();
    clear(TAG);
    put_td(DATA_IN, TAG, &buffer, 1, 512, 0);
    begin_command(TAG, read_write(false, TAG * ZONE, 1).bytes, DATA_IN, 0);
    for (int i = 0; i < 1000 && memcmp(at(buffer.at), disk + TAG * ZONE * UAS_BLOCK_BYTES, 512) != 0; i++) {
        work(1);
        serve();
    }
    take_events();
    SAME(expected[DATA_IN][TAG].count, 1);
    stop(DATA_IN);
    SAME(stops, 1);
    is_to_come(1, 1);
    ring_doorbell(DATA_IN, TAG);
    is_to_come(0, 0);
    uas_xhci_free(xhci);
    printf("a READ whose data-in endpoint was stopped ended by its doorbell\n");
}
