/* A guest whose other processor writes the memory that is lent while the controller of uas_xhci.h takes its steps: TRBs, contexts, information units
 * and any bytes, under random drivers (random_driver.h). Whatever it finds, the controller touches nothing that isn't lent, takes no more steps than
 * it may, and asks for no block that isn't there.
 *
 *   running_guest [STEPS [SEED]] */
#include "random_driver.h"
#include <pthread.h>
#include <stdatomic.h>

static uint64_t steps_taken, requests, drivers, meanwhile;
static uas_xhci *xhci;
static atomic_bool ended;

static void write_register(uint64_t offset, uint8_t width, uint64_t value)
{
    uas_xhci_write(xhci, offset, width, value);
}

/* ---- The other processor ---- */

static uint64_t other_state;

static uint32_t other_draw(uint32_t below)
{
    other_state = other_state * 6364136223846793005u + 1442695040888963407u;
    return (uint32_t)((other_state >> 33) % below);
}

static void other_store(uint32_t place, const void *bytes, uint32_t length)
{
    for (uint32_t i = 0; i < length; i++)
        __atomic_store_n(homes[(place + i) % BYTES], ((const uint8_t *)bytes)[i], __ATOMIC_RELAXED);
}

/* A TRB of a ring or of the command ring, of any type. */
static void store_trb(void)
{
    static const uint32_t types[] = { 1, 1, 2, 3, 4, 6, 7, 8, 9, 11, 12, 14, 15, 16, 17, 23 };
    uint32_t place = other_draw(4) ? RINGS + 16 * other_draw((DATA - RINGS) / 16) : COMMANDS + 16 * other_draw(250);
    uint64_t pointer = address(other_draw(BYTES));
    uint32_t words[2] = { other_draw(8) ? other_draw(0x20000) : other_draw(UINT32_MAX), types[other_draw(16)] << 10 | other_draw(64) | other_draw(7) << 16 | 1u << 24 };
    other_store(place, &pointer, 8);
    other_store(place + 8, words, 8);
}

/* A field of a context, of the table of event rings or of the array of contexts. */
static void store_field(void)
{
    uint64_t pointer = address(other_draw(BYTES)) & ~(uint64_t)15;
    pointer |= other_draw(16);
    other_store(8 * other_draw(RINGS / 8), &pointer, other_draw(2) ? 8 : 4);
}

static void store_unit(void)
{
    uint8_t field = (uint8_t)other_draw(256);
    other_store(DATA + other_draw(1024), &field, 1);
}

/* Writes fast or slowly, and of all kinds or only what few controllers stop at. */
static void *write_on(void *none)
{
    uint32_t pause = 1u << other_draw(14), kinds = other_draw(3) ? 7 : 8;
    bool spares = other_draw(2);
    while (!atomic_load_explicit(&ended, memory_order_relaxed)) {
        uint32_t kind = other_draw(kinds);
        uint8_t byte = (uint8_t)other_draw(256);
        for (atomic_uint left = other_draw(pause); left > 0; left--)
            ;
        if (kind < 4)
            store_trb();
        else if (kind < 5 && !spares)
            store_field();
        else if (kind < 7)
            store_unit();
        else
            other_store(other_draw(BYTES), &byte, 1);
        meanwhile++;
    }
    return none;
}

/* ---- The first processor ---- */

static void work(uint32_t budget)
{
    static struct uas_range written[64];
    struct uas_xhci_turn turn = { .budget = budget };
    check(uas_xhci_work_noting(xhci, regions, lent, &turn, written, 64) == UAS_OK, "regions were refused");
    check(turn.steps <= budget && turn.noted <= 64, "a call took more steps or places than it was given");
    for (size_t i = 0; i < turn.noted; i++)
        check(written[i].address - base < BYTES && written[i].length <= BYTES - (written[i].address - base), "a range that isn't there was noted");
    steps_taken += turn.steps;
}

static void answer(void)
{
    static uint8_t bytes[8 * 512];
    struct uas_request request;
    while (uas_xhci_next_request(xhci, &request)) {
        bool moves = request.kind <= UAS_REQUEST_COMPARE, reads = request.kind == UAS_REQUEST_READ;
        check(request.block <= 64 && request.count <= 64 - request.block && (!moves || request.count <= 8), "a request beyond the disk");
        size_t length = (size_t)request.count * 512;
        if (moves && !reads)
            check(uas_xhci_data(xhci, request.number, bytes, length) == UAS_OK, "a request's bytes aren't there");
        check(uas_xhci_answered(xhci, request.number, UAS_DONE, bytes, reads ? length : 0) == UAS_OK, "an answer was refused");
        requests++;
    }
}

static void call(void)
{
    uint32_t kind = draw(8);
    if (kind < 4)
        work(1 + draw(60));
    else if (kind < 5)
        answer();
    else
        random_write();
    if (uas_xhci_read(xhci, 0x44, 4) & 1)
        begin();
}

/* A driver, beside which the other processor writes. */
static void drive(uint64_t seed)
{
    const struct uas_tasks_unit unit = { 64, 1, UAS_BLOCK_BYTES };
    pthread_t other;
    state = seed * 0x9e3779b97f4a7c15;
    other_state = ~state;
    lend();
    check(uas_xhci_new(&unit, 1, draw(2) ? UAS_SET_HOST : UAS_SET_PROFILE, 64, 8, &xhci) == UAS_OK, "no controller");
    begin();
    atomic_store(&ended, false);
    check(pthread_create(&other, NULL, write_on, NULL) == 0, "no thread");
    for (int i = 0; i < CALLS; i++)
        call();
    atomic_store(&ended, true);
    pthread_join(other, NULL);
    uas_xhci_free(xhci);
    drivers++;
}

int main(int words, char **word)
{
    uint64_t steps = words > 1 ? strtoull(word[1], NULL, 10) : 100000, seed = words > 2 ? strtoull(word[2], NULL, 10) : 1;
    make_pages();
    while (steps_taken < steps)
        drive(seed << 32 | drivers);
    printf("%llu steps of %llu drivers beside %llu writes, %llu requests, %llu events\n", (unsigned long long)steps_taken, (unsigned long long)drivers,
           (unsigned long long)meanwhile, (unsigned long long)requests, (unsigned long long)events);
}
