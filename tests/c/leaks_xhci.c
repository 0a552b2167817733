/* Memory of uas_xhci: what new takes free gives back, want of it is answered by its fault and hands nothing out, and no other call takes any.
 *
 *   leaks_xhci */
#include "check.h"
#include "counted.h"
#include "uas_xhci.h"

static const struct uas_tasks_unit units[2] = { { 100, 1, 512 }, { 8, 2, 4096 } };
static uint8_t bytes[4096];

static uint8_t make(uas_xhci **xhci)
{
    return uas_xhci_new(units, 2, UAS_SET_HOST, 64, 8, xhci);
}

/* A controller whose R/S is set, over an event ring of 16 places at 64. */
static void starts(uas_xhci *xhci)
{
    const uint64_t segment[2] = { 64, 16 };
    memcpy(bytes, segment, sizeof segment);
    uas_xhci_write(xhci, 0x628, 4, 1);
    uas_xhci_write(xhci, 0x638, 8, 64);
    uas_xhci_write(xhci, 0x630, 8, 0);
    uas_xhci_write(xhci, 0x40, 4, 1);
}

/* It detects the disk, and tells so. */
static void works(uas_xhci *xhci)
{
    const struct uas_region all = { 0, bytes, sizeof bytes };
    struct uas_range lacking = { 7, 7 }, written[4];
    struct uas_xhci_turn turn = { .budget = 10 };
    struct uas_request request;
    CHECK(uas_xhci_wants(xhci, &all, 1, &lacking) == UAS_OK && lacking.length == 0);
    CHECK(uas_xhci_work_asking(xhci, NULL, 0, &turn, written, 4, &lacking) == UAS_OK && turn.steps == 0 && turn.more == 1 && lacking.length > 0);
    CHECK(uas_xhci_work_noting(xhci, &all, 1, &turn, written, 4) == UAS_OK && turn.steps == 1 && turn.lost == 0 && turn.noted == 1);
    CHECK(written[0].address == 64 && written[0].length == 16);
    CHECK(!uas_xhci_next_request(xhci, &request));
}

static void no_call_asks(void)
{
    uas_xhci *xhci = NULL;
    if (!CHECK(make(&xhci) == UAS_OK && held > 0))
        return;
    long before = held;
    asks = 0;
    starts(xhci);
    works(xhci);
    uas_xhci_plug(xhci, false);
    uas_xhci_reset(xhci);
    CHECK(asks == 0 && held == before);
    uas_xhci_free(xhci);
    CHECK(held == 0);
}

/* Each memory that `new` asks for may be refused; with all of it there is a controller. */
static void each_refused(void)
{
    uas_xhci *xhci = NULL;
    uint8_t fault = UAS_NO_MEMORY;
    unsigned long times = 0;
    for (refused_at = 1; fault != UAS_OK && refused_at < 10000; refused_at++) {
        asks = 0;
        fault = make(&xhci);
        bool refused = asks >= refused_at;
        CHECK(fault == (refused ? UAS_NO_MEMORY : UAS_OK) && (fault == UAS_OK || (xhci == NULL && held == 0)));
        times += refused;
    }
    refused_at = 0;
    CHECK(times > 3 && fault == UAS_OK);
    uas_xhci_free(xhci);
    CHECK(held == 0);
}

static void a_thousand_times(void)
{
    for (int i = 0; i < 1000; i++) {
        uas_xhci *xhci = NULL;
        if (!CHECK(make(&xhci) == UAS_OK && held > 0))
            return;
        uas_xhci_free(xhci);
        if (!CHECK(held == 0))
            return;
    }
}

int main(void)
{
    no_call_asks();
    each_refused();
    a_thousand_times();
    return tell("leaks_xhci");
}
