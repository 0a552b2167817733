/* Whether the controller of uas_xhci.h, as it was compiled, decides on one copy of what it reads: a guest's processor changes 16 bytes of a ring, a
 * context or an information unit right behind one load of them, and the step is then one of those that it takes where they were this or that
 * from its beginning, in each part of 4 bytes.
 *
 *   read_once [EVERY [SEED]]    looks at each EVERYth step of examples/bench_driver.c
 *
 * Each access to the memory that is lent is trapped: its pages can't be touched, the instruction that does is let through alone, and then the
 * bytes are changed. Each step is taken in processes of its own, from the same state on. First comes something that reads twice, which must be found.
 * For x86-64 and Linux. */
#include "uas_xhci.h"
#include <signal.h>
#include <sys/mman.h>
#include <sys/wait.h>
#include <ucontext.h>
#include <unistd.h>

static uint8_t work_by_steps(uas_xhci *xhci, const struct uas_region *regions, size_t count, uint32_t budget, uint32_t *steps, bool *more);
static uint8_t rings[0x790000] __attribute__((aligned(4096))), first_block[3 * 0x90000 + 0x2f123] __attribute__((aligned(4096)));
#define uas_xhci_work work_by_steps
#define main bench_main
#include "../../examples/bench_driver.c"
#undef main
#undef uas_xhci_work

enum { PAGE = 4096, MOST_LOADS = 4096, CELL = 16, MIXES = 16, AFTER = 4, CHILD_SECONDS = 20, MOST_RACES = 16 };

/* What a process of a step tells: the cells that were loaded, one for each load, and what came of the step. */
static struct told {
    size_t loads;
    uint8_t *loaded[MOST_LOADS];
    uint64_t outcome;
} *told;

static uint32_t every = 200, steps_seen;
static bool reads_twice; /* what is tried isn't the controller */
static uint64_t own_state = 1, steps_tried, races_tried;

static uint32_t own_draw(uint32_t below)
{
    own_state = own_state * 6364136223846793005u + 1442695040888963407u;
    return (uint32_t)((own_state >> 33) % below);
}

/* ---- Traps ---- */

static const struct { uint8_t *begin; size_t length; } spans[] = {
    { rings, sizeof rings }, { first_block, sizeof first_block / PAGE * PAGE }
};

static uint8_t *opened[4], *raced, other[CELL];
static size_t opened_count, race_behind;

static void set_spans(int protection)
{
    for (size_t i = 0; i < 2; i++)
        mprotect(spans[i].begin, spans[i].length, protection);
}

static bool is_trapped(const uint8_t *place)
{
    for (size_t i = 0; i < 2; i++)
        if (place >= spans[i].begin && (size_t)(place - spans[i].begin) < spans[i].length)
            return true;
    return false;
}

/* An instruction that touches a page is let through. */
static void touched(int number, siginfo_t *about, void *context)
{
    ucontext_t *state = context;
    uint8_t *place = about->si_addr;
    if (!is_trapped(place) || opened_count == 4) {
        signal(number, SIG_DFL);
        return;
    }
    if ((state->uc_mcontext.gregs[REG_ERR] & 2) == 0 && told->loads < MOST_LOADS)
        told->loaded[told->loads++] = (uint8_t *)((uintptr_t)place / CELL * CELL);
    opened[opened_count] = (uint8_t *)((uintptr_t)place / PAGE * PAGE);
    mprotect(opened[opened_count++], PAGE, PROT_READ | PROT_WRITE);
    state->uc_mcontext.gregs[REG_EFL] |= 0x100;
}

/* Behind it the bytes are changed, where it is the load that the race is behind. */
static void stepped(int number, siginfo_t *about, void *context)
{
    ucontext_t *state = context;
    (void)number, (void)about;
    if (raced != NULL && told->loads > race_behind) {
        memcpy(raced, other, CELL);
        raced = NULL;
    }
    while (opened_count > 0)
        mprotect(opened[--opened_count], PAGE, PROT_NONE);
    state->uc_mcontext.gregs[REG_EFL] &= ~(greg_t)0x100;
}

/* ---- A step, and what comes of it ---- */

static void note(const void *bytes, size_t length)
{
    for (const uint8_t *at = bytes; length > 0; at++, length--)
        told->outcome = (told->outcome ^ *at) * 0x100000001b3;
}

/* Tests a length and then uses it, in the place of a step. */
static uint8_t read_twice(struct uas_xhci_turn *turn)
{
    const volatile uint32_t *length = (const volatile uint32_t *)(const void *)rings;
    turn->steps = *length < 1000 ? *length : 1000;
    turn->more = turn->steps > 1000;
    return UAS_OK;
}

/* Takes a step; which bytes of a cell it wrote, a bit for each. */
static uint32_t take_step(bool traps, const uint8_t *cell)
{
    static struct uas_range written[256];
    struct uas_xhci_turn turn = { .budget = 1 };
    struct uas_request request = { 0 };
    uint32_t wrote = 0;
    if (traps)
        set_spans(PROT_NONE);
    uint8_t fault = reads_twice ? read_twice(&turn) : uas_xhci_work_noting(xhci, regions, 4, &turn, written, 256);
    if (traps)
        set_spans(PROT_READ | PROT_WRITE);
    MUST(fault == UAS_OK && turn.lost == 0);
    note(&turn, sizeof turn);
    for (size_t i = 0; i < turn.noted; i++) {
        note(&written[i], sizeof written[i]);
        for (uint64_t k = 0; k < written[i].length; k++) {
            const uint8_t *place = at(written[i].address + k);
            note(place, 1);
            if (cell != NULL && place >= cell && place < cell + CELL)
                wrote |= 1u << (place - cell);
        }
    }
    for (uint64_t offset = 0; offset < UAS_XHCI_REGISTER_BYTES; offset += 8) {
        uint64_t value = uas_xhci_read(xhci, offset, 8);
        note(&value, sizeof value);
    }
    while (uas_xhci_next_request(xhci, &request))
        note(&request, offsetof(struct uas_request, through));
    return wrote;
}

/* The step in a process of its own, which is raced behind a load, or has another cell in some of its parts from the beginning on. Then what it didn't
 * write of the cell is as it was, and some steps follow. */
static void take_apart(uint8_t *cell, bool races, size_t behind, uint32_t mix)
{
    told->loads = 0;
    told->outcome = 0xcbf29ce484222325;
    pid_t process = fork();
    if (process == 0) {
        uint8_t before[CELL];
        alarm(CHILD_SECONDS);
        if (cell != NULL)
            memcpy(before, cell, CELL);
        for (size_t part = 0; part < 4 && cell != NULL; part++)
            if (mix >> part & 1)
                memcpy(cell + 4 * part, other + 4 * part, 4);
        raced = races ? cell : NULL;
        race_behind = behind;
        uint32_t wrote = take_step(cell == NULL || races, cell);
        for (size_t k = 0; k < CELL && cell != NULL; k++)
            cell[k] = wrote >> k & 1 ? cell[k] : before[k];
        for (int i = 0; i < AFTER; i++)
            take_step(false, NULL);
        _exit(0);
    }
    int status;
    waitpid(process, &status, 0);
    SAME(status, 0);
}

/* Whether some mix of both contents, from the beginning on, comes to this. */
static bool is_of_a_copy(uint8_t *cell, uint64_t outcome)
{
    for (uint32_t mix = 0; mix < MIXES; mix++) {
        take_apart(cell, false, 0, mix == 1 ? MIXES - 1 : mix == MIXES - 1 ? 1 : mix);
        if (told->outcome == outcome)
            return true;
    }
    return false;
}

/* Another content for a cell: some bits, some bytes, another cycle, or anything. */
static void draw_other(const uint8_t *cell)
{
    uint32_t kind = own_draw(4);
    memcpy(other, cell, CELL);
    if (kind == 0)
        other[12] ^= 1;
    for (int i = 0; i < CELL; i++) {
        uint8_t random = (uint8_t)own_draw(256);
        if (kind == 1)
            other[i] = random;
        else if (kind == 2 || (kind == 3 && random < 64))
            other[i] ^= (uint8_t)(1 + random % 255);
    }
}

/* Races the step that is next with each of its loads, of data with some; whether it was one of a copy each time. */
static bool try_step(void)
{
    static uint8_t *loaded[MOST_LOADS];
    take_apart(NULL, false, 0, 0);
    size_t loads = told->loads;
    memcpy(loaded, told->loaded, loads * sizeof loaded[0]);
    for (size_t race = 0; race < loads && race < MOST_RACES; race++) {
        size_t load = loads <= MOST_RACES ? race : own_draw((uint32_t)loads);
        draw_other(loaded[load]);
        take_apart(loaded[load], true, load, 0);
        races_tried++;
        if (!is_of_a_copy(loaded[load], told->outcome))
            return false;
    }
    steps_tried++;
    return true;
}

/* Whether what reads twice is found. */
static bool finds_what_reads_twice(void)
{
    const struct uas_tasks_unit unit = { BLOCKS, 1, UAS_BLOCK_BYTES };
    int found = 0;
    SAME(uas_xhci_new(&unit, 1, UAS_SET_HOST, 1024, 8, &xhci), UAS_OK);
    reads_twice = true;
    for (int i = 0; i < 100; i++) {
        rings[0] = (uint8_t)i;
        found += !try_step();
    }
    reads_twice = false;
    rings[0] = 0;
    uas_xhci_free(xhci);
    return found > 0;
}

static uint8_t work_by_steps(uas_xhci *controller, const struct uas_region *lent, size_t count, uint32_t budget, uint32_t *steps, bool *more)
{
    uint32_t taken = 1;
    uint8_t fault = UAS_OK;
    for (*steps = 0; *steps < budget && taken > 0 && fault == UAS_OK; *steps += taken) {
        if (steps_seen++ % every == every - 1)
            MUST(try_step());
        fault = uas_xhci_work(controller, lent, count, 1, &taken, more);
    }
    return fault;
}

int main(int words, char **word)
{
    char program[] = "bench_driver", rounds[] = "20", *arguments[] = { program, rounds, NULL };
    struct sigaction trap = { .sa_sigaction = touched, .sa_flags = SA_SIGINFO };
    every = words > 1 ? (uint32_t)strtoul(word[1], NULL, 10) : every;
    own_state = words > 2 ? strtoull(word[2], NULL, 10) : own_state;
    told = mmap(NULL, sizeof *told, PROT_READ | PROT_WRITE, MAP_SHARED | MAP_ANONYMOUS, -1, 0);
    MUST(told != MAP_FAILED);
    sigaction(SIGSEGV, &trap, NULL);
    trap.sa_sigaction = stepped;
    sigaction(SIGTRAP, &trap, NULL);
    MUST(finds_what_reads_twice());
    steps_tried = races_tried = 0;
    int status = bench_main(2, arguments);
    printf("%llu races with %llu steps: each was that of a copy\n", (unsigned long long)races_tried, (unsigned long long)steps_tried);
    return status;
}
