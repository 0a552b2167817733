/* examples/region.c beside what it is to be: random pieces that don't overlap, are aligned and keep their bytes; a region that is used up is
 * whole again once all is given back. Its functions are called region_malloc and the like here (-Dmalloc=region_malloc ..). */
#include "region.h"
#include <stdint.h>
#include <stdio.h>
#include <string.h>

enum { PIECES = 200, ROUNDS = 200000 };

static unsigned char memory[1 << 16];
static unsigned char *pieces[PIECES];
static size_t sizes[PIECES];
static uint64_t state = 88172645463325252u;

static uint64_t drawn(void)
{
    state ^= state << 13;
    state ^= state >> 7;
    state ^= state << 17;
    return state;
}

static int wrong(const char *what)
{
    printf("region: %s\n", what);
    return 1;
}

static int is_kept(size_t k, size_t size)
{
    for (size_t i = 0; i < size; i++)
        if (pieces[k][i] != (unsigned char)k)
            return 0;
    return 1;
}

int main(void)
{
    size_t largest = 0, none = 0;
    region_begin(memory + 3, sizeof memory - 3);
    while (malloc(largest + 1024)) {
        region_begin(memory + 3, sizeof memory - 3);
        largest += 1024;
    }
    region_begin(memory + 3, sizeof memory - 3);
    for (int round = 0; round < ROUNDS; round++) {
        const size_t k = drawn() % PIECES, size = drawn() % 900;
        unsigned char *now;
        if (drawn() % 3 == 0) {
            if (pieces[k] && !is_kept(k, sizes[k]))
                return wrong("bytes that were changed");
            free(pieces[k]);
            pieces[k] = NULL;
            sizes[k] = 0;
            continue;
        }
        now = pieces[k] ? realloc(pieces[k], size) : malloc(size);
        if (!now) {
            none++;
            continue;
        }
        if ((uintptr_t)now % 16 || now < memory + 3 || now + size > memory + sizeof memory)
            return wrong("a piece at a wrong place");
        pieces[k] = now;
        if (!is_kept(k, sizes[k] < size ? sizes[k] : size))
            return wrong("bytes that were lost");
        memset(now, (int)k, size);
        sizes[k] = size;
    }
    for (size_t k = 0; k < PIECES; k++) {
        if (pieces[k] && !is_kept(k, sizes[k]))
            return wrong("bytes that another piece wrote over");
        free(pieces[k]);
    }
    if (!none || region_most() > sizeof memory || malloc(sizeof memory) || malloc(SIZE_MAX) || malloc(SIZE_MAX - 20))
        return wrong("what can't be there");
    if (!largest || !malloc(largest))
        return wrong("not whole again");
    region_begin(memory, 8);
    return malloc(0) ? wrong("a piece of nothing") : 0;
}
