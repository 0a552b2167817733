/* Memory that is counted, and refused at will, for programs linked so that malloc, realloc and free go through this file:
 * --wrap=malloc,--wrap=realloc,--wrap=free. */
#ifndef UAS_TESTS_COUNTED_H
#define UAS_TESTS_COUNTED_H

#include <stddef.h>

void *__real_malloc(size_t size);
void *__real_realloc(void *block, size_t size);
void __real_free(void *block);

static long held;          /* blocks that weren't freed */
static unsigned long asks; /* calls that ask for memory */
static unsigned long refused_at;

void *__wrap_malloc(size_t size)
{
    if (++asks == refused_at)
        return NULL;
    void *block = __real_malloc(size);
    held += block != NULL;
    return block;
}

void *__wrap_realloc(void *block, size_t size)
{
    if (++asks == refused_at)
        return NULL;
    void *moved = __real_realloc(block, size);
    held += block == NULL && moved != NULL;
    return moved;
}

void __wrap_free(void *block)
{
    held -= block != NULL;
    __real_free(block);
}

#endif
