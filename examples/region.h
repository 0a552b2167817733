/* SPDX-License-Identifier: Apache-2.0 */
/* region.h: malloc, realloc and free over one piece of memory, for a program without a C library (firmware). They are the three functions by
 * which the library asks for memory; beside them it calls memcpy, memmove, memset and memcmp alone. */
#ifndef REGION_H
#define REGION_H

#include <stddef.h>

/* Memory is taken from these bytes, which are the allocator's from now on. What was taken before is forgotten. Less than 64 bytes have room
 * for nothing. */
void region_begin(void *start, size_t size);

/* The most bytes of the region that were in use at one time, what the allocator needs for itself among them. */
size_t region_most(void);

/* As the C standard has them; addresses are multiples of 16. They are not for two threads at once. */
void *malloc(size_t size);
void *realloc(void *old, size_t size);
void free(void *old);

#endif
