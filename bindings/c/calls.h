/* What the bodies of calls share. A door takes a pointer to memory also where there is none of it, and one to what it may write also where it
 * doesn't; neither a const handle nor const data is written, as the doors' contracts say of the calls that take them here. */
#ifndef UAS_CALLS_H
#define UAS_CALLS_H

#include "uas.h"

#include <stdlib.h>

static inline uint8_t *bytes_of(const uint8_t *data, size_t length)
{
    static uint8_t none;
    return length > 0 ? (uint8_t *)(uintptr_t)data : &none;
}

#endif
