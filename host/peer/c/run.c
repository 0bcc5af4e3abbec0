/* The run that copies byte by byte: lowest address first, but for a target that begins inside its source. */
#include <stddef.h>
#include <stdint.h>

static void move_bytes(uint8_t *to, const uint8_t *from, size_t count)
{
    if (to <= from || (size_t)(to - from) >= count) {
        for (size_t i = 0; i < count; i++) to[i] = from[i];
    } else {
        while (count-- > 0) to[count] = from[count];
    }
}

#define RUN peer_run
#define MOVE move_bytes
#include "run.h"
