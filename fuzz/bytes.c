/* The C library's functions over bytes, not called where there are none. */
#include "bytes.h"

#include <string.h>

bool same_bytes(const void *one, const void *other, size_t size)
{
    return size == 0 || memcmp(one, other, size) == 0;
}

void copy_bytes(void *to, const void *from, size_t size)
{
    if (size > 0)
        memcpy(to, from, size);
}

void fill_bytes(void *to, uint8_t byte, size_t size)
{
    if (size > 0)
        memset(to, byte, size);
}
