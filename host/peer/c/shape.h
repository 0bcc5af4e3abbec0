/* The shapes of the first bytes. */
#ifndef SHAPE_H
#define SHAPE_H

#include "peer.h"

/* Length, values taken and values pushed by the first byte; 0 where it is illegal. */
static inline int shape(uint8_t code, uint32_t *length, uint32_t *taken, uint32_t *pushed)
{
    static const uint8_t plain_taken[0x25] = {0, 1, 3, 3, 2, 1, 1, 2, 2, 1, 1, 2, 2, 2, 2, 2, 2, 2, 2,
                                              2, 2, 2, 2, 2, 2, 1, 1, 1, 1, 1, 1, 2, 2, 2, 2, 3, 3};
    static const uint8_t plain_pushed[0x25] = {0, 0, 1, 1, 2, 1, 0, 0, 0, 0, 0, 1, 1, 1, 1, 1, 1, 1, 1,
                                               1, 1, 1, 1, 1, 1, 1, 1, 1, 1, 1, 1, 1, 1, 1, 1, 1, 1};
    /* four loads, four stores, call, jump, two branches */
    static const uint8_t number_taken[12] = {0, 0, 1, 1, 1, 1, 2, 2, 0, 0, 1, 1};

    if (code < 0x25) {
        *length = 1;
        *taken = plain_taken[code];
        *pushed = plain_pushed[code];
        return 1;
    }
    if (code < 0x5B) {
        int width = code < 0x41 ? 1 : 2, i = code < 0x41 ? code - 0x25 : code - 0x41;
        *length = 1 + width;
        *taken = 1;
        *pushed = 1;
        if (i < 12) return 1;
        i -= 12;
        if (width == 1) {
            if (i < 2) return 1;
            i -= 2;
        }
        if (i < 12) {
            *taken = number_taken[i];
            *pushed = i <= 8;
            return 1;
        }
        *taken = 0;
        *pushed = 0;
        return 1;
    }
    if (code < 0x80) return 0;
    *taken = 0;
    if (code < 0xC0) {
        *length = 1;
        *pushed = 1;
        return 1;
    }
    {
        int count = (code & 3) + 1, flags = (code >> 2) & 15;
        if (flags >> count) return 0;
        *length = 1 + count + __builtin_popcount(flags);
        *pushed = count;
        return 1;
    }
}

#endif
