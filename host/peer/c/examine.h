/*
 * One address examined, for a file that has its own `walk` and `meet` and includes this after them: the checks 2, 3, 2 on
 * the second byte, 9, 4, 5, 8 in this order, then the next instruction and the target are met. Gives the refusal, or 0.
 */
#include "shape.h"

static inline uint32_t examine(walk *w, const uint8_t *program, uint32_t pn, uint32_t cells, uint32_t at, uint32_t depth)
{
    uint32_t length, taken, pushed, after, x = 0, refusal;
    uint8_t code = program[at];

    if (!shape(code, &length, &taken, &pushed)) return 2;
    if (at + length > pn) return 3;
    if (length > 1 && code < 0x80) {
        x = program[at + 1];
        if (code >= 0x41) x |= program[at + 2] << 8;
    }
    if ((code == 0x31 || code == 0x32) && x > 15) return 2;
    if ((code >= 0x05 && code <= 0x0A) || code == 0x3B || code == 0x55) return 9;
    if (depth < taken) return 4;
    after = depth - taken + pushed;
    if (after > cells) return 5;
    if ((code == 0x3F || code == 0x59) && x) return 8;
    if (code == 0x40 || code == 0x5A) return 8;
    if (code == 0x00 || code == 0x3F || code == 0x59) return 0;
    if (code == 0x3C || code == 0x56) return meet(w, x, after);
    refusal = meet(w, at + length, after);
    if (refusal) return refusal;
    if (code == 0x3D || code == 0x57 || code == 0x3E || code == 0x58) return meet(w, x, after);
    return 0;
}
