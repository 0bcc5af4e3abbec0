/*
 * The run: on every step the checks 1, 2, 3, 2 on the second byte, 4, 5, 6, 7, 8 in this order. Before it is included, RUN is its name
 * and MOVE(to, from, count) copies bytes whose ranges may overlap as if all were read before any is written.
 */
#include "peer.h"

#define FAULT(number)                                                                                                  \
    do {                                                                                                               \
        status = (number);                                                                                             \
        goto out;                                                                                                      \
    } while (0)

/* Check 5 where nothing is taken. */
#define SPACE(pushed)                                                                                                  \
    do {                                                                                                               \
        if (depth + (pushed) > cn) FAULT(5);                                                                           \
    } while (0)

/* Checks 4 and 5. */
#define NEED(taken, pushed)                                                                                            \
    do {                                                                                                               \
        if (depth < (taken)) FAULT(4);                                                                                 \
        if (depth - (taken) + (pushed) > cn) FAULT(5);                                                                 \
    } while (0)

/* Check 6. */
#define RANGE(place, width)                                                                                            \
    do {                                                                                                               \
        if ((uint32_t)(place) + (width) > dn) FAULT(6);                                                                \
    } while (0)

/* The operands: A is the top. */
#define A cells[cn - depth]
#define B cells[cn - depth + 1]
#define C cells[cn - depth + 2]

/* Takes so many values and pushes one. */
#define REPLACE(taken, value)                                                                                          \
    do {                                                                                                               \
        uint16_t made = (value);                                                                                       \
        depth = depth - (taken) + 1;                                                                                   \
        A = made;                                                                                                      \
    } while (0)

#define WORD(place) (uint16_t)(data[place] | data[(place) + 1] << 8)

#define STORE_BYTE(taken, place, value)                                                                                \
    do {                                                                                                               \
        uint16_t kept = (value);                                                                                       \
        RANGE(place, 1);                                                                                               \
        data[place] = kept;                                                                                            \
        REPLACE(taken, kept & 255);                                                                                    \
    } while (0)

#define STORE_WORD(taken, place, value)                                                                                \
    do {                                                                                                               \
        uint16_t kept = (value);                                                                                       \
        RANGE(place, 2);                                                                                               \
        data[place] = kept;                                                                                            \
        data[(place) + 1] = kept >> 8;                                                                                 \
        REPLACE(taken, kept);                                                                                          \
    } while (0)

/* An operation on a and b: with b taken, with a one-byte number for b, with a two-byte number. */
#define TWO(code, result)                                                                                              \
    case code: {                                                                                                       \
        uint16_t a, b;                                                                                                 \
        NEED(2, 1);                                                                                                    \
        a = A;                                                                                                         \
        b = B;                                                                                                         \
        REPLACE(2, result);                                                                                            \
        break;                                                                                                         \
    }                                                                                                                  \
    case code + 0x1A:                                                                                                  \
    case code + 0x36: {                                                                                                \
        uint16_t a, b = x;                                                                                             \
        NEED(1, 1);                                                                                                    \
        a = A;                                                                                                         \
        A = result;                                                                                                    \
        break;                                                                                                         \
    }

peer_ran RUN(peer_state state, const uint8_t *program, size_t program_length, uint8_t *data, size_t data_length,
             uint16_t *cells, size_t cells_length, uint32_t budget)
{
    uint32_t pn = program_length, dn = data_length, cn = cells_length;
    uint32_t at = state.address, depth = state.depth, status = RUNNING, steps = 0;

    if (program_length > PROGRAM_MAX) return (peer_ran){20, 0, state};
    if (data_length > DATA_MAX) return (peer_ran){21, 0, state};
    if (cells_length > CELLS_MAX) return (peer_ran){22, 0, state};
    if (depth > cn) return (peer_ran){24, 0, state};
    if (state.status != RUNNING) return (peer_ran){0, 0, state};

    while (steps < budget) {
        uint32_t x = 0, place, next;
        uint8_t code;

        if (at >= pn) FAULT(1);
        code = program[at];
        if (code < 0x25) {
            next = at + 1;
        } else if (code < 0x41) {
            next = at + 2;
            if (next > pn) FAULT(3);
            x = program[at + 1];
            if ((code == 0x31 || code == 0x32) && x > 15) FAULT(2);
        } else if (code < 0x5B) {
            next = at + 3;
            if (next > pn) FAULT(3);
            x = program[at + 1] | program[at + 2] << 8;
        } else if (code < 0x80) {
            FAULT(2);
        } else if (code < 0xC0) {
            SPACE(1);
            depth++;
            A = code & 63;
            at++;
            steps++;
            continue;
        } else {
            uint32_t count = (code & 3) + 1, flags = (code >> 2) & 15, from = at + 1, i;
            if (flags >> count) FAULT(2);
            next = at + 1 + count + __builtin_popcount(flags);
            if (next > pn) FAULT(3);
            SPACE(count);
            for (i = 0; i < count; i++) {
                uint16_t value = program[from++];
                if (flags >> i & 1) value |= program[from++] << 8;
                depth++;
                A = value;
            }
            at = next;
            steps++;
            continue;
        }

        switch (code) {
        case 0x00:
            status = HALTED;
            steps++;
            goto out;
        case 0x01: NEED(1, 0); depth--; break;
        case 0x02:
        case 0x03: {
            uint32_t to, from, count, i;
            NEED(3, 1);
            to = A;
            from = B;
            count = C;
            RANGE(to, count);
            if (code == 0x02) {
                RANGE(from, count);
                MOVE(data + to, data + from, count);
            } else {
                if (from + count > pn) FAULT(7);
                for (i = 0; i < count; i++) data[to + i] = program[from + i];
            }
            REPLACE(3, to + count);
            break;
        }
        case 0x04: {
            uint16_t top;
            NEED(2, 2);
            top = A;
            A = B;
            B = top;
            break;
        }
        case 0x05: NEED(1, 1); place = A; A = next; next = place; break;
        case 0x06: NEED(1, 0); next = A; depth--; break;
        case 0x07: NEED(2, 0); if (B) next = A; depth -= 2; break;
        case 0x08: NEED(2, 0); if (!B) next = A; depth -= 2; break;
        case 0x09:
            NEED(1, 0);
            if (A) FAULT(8);
            depth--;
            status = HALTED;
            steps++;
            goto out;
        case 0x0A: NEED(1, 0); FAULT(8);
        TWO(0x0B, a == b)
        TWO(0x0C, a != b)
        TWO(0x0D, a <= b)
        TWO(0x0E, a > b)
        TWO(0x0F, a < b)
        TWO(0x10, a >= b)
        TWO(0x11, a & b)
        TWO(0x12, a | b)
        TWO(0x13, a ^ b)
        TWO(0x14, a + b)
        TWO(0x15, a - b)
        TWO(0x16, (uint32_t)a * b)
        case 0x17: NEED(2, 1); REPLACE(2, B >= 16 ? 0 : A << B); break;
        case 0x18: NEED(2, 1); REPLACE(2, B >= 16 ? 0 : A >> B); break;
        case 0x19: NEED(1, 1); A = A + 1; break;
        case 0x1A: NEED(1, 1); A = A - 1; break;
        case 0x1B: NEED(1, 1); A = ~A; break;
        case 0x1C: NEED(1, 1); A = -A; break;
        case 0x1D: NEED(1, 1); place = A; RANGE(place, 1); A = data[place]; break;
        case 0x1E: NEED(1, 1); place = A; RANGE(place, 2); A = WORD(place); break;
        case 0x1F: NEED(2, 1); place = (uint32_t)A + B; RANGE(place, 1); REPLACE(2, data[place]); break;
        case 0x20: NEED(2, 1); place = (uint32_t)A + B; RANGE(place, 2); REPLACE(2, WORD(place)); break;
        case 0x21: NEED(2, 1); place = A; STORE_BYTE(2, place, B); break;
        case 0x22: NEED(2, 1); place = A; STORE_WORD(2, place, B); break;
        case 0x23: NEED(3, 1); place = (uint32_t)A + B; STORE_BYTE(3, place, C); break;
        case 0x24: NEED(3, 1); place = (uint32_t)A + B; STORE_WORD(3, place, C); break;
        case 0x31: NEED(1, 1); A = A << x; break;
        case 0x32: NEED(1, 1); A = A >> x; break;
        case 0x33: case 0x4D: SPACE(1); RANGE(x, 1); REPLACE(0, data[x]); break;
        case 0x34: case 0x4E: SPACE(1); RANGE(x, 2); REPLACE(0, WORD(x)); break;
        case 0x35: case 0x4F: NEED(1, 1); place = A + x; RANGE(place, 1); A = data[place]; break;
        case 0x36: case 0x50: NEED(1, 1); place = A + x; RANGE(place, 2); A = WORD(place); break;
        case 0x37: case 0x51: NEED(1, 1); STORE_BYTE(1, x, A); break;
        case 0x38: case 0x52: NEED(1, 1); STORE_WORD(1, x, A); break;
        case 0x39: case 0x53: NEED(2, 1); place = A + x; STORE_BYTE(2, place, B); break;
        case 0x3A: case 0x54: NEED(2, 1); place = A + x; STORE_WORD(2, place, B); break;
        case 0x3B: case 0x55: SPACE(1); REPLACE(0, next); next = x; break;
        case 0x3C: case 0x56: next = x; break;
        case 0x3D: case 0x57: NEED(1, 0); if (A) next = x; depth--; break;
        case 0x3E: case 0x58: NEED(1, 0); if (!A) next = x; depth--; break;
        case 0x3F: case 0x59:
            if (x) FAULT(8);
            status = HALTED;
            steps++;
            goto out;
        case 0x40: case 0x5A: FAULT(8);
        default: FAULT(2);
        }
        at = next;
        steps++;
    }
out:
    return (peer_ran){0, steps, {at, depth, status}};
}
