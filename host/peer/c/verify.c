/* The verifier with a cursor: it goes up to the lowest address met and not yet examined, and falls back to a lower one. */
#include "peer.h"

typedef struct {
    uint16_t *map;
    uint8_t *done;
    uint32_t length;
    uint32_t cursor;
} walk;

/* The lowest address met and not yet examined, which is examined now, or the length. */
static inline uint32_t take(walk *w)
{
    uint32_t at = w->cursor;
    while (at < w->length && (w->map[at] == UNMET || w->done[at])) at++;
    w->cursor = at;
    if (at < w->length) w->done[at] = 1;
    return at;
}

/* Meets an address: the refusal, or 0. */
static inline uint32_t meet(walk *w, uint32_t at, uint32_t depth)
{
    if (at >= w->length) return 1;
    if (w->map[at] == UNMET)
        w->map[at] = depth;
    else if (w->map[at] != depth)
        return 10;
    if (at < w->cursor && !w->done[at]) w->cursor = at;
    return 0;
}

#include "examine.h"

peer_verdict peer_verify(const uint8_t *program, size_t program_length, size_t cells, uint16_t *map, size_t map_length,
                         uint8_t *done)
{
    walk w = {map, done, program_length, 0};
    uint32_t at, refusal, i;

    if (program_length > PROGRAM_MAX) return (peer_verdict){20, 0};
    if (cells > CELLS_MAX) return (peer_verdict){22, 0};
    if (map_length != program_length) return (peer_verdict){23, 0};
    if (program_length == 0) return (peer_verdict){1, 0};
    for (i = 0; i < w.length; i++) {
        map[i] = UNMET;
        done[i] = 0;
    }
    map[0] = 0;
    do {
        at = take(&w);
        if (at == w.length) return (peer_verdict){0, 0};
        refusal = examine(&w, program, w.length, cells, at, map[at]);
    } while (!refusal);
    for (i = 0; i < w.length; i++) map[i] = UNMET;
    return (peer_verdict){refusal, at};
}
