/* The verifier with the addresses still due as bits of words, and a second level that says which words are not 0. */
#include "peer.h"

typedef struct {
    uint16_t *map;
    uint32_t length;
    uint64_t *words;
    uint64_t *tops;
} walk;

static inline void put(walk *w, uint32_t at)
{
    w->words[at >> 6] |= 1ull << (at & 63);
    w->tops[at >> 12] |= 1ull << ((at >> 6) & 63);
}

/* The lowest address due, which is due no longer, or PROGRAM_MAX. */
static inline uint32_t take(walk *w)
{
    uint32_t i, at;
    for (i = 0; i < 4 && !w->tops[i]; i++) {
    }
    if (i == 4) return PROGRAM_MAX;
    i = i * 64 + __builtin_ctzll(w->tops[i]);
    at = i * 64 + __builtin_ctzll(w->words[i]);
    w->words[i] &= w->words[i] - 1;
    if (!w->words[i]) w->tops[i >> 6] &= ~(1ull << (i & 63));
    return at;
}

/* Meets an address: the refusal, or 0. */
static inline uint32_t meet(walk *w, uint32_t at, uint32_t depth)
{
    if (at >= w->length) return 1;
    if (w->map[at] == UNMET) {
        w->map[at] = depth;
        put(w, at);
    } else if (w->map[at] != depth) {
        return 10;
    }
    return 0;
}

#include "examine.h"

peer_verdict peer_verify_bitmap(const uint8_t *program, size_t program_length, size_t cells, uint16_t *map,
                                size_t map_length)
{
    uint64_t words[PROGRAM_MAX / 64] = {0}, tops[PROGRAM_MAX / 64 / 64] = {0};
    walk w = {map, program_length, words, tops};
    uint32_t at, refusal, i;

    if (program_length > PROGRAM_MAX) return (peer_verdict){20, 0};
    if (cells > CELLS_MAX) return (peer_verdict){22, 0};
    if (map_length != program_length) return (peer_verdict){23, 0};
    if (program_length == 0) return (peer_verdict){1, 0};
    for (i = 0; i < w.length; i++) map[i] = UNMET;
    map[0] = 0;
    put(&w, 0);
    do {
        at = take(&w);
        if (at == PROGRAM_MAX) return (peer_verdict){0, 0};
        refusal = examine(&w, program, w.length, cells, at, map[at]);
    } while (!refusal);
    for (i = 0; i < w.length; i++) map[i] = UNMET;
    return (peer_verdict){refusal, at};
}
