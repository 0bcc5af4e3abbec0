/*
 * Plain careful C to measure the proved library against: the same rules with every check, but for the scan for a tag,
 * which makes none. Written for reading and for a compiler that optimises. Nothing else uses it. A refusal is a number, 0
 * for none.
 */
#ifndef PEER_H
#define PEER_H

#include <stddef.h>
#include <stdint.h>

enum {
    PROGRAM_MAX = 16384,
    DATA_MAX = 65535,
    CELLS_MAX = 1024,
    PACK_MAX = 24576,
    ENTRIES_MAX = 64
};

/* A cell of a depth map whose address no path meets. */
enum { UNMET = 65535 };

/* A status is one of these or a fault's number, 1 to 8. */
enum { RUNNING = 0, HALTED = 100 };

typedef struct {
    uint32_t address;
    uint32_t depth;
    uint32_t status;
} peer_state;

typedef struct {
    uint32_t refusal;
    uint32_t steps;
    peer_state state;
} peer_ran;

typedef struct {
    uint32_t refusal;
    uint32_t at;
} peer_verdict;

typedef struct {
    uint32_t refusal;
    uint32_t entries;
} peer_checked;

/* An entry of a pack, its numbers in the order they have there. */
typedef struct {
    uint16_t tag;
    uint16_t cells;
    uint16_t offset;
    uint16_t length;
} peer_entry;

/* The refusal is a word, so that all comes back in two registers: one of 32 bits gcc joins to the entry by way of memory. */
typedef struct {
    size_t refusal;
    peer_entry entry;
} peer_found;

/* At most `budget` steps. Refusals: 20, 21, 22, 24. */
peer_ran peer_run(peer_state state, const uint8_t *program, size_t program_length, uint8_t *data, size_t data_length,
                  uint16_t *cells, size_t cells_length, uint32_t budget);

/* The same, with dcopy by the C library's memmove. */
peer_ran peer_run_memmove(peer_state state, const uint8_t *program, size_t program_length, uint8_t *data,
                          size_t data_length, uint16_t *cells, size_t cells_length, uint32_t budget);

/* The depth map by a cursor that falls back to a lower address. `done` has a byte for each byte of the program. */
peer_verdict peer_verify(const uint8_t *program, size_t program_length, size_t cells, uint16_t *map, size_t map_length,
                         uint8_t *done);

/* The depth map with the addresses still due in a bitmap of two levels. */
peer_verdict peer_verify_bitmap(const uint8_t *program, size_t program_length, size_t cells, uint16_t *map,
                                size_t map_length);

/* Checks a whole pack. Refusals: 30 to 35. */
peer_checked peer_pack_check(const uint8_t *pack, size_t pack_length);

/* The entry with a tag, by a scan from the first one on, in a pack that was checked: nothing is checked here. Refusal: 36. */
peer_found peer_pack_scan(const uint8_t *pack, uint16_t tag);

#endif
