/*
 * Memory lent to the library. It stands with one side against pages that nobody may touch and with the other against
 * canaries: a write outside is seen on both sides, a read outside on one; the input chooses which.
 */
#ifndef FUZZ_LENT_H
#define FUZZ_LENT_H

#include "input.h"

#include <stdbool.h>

typedef struct lent {
    uint8_t *bytes;     /* NULL at times where the size is 0 */
    size_t size;        /* in bytes */
    uint8_t *canaries;
    uint8_t *was;       /* a copy, taken when the memory was lent */
} lent;

/* How memory is lent. All 0: as the input says. */
typedef struct lending {
    bool null;          /* no bytes are always NULL */
    unsigned emptied;   /* bit i: room i, the first lent being 0, has no bytes and is NULL */
} lending;

/* Nothing is lent any more; what will be is lent so. */
void lend_anew(lending how);

/* So many bytes from the input. */
lent lend(input *from, size_t size);

/* So many bytes, all alike. */
lent lend_filled(input *from, size_t size);

/* A copy of so many bytes. */
lent lend_copy(input *from, const void *bytes, size_t size);

/* The memory lent last is lent no more. */
void give_back(void);

/* Lent memory that the library may write to and whose size is free: a room, emptied where the way of lending says so. */
lent as_room(lent memory);

/* The rooms lent since memory was lent anew. */
unsigned rooms_lent(void);

/* The bytes that were lent stand there again. */
void restore(const lent *memory);

/* What stands there now is taken for what was lent. */
void remember(const lent *memory);

/* The place at an offset, which is in the memory or at its end. */
uint8_t *place_in(const lent *memory, size_t offset);

/* The 16-bit cells of a memory. */
uint16_t *cells_of(const lent *memory);

/* Promises: nothing around the memory was written; besides, nothing in it; besides, nothing from an offset on. */
void promise_around(const lent *memory);
void promise_kept(const lent *memory);
void promise_kept_from(const lent *memory, size_t offset);

/* The promise that two memories of one size hold the same. */
void promise_same(const lent *one, const lent *other);

#endif
