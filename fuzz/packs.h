/* Packs from the input, and what is said of them, for the trials of packs, of the lookup, of the report and of the admission. */
#ifndef FUZZ_PACKS_H
#define FUZZ_PACKS_H

#include "khalixoshi.h"
#include "lent.h"

/* Bytes of the count, with which a pack begins, and of an entry. */
enum { HEAD = 2, FIELDS = 8 };

/* Any bytes, or a pack written from lists, or such a pack with a byte changed. */
lent take_pack(input *from);

/* The number at a place, and the entry at an index, as they stand in the bytes, good or not. */
uint16_t number_at(const lent *pack, size_t at);
khx_entry entry_in(const lent *pack, size_t index);

/* What the check says, which writes nothing. */
khx_checked check_pack(const lent *pack);

/* An answer that has no entry, and this refusal; the promise that an answer is this one. */
khx_entry no_entry(size_t refusal);
void promise_no_entry(khx_entry entry, size_t refusal);

bool same_entry(khx_entry one, khx_entry other);

/* Whether the cells and the length of an entry are in their limits, and whether its body is inside the pack. */
bool in_limits(khx_entry entry);
bool inside(khx_entry entry, const lent *pack);

#endif
