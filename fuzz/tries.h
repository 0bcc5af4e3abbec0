/* One call of each function of the C face with arguments from the input, and the promises that its answer must keep. */
#ifndef FUZZ_TRIES_H
#define FUZZ_TRIES_H

#include "input.h"

void try_decode(input *from);
void try_read(input *from);
void try_encode(input *from);
void try_shape(input *from);
void try_run(input *from);
void try_step(input *from);
void try_verify(input *from);
void try_list(input *from);
void try_pack_check(input *from);
void try_pack_entry(input *from);
void try_pack_find(input *from);
void try_pack_lookup(input *from);
void try_pack_write(input *from);
void try_report(input *from);

/* A pack admitted in chunks; and the same calls over any numbers. */
void try_admission(input *from);
void try_admission_numbers(input *from);

/* A run whose next instruction copies. */
void try_copy(input *from);

#endif
