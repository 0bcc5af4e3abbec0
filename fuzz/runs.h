/* What the trials of the run, of copies and of the verifier share. */
#ifndef FUZZ_RUNS_H
#define FUZZ_RUNS_H

#include "input.h"
#include "khalixoshi.h"
#include "lent.h"

typedef struct machine {
    lent program;
    lent data;
    lent cells;
} machine;

size_t cells_count(const machine *one);

/* A run; nothing is written but the data and the cells. */
khx_ran run(const machine *one, khx_state state, uint32_t budget);

/* The number by which a run is refused, or 0. */
size_t refusal_of(const machine *one, khx_state state);

bool same_state(khx_state one, khx_state other);

/* The promise that data and cells are as they were lent. */
void promise_memories_kept(const machine *one);

/* The budget of a run that may not end: so large that a run over so many bytes of data stays short. */
uint32_t take_budget(input *from, size_t data_length);

#endif
