/* What the trials of an admission share: its five memories, lent, and the four calls over them. */
#ifndef FUZZ_ADMISSION_H
#define FUZZ_ADMISSION_H

#include "khalixoshi.h"
#include "lent.h"

/* The memories, and the numbers in the first of them. */
enum { NUMBERS, CONTENTS, BODY, MAP, VERDICTS, MEMORIES };
enum { COUNTED, WANT, PROGRAMS, END, JUDGED, HAVE, REFUSAL, CLOSED };

typedef struct admission {
    lent memory[MEMORIES];
} admission;

/* How many elements of a memory are stated, and how many are lent; the bytes of one. */
size_t stated(size_t which);
size_t elements(const admission *one, size_t which);
size_t width(size_t which);

/* The first memory as numbers, and the last as cells. */
size_t *numbers_of(const admission *one);
const uint16_t *rulings_of(const admission *one);

/*
 * The calls. Of what was lent or remembered, none changes what is past the stated sizes; a start and a close change the numbers
 * alone, and an ask changes nothing.
 */
khx_admitted start_one(const admission *one);
khx_admitted feed_one(const admission *one, const lent *chunk);
khx_admitted close_one(const admission *one);
khx_admitted ask_one(const admission *one);

/* What stands in all five is remembered; the promise that it stands there still. */
void remember_one(const admission *one);
void promise_unchanged(const admission *one);

/* The promise that an answer has these fields. */
void promise_answer(khx_admitted answer, khx_admitted should, const char *what);

/* The answer by which nothing is told but the refusal. */
khx_admitted untold(size_t refusal);

#endif
