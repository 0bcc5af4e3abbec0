/* The five memories of an admission, and the calls over them. */
#include "admission.h"

#include "bytes.h"
#include "promise.h"

static const size_t STATED[MEMORIES] = {
    KHX_ADMISSION_NUMBERS, KHX_CONTENTS_MAX, KHX_PROGRAM_MAX, KHX_PROGRAM_MAX, KHX_VERDICT_CELLS,
};
static const size_t WIDTH[MEMORIES] = {sizeof(size_t), 1, 1, 2, 2};

size_t stated(size_t which)
{
    return STATED[which];
}

size_t elements(const admission *one, size_t which)
{
    return one->memory[which].size / WIDTH[which];
}

size_t width(size_t which)
{
    return WIDTH[which];
}

size_t *numbers_of(const admission *one)
{
    return (size_t *)(void *)one->memory[NUMBERS].bytes;
}

const uint16_t *rulings_of(const admission *one)
{
    return cells_of(&one->memory[VERDICTS]);
}

/* From the memory with this index on nothing is changed, and in those before it nothing past the stated sizes. */
static void promise_kept_past(const admission *one, size_t first)
{
    for (size_t i = 0; i < MEMORIES; i++)
        promise_kept_from(&one->memory[i], i < first ? STATED[i] * WIDTH[i] : 0);
}

khx_admitted start_one(const admission *one)
{
    khx_admitted answer = khx_admit_start(numbers_of(one), elements(one, NUMBERS));
    promise_kept_past(one, CONTENTS);
    return answer;
}

khx_admitted feed_one(const admission *one, const lent *chunk)
{
    const lent *all = one->memory;
    khx_admitted answer = khx_admit_chunk(numbers_of(one), elements(one, NUMBERS), chunk->bytes, chunk->size, all[CONTENTS].bytes,
                                          all[CONTENTS].size, all[BODY].bytes, all[BODY].size, cells_of(&all[MAP]),
                                          elements(one, MAP), cells_of(&all[VERDICTS]), elements(one, VERDICTS));
    promise_kept(chunk);
    promise_kept_past(one, MEMORIES);
    return answer;
}

khx_admitted close_one(const admission *one)
{
    khx_admitted answer = khx_admit_close(numbers_of(one), elements(one, NUMBERS));
    promise_kept_past(one, CONTENTS);
    return answer;
}

/* Of the numbers, which alone it is lent, a copy is taken: it is asked where the others have changed. */
khx_admitted ask_one(const admission *one)
{
    static uint8_t before[256 * sizeof(size_t)];
    const lent *numbers = &one->memory[NUMBERS];
    promise(numbers->size <= sizeof before, "the harness: room for numbers");
    copy_bytes(before, numbers->bytes, numbers->size);
    khx_admitted answer = khx_admit_ask(numbers_of(one), elements(one, NUMBERS));
    promise_around(numbers);
    promise(same_bytes(numbers->bytes, before, numbers->size), "to ask an admission changes nothing");
    return answer;
}

void remember_one(const admission *one)
{
    for (size_t i = 0; i < MEMORIES; i++)
        remember(&one->memory[i]);
}

void promise_unchanged(const admission *one)
{
    promise_kept_past(one, NUMBERS);
}

void promise_answer(khx_admitted answer, khx_admitted should, const char *what)
{
    promise(answer.refusal == should.refusal && answer.closed == should.closed && answer.verdicts == should.verdicts &&
                answer.lost == should.lost,
            what);
}

khx_admitted untold(size_t refusal)
{
    const khx_admitted answer = {refusal, 0, 0, 0};
    return answer;
}
