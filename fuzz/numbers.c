/*
 * Promises of an admission whose numbers are any, in memories of any length: what each call refuses, that it changes nothing
 * then, and that where it refuses nothing it stays in its memories, with numbers that an admission has.
 */
#include "admission.h"
#include "bytes.h"
#include "promise.h"
#include "tries.h"

/* The largest memory of them all, in bytes; the most numbers that are lent. */
enum { LARGEST = 2 * (KHX_PROGRAM_MAX + 8), NUMBERS_HELD = 128 };

/* About these the numbers lie. */
static const size_t LIMIT[KHX_ADMISSION_NUMBERS] = {
    KHX_PACK_MAX, KHX_CONTENTS_MAX, KHX_ENTRIES_MAX, KHX_PACK_MAX, KHX_ENTRIES_MAX, KHX_PROGRAM_MAX, KHX_PACK_ENTRY, 1,
};

/* Bit i of the first byte: number i is any, and not about its limit. Those past the eighth are some. */
static lent take_numbers(input *from)
{
    static size_t held[NUMBERS_HELD];
    uint8_t any = take_byte(from);
    fill_bytes(held, 0xA5, sizeof held);
    for (size_t i = 0; i < KHX_ADMISSION_NUMBERS; i++)
        held[i] = any >> i & 1 ? take_number(from) : take_size(from, LIMIT[i]);
    return lend_copy(from, held, sizeof(size_t) * take_room(from, KHX_ADMISSION_NUMBERS));
}

/* Each of any length; the contents are the input's. */
static admission take_admission(input *from)
{
    admission one;
    one.memory[NUMBERS] = as_room(take_numbers(from));
    one.memory[CONTENTS] = as_room(lend(from, take_room(from, stated(CONTENTS))));
    for (size_t i = BODY; i < MEMORIES; i++)
        one.memory[i] = as_room(lend_filled(from, width(i) * take_room(from, stated(i))));
    return one;
}

static bool short_of(const admission *one, size_t which)
{
    return elements(one, which) < stated(which);
}

static bool short_of_any(const admission *one)
{
    for (size_t i = 0; i < MEMORIES; i++)
        if (short_of(one, i))
            return true;
    return false;
}

static bool in_bounds(const size_t *numbers)
{
    return numbers[COUNTED] <= KHX_PACK_MAX + 1 && numbers[WANT] >= 2 && numbers[WANT] <= KHX_CONTENTS_MAX &&
           numbers[PROGRAMS] <= KHX_ENTRIES_MAX && numbers[JUDGED] <= numbers[PROGRAMS] && numbers[HAVE] <= KHX_PROGRAM_MAX &&
           numbers[CLOSED] <= 1;
}

static bool of_a_pack(size_t refusal)
{
    return refusal == 0 || (refusal >= KHX_PACK_CONTENTS && refusal <= KHX_PACK_ENTRY);
}

/* Whether an admission has such numbers: of programs it knows only where the contents are whole and not refused. */
static bool sound(const size_t *numbers)
{
    bool programs = numbers[PROGRAMS] != 0;
    return in_bounds(numbers) && of_a_pack(numbers[REFUSAL]) && !(programs && numbers[COUNTED] < numbers[WANT]) &&
           !(programs && numbers[REFUSAL] != 0);
}

/* 90, 91, or 0: by the numbers alone, and where the other memories are lent too. */
static size_t numbers_refusal(const admission *one)
{
    if (short_of(one, NUMBERS))
        return KHX_ADMISSION_MEMORY;
    return sound(numbers_of(one)) ? 0 : KHX_ADMISSION_DAMAGED;
}

static size_t chunk_refusal(const admission *one)
{
    return short_of_any(one) ? (size_t)KHX_ADMISSION_MEMORY : numbers_refusal(one);
}

static bool closed(const admission *one)
{
    return numbers_of(one)[CLOSED] != 0;
}

/* An answer with a refusal that is neither 90 nor 91: what else it tells are the numbers. */
static khx_admitted told(size_t refusal, const admission *one)
{
    const size_t *numbers = numbers_of(one);
    size_t lost = numbers[COUNTED] > KHX_PACK_MAX ? (size_t)KHX_PACK_SIZE : numbers[REFUSAL];
    const khx_admitted answer = {refusal, numbers[CLOSED], numbers[JUDGED], lost};
    return answer;
}

static khx_admitted asked(const admission *one)
{
    size_t refusal = numbers_refusal(one);
    return refusal != 0 ? untold(refusal) : told(closed(one) ? numbers_of(one)[REFUSAL] : 0, one);
}

/* What a refused call tells, and that it changes nothing. */
static void promise_refused(const admission *one, khx_admitted answer, size_t refusal)
{
    khx_admitted should = refusal == KHX_ADMISSION_CLOSED ? told(refusal, one) : untold(refusal);
    promise_answer(answer, should, "short memory is 90, then numbers that no admission has 91, then a closed one 37");
    promise_unchanged(one);
}

static void promise_sound(const admission *one)
{
    promise(numbers_refusal(one) == 0, "what is not refused leaves numbers that an admission has");
    promise_answer(ask_one(one), asked(one), "what an admission tells are its numbers");
}

static lent part_of(const lent *chunk, size_t at, size_t size)
{
    lent part = {place_in(chunk, at), size, chunk->canaries, chunk->was + at};
    return part;
}

static void restore_one(const admission *one)
{
    for (size_t i = 0; i < MEMORIES; i++)
        restore(&one->memory[i]);
}

/* The same chunk in two parts leaves the same in all memories, whatever the numbers were. */
static void promise_same_cut(const admission *one, const lent *chunk, size_t at, khx_admitted uncut)
{
    static uint8_t left[MEMORIES][LARGEST];
    lent first = part_of(chunk, 0, at);
    lent second = part_of(chunk, at, chunk->size - at);
    for (size_t i = 0; i < MEMORIES; i++)
        copy_bytes(left[i], one->memory[i].bytes, one->memory[i].size);
    restore_one(one);
    feed_one(one, &first);
    promise_answer(feed_one(one, &second), uncut, "a chunk in two parts is one chunk");
    for (size_t i = 0; i < MEMORIES; i++)
        promise(same_bytes(one->memory[i].bytes, left[i], one->memory[i].size), "a chunk in two parts leaves what one leaves");
}

static void promise_fed(const admission *one, const lent *chunk, size_t at)
{
    size_t refusal = chunk_refusal(one);
    if (refusal == 0 && closed(one))
        refusal = KHX_ADMISSION_CLOSED;
    size_t before = refusal == 0 ? numbers_of(one)[JUDGED] : 0;
    khx_admitted answer = feed_one(one, chunk);
    notice(FED, answer.refusal);
    if (refusal != 0) {
        promise_refused(one, answer, refusal);
        return;
    }
    promise_sound(one);
    promise_answer(answer, told(0, one), "a chunk is not refused before the close");
    promise(answer.verdicts >= before && answer.verdicts <= KHX_ENTRIES_MAX && answer.closed == 0,
            "a chunk takes no verdict back, tells at most 64, and does not close");
    promise_same_cut(one, chunk, at, answer);
}

/* The number by which such numbers are refused at the close, or 0. */
static size_t closing(const size_t *numbers)
{
    if (numbers[COUNTED] > KHX_PACK_MAX)
        return KHX_PACK_SIZE;
    if (numbers[COUNTED] < numbers[WANT])
        return KHX_PACK_CONTENTS;
    if (numbers[REFUSAL] != 0)
        return numbers[REFUSAL];
    return numbers[END] == numbers[COUNTED] ? 0 : KHX_PACK_END;
}

static void promise_closed(const admission *one)
{
    size_t refusal = numbers_refusal(one);
    if (refusal == 0 && closed(one))
        refusal = KHX_ADMISSION_CLOSED;
    if (refusal != 0) {
        promise_refused(one, close_one(one), refusal);
        return;
    }
    size_t number = closing(numbers_of(one));
    khx_admitted should = {number, 1, number == 0 ? numbers_of(one)[JUDGED] : 0, number};
    promise_answer(close_one(one), should, "a close tells the first that refuses, of 31, 30, the contents' own and 34");
    promise_sound(one);
    promise_answer(ask_one(one), should, "an admission that was closed tells so");
}

/* Closed or not, both calls are refused now, and change nothing. */
static void promise_shut(const admission *one, const lent *chunk)
{
    size_t of_numbers = numbers_refusal(one);
    size_t of_chunk = chunk_refusal(one);
    remember_one(one);
    promise_refused(one, close_one(one), of_numbers != 0 ? of_numbers : KHX_ADMISSION_CLOSED);
    promise_refused(one, feed_one(one, chunk), of_chunk != 0 ? of_chunk : KHX_ADMISSION_CLOSED);
    notice(SHUT, of_chunk);
}

static void promise_started(const admission *one)
{
    const size_t begun[KHX_ADMISSION_NUMBERS] = {0, 2, 0, 0, 0, 0, 0, 0};
    khx_admitted answer = start_one(one);
    if (short_of(one, NUMBERS)) {
        promise_refused(one, answer, KHX_ADMISSION_MEMORY);
        return;
    }
    promise_answer(answer, untold(0), "an admission begins whatever stood there");
    promise(same_bytes(numbers_of(one), begun, sizeof begun), "an admission begins with its eight numbers");
}

void try_admission_numbers(input *from)
{
    admission one = take_admission(from);
    lent chunk = lend(from, take_size(from, KHX_PROGRAM_MAX));
    size_t at = chunk.size == 0 ? 0 : take_u16(from) % (chunk.size + 1);
    promise_answer(ask_one(&one), asked(&one), "what an admission tells are its numbers");
    promise_unchanged(&one);
    promise_fed(&one, &chunk, at);
    restore_one(&one);
    promise_closed(&one);
    promise_shut(&one, &chunk);
    promise_started(&one);
}
