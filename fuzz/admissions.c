/*
 * Promises of an admission: a pack comes in chunks that the input cuts. How it stands after each chunk is worked out here from
 * the bytes so far, without the library; at the close it is what khx_pack_check and khx_verify say of the whole.
 */
#include "admission.h"
#include "bytes.h"
#include "packs.h"
#include "promise.h"
#include "tries.h"

/*
 * Chunks that a pack is cut into at most, enough for the longest contents byte by byte: the rest comes in one. The most zeros
 * that follow a pack.
 */
enum { CHUNKS_MAX = 640, MORE_MAX = 65536 };

/* What has come of a pack, and the verdicts due: their cells by the verifier. What the contents say is worked out once. */
typedef struct course {
    const lent *pack;
    size_t contents;   /* their bytes; over 64 entries, and a pack without a count, have those of the count alone */
    size_t refusal;    /* the number by which they are refused once they are whole, or 0 */
    size_t so_far;
    size_t chunks;
    size_t due;
    uint16_t cells[KHX_VERDICT_CELLS];
} course;

static size_t least(size_t one, size_t other)
{
    return one < other ? one : other;
}

/* How many bytes come of a pack: mostly its own, at times up to 15 fewer, at times more by a power of two. */
static size_t take_length(input *from, size_t length)
{
    uint8_t way = take_byte(from);
    if (way < 0xE0)
        return length;
    return way < 0xF0 ? length - least(length, way % 16) : length + ((size_t)MORE_MAX >> way % 16);
}

/* A pack of which the end may be missing, or which zeros may follow. */
static lent take_bytes(input *from)
{
    static uint8_t bytes[KHX_PACK_MAX + 4 + MORE_MAX];
    lent pack = take_pack(from);
    size_t length = take_length(from, pack.size);
    if (length == pack.size)
        return pack;
    fill_bytes(bytes, 0, sizeof bytes);
    copy_bytes(bytes, pack.bytes, pack.size);
    give_back();
    return lend_copy(from, bytes, length);
}

/* Each as long as stated, or a little longer. */
static admission lend_enough(input *from)
{
    admission one;
    for (size_t i = 0; i < MEMORIES; i++) {
        size_t more = take_byte(from) % 4;
        one.memory[i] = lend_filled(from, width(i) * (stated(i) + more));
    }
    return one;
}

/* The number by which entries are refused that have all come, or 0. */
static size_t entries_refusal(const lent *pack)
{
    size_t offset = HEAD + FIELDS * (size_t)number_at(pack, 0);
    for (size_t i = 0; i < number_at(pack, 0); i++) {
        khx_entry entry = entry_in(pack, i);
        if (i > 0 && entry.tag <= entry_in(pack, i - 1).tag)
            return KHX_PACK_TAGS;
        if (!in_limits(entry))
            return KHX_PACK_ENTRY;
        if (entry.offset != offset)
            return KHX_PACK_OFFSET;
        offset += entry.length;
    }
    return 0;
}

/* Nothing has come yet. */
static void begin(course *now, const lent *pack)
{
    *now = (course){.pack = pack, .contents = HEAD};
    if (pack->size < HEAD)
        return;
    if (number_at(pack, 0) > KHX_ENTRIES_MAX) {
        now->refusal = KHX_PACK_CONTENTS;
        return;
    }
    now->contents += FIELDS * (size_t)number_at(pack, 0);
    now->refusal = pack->size < now->contents ? 0 : entries_refusal(pack);
}

/* The bytes so far that are looked at: those past the size only lose the pack. */
static size_t in_size(const course *now)
{
    return least(now->so_far, KHX_PACK_MAX);
}

/* The number by which the pack is refused whatever follows the bytes so far, or 0. */
static size_t lost_by(const course *now)
{
    if (now->so_far > KHX_PACK_MAX)
        return KHX_PACK_SIZE;
    return now->so_far < now->contents ? 0 : now->refusal;
}

/* Whether the contents have come, and are not refused. */
static bool has_programs(const course *now)
{
    return now->so_far >= now->contents && now->refusal == 0;
}

/* How many programs are whole: those that were, and more. Bytes past the size take none back before the close. */
static size_t whole_programs(const course *now)
{
    const lent *pack = now->pack;
    size_t whole = now->due;
    if (!has_programs(now))
        return 0;
    while (whole < number_at(pack, 0) && (size_t)entry_in(pack, whole).offset + entry_in(pack, whole).length <= in_size(now))
        whole++;
    return whole;
}

/* The verdict on the next program, over a map of its own. */
static void rule(course *now)
{
    static uint16_t map[KHX_PROGRAM_MAX];
    khx_entry entry = entry_in(now->pack, now->due);
    khx_verdict verdict = khx_verify(place_in(now->pack, entry.offset), entry.length, entry.cells, map, entry.length);
    uint16_t *cells = now->cells + 3 * now->due;
    cells[0] = entry.tag;
    cells[1] = (uint16_t)verdict.refusal;
    cells[2] = (uint16_t)verdict.at;
    now->due++;
    notice(RULED, verdict.refusal);
}

static void promise_rulings(const admission *one, const course *now, size_t count)
{
    promise(same_bytes(rulings_of(one), now->cells, 2 * 3 * count),
            "each verdict is in its three cells: tag, and what the verifier says for the entry's cells");
}

/* The contents, and the program under way, as far as they have come. */
static void promise_held(const admission *one, const course *now)
{
    const lent *pack = now->pack;
    size_t contents = least(now->so_far, now->contents);
    promise(same_bytes(one->memory[CONTENTS].bytes, pack->bytes, contents), "the contents are held as they came");
    if (!has_programs(now) || now->due == number_at(pack, 0))
        return;
    size_t offset = entry_in(pack, now->due).offset;
    size_t body = in_size(now) - offset;
    promise(same_bytes(one->memory[BODY].bytes, place_in(pack, offset), body), "the body under way is held as it came");
}

/* How the admission stands before the close, and that to ask it tells the same. */
static void promise_stands(const admission *one, course *now, khx_admitted answer)
{
    size_t whole = whole_programs(now);
    khx_admitted should = {0, 0, whole, lost_by(now)};
    promise(answer.verdicts >= now->due && answer.verdicts <= KHX_ENTRIES_MAX, "verdicts are not taken back, and are at most 64");
    promise_answer(answer, should, "before the close each whole program has its verdict, and lost is what nothing can mend");
    promise_answer(ask_one(one), should, "an open admission that is asked tells what the chunk told");
    while (now->due < whole)
        rule(now);
    promise_rulings(one, now, whole);
    promise_held(one, now);
    notice(LOST, should.lost);
}

/* The next bytes come, from memory of their own, each time at another side of it. */
static void feed(const admission *one, course *now, size_t length)
{
    uint8_t bits = (uint8_t)now->chunks;
    input side = {&bits, 1};
    lent chunk = lend_copy(&side, place_in(now->pack, now->so_far), length);
    khx_admitted answer = feed_one(one, &chunk);
    give_back();
    now->so_far += length;
    now->chunks++;
    promise_stands(one, now, answer);
}

/* A chunk's length: the one that all have or, where that is 0, the next of the input. */
static size_t next_length(input *from, size_t each, const course *now)
{
    size_t left = now->pack->size - now->so_far;
    if (now->chunks >= CHUNKS_MAX || (each == 0 && from->left == 0))
        return left;
    return least(left, each == 0 ? take_size(from, left) : each);
}

/* The whole pack, and a chunk of no bytes before it and behind it. */
static void feed_all(input *from, size_t each, const admission *one, course *now)
{
    feed(one, now, 0);
    while (now->so_far < now->pack->size)
        feed(one, now, next_length(from, each, now));
    feed(one, now, 0);
}

/* Whatever the memory holds: nobody began there. */
static void promise_not_begun(const admission *one, const lent *chunk)
{
    const char *what = "what was not begun is refused by 91";
    promise_answer(feed_one(one, chunk), untold(KHX_ADMISSION_DAMAGED), what);
    promise_answer(close_one(one), untold(KHX_ADMISSION_DAMAGED), what);
    promise_answer(ask_one(one), untold(KHX_ADMISSION_DAMAGED), what);
    promise_unchanged(one);
}

/* Memory of zeros, and as it was lent, which is one byte over and over. */
static void promise_begins(const admission *one, const lent *chunk)
{
    const size_t begun[KHX_ADMISSION_NUMBERS] = {0, 2, 0, 0, 0, 0, 0, 0};
    promise_not_begun(one, chunk);
    fill_bytes(one->memory[NUMBERS].bytes, 0, sizeof begun);
    remember_one(one);
    promise_not_begun(one, chunk);
    promise_answer(start_one(one), untold(0), "an admission begins with nothing to tell");
    promise(same_bytes(numbers_of(one), begun, sizeof begun), "an admission begins with its eight numbers");
}

/* Some bytes, or none, from the pack. */
static void promise_takes_none(const admission *one, const course *now, size_t length, khx_admitted should)
{
    const uint8_t bits = 1;
    input side = {&bits, 1};
    lent chunk = lend_copy(&side, now->pack->bytes, length);
    promise_answer(feed_one(one, &chunk), should, "a chunk after the close is refused by 37, and one of no bytes too");
    promise_unchanged(one);
    give_back();
}

/* After the close nothing changes any more, and the first answer stays. */
static void promise_stays_closed(const admission *one, const course *now, khx_admitted first)
{
    khx_admitted late = {KHX_ADMISSION_CLOSED, first.closed, first.verdicts, first.lost};
    remember_one(one);
    promise_takes_none(one, now, least(now->pack->size, KHX_CONTENTS_MAX), late);
    promise_takes_none(one, now, 0, late);
    promise_answer(close_one(one), late, "a second close is refused by 37");
    promise_answer(ask_one(one), first, "a closed admission that is asked tells what the first close told");
    promise_unchanged(one);
}

static khx_admitted promise_closes(const admission *one, const course *now)
{
    khx_checked checked = check_pack(now->pack);
    khx_admitted should = {checked.refusal, 1, checked.entries, checked.refusal};
    remember_one(one);
    khx_admitted answer = close_one(one);
    notice(ADMITTED, answer.refusal);
    notice(WHOLE, now->due);
    promise_answer(answer, should, "the close answers as the check of the whole pack; a refused one has no verdicts");
    promise(checked.refusal != 0 || now->due == checked.entries, "of a good pack each program has its verdict before the close");
    promise_rulings(one, now, answer.verdicts);
    promise_stays_closed(one, now, answer);
    return answer;
}

static bool says(khx_verdict verdict, const uint16_t *cells)
{
    return verdict.refusal == cells[1] && verdict.at == cells[2];
}

/* The header's own functions give the verdicts of how it stands, each by its index, and past them none. */
static void promise_given(const khx_admission *whole, const course *now, khx_admitted stands)
{
    static const uint16_t none[3] = {0, KHX_ADMISSION_VERDICT, 0};
    for (size_t i = 0; i <= KHX_ENTRIES_MAX; i++) {
        const uint16_t *cells = i < stands.verdicts ? now->cells + 3 * i : none;
        promise(khx_admission_tag(whole, i) == cells[0], "a tag is given by its index, and past the last 0");
        promise(says(khx_admission_provisional(whole, i), stands.closed ? none : cells),
                "a provisional verdict is given by its index, and past the last 92, and after the close");
        promise(says(khx_admission_verdict(whole, i), stands.closed ? cells : none),
                "a final verdict is given by its index, and past the last 92, and before the close");
    }
}

/* Uncut, over the memories in one: the same answers, and the same eight numbers. */
static void promise_same_uncut(input *from, const admission *one, const course *now, khx_admitted closed)
{
    const char *what = "wherever a pack is cut, the answers are the same";
    lent all = lend_filled(from, sizeof(khx_admission));
    khx_admission *whole = (khx_admission *)(void *)all.bytes;
    khx_admitted open = {0, 0, now->due, lost_by(now)};
    promise_given(whole, now, untold(KHX_ADMISSION_DAMAGED));
    promise_answer(khx_admission_start(whole), untold(0), what);
    promise_answer(khx_admission_chunk(whole, now->pack->bytes, now->pack->size), open, what);
    promise_kept(now->pack);
    promise_answer(khx_admission_ask(whole), open, what);
    promise_given(whole, now, open);
    promise_answer(khx_admission_close(whole), closed, what);
    promise_answer(khx_admission_ask(whole), closed, what);
    promise_given(whole, now, closed);
    promise(same_bytes(whole->numbers, numbers_of(one), sizeof whole->numbers), "wherever a pack is cut, the numbers are the same");
    promise_around(&all);
}

void try_admission(input *from)
{
    static course now;
    size_t each = take_byte(from);
    lent pack = take_bytes(from);
    admission one = lend_enough(from);
    begin(&now, &pack);
    promise_begins(&one, &pack);
    feed_all(from, each, &one, &now);
    khx_admitted closed = promise_closes(&one, &now);
    promise_same_uncut(from, &one, &now, closed);
}
