/*
 * Khalixoshi: the proved rule engine of a font sanitiser. Link with libkhalixoshi.a (x86-64 Linux); of the C library it
 * needs memcpy and memset alone. It has no heap and no state of its own: calls may run at the same time
 * that share nothing but what all of them only read.
 *
 * What a caller owes, since C cannot say it: each pointer is aligned and leads to as many elements as the count after it
 * says, `at` of khx_read to one (where the count is 0 it is not followed and may be NULL), and what a function may write
 * overlaps nothing else that it is lent.
 * Beyond that any arguments are allowed: a function refuses, by a number, what it cannot take.
 *
 * Every answer has a field `refusal`: 0, or the number of the first refusal that applies. After a refusal the other fields
 * are 0 but where it is said, and what was lent is as it was but where it is said.
 */
#ifndef KHALIXOSHI_H
#define KHALIXOSHI_H

#include <stddef.h>
#include <stdint.h>

#ifdef __cplusplus
extern "C" {
#endif

/* Sizes: the largest that are taken. */
#define KHX_PROGRAM_MAX 16384u       /* bytes of a program */
#define KHX_DATA_MAX 65535u          /* bytes of data */
#define KHX_CELLS_MAX 1024u          /* stack cells of 16 bits */
#define KHX_INSTRUCTION_MAX 9u       /* bytes of an instruction */
#define KHX_PACK_MAX 24576u          /* bytes of a pack */
#define KHX_ENTRIES_MAX 64u          /* entries of a pack */
#define KHX_CONTENTS_MAX 514u        /* bytes of a pack's contents: 2, and 8 for each of 64 entries */

/* Rooms that are always enough, none of them a byte too large. */
#define KHX_LIST_MAX 278528u         /* bytes of a listing: 17 for each byte of the program */
#define KHX_REPORT_MAX 1536u         /* bytes of a report: 24 for each of 64 lines */

/* What an admission is lent, beside the contents, a body and its map. */
#define KHX_ADMISSION_NUMBERS 8u     /* numbers of an admission */
#define KHX_VERDICT_CELLS 192u       /* cells of its verdicts: 3 for each of 64 programs */

/* A cell of a depth map whose address no path meets. */
#define KHX_UNMET 65535u

/* Faults and refusals. */
enum {
    KHX_NONE = 0,
    KHX_END = 1,             /* address at or past the program's end; verifier: the instruction leads there */
    KHX_ILLEGAL = 2,         /* illegal first byte, flags or shift byte */
    KHX_CUT = 3,             /* operands cut by the program's end */
    KHX_FEW = 4,             /* fewer values than are taken */
    KHX_FULL = 5,            /* depth less taken plus pushed exceeds the cells */
    KHX_DATA_RANGE = 6,      /* data range */
    KHX_PROGRAM_RANGE = 7,   /* program range in pcopy */
    KHX_FUNCTION = 8,        /* no such function */
    KHX_UNVERIFIABLE = 9,    /* verifier: codes 05 to 0A, 3B, 55 */
    KHX_TWO_DEPTHS = 10,     /* verifier: an address met at two depths */
    KHX_PROGRAM_SIZE = 20,   /* program over size */
    KHX_DATA_SIZE = 21,      /* data over size */
    KHX_CELLS_SIZE = 22,     /* cells over size */
    KHX_MAP_SIZE = 23,       /* depth map not as long as the program; report: map under KHX_PROGRAM_MAX */
    KHX_DEEP = 24,           /* state deeper than the stack */
    KHX_ROOM = 25,           /* output longer than the room lent */
    KHX_UNWRITABLE = 26,     /* encoder: no instruction has these fields */
    KHX_PACK_CONTENTS = 30,  /* pack: contents cut, or more than 64 entries; writer: lists of unlike length too */
    KHX_PACK_SIZE = 31,      /* pack: over size */
    KHX_PACK_TAGS = 32,      /* pack: a tag not above the one before */
    KHX_PACK_OFFSET = 33,    /* pack: wrong offset */
    KHX_PACK_END = 34,       /* pack: bodies don't end at the pack's end; lookup: one ends past it; writer: lengths and bodies differ */
    KHX_PACK_ENTRY = 35,     /* pack: cells over 1,024 or length over 16,384 */
    KHX_PACK_ABSENT = 36,    /* pack: no such tag */
    KHX_ADMISSION_CLOSED = 37,   /* admission: a chunk or a second close after the close */
    KHX_ADMISSION_MEMORY = 90,   /* admission: a memory lent is shorter than stated */
    KHX_ADMISSION_DAMAGED = 91,  /* admission: its numbers are none that one has: not begun, or written over */
    KHX_ADMISSION_VERDICT = 92   /* admission: no verdict of that kind, final or provisional, at that index */
};

/* A machine's status. */
enum { KHX_RUNNING = 0, KHX_HALTED = 1, KHX_FAULTED = 2 };

/*
 * An instruction as a value. Codes 80 to BF are code 80 with the six bits as `number`; C0 to FF are code C0 with `count`
 * values, of which value i has two bytes in the code where bit i of `flags` is set. What the form lacks is 0.
 */
typedef struct khx_instruction {
    uint8_t code;
    uint8_t count;
    uint8_t flags;
    uint16_t number;
    uint16_t v0;
    uint16_t v1;
    uint16_t v2;
    uint16_t v3;
} khx_instruction;

/* What stands at an address: the instruction and its length in bytes. */
typedef struct khx_decoded {
    size_t refusal;
    size_t length;
    khx_instruction instruction;
} khx_decoded;

/*
 * What all instructions with the same first byte have: their length in bytes, 1 to KHX_INSTRUCTION_MAX, and how many values they
 * take from the stack, at most 3, and push, at most 4. Where no instruction begins with the byte the refusal is 2.
 */
typedef struct khx_row {
    size_t refusal;
    size_t length;
    size_t taken;
    size_t pushed;
} khx_row;

/* What was written into a room: so many bytes at its start; those after them are as they were. */
typedef struct khx_written {
    size_t refusal;
    size_t length;
} khx_written;

/*
 * A machine's state. All 0 is the fresh state. `fault` is the fault's number where the status is KHX_FAULTED. Handed in, a
 * status over 2 is taken as KHX_FAULTED, so it cannot run, and comes back so; the fault beside KHX_RUNNING or KHX_HALTED is not
 * looked at and comes back 0.
 */
typedef struct khx_state {
    size_t address;
    size_t depth;
    size_t status;
    size_t fault;
} khx_state;

/*
 * What a run came to: the steps taken and the state. After a refusal, and where the state had stopped, it is the one handed in, but
 * that a status over 2 comes back as KHX_FAULTED and the fault beside KHX_RUNNING or KHX_HALTED as 0.
 */
typedef struct khx_ran {
    size_t refusal;
    uint32_t steps;
    khx_state state;
} khx_ran;

/* What the verifier says. `at` is the address of the instruction refused by 1 to 10, and 0 otherwise. */
typedef struct khx_verdict {
    size_t refusal;
    size_t at;
} khx_verdict;

/* A good pack's count of entries. */
typedef struct khx_checked {
    size_t refusal;
    size_t entries;
} khx_checked;

/*
 * An entry where `present` is 1: its body is the `length` bytes of the pack from `offset`, all inside it. It is one of a good pack,
 * but where khx_pack_lookup gives it of bytes that were not checked.
 */
typedef struct khx_entry {
    size_t refusal;
    size_t present;
    uint16_t tag;
    uint16_t cells;
    uint16_t offset;
    uint16_t length;
} khx_entry;

/*
 * How an admission stands: by 90 and 91 all else is 0, by any other refusal it is told as without one. `closed` is 1 after the
 * close and 0 before it. `verdicts` is how many programs have their verdict, at most KHX_ENTRIES_MAX: provisional ones before the
 * close, final ones after it, and none of a pack that the close refused. Where `lost` is not 0 the pack is refused whatever
 * follows, by this number, or by 31 if it comes to over KHX_PACK_MAX bytes: a host may stop there, and close. Before the close it is told
 * after two bytes for too large a count (30), once the contents are whole (32, 33, 35), or once a byte too many has come (31). That a pack is
 * cut (30, 34) or has bytes behind its last body (34) comes with the close alone. After the close it is what refused the pack, 0 for a good one.
 */
typedef struct khx_admitted {
    size_t refusal;
    size_t closed;
    size_t verdicts;
    size_t lost;
} khx_admitted;

/*
 * The memories of an admission in one: some 50 KB, so not for a small stack. khx_admission_start begins it; memory of zeros is
 * none, and is refused by 91.
 */
typedef struct khx_admission {
    size_t numbers[KHX_ADMISSION_NUMBERS];
    uint8_t contents[KHX_CONTENTS_MAX];
    uint8_t body[KHX_PROGRAM_MAX];
    uint16_t map[KHX_PROGRAM_MAX];
    uint16_t verdicts[KHX_VERDICT_CELLS];
} khx_admission;

/* The instruction at an address of a program. Refusals: 20, 1, 2, 3. */
khx_decoded khx_decode(const uint8_t *program, size_t program_length, size_t at);

/* The same at *at, which is moved past the instruction; on a refusal it stays. Start at 0. Refusals: 20, 1, 2, 3. */
khx_decoded khx_read(const uint8_t *program, size_t program_length, size_t *at);

/* Writes an instruction; KHX_INSTRUCTION_MAX bytes of room are enough. Refusals: 26, 25. */
khx_written khx_encode(khx_instruction instruction, uint8_t *room, size_t room_length);

/*
 * One row of the table of all 256 first bytes: an instruction's length and what it does to the depth, told by its first byte
 * alone. A shift's second byte is not in it: where that is over 15, khx_decode refuses the codes 31 and 32 (hex) by 2 as well. Refusal: 2.
 */
khx_row khx_shape(uint8_t first);

/* The state with which a program starts: address 0, depth 0, running. */
static inline khx_state khx_fresh(void)
{
    khx_state state = {0, 0, KHX_RUNNING, 0};
    return state;
}

/*
 * Runs at most `budget` steps over the lent data and cells. Of a state that had not faulted, the status afterwards is
 * KHX_RUNNING (the budget is used: hand the state in again to go on), KHX_HALTED, or KHX_FAULTED by 1 to 8. With depth d the
 * live values are the last d cells, the top first. A stopped state comes back as khx_ran says, 0 steps. Refusals: 20, 21,
 * 22, 24; none touches a memory.
 */
khx_ran khx_run(khx_state state, const uint8_t *program, size_t program_length, uint8_t *data, size_t data_length,
                uint16_t *cells, size_t cells_length, uint32_t budget);

/* One step: a run with a budget of one. */
static inline khx_ran khx_step(khx_state state, const uint8_t *program, size_t program_length, uint8_t *data,
                               size_t data_length, uint16_t *cells, size_t cells_length)
{
    return khx_run(state, program, program_length, data, data_length, cells, cells_length, 1);
}

/*
 * Whether a program may run with so many stack cells: started fresh with as many or more, or gone on with from a state that
 * such a run handed back, whatever became of data and cells, it then faults only by 6 or 7, and its depth is always the one
 * that the map has for its address. The map has a cell for each byte of the program.
 * Accepted: the depth of each address that a path meets, KHX_UNMET elsewhere. Refused by 1 to 10: every cell KHX_UNMET.
 * Refusals: 20, 22, 23, then by the walk 1 to 5 and 8 to 10.
 */
khx_verdict khx_verify(const uint8_t *program, size_t program_length, size_t cells, uint16_t *map, size_t map_length);

/*
 * Writes the listing of a program, a line for each instruction; no zero byte ends it. KHX_LIST_MAX bytes of room are enough,
 * and 17 for each byte of the program. Refusals: 20, 25.
 */
khx_written khx_list(const uint8_t *program, size_t program_length, uint8_t *room, size_t room_length);

/* Checks a whole pack. Refusals: 31, 30, then entry by entry 32, 35, 33, and last 34. */
khx_checked khx_pack_check(const uint8_t *pack, size_t pack_length);

/* The entry at an index, the first being 0; past the last `present` is 0 and `refusal` too. Refusals: as khx_pack_check. */
khx_entry khx_pack_entry(const uint8_t *pack, size_t pack_length, size_t index);

/* The entry with a tag, of any bytes: the whole pack is checked at each call. Refusals: as khx_pack_check, then 36. */
khx_entry khx_pack_find(const uint8_t *pack, size_t pack_length, uint16_t tag);

/*
 * The entry with a tag, of a pack that khx_pack_check accepted once and that has not changed since: what khx_pack_find answers,
 * found by halving, in at most 7 comparisons of tags, and the pack is not checked again. Of such a pack the one refusal is 36. For any other
 * bytes there is khx_pack_find.
 *
 * Of any other bytes this holds: none outside them is read, and an entry that is given has the tag asked for, at most
 * KHX_CELLS_MAX cells, at most KHX_PROGRAM_MAX bytes, and offset + length at most pack_length. No more: the bytes may be no pack
 * where an entry is given, and may have the tag where 36 is. So these refusals do not stand in for the check. Refusals: 31 and 30
 * as khx_pack_check, 36, then of the entry with the tag 35, and 34 where its body ends past the pack's end.
 */
khx_entry khx_pack_lookup(const uint8_t *pack, size_t pack_length, uint16_t tag);

/*
 * Writes a pack from the tags, cells and lengths of its entries and their bodies end to end. The three lists have the same
 * count; the tags ascend. KHX_PACK_MAX bytes of room are enough. Refusals: 30, then entry by entry 32, 35, then
 * 34, 31, 25.
 */
khx_written khx_pack_write(const uint16_t *tags, size_t tags_count, const uint16_t *cells, size_t cells_count,
                           const uint16_t *lengths, size_t lengths_count, const uint8_t *bodies, size_t bodies_length,
                           uint8_t *room, size_t room_length);

/*
 * Writes the report on a pack: `TTTT accepted` or `TTTT refused N at AAAA` for each entry, tag and address in hexadecimal,
 * or only `pack refused N`; a line feed after each line, no zero byte at the end. KHX_REPORT_MAX bytes of room are enough.
 * The programs are verified over the map, which has KHX_PROGRAM_MAX cells or more; it is written over, and also where the
 * report is refused by 25. Refusals: 23, 25.
 */
khx_written khx_report(const uint8_t *pack, size_t pack_length, uint16_t *map, size_t map_length, uint8_t *room,
                       size_t room_length);

/*
 * A pack admitted while it comes: it is handed in chunk by chunk, each of any length, 0 too, and then closed. It is never held
 * whole: its contents are, and one body at a time. Wherever it was cut, the close answers as khx_pack_check does of all the
 * bytes, and each program has the verdict that khx_verify gives it for the cells of its entry. Before the close the verdicts are
 * provisional: a program has its own once its last byte is in, but what follows may still refuse the pack, and a refused pack has
 * none. A pack is good only where `closed` is 1 and `refusal` is 0: let no program run before.
 *
 * An admission is five memories. The host lends the same ones at each call, and writes nothing there from the start to the last
 * use of a verdict:
 *
 *   numbers    KHX_ADMISSION_NUMBERS    all that it knows; khx_admit_start begins it
 *   contents   KHX_CONTENTS_MAX bytes   the pack's contents, as far as they have come
 *   body       KHX_PROGRAM_MAX bytes    the program that is under way, as far as it has come
 *   map        KHX_PROGRAM_MAX cells    each program is verified over it
 *   verdicts   KHX_VERDICT_CELLS        three for each program, in the pack's order: its tag, then `refusal` and `at` of its verdict;
 *                                       cells past the `verdicts` that an answer tells mean nothing, and those of a refused pack stay there
 *
 * All but the numbers may hold anything at the start. Longer memories are taken, and nothing past these sizes is touched. The
 * memories and the chunk overlap nowhere. 91 finds numbers that no admission has, and not every damage: what was written over
 * may pass for another admission's. It never leads past the memory that is lent. Do not copy one that is open: a copy goes on
 * as if the close had not been, and nothing here tells it from the first.
 */

/* Begins an admission: writes the eight numbers, and touches nothing else. Refusal: 90. */
khx_admitted khx_admit_start(size_t *numbers, size_t numbers_length);

/*
 * Takes the next bytes of the pack, which may go away afterwards. It writes over numbers, contents, body, map and verdicts. No
 * pack is refused here: that comes with the close, and `lost` may tell it before. Refusals: 90, 91, 37, of a chunk of no bytes
 * too; none changes anything.
 */
khx_admitted khx_admit_chunk(size_t *numbers, size_t numbers_length, const uint8_t *chunk, size_t chunk_length,
                             uint8_t *contents, size_t contents_length, uint8_t *body, size_t body_length,
                             uint16_t *map, size_t map_length, uint16_t *verdicts, size_t verdicts_length);

/*
 * Closes an admission: the pack has come to its end. Of a good one `refusal` is 0 and `verdicts` its count of entries. It writes
 * the numbers alone. Refusals: 90, 91, 37, which change nothing: the first close's answer stays; then the pack's own, as
 * khx_pack_check, by which the admission is closed as well, without a verdict.
 */
khx_admitted khx_admit_close(size_t *numbers, size_t numbers_length);

/*
 * How an admission stands; nothing is written. Refusals: 90, 91, then after the close the first close's; before it none: a pack is
 * good only where `closed` is 1 and `refusal` is 0.
 */
khx_admitted khx_admit_ask(const size_t *numbers, size_t numbers_length);

/* The four over the memories in one. */
static inline khx_admitted khx_admission_start(khx_admission *admission)
{
    return khx_admit_start(admission->numbers, KHX_ADMISSION_NUMBERS);
}

static inline khx_admitted khx_admission_chunk(khx_admission *admission, const uint8_t *chunk, size_t chunk_length)
{
    return khx_admit_chunk(admission->numbers, KHX_ADMISSION_NUMBERS, chunk, chunk_length, admission->contents,
                           KHX_CONTENTS_MAX, admission->body, KHX_PROGRAM_MAX, admission->map, KHX_PROGRAM_MAX,
                           admission->verdicts, KHX_VERDICT_CELLS);
}

static inline khx_admitted khx_admission_close(khx_admission *admission)
{
    return khx_admit_close(admission->numbers, KHX_ADMISSION_NUMBERS);
}

static inline khx_admitted khx_admission_ask(const khx_admission *admission)
{
    return khx_admit_ask(admission->numbers, KHX_ADMISSION_NUMBERS);
}

/*
 * The tag of the program whose verdict is at an index, the first being 0, before the close and after it. It is 0 where the index is
 * not below `verdicts` of the answer, and so may a tag be: where there is no verdict, 92 tells it.
 */
static inline uint16_t khx_admission_tag(const khx_admission *admission, size_t index)
{
    return index < khx_admission_ask(admission).verdicts ? admission->verdicts[3 * index] : (uint16_t)0;
}

/* What the two below share: the verdict at an index where `closed` of the answer is this; else 92. */
static inline khx_verdict khx_verdict_where(size_t closed, const khx_admission *admission, size_t index)
{
    khx_verdict verdict = {KHX_ADMISSION_VERDICT, 0};
    khx_admitted stands = khx_admission_ask(admission);
    if (stands.closed == closed && index < stands.verdicts) {
        verdict.refusal = admission->verdicts[3 * index + 1];
        verdict.at = admission->verdicts[3 * index + 2];
    }
    return verdict;
}

/*
 * The final verdict at an index. Refusals: 92 before the close, whatever the index, of a pack that the close refused, and where
 * the index is not below `verdicts` of the answer; else the program's own.
 */
static inline khx_verdict khx_admission_verdict(const khx_admission *admission, size_t index)
{
    return khx_verdict_where(1, admission, index);
}

/*
 * The provisional verdict at an index, to be shown and not to be gone by. Refusals: 92 after the close, whatever the index, and
 * where the index is not below `verdicts` of the answer; else the program's own.
 */
static inline khx_verdict khx_admission_provisional(const khx_admission *admission, size_t index)
{
    return khx_verdict_where(0, admission, index);
}

#ifdef __cplusplus
}
#endif

#endif
