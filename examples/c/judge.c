/*
 * Font tables judged by the rules of a pack, by the convention of examples/README.md. The pack is checked once; for each table its rule is
 * looked up and verified, the 64 bytes are laid out before the table's, the rule is run, lent what it asks for, and its verdict is read.
 * Whatever goes wrong on the way, the table is not good.
 *
 * usage: judge PACK TAG TABLE [GLYPHS METRICS LOCA_FORMAT OUTLINES] [-- TAG TABLE ..]..
 *
 * TABLE is a file with the table's bytes as they stand in the font; the numbers are decimal, and those left out are 0. Behind each -- stands
 * another table. Prints a verdict for each, in turn.
 * Exit status: 0 where all are good, 1 where one is refused or has no verdict, 2 for bad usage or a file that cannot be read.
 */
#include "khalixoshi.h"

#include <stdarg.h>
#include <stdio.h>
#include <stdlib.h>
#include <string.h>

/* Where the 64 bytes have what, and how much is lent: the numbers of examples/rules/preamble.txt. */
#define AT_MARK 0
#define AT_LENGTH 4
#define AT_START 8
#define AT_LENT 12
#define AT_GLYPHS 14
#define AT_METRICS 16
#define AT_LOCA_FORMAT 18
#define AT_OUTLINES 20
#define AT_NEXT_LENT 26
#define AT_NEXT_START 28
#define AT_OWN 32
#define AT_TABLE 64
#define PIECE 65468u
#define BUDGET 20000000u

/* A pack in memory, checked once: as long as its bytes stay as they are, rules are looked up in it without another check. All 0 is none. */
typedef struct rules {
    const uint8_t *pack;
    size_t length;
    int good;       /* 1 where the check took it */
    size_t refusal; /* else what it was refused by */
} rules;

/* The table, and what the host knows of its font: a fact is 0 where the font has no such table. */
typedef struct subject {
    const uint8_t *table;
    size_t length;
    uint16_t glyphs;
    uint16_t metrics;
    uint16_t loca_format;
    uint32_t outlines;
} subject;

/* What a rule says of it: all 0 is no verdict. */
typedef enum outcome { NO_VERDICT = 0, REFUSED, ASKS, GOOD } outcome;

typedef struct verdict {
    outcome is;
    unsigned reason; /* where it is REFUSED */
    char why[80];    /* where there is NO_VERDICT */
} verdict;

static verdict no_verdict(const char *why, ...)
{
    verdict none = {NO_VERDICT, 0, ""};
    va_list words;
    va_start(words, why);
    vsnprintf(none.why, sizeof none.why, why, words);
    va_end(words);
    return none;
}

/* Numbers of the 64 bytes: low byte first. */
static void put(uint8_t *at, unsigned bytes, uint32_t number)
{
    for (unsigned i = 0; i < bytes; i++)
        at[i] = (uint8_t)(number >> 8 * i);
}

static uint32_t get(const uint8_t *at, unsigned bytes)
{
    uint32_t number = 0;
    for (unsigned i = 0; i < bytes; i++)
        number |= (uint32_t)at[i] << 8 * i;
    return number;
}

/* Lays out the data for a run over `lent` bytes of the table from `start` on; the rule's own 32 bytes stay as they are. */
static void lay_out(uint8_t *data, const subject *of, uint32_t start, uint32_t lent)
{
    memset(data, 0, AT_OWN);
    memcpy(data + AT_MARK, "KHX1", 4);
    put(data + AT_LENGTH, 4, (uint32_t)of->length);
    put(data + AT_START, 4, start);
    put(data + AT_LENT, 2, lent);
    put(data + AT_GLYPHS, 2, of->glyphs);
    put(data + AT_METRICS, 2, of->metrics);
    put(data + AT_LOCA_FORMAT, 2, of->loca_format);
    put(data + AT_OUTLINES, 4, of->outlines);
    if (lent > 0)
        memcpy(data + AT_TABLE, of->table + start, lent);
}

/* What a run says: the one place that calls a table good. */
static verdict said(khx_ran ran, const uint16_t *cells, size_t cells_length)
{
    if (ran.refusal != 0)
        return no_verdict("the run is refused by %zu", ran.refusal);
    if (ran.state.status == KHX_RUNNING)
        return no_verdict("the budget is used");
    if (ran.state.status != KHX_HALTED)
        return no_verdict("fault %zu at %04zX", ran.state.fault, ran.state.address);
    if (ran.state.depth != 1)
        return no_verdict("it halted with %zu values on the stack, not one", ran.state.depth);
    uint16_t value = cells[cells_length - 1];
    verdict says = {value == 1 ? GOOD : value == 0 ? ASKS : REFUSED, value, ""};
    return says;
}

/* Runs a verified rule over the table, and again over the bytes that it asks for, until it says. One table at a time: the memories are static. */
static verdict run(const uint8_t *rule, size_t rule_length, size_t cells_length, const subject *of)
{
    static uint8_t data[KHX_DATA_MAX];
    static uint16_t cells[KHX_CELLS_MAX];
    uint32_t start = 0, lent = PIECE, left = BUDGET;
    memset(data, 0, AT_TABLE);
    for (;;) {
        if (start > of->length)
            return no_verdict("it asks for bytes from %lu on, and the table has %zu", (unsigned long)start, of->length);
        if (lent > PIECE)
            lent = PIECE;
        if (lent > of->length - start)
            lent = (uint32_t)(of->length - start);
        if (lent > left)
            return no_verdict("the budget is used");
        left -= lent;
        lay_out(data, of, start, lent);
        memset(cells, 0, cells_length * sizeof *cells);
        khx_ran ran = khx_run(khx_fresh(), rule, rule_length, data, AT_TABLE + lent, cells, cells_length, left);
        left -= ran.steps;
        verdict says = said(ran, cells, cells_length);
        if (says.is != ASKS)
            return says;
        lent = get(data + AT_NEXT_LENT, 2);
        start = get(data + AT_NEXT_START, 4);
    }
}

static rules check(const uint8_t *pack, size_t length)
{
    khx_checked said = khx_pack_check(pack, length);
    rules checked = {pack, length, said.refusal == 0, said.refusal};
    return checked;
}

/* The rule with a tag: looked up in a good pack, and in no other. */
static khx_entry look_up(const rules *in, uint16_t tag)
{
    size_t refusal = in->refusal != 0 ? in->refusal : (size_t)KHX_PACK_CONTENTS;
    khx_entry none = {refusal, 0, 0, 0, 0, 0};
    return in->good ? khx_pack_lookup(in->pack, in->length, tag) : none;
}

/* The verdict of the rule with a tag on a table. */
static verdict judge(const rules *by, uint16_t tag, const subject *of)
{
    static uint16_t map[KHX_PROGRAM_MAX];
    khx_entry rule = look_up(by, tag);
    if (rule.refusal == KHX_PACK_ABSENT)
        return no_verdict("no rule has the tag %u", (unsigned)tag);
    if (!rule.present)
        return no_verdict("the pack is refused by %zu", rule.refusal);
    const uint8_t *program = by->pack + rule.offset;
    khx_verdict safe = khx_verify(program, rule.length, rule.cells, map, rule.length);
    if (safe.refusal > KHX_TWO_DEPTHS)
        return no_verdict("the rule is refused by %zu", safe.refusal);
    if (safe.refusal != 0)
        return no_verdict("the rule is refused by %zu at %04zX", safe.refusal, safe.at);
    if (of->length > UINT32_MAX)
        return no_verdict("the table is over 4,294,967,295 bytes");
    return run(program, rule.length, rule.cells, of);
}

/* Prints a verdict and gives its exit status: good counts only where it was told. */
static int print(const verdict *says)
{
    if (says->is == GOOD)
        puts("good");
    else if (says->is == REFUSED)
        printf("refused %u\n", says->reason);
    else
        printf("no verdict: %s\n", says->why);
    int told = fflush(stdout) == 0 && !ferror(stdout);
    return says->is != GOOD ? 1 : told ? 0 : 2;
}

static void fail(const char *what, const char *of)
{
    fprintf(stderr, "judge: %s%s\n", what, of);
    exit(2);
}

/* What a file holds. */
static uint8_t *contents(const char *name, size_t *length)
{
    FILE *file = fopen(name, "rb");
    uint8_t *bytes = NULL;
    size_t room = 0, count;
    *length = 0;
    do {
        if (*length == room) {
            room = 2 * room + KHX_DATA_MAX;
            bytes = (uint8_t *)realloc(bytes, room);
        }
        if (file == NULL || bytes == NULL)
            fail("cannot read ", name);
        count = fread(bytes + *length, 1, room - *length, file);
        *length += count;
    } while (count > 0);
    if (ferror(file))
        fail("cannot read ", name);
    fclose(file);
    return bytes;
}

static uint32_t number(const char *word, unsigned long most)
{
    char *end;
    unsigned long value = strtoul(word, &end, 10);
    if (word[0] < '0' || word[0] > '9' || *end != 0 || value > most)
        fail("no number that fits: ", word);
    return (uint32_t)value;
}

static void fail_usage(void)
{
    fail("usage: judge PACK TAG TABLE [GLYPHS METRICS LOCA_FORMAT OUTLINES] [-- TAG TABLE ..]..", "");
}

/* Judges the table that a group of words tells of, and prints the verdict: its exit status. */
static int judge_one(const rules *by, int count, char **words)
{
    if (count != 2 && count != 6)
        fail_usage();
    size_t length;
    uint16_t tag = (uint16_t)number(words[0], UINT16_MAX);
    uint8_t *table = contents(words[1], &length);
    subject of = {table, length, 0, 0, 0, 0};
    if (count == 6) {
        of.glyphs = (uint16_t)number(words[2], UINT16_MAX);
        of.metrics = (uint16_t)number(words[3], UINT16_MAX);
        of.loca_format = (uint16_t)number(words[4], UINT16_MAX);
        of.outlines = number(words[5], UINT32_MAX);
    }
    verdict says = judge(by, tag, &of);
    free(table);
    return print(&says);
}

/* How many words there are before the next --, or the last. */
static int group(int count, char **words)
{
    int length = 0;
    while (length < count && strcmp(words[length], "--") != 0)
        length++;
    return length;
}

int main(int count, char **words)
{
    if (count < 2)
        fail_usage();
    size_t length;
    uint8_t *pack = contents(words[1], &length);
    rules by = check(pack, length);
    int worst = 0;
    for (int at = 2; at <= count;) { /* behind a -- at the end there is a group of no words, which is bad usage */
        int taken = group(count - at, words + at);
        int status = judge_one(&by, taken, words + at);
        worst = status > worst ? status : worst;
        at += taken + 1;
    }
    free(pack);
    return worst;
}
