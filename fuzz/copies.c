/* Promises of khx_run at a copy: it writes the bytes that stood in the source's range, and nothing else; or it faults, and writes nothing. */
#include "bytes.h"
#include "promise.h"
#include "runs.h"
#include "tries.h"

enum { DATA_COPY = 0x02, PROGRAM_COPY = 0x03, OPERANDS = 3 };

/* Where to, where from, how many. */
typedef struct operands {
    uint16_t to;
    uint16_t from;
    uint16_t count;
} operands;

/* A program that begins with a copy. */
static lent take_program(input *from, uint8_t code)
{
    lent program = lend(from, 1 + take_size(from, KHX_PROGRAM_MAX - 1));
    program.was[0] = code;
    restore(&program);
    return program;
}

/* Mostly inside a memory or just past it, at times any. */
static uint16_t take_place(input *from, size_t size)
{
    uint16_t any = take_u16(from);
    return any < 0xE000 ? any % (size + 2) : any;
}

/* How many: mostly no more than one over the bytes from a place on. */
static uint16_t take_count(input *from, size_t size, uint16_t place)
{
    return take_place(from, size > place ? size - place : 0);
}

/* The source mostly a few bytes from the target, so that they overlap, at times anywhere. */
static uint16_t take_source(input *from, size_t size, uint16_t target)
{
    uint8_t way = take_byte(from);
    return way < 0xC0 ? (uint16_t)(target + way % 64 - 32) : take_place(from, size);
}

static operands take_operands(input *from, size_t target_size, size_t source_size)
{
    operands taken;
    taken.to = take_place(from, target_size);
    taken.from = take_source(from, source_size, taken.to);
    taken.count = take_count(from, target_size, taken.to > taken.from ? taken.to : taken.from);
    return taken;
}

static bool inside(uint16_t place, uint16_t count, const lent *memory)
{
    return (size_t)place + count <= memory->size;
}

static size_t fault_of(const machine *one, const lent *source, operands given)
{
    if (!inside(given.to, given.count, &one->data))
        return KHX_DATA_RANGE;
    if (!inside(given.from, given.count, source))
        return source == &one->data ? KHX_DATA_RANGE : KHX_PROGRAM_RANGE;
    return 0;
}

/* What was in the source's range when it was lent is now in the target's, and what was pushed is in the cell of the last operand. */
static void promise_copied(input *from, const machine *one, const lent *source, operands given)
{
    lent data = lend_copy(from, one->data.was, one->data.size);
    copy_bytes(place_in(&data, given.to), source->was + given.from, given.count);
    promise(same_bytes(one->data.bytes, data.bytes, data.size), "a copy writes the bytes that stood in its source's range, and no other");
    uint16_t cells[OPERANDS] = {given.to, given.from, (uint16_t)(given.to + given.count)};
    promise(same_bytes(one->cells.bytes, cells, sizeof cells), "a copy takes three values and pushes where it ended");
    bool up = given.to > given.from;
    int apart = up ? given.to - given.from : given.from - given.to;
    notice(COPIED, up + 2 * (source == &one->data && apart < given.count));
}

/* The state is handed back, with a fault's number where there is one, and no memory is altered. */
static void promise_not_copied(khx_ran ran, khx_state state, size_t fault, const machine *one)
{
    if (fault != 0) {
        state.status = KHX_FAULTED;
        state.fault = fault;
    }
    promise(ran.steps == 0 && same_state(ran.state, state), "a copy that is refused or past a range alters at most the status, by the range's number, the target's first");
    promise_memories_kept(one);
}

void try_copy(input *from)
{
    uint8_t code = take_byte(from) & 1 ? PROGRAM_COPY : DATA_COPY;
    machine one;
    one.program = take_program(from, code);
    one.data = as_room(lend(from, take_size(from, KHX_DATA_MAX)));
    const lent *source = code == DATA_COPY ? &one.data : &one.program;
    operands given = take_operands(from, one.data.size, source->size);
    uint16_t cells[OPERANDS] = {given.to, given.from, given.count};
    one.cells = lend_copy(from, cells, sizeof cells);
    khx_state before = {0, OPERANDS, KHX_RUNNING, 0}, after = {1, 1, KHX_RUNNING, 0};
    khx_ran ran = run(&one, before, 1);
    size_t fault = fault_of(&one, source, given);
    promise(ran.refusal == refusal_of(&one, before), "a copy is refused as a run is");
    if (ran.refusal != 0 || fault != 0) {
        promise_not_copied(ran, before, ran.refusal == 0 ? fault : 0, &one);
        return;
    }
    promise(ran.steps == 1 && same_state(ran.state, after), "a copy inside both ranges is a step");
    promise_copied(from, &one, source, given);
}
