/* Promises of khx_run and khx_step, from any state. */
#include "promise.h"
#include "runs.h"
#include "tries.h"

/* A step may copy as many bytes as the data has; a run may copy so many in all. */
enum { WORK = 1 << 21 };

static machine take_machine(input *from)
{
    machine one;
    one.program = lend(from, take_size(from, KHX_PROGRAM_MAX));
    one.data = as_room(lend(from, take_size(from, KHX_DATA_MAX)));
    one.cells = as_room(lend(from, 2 * take_size(from, KHX_CELLS_MAX)));
    return one;
}

/* The same program with memories that hold the same. */
static machine twin(input *from, const machine *one)
{
    machine other = *one;
    other.data = lend_copy(from, one->data.was, one->data.size);
    other.cells = lend_copy(from, one->cells.was, one->cells.size);
    return other;
}

size_t cells_count(const machine *one)
{
    return one->cells.size / 2;
}

void promise_memories_kept(const machine *one)
{
    promise_kept(&one->data);
    promise_kept(&one->cells);
}

khx_ran run(const machine *one, khx_state state, uint32_t budget)
{
    khx_ran ran = khx_run(state, one->program.bytes, one->program.size, one->data.bytes, one->data.size,
                          cells_of(&one->cells), cells_count(one), budget);
    promise_kept(&one->program);
    promise_around(&one->data);
    promise_around(&one->cells);
    return ran;
}

/* Mostly fresh, at times any. */
static khx_state take_state(input *from)
{
    khx_state state = khx_fresh();
    uint8_t way = take_byte(from);
    if (way < 0xA0)
        return state;
    state.address = take_number(from);
    state.depth = take_number(from);
    state.status = way < 0xE0 ? KHX_RUNNING : take_number(from);
    state.fault = take_number(from);
    return state;
}

uint32_t take_budget(input *from, size_t data_length)
{
    uint32_t most = (uint32_t)(WORK / (data_length + 32));
    uint32_t wanted = take_byte(from);
    if (wanted >= 0xC0)
        wanted = take_u16(from);
    return wanted < most ? wanted : most;
}

static khx_state handed_back(khx_state state)
{
    if (state.status > KHX_FAULTED)
        state.status = KHX_FAULTED;
    if (state.status != KHX_FAULTED)
        state.fault = 0;
    return state;
}

bool same_state(khx_state one, khx_state other)
{
    return one.address == other.address && one.depth == other.depth && one.status == other.status && one.fault == other.fault;
}

size_t refusal_of(const machine *one, khx_state state)
{
    if (one->program.size > KHX_PROGRAM_MAX)
        return KHX_PROGRAM_SIZE;
    if (one->data.size > KHX_DATA_MAX)
        return KHX_DATA_SIZE;
    if (cells_count(one) > KHX_CELLS_MAX)
        return KHX_CELLS_SIZE;
    return state.depth > cells_count(one) ? KHX_DEEP : 0;
}

static void promise_ran(khx_ran ran, const machine *one, uint32_t budget)
{
    khx_state state = ran.state;
    bool within = state.address < one->program.size;
    promise(ran.steps <= budget && state.depth <= cells_count(one), "steps are in the budget, the depth in the cells");
    if (state.status == KHX_RUNNING) {
        promise(ran.steps == budget && state.fault == 0, "a paused run has used its budget");
    } else if (state.status == KHX_HALTED) {
        promise(ran.steps > 0 && state.fault == 0 && within, "a halt is a step in the program");
    } else {
        promise(state.status == KHX_FAULTED && ran.steps < budget, "a fault is no step");
        promise(state.fault >= KHX_END && state.fault <= KHX_FUNCTION, "faults are 1 to 8");
        promise(within == (state.fault != KHX_END), "fault 1 is for addresses past the program, and no other");
        notice(FAULTED, state.fault);
    }
    if (within)
        notice(STOPPED_ON, one->program.bytes[state.address]);
}

static void promise_same_run(khx_ran one, khx_ran other, const machine *first, const machine *second)
{
    promise(one.refusal == other.refusal && one.steps == other.steps && same_state(one.state, other.state),
            "the same run again has the same answer");
    promise_same(&first->data, &second->data);
    promise_same(&first->cells, &second->cells);
}

static khx_ran in_two_parts(const machine *one, khx_state state, uint32_t budget, uint32_t part)
{
    khx_ran first = run(one, state, part);
    khx_ran second = run(one, first.state, budget - part);
    second.steps += first.steps;
    return second;
}

static void restore_memories(const machine *one)
{
    restore(&one->data);
    restore(&one->cells);
}

/* A run that stopped is, with any larger budget, the same; after as many steps as it took, it has done all but stop. */
static void promise_stopped(khx_ran ran, khx_state state, const machine *first, const machine *second)
{
    restore_memories(second);
    promise_same_run(ran, run(second, state, UINT32_MAX), first, second);
    if (ran.state.status == KHX_FAULTED) {
        restore_memories(second);
        ran.state.status = KHX_RUNNING;
        ran.state.fault = 0;
        promise_same_run(ran, run(second, state, ran.steps), first, second);
    }
}

void try_run(input *from)
{
    khx_state state = take_state(from);
    machine one = take_machine(from);
    bool stopped = state.status != KHX_RUNNING;
    uint32_t budget = stopped ? take_u32(from) : take_budget(from, one.data.size);
    khx_ran ran = run(&one, state, budget);
    notice(RAN, ran.refusal);
    promise(ran.refusal == refusal_of(&one, state), "a run is refused by 20, 21, 22, 24, the first that applies");
    if (ran.refusal != 0 || stopped || budget == 0) {
        promise(ran.steps == 0 && same_state(ran.state, handed_back(state)), "what cannot run comes back as it was");
        promise_memories_kept(&one);
        return;
    }
    promise_ran(ran, &one, budget);
    machine other = twin(from, &one);
    promise_same_run(ran, in_two_parts(&other, state, budget, take_u16(from) % (budget + 1)), &one, &other);
    if (ran.state.status != KHX_RUNNING)
        promise_stopped(ran, state, &one, &other);
}

static khx_ran step(const machine *one, khx_state state)
{
    khx_ran ran = khx_step(state, one->program.bytes, one->program.size, one->data.bytes, one->data.size,
                           cells_of(&one->cells), cells_count(one));
    promise_kept(&one->program);
    promise_around(&one->data);
    promise_around(&one->cells);
    return ran;
}

/* A step takes and pushes what the row of its first byte says; faults 4 and 5 are for what does not fit. */
static void promise_by_row(khx_ran ran, khx_state before, const machine *one)
{
    if (before.status != KHX_RUNNING || before.address >= one->program.size)
        return;
    khx_row row = khx_shape(one->program.bytes[before.address]);
    bool few = before.depth < row.taken;
    size_t depth = before.depth - row.taken + row.pushed;
    promise(ran.steps == 0 || (row.refusal == 0 && !few && ran.state.depth == depth), "a step takes and pushes as its row says");
    promise(ran.state.fault != KHX_FEW || few, "fault 4 is for fewer values than the row takes");
    promise(ran.state.fault != KHX_FULL || (!few && depth > cells_count(one)), "fault 5 is for more values than there are cells");
}

/* Some steps one by one, against a run of as many. */
void try_step(input *from)
{
    uint8_t count = take_byte(from) % 64;
    khx_state state = take_state(from);
    machine one = take_machine(from);
    machine other = twin(from, &one);
    khx_ran steps = {refusal_of(&one, state), 0, handed_back(state)};
    for (uint8_t i = 0; i < count; i++) {
        khx_ran ran = step(&one, steps.state);
        promise(ran.steps <= 1 && ran.refusal == steps.refusal, "a step is one step, refused as a run is");
        promise_by_row(ran, steps.state, &one);
        steps.steps += ran.steps;
        steps.state = ran.state;
    }
    promise_same_run(steps, run(&other, state, count), &one, &other);
}
