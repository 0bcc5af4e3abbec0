/* Promises of khx_shape: the decoder reads what a row says, and a step takes and pushes as much. */
#include "promise.h"
#include "runs.h"
#include "tries.h"

/* The most values that an instruction takes, the most that it pushes, and bytes of data that are enough where all operands are 0. */
enum { TAKEN_MAX = 3, PUSHED_MAX = 4, DATA = 2 };

static void promise_row(khx_row row)
{
    if (row.refusal == 0)
        promise(row.length > 0 && row.length <= KHX_INSTRUCTION_MAX && row.taken <= TAKEN_MAX && row.pushed <= PUSHED_MAX,
                "an instruction has one to nine bytes, takes at most three values and pushes at most four");
    else
        promise(row.refusal == KHX_ILLEGAL && row.length == 0 && row.taken == 0 && row.pushed == 0,
                "a row is refused by 2, and has no numbers then");
}

/* The instruction whole, then cut by a byte. */
static void promise_read(const lent *program, khx_row row)
{
    khx_decoded got = khx_decode(program->bytes, program->size, 0);
    promise(got.refusal == row.refusal && got.length == row.length, "what a row says is there is decoded");
    got = khx_decode(program->bytes, program->size - 1, 0);
    promise(row.refusal != 0 || got.refusal == (row.length == 1 ? KHX_END : KHX_CUT), "an instruction needs all bytes of its row");
    promise_kept(program);
}

/* A step with so many values, all 0, on so many cells: its fault. It may push so many. */
static size_t fault_with(input *from, machine *one, size_t depth, size_t cells, size_t pushed)
{
    static const uint16_t zeros[PUSHED_MAX];
    khx_state state = {0, depth, KHX_RUNNING, 0};
    one->cells = lend_copy(from, zeros, 2 * cells);
    khx_ran ran = run(one, state, 1);
    promise(ran.refusal == 0 && (ran.steps == 0 || ran.state.depth == pushed), "a step pushes as many values as its row says");
    return ran.state.fault;
}

static void promise_step(input *from, const lent *program, khx_row row)
{
    static const uint8_t zeros[DATA];
    machine one = {*program, lend_copy(from, zeros, DATA), *program};
    size_t cells = row.taken > row.pushed ? row.taken : row.pushed;
    size_t fault = fault_with(from, &one, row.taken, cells, row.pushed);
    promise(fault == 0 || fault == KHX_FUNCTION, "the values and the cells of a row are enough");
    if (row.taken > 0)
        promise(fault_with(from, &one, row.taken - 1, cells, row.pushed) == KHX_FEW, "a value fewer than a row takes is fault 4");
    if (row.pushed > row.taken)
        promise(fault_with(from, &one, row.taken, cells - 1, row.pushed) == KHX_FULL, "a cell fewer than a row needs is fault 5");
}

/* A row, and an instruction of its length whose operands are 0: they are good ones of every form. */
void try_shape(input *from)
{
    uint8_t code[KHX_INSTRUCTION_MAX] = {take_byte(from)};
    khx_row row = khx_shape(code[0]);
    notice(SHAPED, code[0]);
    promise_row(row);
    lent program = lend_copy(from, code, row.refusal == 0 ? row.length : sizeof code);
    promise_read(&program, row);
    if (row.refusal == 0)
        promise_step(from, &program, row);
}
