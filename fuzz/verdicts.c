/* Promises of khx_verify: its answer, its map, and what an accepted program does when it runs. */
#include "khalixoshi.h"
#include "lent.h"
#include "promise.h"
#include "runs.h"
#include "tries.h"

static size_t size_refusal(size_t program_length, size_t cells, size_t map_length)
{
    if (program_length > KHX_PROGRAM_MAX)
        return KHX_PROGRAM_SIZE;
    if (cells > KHX_CELLS_MAX)
        return KHX_CELLS_SIZE;
    return map_length == program_length ? 0 : KHX_MAP_SIZE;
}

static bool refused_by_walk(size_t refusal)
{
    return (refusal >= KHX_END && refusal <= KHX_FULL) || (refusal >= KHX_FUNCTION && refusal <= KHX_TWO_DEPTHS);
}

static size_t met(const uint16_t *map, size_t length)
{
    size_t count = 0;
    for (size_t i = 0; i < length; i++)
        count += map[i] != KHX_UNMET;
    return count;
}

static void promise_refused(khx_verdict verdict, const lent *program, const lent *map)
{
    promise(refused_by_walk(verdict.refusal), "the walk refuses by 1 to 5 and 8 to 10");
    promise(verdict.at < program->size || (program->size == 0 && verdict.refusal == KHX_END && verdict.at == 0),
            "a refusal names an address of the program; the empty program is 1 at 0");
    promise(met(cells_of(map), program->size) == 0, "a refused program's map is empty");
    if (program->size > 0)
        notice(REFUSED_ON, program->bytes[verdict.at]);
}

static void promise_map(const lent *program, size_t cells, const uint16_t *map)
{
    promise(program->size > 0 && map[0] == 0, "an accepted program is met at 0 with depth 0");
    for (size_t i = 0; i < program->size; i++) {
        if (map[i] == KHX_UNMET)
            continue;
        promise(map[i] <= cells, "depths are in the cells");
        notice(MET, program->bytes[i]);
    }
}

static void promise_safe(khx_ran ran, const lent *program, const uint16_t *map)
{
    khx_state state = ran.state;
    promise(ran.refusal == 0, "an accepted program runs");
    promise(state.address < program->size && map[state.address] == state.depth, "the map has the depth at each stop");
    promise(state.status != KHX_FAULTED || state.fault == KHX_DATA_RANGE || state.fault == KHX_PROGRAM_RANGE,
            "an accepted program faults by 6 or 7 alone");
}

/* Started fresh with as many cells or more, in parts of any length. */
static void promise_runs(input *from, const lent *program, size_t cells, const lent *map)
{
    lent data = as_room(lend(from, take_size(from, KHX_DATA_MAX) % (KHX_DATA_MAX + 1)));
    lent stack = lend_filled(from, 2 * cells);
    khx_ran ran = {0, 0, khx_fresh()};
    for (size_t part = 0; part < 8 && ran.state.status == KHX_RUNNING; part++) {
        ran = khx_run(ran.state, program->bytes, program->size, data.bytes, data.size, cells_of(&stack), cells,
                      take_budget(from, data.size));
        promise_around(&data);
        promise_around(&stack);
        promise_safe(ran, program, cells_of(map));
        notice(STOPPED_ON, program->bytes[ran.state.address]);
    }
}

static void promise_accepted(input *from, const lent *program, size_t cells, const lent *map)
{
    promise_map(program, cells, cells_of(map));
    size_t more = cells + take_byte(from);
    if (more > KHX_CELLS_MAX)
        more = cells;
    lent other = lend_copy(from, map->was, map->size);
    khx_verdict again = khx_verify(program->bytes, program->size, more, cells_of(&other), program->size);
    promise(again.refusal == 0, "an accepted program is accepted with more cells");
    promise_same(map, &other);
    promise_runs(from, program, more, map);
}

void try_verify(input *from)
{
    size_t cells = take_size(from, KHX_CELLS_MAX);
    uint8_t unlike = take_byte(from);
    lent program = lend(from, take_size(from, KHX_PROGRAM_MAX));
    lent map = as_room(lend_filled(from, 2 * (unlike < 0xF0 ? program.size : take_size(from, KHX_PROGRAM_MAX))));
    size_t map_length = map.size / 2;
    khx_verdict verdict = khx_verify(program.bytes, program.size, cells, cells_of(&map), map_length);
    size_t refusal = size_refusal(program.size, cells, map_length);
    notice(VERIFIED, verdict.refusal);
    promise_kept(&program);
    promise_around(&map);
    promise(verdict.at == 0 || refused_by_walk(verdict.refusal), "no other answer than the walk's names an address");
    if (refusal != 0) {
        promise(verdict.refusal == refusal, "sizes are refused by 20, 22, 23, the first that applies");
        promise_kept(&map);
    } else if (verdict.refusal != 0) {
        promise_refused(verdict, &program, &map);
    } else {
        promise_accepted(from, &program, cells, &map);
    }
}
