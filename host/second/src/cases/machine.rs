//! Cases of the run.
//!
//! Numbers have their low byte first. A case is `R` (52 hex), then
//!
//! - the program: its length as u16, how much of it is given as u16, the bytes
//!   given;
//! - the data: its length as u32, how much of it is given as u16, the bytes
//!   given;
//! - the cells: how many as u16, how many are given as u16, the cells given, u16
//!   each;
//! - the state: address u32, depth u16, status u8 (0 running, 1 halted, 2
//!   faulted), fault u8 (its number, 0 where there is none);
//! - the budget: u32.
//!
//! A memory longer than what is given of it repeats that: of g given, place i
//! holds the one given at i modulo g. Answered as `run`.

mod case;

use std::collections::BTreeSet;

use super::assembler::assemble;
use super::lent::Lent;
use super::programs::{
    AT_THE_END_OF_DATA, COUNT_DOWN, COUNT_DOWN_AGAIN, DIVISOR, M1, M4, M9, SUBROUTINE,
    SUM_OF_ITSELF,
};
use super::{good_pushes, whole, Varied, Vectors, EDGES};
use crate::machine::Status;
use crate::numbers::{DATA_BYTES, PROGRAM_BYTES, STACK_CELLS};
use case::{case, Case, MOST};

/// All cases, in order.
pub fn vectors() -> Vectors {
    let mut vectors = Vectors::default();
    marked_examples(&mut vectors);
    every_first_byte(&mut vectors);
    stack_limits(&mut vectors);
    full_stacks(&mut vectors);
    one_operand(&mut vectors);
    two_operands(&mut vectors);
    loads_and_stores(&mut vectors);
    data_about_256(&mut vectors);
    sums_past_16_bits(&mut vectors);
    copies(&mut vectors);
    overlaps(&mut vectors);
    jumps(&mut vectors);
    functions(&mut vectors);
    budgets(&mut vectors);
    stopped_states(&mut vectors);
    refusals(&mut vectors);
    long_programs(&mut vectors);
    long_data(&mut vectors);
    long_runs(&mut vectors);
    resumed_runs(&mut vectors);
    varied_bytes(&mut vectors);
    varied_good_steps(&mut vectors);
    vectors
}

/// Operand bytes that are good places and shifts in most forms.
const OPERANDS: [u8; 8] = [2, 0, 4, 1, 6, 0, 8, 2];

/// An instruction with a one-byte or a two-byte number; none where the number
/// does not fit.
fn with_number(first: u8, number: u16) -> Option<Vec<u8>> {
    let [low, high] = number.to_le_bytes();
    match first {
        0x25..=0x40 => (high == 0).then(|| vec![first, low]),
        _ => Some(vec![first, low, high]),
    }
}

/// The marked examples of 01 that run.
fn marked_examples(vectors: &mut Vectors) {
    case(&M1).stack(&[], 2).add(vectors);
    case(&M1).stack(&[], 1).add(vectors);
    case(&M4).data(1).stack(&[], 1).add(vectors);
    case(&M4).data(1).stack(&[], 0).add(vectors);
    case(&M4).data(0).stack(&[], 1).add(vectors);
    let endless = case(&[0x81, 0x3D, 0x00]).stack(&[], 1);
    endless.budget(1_001).add(vectors);
    let endless_push = case(&[0x81, 0x3C, 0x00]);
    endless_push.clone().stack(&[], 1).add(vectors);
    endless_push.stack(&[], 7).add(vectors);
    case(&[]).add(vectors);
    for length in [0, 1, 2, 3, 254, 255, 256] {
        case(&M9).data(length).stack(&[], 2).add(vectors);
    }
    case(&[0xC8, 0x05]).stack(&[], 2).add(vectors);
    case(&[0x31, 0x10]).stack(&[1], 0).add(vectors);
    case(&[0x31]).stack(&[1], 0).add(vectors);
    let copy = case(&[0x02]).data_of(&[1, 2, 3, 4]).stack(&[1, 0, 3], 0);
    copy.budget(1).add(vectors);
}

/// Every first byte on a stack with values and room: one step, two steps, and
/// cut at every shorter length, there also with no stack at all, where 2 and 3
/// come before 4 and 5.
fn every_first_byte(vectors: &mut Vectors) {
    for first in 0..=255 {
        let mut program = whole(first, OPERANDS);
        let about = |program: &[u8]| case(program).data(9).stack(&[1, 2, 3, 4], 4);
        for length in 1..program.len() {
            about(&program[..length]).budget(1).add(vectors);
            case(&program[..length]).budget(1).add(vectors);
        }
        program.push(0x00);
        about(&program).budget(1).add(vectors);
        about(&program).budget(2).add(vectors);
        case(&program).budget(1).add(vectors);
    }
}

/// Every legal instruction at small depths, with no cell to spare and with few;
/// those that use data also without any, where 4 and 5 come before 6.
fn stack_limits(vectors: &mut Vectors) {
    let live = [1, 0, 2, 3];
    for first in (0x00..=0x5A).chain([0x80, 0xBF]).chain(good_pushes()) {
        let program = whole(first, OPERANDS);
        let uses_data = matches!(first, 0x02 | 0x03 | 0x1D..=0x24 | 0x33..=0x3A | 0x4D..=0x54);
        for depth in 0..=live.len() {
            for spare in 0..=1 {
                let about = case(&program).stack(&live[..depth], spare).budget(1);
                about.clone().data(6).add(vectors);
                if uses_data {
                    about.add(vectors);
                }
            }
        }
    }
    for first in good_pushes() {
        for (depth, spare) in [(0, 2), (0, 3), (0, 4), (0, 5), (1, 2), (1, 3), (1, 4)] {
            let about = case(&whole(first, OPERANDS)).stack(&live[..depth], spare);
            about.budget(1).add(vectors);
        }
    }
}

/// The largest stack at and about its limit.
fn full_stacks(vectors: &mut Vectors) {
    for (program, depths) in [
        (vec![0x81], [1_022, 1_023, 1_024]),
        (vec![0xC3, 1, 2, 3, 4], [1_020, 1_021, 1_024]),
        (vec![0x3B, 0x01], [0, 1_023, 1_024]),
        (vec![0x05], [1, 1_023, 1_024]),
        (vec![0x14], [1, 2, 1_024]),
        (vec![0x04], [1, 2, 1_024]),
    ] {
        for depth in depths {
            let about = case(&program).cells(STACK_CELLS).depth(depth);
            about.budget(1).add(vectors);
        }
    }
}

fn one_operand(vectors: &mut Vectors) {
    for first in 0x19..=0x1C {
        for value in [
            0, 1, 2, 127, 128, 255, 256, 257, 0x1234, 32_767, 32_768, 65_534, 65_535,
        ] {
            case(&[first]).stack(&[value, 9], 1).budget(1).add(vectors);
        }
    }
}

/// Pairs that tell apart the orders, the comparisons and the carries.
#[rustfmt::skip]
const PAIRS: [(u16, u16); 34] = [
    (0, 0), (0, 1), (1, 0), (1, 1), (3, 5), (5, 3), (1, 15), (1, 16), (0x8001, 1),
    (0x8001, 15), (0xFFFF, 15), (0xFFFF, 16), (0xFFFF, 17), (0xFFFF, 32), (0xFFFF, 255),
    (0xFFFF, 256), (0xFFFF, 0x8000), (255, 255), (255, 256), (256, 255), (256, 256),
    (0x1234, 0xFF), (0x1234, 0x34), (0xAAAA, 0x5555), (0xF0F0, 0x0FF0),
    (0x7FFF, 0x8000), (0x8000, 0x7FFF), (0x8000, 0x8000), (0x8000, 2), (0xFFFF, 0),
    (0, 0xFFFF), (1, 0xFFFF), (0xFFFF, 1), (0xFFFF, 0xFFFF),
];

/// The codes of two operands, the second on the stack or in the code.
fn two_operands(vectors: &mut Vectors) {
    for (a, b) in PAIRS {
        for first in 0x0B..=0x18 {
            case(&[first]).stack(&[a, b], 1).budget(1).add(vectors);
        }
        for first in (0x25..=0x30).chain(0x41..=0x4C) {
            if let Some(program) = with_number(first, b) {
                case(&program).stack(&[a, 9], 0).budget(1).add(vectors);
            }
        }
    }
    for first in [0x31, 0x32] {
        for shift in (0..=16).chain([255]) {
            case(&[first, shift]).add(vectors);
            for value in [0xFFFF, 0x8421] {
                let about = case(&[first, shift]).stack(&[value], 1);
                about.budget(1).add(vectors);
            }
        }
    }
}

/// Every load and store about both ends of small data memories, and far past
/// them.
fn loads_and_stores(vectors: &mut Vectors) {
    for length in [0, 1, 2, 3, 9] {
        let end = length as u16;
        let mut places = vec![0, 1, 2, end, end + 1, 65_534, 65_535];
        places.extend([1, 2, 3].map(|short| end.saturating_sub(short)));
        places.sort();
        places.dedup();
        for place in places {
            accesses(vectors, length, place);
        }
    }
}

/// Every load and store at a place: the offset forms with the place in one
/// summand, and in both.
fn accesses(vectors: &mut Vectors, length: usize, place: u16) {
    const VALUE: u16 = 0xA55A;
    let mut add = |program: Option<Vec<u8>>, stack: &[u16]| {
        if let Some(program) = program {
            let about = case(&program).data(length).stack(stack, 1);
            about.budget(1).add(vectors);
        }
    };
    let part = place / 3;
    let rest = place - part;
    for first in [0x1D, 0x1E] {
        add(Some(vec![first]), &[place]);
    }
    for first in [0x1F, 0x20] {
        add(Some(vec![first]), &[place, 0]);
        add(Some(vec![first]), &[part, rest]);
    }
    for first in [0x21, 0x22] {
        add(Some(vec![first]), &[place, VALUE]);
    }
    for first in [0x23, 0x24] {
        add(Some(vec![first]), &[0, place, VALUE]);
        add(Some(vec![first]), &[rest, part, VALUE]);
    }
    for first in [0x33, 0x34, 0x4D, 0x4E] {
        add(with_number(first, place), &[]);
    }
    for first in [0x35, 0x36, 0x4F, 0x50] {
        add(with_number(first, part), &[rest]);
    }
    for first in [0x37, 0x38, 0x51, 0x52] {
        add(with_number(first, place), &[VALUE]);
    }
    for first in [0x39, 0x3A, 0x53, 0x54] {
        add(with_number(first, part), &[rest, VALUE]);
    }
}

/// 01: "at length 255, a u16 at 254 must give 6; at 256 it is good."
fn data_about_256(vectors: &mut Vectors) {
    for length in [254, 255, 256] {
        for place in [253, 254, 255] {
            accesses(vectors, length, place);
        }
    }
}

/// Sums past 65,535 that would be good places if they were taken modulo 65,536,
/// as in M9.
fn sums_past_16_bits(vectors: &mut Vectors) {
    for (a, b) in [
        (65_535, 1),
        (1, 65_535),
        (65_535, 4),
        (65_535, 65_535),
        (32_768, 32_768),
    ] {
        for program in [vec![0x1F], vec![0x20], vec![0x23], vec![0x24]] {
            let about = case(&program).data(6).stack(&[a, b, 0x77], 0);
            about.budget(1).add(vectors);
        }
        for first in [0x35, 0x36, 0x39, 0x3A, 0x4F, 0x50, 0x53, 0x54] {
            if let Some(program) = with_number(first, b) {
                let about = case(&program).data(6).stack(&[a, 0x77], 0);
                about.budget(1).add(vectors);
            }
        }
    }
}

/// Copies from and to the inside, the end and beyond; of nothing, of some, of
/// too many; apart, and overlapping both ways.
fn copies(vectors: &mut Vectors) {
    for a in [0, 1, 3, 7, 8, 9, 65_535] {
        for b in [0, 1, 3, 7, 8, 9, 65_535] {
            for c in [0, 1, 4, 5, 7, 8, 65_535] {
                let stack = [a, b, c];
                let data = case(&[0x02]).data(8).stack(&stack, 0);
                data.budget(1).add(vectors);
                let program = [0x03, 0xE1, 0xE2, 0xE3, 0xE4, 0xE5, 0xE6];
                let program = case(&program).data(8).stack(&stack, 0);
                program.budget(1).add(vectors);
            }
        }
    }
    for first in [0x02, 0x03] {
        for stack in [
            [0, 0, 0],
            [1, 0, 0],
            [0, 1, 0],
            [0, 0, 1],
            [1, 2, 0],
            [0, 2, 0],
        ] {
            case(&[first]).stack(&stack, 0).budget(1).add(vectors);
            let about = case(&[first]).data(1).stack(&stack, 1);
            about.budget(1).add(vectors);
        }
    }
}

/// Copies inside data, up and down, whose ranges share no byte, one, half of
/// them, all but one and all, from the lowest byte and up to the highest; of
/// nothing, of a few and of as many as there are.
fn overlaps(vectors: &mut Vectors) {
    for length in [9, 256] {
        for count in [0, 1, 2, length / 2, length / 2 + 1, length - 1, length] {
            let apart = [0, 1, count / 2, count - count.min(1), count];
            let apart = apart.into_iter().filter(|apart| count + apart <= length);
            for apart in apart.collect::<BTreeSet<usize>>() {
                copy_both_ways(vectors, length, 0, apart, count);
                copy_both_ways(vectors, length, length - count - apart, apart, count);
            }
        }
    }
    for (apart, count) in [
        (DATA_BYTES, 0),
        (32_767, 32_768),
        (1, DATA_BYTES - 1),
        (0, DATA_BYTES),
    ] {
        copy_both_ways(vectors, DATA_BYTES, 0, apart, count);
    }
}

/// A copy up from a place to one so far apart, and one down.
fn copy_both_ways(vectors: &mut Vectors, length: usize, low: usize, apart: usize, count: usize) {
    for (a, b) in [(low + apart, low), (low, low + apart)] {
        let stack = [a, b, count].map(|value| value as u16);
        let about = case(&[0x02]).data(length).stack(&stack, 0);
        about.budget(1).add(vectors);
    }
}

/// Jumps and calls to good addresses, into operands, to the end and far past it,
/// with what the next steps make of it.
fn jumps(vectors: &mut Vectors) {
    let tests = [0, 1, 256, 65_535];
    for target in [0, 1, 2, 3, 4, 5, 6, 7, 255, 256, 65_535] {
        let mut add = |head: &[u8], stack: &[u16]| {
            let program = [head, &[0x81, 0x00, 0x92][..4 - head.len()]].concat();
            for budget in [1, 3] {
                let about = case(&program).stack(stack, 2);
                about.budget(budget).add(vectors);
            }
        };
        for first in [0x05, 0x06] {
            add(&[first], &[target, 7]);
        }
        for first in [0x07, 0x08] {
            for test in tests {
                add(&[first], &[target, test]);
            }
        }
        for first in [0x3B, 0x3C, 0x55, 0x56] {
            if let Some(head) = with_number(first, target) {
                add(&head, &[]);
            }
        }
        for first in [0x3D, 0x3E, 0x57, 0x58] {
            for test in tests {
                if let Some(head) = with_number(first, target) {
                    add(&head, &[test]);
                }
            }
        }
    }
}

/// System and extension functions: only system function 0 is there.
fn functions(vectors: &mut Vectors) {
    for function in EDGES.into_iter().chain([2, 4, 9]) {
        for first in [0x09, 0x0A] {
            for below in [&[][..], &[6]] {
                let stack = [&[function], below].concat();
                let about = case(&[0x82, 0x01, first, 0x00]).at(2).stack(&stack, 1);
                about.clone().budget(0).add(vectors);
                about.clone().budget(1).add(vectors);
                about.budget(2).add(vectors);
            }
        }
        for first in [0x3F, 0x40, 0x59, 0x5A] {
            if let Some(program) = with_number(first, function) {
                case(&program).budget(0).add(vectors);
                case(&program).stack(&[5], 0).budget(1).add(vectors);
                case(&program).stack(&[], 1).budget(2).add(vectors);
            }
        }
    }
}

/// Every budget about the number of steps that a program takes, and the largest;
/// programs that halt, that fault, and that never stop.
fn budgets(vectors: &mut Vectors) {
    for (about, steps) in [
        (case(&M1).stack(&[], 2), 4),
        (case(&M4).data(1).stack(&[], 1), 19),
        (case(&M9).data(4).stack(&[], 2), 1),
        (case(&[0x81, 0x82, 0x83]).stack(&[], 2), 2),
        (case(&[0x3C, 0x04, 0x5B, 0x5B, 0x3C, 0x02]), 2),
        (case(&[0x01]), 0),
        (case(&[0x00]), 1),
        (case(&[]), 0),
    ] {
        for budget in (0..=steps + 2).chain([MOST]) {
            about.clone().budget(budget).add(vectors);
        }
    }
    for budget in [0, 1, 2, 3, 255, 256, 65_535, 65_536, 100_000] {
        case(&[0x3C, 0x00]).budget(budget).add(vectors);
    }
}

/// Stopped states come back as they were, whatever their address and depth.
fn stopped_states(vectors: &mut Vectors) {
    let faults = [0, 1, 2, 3, 4, 5, 6, 7, 8, 9, 24, 255].map(Status::Faulted);
    for status in [Status::Halted].into_iter().chain(faults) {
        let about = case(&M1).data(2).status(status);
        about.clone().stack(&[1], 1).at(2).budget(1).add(vectors);
        about.stack(&[], 2).at(65_535).add(vectors);
    }
    for budget in [0, 1, MOST] {
        for address in [0, 3, 4, 65_535, 65_536, MOST as usize] {
            for status in [Status::Running, Status::Halted, Status::Faulted(6)] {
                let about = case(&M1).stack(&[4, 3], 1).status(status);
                about.at(address).budget(budget).add(vectors);
            }
        }
    }
}

/// 20, 21, 22 and 24, alone and together, in every status and with any budget.
fn refusals(vectors: &mut Vectors) {
    let long_program = Case::repeated(&[0x81], PROGRAM_BYTES + 1);
    for status in [Status::Running, Status::Halted, Status::Faulted(1)] {
        for budget in [0, 1, MOST] {
            let about = case(&[0x81]).data(3).status(status).budget(budget);
            about.clone().stack(&[7, 8], 0).depth(3).add(vectors);
            about.clone().stack(&[], 0).depth(1).add(vectors);
            about.stack(&[], 2).depth(65_535).add(vectors);
            let about = long_program.clone().data(3).status(status).budget(budget);
            about.clone().stack(&[], 2).add(vectors);
            about.stack(&[], 2).depth(3).add(vectors);
        }
        let about = case(&[0x81]).status(status).cells(STACK_CELLS + 1);
        about.clone().budget(0).add(vectors);
        about.clone().depth(1_025).add(vectors);
        about.depth(1_026).budget(1).add(vectors);
        let about = long_program.clone().status(status).cells(STACK_CELLS + 1);
        about.depth(1_026).add(vectors);
    }
    let about = case(&[0x81]).cells(STACK_CELLS).depth(STACK_CELLS + 1);
    about.add(vectors);
    let long_data = |about: Case| about.data(DATA_BYTES + 1).budget(1);
    long_data(case(&M1).stack(&[], 2)).add(vectors);
    let beyond = |about: Case| long_data(about).cells(STACK_CELLS + 1).depth(2_000);
    beyond(case(&[])).status(Status::Halted).add(vectors);
    beyond(long_program).status(Status::Faulted(4)).add(vectors);
}

/// Programs of the greatest length, also at their very end.
fn long_programs(vectors: &mut Vectors) {
    let end = PROGRAM_BYTES;
    let repeated = |given: &[u8]| Case::repeated(given, PROGRAM_BYTES);
    repeated(&[0x80, 0x01]).stack(&[], 1).add(vectors);
    repeated(&[0x81]).cells(STACK_CELLS).add(vectors);
    let calls_at_end = repeated(&[0x00, 0x55, 0x00, 0x00]).stack(&[], 2);
    calls_at_end.at(end - 3).add(vectors);
    let cut = repeated(&[0x00, 0x00, 0x55, 0x00]).stack(&[], 2);
    for address in [end - 4, end - 2, end - 1, end, end + 1] {
        cut.clone().at(address).add(vectors);
    }
    let jumps_to_end = repeated(&[0x56, 0xFF, 0x3F, 0x87]).stack(&[], 1);
    jumps_to_end.add(vectors);
    let jumps_past_end = repeated(&[0x56, 0x00, 0x40, 0x87]).stack(&[], 1);
    jumps_past_end.add(vectors);
    for (source, count) in [
        (16_380, 4),
        (16_380, 5),
        (16_383, 1),
        (16_384, 0),
        (16_384, 1),
        (16_385, 0),
        (65_535, 0),
        (65_535, 1),
    ] {
        let about = repeated(&[0x03, 0x11, 0x22, 0x33]).data(5);
        let about = about.stack(&[0, source, count], 0);
        about.budget(1).add(vectors);
    }
}

/// The largest data memory, up to its last byte.
fn long_data(vectors: &mut Vectors) {
    for source in AT_THE_END_OF_DATA {
        let about = case(&assemble(source)).data(DATA_BYTES);
        about.stack(&[], 6).add(vectors);
    }
}

fn long_runs(vectors: &mut Vectors) {
    let count_down = case(&assemble(COUNT_DOWN)).data(2).stack(&[], 1);
    count_down.clone().add(vectors);
    for budget in [327_678, 327_679, 327_680, 100_000] {
        count_down.clone().budget(budget).add(vectors);
    }
    let again = case(&assemble(COUNT_DOWN_AGAIN));
    again.data_of(&[0, 0, 3]).stack(&[], 1).add(vectors);
    let divisor = case(&assemble(DIVISOR)).stack(&[], 2);
    for (first, second) in [(12, 18), (1, 1), (65_535, 3), (60_000, 45_000), (0, 5)] {
        let numbers: Vec<u8> = [first, second]
            .into_iter()
            .flat_map(u16::to_le_bytes)
            .collect();
        divisor
            .clone()
            .data_of(&numbers)
            .budget(500_000)
            .add(vectors);
    }
    let sum = case(&assemble(SUM_OF_ITSELF)).stack(&[], 3);
    sum.clone().data(42).add(vectors);
    sum.data(41).add(vectors);
    case(&assemble(SUBROUTINE)).stack(&[], 3).add(vectors);
    case(&assemble(SUBROUTINE)).stack(&[], 2).add(vectors);
    case(&[0x3B, 0x00]).cells(STACK_CELLS).add(vectors);
    case(&[0x55, 0x00, 0x00]).cells(5).add(vectors);
}

/// Runs that pause after each of their first steps, and go on from there with
/// the memories and the state they left.
fn resumed_runs(vectors: &mut Vectors) {
    let calls = case(&assemble(SUBROUTINE)).stack(&[], 3);
    let sum = case(&assemble(SUM_OF_ITSELF)).data(42).stack(&[], 3);
    for (about, most) in [
        (case(&M1).stack(&[], 2), 5),
        (case(&M4).data(1).stack(&[], 1), 20),
        (case(&M9).data(3).stack(&[], 2), 2),
        (calls, 22),
        (sum, 30),
    ] {
        for budget in 0..=most {
            let first = about.clone().budget(budget);
            let ((_, _, state), data, cells) = first.run();
            first.add(vectors);
            let rest = Case {
                data: Lent::whole(&data),
                cells: Lent::whole(&cells),
                state,
                ..about.clone()
            };
            rest.add(vectors);
        }
    }
}

/// An instruction, nearly always a legal one, with nearly always small operands.
fn varied_instruction(varied: &mut Varied) -> Vec<u8> {
    let first = match varied.below(20) {
        0..=6 => 0x80 | varied.below(64) as u8,
        7..=8 => varied.one_of(&good_pushes().collect::<Vec<_>>()),
        9..=18 => varied.below(0x5B) as u8,
        _ => varied.byte(),
    };
    let limit = varied.one_of(&[4, 16, 16, 40, 256]);
    let mut operands = [0; 8].map(|_: u8| varied.below(limit) as u8);
    if (0x41..=0x5A).contains(&first) && varied.below(4) > 0 {
        operands[1] = 0;
    }
    whole(first, operands)
}

/// Memories and a start for varied programs.
fn varied_start(varied: &mut Varied, program: &[u8]) -> Case {
    let cells = varied.one_of(&[0, 1, 2, 3, 4, 6, 8]);
    let depth = varied.below(cells + 1);
    let limit = varied.one_of(&[3, 12, 24, 256, 65_536]);
    let live: Vec<u16> = (0..depth).map(|_| varied.below(limit) as u16).collect();
    let data = varied.one_of(&[0, 1, 2, 4, 9, 16, 24]);
    let data = varied.bytes(data);
    case(program).data_of(&data).stack(&live, cells - depth)
}

/// Varied programs as they come; most of them soon fault.
fn varied_bytes(vectors: &mut Vectors) {
    let mut varied = Varied(3);
    for _ in 0..600 {
        let mut program = Vec::new();
        for _ in 0..1 + varied.below(8) {
            program.extend(varied_instruction(&mut varied));
        }
        let address = varied.below(3);
        let budget = varied.one_of(&[1, 2, 3, 10, 100, 1_000]);
        let about = varied_start(&mut varied, &program).at(address);
        about.budget(budget).add(vectors);
    }
}

/// Varied programs put together step by step, so that each instruction but
/// perhaps the last is good where it stands and leads to the next.
fn varied_good_steps(vectors: &mut Vectors) {
    let mut varied = Varied(4);
    for _ in 0..500 {
        let mut about = varied_start(&mut varied, &[]).budget(10_000);
        let wanted = 3 + varied.below(20);
        let mut tries = 0;
        while about.program.length < wanted && tries < 400 {
            tries += 1;
            let mut longer = about.program.given.clone();
            longer.extend(varied_instruction(&mut varied));
            let longer = Case {
                program: Lent::whole(&longer),
                ..about.clone()
            };
            let ((_, _, after), _, _) = longer.run();
            let leads_on = after.address == longer.program.length;
            if leads_on && after.status == Status::Faulted(1) {
                about = longer;
            }
        }
        if varied.below(3) > 0 {
            about.program.given.extend(varied_instruction(&mut varied));
            about.program.length = about.program.given.len();
        }
        about.add(vectors);
    }
}

#[cfg(test)]
mod tests {
    use super::*;

    #[test]
    fn the_cases_stay_few() {
        let vectors = vectors();
        assert!(vectors.stdin.len() < 400_000);
        assert!(vectors.stdout.len() < 3_000_000);
        let (ok, refused) = (vectors.answers("ok "), vectors.answers("refused "));
        assert_eq!(ok + refused, vectors.cases());
    }

    #[test]
    fn every_number_and_status_appears() {
        let vectors = vectors();
        for number in [20, 21, 22, 24] {
            assert!(vectors.answers(&format!("refused {number} ")) > 0);
        }
        let faults = (1..=8).map(|number| format!(" faulted:{number} "));
        for status in faults.chain([" running ".to_string(), " halted ".to_string()]) {
            assert!(vectors.stdout.contains(&status), "{status}");
        }
    }

    /// The first case, which is M1, by hand.
    #[test]
    fn the_form_of_a_case() {
        let vectors = vectors();
        let m1 = [
            0x52, 4, 0, 4, 0, 0x85, 0x83, 0x15, 0x00, 0, 0, 0, 0, 0, 0, 2, 0, 2, 0, 0xD0, 0xD0,
            0xD1, 0xD0, 0, 0, 0, 0, 0, 0, 0, 0, 0xFF, 0xFF, 0xFF, 0xFF,
        ];
        assert!(vectors.stdin.starts_with(&m1));
        assert!(vectors.stdout.starts_with("ok 4 3 1 halted - 0003fffe\n"));
    }
}
