//! Single instructions after some pushes: every first byte, cut, at each depth
//! that matters, with exactly enough cells and with one fewer.

use crate::cases::{good_pushes, whole};
use crate::instruction::decode;
use crate::machine::pushed;
use crate::opcodes::Opcode;

/// So many pushes, an instruction with this number in it, and two halts.
fn after_pushes(depth: usize, first: u8, number: u16) -> Vec<u8> {
    let [low, high] = number.to_le_bytes();
    let mut program = vec![0x80; depth];
    program.extend(whole(first, [low, high, 3, 4, 5, 6, 7, 8]));
    program.extend([0x00, 0x00]);
    program
}

/// Every first byte at the depth that it takes, one below and one above, with
/// exactly the cells that are needed and with one fewer. A number in the code is
/// the address of the last halt.
pub fn every_first_byte() -> Vec<(Vec<u8>, usize)> {
    let mut programs = Vec::new();
    for first in 0..=255 {
        let (taken, pushed) = taken_and_pushed(first);
        let depths = match first {
            0x80..=0xBF => taken..=taken,
            _ => taken.saturating_sub(1)..=taken + 1,
        };
        for depth in depths {
            let end = after_pushes(depth, first, 0).len() as u16 - 1;
            let program = after_pushes(depth, first, end);
            let needed = depth.max((depth + pushed).saturating_sub(taken));
            programs.push((program.clone(), needed));
            if needed > 0 && depth >= taken && !(0x80..=0xBF).contains(&first) {
                programs.push((program, needed - 1));
            }
        }
    }
    programs
}

fn taken_and_pushed(first: u8) -> (usize, usize) {
    match decode(&[first, 0, 0, 0, 0, 0, 0, 0, 0], 0) {
        Ok((instruction, _)) => match Opcode::of(first) {
            Some(opcode) => (opcode.taken(), pushed(opcode.operation, &instruction)),
            None => (0, 0),
        },
        Err(_) => (0, 0),
    }
}

/// Every instruction of more than one byte cut at every shorter length, where
/// there are values and cells enough, and where there are none.
pub fn cut() -> Vec<(Vec<u8>, usize)> {
    let mut programs = Vec::new();
    for first in (0x25..=0x5A).chain(good_pushes()) {
        let instruction = whole(first, [1, 0, 3, 4, 5, 6, 7, 8]);
        for length in 1..instruction.len() {
            let pushes = usize::from(first % 3);
            let mut program = vec![0x80; pushes];
            program.extend(&instruction[..length]);
            programs.push((program, pushes));
        }
    }
    programs
}

/// Functions by number, in the code and on the stack, at the end of the program
/// and before it.
pub fn functions() -> Vec<(Vec<u8>, usize)> {
    let mut programs = Vec::new();
    for first in [0x3F, 0x40, 0x59, 0x5A] {
        for number in [0, 1, 2, 4, 5, 255, 256, 65_280, 65_535] {
            let wide = first >= 0x59;
            if wide || number <= 255 {
                let mut program = after_pushes(0, first, number);
                programs.push((program.clone(), 0));
                program.truncate(if wide { 3 } else { 2 });
                programs.push((program, 1));
            }
        }
    }
    for first in [0x09, 0x0A] {
        programs.push((vec![0x80, first, 0x00], 1));
        programs.push((vec![0x81, first, 0x00], 1));
    }
    programs
}

/// Every jump with its target in the code to every place of a small program, to
/// its end and past it.
pub fn jumps() -> Vec<(Vec<u8>, usize)> {
    let mut programs = Vec::new();
    for first in [0x3C, 0x3D, 0x3E, 0x56, 0x57, 0x58] {
        for target in (0..=10).chain([255, 256, 257, 16_384, 65_535]) {
            if first >= 0x56 || target <= 255 {
                let mut program = after_pushes(2, first, target);
                program.extend([0x01, 0x00]);
                program.truncate(9);
                programs.push((program.clone(), 2));
                program.splice(..1, [0x80, 0x01]);
                programs.push((program, 1));
            }
        }
    }
    programs
}
