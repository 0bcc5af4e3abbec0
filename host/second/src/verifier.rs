//! The verifier and its depth map (01, "Depth map").

use std::collections::BTreeSet;

use crate::instruction::decode;
use crate::machine::pushed;
use crate::numbers::{
    CELLS_SIZE, ILLEGAL, MAP_LENGTH, NOT_VERIFIABLE, NO_FUNCTION, PAST_END, PROGRAM_BYTES,
    PROGRAM_SIZE, STACK_CELLS, TOO_FEW, TOO_MANY, TWO_DEPTHS, UNMET,
};
use crate::opcodes::{Opcode, Operation};

/// What the verifier answers.
#[derive(Clone, Copy, Debug, PartialEq, Eq)]
pub enum Verdict {
    /// The program is accepted.
    Accepted,
    /// Refused by 20, 22 or 23, before the walk.
    Refused(u32),
    /// Refused by the walk, and the instruction that was examined.
    RefusedAt(u32, usize),
}

/// Verifies a program for a stack of so many cells. 01: "Accepted: a cell holds
/// the depth of its address if a path meets it, else 65,535. Refused by 1 to 10:
/// every cell 65,535. By 20 to 23: untouched."
pub fn verify(program: &[u8], cells: usize, map: &mut [u16]) -> Verdict {
    if program.len() > PROGRAM_BYTES {
        return Verdict::Refused(PROGRAM_SIZE);
    }
    if cells > STACK_CELLS {
        return Verdict::Refused(CELLS_SIZE);
    }
    if map.len() != program.len() {
        return Verdict::Refused(MAP_LENGTH);
    }
    map.fill(UNMET);
    match walk(program, cells) {
        Ok(depths) => {
            for (cell, met) in map.iter_mut().zip(depths) {
                if let Some(depth) = met {
                    *cell = depth as u16;
                }
            }
            Verdict::Accepted
        }
        Err((number, address)) => Verdict::RefusedAt(number, address),
    }
}

/// The depth at which each address is met, if it is met, or the refusal and its
/// place. 01: "An empty program is 1 at 0. Otherwise take the lowest address met
/// and not yet examined; examine it; then its successors, next instruction first:
/// 1 if at or past the end, 10 if already met at another depth. A refusal names
/// the instruction examined."
fn walk(program: &[u8], cells: usize) -> Result<Vec<Option<usize>>, (u32, usize)> {
    if program.is_empty() {
        return Err((PAST_END, 0));
    }
    let mut depths = vec![None; program.len()];
    let mut pending = BTreeSet::from([(0, 0)]);
    depths[0] = Some(0);
    while let Some(&(here, depth)) = pending.iter().next() {
        pending.remove(&(here, depth));
        let refused = |number| (number, here);
        let (after, successors) = examine(program, cells, here, depth).map_err(refused)?;
        for successor in successors {
            match depths.get(successor) {
                None => return Err(refused(PAST_END)),
                Some(None) => {
                    depths[successor] = Some(after);
                    pending.insert((successor, after));
                }
                Some(&Some(met)) if met != after => return Err(refused(TWO_DEPTHS)),
                Some(_) => {}
            }
        }
    }
    Ok(depths)
}

/// What the instruction at an address leads to from a depth: the depth after it
/// and its successors, the next instruction first; or the refusal. 01: "an
/// instruction that passes 2 and 3 as in a step, then 9, 4, 5, 8, at depth d
/// leads, at depth d less taken plus pushed, to the next instruction, to its
/// target, or to both; halt and function 0 lead nowhere."
pub fn examine(
    program: &[u8],
    cells: usize,
    here: usize,
    depth: usize,
) -> Result<(usize, Vec<usize>), u32> {
    let (instruction, length) = decode(program, here)?;
    let opcode = Opcode::of(instruction.code).ok_or(ILLEGAL)?;
    if matches!(instruction.code, 0x05..=0x0A | 0x3B | 0x55) {
        return Err(NOT_VERIFIABLE);
    }
    let left = depth.checked_sub(opcode.taken()).ok_or(TOO_FEW)?;
    let after = left + pushed(opcode.operation, &instruction);
    if after > cells {
        return Err(TOO_MANY);
    }
    let next = here + length;
    let number = usize::from(instruction.number);
    let successors = match opcode.operation {
        Operation::SystemCall if number != 0 => return Err(NO_FUNCTION),
        Operation::ExtensionCall => return Err(NO_FUNCTION),
        Operation::Halt | Operation::SystemCall => vec![],
        Operation::Jump => vec![number],
        Operation::JumpIf | Operation::JumpIfNot => vec![next, number],
        _ => vec![next],
    };
    Ok((after, successors))
}

#[cfg(test)]
mod tests;
