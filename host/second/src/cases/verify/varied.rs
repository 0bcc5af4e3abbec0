//! Varied programs: good ones altered, cut into parts, made of any bytes, and
//! grown by changes that keep them good.

use crate::cases::assembler::assemble;
use crate::cases::programs::{COUNT_DOWN, DIVISOR, M1, M4, SUM_OF_ITSELF};
use crate::cases::{good_pushes, whole, Varied};
use crate::numbers::{TWO_DEPTHS, UNMET};
use crate::verifier::{verify, Verdict};

/// Good programs, each with the cells that it needs.
fn good() -> Vec<(Vec<u8>, usize)> {
    vec![
        (M1.to_vec(), 2),
        (M4.to_vec(), 1),
        (assemble(COUNT_DOWN), 1),
        (assemble(DIVISOR), 2),
        (assemble(SUM_OF_ITSELF), 3),
    ]
}

/// Good programs with one byte altered.
pub fn altered() -> Vec<(Vec<u8>, usize)> {
    let mut programs = Vec::new();
    for (program, cells) in good() {
        for place in 0..program.len() {
            let byte = program[place];
            for other in [byte ^ 1, byte ^ 0x80, byte.wrapping_add(2), 0x00] {
                let mut altered = program.clone();
                altered[place] = other;
                programs.push((altered, cells));
            }
        }
    }
    programs
}

/// The beginnings and the ends of good programs.
pub fn parts() -> Vec<(Vec<u8>, usize)> {
    let mut programs = Vec::new();
    for (program, cells) in good() {
        for place in (1..program.len()).step_by(2) {
            programs.push((program[..place].to_vec(), cells));
            programs.push((program[place..].to_vec(), cells));
        }
    }
    programs
}

/// An instruction with small operands, jumps more often than others.
fn instruction(varied: &mut Varied, length: usize) -> Vec<u8> {
    let first = match varied.below(20) {
        0..=5 => 0x80 | varied.below(64) as u8,
        6 => varied.one_of(&good_pushes().collect::<Vec<_>>()),
        7..=11 => varied.one_of(&[0x3C, 0x3D, 0x3E, 0x56, 0x57, 0x58]),
        12..=14 => 0x01,
        _ => varied.below(0x5B) as u8,
    };
    let [low, high] = (varied.below(length + 1) as u16).to_le_bytes();
    let other = [0; 6].map(|_: u8| varied.byte());
    let [third, fourth, fifth, sixth, seventh, eighth] = other;
    let operands = [low, high, third, fourth, fifth, sixth, seventh, eighth];
    whole(first, operands)
}

/// Varied bytes, and varied instructions with a halt behind; most of them are
/// refused early.
pub fn bytes() -> Vec<(Vec<u8>, usize)> {
    let mut varied = Varied(5);
    let mut programs = Vec::new();
    for _ in 0..100 {
        let length = 1 + varied.below(12);
        programs.push((varied.bytes(length), varied.below(4)));
    }
    for _ in 0..200 {
        let mut program = Vec::new();
        for _ in 0..1 + varied.below(6) {
            program.extend(instruction(&mut varied, 12));
        }
        program.push(0x00);
        programs.push((program, varied.below(5)));
    }
    programs
}

/// Programs that began as nothing but halts and were altered again and again,
/// each time so that they stayed good and no less of them was met; some also
/// with the last change that gave 10, or with the last that was bad at all.
pub fn grown() -> Vec<(Vec<u8>, usize)> {
    let mut varied = Varied(6);
    let mut programs = Vec::new();
    for turn in 0..1_200 {
        let length = if turn % 60 == 0 {
            300
        } else {
            2 + varied.below(34)
        };
        let cells = varied.one_of(&[1, 1, 2, 2, 3, 4, 6, 9]);
        let (mut program, mut reached) = (vec![0x00; length], 1);
        let (mut bad, mut at_two_depths) = (None, None);
        for _ in 0..10 * length {
            let other = with_instruction(&mut varied, &program);
            match met(&other, cells) {
                Ok(addresses) if addresses >= reached => {
                    program = other;
                    reached = addresses;
                }
                Ok(_) => {}
                Err(TWO_DEPTHS) => at_two_depths = Some(other),
                Err(_) => bad = Some(other),
            }
        }
        programs.push((program, cells));
        let refused = match turn % 6 {
            0 | 1 => at_two_depths,
            2 => bad,
            _ => None,
        };
        programs.extend(refused.map(|program| (program, cells)));
    }
    programs
}

/// A program with an instruction written over it at some place.
fn with_instruction(varied: &mut Varied, program: &[u8]) -> Vec<u8> {
    let mut other = program.to_vec();
    let place = varied.below(program.len());
    let instruction = instruction(varied, program.len());
    for (old, new) in other[place..].iter_mut().zip(instruction) {
        *old = new;
    }
    other
}

/// How many addresses are met, or the number of the refusal.
fn met(program: &[u8], cells: usize) -> Result<usize, u32> {
    let mut map = vec![0; program.len()];
    match verify(program, cells, &mut map) {
        Verdict::Accepted => Ok(map.iter().filter(|&&cell| cell != UNMET).count()),
        Verdict::Refused(number) | Verdict::RefusedAt(number, _) => Err(number),
    }
}
