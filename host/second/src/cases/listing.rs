//! Cases of the listing and of the reader.
//!
//! Numbers have their low byte first; programs are in pieces (see `pieces`). A
//! case is one of:
//!
//! - `L` (4C hex): a program; the room's length as u32, how many of its bytes are
//!   given as u16, the bytes given, which it repeats. Answered as `listing`, the
//!   room as `fields` has it.
//! - `N` (4E hex): how often the reader is asked, as u16; a program. Answered as
//!   `read`.

use super::lent::Lent;
use super::pieces::{laid, piece, stepped, written, Piece};
use super::programs::{COUNT_DOWN_AGAIN, DIVISOR, M1, M4, M9, SUBROUTINE, SUM_OF_ITSELF};
use super::{assembler::assemble, fields, good_pushes, whole, Varied, Vectors};
use crate::listing::listing;
use crate::numbers::PROGRAM_BYTES;
use crate::protocol::{decode_answer, length_or_refusal};
use crate::reader::Reader;

/// All cases, in order.
pub fn vectors() -> Vectors {
    let mut vectors = Vectors::default();
    by_names(&mut vectors);
    every_first_byte(&mut vectors);
    every_digit(&mut vectors);
    sizes(&mut vectors);
    varied(&mut vectors);
    reads(&mut vectors);
    vectors
}

fn add(vectors: &mut Vectors, pieces: &[Piece], room: usize) {
    let lent = Lent::repeated(&[0xA5, 0x0A, 0x24][..room.min(3)], room);
    let mut case = vec![b'L'];
    case.extend(written(pieces));
    case.extend((lent.length as u32).to_le_bytes());
    case.extend((lent.given.len() as u16).to_le_bytes());
    case.extend(&lent.given);
    let mut room = lent.memory();
    let answer = listing(&laid(pieces), &mut room);
    let answer = format!("{} {}", length_or_refusal(&answer), fields::bytes(&room));
    vectors.add(&case, &answer);
}

/// The length of a listing; 0 where there is none.
fn length(pieces: &[Piece]) -> usize {
    listing(&laid(pieces), &mut vec![0; 300_000]).unwrap_or(0)
}

/// A program in a room that fits, one that is too short by one, and one that is
/// longer.
fn add_rooms(vectors: &mut Vectors, pieces: &[Piece]) {
    let length = length(pieces);
    add(vectors, pieces, length);
    add(vectors, pieces, length + 5);
    if length > 0 {
        add(vectors, pieces, length - 1);
        add(vectors, pieces, 0);
    }
}

/// Programs of 01 and of the run's cases, also listed from their second byte on.
fn by_names(vectors: &mut Vectors) {
    let programs = [
        M1.to_vec(),
        vec![],
        M4.to_vec(),
        M9.to_vec(),
        assemble(COUNT_DOWN_AGAIN),
        assemble(DIVISOR),
        assemble(SUBROUTINE),
        assemble(SUM_OF_ITSELF),
    ];
    for program in programs {
        add_rooms(vectors, &[piece(1, &program)]);
        add_rooms(vectors, &[piece(1, program.get(1..).unwrap_or_default())]);
    }
}

/// Every first byte: whole, with bytes behind it in a room too short by one, and
/// cut at every shorter length.
fn every_first_byte(vectors: &mut Vectors) {
    for first in 0..=255 {
        let program = whole(first, [0x0B, 0xC4, 0x7F, 0x60, 0x9A, 0xBC, 0xDE, 0xF1]);
        let only = [piece(1, &program)];
        add(vectors, &only, length(&only));
        let more = [piece(1, &program), piece(1, &[0x31, 0x10])];
        add(vectors, &more, length(&more) - 1);
        for length_of_cut in 1..program.len() {
            let cut = [piece(1, &program[..length_of_cut])];
            add(vectors, &cut, length(&cut) + 2);
        }
    }
    for (first, second) in [(0x31, 15), (0x31, 16), (0x32, 0), (0x32, 255), (0x31, 0x80)] {
        add_rooms(vectors, &[piece(1, &[first, second])]);
    }
}

/// Every digit at every place of operands and of addresses.
fn every_digit(vectors: &mut Vectors) {
    for digit in 0..16 {
        let byte = 0x11 * digit as u8;
        let swapped = (digit as u8) << 4 | (15 - digit as u8);
        let program = [
            0x25, byte, 0x26, swapped, 0x56, byte, swapped, 0x4A, swapped, byte, 0xFB, byte, 1,
            swapped, 0, byte, byte, swapped, byte,
        ];
        add_rooms(vectors, &[piece(1, &program)]);
        add_rooms(
            vectors,
            &[piece(digit * 0x0111, &[0x80]), piece(1, &[byte])],
        );
    }
}

/// The longest programs with the shortest lines and with the longest, and one
/// byte more.
fn sizes(vectors: &mut Vectors) {
    for length in [
        PROGRAM_BYTES - 1,
        PROGRAM_BYTES,
        PROGRAM_BYTES + 1,
        65_536,
        65_540,
    ] {
        let half = length / 2;
        for byte in [0x00, 0x08, 0x7F, 0x80, 0xFF] {
            let pieces = [piece(half, &[byte]), piece(length - half, &[byte])];
            if length > PROGRAM_BYTES {
                add(vectors, &pieces, 0);
                add(vectors, &pieces, 300_000);
            } else {
                add_rooms(vectors, &pieces);
            }
        }
        let jumps = stepped(length / 3, &[0x56, 0x03, 0x00], 3);
        add(vectors, &[jumps, piece(length % 3, &[0x56])], 150_000);
    }
}

/// Varied bytes, and varied whole instructions.
fn varied(vectors: &mut Vectors) {
    let mut varied = Varied(11);
    for turn in 0..300 {
        let mut program = Vec::new();
        for _ in 0..1 + varied.below(6) {
            if turn % 3 == 0 {
                program.push(varied.byte());
            } else {
                let first = match varied.below(4) {
                    0 => varied.one_of(&good_pushes().collect::<Vec<_>>()),
                    1 => 0x80 | varied.byte(),
                    _ => varied.below(0x5B) as u8,
                };
                let operands = [0; 8].map(|_: u8| varied.byte());
                program.extend(whole(first, operands));
            }
        }
        let pieces = [piece(1, &program)];
        let length = length(&pieces);
        let room = match turn % 5 {
            0..=1 => length - 1 - varied.below(length),
            2 => length + 1 + varied.below(20),
            _ => length,
        };
        add(vectors, &pieces, room);
    }
}

/// The reader asked less often, as often, and more often than it has answers.
fn reads(vectors: &mut Vectors) {
    for program in [
        M1.to_vec(),
        vec![],
        M4.to_vec(),
        M9.to_vec(),
        vec![0x80, 0x7F, 0x00],
        vec![0x80, 0x31, 0x10],
        vec![0x80, 0x41, 0x00],
        vec![0xFF, 1, 2, 3, 4, 5, 6, 7, 8, 0x00],
        vec![0xC8, 0x00],
        assemble(SUBROUTINE),
    ] {
        for count in [0, 1, 2, 3, 5, 8, 13] {
            add_read(vectors, &[piece(1, &program)], count);
        }
    }
    for length in [PROGRAM_BYTES, PROGRAM_BYTES + 1] {
        add_read(vectors, &[piece(length, &[0x01])], 3);
    }
}

fn add_read(vectors: &mut Vectors, pieces: &[Piece], count: u16) {
    let mut case = vec![b'N'];
    case.extend(count.to_le_bytes());
    case.extend(written(pieces));
    let program = laid(pieces);
    let mut reader = Reader::new(&program);
    let answers: Vec<String> = (0..count).map(|_| decode_answer(&reader.read())).collect();
    let answer = format!("{} @ {}", answers.join(" ; "), reader.address());
    vectors.add(&case, &answer);
}

#[cfg(test)]
mod tests {
    use super::*;

    #[test]
    fn the_cases_stay_few_and_balanced() {
        let vectors = vectors();
        assert!(vectors.stdin.len() < 150_000);
        assert!(vectors.stdout.len() < 400_000);
        assert!((1_000..4_000).contains(&vectors.cases()));
        let refused = vectors.refused();
        assert!((2 * refused).abs_diff(vectors.cases()) < vectors.cases() / 3);
    }

    #[test]
    fn both_refusals_appear_often() {
        let vectors = vectors();
        assert!(vectors.answers("refused 20 ") >= 20);
        assert!(vectors.answers("refused 25 ") >= 100);
    }

    /// The first case, which is 01's example, by hand.
    #[test]
    fn the_form_of_a_case() {
        let vectors = vectors();
        let example = [
            0x4C, 1, 1, 0, 0, 0, 4, 0, 0x85, 0x83, 0x15, 0x00, 53, 0, 0, 0, 3, 0, 0xA5, 0x0A, 0x24,
        ];
        assert!(vectors.stdin.starts_with(&example));
        assert!(vectors.stdout.starts_with("ok 53 303030302070"));
    }
}
