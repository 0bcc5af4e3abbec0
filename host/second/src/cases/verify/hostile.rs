//! Programs whose jumps go to and fro between the two ends, so that the lowest
//! pending address is now at one end, now at the other: a verifier that looks
//! for it from where it stands goes through the whole program each time.

use super::case::Case;
use crate::cases::pieces::{piece, stepped, Piece};
use crate::numbers::PROGRAM_BYTES;

/// Each shape short, in the longest program, and with as many jumps as that
/// holds; accepted, and refused where the last jump leads.
pub fn cases() -> Vec<Case> {
    let mut cases = Vec::new();
    for (pairs, length) in [
        (1, 24),
        (2, 40),
        (7, 100),
        (20, 250),
        (300, 4_000),
        (1_000, PROGRAM_BYTES),
        (PROGRAM_BYTES, PROGRAM_BYTES),
    ] {
        for end in ENDS {
            cases.push(Case::of_pieces(&jumps(pairs, length, end), 1));
            cases.push(Case::of_pieces(&branches(pairs, length, end), 1));
            cases.push(Case::of_pieces(&inwards(pairs, length, end), 1));
        }
    }
    cases
}

/// What stands where the last jump leads: a halt, a value too few, two depths
/// at one address, an illegal byte.
const ENDS: [[u8; 5]; 4] = [
    [0x00, 0x00, 0x00, 0x00, 0x00],
    [0x01, 0x00, 0x00, 0x00, 0x00],
    [0x80, 0x56, 0x00, 0x00, 0x00],
    [0x80, 0x01, 0x7F, 0x00, 0x00],
];

/// As many pairs as fit, of jumps of so many bytes.
fn fitting(pairs: usize, length: usize, bytes: usize) -> usize {
    pairs.min((length - 10) / (2 * bytes))
}

/// A jump from each place at the low end to one at the high end, and from there
/// to the next at the low end, both rising.
fn jumps(pairs: usize, length: usize, end: [u8; 5]) -> Vec<Piece> {
    let pairs = fitting(pairs, length, 3);
    let high = length - 3 * pairs;
    vec![
        stepped(pairs, &jump(0x56, high), 3),
        piece(1, &end),
        piece(high - 3 * pairs - 5, &[0x7F]),
        stepped(pairs, &jump(0x56, 3), 3),
    ]
}

/// The same with the places at the high end falling, so that the two come closer
/// to one another.
fn inwards(pairs: usize, length: usize, end: [u8; 5]) -> Vec<Piece> {
    let pairs = fitting(pairs, length, 3);
    let high = length - 3 * pairs;
    vec![
        stepped(pairs, &jump(0x56, length - 3), 0_u16.wrapping_sub(3)),
        piece(1, &end),
        piece(high - 3 * pairs - 5, &[0x7F]),
        stepped(pairs, &jump(0x56, 3 * pairs), 0_u16.wrapping_sub(3)),
    ]
}

/// The same as [`jumps`] with conditional jumps, each after a push and with a
/// halt behind it, so that places at the high end stay pending.
fn branches(pairs: usize, length: usize, end: [u8; 5]) -> Vec<Piece> {
    let pairs = fitting(pairs, length, 5);
    let high = length - 5 * pairs - 1;
    let branch = |target| {
        let [code, low, high] = jump(0x57, target);
        [0x00, 0x80, code, low, high]
    };
    vec![
        piece(1, &jump(0x56, 4)),
        stepped(pairs, &branch(high + 1), 5),
        piece(1, &[0x00]),
        piece(1, &end),
        piece(high - 5 * pairs - 9, &[0x7F]),
        stepped(pairs, &branch(9), 5),
        piece(1, &[0x00]),
    ]
}

fn jump(code: u8, target: usize) -> [u8; 3] {
    let [low, high] = (target as u16).to_le_bytes();
    [code, low, high]
}
