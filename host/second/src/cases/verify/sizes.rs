//! The largest programs, stacks and maps, and those past them.

use super::case::Case;
use crate::cases::pieces::{piece, stepped, Piece};
use crate::numbers::{PROGRAM_BYTES, STACK_CELLS};

/// The cases.
pub fn cases() -> Vec<Case> {
    [
        past_sizes(),
        lengths_of_maps(),
        straight(),
        deepest(),
        far_jumps(),
    ]
    .concat()
}

/// 20, 22 and 23 alone and together, where the first of them is given, also
/// before the walk's own refusal.
fn past_sizes() -> Vec<Case> {
    let mut cases = Vec::new();
    let numbers_of_cells = [
        0,
        1_024,
        1_025,
        2_048,
        65_535,
        65_536,
        65_537,
        u32::MAX as usize,
    ];
    for cells in numbers_of_cells {
        for program in [&[][..], &[0x00], &[0x80, 0x00], &[0x7F]] {
            cases.push(Case::of(program, cells));
            cases.push(Case::of(program, cells).map_length(program.len() + 1));
        }
    }
    for length in [PROGRAM_BYTES, PROGRAM_BYTES + 1, 16_390, 65_536, 65_540] {
        let half = length / 2;
        for byte in [0x00, 0x7F] {
            let pieces = [piece(half, &[byte]), piece(length - half, &[byte])];
            for cells in [STACK_CELLS, STACK_CELLS + 1] {
                let case = Case::of_pieces(&pieces, cells);
                cases.push(case.clone().map_length(length - 1));
                cases.push(case.clone().map_length(0));
                cases.push(case);
            }
        }
    }
    cases
}

/// Maps about the length of the longest programs.
fn lengths_of_maps() -> Vec<Case> {
    let mut cases = Vec::new();
    for length in [255, 256, 257, 4_096, 16_383, 16_384] {
        for map in [0, 1, length - 1, length, length + 1, 65_535] {
            cases.push(Case::of_pieces(&[piece(length, &[0x00])], 0).map_length(map));
        }
    }
    cases
}

/// Straight through the longest programs, one byte shorter and one longer, by
/// instructions of each length, to a halt and off the end.
fn straight() -> Vec<Case> {
    let mut cases = Vec::new();
    for unit in [
        &[0x80, 0x01][..],
        &[0x80, 0x80, 0x04, 0x01, 0x01],
        &[0xC0, 0xC0, 0x01],
        &[0xFF, 0, 0, 0, 0, 0, 0, 0, 0, 0x14, 0x15, 0x16, 0x01],
        &[0x33, 0x07, 0x37, 0x07, 0x01],
        &[0x4D, 0x00, 0x00, 0x51, 0x00, 0x00, 0x01],
        &[0x80, 0x3D, 0xFF],
        &[0x80, 0x58, 0xFF, 0x3F],
    ] {
        for length in [PROGRAM_BYTES - 1, PROGRAM_BYTES, PROGRAM_BYTES + 1] {
            for end in [0x00, 0x01] {
                cases.push(Case::of_pieces(&ended(unit, length, end), 5));
            }
        }
    }
    cases
}

/// A program of this length: the unit as often as it fits, then the end over and
/// over.
fn ended(unit: &[u8], length: usize, end: u8) -> [Piece; 2] {
    let times = (length - 1) / unit.len();
    let rest = length - times * unit.len();
    [piece(times, unit), piece(rest, &[end])]
}

/// Pushes to the last cell and past it, and back.
fn deepest() -> Vec<Case> {
    let mut cases = Vec::new();
    for (unit, pushes) in [
        (&[0x80][..], 1),
        (&[0xC1, 1, 2], 2),
        (&[0xC3, 1, 2, 3, 4], 4),
        (&[0xFF, 1, 2, 3, 4, 5, 6, 7, 8], 4),
    ] {
        for times in [
            STACK_CELLS / pushes - 1,
            STACK_CELLS / pushes,
            STACK_CELLS / pushes + 1,
        ] {
            let depth = times * pushes;
            for cells in [STACK_CELLS - 1, STACK_CELLS] {
                let down = piece(depth, &[0x01]);
                let up = piece(times, unit);
                let halt = piece(1, &[0x00]);
                cases.push(Case::of_pieces(&[up.clone(), halt.clone()], cells));
                cases.push(Case::of_pieces(&[up.clone(), down.clone(), halt], cells));
                cases.push(Case::of_pieces(&[up, down, piece(1, &[0x01, 0x00])], cells));
            }
        }
    }
    cases
}

/// Jumps to the last bytes of the longest program and past them, and back, and
/// chains of jumps through all of it, upwards and downwards.
fn far_jumps() -> Vec<Case> {
    let mut cases = Vec::new();
    for target in [
        2, 3, 16_380, 16_381, 16_382, 16_383, 16_384, 16_385, 32_768, 65_535,
    ] {
        let [low, high] = u16::to_le_bytes(target);
        for last in [[0x00, 0x00, 0x00], [0x56, 0x03, 0x00], [0x80, 0x01, 0x3C]] {
            let middle = piece(PROGRAM_BYTES - 6, &[0x00]);
            let jump = piece(1, &[0x56, low, high]);
            cases.push(Case::of_pieces(&[jump, middle.clone(), piece(1, &last)], 1));
            let branch = piece(1, &[0x80, 0x57, low, high]);
            cases.push(Case::of_pieces(&[branch, middle, piece(1, &last[1..])], 1));
        }
    }
    for jumps in [5_460, 5_461] {
        let up = [stepped(jumps, &[0x56, 0x03, 0x00], 3), piece(1, &[0x00])];
        let last = 3 * jumps as u16;
        let [low, high] = last.to_le_bytes();
        let down = [
            piece(1, &[0x56, low, high]),
            piece(1, &[0x00, 0x00, 0x00]),
            stepped(jumps - 1, &[0x56, 0x03, 0x00], 3),
        ];
        cases.push(Case::of_pieces(&up, 0));
        cases.push(Case::of_pieces(&down, 0));
    }
    cases
}
