//! Programs put down by hand: the marked examples of 01, the orders in which
//! refusals come, and real programs.

use super::case::Case;
use crate::cases::assembler::assemble;
use crate::cases::programs::{
    COUNT_DOWN, COUNT_DOWN_AGAIN, DIVISOR, M1, M4, SUBROUTINE, SUM_OF_ITSELF,
};

/// M2, M3 and M5 to M8, and the same programs with other numbers of cells.
pub fn marked() -> Vec<(Vec<u8>, usize)> {
    let mut programs = vec![
        (M1.to_vec(), 2),
        (M1.to_vec(), 1),
        (M4.to_vec(), 1),
        (vec![0x81, 0x3D, 0x00], 1),
        (vec![0x81, 0x3C, 0x00], 1),
        (vec![], 1),
    ];
    for cells in [0, 1, 2, 3, 1_023, 1_024] {
        programs.push((M1.to_vec(), cells));
        programs.push((M4.to_vec(), cells));
        programs.push((vec![], cells));
    }
    programs
}

/// Programs in which more than one refusal would apply, or more than one path
/// comes to an address, in hex.
#[rustfmt::skip]
const ORDERS: &[(&str, &[usize])] = &[
    // 2 on the first byte, 3, 2 on the second byte, then 9, 4, 5
    ("c8", &[0]), ("c805", &[0]), ("31", &[0]), ("3110", &[0, 1]), ("320f", &[0]), ("32ff", &[0]),
    ("55", &[0]), ("5500", &[0]), ("550000", &[0, 1]), ("3b", &[0]), ("3b00", &[0, 1]),
    ("05", &[0]), ("06", &[0]), ("07", &[0]), ("08", &[0]), ("09", &[0]), ("0a", &[0]),
    ("8005", &[1]), ("8006", &[1]), ("8009", &[1]), ("800a", &[1]), ("808007", &[2]), ("808008", &[2]),
    ("808009", &[1, 2]), ("02", &[0]), ("04", &[0]), ("8004", &[0, 1]), ("808004", &[2]), ("80800400", &[1, 2]),
    // 4 and 5 before the successors
    ("81", &[0, 1]), ("8100", &[0, 1]), ("01", &[0]), ("8101", &[1]), ("810100", &[0, 1]),
    ("c301020304", &[0, 3, 4]), ("c30102030400", &[0, 3, 4, 5]), ("3d09", &[0]), ("3d00", &[0, 1]),
    // next before target: 10 at the next and 1 at the target, 1 and 10, 10 at both, one of them alone
    ("803d088080043dff00", &[2, 3]), ("80803d00", &[2]), ("803d01", &[1]), ("803d088080043d0300", &[2]),
    ("803d088080043d0800", &[2]), ("803d00", &[1]), ("803d0100", &[1]), ("803dff00", &[1]), ("80803d0000", &[2]),
    // next and target are one
    ("803d0300", &[0, 1]), ("8057040000", &[1]), ("803e03803d0600", &[1]), ("3c02", &[0]), ("3c0200", &[0]),
    // the lowest address first, also below those already examined
    ("3c04007f803d037f", &[1]), ("3c04007f803d03c8", &[1]), ("3c060000007f3c05", &[0]), ("803d057f00017f", &[1]),
    ("803d0601007f01", &[1]), ("803d05007f017f", &[1]), ("3c057f7f7f803d0200", &[1]), ("3c0300803d0200", &[1]),
    // loops: to itself, to the beginning, at one depth and at two
    ("3c00", &[0]), ("560000", &[0]), ("803c00", &[1, 2, 7]), ("80013c00", &[0, 1]), ("80803d013c00", &[2, 3]),
    ("80803d0101803d0000", &[2]), ("803d00803d0000", &[1]), ("803d00803d0100", &[1]), ("803e0080803e0300", &[2]),
    // two ways to one address, at one depth and at two
    ("803d06803c078000", &[1]), ("803d07803c078000", &[1]), ("803d058080010100", &[2]), ("803d0780803c0800008000", &[2]),
    ("803d0680013c078001", &[1]), ("803d05803c0600", &[1]), ("3c0500000080803d0400", &[2]), ("803d0500803d0000", &[1]),
    // into operands and over one another
    ("3c01", &[0]), ("3c0300", &[0]), ("33003c01", &[0, 1]), ("c100803d0200", &[3]), ("563c00", &[0]), ("c03c3d0000", &[1, 2]),
];

/// The programs of [`ORDERS`].
pub fn orders() -> Vec<(Vec<u8>, usize)> {
    let mut programs = Vec::new();
    for &(digits, numbers_of_cells) in ORDERS {
        for &cells in numbers_of_cells {
            programs.push((from_hex(digits), cells));
        }
    }
    programs
}

fn from_hex(digits: &str) -> Vec<u8> {
    let pairs = digits.as_bytes().chunks(2);
    pairs
        .map(|pair| {
            let pair = std::str::from_utf8(pair).unwrap_or_default();
            u8::from_str_radix(pair, 16).unwrap_or_else(|_| panic!("no digits: {pair}"))
        })
        .collect()
}

/// The programs of the run's cases, with few cells and with enough.
pub fn by_names() -> Vec<(Vec<u8>, usize)> {
    let mut programs = Vec::new();
    for source in [
        COUNT_DOWN,
        COUNT_DOWN_AGAIN,
        DIVISOR,
        SUBROUTINE,
        SUM_OF_ITSELF,
    ] {
        for cells in [0, 1, 2, 3, 4, 7] {
            programs.push((assemble(source), cells));
        }
    }
    programs
}

/// The same programs with maps that hold depths, 65,535, or what is neither,
/// before: the answer is the same. Also with maps of other lengths.
pub fn lent_maps() -> Vec<Case> {
    let mut cases = Vec::new();
    for (program, cells) in [
        (M1.to_vec(), 2),
        (M1.to_vec(), 1),
        (M4.to_vec(), 1),
        (M4.to_vec(), 0),
        (vec![0x81, 0x3C, 0x00], 1),
        (assemble(DIVISOR), 2),
    ] {
        let case = Case::of(&program, cells);
        for before in [
            0, 1, 2, 1_024, 32_767, 32_768, 32_769, 33_792, 65_534, 65_535,
        ] {
            cases.push(case.clone().map_of(before));
        }
        let length = program.len();
        for length in [0, 1, length - 1, length + 1, 2 * length, 65_536 + length] {
            cases.push(case.clone().map_length(length));
        }
    }
    cases
}
