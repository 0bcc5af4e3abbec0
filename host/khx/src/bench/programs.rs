//! The programs that are run and verified.

use khalixoshi::PROGRAM_MAX;

use super::random::Random;

/// Counts down from 65,535, the counter in data 0.
pub fn counting() -> Vec<u8> {
    vec![
        0xC4, 0xFF, 0xFF, // 0000 push-values $FFFF
        0x38, 0x00, // 0003 st-u16 $00
        0x3D, 0x08, // 0005 jump-if $08
        0x00, // 0007 halt
        0x34, 0x00, // 0008 ld-u16 $00
        0x1A, // 000A dec
        0x3C, 0x03, // 000B jump $03
    ]
}

/// 8,192 rounds of arithmetic: the counter in data 0, the value in data 2.
pub fn alu() -> Vec<u8> {
    vec![
        0xC4, 0x00, 0x20, // 0000 push-values $2000
        0x38, 0x00, // 0003 st-u16 $00
        0x3D, 0x08, // 0005 jump-if $08
        0x00, // 0007 halt
        0x34, 0x02, // 0008 ld-u16 $02
        0x4C, 0x55, 0x62, // 000A mul $6255
        0x4A, 0x19, 0x36, // 000D add $3619
        0x38, 0x02, // 0010 st-u16 $02
        0x34, 0x02, // 0012 ld-u16 $02
        0x32, 0x07, // 0014 shr $07
        0x13, // 0016 xor
        0x34, 0x02, // 0017 ld-u16 $02
        0x31, 0x03, // 0019 shl $03
        0x14, // 001B add
        0x1B, // 001C not
        0x2D, 0x5A, // 001D xor $5A
        0x83, // 001F push-u8 $03
        0x34, 0x02, // 0020 ld-u16 $02
        0x18, // 0022 shr
        0x15, // 0023 sub
        0x19, // 0024 inc
        0x1C, // 0025 neg
        0x34, 0x02, // 0026 ld-u16 $02
        0x12, // 0028 or
        0x47, 0xFF, 0x7F, // 0029 and $7FFF
        0x34, 0x02, // 002C ld-u16 $02
        0x04, // 002E swap
        0x0F, // 002F lt
        0x34, 0x02, // 0030 ld-u16 $02
        0x16, // 0032 mul
        0x2E, 0x11, // 0033 add $11
        0x38, 0x02, // 0035 st-u16 $02
        0x01, // 0037 discard
        0x34, 0x00, // 0038 ld-u16 $00
        0x1A, // 003A dec
        0x3C, 0x03, // 003B jump $03
    ]
}

/// The bytes that [`byte_scan`] looks at.
const TABLE: usize = 0xF000;

/// Whether no byte of a table is over F7: leaves 0 on the stack, or 1. The index is
/// in data F000, behind the table.
pub fn byte_scan() -> Vec<u8> {
    vec![
        0x80, // 0000 push-u8 $00
        0x52, 0x00, 0xF0, // 0001 st-u16 $F000
        0x01, // 0004 discard
        0x4E, 0x00, 0xF0, // 0005 ld-u16 $F000
        0x1D, // 0008 ld-u8
        0x28, 0xF7, // 0009 gt $F7
        0x3D, 0x1B, // 000B jump-if $1B
        0x4E, 0x00, 0xF0, // 000D ld-u16 $F000
        0x19, // 0010 inc
        0x52, 0x00, 0xF0, // 0011 st-u16 $F000
        0x45, 0x00, 0xF0, // 0014 lt $F000
        0x3D, 0x05, // 0017 jump-if $05
        0x80, // 0019 push-u8 $00
        0x00, // 001A halt
        0x81, // 001B push-u8 $01
        0x00, // 001C halt
    ]
}

/// A table that [`byte_scan`] finds good, and the place of its index.
pub fn table() -> Vec<u8> {
    let mut random = Random(1);
    let mut data: Vec<u8> = (0..TABLE).map(|_| random.below(0xF8) as u8).collect();
    data.extend([0, 0]);
    data
}

/// The bytes that [`copy`] copies.
pub const COPIED: u16 = 30_000;

/// Copies bytes of data once.
pub fn copy(to: u16, from: u16) -> Vec<u8> {
    let mut program = vec![0xDE]; // push-values, three of two bytes
    for operand in [COPIED, from, to] {
        program.extend(operand.to_le_bytes());
    }
    program.extend([0x02, 0x00]); // dcopy, halt
    program
}

/// Whether none of so many bytes of data is over 70 hex but for its highest bit: 4 steps,
/// and 4 for each byte. The last byte is looked at first, as the shipped rules do.
pub fn looks(bytes: u8) -> Vec<u8> {
    let bad = 3 + 8 * bytes + 2;
    let mut program = vec![0x33, bytes - 1, 0x01]; // ld-u8 of the last byte, discard
    for at in 0..bytes {
        program.extend([
            0x33, at, // ld-u8
            0x2B, 0x7F, // and $7F
            0x28, 0x70, // gt $70
            0x3D, bad, // jump-if
        ]);
    }
    program.extend([0x81, 0x00, 0x80, 0x00]); // push-u8 1, halt; bad: push-u8 0, halt
    program
}

/// Every form of push-values ten times over, 980 values, and a halt.
pub fn pushes() -> Vec<u8> {
    let mut program = Vec::new();
    for first in (0..10).flat_map(|_| 0xC0..=0xFF_u8) {
        let (count, flags) = (first % 4 + 1, first / 4 % 16);
        if flags >> count == 0 {
            let operands = u32::from(count) + flags.count_ones();
            program.push(first);
            program.extend((0..operands as u8).map(|i| first ^ i));
        }
    }
    program.push(0x00);
    program
}

/// As many instructions as a program can have, without a jump.
pub fn straight() -> Vec<u8> {
    // push-u8 1, push-u8 2, add, discard
    let mut program: Vec<u8> = [0x81, 0x82, 0x14, 0x01].repeat(PROGRAM_MAX / 4);
    program[PROGRAM_MAX - 1] = 0x00;
    program
}

/// A jump from each place at the low end to one at the high end, and from there to
/// the next at the low end: a search for the lowest address due that starts where
/// it stands goes through the whole program each time.
pub fn ping_pong() -> Vec<u8> {
    let pairs = (PROGRAM_MAX - 1) / 6;
    let high = 3 * pairs + 1;
    let mut program = Vec::new();
    for i in 0..pairs {
        program.extend(to(0x56, high + 3 * i));
    }
    program.push(0x00);
    for i in 0..pairs {
        program.extend(to(0x56, 3 * (i + 1)));
    }
    program.resize(PROGRAM_MAX, 0x00);
    program
}

/// The same with conditional jumps, each after a push and before a halt, so that the
/// halts at the high end stay due.
pub fn branches() -> Vec<u8> {
    let pairs = (PROGRAM_MAX - 1) / 10;
    let high = 5 * pairs + 1;
    let mut program = Vec::new();
    for i in 0..pairs {
        program.push(0x80);
        program.extend(to(0x57, high + 5 * i));
        program.push(0x00);
    }
    program.push(0x00);
    for i in 0..pairs {
        program.push(0x80);
        program.extend(to(0x57, 5 * (i + 1)));
        program.push(0x00);
    }
    program.resize(PROGRAM_MAX, 0x00);
    program
}

fn to(code: u8, target: usize) -> [u8; 3] {
    let [low, high] = (target as u16).to_le_bytes();
    [code, low, high]
}

/// Random instructions of all kinds, as many bytes as a program can have.
pub fn random() -> Vec<u8> {
    random_of(PROGRAM_MAX, 7)
}

/// So many bytes of random instructions at known depths, from a seed; every branch goes to
/// an instruction that stands at its depth, if only to the next one.
pub fn random_of(length: usize, seed: u64) -> Vec<u8> {
    let mut random = Random(seed);
    let mut program = Vec::new();
    let mut depth = 0;
    let mut starts: Vec<Vec<usize>> = vec![Vec::new(); LOW + HIGH];
    let mut branches = Vec::new();
    while program.len() < length - 9 {
        starts[depth].push(program.len());
        let kind = kind(&mut random, depth);
        if kind.code == BRANCH {
            branches.push((program.len(), depth - 1));
        }
        program.push(kind.code);
        program.extend((1..kind.length).map(|_| random.below(16) as u8));
        depth = depth - kind.taken + kind.pushed;
    }
    program.resize(length, 0x00);
    for (at, depth) in branches {
        let places = &starts[depth];
        let target = match places.len() {
            0 => at + 3,
            count => places[random.below(count)],
        };
        program[at..at + 3].copy_from_slice(&to(BRANCH, target));
    }
    program
}

/// An instruction's first byte, and what [`random`] must know of it.
struct Kind {
    code: u8,
    length: usize,
    taken: usize,
    pushed: usize,
}

/// jump-if with a two-byte number.
const BRANCH: u8 = 0x57;
/// At least so many values are on the stack before anything is taken.
const LOW: usize = 3;
/// Nothing is pushed alone where so many are above that.
const HIGH: usize = 16;

#[rustfmt::skip]
const KINDS: [Kind; 16] = [
    Kind { code: 0x01, length: 1, taken: 1, pushed: 0 }, // discard
    Kind { code: 0x02, length: 1, taken: 3, pushed: 1 }, // dcopy
    Kind { code: 0x04, length: 1, taken: 2, pushed: 2 }, // swap
    Kind { code: 0x0B, length: 1, taken: 2, pushed: 1 }, // eq
    Kind { code: 0x15, length: 1, taken: 2, pushed: 1 }, // sub
    Kind { code: 0x1B, length: 1, taken: 1, pushed: 1 }, // not
    Kind { code: 0x1E, length: 1, taken: 1, pushed: 1 }, // ld-u16
    Kind { code: 0x22, length: 1, taken: 2, pushed: 1 }, // st-u16
    Kind { code: 0x2E, length: 2, taken: 1, pushed: 1 }, // add, one byte
    Kind { code: 0x31, length: 2, taken: 1, pushed: 1 }, // shl, one byte
    Kind { code: 0x38, length: 2, taken: 1, pushed: 1 }, // st-u16, one byte
    Kind { code: 0x47, length: 3, taken: 1, pushed: 1 }, // and, two bytes
    Kind { code: BRANCH, length: 3, taken: 1, pushed: 0 },
    Kind { code: 0x34, length: 2, taken: 0, pushed: 1 }, // ld-u16, one byte
    Kind { code: 0x85, length: 1, taken: 0, pushed: 1 }, // push-u8
    Kind { code: 0xC5, length: 4, taken: 0, pushed: 2 }, // push-values, two
];

/// A kind that fits the depth.
fn kind(random: &mut Random, depth: usize) -> &'static Kind {
    loop {
        let kind = &KINDS[random.below(KINDS.len())];
        let few = depth < LOW && kind.taken > 0;
        let many = depth + kind.pushed > LOW + HIGH - 1 && kind.taken == 0;
        if !few && !many {
            return kind;
        }
    }
}

#[cfg(test)]
mod tests {
    use super::*;
    use khalixoshi::{depths, verify, CELLS_MAX, UNMET};

    #[test]
    fn every_program_may_run() {
        for program in [
            counting(),
            alu(),
            byte_scan(),
            looks(4),
            looks(24),
            pushes(),
        ] {
            let mut map = vec![0; program.len()];
            assert_eq!(verify(&program, CELLS_MAX, &mut map), Ok(()));
        }
    }

    #[test]
    fn the_long_ones_are_whole_and_accepted() {
        let examined = |program: Vec<u8>| {
            assert_eq!(program.len(), PROGRAM_MAX);
            let map = depths(&program, CELLS_MAX).unwrap();
            map.iter().filter(|&&depth| depth != UNMET).count()
        };
        assert_eq!(examined(straight()), 16_384);
        assert_eq!(examined(ping_pong()), 5_461);
        assert_eq!(examined(branches()), 9_829);
        assert!(examined(random()) > 8_000);
    }

    #[test]
    fn the_short_ones_are_accepted() {
        for seed in 1..=100 {
            let program = random_of(375, seed);
            assert_eq!(program.len(), 375);
            let map = depths(&program, CELLS_MAX).unwrap();
            assert!(map.iter().filter(|&&depth| depth != UNMET).count() > 150);
        }
    }
}
