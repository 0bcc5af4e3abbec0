//! Cases of the decoder, the encoder and the table of first bytes.
//!
//! Numbers have their low byte first. A case is one of:
//!
//! - `D` (44 hex): the program's length as u16, the address as u32, the
//!   program's bytes. Answered as `decode`.
//! - `E` (45 hex): code u8, number u16, count u8, flags u8, four values u16
//!   each, the room's length as u16, the room's bytes. Answered as `encode`.
//! - `S` (53 hex): a first byte. Answered as `shape`.

use super::{counts_and_flags, whole, Varied, Vectors, EDGES};
use crate::instruction::{decode, encode, Instruction};
use crate::numbers::PROGRAM_BYTES;
use crate::protocol::{decode_answer, room_answer, shape_answer};
use crate::shape::shape;

/// All cases, in order.
pub fn vectors() -> Vectors {
    let mut vectors = Vectors::default();
    decode_every_first_byte(&mut vectors);
    decode_shift_bytes(&mut vectors);
    decode_numbers(&mut vectors);
    decode_addresses(&mut vectors);
    decode_longest_programs(&mut vectors);
    decode_varied(&mut vectors);
    encode_every_code(&mut vectors);
    encode_numbers(&mut vectors);
    encode_what_a_form_lacks(&mut vectors);
    encode_counts_and_flags(&mut vectors);
    encode_values(&mut vectors);
    encode_rooms(&mut vectors);
    encode_varied(&mut vectors);
    shapes(&mut vectors);
    vectors
}

/// Operand bytes that tell their places; the first is a good shift byte.
const OPERANDS: [u8; 8] = [0x0B, 0x34, 0x56, 0x78, 0x9A, 0xBC, 0xDE, 0xF1];

fn add_decode(vectors: &mut Vectors, program: &[u8], at: u32) {
    let mut case = vec![b'D'];
    case.extend((program.len() as u16).to_le_bytes());
    case.extend(at.to_le_bytes());
    case.extend(program);
    let answer = decode(program, at as usize);
    vectors.add(&case, &decode_answer(&answer));
}

fn add_encode(vectors: &mut Vectors, instruction: Instruction, room: usize) {
    let mut room: Vec<u8> = (0..room).map(|place| 0xA0 | place as u8 & 0x0F).collect();
    let mut case = vec![b'E', instruction.code];
    case.extend(instruction.number.to_le_bytes());
    case.extend([instruction.count, instruction.flags]);
    for value in instruction.values {
        case.extend(value.to_le_bytes());
    }
    case.extend((room.len() as u16).to_le_bytes());
    case.extend(&room);
    let answer = encode(&instruction, &mut room);
    vectors.add(&case, &room_answer(&answer, &room));
}

/// Every first byte: whole, cut at every shorter length, with bytes behind, and
/// whole and cut inside a longer program.
fn decode_every_first_byte(vectors: &mut Vectors) {
    for first in 0..=255 {
        let whole = whole(first, OPERANDS);
        let inside = [&[0xFF, 0x00, 0x41, 0x80, 0xC3], whole.as_slice()].concat();
        let start = inside.len() - whole.len();
        add_decode(vectors, &whole, 0);
        for length in 1..whole.len() {
            add_decode(vectors, &whole[..length], 0);
            add_decode(vectors, &inside[..start + length], start as u32);
        }
        add_decode(vectors, &[&whole, &OPERANDS[..2]].concat(), 0);
        add_decode(vectors, &inside, start as u32);
        add_decode(vectors, &[&inside, &OPERANDS[5..]].concat(), start as u32);
    }
}

fn decode_shift_bytes(vectors: &mut Vectors) {
    for first in [0x31, 0x32] {
        for second in [0, 1, 7, 8, 15, 16, 17, 31, 32, 64, 128, 240, 255] {
            add_decode(vectors, &[first, second], 0);
            add_decode(vectors, &[0x00, first, second, 0x00], 1);
        }
    }
}

/// The edges of every number field, and of the values of every good push-values.
fn decode_numbers(vectors: &mut Vectors) {
    for first in 0x25..=0x40 {
        for number in [0, 1, 127, 128, 255] {
            add_decode(vectors, &[first, number], 0);
        }
    }
    for first in 0x41..=0x5A {
        for number in EDGES {
            let [low, high] = number.to_le_bytes();
            add_decode(vectors, &[first, low, high], 0);
        }
    }
    for (count, flags) in counts_and_flags() {
        for fill in [0, 1, 255] {
            let mut bytes = [fill; 9];
            bytes[0] = super::push_values(count, flags);
            add_decode(vectors, &bytes, 0);
        }
    }
}

/// Addresses at the end of programs of several lengths, and past it.
fn decode_addresses(vectors: &mut Vectors) {
    for program in [
        vec![],
        vec![0x00],
        vec![0x85, 0x83, 0x15, 0x00],
        vec![0xFF, 1, 2, 3, 4, 5, 6, 7, 8],
        vec![0x41, 0x41, 0x41, 0x41],
    ] {
        let end = program.len() as u32;
        for at in 0..=end + 2 {
            add_decode(vectors, &program, at);
        }
        for at in [
            255,
            256,
            16_383,
            16_384,
            32_768,
            65_535,
            65_536,
            65_537,
            i32::MAX as u32,
            u32::MAX,
        ] {
            add_decode(vectors, &program, at);
        }
    }
}

/// The longest program, read whole and cut at its end, and one byte more.
fn decode_longest_programs(vectors: &mut Vectors) {
    let mut program = [0x85, 0x31, 0x0B, 0x56].repeat(PROGRAM_BYTES / 4);
    program[PROGRAM_BYTES - 3..].copy_from_slice(&[0x56, 0x56, 0x12]);
    add_decode(vectors, &program, PROGRAM_BYTES as u32 - 3);
    add_decode(vectors, &program, PROGRAM_BYTES as u32 - 2);
    program.push(0x00);
    add_decode(vectors, &program, 0);
    add_decode(vectors, &program, PROGRAM_BYTES as u32 + 1);
}

fn decode_varied(vectors: &mut Vectors) {
    let mut varied = Varied(1);
    for _ in 0..400 {
        let length = varied.below(12);
        let program = varied.bytes(length);
        let at = varied.below(length / 2 + 2);
        add_decode(vectors, &program, at as u32);
    }
}

/// An instruction with nothing but a code and a number.
fn number(code: u8, number: u16) -> Instruction {
    Instruction {
        code,
        number,
        ..Instruction::default()
    }
}

fn push_values(count: u8, flags: u8, values: [u16; 4]) -> Instruction {
    Instruction {
        code: 0xC0,
        number: 0,
        count,
        flags,
        values,
    }
}

/// The codes other than C0 that the encoder knows.
fn number_codes() -> impl Iterator<Item = u8> {
    (0x00..=0x5A).chain([0x80])
}

/// Every code alone, and the upper ones with a value as push-values has it.
fn encode_every_code(vectors: &mut Vectors) {
    for code in 0..=255 {
        add_encode(vectors, number(code, 0), 4);
    }
    for code in 0x7C..=0xFF {
        let one_value = Instruction {
            code,
            ..push_values(1, 0, [7, 0, 0, 0])
        };
        add_encode(vectors, one_value, 3);
    }
}

/// Numbers on both sides of the limit of every field.
fn encode_numbers(vectors: &mut Vectors) {
    for code in number_codes() {
        let numbers: &[u16] = match code {
            0x31 | 0x32 => &[1, 8, 14, 15, 16, 17, 255, 256, 65_535],
            0x25..=0x40 => &[1, 128, 254, 255, 256, 511, 65_535],
            0x41..=0x5A => &[1, 255, 256, 4_660, 65_535],
            0x80 => &[1, 31, 32, 62, 63, 64, 127, 128, 255, 256, 65_535],
            _ => &[1, 65_535],
        };
        for &value in numbers {
            add_encode(vectors, number(code, value), 3);
        }
    }
    for code in [0x5B, 0x7C, 0x7F, 0x81, 0xBF, 0xC0, 0xC1, 0xFF] {
        for value in EDGES {
            add_encode(vectors, number(code, value), 3);
        }
    }
}

/// A count, a flag or a value where the form has none, alone and, for one of
/// them, in a room that is too short as well.
fn encode_what_a_form_lacks(vectors: &mut Vectors) {
    for code in number_codes() {
        let plain = number(code, 0);
        add_encode(vectors, Instruction { count: 1, ..plain }, 4);
        add_encode(vectors, Instruction { flags: 1, ..plain }, 4);
        let place = usize::from(code) % 4;
        let mut values = [0; 4];
        values[place] = 1;
        add_encode(vectors, Instruction { values, ..plain }, 4);
        values[place] = 65_535;
        add_encode(vectors, Instruction { values, ..plain }, 0);
    }
    for code in [0x00, 0x25, 0x31, 0x56, 0x80] {
        let plain = number(code, 0);
        for count in [2, 4, 5, 255] {
            add_encode(vectors, Instruction { count, ..plain }, 4);
        }
        for flags in [2, 4, 8, 15, 16, 255] {
            add_encode(vectors, Instruction { flags, ..plain }, 4);
        }
    }
}

/// Every count with every set of flags, with small values where they may stand,
/// also with a number and in no room.
fn encode_counts_and_flags(vectors: &mut Vectors) {
    for count in [0, 1, 2, 3, 4, 5, 255] {
        for flags in (0..=16).chain([32, 64, 128, 255]) {
            let mut values = [5, 6, 7, 8];
            values[usize::from(count).min(4)..].fill(0);
            add_encode(vectors, push_values(count, flags, values), 10);
        }
    }
    for (count, flags) in counts_and_flags() {
        let push = push_values(count, flags, [0; 4]);
        add_encode(vectors, push, 9);
        add_encode(vectors, Instruction { number: 1, ..push }, 9);
        let large = Instruction {
            number: 65_535,
            ..push
        };
        add_encode(vectors, large, 0);
    }
}

/// The edges of a value in each place, narrow, wide and absent.
fn encode_values(vectors: &mut Vectors) {
    for (count, flags) in counts_and_flags() {
        for place in 0..4 {
            for value in EDGES {
                let mut values = [0x21, 0x43, 0x65, 0x87];
                values[usize::from(count)..].fill(0);
                values[place] = value;
                let absent = place >= usize::from(count);
                if !absent || value == 1 || value == 65_535 {
                    add_encode(vectors, push_values(count, flags, values), 9);
                }
            }
        }
    }
}

/// Every form in rooms that are empty, one byte short, exactly as long, and
/// longer by three; and instructions that are bad as well, where 26 comes first.
fn encode_rooms(vectors: &mut Vectors) {
    let numbers = number_codes().map(|code| number(code, 0x000D * u16::from(code > 0x24)));
    let pushes = counts_and_flags().map(|(count, flags)| {
        let mut values = [0x1F, 0x2E, 0x3D, 0x4C];
        for (place, value) in values.iter_mut().enumerate() {
            *value |= 0x9800 * u16::from(flags >> place & 1);
        }
        values[usize::from(count)..].fill(0);
        push_values(count, flags, values)
    });
    for instruction in numbers.chain(pushes) {
        let length = encode(&instruction, &mut [0; 9]).unwrap_or_default();
        add_encode(vectors, instruction, length);
        add_encode(vectors, instruction, length + 3);
        add_encode(vectors, instruction, length.saturating_sub(1));
        if length > 2 {
            add_encode(vectors, instruction, 0);
        }
    }
    for bad in [
        number(0x5B, 0),
        number(0x00, 1),
        number(0x25, 256),
        number(0x31, 16),
        number(0x80, 64),
        push_values(0, 0, [0; 4]),
        push_values(5, 0, [0; 4]),
        push_values(1, 2, [0; 4]),
        push_values(1, 0, [256, 0, 0, 0]),
        push_values(1, 0, [1, 1, 0, 0]),
    ] {
        for room in [0, 1, 2] {
            add_encode(vectors, bad, room);
        }
    }
}

/// Instructions read from varied bytes, half of them then altered in one field.
fn encode_varied(vectors: &mut Vectors) {
    let mut varied = Varied(2);
    let mut left = 400;
    while left > 0 {
        let bytes = varied.bytes(9);
        let (mut instruction, length) = match decode(&bytes, 0) {
            Ok(read) => read,
            Err(_) => continue,
        };
        let altered = varied.one_of(&EDGES);
        match varied.below(10) {
            0 => instruction.number = altered,
            1 => instruction.count = varied.below(6) as u8,
            2 => instruction.flags = varied.below(17) as u8,
            3 => instruction.values[varied.below(4)] = altered,
            4 => instruction.code = varied.byte(),
            _ => {}
        }
        let room = (length + varied.below(3)).saturating_sub(varied.below(2));
        add_encode(vectors, instruction, room);
        left -= 1;
    }
}

/// The whole table.
fn shapes(vectors: &mut Vectors) {
    for first in 0..=255 {
        vectors.add(&[b'S', first], &shape_answer(&shape(first)));
    }
}

#[cfg(test)]
mod tests {
    use super::*;

    #[test]
    fn the_cases_stay_few_and_balanced() {
        let vectors = vectors();
        assert!(vectors.stdin.len() < 160_000);
        assert!(vectors.cases() < 12_000);
        let (ok, refused) = (vectors.answers("ok "), vectors.answers("refused "));
        let (rows, illegal) = (vectors.answers("row "), vectors.answers("illegal"));
        assert_eq!(rows + illegal, 256);
        assert_eq!(ok + refused + rows + illegal, vectors.cases());
        assert!(ok.abs_diff(refused) < vectors.cases() / 10);
    }

    #[test]
    fn every_refusal_appears() {
        let vectors = vectors();
        for number in [1, 2, 3, 20] {
            let line = format!("refused {number}");
            assert!(vectors.stdout.lines().any(|answer| answer == line));
        }
        assert!(vectors.answers("refused 25 ") > 0);
        assert!(vectors.answers("refused 26 ") > 0);
    }

    /// The first two cases, and the last, by hand.
    #[test]
    fn the_form_of_a_case() {
        let vectors = vectors();
        let halt_alone = [0x44, 1, 0, 0, 0, 0, 0, 0x00];
        let halt_and_more = [0x44, 3, 0, 0, 0, 0, 0, 0x00, 0x0B, 0x34];
        assert!(vectors
            .stdin
            .starts_with(&[&halt_alone[..], &halt_and_more].concat()));
        assert!(vectors.stdout.starts_with("ok 1 0 0 0 0 0 0 0 0\nok 1 0"));
        assert!(vectors.stdin.ends_with(&[0x53, 0xFF]));
        assert!(vectors.stdout.ends_with("\nrow 9 0 4\n"));
    }
}
