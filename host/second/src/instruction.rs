//! The decoder and the encoder of single instructions (01, "Instructions" and,
//! for the order of their answers, "Faults and refusals"). Both read the formats
//! of [`crate::opcodes`]; only push-values, whose length is not in its format,
//! has functions of its own.

use crate::numbers::{CUT, ILLEGAL, NOT_ENCODABLE, PAST_END, PROGRAM_BYTES, PROGRAM_SIZE, ROOM};
use crate::opcodes::{Opcode, Operation};

/// One instruction read as a value. 01: "80 to BF are code 80 with the six bits
/// as its number, and C0 to FF are code C0 with count, flags and values". What a
/// form lacks is 0.
#[derive(Clone, Copy, Debug, Default, PartialEq, Eq)]
pub struct Instruction {
    /// The first byte, 80 or C0.
    pub code: u8,
    /// The operand in the code.
    pub number: u16,
    /// How many values a push-values pushes.
    pub count: u8,
    /// Bit i is set where value i of a push-values is two bytes wide.
    pub flags: u8,
    /// The values of a push-values, first to fourth.
    pub values: [u16; 4],
}

/// The letters of the flags in the format of push-values, for the first to the
/// fourth value.
const FLAG_LETTERS: [char; 4] = ['a', 'b', 'c', 'd'];

/// Reads the instruction at an address and gives its length. 01: "Decoder: 20,
/// 1, then 2 and 3 as above", which is 2 on the first byte, 3, 2 on the second.
pub fn decode(program: &[u8], at: usize) -> Result<(Instruction, usize), u32> {
    if program.len() > PROGRAM_BYTES {
        return Err(PROGRAM_SIZE);
    }
    let bytes = program.get(at..).unwrap_or_default();
    let first = *bytes.first().ok_or(PAST_END)?;
    let opcode = Opcode::of(first).ok_or(ILLEGAL)?;
    match opcode.operation {
        Operation::PushValues => decode_values(opcode, bytes),
        _ => decode_number(opcode, bytes),
    }
}

/// The forms with at most one number. Their second byte can be illegal only
/// where the format has literal bits there: in the shifts 31 and 32.
fn decode_number(opcode: &Opcode, bytes: &[u8]) -> Result<(Instruction, usize), u32> {
    let length = opcode.length();
    let bytes = bytes.get(..length).ok_or(CUT)?;
    if !opcode.matches(bytes) {
        return Err(ILLEGAL);
    }
    let instruction = Instruction {
        code: opcode.code(),
        number: opcode.field('x', bytes),
        ..Instruction::default()
    };
    Ok((instruction, length))
}

/// 01: "bits 0-1 hold the count less one; bits 2, 3, 4, 5 say, for the first to
/// the fourth value, 0 = one byte, 1 = two. Flags of absent values must be 0."
fn decode_values(opcode: &Opcode, bytes: &[u8]) -> Result<(Instruction, usize), u32> {
    let count = opcode.field('x', bytes) as u8 + 1;
    let wide = FLAG_LETTERS.map(|letter| opcode.field(letter, bytes) == 1);
    if wide[usize::from(count)..].contains(&true) {
        return Err(ILLEGAL);
    }
    let flags = (0..4).map(|place| u8::from(wide[place]) << place).sum();
    let length = values_length(count, flags);
    let mut operands = bytes.get(1..length).ok_or(CUT)?;
    let mut values = [0; 4];
    for (value, wide) in values.iter_mut().zip(wide).take(count.into()) {
        let (own, rest) = operands.split_at(1 + usize::from(wide));
        *value = low_byte_first(own);
        operands = rest;
    }
    let instruction = Instruction {
        code: opcode.code(),
        number: 0,
        count,
        flags,
        values,
    };
    Ok((instruction, length))
}

/// 01: "The length is one, plus the count, plus the number of set flags."
fn values_length(count: u8, flags: u8) -> usize {
    1 + usize::from(count) + flags.count_ones() as usize
}

/// The number that one or two bytes make, low byte first.
pub fn low_byte_first(bytes: &[u8]) -> u16 {
    let append = |high, &low| high << 8 | u16::from(low);
    bytes.iter().rev().fold(0, append)
}

/// Writes an instruction at the beginning of the room and gives its length. 01:
/// "Encoder: 26, 25; on either the room is untouched", and so are the bytes past
/// those written.
pub fn encode(instruction: &Instruction, room: &mut [u8]) -> Result<usize, u32> {
    let bytes = bytes_of(instruction).ok_or(NOT_ENCODABLE)?;
    let place = room.get_mut(..bytes.len()).ok_or(ROOM)?;
    place.copy_from_slice(&bytes);
    Ok(bytes.len())
}

/// The bytes of an instruction; none in each of the cases of 26: "illegal code,
/// number too large for its field, push count not 1 to 4, a number, count, value
/// or flag that the form lacks not 0". 01 adds: "other codes from 80 up are
/// illegal to the encoder".
fn bytes_of(instruction: &Instruction) -> Option<Vec<u8>> {
    let opcode = Opcode::of(instruction.code)?;
    if opcode.code() != instruction.code {
        return None;
    }
    match opcode.operation {
        Operation::PushValues => bytes_of_values(opcode, instruction),
        _ => bytes_of_number(opcode, instruction),
    }
}

fn bytes_of_number(opcode: &Opcode, instruction: &Instruction) -> Option<Vec<u8>> {
    let lacks_values =
        instruction.count == 0 && instruction.flags == 0 && instruction.values == [0; 4];
    let good = lacks_values && opcode.fits('x', instruction.number);
    good.then(|| opcode.spell(|_| instruction.number))
}

fn bytes_of_values(opcode: &Opcode, instruction: &Instruction) -> Option<Vec<u8>> {
    let Instruction {
        number,
        count,
        flags,
        values,
        ..
    } = *instruction;
    if number != 0 || !(1..=4).contains(&count) || flags >> count != 0 {
        return None;
    }
    let (present, absent) = values.split_at(count.into());
    if absent.iter().any(|&value| value != 0) {
        return None;
    }
    let field = |letter| match FLAG_LETTERS.iter().position(|&flag| flag == letter) {
        Some(place) => u16::from(flags >> place & 1),
        None => u16::from(count - 1),
    };
    let mut bytes = opcode.spell(field);
    for (place, value) in present.iter().enumerate() {
        let [low, high] = value.to_le_bytes();
        bytes.push(low);
        match (flags >> place & 1, high) {
            (0, 0) => {}
            (0, _) => return None,
            _ => bytes.push(high),
        }
    }
    Some(bytes)
}

#[cfg(test)]
mod tests {
    use super::*;

    fn number(code: u8, number: u16) -> Instruction {
        Instruction {
            code,
            number,
            ..Instruction::default()
        }
    }

    fn push_values(count: u8, flags: u8, values: [u16; 4]) -> Instruction {
        Instruction {
            code: 0xC0,
            number: 0,
            count,
            flags,
            values,
        }
    }

    /// Both ways: the bytes read as the instruction, the instruction is written
    /// as the bytes.
    fn pair(bytes: &[u8], instruction: Instruction) {
        assert_eq!(decode(bytes, 0), Ok((instruction, bytes.len())));
        let mut room = [0xEE; 12];
        assert_eq!(encode(&instruction, &mut room), Ok(bytes.len()));
        assert_eq!(&room[..bytes.len()], bytes);
        assert!(room[bytes.len()..].iter().all(|&byte| byte == 0xEE));
    }

    fn refused(instruction: Instruction) {
        let mut room = [0xEE; 12];
        assert_eq!(encode(&instruction, &mut room), Err(26), "{instruction:?}");
        assert_eq!(room, [0xEE; 12]);
    }

    #[test]
    fn m1_is_two_pushes_a_sub_and_a_halt() {
        let program = [0x85, 0x83, 0x15, 0x00];
        assert_eq!(decode(&program, 0), Ok((number(0x80, 5), 1)));
        assert_eq!(decode(&program, 1), Ok((number(0x80, 3), 1)));
        assert_eq!(decode(&program, 2), Ok((number(0x15, 0), 1)));
        assert_eq!(decode(&program, 3), Ok((number(0x00, 0), 1)));
        assert_eq!(decode(&program, 4), Err(1));
    }

    #[test]
    fn m9_begins_with_a_byte_and_a_word() {
        let program = [0xC9, 0x01, 0xFF, 0xFF, 0x20];
        let push = push_values(2, 2, [1, 65_535, 0, 0]);
        assert_eq!(decode(&program, 0), Ok((push, 4)));
        assert_eq!(decode(&program, 4), Ok((number(0x20, 0), 1)));
    }

    #[test]
    fn m10_a_flag_of_an_absent_value_is_illegal() {
        assert_eq!(decode(&[0xC8, 0x05], 0), Err(2));
        assert_eq!(decode(&[0xC8], 0), Err(2));
    }

    #[test]
    fn m11_a_shift_byte_is_read_after_the_cut_is_found() {
        assert_eq!(decode(&[0x31, 0x10], 0), Err(2));
        assert_eq!(decode(&[0x31], 0), Err(3));
        assert_eq!(decode(&[0x32, 0xFF], 0), Err(2));
        assert_eq!(decode(&[0x32], 0), Err(3));
    }

    #[test]
    fn numbers_at_their_limits() {
        pair(&[0x25, 0x00], number(0x25, 0));
        pair(&[0x40, 0xFF], number(0x40, 255));
        pair(&[0x31, 0x0F], number(0x31, 15));
        pair(&[0x32, 0x00], number(0x32, 0));
        pair(&[0x41, 0x00, 0x01], number(0x41, 256));
        pair(&[0x5A, 0xFF, 0xFF], number(0x5A, 65_535));
        pair(&[0x56, 0x34, 0x12], number(0x56, 0x1234));
        pair(&[0x80], number(0x80, 0));
        pair(&[0xBF], number(0x80, 63));
        refused(number(0x00, 1));
        refused(number(0x24, 65_535));
        refused(number(0x25, 256));
        refused(number(0x40, 65_535));
        refused(number(0x31, 16));
        refused(number(0x32, 255));
        refused(number(0x80, 64));
    }

    #[test]
    fn push_values_of_each_count() {
        pair(&[0xC0, 0x07], push_values(1, 0, [7, 0, 0, 0]));
        pair(&[0xC4, 0x34, 0x12], push_values(1, 1, [0x1234, 0, 0, 0]));
        pair(&[0xC5, 0x07, 0x00, 0x08], push_values(2, 1, [7, 8, 0, 0]));
        pair(
            &[0xD2, 0x01, 0x02, 0x03, 0x04],
            push_values(3, 4, [1, 2, 0x0403, 0]),
        );
        pair(
            &[0xFF, 1, 2, 3, 4, 5, 6, 7, 8],
            push_values(4, 15, [0x0201, 0x0403, 0x0605, 0x0807]),
        );
        pair(
            &[0xE3, 0xFF, 0xFE, 0xFD, 0xFC, 0xFB],
            push_values(4, 8, [0xFF, 0xFE, 0xFD, 0xFBFC]),
        );
    }

    #[test]
    fn push_values_that_no_bytes_stand_for() {
        refused(push_values(0, 0, [0; 4]));
        refused(push_values(5, 0, [0; 4]));
        refused(push_values(255, 0, [0; 4]));
        refused(push_values(1, 2, [0; 4]));
        refused(push_values(4, 16, [0; 4]));
        refused(push_values(4, 128, [0; 4]));
        refused(push_values(1, 0, [256, 0, 0, 0]));
        refused(push_values(2, 1, [256, 256, 0, 0]));
        refused(push_values(1, 0, [1, 1, 0, 0]));
        refused(push_values(3, 7, [1, 1, 1, 1]));
        refused(Instruction {
            number: 1,
            ..push_values(1, 0, [1, 0, 0, 0])
        });
    }

    #[test]
    fn codes_that_no_form_has() {
        for code in (0x5B..=0x7F).chain(0x81..=0xBF).chain(0xC1..=0xFF) {
            refused(number(code, 0));
            refused(Instruction {
                code,
                ..push_values(1, 0, [1, 0, 0, 0])
            });
        }
        for first in 0x5B..=0x7F {
            assert_eq!(decode(&[first, 0, 0], 0), Err(2));
        }
    }

    #[test]
    fn count_flags_and_values_belong_to_push_values_only() {
        for code in [0x00, 0x25, 0x31, 0x41, 0x80] {
            let plain = number(code, 0);
            refused(Instruction { count: 1, ..plain });
            refused(Instruction { flags: 1, ..plain });
            for place in 0..4 {
                let mut values = [0; 4];
                values[place] = 1;
                refused(Instruction { values, ..plain });
            }
        }
    }

    #[test]
    fn room_too_short_is_25_and_left_alone() {
        let jump = number(0x56, 0x1234);
        for length in 0..3 {
            let mut room = vec![0xEE; length];
            assert_eq!(encode(&jump, &mut room), Err(25));
            assert_eq!(room, vec![0xEE; length]);
        }
        assert_eq!(encode(&number(0x56, 0), &mut [0xEE; 3]), Ok(3));
        assert_eq!(encode(&number(0x25, 256), &mut []), Err(26));
    }

    #[test]
    fn addresses_and_sizes() {
        assert_eq!(decode(&[], 0), Err(1));
        assert_eq!(decode(&[0x00], 1), Err(1));
        assert_eq!(decode(&[0x00], usize::MAX), Err(1));
        let mut program = vec![0x41; 16_384];
        assert_eq!(decode(&program, 16_381), Ok((number(0x41, 0x4141), 3)));
        assert_eq!(decode(&program, 16_382), Err(3));
        assert_eq!(decode(&program, 16_384), Err(1));
        program.push(0);
        assert_eq!(decode(&program, 0), Err(20));
        assert_eq!(decode(&program, 16_385), Err(20));
    }

    #[test]
    fn lengths_are_those_of_01() {
        let bytes = [0; 16];
        for first in 0..=255 {
            let mut program = bytes;
            program[0] = first;
            let length = decode(&program, 0).map(|(_, length)| length);
            let expected = match first {
                0x00..=0x24 | 0x80..=0xBF => Ok(1),
                0x25..=0x40 => Ok(2),
                0x41..=0x5A => Ok(3),
                0xC0 => Ok(2),
                0xC1 | 0xC4 => Ok(3),
                0xC2 | 0xC5 | 0xC9 => Ok(4),
                0xC3 | 0xC6 | 0xCA | 0xD2 | 0xCD => Ok(5),
                0xC7 | 0xCB | 0xD3 | 0xE3 | 0xCE | 0xD6 | 0xDA => Ok(6),
                0xCF | 0xD7 | 0xE7 | 0xDB | 0xEB | 0xF3 | 0xDE => Ok(7),
                0xDF | 0xEF | 0xF7 | 0xFB => Ok(8),
                0xFF => Ok(9),
                _ => Err(2),
            };
            assert_eq!(length, expected, "{first:02X}");
        }
    }

    /// Every string of one to three bytes: what decodes is written back as the
    /// same bytes, in a room exactly as long.
    #[test]
    fn what_decodes_encodes_to_the_same_bytes() {
        let round_trip = |bytes: &[u8]| {
            if let Ok((instruction, length)) = decode(bytes, 0) {
                let mut room = [0; 3];
                let written = encode(&instruction, &mut room[..length]);
                assert_eq!(written, Ok(length), "{bytes:02X?}");
                assert_eq!(room[..length], bytes[..length], "{bytes:02X?}");
            }
        };
        for first in 0..=255 {
            round_trip(&[first]);
            for second in 0..=255 {
                round_trip(&[first, second]);
                for third in 0..=255 {
                    round_trip(&[first, second, third]);
                }
            }
        }
    }
}
