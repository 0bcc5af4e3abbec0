//! The listing (01, "Listing").

use std::fmt::Write;

use crate::instruction::{decode, Instruction};
use crate::numbers::{PROGRAM_BYTES, PROGRAM_SIZE, ROOM};
use crate::opcodes::{Opcode, Operation};

/// Writes the listing of a program at the beginning of the room and gives its
/// length. 01: "Checks: 20, 25; either leaves the room untouched."
pub fn listing(program: &[u8], room: &mut [u8]) -> Result<usize, u32> {
    if program.len() > PROGRAM_BYTES {
        return Err(PROGRAM_SIZE);
    }
    let text = text(program);
    let place = room.get_mut(..text.len()).ok_or(ROOM)?;
    place.copy_from_slice(text.as_bytes());
    Ok(text.len())
}

/// 01: "From address 0, one line each: four upper-case hex digits, blank, name as
/// in 004 (06 is `jump`), each operand as blank, `$`, two or four digits by its
/// width in the code, line feed. Where 2 or 3 stands, `byte $XX` and one byte
/// further."
fn text(program: &[u8]) -> String {
    let mut text = String::new();
    let mut address = 0;
    while address < program.len() {
        let (line, length) = match decode(program, address) {
            Ok((instruction, length)) => (named(&instruction), length),
            Err(_) => (format!("byte ${:02X}", program[address]), 1),
        };
        writeln!(text, "{address:04X} {line}").expect("a string takes all");
        address += length;
    }
    text
}

/// The name and the operands in the code.
fn named(instruction: &Instruction) -> String {
    let opcode = Opcode::of(instruction.code).expect("a code that was decoded");
    let mut line = opcode.name.to_string();
    let mut operand = |value: u16, bytes: usize| {
        let digits = 2 * bytes;
        write!(line, " ${value:0digits$X}").expect("a string takes all");
    };
    match opcode.operation {
        Operation::PushValues => {
            for place in 0..usize::from(instruction.count) {
                let wide = instruction.flags >> place & 1;
                operand(instruction.values[place], 1 + usize::from(wide));
            }
        }
        Operation::Push => operand(instruction.number, 1),
        _ if opcode.length() > 1 => operand(instruction.number, opcode.length() - 1),
        _ => {}
    }
    line
}

#[cfg(test)]
mod tests {
    use super::*;

    fn listed(program: &[u8], lines: &[&str]) {
        let expected: String = lines.iter().map(|line| format!("{line}\n")).collect();
        let mut room = vec![0xEE; expected.len() + 3];
        assert_eq!(listing(program, &mut room), Ok(expected.len()));
        let written = String::from_utf8_lossy(&room[..expected.len()]);
        assert_eq!(written, expected);
        assert_eq!(room[expected.len()..], [0xEE; 3]);
    }

    #[test]
    fn the_example() {
        listed(
            &[0x85, 0x83, 0x15, 0x00],
            &[
                "0000 push-u8 $05",
                "0001 push-u8 $03",
                "0002 sub",
                "0003 halt",
            ],
        );
    }

    #[test]
    fn operands_by_their_width() {
        listed(
            &[
                0xAF, 0x31, 0x0B, 0x25, 0xCD, 0x56, 0x34, 0x1A, 0xD2, 0x01, 0xFF, 0x03, 0xAB,
            ],
            &[
                "0000 push-u8 $2F",
                "0001 shl-imm4 $0B",
                "0003 eq--imm8 $CD",
                "0005 jump-imm16 $1A34",
                "0008 push-values $01 $FF $AB03",
            ],
        );
    }

    /// Operands of an instruction that is cut or illegal are listed as they
    /// stand.
    #[test]
    fn single_bytes() {
        listed(&[0x7F, 0x00], &["0000 byte $7F", "0001 halt"]);
        listed(&[0x31, 0x10], &["0000 byte $31", "0001 ge"]);
        listed(&[0xC8, 0x06], &["0000 byte $C8", "0001 jump"]);
        listed(&[0x56, 0x5B], &["0000 byte $56", "0001 byte $5B"]);
        listed(
            &[0xC3, 0x41, 0x00, 0x01],
            &["0000 byte $C3", "0001 eq--imm16 $0100"],
        );
    }

    #[test]
    fn rooms_and_sizes() {
        listed(&[], &[]);
        let mut room = [0xEE; 10];
        assert_eq!(listing(&[0x00], &mut room[..9]), Err(25));
        assert_eq!(room, [0xEE; 10]);
        assert_eq!(listing(&[0x00], &mut room), Ok(10));
        assert_eq!(&room, b"0000 halt\n");
        assert_eq!(listing(&[0x00; 16_385], &mut []), Err(20));
        let mut room = vec![0; 163_840];
        assert_eq!(listing(&[0x00; 16_384], &mut room), Ok(163_840));
        assert!(room.ends_with(b"3FFF halt\n"));
    }
}
