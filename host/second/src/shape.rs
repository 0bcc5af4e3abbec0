//! The table of first bytes: what all instructions that begin with the same byte
//! have in common (01, "Instructions"). Operands decide nothing of it but whether a
//! shift byte is good, and 0 is a good one: so a row is read off the instruction
//! whose operands are all 0.

use crate::instruction::decode;
use crate::machine::pushed;
use crate::opcodes::Opcode;

/// One row of the table.
#[derive(Clone, Copy, Debug, PartialEq, Eq)]
pub struct Shape {
    /// The length in bytes.
    pub length: usize,
    /// The number of values taken from the stack.
    pub taken: usize,
    /// The number of values pushed.
    pub pushed: usize,
}

/// The row of a first byte; none where it is illegal.
pub fn shape(first: u8) -> Option<Shape> {
    let (instruction, length) = decode(&[first, 0, 0, 0, 0, 0, 0, 0, 0], 0).ok()?;
    let opcode = Opcode::of(first)?;
    Some(Shape {
        length,
        taken: opcode.taken(),
        pushed: pushed(opcode.operation, &instruction),
    })
}

#[cfg(test)]
mod tests {
    use super::*;

    #[test]
    fn rows_by_hand() {
        for (first, length, taken, pushed) in [
            (0x00, 1, 0, 0),
            (0x02, 1, 3, 1),
            (0x04, 1, 2, 2),
            (0x05, 1, 1, 1),
            (0x0A, 1, 1, 0),
            (0x24, 1, 3, 1),
            (0x31, 2, 1, 1),
            (0x3A, 2, 2, 1),
            (0x3B, 2, 0, 1),
            (0x3E, 2, 1, 0),
            (0x40, 2, 0, 0),
            (0x53, 3, 2, 1),
            (0x5A, 3, 0, 0),
            (0x80, 1, 0, 1),
            (0xBF, 1, 0, 1),
            (0xC0, 2, 0, 1),
            (0xC9, 4, 0, 2),
            (0xDE, 7, 0, 3),
            (0xFF, 9, 0, 4),
        ] {
            let expected = Shape {
                length,
                taken,
                pushed,
            };
            assert_eq!(shape(first), Some(expected), "{first:02X}");
        }
    }

    /// 5B to 7F, and of push-values with one to three values those in which a flag of
    /// the others is set.
    #[test]
    fn illegal_first_bytes() {
        let absent = [(0xC0, 2), (0xC1, 4), (0xC2, 8)].into_iter();
        let absent =
            absent.flat_map(|(first, good)| (good..16).map(move |flags| first | flags << 2));
        let mut expected: Vec<u8> = (0x5B..=0x7F).chain(absent).collect();
        expected.sort_unstable();
        let illegal = (0..=255).filter(|&first| shape(first).is_none());
        assert_eq!(illegal.collect::<Vec<u8>>(), expected);
    }

    /// What decodes has the length of its row, whatever the operands; what does not,
    /// though nothing is cut, has no row or is a shift.
    #[test]
    fn operands_decide_no_length() {
        for first in 0..=255 {
            for operand in 0..=255 {
                let mut bytes = [operand; 9];
                bytes[0] = first;
                let row = shape(first).map(|row| row.length);
                match decode(&bytes, 0) {
                    Ok((_, length)) => assert_eq!(row, Some(length), "{bytes:02X?}"),
                    Err(number) => {
                        assert_eq!(number, 2);
                        let shift = matches!(first, 0x31 | 0x32) && operand > 15;
                        assert_eq!(row.is_some(), shift, "{bytes:02X?}");
                    }
                }
            }
        }
    }
}
