//! Programs written down by the names of document 004, for the longer cases.

use std::collections::HashMap;

use crate::instruction::{encode, Instruction};
use crate::opcodes::{Opcode, Operation, OPCODES};

/// The bytes of a program. Each line is a name with its operands, or a label and
/// a colon; an operand is a decimal number or a label. A value of push-values is
/// as wide as it needs to be.
pub fn assemble(source: &str) -> Vec<u8> {
    let lines: Vec<&str> = source.lines().map(str::trim).collect();
    let mut labels = HashMap::new();
    let mut bytes = Vec::new();
    // The first pass finds where the labels are, the second uses them.
    for _ in 0..2 {
        bytes.clear();
        for line in lines.iter().filter(|line| !line.is_empty()) {
            match line.strip_suffix(':') {
                Some(label) => {
                    labels.insert(label, bytes.len() as u16);
                }
                None => bytes.extend(instruction(line, &labels)),
            }
        }
    }
    bytes
}

fn instruction(line: &str, labels: &HashMap<&str, u16>) -> Vec<u8> {
    let mut words = line.split_whitespace();
    let name = words.next().unwrap_or_default();
    let operands: Vec<u16> = words
        .map(|word| {
            word.parse()
                .unwrap_or_else(|_| labels.get(word).copied().unwrap_or(0))
        })
        .collect();
    let opcode = OPCODES.iter().find(|opcode| opcode.name == name);
    let opcode = opcode.unwrap_or_else(|| panic!("no opcode {name}"));
    let mut room = [0; 9];
    let length = encode(&value(opcode, &operands), &mut room);
    let length = length.unwrap_or_else(|number| panic!("refused {number}: {line}"));
    room[..length].to_vec()
}

fn value(opcode: &Opcode, operands: &[u16]) -> Instruction {
    let mut instruction = Instruction {
        code: opcode.code(),
        ..Instruction::default()
    };
    if let Operation::PushValues = opcode.operation {
        instruction.count = operands.len() as u8;
        for (place, &operand) in operands.iter().enumerate() {
            instruction.flags |= u8::from(operand > 255) << place;
            instruction.values[place] = operand;
        }
    } else {
        instruction.number = operands.first().copied().unwrap_or(0);
    }
    instruction
}

#[cfg(test)]
mod tests {
    use super::*;

    /// M4, with its addresses as labels.
    #[test]
    fn m4_by_names() {
        let source = "
                push-u8 3
            store:
                st-u8--imm8 0
                jump-imm8-if again
                halt
            again:
                ld-u8--imm8 0
                dec
                jump-imm8 store";
        let expected = [
            0x83, 0x37, 0x00, 0x3D, 0x06, 0x00, 0x33, 0x00, 0x1A, 0x3C, 0x01,
        ];
        assert_eq!(assemble(source), expected);
    }

    #[test]
    fn values_by_their_size() {
        let bytes = assemble("push-values 1 65535\n ld-u16-offs");
        assert_eq!(bytes, [0xC9, 0x01, 0xFF, 0xFF, 0x20]);
    }
}
