//! Programs: written so that they verify, damaged, made of instructions without
//! regard to the depth, and of any bytes.

use crate::damage::damage;
use crate::maker::{Maker, PROGRAM_BYTES, STACK_CELLS};
use crate::operands::{operands, Lengths};
use crate::writer::{push_one, push_values, Writer};

/// A program and what is known of it.
pub struct Program {
    /// Its bytes.
    pub bytes: Vec<u8>,
    /// The largest depth that was in view while it was written.
    pub deepest: usize,
    /// Whether it surely ends when run from address 0.
    pub ends: bool,
    /// Where the targets of its jumps stand, if it was written with jumps.
    targets: Vec<usize>,
}

/// What is kept free for the last statement where the length is to be exact.
const ROOM_TO_END: usize = 100;

impl Maker<'_> {
    /// Some program, for a data memory of so many bytes.
    pub fn program(&mut self, data: usize) -> Program {
        let length = self.program_length();
        if self.large && self.source.one_in(4) {
            return self.extreme(length);
        }
        match self.source.below(16) {
            0 => self.any_bytes(length),
            1 => self.sequence(length, data),
            2..=4 => self.damaged(length, data),
            5 | 6 => self.bent(length, data),
            7..=9 => self.straight(length, data),
            _ => self.nested(length, data),
        }
    }

    fn any_bytes(&mut self, length: usize) -> Program {
        of_bytes((0..length).map(|_| self.source.byte()).collect())
    }

    /// Instructions that come one after the other, whatever the depth.
    fn sequence(&mut self, length: usize, data: usize) -> Program {
        let lengths = Lengths {
            program: length,
            data,
        };
        let mut bytes = Vec::new();
        while bytes.len() < length {
            self.instruction(lengths, &mut bytes);
        }
        of_bytes(bytes)
    }

    /// One instruction, more often a push than not.
    fn instruction(&mut self, lengths: Lengths, bytes: &mut Vec<u8>) {
        match self.source.below(8) {
            0..=2 => {
                let value = self.source.number();
                push_one(&mut self.source, value, bytes);
            }
            3 => {
                let count = self.source.between(1, 4);
                let values = [(); 4].map(|_| self.source.number());
                push_values(&mut self.source, &values[..count], bytes);
            }
            _ => {
                let form = self.source.one_of(self.forms.all());
                let chosen = operands(&mut self.source, &form, lengths);
                form.write(chosen.number, bytes);
            }
        }
    }

    fn damaged(&mut self, length: usize, data: usize) -> Program {
        let mut program = self.nested(length, data);
        damage(&mut self.source, &mut program.bytes);
        program
    }

    /// A program of which one jump leads elsewhere, maybe into operands, and may
    /// be the last instruction.
    fn bent(&mut self, length: usize, data: usize) -> Program {
        let mut program = self.nested(length, data);
        if program.targets.is_empty() {
            return program;
        }
        let target = self.source.one_of(&program.targets);
        program.bytes[target] = self.source.below(program.bytes.len() + 1) as u8;
        if self.source.one_in(4) {
            let jump = self.forms.of(program.bytes[target - 1]);
            program
                .bytes
                .truncate(target + jump.map_or(0, |form| form.width));
        }
        program
    }

    /// Nothing but straight instructions and an end.
    fn straight(&mut self, length: usize, data: usize) -> Program {
        self.written(length, data, 0)
    }

    /// Straight instructions, branches and loops.
    fn nested(&mut self, length: usize, data: usize) -> Program {
        self.written(length, data, 2)
    }

    fn written(&mut self, length: usize, data: usize, levels: usize) -> Program {
        let cells = self.stack_cells().min(STACK_CELLS);
        let lengths = Lengths {
            program: length,
            data,
        };
        let mut writer = Writer::new(&mut self.source, self.forms, lengths, cells);
        let end = if self.large { ROOM_TO_END } else { 2 };
        while writer.bytes.len() < length.saturating_sub(end) {
            writer.statement(levels);
        }
        writer.finish(levels > 0);
        let mut program = Program {
            bytes: writer.bytes,
            deepest: writer.deepest,
            ends: levels == 0,
            targets: writer.targets,
        };
        if self.large && program.bytes.len() < length {
            program.bytes.resize(length, 0);
        }
        program
    }

    /// The shapes that are hard for a verifier: jumps to and fro, the deepest
    /// stack, the longest straight way.
    fn extreme(&mut self, length: usize) -> Program {
        match self.source.below(3) {
            0 => of_bytes(to_and_fro(length.min(PROGRAM_BYTES))),
            1 => self.deep(),
            _ => of_bytes(vec![self.source.one_of(&[0x80, 0x04, 0x00, 0x7F]); length]),
        }
    }

    /// As many values as the largest stack holds, or one less or more.
    fn deep(&mut self) -> Program {
        let deepest = self.at_limit(STACK_CELLS);
        let mut bytes = vec![0x81; deepest];
        bytes.push(0x00);
        Program {
            deepest,
            ends: true,
            ..of_bytes(bytes)
        }
    }
}

fn of_bytes(bytes: Vec<u8>) -> Program {
    Program {
        bytes,
        deepest: 0,
        ends: false,
        targets: Vec::new(),
    }
}

/// Jumps from the low half to the high half and back, until a halt.
fn to_and_fro(length: usize) -> Vec<u8> {
    let jumps = length / 6;
    let jump = |target: usize| {
        let [low, high] = (target as u16).to_le_bytes();
        [0x56, low, high]
    };
    let there = (0..jumps).map(|number| jump(3 * (jumps + number) + 1));
    let back = (0..jumps).map(|number| jump(3 * (number + 1)));
    let mut bytes: Vec<u8> = there.flatten().collect();
    bytes.push(0x00);
    bytes.extend(back.flatten());
    bytes
}
