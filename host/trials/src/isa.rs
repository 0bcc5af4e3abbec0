//! Cases of decode, encode and shape.

use crate::damage::damage;
use crate::forms::{Form, LAST};
use crate::line::Line;
use crate::maker::Maker;

/// An instruction as a value, in the fields of the protocol.
struct Value {
    code: u8,
    number: u16,
    count: u8,
    flags: u8,
    values: [u16; 4],
}

impl Maker<'_> {
    /// `decode PROGRAM AT`.
    pub fn decode(&mut self) -> Line {
        let (program, at) = match self.large {
            true => (self.program(0).bytes, None),
            false => self.single_program(),
        };
        let at = match self.source.below(16) {
            0 => self.source.number().into(),
            1 => self.source.near(program.len()),
            2 => self.source.below(program.len() + 1),
            _ => at.unwrap_or_else(|| self.source.near(program.len())),
        };
        Line::new("decode").bytes(&program).size(at.min(65_535))
    }

    /// An instruction with some bytes around it, sometimes cut or damaged, and
    /// where it stands.
    fn single_program(&mut self) -> (Vec<u8>, Option<usize>) {
        let at = self.source.below(3);
        let mut program = self.source.bytes(at);
        self.single(&mut program);
        match self.source.below(8) {
            0 => program.truncate(self.source.between(at, program.len())),
            1 => damage(&mut self.source, &mut program),
            2 => {}
            _ => {
                let more = self.source.below(4);
                program.extend(self.source.bytes(more));
            }
        }
        (program, Some(at))
    }

    /// The bytes of one instruction; all first bytes are alike likely.
    fn single(&mut self, bytes: &mut Vec<u8>) {
        let first = self.source.byte();
        match self.forms.of(first) {
            Some(form) => {
                let number = self.number_of(form);
                form.write(number, bytes);
            }
            None => {
                bytes.push(first);
                let operands = if first < 0xC0 { 0 } else { values_bytes(first) };
                bytes.extend((0..operands).map(|_| self.source.byte()));
            }
        }
    }

    /// A number for a form, not past what it holds, but for the shifts.
    fn number_of(&mut self, form: &Form) -> u16 {
        match form.largest {
            15 => self.source.below(18) as u16,
            largest => self.source.number() % largest.saturating_add(1).max(1),
        }
    }

    /// `encode CODE NUMBER COUNT FLAGS V0 V1 V2 V3 ROOM`.
    pub fn encode(&mut self) -> Line {
        let mut value = self.value();
        if self.source.one_in(4) {
            self.spoil(&mut value);
        }
        let room = match self.large {
            true => self.room_for(20_000),
            false => {
                let length = self.value_length(&value);
                self.room_for(length)
            }
        };
        let line = Line::new("encode")
            .number(value.code)
            .number(value.number)
            .number(value.count)
            .number(value.flags);
        let line = value
            .values
            .iter()
            .fold(line, |line, &each| line.number(each));
        line.bytes(&room)
    }

    /// `shape FIRST`: all first bytes are alike likely; at times a number that is none.
    pub fn shape(&mut self) -> Line {
        let first = match self.source.below(16) {
            0 => self.source.near(256),
            1 => self.source.number().into(),
            _ => self.source.byte().into(),
        };
        Line::new("shape").size(first)
    }

    /// A value that can be encoded, mostly.
    fn value(&mut self) -> Value {
        let mut value = Value {
            code: self.source.between(0, LAST.into()) as u8,
            number: 0,
            count: 0,
            flags: 0,
            values: [0; 4],
        };
        match self.source.below(4) {
            0 => {
                value.code = 0x80;
                value.number = self.source.between(0, 64) as u16;
            }
            1 => self.push_values_value(&mut value),
            _ => {
                if let Some(form) = self.forms.of(value.code) {
                    value.number = self.number_of(form);
                }
            }
        }
        value
    }

    fn push_values_value(&mut self, value: &mut Value) {
        value.code = 0xC0;
        value.count = self.source.between(1, 4) as u8;
        for place in 0..usize::from(value.count) {
            let number = self.source.number();
            value.values[place] = number;
            let wide = number > 255 || self.source.one_in(3);
            value.flags |= u8::from(wide) << place;
        }
    }

    /// Alters one field.
    fn spoil(&mut self, value: &mut Value) {
        match self.source.below(7) {
            0 => value.code = self.source.byte(),
            1 => value.number = self.source.number(),
            2 => value.number = self.source.one_of(&[1, 15, 16, 63, 64, 255, 256]),
            3 => value.count = self.source.one_of(&[0, 1, 2, 3, 4, 5, 255]),
            4 => value.flags ^= 1 << self.source.below(8),
            5 => value.values[self.source.below(4)] = self.source.number(),
            _ => value.values[self.source.below(4)] = self.source.one_of(&[0, 1, 255, 256]),
        }
    }

    /// How many bytes a value that can be encoded has.
    fn value_length(&self, value: &Value) -> usize {
        let width = self.forms.of(value.code).map_or(0, |form| form.width);
        1 + width + usize::from(value.count) + value.flags.count_ones() as usize
    }
}

/// How many bytes follow the first byte of a push-values whose flags are good.
fn values_bytes(first: u8) -> u32 {
    u32::from(first & 3) + 1 + (first >> 2 & 15).count_ones()
}
