//! Programs written instruction after instruction, with the depth in view: what
//! stands here would verify, as long as nobody damages it.

use std::ops::Range;

use crate::forms::{Form, Forms};
use crate::operands::{operands, Lengths};
use crate::source::Source;

/// A program that is being written.
pub struct Writer<'a> {
    source: &'a mut Source,
    forms: &'a Forms,
    lengths: Lengths,
    cells: usize,
    depth: usize,
    /// The bytes so far.
    pub bytes: Vec<u8>,
    /// The largest depth met.
    pub deepest: usize,
    /// Where the targets of jumps stand in the code: their low bytes.
    pub targets: Vec<usize>,
}

/// The codes of an instruction with a number of one byte and of two.
type Codes = [u8; 2];

const JUMP: Codes = [0x3C, 0x56];
const JUMP_IF: Codes = [0x3D, 0x57];
const JUMP_IF_NOT: Codes = [0x3E, 0x58];
const FUNCTION: Codes = [0x3F, 0x59];

impl<'a> Writer<'a> {
    /// An empty program that keeps within so many cells, at least one.
    pub fn new(
        source: &'a mut Source,
        forms: &'a Forms,
        lengths: Lengths,
        cells: usize,
    ) -> Writer<'a> {
        Writer {
            source,
            forms,
            lengths,
            cells,
            depth: 0,
            bytes: Vec::new(),
            deepest: 0,
            targets: Vec::new(),
        }
    }

    /// A statement, with others inside it down to so many levels.
    pub fn statement(&mut self, levels: usize) {
        match self.source.below(12) {
            0 | 1 if levels > 0 => self.branch(levels - 1),
            2 if levels > 0 => self.repeat(levels - 1),
            3 | 4 => self.push_any(),
            5 => self.apply_one_of(self.forms.copies()),
            _ => self.apply_one_of(self.forms.straight()),
        }
    }

    /// An end: mostly a halt; sometimes all begins again, where that may be.
    pub fn finish(&mut self, again: bool) {
        match self.source.below(10) {
            0 | 1 => self.with_number(FUNCTION, 0),
            2 if again => {
                self.settle(0);
                self.jump(JUMP, 0);
            }
            _ => self.bytes.push(0x00),
        }
    }

    /// An instruction with operands pushed for it, or on what lies there, if
    /// either is possible.
    fn apply_one_of(&mut self, forms: &[Form]) {
        let form = self.source.one_of(forms);
        let chosen = operands(self.source, &form, self.lengths);
        let lies_there = self.depth >= form.taken;
        if self.depth + form.taken <= self.cells && !(lies_there && self.source.one_in(3)) {
            let mut values = chosen.taken;
            values[..form.taken].reverse();
            self.push(&values[..form.taken]);
        } else if !lies_there {
            return;
        }
        if self.depth - form.taken + form.pushed <= self.cells {
            form.write(chosen.number, &mut self.bytes);
            self.moved(form.taken, form.pushed);
        }
    }

    /// Pushes some values.
    fn push_any(&mut self) {
        let count = self.source.between(1, 4).min(self.cells - self.depth);
        let values = [(); 4].map(|_| self.source.number());
        self.push(&values[..count]);
    }

    /// Pushes values that have room, by one instruction or several.
    fn push(&mut self, values: &[u16]) {
        let (together, alone) = match self.source.one_in(2) {
            true => (values, &values[..0]),
            false => (&values[..0], values),
        };
        if !together.is_empty() {
            push_values(self.source, together, &mut self.bytes);
        }
        for &value in alone {
            push_one(self.source, value, &mut self.bytes);
        }
        self.moved(0, values.len());
    }

    fn moved(&mut self, taken: usize, pushed: usize) {
        self.depth = self.depth - taken + pushed;
        self.deepest = self.deepest.max(self.depth);
    }

    /// Pushes or discards until the depth is this one.
    fn settle(&mut self, depth: usize) {
        while self.depth > depth {
            self.bytes.push(0x01);
            self.moved(1, 0);
        }
        while self.depth < depth {
            let value = self.source.number();
            self.push(&[value]);
        }
    }

    /// Statements that end at the depth at which they began.
    fn block(&mut self, levels: usize) {
        let depth = self.depth;
        for _ in 0..self.source.between(0, 2) {
            self.statement(levels);
        }
        self.settle(depth);
    }

    /// A block that may be passed over, or one of two.
    fn branch(&mut self, levels: usize) {
        if self.depth == 0 || self.depth < self.cells && self.source.one_in(2) {
            let value = self.source.below(2) as u16;
            self.push(&[value]);
        }
        self.moved(1, 0);
        let kind = self.source.one_of(&[JUMP_IF, JUMP_IF_NOT]);
        let over = self.forward(kind);
        self.block(levels);
        if self.source.one_in(2) {
            let end = self.forward(JUMP);
            self.arrive(over);
            self.block(levels);
            self.arrive(end);
        } else {
            self.arrive(over);
        }
    }

    /// A block that is done again while a condition holds, which is a count in
    /// the data where there is some.
    fn repeat(&mut self, levels: usize) {
        if self.depth == self.cells {
            return;
        }
        let start = self.bytes.len();
        self.block(levels);
        if self.lengths.data > 0 && !self.source.one_in(4) {
            let place = self.source.below(self.lengths.data.min(256)) as u8;
            self.bytes.extend([0x33, place, 0x1A, 0x37, place]);
            self.moved(0, 1);
        } else {
            let value = self.source.below(2) as u16;
            self.push(&[value]);
        }
        self.moved(1, 0);
        let kind = self.source.one_of(&[JUMP_IF, JUMP_IF, JUMP_IF_NOT]);
        self.jump(kind, start);
    }

    /// A jump whose target is not known yet; gives where the target is to stand.
    fn forward(&mut self, kind: Codes) -> Range<usize> {
        let code = self.bytes.len();
        self.jump(kind, code);
        code + 1..self.bytes.len()
    }

    /// Lets a jump lead to what comes next.
    fn arrive(&mut self, target: Range<usize>) {
        let next = (self.bytes.len() as u16).to_le_bytes();
        let width = target.len();
        self.bytes[target].copy_from_slice(&next[..width]);
    }

    fn jump(&mut self, kind: Codes, target: usize) {
        self.targets.push(self.bytes.len() + 1);
        self.with_number(kind, target);
    }

    /// An instruction with a number of one byte or two; always two where the
    /// program may grow past what one byte can say.
    fn with_number(&mut self, kind: Codes, number: usize) {
        let [low, high] = (number as u16).to_le_bytes();
        if self.bytes.len() < 100 && self.lengths.program < 100 && !self.source.one_in(4) {
            self.bytes.extend([kind[0], low]);
        } else {
            self.bytes.extend([kind[1], low, high]);
        }
    }
}

/// Pushes a value in one of the forms that hold it.
pub fn push_one(source: &mut Source, value: u16, bytes: &mut Vec<u8>) {
    if value < 64 && !source.one_in(4) {
        bytes.push(0x80 | value as u8);
    } else {
        push_values(source, &[value], bytes);
    }
}

/// Pushes one to four values by one instruction, some of them wider than need be.
pub fn push_values(source: &mut Source, values: &[u16], bytes: &mut Vec<u8>) {
    let at = bytes.len();
    bytes.push(0xC0 | (values.len() - 1) as u8);
    for (place, value) in values.iter().enumerate() {
        let [low, high] = value.to_le_bytes();
        bytes.push(low);
        if high > 0 || source.one_in(6) {
            bytes.push(high);
            bytes[at] |= 4 << place;
        }
    }
}

#[cfg(test)]
mod tests {
    use super::*;
    use second::verifier::{verify, Verdict};

    /// What is written here verifies at its own depth, and at no smaller one.
    #[test]
    fn written_programs_verify() {
        let forms = Forms::new();
        for number in 0..3_000 {
            let mut source = Source::new(5, number);
            let lengths = Lengths {
                program: 40,
                data: source.below(20),
            };
            let cells = source.between(1, 9);
            let mut writer = Writer::new(&mut source, &forms, lengths, cells);
            while writer.bytes.len() < 30 {
                writer.statement(2);
            }
            writer.finish(true);
            let (bytes, deepest) = (writer.bytes, writer.deepest);
            assert!(deepest <= cells);
            let mut map = vec![0; bytes.len()];
            let verdict = verify(&bytes, deepest, &mut map);
            assert_eq!(verdict, Verdict::Accepted, "{bytes:02x?}");
            if deepest > 0 {
                let verdict = verify(&bytes, deepest - 1, &mut map);
                assert!(matches!(verdict, Verdict::RefusedAt(5, _)), "{bytes:02x?}");
            }
        }
    }
}
