//! Cases of step and run.

use crate::damage::damage;
use crate::line::Line;
use crate::maker::{Maker, STACK_CELLS};
use crate::operands::{operands, Lengths};
use crate::source::Source;

/// All that a run is given but its budget.
struct Setting {
    program: Vec<u8>,
    data: Vec<u8>,
    stack: Vec<u16>,
    address: usize,
    depth: usize,
    status: String,
    /// Whether the run ends whatever its budget.
    ends: bool,
}

impl Maker<'_> {
    /// `step PROGRAM DATA STACK STATE`.
    pub fn step(&mut self) -> Line {
        let setting = match self.large || self.source.one_in(4) {
            true => self.program_setting(),
            false => self.single_setting(),
        };
        setting.write(Line::new("step"))
    }

    /// `run PROGRAM DATA STACK STATE BUDGET`.
    pub fn run(&mut self) -> Line {
        let setting = match !self.large && self.source.one_in(8) {
            true => self.single_setting(),
            false => self.program_setting(),
        };
        let budget = self.budget(setting.ends);
        setting.write(Line::new("run")).number(budget)
    }

    /// A budget: the large ones only where a run ends by itself.
    fn budget(&mut self, ends: bool) -> u32 {
        match self.source.below(16) {
            0 => 0,
            1 => 1,
            2..=4 if ends => u32::MAX - self.source.below(2) as u32,
            5 if ends => self.source.near(65_536) as u32,
            6 | 7 if self.large => self.source.between(200, 5_000) as u32,
            6 | 7 => self.source.between(40, 200) as u32,
            _ => self.source.between(2, 40) as u32,
        }
    }

    /// A program with a fresh state, or with one that was saved on the way.
    fn program_setting(&mut self) -> Setting {
        let data = self.data_length();
        let program = self.program(data);
        let cells = self.cells_for(program.deepest);
        let mut setting = Setting {
            data: self.source.bytes(data),
            stack: self.source.cells(cells),
            address: 0,
            depth: 0,
            status: "running".to_string(),
            ends: program.ends,
            program: program.bytes,
        };
        if self.source.one_in(6) {
            self.save(&mut setting);
        }
        setting
    }

    /// Just as many cells as a program needs, more or fewer.
    fn cells_for(&mut self, deepest: usize) -> usize {
        if self.large && self.source.one_in(3) {
            return self.at_limit(STACK_CELLS);
        }
        match self.source.below(8) {
            0 => self.source.near(deepest),
            1 => self.stack_cells(),
            2 | 3 => deepest,
            _ => deepest + self.source.below(4),
        }
    }

    /// A state from the middle of a run, or one that no run reaches.
    fn save(&mut self, setting: &mut Setting) {
        let past = setting.program.len() + 2;
        setting.address = match self.source.below(8) {
            0 => self.source.number().into(),
            _ => self.source.below(past).min(65_535),
        };
        setting.depth = match self.source.below(16) {
            0 => self.source.number().into(),
            1 => setting.stack.len() + 1,
            2..=4 => setting.stack.len(),
            _ => self.source.below(setting.stack.len() + 1),
        };
        setting.status = status(&mut self.source);
        setting.ends = setting.status != "running" || setting.depth > setting.stack.len();
    }

    /// One instruction, with operands on the stack that bring it near an end.
    fn single_setting(&mut self) -> Setting {
        let lengths = Lengths {
            program: self.source.between(1, 12),
            data: self.data_length(),
        };
        let address = self.source.below(3);
        let mut program = self.source.bytes(address);
        let code = self.code();
        let (taken, values) = match self.forms.of(code) {
            Some(form) => {
                let chosen = operands(&mut self.source, form, lengths);
                form.write(chosen.number, &mut program);
                (form.taken, chosen.taken)
            }
            None => {
                program.push(code);
                (0, [0; 3])
            }
        };
        self.end_of_program(&mut program, lengths.program);
        let depth = self.depth_for(taken);
        let stack = self.stack(depth, &values[..taken]);
        let mut setting = Setting {
            data: self.source.bytes(lengths.data),
            stack,
            address,
            depth,
            status: "running".to_string(),
            ends: false,
            program,
        };
        if self.source.one_in(32) {
            self.save(&mut setting);
        }
        setting
    }

    /// The first byte of a single instruction: mostly one that does something.
    fn code(&mut self) -> u8 {
        match self.source.below(16) {
            0 | 1 => self.source.byte(),
            2 | 3 => self.source.between(0xC0, 0xFF) as u8,
            4 => self.source.one_of(self.forms.copies()).code,
            _ => self.source.one_of(self.forms.all()).code,
        }
    }

    /// More bytes behind an instruction, or a cut.
    fn end_of_program(&mut self, program: &mut Vec<u8>, length: usize) {
        while program.len() < length {
            program.push(self.source.byte());
        }
        match self.source.below(32) {
            0 => program.truncate(self.source.below(program.len() + 1)),
            1 => damage(&mut self.source, program),
            _ => {}
        }
    }

    /// A depth at which so many values can be taken, mostly; rarely one that only
    /// the largest stack has, or none.
    fn depth_for(&mut self, taken: usize) -> usize {
        match self.source.below(96) {
            0 => self.source.near(STACK_CELLS),
            1..=6 => self.source.below(4),
            7..=12 => taken.saturating_sub(1),
            _ => taken + self.source.below(3),
        }
    }

    /// A stack with the values on top, the first of them topmost, and a few
    /// cells to spare, or none.
    fn stack(&mut self, depth: usize, values: &[u16]) -> Vec<u16> {
        let cells = match depth > 16 {
            true => self.at_limit(STACK_CELLS),
            false => depth + self.source.below(4),
        };
        let mut stack = self.source.cells(cells);
        let top = cells.saturating_sub(depth);
        for (cell, &value) in stack[top..].iter_mut().zip(values) {
            *cell = value;
        }
        stack
    }
}

impl Setting {
    fn write(&self, line: Line) -> Line {
        line.bytes(&self.program)
            .bytes(&self.data)
            .cells(&self.stack)
            .size(self.address)
            .size(self.depth)
            .word(&self.status)
    }
}

/// Any status.
fn status(source: &mut Source) -> String {
    match source.below(8) {
        0 => "halted".to_string(),
        1 => format!("faulted:{}", source.between(1, 8)),
        2 => {
            let fault = source.byte();
            format!("faulted:{}", source.one_of(&[0, fault, 255]))
        }
        _ => "running".to_string(),
    }
}
