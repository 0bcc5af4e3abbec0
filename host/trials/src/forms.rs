//! The instructions that take their operands from the stack or from one number
//! in the code (00 to 5A), as the second implementation's table has them. What is
//! read from the table only steers the cases: it decides no answer.

use second::instruction::Instruction;
use second::machine::pushed;
use second::opcodes::{Opcode, Operation};

/// One row of the table, as the generator needs it.
#[derive(Clone, Copy)]
pub struct Form {
    /// The first byte.
    pub code: u8,
    /// How many bytes the number in the code has.
    pub width: usize,
    /// The largest number in the code.
    pub largest: u16,
    /// The operands in the order in which the operation names them.
    pub operands: &'static str,
    /// What the operation does with them.
    pub operation: Operation,
    /// How many values are taken.
    pub taken: usize,
    /// How many values are pushed.
    pub pushed: usize,
}

/// All forms, those that only lead to the next instruction, and of these the
/// copies, which are few and have many ends to come near to.
pub struct Forms {
    all: Vec<Form>,
    straight: Vec<Form>,
    copies: Vec<Form>,
}

/// The last code with a form.
pub const LAST: u8 = 0x5A;

impl Forms {
    /// Reads the table.
    pub fn new() -> Forms {
        let rows = (0..=LAST).filter_map(Opcode::of);
        let all: Vec<Form> = rows.map(form).collect();
        let those = |are: fn(&Form) -> bool| all.iter().copied().filter(are).collect();
        Forms {
            straight: those(Form::is_straight),
            copies: those(Form::is_copy),
            all,
        }
    }

    /// The form of a code, where it has one.
    pub fn of(&self, code: u8) -> Option<&Form> {
        self.all.get(usize::from(code))
    }

    /// All of them, in the order of their codes.
    pub fn all(&self) -> &[Form] {
        &self.all
    }

    /// Those that only lead to the next instruction.
    pub fn straight(&self) -> &[Form] {
        &self.straight
    }

    /// The copies.
    pub fn copies(&self) -> &[Form] {
        &self.copies
    }
}

fn form(row: &'static Opcode) -> Form {
    let largest = [65_535, 255, 15].into_iter();
    Form {
        code: row.code(),
        width: row.length() - 1,
        largest: largest
            .clone()
            .find(|&most| row.fits('x', most))
            .unwrap_or(0),
        operands: row.operands,
        operation: row.operation,
        taken: row.taken(),
        pushed: pushed(row.operation, &Instruction::default()),
    }
}

impl Form {
    fn is_copy(&self) -> bool {
        matches!(self.operation, Operation::Copy(_))
    }

    fn is_straight(&self) -> bool {
        use Operation::{Copy, Discard, Load, One, Store, Swap, Two};
        matches!(
            self.operation,
            Copy(_) | Discard | Load(_) | One(_) | Store(_) | Swap | Two(_)
        )
    }

    /// The bytes of the instruction, behind those that are there.
    pub fn write(&self, number: u16, bytes: &mut Vec<u8>) {
        bytes.push(self.code);
        bytes.extend(&number.to_le_bytes()[..self.width]);
    }
}

#[cfg(test)]
mod tests {
    use super::*;

    #[test]
    fn rows_by_hand() {
        let forms = Forms::new();
        for (code, width, largest, taken, pushed) in [
            (0x00, 0, 0, 0, 0),
            (0x02, 0, 0, 3, 1),
            (0x04, 0, 0, 2, 2),
            (0x31, 1, 15, 1, 1),
            (0x3A, 1, 255, 2, 1),
            (0x55, 2, 65_535, 0, 1),
            (0x5A, 2, 65_535, 0, 0),
        ] {
            let form = forms.of(code).unwrap();
            assert_eq!(form.code, code);
            let seen = (form.width, form.largest, form.taken, form.pushed);
            assert_eq!(seen, (width, largest, taken, pushed), "{code:02X}");
        }
        assert!(forms.of(LAST + 1).is_none());
    }

    /// 93 rows less push-u8 and push-values; of those the straight ones are all
    /// but halt, ten jumps, two calls with x, one without, and six functions.
    #[test]
    fn how_many() {
        let forms = Forms::new();
        assert_eq!(forms.all().len(), 91);
        let bent = 1 + 3 + 3 + 3 + 3 + 6;
        assert_eq!(forms.straight().len(), 91 - bent);
        assert_eq!(forms.copies().len(), 2);
    }
}
