//! Operands for an instruction, chosen so that its accesses, copies and jumps
//! come near to the ends of what is lent, and its sums near to 65,536.

use second::opcodes::{Memory, Operation};

use crate::forms::Form;
use crate::source::Source;

/// How long the memories are.
#[derive(Clone, Copy)]
pub struct Lengths {
    /// The program's, or what it will be about.
    pub program: usize,
    /// The data's.
    pub data: usize,
}

/// The operands of an instruction.
#[derive(Default)]
pub struct Operands {
    /// The number in the code.
    pub number: u16,
    /// The values to be taken: a, b, c.
    pub taken: [u16; 3],
}

/// Operands for a form.
pub fn operands(source: &mut Source, form: &Form, lengths: Lengths) -> Operands {
    let letters = form.operands.as_bytes();
    let mut values = [source.number(), source.number(), source.number()];
    match form.operation {
        Operation::Load(width) => sum(
            source,
            form,
            letters.len(),
            width,
            lengths.data,
            &mut values,
        ),
        Operation::Store(width) => sum(
            source,
            form,
            letters.len() - 1,
            width,
            lengths.data,
            &mut values,
        ),
        Operation::Copy(memory) => values = copy(source, memory, lengths),
        Operation::Jump | Operation::JumpIf | Operation::JumpIfNot | Operation::Call => {
            values[0] = target(source, lengths.program);
            values[1] = source.below(2) as u16;
        }
        Operation::SystemCall | Operation::ExtensionCall if source.one_in(2) => values[0] = 0,
        Operation::Two(_) if source.one_in(4) => values[1] = source.near(values[0].into()) as u16,
        _ => {}
    }
    named(form, letters, values)
}

/// The values under the names that the form gives them.
fn named(form: &Form, letters: &[u8], values: [u16; 3]) -> Operands {
    let mut operands = Operands::default();
    for (&letter, value) in letters.iter().zip(values) {
        match letter {
            b'x' => operands.number = value.min(form.largest),
            letter => operands.taken[usize::from(letter - b'a')] = value,
        }
    }
    operands
}

/// Lets the first one or two values add up to a place near the end of the data,
/// or near 65,536.
fn sum(
    source: &mut Source,
    form: &Form,
    terms: usize,
    width: usize,
    data: usize,
    values: &mut [u16; 3],
) {
    let place = place(source, data, width);
    let most = |term: usize| match form.operands.as_bytes()[term] {
        b'x' => usize::from(form.largest),
        _ => 65_535,
    };
    if terms == 1 {
        values[0] = place.min(65_535) as u16;
        return;
    }
    let first = place.saturating_sub(most(1)).min(most(0));
    let last = place.min(most(0));
    let value = source.between(first, last.max(first));
    values[0] = value as u16;
    values[1] = (place - value).min(most(1)) as u16;
}

/// An address for an access of so many bytes, seven in eight of them not past
/// the end by more than a few bytes.
fn place(source: &mut Source, length: usize, width: usize) -> usize {
    match source.below(8) {
        0 => 65_536 + source.below(length + 2),
        1 => source.near(65_536),
        2 | 3 => source.near((length + 1).saturating_sub(width)),
        _ => source.below(length + 1),
    }
}

/// Where to, where from and how many.
fn copy(source: &mut Source, memory: Memory, lengths: Lengths) -> [u16; 3] {
    let from = match memory {
        Memory::Data => lengths.data,
        Memory::Program => lengths.program,
    };
    let count = match source.below(8) {
        0 => 0,
        1 => source.number().into(),
        2 => source.near(lengths.data.min(from)),
        _ => source.below(lengths.data.min(from) + 1),
    };
    let count = count.min(65_535);
    let to = end(source, lengths.data, count);
    let from = match source.below(8) {
        0 | 1 => source.near(to),
        2 => source.near(to + count),
        3 => source.near(to.saturating_sub(count)),
        _ => end(source, from, count),
    };
    [to, from, count].map(|value| value.min(65_535) as u16)
}

/// Where so many bytes begin that end at or before the end, or a little past it.
fn end(source: &mut Source, length: usize, count: usize) -> usize {
    let last = length.saturating_sub(count);
    match source.below(8) {
        0 => source.number().into(),
        1 | 2 => source.near(last),
        _ => source.below(last + 1),
    }
}

/// An address in a program, or just past it.
pub fn target(source: &mut Source, program: usize) -> u16 {
    match source.below(16) {
        0 => source.number(),
        1 => source.near(program) as u16,
        _ => source.below(program + 1) as u16,
    }
}

#[cfg(test)]
mod tests {
    use super::*;
    use crate::forms::Forms;

    /// How often the sum of two operands of ld-u16-offs is a place.
    fn sums(code: u8, data: usize, is: impl Fn(usize) -> bool) -> usize {
        let forms = Forms::new();
        let mut source = Source::new(3, code.into());
        let lengths = Lengths { program: 20, data };
        let mut found = 0;
        for _ in 0..1_000 {
            let given = operands(&mut source, forms.of(code).unwrap(), lengths);
            let other = match forms.of(code).unwrap().operands {
                "ab" => given.taken[1],
                _ => given.number,
            };
            let sum = usize::from(given.taken[0]) + usize::from(other);
            found += usize::from(is(sum));
        }
        found
    }

    #[test]
    fn sums_at_the_end_and_past_65_536() {
        for code in [0x20, 0x36, 0x50] {
            assert!(sums(code, 30, |sum| sum == 28) > 20, "{code:02X}");
            assert!(sums(code, 30, |sum| sum == 29) > 20, "{code:02X}");
            assert!(sums(code, 30, |sum| sum > 65_535) > 20, "{code:02X}");
            assert!(sums(code, 30, |sum| sum < 28) > 200, "{code:02X}");
        }
    }

    #[test]
    fn copies_up_to_the_end() {
        let lengths = Lengths {
            program: 20,
            data: 30,
        };
        let mut source = Source::new(1, 1);
        let (mut good, mut last) = (0, 0);
        for _ in 0..1_000 {
            let [to, from, count] = copy(&mut source, Memory::Program, lengths).map(usize::from);
            let ends = (to + count, from + count);
            good += usize::from(ends.0 <= 30 && ends.1 <= 20);
            last += usize::from(ends.0 == 30 || ends.1 == 20);
        }
        assert!(good > 200 && last > 100);
    }

    #[test]
    fn copies_that_overlap_both_ways() {
        let lengths = Lengths {
            program: 20,
            data: 30,
        };
        let mut source = Source::new(2, 2);
        let mut shared = [[0; 3]; 2];
        for _ in 0..2_000 {
            let [to, from, count] = copy(&mut source, Memory::Data, lengths).map(usize::from);
            let apart = to.abs_diff(from);
            let good = to.max(from) + count <= 30 && count > 2;
            for (i, apart_there) in [1, count.saturating_sub(1), count].into_iter().enumerate() {
                let here = good && apart == apart_there;
                shared[usize::from(to > from)][i] += usize::from(here);
            }
        }
        let least = shared.into_iter().flatten().min();
        assert!(least > Some(5), "{shared:?}");
    }
}
