//! The cases on which the two implementations are compared: written down in a
//! compact binary form, one after the other, with this implementation's answers
//! as lines of text, one a case. The same call always makes the same cases.

pub mod admission;
mod assembler;
mod fields;
pub mod isa;
mod lent;
pub mod listing;
pub mod machine;
pub mod pack;
mod pieces;
mod programs;
pub mod reports;
pub mod verify;

use crate::instruction::decode;

/// Cases and their answers.
#[derive(Default)]
pub struct Vectors {
    /// The cases.
    pub stdin: Vec<u8>,
    /// The answers, one line each.
    pub stdout: String,
}

impl Vectors {
    /// Adds a case and its answer.
    fn add(&mut self, case: &[u8], answer: &str) {
        self.stdin.extend(case);
        self.stdout.push_str(answer);
        self.stdout.push('\n');
    }

    /// How many cases there are.
    pub fn cases(&self) -> usize {
        self.answers("")
    }

    /// In how many cases something is refused.
    pub fn refused(&self) -> usize {
        self.answers("refused ")
    }

    /// How many cases have an answer that begins with these words.
    pub fn answers(&self, words: &str) -> usize {
        let begins = |line: &&str| line.split(" ; ").any(|answer| answer.starts_with(words));
        self.stdout.lines().filter(begins).count()
    }
}

/// A repeatable source of varied numbers (a linear congruential generator, of
/// which the upper bits are used).
struct Varied(u64);

impl Varied {
    /// A number from 0 to `limit` - 1.
    fn below(&mut self, limit: usize) -> usize {
        self.0 = self
            .0
            .wrapping_mul(6_364_136_223_846_793_005)
            .wrapping_add(1_442_695_040_888_963_407);
        (self.0 >> 33) as usize % limit
    }

    fn byte(&mut self) -> u8 {
        self.below(256) as u8
    }

    fn bytes(&mut self, count: usize) -> Vec<u8> {
        (0..count).map(|_| self.byte()).collect()
    }

    fn one_of<T: Copy>(&mut self, choices: &[T]) -> T {
        choices[self.below(choices.len())]
    }
}

/// Numbers at the edges of one and of two bytes.
const EDGES: [u16; 5] = [0, 1, 255, 256, 65_535];

/// The instruction that a first byte begins, with these operand bytes as far as
/// it needs them; only the byte itself where it is illegal.
fn whole(first: u8, operands: [u8; 8]) -> Vec<u8> {
    let mut bytes = vec![first];
    bytes.extend(operands);
    let length = decode(&bytes, 0).map_or(1, |(_, length)| length);
    bytes.truncate(length);
    bytes
}

/// The good counts and flags of push-values.
fn counts_and_flags() -> impl Iterator<Item = (u8, u8)> {
    (1..=4).flat_map(|count| (0..1 << count).map(move |flags| (count, flags)))
}

/// The first byte of a push-values.
fn push_values(count: u8, flags: u8) -> u8 {
    0xC0 | flags << 2 | (count - 1)
}

/// The good first bytes of push-values.
fn good_pushes() -> impl Iterator<Item = u8> {
    counts_and_flags().map(|(count, flags)| push_values(count, flags))
}
