//! What makes one case: its source, the forms, and whether it is to be large.

use crate::forms::Forms;
use crate::source::Source;

/// The sizes of 01, which the large cases come up to and go past.
pub const PROGRAM_BYTES: usize = 16_384;
pub const DATA_BYTES: usize = 65_535;
pub const STACK_CELLS: usize = 1_024;
pub const PACK_BYTES: usize = 24_576;
pub const PACK_ENTRIES: usize = 64;

/// What makes one case.
pub struct Maker<'a> {
    /// Where its numbers come from.
    pub source: Source,
    /// The forms of instructions.
    pub forms: &'a Forms,
    /// Whether the case is one of the few with the largest sizes.
    pub large: bool,
}

impl Maker<'_> {
    /// A length at a limit, one short of it or one past it.
    pub fn at_limit(&mut self, limit: usize) -> usize {
        self.source.one_of(&[limit, limit, limit - 1, limit + 1])
    }

    /// How long a program is to be: mostly under 40 bytes.
    pub fn program_length(&mut self) -> usize {
        if self.large {
            return match self.source.below(3) {
                0 => self.source.between(256, PROGRAM_BYTES),
                _ => self.at_limit(PROGRAM_BYTES),
            };
        }
        match self.source.below(64) {
            0 => self.source.between(90, 400),
            1..=4 => self.source.between(40, 90),
            5..=8 => self.source.below(3),
            _ => self.source.between(3, 32),
        }
    }

    /// How long a data memory is to be: mostly under 64 bytes, sometimes where an
    /// address no longer fits a byte.
    pub fn data_length(&mut self) -> usize {
        if self.large && self.source.one_in(2) {
            return match self.source.below(3) {
                0 => self.source.between(50_000, DATA_BYTES),
                _ => self.at_limit(DATA_BYTES),
            };
        }
        match self.source.below(64) {
            0 => self.source.near(256),
            1..=8 => 0,
            9..=20 => self.source.between(32, 63),
            _ => self.source.between(1, 24),
        }
    }

    /// How many cells a stack is to have: mostly under 16.
    pub fn stack_cells(&mut self) -> usize {
        if self.large && self.source.one_in(3) || self.source.one_in(200) {
            return self.at_limit(STACK_CELLS);
        }
        self.source.between(1, 12)
    }

    /// How many bytes of room to lend for something so long: just enough, one
    /// too few, more, or fewer.
    pub fn room_for(&mut self, length: usize) -> Vec<u8> {
        let length = match self.source.below(8) {
            0 => length.saturating_sub(1),
            1 => self.source.below(length + 1),
            2 | 3 => length,
            _ => length + self.source.below(6),
        };
        self.source.bytes(length)
    }
}
