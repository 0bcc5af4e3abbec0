//! Cases of verify.

use crate::line::Line;
use crate::maker::Maker;

impl Maker<'_> {
    /// `verify PROGRAM CELLS MAP`.
    pub fn verify(&mut self) -> Line {
        let program = self.program(32);
        let cells = self.cells_to_verify(program.deepest);
        let length = match self.source.below(64) {
            0 => self.source.near(program.bytes.len()),
            1 => self.source.below(8),
            _ => program.bytes.len(),
        };
        let map = self.source.cells(length);
        Line::new("verify")
            .bytes(&program.bytes)
            .size(cells)
            .cells(&map)
    }

    /// The depth that a program reaches, or close to it; anything, rarely.
    fn cells_to_verify(&mut self, deepest: usize) -> usize {
        match self.source.below(32) {
            0 => self.source.number().into(),
            1 => self.at_limit(crate::maker::STACK_CELLS),
            2..=4 => self.source.near(deepest),
            5..=14 => deepest,
            _ => deepest + self.source.below(4),
        }
    }
}
