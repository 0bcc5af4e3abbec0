//! Cases of the conformance protocol, made from a seed: valid, at the limits,
//! damaged and random ones of every family. Both implementations are asked each
//! of them (the program `differ`), and their answers are compared.
//!
//! A case is made from the seed and its number alone, so any one of them can be
//! made again.

#![forbid(unsafe_code)]
#![warn(missing_docs)]

mod damage;
mod forms;
mod isa;
mod line;
mod listing;
mod lookups;
mod machine;
mod maker;
mod malformed;
mod operands;
mod packs;
mod planted;
mod programs;
mod source;
mod streams;
mod tally;
mod trial;
mod verify;
mod writer;

use forms::Forms;
use line::Line;
use maker::Maker;
use source::Source;

pub use planted::Planted;
pub use tally::{family, Kind, Tally, COPIED, FAMILIES, NO_CASE};
pub use trial::{described, trial, Difference};

/// One case in so many is large.
const LARGE: usize = 250;

/// One line in so many is malformed.
const MALFORMED: usize = 100;

/// The cases of a seed.
pub struct Cases {
    seed: u64,
    forms: Forms,
}

impl Cases {
    /// The cases of this seed.
    pub fn new(seed: u64) -> Cases {
        Cases {
            seed,
            forms: Forms::new(),
        }
    }

    /// The case of this number: a line of the protocol without its line feed.
    pub fn case(&self, number: u64) -> Vec<u8> {
        let mut source = Source::new(self.seed, number);
        let large = source.one_in(LARGE);
        let mut maker = Maker {
            source,
            forms: &self.forms,
            large,
        };
        let line = maker.line().text();
        match maker.source.one_in(MALFORMED) {
            true => malformed::malformed(&mut maker.source, line),
            false => line,
        }
    }
}

impl Maker<'_> {
    /// A case of some family; a large one is of any family alike.
    fn line(&mut self) -> Line {
        let drawn = match self.large {
            true => self
                .source
                .one_of(&[0, 3, 6, 11, 17, 22, 24, 26, 28, 29, 31, 32, 36]),
            false => self.source.below(40),
        };
        match drawn {
            0 | 1 => self.decode(),
            2 => self.shape(),
            3..=5 => self.encode(),
            6..=10 => self.step(),
            11..=16 => self.run(),
            17..=21 => self.verify(),
            22 | 23 => self.listing(),
            24 | 25 => self.read(),
            26 | 27 => self.pack(),
            28 => self.find(),
            29 | 30 => self.writepack(),
            31 => self.report(),
            32..=35 => self.lookup(),
            _ => self.stream(),
        }
    }
}
