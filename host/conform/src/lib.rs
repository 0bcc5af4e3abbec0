//! The conformance protocol (docs/CONFORMANCE.md): one line in, one line out, in
//! order, of any implementation of the machine.
//!
//! - [`Engine`]: the fourteen questions, over plain data.
//! - [`Proved`] and [`Second`]: the proved library and the second implementation.
//! - [`answer`]: the answer to one line.
//! - [`serve`]: the answers to all lines of an input.
//!
//! ```
//! use conform::{answer, Proved, Second};
//!
//! let case = b"run 85831500 - 00000000 0 0 running 10";
//! assert_eq!(answer(&Proved, case), "ok 4 3 1 halted - 0003fffe");
//! assert_eq!(answer(&Second, case), answer(&Proved, case));
//! assert_eq!(answer(&Proved, b"run 85831500"), "bad case");
//! ```

#![forbid(unsafe_code)]
#![warn(missing_docs)]

mod answers;
mod cases;
mod engine;
mod engines;
mod fields;
mod input;

pub use cases::answer;
pub use engine::{
    Decoded, Engine, Entry, Event, Instruction, Number, Ran, Readings, Reply, Ruling, Shape, State,
    Status, Verdict,
};
pub use engines::{Proved, Second};
pub use input::serve;

/// The most characters of a line that can be a case.
pub const LINE_MAX: usize = 400_000;

/// What a line is answered that is no case.
pub const BAD_CASE: &str = "bad case";
