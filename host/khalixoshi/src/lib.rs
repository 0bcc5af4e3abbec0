//! The proved rule engine of a font sanitiser, for Rust: a safe face over
//! libkhalixoshi.a, whose functions are proved to do what their contracts say.
//!
//! A host that judges font tables needs [`tables::judge`] alone: a pack of rules, a
//! rule's tag and a table go in, and a verdict comes out, good only where the rule said
//! so. One that judges many tables by a pack checks it once, by [`pack::Checked`], and
//! judges by [`tables::judge_in`]. The rest is what these are made of.
//!
//! A rule is a small program. It is verified once, and then run over data that the
//! host lays out for it:
//!
//! ```
//! use khalixoshi::{depths, State, Status};
//!
//! // push 5, push 3, sub, halt
//! let program = [0x85, 0x83, 0x15, 0x00];
//! assert_eq!(depths(&program, 2)?, [0, 1, 2, 1]);
//!
//! let (mut data, mut cells) = ([], [0; 2]);
//! let ran = State::fresh().run(&program, &mut data, &mut cells, 10)?;
//! assert_eq!(ran.steps, 4);
//! assert_eq!(ran.state.status, Status::Halted);
//! assert_eq!(ran.state.stack(&cells), [65_534]);
//! # Ok::<(), Box<dyn std::error::Error>>(())
//! ```
//!
//! Rules come in packs. A pack is checked once, and its rules looked up by their tags:
//!
//! ```
//! use khalixoshi::pack;
//!
//! let rule = pack::Rule { tag: 7, cells: 2, body: &[0x85, 0x83, 0x15, 0x00] };
//! let bytes = pack::build(&[rule])?;
//! let pack = pack::Checked::new(&bytes)?;
//! assert_eq!(pack.rule(7)?, rule);
//! assert_eq!(khalixoshi::verdicts(&bytes), "0007 accepted\n");
//! # Ok::<(), khalixoshi::Error>(())
//! ```
//!
//! A pack that comes over a slow line is checked while it comes, and need not be held: its
//! chunks are fed to an [`Admission`], which is closed behind the last.
//!
//! Every memory is lent by the caller, and nothing is kept between calls: calls may run
//! at the same time, many over one pack too. Beside each function over a lent room
//! stands one that makes its room itself. An [`Admission`] alone lasts from call to call,
//! and has memory of its own.

#![deny(unsafe_code)]
#![warn(missing_docs)]

mod admission;
#[allow(unsafe_code)]
mod c;
mod error;
mod instruction;
mod listing;
pub mod pack;
mod report;
mod run;
pub mod tables;
mod verify;

pub use admission::{Admission, Answer, Ruling};
pub use error::{Error, Fault};
pub use instruction::{decode, encode, encoded, shape, Decoded, Instruction, Reader, Shape};
pub use listing::{list, listing};
pub use report::{report, verdicts};
pub use run::{Ran, State, Status};
pub use verify::{depths, verify, Refused};

/// The most bytes of a program.
pub const PROGRAM_MAX: usize = 16_384;
/// The most bytes of data.
pub const DATA_MAX: usize = 65_535;
/// The most stack cells.
pub const CELLS_MAX: usize = 1_024;
/// The most bytes of an instruction.
pub const INSTRUCTION_MAX: usize = 9;
/// The most bytes of a pack.
pub const PACK_MAX: usize = 24_576;
/// The most entries of a pack.
pub const ENTRIES_MAX: usize = 64;
/// The bytes of room that are enough for every listing: 17 for each byte of a program.
pub const LIST_MAX: usize = 278_528;
/// The bytes of room that are enough for every report: 24 for each of 64 lines.
pub const REPORT_MAX: usize = 1_536;
/// What a depth map holds for an address that no path meets.
pub const UNMET: u16 = 65_535;
