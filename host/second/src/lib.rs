//! A second implementation of the machine that 01 describes, written from the
//! published rules and our readings of them. It shares no code with the first one,
//! so that the answers of the two can be compared.
//!
//! - [`opcodes`]: document 004's table, as data.
//! - [`numbers`]: the numbers and sizes of 01.
//! - [`instruction`]: the decoder and the encoder of single instructions.
//! - [`shape`]: the table of first bytes.
//! - [`machine`]: the step and the run.
//! - [`verifier`]: the walk and its depth map.
//! - [`pack`]: rule packs, read and written.
//! - [`listing`]: the listing.
//! - [`reader`]: one instruction after the other.
//! - [`verdicts`]: the verdicts on the programs of a pack.
//! - [`report`]: what the program prints for a pack.
//! - [`admission`]: a pack that comes in chunks.
//! - [`protocol`]: answers as lines of text.
//! - [`cases`]: the cases on which the two implementations are compared.

#![forbid(unsafe_code)]
#![warn(missing_docs)]

pub mod admission;
pub mod cases;
pub mod instruction;
pub mod listing;
pub mod machine;
pub mod numbers;
pub mod opcodes;
pub mod pack;
pub mod protocol;
pub mod reader;
pub mod report;
pub mod shape;
pub mod verdicts;
pub mod verifier;
