//! A pack admitted in chunks (request No. 1). All that came is kept, and the close
//! answers from the whole pack, so that no cut can show.

use crate::numbers::AFTER_CLOSE;
use crate::verdicts::verdicts;
use crate::verifier::Verdict;

/// What a close answers: the verdict on each program, with its tag, or the refusal.
pub type Closed = Result<Vec<(u16, Verdict)>, u32>;

/// A pack that comes in chunks.
#[derive(Clone, Debug, Default)]
pub struct Admission {
    came: Vec<u8>,
    first_close: Option<Closed>,
}

impl Admission {
    /// Takes a chunk. Request No. 1: "in chunks of any length, zero too"; "37 a chunk or
    /// a second close after the close, which changes nothing." Nothing else is refused
    /// before the close, whatever came.
    pub fn chunk(&mut self, chunk: &[u8]) -> Result<(), u32> {
        if self.first_close.is_some() {
            return Err(AFTER_CLOSE);
        }
        self.came.extend(chunk);
        Ok(())
    }

    /// Ends the pack. Request No. 1: "At the close, each program's verdict and the pack's
    /// own answer equal those of the whole pack, wherever it was cut." "31 still comes
    /// first, and a refused pack has no verdicts."
    pub fn close(&mut self) -> Closed {
        if self.first_close.is_some() {
            return Err(AFTER_CLOSE);
        }
        self.first_close.insert(verdicts(&self.came)).clone()
    }

    /// The answer so far: none before the close, and after it that of the first close.
    pub fn answer(&self) -> Option<&Closed> {
        self.first_close.as_ref()
    }
}

#[cfg(test)]
mod tests;
