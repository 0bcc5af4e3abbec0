//! The verifier: whether a program may run.

use std::fmt;

use crate::{c, Error, UNMET};

/// Why a program may not run, and the instruction that shows it.
///
/// ```
/// use khalixoshi::{depths, Error};
///
/// // push 1, jump to 0: it comes back to address 0 with one value more
/// let refused = depths(&[0x81, 0x3C, 0x00], 1).unwrap_err();
/// assert_eq!((refused.error, refused.at), (Error::TwoDepths, Some(1)));
/// assert!(refused.to_string().starts_with("refused 10 at 0001: the address"));
///
/// // push 1 twice, and no halt
/// let refused = depths(&[0x81, 0x81], 2).unwrap_err();
/// assert_eq!(
///     refused.to_string(),
///     "refused 1 at 0001: the instruction leads to the program's end or past it"
/// );
/// ```
#[derive(Clone, Copy, Debug, PartialEq, Eq, Hash)]
pub struct Refused {
    /// The refusal.
    pub error: Error,
    /// The address of the instruction refused; none where no instruction was looked
    /// at, by 20, 22 and 23.
    pub at: Option<usize>,
}

impl Refused {
    /// A verdict's two numbers: a refusal of 0 is none.
    pub(crate) fn unless_none(refusal: usize, at: usize) -> Result<(), Refused> {
        Error::unless_none(refusal).map_err(|error| Refused {
            error,
            at: (1..=10).contains(&refusal).then_some(at),
        })
    }

    /// What it means, in words: those of the error, but for 1, where the address is
    /// that of the instruction which leads to the end. An empty program has none: it
    /// is 1 at 0 too.
    pub fn meaning(self) -> &'static str {
        match (self.error, self.at) {
            (Error::End, Some(0)) => {
                "the instruction leads to the program's end or past it, or the program is empty"
            }
            (Error::End, _) => "the instruction leads to the program's end or past it",
            (error, _) => error.meaning(),
        }
    }

    /// What to do about it, in words.
    pub fn advice(self) -> &'static str {
        match self.error {
            Error::End => "end every path with a halt, and jump only to an address in the program",
            error => error.advice(),
        }
    }

    /// Writes it without the words, as the verdicts of a pack have it.
    pub(crate) fn in_numbers(self, f: &mut fmt::Formatter<'_>) -> fmt::Result {
        write!(f, "refused {}", self.error.number())?;
        match self.at {
            Some(at) => write!(f, " at {at:04X}"),
            None => Ok(()),
        }
    }
}

impl fmt::Display for Refused {
    fn fmt(&self, f: &mut fmt::Formatter<'_>) -> fmt::Result {
        self.in_numbers(f)?;
        write!(f, ": {}", self.meaning())
    }
}

impl std::error::Error for Refused {}

/// Whether a program may run with so many stack cells: started fresh with as many or
/// more, it then faults only by 6 or 7, and its depth is always the one that the map
/// has for its address.
///
/// The map has a cell for each byte of the program. Accepted: the depth of each
/// address that a path meets, [`UNMET`] elsewhere. Refused by 1 to 10: every cell
/// [`UNMET`]. Refused by 20, 22 or 23: as it was.
///
/// ```
/// use khalixoshi::{verify, Error, UNMET};
///
/// let program = [0x85, 0x83, 0x15, 0x00];
/// let mut map = [0; 4];
/// assert_eq!(verify(&program, 2, &mut map), Ok(()));
/// assert_eq!(map, [0, 1, 2, 1]);
///
/// let refused = verify(&program, 1, &mut map).unwrap_err();
/// assert_eq!((refused.error, refused.at), (Error::Full, Some(1)));
/// assert_eq!(map, [UNMET; 4]);
/// ```
pub fn verify(program: &[u8], cells: usize, map: &mut [u16]) -> Result<(), Refused> {
    let verdict = c::verify(program, cells, map);
    Refused::unless_none(verdict.refusal, verdict.at)
}

/// The depth map of a program that may run with so many stack cells.
///
/// ```
/// use khalixoshi::{depths, UNMET};
///
/// // jump to 3, over a byte that no path meets
/// assert_eq!(depths(&[0x3C, 0x03, 0x7F, 0x00], 0)?, [0, UNMET, UNMET, 0]);
/// # Ok::<(), khalixoshi::Refused>(())
/// ```
pub fn depths(program: &[u8], cells: usize) -> Result<Vec<u16>, Refused> {
    let mut map = vec![UNMET; program.len()];
    verify(program, cells, &mut map)?;
    Ok(map)
}
