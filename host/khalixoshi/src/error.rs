//! The numbers that come back, and what they mean in words.

use std::fmt;

macro_rules! numbers {
    ($($name:ident = $number:literal, $meaning:literal, $advice:literal;)*) => {
        /// What a call is refused by. It prints its number and its meaning.
        ///
        /// ```
        /// use khalixoshi::{decode, Error};
        ///
        /// let error = decode(&[0x41, 0x01], 0).unwrap_err();
        /// assert_eq!(error, Error::Cut);
        /// assert_eq!(error.number(), 3);
        /// assert_eq!(error.to_string(), "3: the operands are cut by the program's end");
        /// ```
        #[derive(Clone, Copy, Debug, PartialEq, Eq, Hash)]
        #[non_exhaustive]
        pub enum Error {
            $(#[doc = concat!($number, ": ", $meaning, ".\n\nWhat to do: ", $advice, ".")] $name,)*
            /// A number that this crate does not know, of a later library.
            Other(usize),
        }

        impl Error {
            /// The refusal with this number.
            pub fn from_number(number: usize) -> Error {
                match number {
                    $($number => Error::$name,)*
                    _ => Error::Other(number),
                }
            }

            /// Its number.
            pub fn number(self) -> usize {
                match self {
                    $(Error::$name => $number,)*
                    Error::Other(number) => number,
                }
            }

            /// What it means, in words.
            pub fn meaning(self) -> &'static str {
                match self {
                    $(Error::$name => $meaning,)*
                    Error::Other(_) => "a number that is not known here",
                }
            }

            /// What to do about it, in words.
            pub fn advice(self) -> &'static str {
                match self {
                    $(Error::$name => $advice,)*
                    Error::Other(_) => "look it up in the pages of the library that is linked",
                }
            }
        }
    };
}

numbers! {
    End = 1, "the address is at or past the program's end", "stop reading there; a rule that runs off its end lacks a halt";
    Illegal = 2, "illegal first byte, flags or shift byte", "the program is not what it claims to be, or the address is inside an operand";
    Cut = 3, "the operands are cut by the program's end", "the program is truncated";
    Few = 4, "fewer values than are taken", "the rule takes more than it pushed";
    Full = 5, "depth less taken plus pushed exceeds the cells", "lend more cells, up to 1,024";
    DataRange = 6, "a data range: p + w, as a whole number, is over the data's length", "the table is shorter than the rule expects, or hostile";
    ProgramRange = 7, "the program range of pcopy", "the rule copies from past its own end";
    Function = 8, "no such function: system functions other than 0, all extension functions", "call only system function 0, the exit";
    Unverifiable = 9, "a call, or a jump or function taken from the stack (05 to 0A, 3B, 55)", "write the target into the code; repeat what a call would do";
    TwoDepths = 10, "the address that the instruction leads to is met at two depths", "let every path to an address leave the same number of values";
    ProgramSize = 20, "the program is over 16,384 bytes", "split the rule";
    DataSize = 21, "the data is over 65,535 bytes", "lend a part of the table";
    CellsSize = 22, "the stack is over 1,024 cells", "lend at most 1,024";
    MapSize = 23, "the depth map is not as long as the program; for a report, it has fewer than 16,384 cells", "lend exactly one cell a byte; 16,384 for a report";
    Deep = 24, "the state is deeper than its stack", "hand in the cells that the state came with";
    Room = 25, "the output is longer than the room lent", "lend a longer room: nine bytes hold any instruction, 278,528 any listing, 24,576 any pack, 1,536 any report";
    Unwritable = 26, "illegal code, a number too large for its field, a count not 1 to 4, or something not 0 that the form lacks", "correct the value";
    PackContents = 30, "contents cut, or more than 64 entries; in writing also lists of unlike length", "the pack is truncated, or is none";
    PackSize = 31, "the pack is over 24,576 bytes", "split it";
    PackTags = 32, "a tag not above the one before", "sort the entries, one for each tag";
    PackOffset = 33, "an entry's offset is not where the bodies so far end", "write the pack again from its parts";
    PackEnd = 34, "the bodies do not end at the pack's end; in a lookup the entry's body ends past it; in writing the lengths do not sum to the bodies", "the pack is truncated or has bytes too many; check it before you look up in it";
    PackEntry = 35, "an entry of over 1,024 cells or 16,384 bytes", "shorten the rule";
    PackAbsent = 36, "no entry with the tag is found", "the pack has no rule for this kind of table";
    AdmissionClosed = 37, "a chunk or a second close after the admission's close", "go by the first close's answer; begin another admission for another pack";
    AdmissionMemory = 90, "a memory lent to an admission is shorter than stated", "lend 8 numbers, 514 bytes for the contents, 16,384 bytes for a body, 16,384 cells for its map, 192 cells for the verdicts";
    AdmissionDamaged = 91, "the numbers are none that an admission has", "begin the admission before its first chunk, and write nothing into its memory";
    AdmissionVerdict = 92, "the admission has no verdict of that kind, final or provisional, at that index", "ask for those below the count that an answer tells, provisional ones before the close and final ones after it";
}

impl Error {
    /// An answer's `refusal`: 0 is none.
    #[inline]
    pub(crate) fn unless_none(refusal: usize) -> Result<(), Error> {
        match refusal {
            0 => Ok(()),
            number => Err(Error::from_number(number)),
        }
    }
}

impl fmt::Display for Error {
    fn fmt(&self, f: &mut fmt::Formatter<'_>) -> fmt::Result {
        write!(f, "{}: {}", self.number(), self.meaning())
    }
}

impl std::error::Error for Error {}

/// The number of the fault that stopped a machine. A run gives 1 to 8; a state that
/// is handed in may hold any number, which it keeps.
///
/// ```
/// use khalixoshi::{Fault, State, Status};
///
/// // ld-u8 at 9, of one byte of data
/// let ran = State::fresh().run(&[0x33, 0x09], &mut [0], &mut [0], 1)?;
/// assert_eq!(ran.state.status, Status::Faulted(Fault(6)));
/// assert_eq!(Fault(7).to_string(), "7: the program range of pcopy");
/// # Ok::<(), khalixoshi::Error>(())
/// ```
#[derive(Clone, Copy, Debug, PartialEq, Eq, Hash)]
pub struct Fault(
    /// Its number.
    pub usize,
);

impl Fault {
    /// What it means, in words.
    pub fn meaning(self) -> &'static str {
        match self.0 {
            1..=8 => Error::from_number(self.0).meaning(),
            _ => "a number that no run gives",
        }
    }
}

impl fmt::Display for Fault {
    fn fmt(&self, f: &mut fmt::Formatter<'_>) -> fmt::Result {
        write!(f, "{}: {}", self.0, self.meaning())
    }
}

#[cfg(test)]
mod tests {
    use super::*;
    use crate::depths;

    const GUIDE: &str = include_str!("../../../docs/GUIDE.md");
    const HEADER: &str = include_str!("../../../include/khalixoshi.h");

    fn known() -> Vec<Error> {
        let errors = (1..100).map(Error::from_number);
        errors
            .filter(|error| !matches!(error, Error::Other(_)))
            .collect()
    }

    #[test]
    fn numbers_go_back_and_forth() {
        assert_eq!(known().len(), 28);
        for number in 0..100 {
            assert_eq!(Error::from_number(number).number(), number);
        }
    }

    /// The guide has a row for each number, with the same words; and one more for 1,
    /// where the verifier has words of its own.
    #[test]
    fn words_of_the_guide() {
        let (_, table) = GUIDE.split_once("## Numbers that come back").unwrap();
        let rows = table.lines().filter_map(|line| {
            let columns: Vec<&str> = line.split(" | ").collect();
            let number = columns[0].trim_start_matches("| ").parse().ok()?;
            Some((number, columns[2], columns[3].trim_end_matches(" |")))
        });
        let told: Vec<(usize, &str, &str)> = rows.collect();
        let mut ours: Vec<(usize, &str, &str)> = known()
            .iter()
            .map(|error| (error.number(), error.meaning(), error.advice()))
            .collect();
        let empty = depths(&[], 0).unwrap_err();
        ours.insert(1, (1, empty.meaning(), empty.advice()));
        assert_eq!(told, ours);
    }

    /// The header names the same refusals: KHX_DATA_RANGE is DataRange.
    #[test]
    fn names_of_the_header() {
        let (_, list) = HEADER.split_once("KHX_NONE = 0,").unwrap();
        let (list, _) = list.split_once('}').unwrap();
        let names: Vec<(usize, String)> = list
            .lines()
            .filter_map(|line| line.split_once("/*"))
            .map(|(line, _)| {
                let (name, number) = line.trim().trim_end_matches(',').split_once(" = ").unwrap();
                (number.parse().unwrap(), camel(name))
            })
            .collect();
        let ours: Vec<(usize, String)> = known()
            .iter()
            .map(|error| (error.number(), format!("{error:?}")))
            .collect();
        assert_eq!(names, ours);
    }

    fn camel(name: &str) -> String {
        let word = |word: &str| word[..1].to_string() + &word[1..].to_lowercase();
        name.split('_').skip(1).map(word).collect()
    }

    #[test]
    fn sizes_of_the_header() {
        let size = |name: &str| -> usize {
            let (_, rest) = HEADER.split_once(&format!("#define {name} ")).unwrap();
            rest.split_once('u').unwrap().0.parse().unwrap()
        };
        assert_eq!(size("KHX_PROGRAM_MAX"), crate::PROGRAM_MAX);
        assert_eq!(size("KHX_DATA_MAX"), crate::DATA_MAX);
        assert_eq!(size("KHX_CELLS_MAX"), crate::CELLS_MAX);
        assert_eq!(size("KHX_INSTRUCTION_MAX"), crate::INSTRUCTION_MAX);
        assert_eq!(size("KHX_PACK_MAX"), crate::PACK_MAX);
        assert_eq!(size("KHX_ENTRIES_MAX"), crate::ENTRIES_MAX);
        assert_eq!(size("KHX_CONTENTS_MAX"), crate::admission::CONTENTS_MAX);
        assert_eq!(size("KHX_ADMISSION_NUMBERS"), crate::admission::NUMBERS);
        assert_eq!(size("KHX_VERDICT_CELLS"), crate::admission::VERDICT_CELLS);
        assert_eq!(size("KHX_LIST_MAX"), crate::LIST_MAX);
        assert_eq!(size("KHX_REPORT_MAX"), crate::REPORT_MAX);
        assert_eq!(size("KHX_UNMET"), crate::UNMET.into());
    }

    #[test]
    fn a_fault_may_be_any_number() {
        assert_eq!(Fault(5).meaning(), Error::Full.meaning());
        assert_eq!(Fault(20).to_string(), "20: a number that no run gives");
        assert_eq!(Fault(0).meaning(), Fault(usize::MAX).meaning());
    }

    #[test]
    fn an_error_is_an_error() {
        let error: Box<dyn std::error::Error> = Error::Other(77).into();
        assert_eq!(error.to_string(), "77: a number that is not known here");
    }
}
