//! Font tables judged by rules: the convention between host and rule of
//! examples/README.md, for a host in Rust.
//!
//! A rule's data is 64 bytes that the host writes and behind them bytes of the table.
//! It halts with 1 for a good table, with 0 where it asks for other bytes, and with
//! the number of a reason otherwise. [`judge`] does all of it, for any bytes as a pack;
//! [`judge_in`] for a pack that was checked, once for all tables that are judged by it:
//!
//! ```
//! use khalixoshi::pack::{build, Checked, Rule};
//! use khalixoshi::tables::{judge, judge_in, Facts};
//!
//! // whether a table begins with 7: 1, good, or 2, the reason why not
//! let body = [
//!     0x33, 0x40, // 0000 ld-u8--imm8 $40: the table's first byte
//!     0x25, 0x07, // 0002 eq--imm8 $07
//!     0x3D, 0x08, // 0004 jump-imm8-if $08
//!     0x82, 0x00, // 0006 push-u8 $02, halt
//!     0x81, 0x00, // 0008 push-u8 $01, halt
//! ];
//! let bytes = build(&[Rule { tag: 1, cells: 1, body: &body }])?;
//! let facts = Facts::default();
//! let verdict = judge(&bytes, 1, &[7, 8, 9], &facts);
//! assert!(verdict.is_good());
//!
//! let pack = Checked::new(&bytes)?;
//! let says = |tag, table: &[u8]| judge_in(&pack, tag, table, &facts).to_string();
//! assert_eq!(says(1, &[7, 8, 9]), "good");
//! assert_eq!(says(1, &[9, 8, 7]), "refused 2");
//! assert_eq!(says(1, &[]), "no verdict: fault 6 at 0000");
//! assert_eq!(says(2, &[7]), "no verdict: no rule has the tag 2");
//! # Ok::<(), khalixoshi::Error>(())
//! ```
//!
//! A host that watches a rule step by step does with [`Lending`] what `judge` does.

use std::fmt;

use crate::pack::Checked;
use crate::{depths, Error, Fault, Ran, Refused, State, Status};

/// What the data begins with, so that no rule judges a table that is lent alone.
pub const MARK: [u8; 4] = *b"KHX1";
/// The bytes that the host writes before those of the table.
pub const PREAMBLE: usize = 64;
/// The most bytes of a table that are lent at a time.
pub const PIECE: usize = 65_468;
/// What judging one table may cost, all runs together: each byte lent counts one, and
/// each step.
pub const BUDGET: u32 = 20_000_000;

const LENGTH: usize = 4;
const START: usize = 8;
const LENT: usize = 12;
const GLYPHS: usize = 14;
const METRICS: usize = 16;
const LOCA_FORMAT: usize = 18;
const OUTLINES: usize = 20;
const NEXT_LENT: usize = 26;
const NEXT_START: usize = 28;
const OWN: usize = 32;

/// The instructions that a rule begins with which tests the mark, as preamble.txt has
/// them.
const TEST: [u8; 15] = [
    0x34, 0x00, // 0000 ld-u16-imm8 mark
    0x42, 0x4B, 0x48, // 0002 ne--imm16 $484B
    0x34, 0x02, // 0005 ld-u16-imm8 mark+2
    0x42, 0x58, 0x31, // 0007 ne--imm16 $3158
    0x12, // 000A or
    0x3E, 0x0F, // 000B jump-imm8-if-not 000F
    0xBF, 0x00, // 000D push-u8 63, halt
];

/// Whether a program begins with the test of the mark, as every rule does whose source
/// includes examples/rules/preamble.txt. It is then a rule that keeps the convention,
/// and says nothing of data that is not laid out.
///
/// ```
/// use khalixoshi::tables::tests_mark;
///
/// let begins = b"\x34\x00\x42KH\x34\x02\x42X1\x12\x3E\x0F\xBF\x00";
/// assert!(tests_mark(begins));
/// assert!(!tests_mark(&begins[1..]));
/// ```
pub fn tests_mark(program: &[u8]) -> bool {
    program.starts_with(&TEST)
}

/// What a host knows of the font from its other tables, all of them judged good
/// before. A fact is 0 where the font has no such table.
#[derive(Clone, Copy, Debug, Default, PartialEq, Eq, Hash)]
pub struct Facts {
    /// numGlyphs of maxp.
    pub glyphs: u16,
    /// numberOfHMetrics of hhea.
    pub metrics: u16,
    /// indexToLocFormat of head.
    pub loca_format: u16,
    /// The length of glyf.
    pub outlines: u32,
}

/// What a rule says of a table. Only [`Verdict::Good`] lets it pass.
#[derive(Clone, Copy, Debug, PartialEq, Eq, Hash)]
#[must_use = "a table is good only where its verdict is"]
pub enum Verdict {
    /// The table is good.
    Good,
    /// It is refused for a reason, by the rule's own numbers.
    Refused(u16),
    /// The rule came to no verdict, which refuses the table too.
    None(Why),
}

/// Why there is no verdict.
#[derive(Clone, Copy, Debug, PartialEq, Eq, Hash)]
#[non_exhaustive]
pub enum Why {
    /// The pack is refused.
    Pack(Error),
    /// No rule of the pack has this tag.
    NoRule(u16),
    /// The verifier does not accept the rule for its cells.
    Rule(Refused),
    /// The run is refused: not after a rule was accepted, and never by [`judge`].
    Run(Error),
    /// The rule faulted, by the instruction at this address.
    Fault(Fault, usize),
    /// The budget is used.
    Budget,
    /// The rule halted with so many values on the stack, not one.
    Depth(usize),
    /// The rule asks for bytes that begin behind the table's end.
    Outside {
        /// Where in the table they would begin.
        start: u32,
        /// The table's length.
        length: u32,
    },
    /// The table is longer than the 64 bytes can tell.
    Length,
    /// The data does not begin with [`MARK`]: of data that was not laid out here.
    Unmarked,
}

/// The verdict of the rule with a tag on a table: the pack is checked, the rule looked up
/// and verified, the table lent, the rule run, lent what it asks for, and run again until
/// it says.
///
/// The pack may be any bytes, and the table too. Where many tables are judged by one
/// pack, [`judge_in`] spares all checks but the first.
pub fn judge(pack: &[u8], tag: u16, table: &[u8], facts: &Facts) -> Verdict {
    match Checked::new(pack) {
        Ok(pack) => judge_in(&pack, tag, table, facts),
        Err(error) => Verdict::None(Why::Pack(error)),
    }
}

/// The same by a pack that was checked.
///
/// ```
/// use khalixoshi::pack::{build, Checked, Rule};
/// use khalixoshi::tables::{judge_in, Facts, Verdict};
///
/// // push 1, halt: every table is good; push 2, halt: none is
/// let rules = [(1, &[0x81, 0x00]), (2, &[0x82, 0x00])];
/// let bytes = build(&rules.map(|(tag, body)| Rule { tag, cells: 1, body }))?;
/// let pack = Checked::new(&bytes)?;
/// let judged = |tag| judge_in(&pack, tag, &[], &Facts::default());
/// assert_eq!([judged(1), judged(2)], [Verdict::Good, Verdict::Refused(2)]);
/// # Ok::<(), khalixoshi::Error>(())
/// ```
pub fn judge_in(pack: &Checked, tag: u16, table: &[u8], facts: &Facts) -> Verdict {
    match pack.rule(tag) {
        Ok(rule) => judge_by(rule.body, rule.cells.into(), table, facts),
        Err(Error::PackAbsent) => Verdict::None(Why::NoRule(tag)),
        Err(error) => Verdict::None(Why::Pack(error)),
    }
}

/// The verdict of a program on a table, run with so many stack cells.
///
/// ```
/// use khalixoshi::tables::{judge_by, Facts, Verdict};
///
/// // push 1, halt; and without the halt
/// let judged = |program: &[u8]| judge_by(program, 1, &[], &Facts::default());
/// assert_eq!(judged(&[0x81, 0x00]), Verdict::Good);
/// let refused = "no verdict: the rule is refused by 1 at 0000";
/// assert_eq!(judged(&[0x81]).to_string(), refused);
/// ```
pub fn judge_by(program: &[u8], cells: usize, table: &[u8], facts: &Facts) -> Verdict {
    verified_and_run(program, cells, table, facts).unwrap_or_else(Verdict::None)
}

fn verified_and_run(
    program: &[u8],
    cells: usize,
    table: &[u8],
    facts: &Facts,
) -> Result<Verdict, Why> {
    depths(program, cells).map_err(Why::Rule)?;
    let mut lending = Lending::new(table, facts, BUDGET)?;
    let mut cells = vec![0; cells];
    loop {
        cells.fill(0);
        let left = lending.left();
        let ran = State::fresh().run(program, lending.data(), &mut cells, left);
        if let Next::Verdict(verdict) = lending.after(&ran.map_err(Why::Run)?, &cells) {
            return Ok(verdict);
        }
    }
}

/// A table while a rule judges it: the data lent now, and what is left of the budget.
///
/// ```
/// use khalixoshi::tables::{Facts, Lending, Next, Verdict, BUDGET};
/// use khalixoshi::State;
///
/// let rule = [0x81, 0x00]; // push 1, halt: every table is good
/// let mut lending = Lending::new(&[7, 8, 9], &Facts::default(), BUDGET)?;
/// assert_eq!(lending.data()[64..], [7, 8, 9]);
/// let verdict = loop {
///     let (left, mut cells) = (lending.left(), [0; 1]);
///     let ran = State::fresh().run(&rule, lending.data(), &mut cells, left)?;
///     match lending.after(&ran, &cells) {
///         Next::Verdict(verdict) => break verdict,
///         Next::Again => {}
///     }
/// };
/// assert_eq!(verdict, Verdict::Good);
/// assert_eq!(BUDGET - lending.left(), 3 + 2); // bytes and steps
/// # Ok::<(), Box<dyn std::error::Error>>(())
/// ```
#[derive(Clone, Debug)]
pub struct Lending<'a> {
    table: &'a [u8],
    length: u32,
    facts: Facts,
    data: Vec<u8>,
    left: u32,
}

/// What comes after a run.
#[derive(Clone, Copy, Debug, PartialEq, Eq)]
#[must_use = "a rule that asked for other bytes has not judged the table"]
pub enum Next {
    /// The rule asked for other bytes, and they are lent: it runs again, from the fresh
    /// state and with cells of 0.
    Again,
    /// The verdict.
    Verdict(Verdict),
}

impl<'a> Lending<'a> {
    /// A table lent for the first run, from its beginning.
    pub fn new(table: &'a [u8], facts: &Facts, budget: u32) -> Result<Lending<'a>, Why> {
        let mut lending = Lending {
            table,
            length: u32::try_from(table.len()).map_err(|_| Why::Length)?,
            facts: *facts,
            data: Vec::new(),
            left: budget,
        };
        lending.lend(0, PIECE, [0; 32])?;
        Ok(lending)
    }

    /// The data for the run that comes next.
    pub fn data(&mut self) -> &mut [u8] {
        &mut self.data
    }

    /// The steps that this run may take.
    pub fn left(&self) -> u32 {
        self.left
    }

    /// What a run over all of the data came to, with the cells that it left.
    pub fn after(&mut self, ran: &Ran, cells: &[u16]) -> Next {
        self.left = self.left.saturating_sub(ran.steps);
        match self.said(&ran.state, cells) {
            Ok(Some(verdict)) => Next::Verdict(verdict),
            Ok(None) => Next::Again,
            Err(why) => Next::Verdict(Verdict::None(why)),
        }
    }

    /// The verdict; none where the rule asked for other bytes, which are lent.
    fn said(&mut self, state: &State, cells: &[u16]) -> Result<Option<Verdict>, Why> {
        match state.status {
            Status::Running => return Err(Why::Budget),
            Status::Faulted(fault) => return Err(Why::Fault(fault, state.address)),
            Status::Halted => {}
        }
        match (state.depth, state.stack(cells)) {
            (1, [1]) => Ok(Some(Verdict::Good)),
            (1, [0]) => self.lend_what_is_asked().map(|()| None),
            (1, [reason]) => Ok(Some(Verdict::Refused(*reason))),
            (depth, _) => Err(Why::Depth(depth)),
        }
    }

    fn lend_what_is_asked(&mut self) -> Result<(), Why> {
        let left = Preamble::read(&self.data);
        self.lend(left.next_start, left.next_lent.into(), left.own)
    }

    /// Lays out the data anew, with the bytes of the table from `start` on.
    fn lend(&mut self, start: u32, wanted: usize, own: [u8; 32]) -> Result<(), Why> {
        let length = self.length;
        let rest = self.table.get(start as usize..);
        let rest = rest.ok_or(Why::Outside { start, length })?;
        let lent = &rest[..rest.len().min(wanted).min(PIECE)];
        let cost = lent.len() as u32;
        self.left = self.left.checked_sub(cost).ok_or(Why::Budget)?;
        let preamble = Preamble {
            length,
            start,
            lent: lent.len() as u16,
            facts: self.facts,
            next_lent: 0,
            next_start: 0,
            own,
        };
        self.data.clear();
        self.data.extend(preamble.bytes());
        self.data.extend(lent);
        Ok(())
    }
}

/// What the 64 bytes before those of the table say, beside the mark.
#[derive(Clone, Copy, Debug, Default, PartialEq, Eq, Hash)]
pub struct Preamble {
    /// The table's length in the font.
    pub length: u32,
    /// Where in the table the bytes lent begin.
    pub start: u32,
    /// How many bytes of the table are lent.
    pub lent: u16,
    /// What the font's other tables say.
    pub facts: Facts,
    /// How many bytes the rule asks for.
    pub next_lent: u16,
    /// Where in the table they begin.
    pub next_start: u32,
    /// The rule's own bytes, kept from run to run.
    pub own: [u8; 32],
}

impl Preamble {
    /// The 64 bytes, the mark first.
    ///
    /// ```
    /// use khalixoshi::tables::Preamble;
    ///
    /// let bytes = Preamble { length: 54, lent: 54, ..Preamble::default() }.bytes();
    /// assert_eq!(bytes[..14], *b"KHX1\x36\0\0\0\0\0\0\0\x36\0");
    /// assert_eq!(bytes[14..], [0; 50]);
    /// ```
    pub fn bytes(&self) -> [u8; PREAMBLE] {
        let mut bytes = [0; PREAMBLE];
        let mut put =
            |at: usize, number: &[u8]| bytes[at..at + number.len()].copy_from_slice(number);
        put(0, &MARK);
        put(LENGTH, &self.length.to_le_bytes());
        put(START, &self.start.to_le_bytes());
        put(LENT, &self.lent.to_le_bytes());
        put(GLYPHS, &self.facts.glyphs.to_le_bytes());
        put(METRICS, &self.facts.metrics.to_le_bytes());
        put(LOCA_FORMAT, &self.facts.loca_format.to_le_bytes());
        put(OUTLINES, &self.facts.outlines.to_le_bytes());
        put(NEXT_LENT, &self.next_lent.to_le_bytes());
        put(NEXT_START, &self.next_start.to_le_bytes());
        put(OWN, &self.own);
        bytes
    }

    /// What the first 64 bytes of some data say, whatever the mark; what is not there
    /// counts as 0.
    ///
    /// ```
    /// use khalixoshi::tables::Preamble;
    ///
    /// let preamble = Preamble { length: 54, own: [9; 32], ..Preamble::default() };
    /// assert_eq!(Preamble::read(&preamble.bytes()), preamble);
    /// assert_eq!(Preamble::read(b"KHX1\x36").length, 54);
    /// ```
    pub fn read(data: &[u8]) -> Preamble {
        fn at<const N: usize>(data: &[u8], at: usize) -> [u8; N] {
            let mut bytes = [0; N];
            let there = data.get(at..).unwrap_or_default();
            for (byte, from) in bytes.iter_mut().zip(there) {
                *byte = *from;
            }
            bytes
        }
        let short = |place| u16::from_le_bytes(at(data, place));
        let long = |place| u32::from_le_bytes(at(data, place));
        Preamble {
            length: long(LENGTH),
            start: long(START),
            lent: short(LENT),
            facts: Facts {
                glyphs: short(GLYPHS),
                metrics: short(METRICS),
                loca_format: short(LOCA_FORMAT),
                outlines: long(OUTLINES),
            },
            next_lent: short(NEXT_LENT),
            next_start: long(NEXT_START),
            own: at(data, OWN),
        }
    }
}

impl Verdict {
    /// Whether the table is good: refused, and without a verdict, it is not.
    pub fn is_good(self) -> bool {
        self == Verdict::Good
    }
}

impl fmt::Display for Verdict {
    fn fmt(&self, f: &mut fmt::Formatter<'_>) -> fmt::Result {
        match self {
            Verdict::Good => f.write_str("good"),
            Verdict::Refused(reason) => write!(f, "refused {reason}"),
            Verdict::None(why) => write!(f, "no verdict: {why}"),
        }
    }
}

impl fmt::Display for Why {
    fn fmt(&self, f: &mut fmt::Formatter<'_>) -> fmt::Result {
        match self {
            Why::Pack(error) => write!(f, "the pack is refused by {}", error.number()),
            Why::NoRule(tag) => write!(f, "no rule has the tag {tag}"),
            Why::Rule(Refused { error, at }) => {
                write!(f, "the rule is refused by {}", error.number())?;
                at.map_or(Ok(()), |at| write!(f, " at {at:04X}"))
            }
            Why::Run(error) => write!(f, "the run is refused by {}", error.number()),
            Why::Fault(fault, at) => write!(f, "fault {} at {at:04X}", fault.0),
            Why::Budget => f.write_str("the budget is used"),
            Why::Depth(depth) => {
                write!(f, "it halted with {depth} values on the stack, not one")
            }
            Why::Outside { start, length } => {
                write!(f, "it asks for bytes from {start} on, ")?;
                write!(f, "and the table has {length}")
            }
            Why::Length => f.write_str("the table is over 4,294,967,295 bytes"),
            Why::Unmarked => f.write_str("the data does not begin with the mark"),
        }
    }
}

impl std::error::Error for Why {}
