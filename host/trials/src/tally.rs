//! How many cases of each family there were, and how they were answered: so that
//! one sees that no family is all refusals.

use std::collections::BTreeMap;
use std::fmt::{self, Display};

use conform::BAD_CASE;

/// Counts of answers, by family and kind of answer.
#[derive(Default)]
pub struct Tally {
    families: BTreeMap<&'static str, BTreeMap<Kind, u64>>,
}

/// The families of the protocol, in its order.
pub const FAMILIES: [&str; 14] = [
    "decode",
    "encode",
    "shape",
    "step",
    "run",
    "verify",
    "listing",
    "read",
    "pack",
    "find",
    "lookup",
    "writepack",
    "report",
    "stream",
];

/// The row of lines that are no cases.
pub const NO_CASE: &str = "(no case)";
/// The row of lines that are only copied.
pub const COPIED: &str = "(copied)";

/// A kind of answer.
#[derive(Clone, Copy, Debug, PartialEq, Eq, PartialOrd, Ord)]
pub enum Kind {
    /// Accepted, found or done; for a run, those that are still running.
    Good(&'static str),
    /// A run that faulted by this number.
    Faulted(u32),
    /// Refused by this number.
    Refused(u32),
}

impl Tally {
    /// Counts a case by its answer.
    pub fn add(&mut self, line: &[u8], answer: &str) {
        let (family, kind) = classed(line, answer);
        *self
            .families
            .entry(family)
            .or_default()
            .entry(kind)
            .or_default() += 1;
    }

    /// How often a family gave a kind of answer.
    pub fn count(&self, family: &str, kind: Kind) -> u64 {
        let kinds = self.families.get(family);
        kinds
            .and_then(|kinds| kinds.get(&kind))
            .copied()
            .unwrap_or(0)
    }

    /// All kinds of answers that a family gave.
    pub fn kinds(&self, family: &str) -> Vec<Kind> {
        let kinds = self.families.get(family);
        kinds.map_or(Vec::new(), |kinds| kinds.keys().copied().collect())
    }
}

/// The family of a line by its first word, whether the rest is a case of it or not.
pub fn family(line: &[u8]) -> Option<&'static str> {
    let word = line.split(|&byte| byte == b' ').next()?;
    FAMILIES
        .into_iter()
        .find(|family| family.as_bytes() == word)
}

fn classed(line: &[u8], answer: &str) -> (&'static str, Kind) {
    if answer == BAD_CASE {
        return (NO_CASE, Kind::Good(BAD_CASE));
    }
    match family(line) {
        None => (COPIED, Kind::Good("as it stands")),
        Some("report") => ("report", report(answer)),
        Some("read") => ("read", read(answer)),
        Some("stream") => ("stream", stream(answer)),
        Some(family) => (family, plain(answer)),
    }
}

fn plain(answer: &str) -> Kind {
    let mut words = answer.split(' ');
    match words.next() {
        Some("refused") => Kind::Refused(number(words.next())),
        Some("accepted") => Kind::Good("accepted"),
        Some("found") => Kind::Good("found"),
        Some("row") => Kind::Good("row"),
        Some("illegal") => Kind::Good("illegal"),
        Some("open") => Kind::Good("open"),
        _ => done(words.nth(3)),
    }
}

/// What was done; of a run the status is the fifth word.
fn done(status: Option<&str>) -> Kind {
    let status = status.unwrap_or_default();
    match (status, status.strip_prefix("faulted:")) {
        ("running", _) => Kind::Good("running"),
        ("halted", _) => Kind::Good("halted"),
        (_, Some(fault)) => Kind::Faulted(number(Some(fault))),
        _ => Kind::Good("ok"),
    }
}

/// By the last of the answers.
fn read(answer: &str) -> Kind {
    match answer.rsplit(" ; ").next() {
        Some(last) if last.starts_with(" @") => Kind::Good("nothing"),
        last => plain(last.unwrap_or_default()),
    }
}

/// By the pack's own refusal, or whether all of its programs were accepted.
fn report(answer: &str) -> Kind {
    match answer.strip_prefix("pack refused ") {
        Some(refusal) => Kind::Refused(number(refusal.strip_suffix('|'))),
        None if answer == "-" => Kind::Good("nothing"),
        None if answer.contains(" refused ") => Kind::Good("some refused"),
        None => Kind::Good("all accepted"),
    }
}

/// By the last of the answers; of a good pack, whether all of its programs were accepted.
fn stream(answer: &str) -> Kind {
    let last = answer.rsplit(" ; ").next().unwrap_or_default();
    match last.strip_prefix("good ") {
        None => plain(last),
        Some("0") => Kind::Good("nothing"),
        Some(verdicts) if verdicts.contains(" refused ") => Kind::Good("some refused"),
        Some(_) => Kind::Good("all accepted"),
    }
}

fn number(word: Option<&str>) -> u32 {
    word.and_then(|word| word.parse().ok()).unwrap_or(u32::MAX)
}

/// A row for each family.
impl Display for Tally {
    fn fmt(&self, formatter: &mut fmt::Formatter) -> fmt::Result {
        writeln!(formatter, "{:<10} {:>10}  answers", "family", "cases")?;
        for family in FAMILIES.into_iter().chain([NO_CASE, COPIED]) {
            if let Some(kinds) = self.families.get(family) {
                let cases: u64 = kinds.values().sum();
                writeln!(formatter, "{family:<10} {cases:>10}  {}", row(kinds))?;
            }
        }
        Ok(())
    }
}

/// The kinds with their counts; faults that no step gives come from states that
/// were stopped before, and are one kind.
fn row(kinds: &BTreeMap<Kind, u64>) -> String {
    let mut parts = Vec::new();
    let mut stopped_before = 0;
    for (&kind, &count) in kinds {
        match kind {
            Kind::Good(word) => parts.push(format!("{word} {count}")),
            Kind::Faulted(fault @ 1..=8) => parts.push(format!("fault {fault}: {count}")),
            Kind::Faulted(_) => stopped_before += count,
            Kind::Refused(refusal) => parts.push(format!("refused {refusal}: {count}")),
        }
    }
    if stopped_before > 0 {
        parts.push(format!("stopped before {stopped_before}"));
    }
    parts.join(", ")
}

#[cfg(test)]
mod tests {
    use super::*;

    #[test]
    fn kinds_of_answers() {
        let kinds: [(&[u8], &str, &str, Kind); 21] = [
            (
                b"decode 00 0",
                "ok 1 0 0 0 0 0 0 0 0",
                "decode",
                Kind::Good("ok"),
            ),
            (b"decode 00 1", "refused 1", "decode", Kind::Refused(1)),
            (b"shape 59", "row 2 0 1", "shape", Kind::Good("row")),
            (b"shape 91", "illegal", "shape", Kind::Good("illegal")),
            (
                b"run a",
                "ok 4 3 1 halted - 0003",
                "run",
                Kind::Good("halted"),
            ),
            (b"run a", "ok 4 3 1 faulted:6 - -", "run", Kind::Faulted(6)),
            (
                b"run a",
                "refused 24 0 3 running - -",
                "run",
                Kind::Refused(24),
            ),
            (
                b"verify a",
                "accepted 0000",
                "verify",
                Kind::Good("accepted"),
            ),
            (
                b"verify a",
                "refused 23 - 0000",
                "verify",
                Kind::Refused(23),
            ),
            (b"read a 0", " @ 0", "read", Kind::Good("nothing")),
            (
                b"read a 2",
                "ok 1 0 0 0 0 0 0 0 0 ; refused 2 @ 1",
                "read",
                Kind::Refused(2),
            ),
            (b"lookup a 7", "found 2 10 4", "lookup", Kind::Good("found")),
            (b"lookup a 7", "refused 36", "lookup", Kind::Refused(36)),
            (b"report a", "pack refused 30|", "report", Kind::Refused(30)),
            (
                b"report a",
                "0001 accepted|0002 refused 1 at 0000|",
                "report",
                Kind::Good("some refused"),
            ),
            (b"stream a", "ok ; open", "stream", Kind::Good("open")),
            (b"stream a", "open ; ok", "stream", Kind::Good("ok")),
            (
                b"stream a",
                "ok ; refused 31 ; refused 37",
                "stream",
                Kind::Refused(37),
            ),
            (b"stream a", "ok ; good 0", "stream", Kind::Good("nothing")),
            (
                b"stream a",
                "ok ; good 2 1 accepted 9 refused 1 0",
                "stream",
                Kind::Good("some refused"),
            ),
            (b"run", "bad case", NO_CASE, Kind::Good(BAD_CASE)),
        ];
        for (line, answer, family, kind) in kinds {
            assert_eq!(classed(line, answer), (family, kind), "{answer}");
        }
    }
}
