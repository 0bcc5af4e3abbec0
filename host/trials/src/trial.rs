//! A trial: cases asked of two implementations, and their answers compared.

use std::ops::Range;

use conform::{answer, Engine};

use crate::tally::Tally;
use crate::Cases;

/// A case that was answered in two ways.
pub struct Difference {
    /// The case's number.
    pub number: u64,
    /// The case.
    pub line: Vec<u8>,
    /// Both answers.
    pub answers: [String; 2],
}

/// Asks both engines the cases of these numbers, and counts the answers of the
/// first. Of each case is told its number, and the difference if there was one.
pub fn trial(
    cases: &Cases,
    numbers: Range<u64>,
    engines: [&dyn Engine; 2],
    mut told: impl FnMut(u64, Option<Difference>),
) -> Tally {
    let mut tally = Tally::default();
    for number in numbers {
        let line = cases.case(number);
        let answers = engines.map(|engine| answer(engine, &line));
        tally.add(&line, &answers[0]);
        let differs = answers[0] != answers[1];
        let difference = differs.then_some(Difference {
            number,
            line,
            answers,
        });
        told(number, difference);
    }
    tally
}

/// The most characters that are shown on each side of a place.
const SHOWN: usize = 120;

/// A difference as text: the beginning of the case, and of both answers what
/// stands around the place where they part.
pub fn described(difference: &Difference) -> String {
    let [first, second] = &difference.answers;
    let pairs = first.bytes().zip(second.bytes());
    let parts = pairs.take_while(|(first, second)| first == second).count();
    format!(
        "  case   {}\n  proved {}\n  second {}\n",
        around(&difference.line, 0),
        around(first.as_bytes(), parts),
        around(second.as_bytes(), parts)
    )
}

/// The text around a place, with how much is left out before and behind.
fn around(text: &[u8], place: usize) -> String {
    let start = match place > SHOWN {
        true => place - SHOWN / 2,
        false => 0,
    };
    let end = text.len().min(start + 2 * SHOWN);
    let shown = text[start.min(end)..end].escape_ascii();
    match (start, text.len() - end) {
        (0, 0) => shown.to_string(),
        (before, behind) => format!("({before} before) {shown} ({behind} more)"),
    }
}

#[cfg(test)]
mod tests {
    use super::*;

    #[test]
    fn short_ones_are_whole_and_long_ones_cut_where_they_part() {
        let long = |last: &str| format!("ok {}{last}{}", "0".repeat(1_000), "1".repeat(500));
        let text = described(&Difference {
            number: 7,
            line: b"run 00".to_vec(),
            answers: [long("ab"), long("cd")],
        });
        let lines: Vec<&str> = text.lines().collect();
        assert_eq!(lines[0], "  case   run 00");
        assert!(lines[1].starts_with("  proved (943 before) 000"));
        assert!(lines[1].contains("000ab111") && lines[2].contains("000cd111"));
        assert!(lines.iter().all(|line| line.len() < 300));
    }
}
