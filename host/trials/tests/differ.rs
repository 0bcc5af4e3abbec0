//! Both implementations answer alike, and a planted difference is noticed; a family of
//! cases can be left out of what is printed.

mod streams;

use std::env;
use std::process::{Command, Output};

use conform::{answer, Proved, Second};
use streams::{came, events};
use trials::{family, trial, Cases, Difference, Planted};

const SEED: u64 = 1;
const COUNT: u64 = 10_000;

fn differences(second: &dyn conform::Engine) -> Vec<Difference> {
    let mut found = Vec::new();
    let cases = Cases::new(SEED);
    trial(&cases, 0..COUNT, [&Proved, second], |_, difference| {
        found.extend(difference);
    });
    found
}

#[test]
fn no_difference() {
    assert_eq!(differences(&Second).len(), 0);
}

/// In these families alone.
fn noticed(planted: Planted, families: &[&str]) -> Vec<Difference> {
    let found = differences(&planted);
    assert!(!found.is_empty());
    for difference in &found {
        let line = &difference.line;
        let family = family(line).unwrap_or_default();
        assert!(families.contains(&family), "{}", line.escape_ascii());
    }
    found
}

/// Where the proved library faults by 6 and the planted error does not.
#[test]
fn a_planted_sum_is_noticed() {
    for difference in noticed(Planted::Sum, &["run", "step"]) {
        assert!(difference.answers[0].contains(" faulted:6 "));
    }
}

/// Where both did the copy, and of a step only the data differ.
#[test]
fn a_planted_copy_is_noticed() {
    let found = noticed(Planted::Copy, &["run", "step"]);
    let steps: Vec<&Difference> = found
        .iter()
        .filter(|it| it.line.starts_with(b"step "))
        .collect();
    assert!(!steps.is_empty());
    for Difference { answers, .. } in steps {
        assert_eq!(but_data(&answers[0]), but_data(&answers[1]));
    }
}

/// In the one row, by its two numbers.
#[test]
fn a_planted_row_is_noticed() {
    for difference in noticed(Planted::Shape, &["shape"]) {
        assert_eq!(difference.line, b"shape 59");
        assert_eq!(difference.answers, ["row 2 0 1", "row 2 1 0"]);
    }
}

/// Where a found entry is not come to.
#[test]
fn a_planted_lookup_is_noticed() {
    for difference in noticed(Planted::Lookup, &["lookup"]) {
        let [proved, planted] = &difference.answers;
        assert!(proved.starts_with("found ") && planted == "refused 36");
    }
}

/// Of the proved library alone: in every pack that is well formed a tag is looked up as it
/// is found.
#[test]
fn lookups_in_good_packs_are_finds() {
    let cases = Cases::new(SEED);
    let mut asked = 0;
    for line in (0..10 * COUNT).map(|number| cases.case(number)) {
        let fields = match line.strip_prefix(b"lookup ") {
            Some(fields) => fields,
            None => continue,
        };
        let found = answer(&Proved, &[&b"find "[..], fields].concat());
        if found.starts_with("found ") || found == "refused 36" {
            assert_eq!(answer(&Proved, &line), found);
            asked += 1;
        }
    }
    assert!(asked >= 4_000, "{asked}");
}

/// Where bytes behind bad contents are counted.
#[test]
fn a_planted_stream_is_noticed() {
    for difference in noticed(Planted::Stream, &["stream"]) {
        let [proved, planted] = &difference.answers;
        assert!(proved.contains("refused 31") && !planted.contains("refused 31"));
    }
}

/// Of the proved library alone: a close answers as the report of the whole pack, wherever
/// it was cut.
#[test]
fn streams_are_reports() {
    let cases = Cases::new(SEED);
    let (mut good, mut refused) = (0, 0);
    for line in (0..10 * COUNT).map(|number| cases.case(number)) {
        let events = events(&line).unwrap_or_default();
        let answer_of_close = match close_of(&line, &events) {
            Some(answer) => answer,
            None => continue,
        };
        let whole = [&b"report "[..], &field(came(&events))].concat();
        assert_eq!(answer_of_close, as_closed(&answer(&Proved, &whole)));
        match answer_of_close.starts_with("good ") {
            true => good += 1,
            false => refused += 1,
        }
    }
    assert!(good >= 4_000 && refused >= 2_000, "{good} {refused}");
}

/// What the first close of a stream is answered.
fn close_of(line: &[u8], events: &[&[u8]]) -> Option<String> {
    let place = events.iter().position(|event| *event == b"close")?;
    let answers = answer(&Proved, line);
    answers.split(" ; ").nth(place).map(String::from)
}

/// Bytes as a field of a line.
fn field(hex: Vec<u8>) -> Vec<u8> {
    match hex.is_empty() {
        true => b"-".to_vec(),
        false => hex,
    }
}

/// A report as a close answers: `0007 refused 1 at 000A|` is ` 7 refused 1 10`.
fn as_closed(report: &str) -> String {
    if let Some(refusal) = report.strip_prefix("pack refused ") {
        return format!("refused {}", refusal.trim_end_matches('|'));
    }
    let lines: Vec<&str> = report
        .split_terminator('|')
        .filter(|it| *it != "-")
        .collect();
    let number = |hex: &str| u16::from_str_radix(hex, 16).unwrap();
    let verdict = |line: &&str| {
        let (tag, said) = line.split_once(' ').unwrap();
        let said = match said.split_once(" at ") {
            Some((refused, at)) => format!("{refused} {}", number(at)),
            None => said.to_string(),
        };
        format!(" {} {said}", number(tag))
    };
    let verdicts: String = lines.iter().map(verdict).collect();
    format!("good {}{verdicts}", lines.len())
}

/// The program, under the emulator by which cargo runs programs of another processor.
fn differ(words: &[&str]) -> Output {
    let program = env!("CARGO_BIN_EXE_differ");
    let mut command = match env::var("CARGO_TARGET_X86_64_UNKNOWN_LINUX_GNU_RUNNER") {
        Ok(emulator) => {
            let mut command = Command::new(emulator);
            command.arg(program);
            command
        }
        Err(_) => Command::new(program),
    };
    command.args(words).output().unwrap()
}

/// The lines of its family are not there, and all others are.
#[test]
fn a_family_is_left_out() {
    let all = differ(&["--print", "1", "1000"]).stdout;
    for left_out in ["lookup", "run"] {
        let printed = differ(&["--print", "--without", left_out, "1", "1000"]);
        assert_eq!(printed.status.code(), Some(0));
        let word = format!("{left_out} ");
        let kept: Vec<&[u8]> = all
            .split_inclusive(|&byte| byte == b'\n')
            .filter(|line| !line.starts_with(word.as_bytes()))
            .collect();
        assert!(kept.len() < 950, "{}", kept.len());
        assert!(printed.stdout == kept.concat());
    }
}

/// Of no such family, of none, and where nothing is printed.
#[test]
fn what_cannot_be_left_out_is_bad_usage() {
    let few = ["1", "9"];
    for options in [
        &["--print", "--without", "lookups"][..],
        &["--print", "--without"],
        &["--without", "lookup"],
        &["--plant", "lookup", "--without", "lookup"],
    ] {
        let output = differ(&[options, &few].concat());
        assert_eq!(output.status.code(), Some(2), "{options:?}");
        assert!(output.stdout.is_empty());
    }
}

/// The answer of a step without the data.
fn but_data(answer: &str) -> Vec<&str> {
    let mut words: Vec<&str> = answer.split(' ').collect();
    words.remove(5);
    words
}
