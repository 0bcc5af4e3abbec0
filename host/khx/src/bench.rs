//! `khx bench`: the proved library against plain careful C, in one process.

mod admissions;
mod case;
mod cases;
mod clock;
mod findings;
mod processor;
mod programs;
mod random;
mod tags;

use std::io::{self, ErrorKind, Write};
use std::time::Duration;

use crate::failure::Failure;
use crate::progress::Progress;
use case::Case;
use findings::Finding;

const HELP: &str = "\
usage: khx bench [--seconds N] [CASE..]

Times the proved library against plain careful C, by gcc -O2, gcc -O3 and, where it was
installed when khx was built, clang -O3: the fastest of them is the yardstick. That C
makes the same checks, but none where it finds a tag: by a scan, in a pack that was
checked once. Where code lies in memory moves its time, so each side is linked and timed
at four places, 16 bytes apart, and the means are compared; the face for Rust alone has
one place. Says whether the targets are met; short, copy, pack-check, the finds, read,
list and the admissions byte by byte have none. Reader and listing are timed alone, since
that C has neither; a pack admitted in chunks is timed against our own report on the whole
pack. A CASE is one of those below or the beginning of some, up to a dash: verify, copy,
tags-64, admit. Without a CASE, all of them.

  --seconds N   how long to time, all cases together (default 10)

cases:
";

/// What holds for all figures.
const CONDITIONS: &str = "\
Before timing, all sides gave the same answers and left the same memories at all places.
Each function that is timed is linked four times, 0, 16, 32 and 48 bytes past a multiple
of 64. The sides take turns at all their places in one process, in alternating order,
each timed part from the same data, cells and map, laid out anew outside it; the time at
a place is the least of all rounds, and a side's time is the mean of its four places.
The C build with the least mean is the yardstick; beside it stand C's verifier with a
cursor and its run that copies by memmove. A ratio is C's mean by ours: over 1, ours is
faster. On x86-64 the library fixes the place of its run, so that every program has it
there: as shipped, our time at that place, and by it C's at its fastest place, by its
fastest build. A pack is asked for its tags 65,536 times a call, in passes over all of
them: by the cases of tags each in another order, so that the processor does not learn
where a scan will end, by those of rising each in the pack's own, which it learns. C's
scan trusts a pack that was checked once, and checks nothing; our find checks it for each
tag. The face for Rust has one copy, timed four times. An admission is its start, all its
chunks and its close; the yardstick is our report on the whole pack, in one call.
";

/// The seconds, and the cases that are asked for.
struct Wanted {
    seconds: f64,
    cases: Vec<Case>,
}

/// Gives the exit status: 0, 1 where the sides give different answers or do not lie at
/// their places, 2 for bad usage. A target that is missed is told, and is no failure.
pub fn main(args: &[String]) -> i32 {
    let text = if args.iter().any(|word| word == "--help" || word == "-h") {
        Ok(help())
    } else {
        wanted(args).and_then(bench)
    };
    let printed = text.and_then(|text| Ok(io::stdout().write_all(text.as_bytes())?));
    match printed {
        Ok(()) => 0,
        Err(Failure::Output(error)) if error.kind() == ErrorKind::BrokenPipe => 0,
        Err(failure) => {
            // Where this cannot be written either, the status tells.
            let told = failure.to_string().replace('\n', " ");
            let _ = writeln!(io::stderr(), "khx: bench: {told}");
            failure.status().into()
        }
    }
}

fn help() -> String {
    let lines = cases::all()
        .into_iter()
        .map(|case| format!("  {:18}{}\n", case.name, case.about));
    HELP.to_string() + &lines.collect::<String>()
}

fn wanted(args: &[String]) -> Result<Wanted, Failure> {
    let mut seconds = 10.0;
    let mut names = Vec::new();
    let mut words = args.iter();
    while let Some(word) = words.next() {
        if word == "--seconds" {
            seconds = seconds_in(words.next())?;
        } else if word.starts_with('-') {
            return Err(wrong(format!("there is no option {word}")));
        } else {
            names.push(word.as_str());
        }
    }
    let mut cases = cases::all();
    let known = |name: &str| cases.iter().any(|case| case.is_called(name));
    if let Some(name) = names.iter().find(|name| !known(name)) {
        return Err(wrong(format!("there is no case {name}")));
    }
    cases.retain(|case| names.is_empty() || names.iter().any(|name| case.is_called(name)));
    Ok(Wanted { seconds, cases })
}

fn seconds_in(word: Option<&String>) -> Result<f64, Failure> {
    let number = word.and_then(|word| word.parse::<f64>().ok());
    number
        .filter(|number| (0.0..=3600.0).contains(number))
        .ok_or_else(|| wrong("--seconds needs a number from 0 to 3600".to_string()))
}

fn wrong(message: String) -> Failure {
    Failure::usage(message + ": see khx bench --help")
}

/// Times the cases and gives the whole report.
fn bench(mut wanted: Wanted) -> Result<String, Failure> {
    peer::check_places().map_err(Failure::Refused)?;
    for case in &mut wanted.cases {
        case.agree().map_err(Failure::Refused)?;
    }
    let findings = time(wanted);
    let mut parts = vec![
        machine() + CONDITIONS,
        findings::table(&findings),
        findings::by_build(&findings),
        findings::targets(&findings),
    ];
    parts.retain(|part| !part.is_empty());
    Ok(parts.join("\n"))
}

fn time(wanted: Wanted) -> Vec<Finding> {
    let count = wanted.cases.len();
    let share = Duration::from_secs_f64(wanted.seconds / count as f64);
    let mut progress = Progress::new();
    let mut findings = Vec::new();
    for (i, mut case) in wanted.cases.into_iter().enumerate() {
        let name = case.name;
        let each_round = || progress.show(|| format!("timing {name}, {} of {count}", i + 1));
        let timed = clock::time(&mut case, share, each_round);
        findings.push(Finding::of(&case, &timed));
    }
    findings
}

/// The processor and the C compilers.
fn machine() -> String {
    let remark = processor::remark().map_or(String::new(), |remark| remark + "\n");
    let builds: String = peer::BUILDS
        .iter()
        .map(|build| format!("C by {}: {}\n", build.name, build.version))
        .collect();
    format!(
        "libkhalixoshi.a against plain careful C: the same checks, but none in its scan for a tag\n\
         processor: {}\n{remark}{builds}",
        processor::name()
    )
}

#[cfg(test)]
mod tests {
    use super::*;

    fn words(line: &str) -> Vec<String> {
        line.split_whitespace().map(String::from).collect()
    }

    #[test]
    fn all_sides_agree_on_every_case() {
        for mut case in cases::all() {
            case.agree().unwrap();
        }
    }

    #[test]
    fn every_copy_lies_at_its_place() {
        assert_eq!(peer::check_places(), Ok(()));
    }

    #[test]
    fn cases_and_seconds() {
        let all = wanted(&[]).unwrap_or_else(|failure| panic!("{failure}"));
        assert_eq!((all.seconds, all.cases.len()), (10.0, cases::all().len()));
        let two = wanted(&words("pack-check --seconds 0.5 counting"));
        let two = two.unwrap_or_else(|failure| panic!("{failure}"));
        assert_eq!(two.seconds, 0.5);
        let names: Vec<&str> = two.cases.iter().map(|case| case.name).collect();
        assert_eq!(names, ["counting", "pack-check"]);
    }

    #[test]
    fn cases_by_the_beginning_of_their_names() {
        let names = |line| -> Vec<&str> {
            let wanted = wanted(&words(line)).unwrap_or_else(|failure| panic!("{failure}"));
            wanted.cases.iter().map(|case| case.name).collect()
        };
        assert_eq!(names("copy"), ["copy-up", "copy-down", "copy-apart"]);
        assert_eq!(names("copy-up pack"), ["copy-up", "pack-check"]);
        assert_eq!(
            names("tags-4"),
            ["tags-4-lookup", "tags-4-rust", "tags-4-find"]
        );
        assert!(wanted(&words("cop")).is_err());
    }

    #[test]
    fn bad_usage() {
        for line in [
            "--seconds",
            "--seconds x",
            "--seconds -1",
            "--seconds inf",
            "--fast",
            "nothing",
        ] {
            assert!(
                matches!(wanted(&words(line)), Err(Failure::Usage(_))),
                "{line}"
            );
        }
    }

    /// C has no listing, and no target is set for one.
    #[test]
    fn a_part_without_a_line_is_left_out() {
        let report = wanted(&words("--seconds 0 list")).and_then(bench).unwrap();
        assert!(report.contains("\nlist ") && !report.contains("ratio to C by"));
        assert!(!report.contains("\n\n\n") && !report.ends_with("\n\n"));
    }

    #[test]
    fn a_short_run_reports_every_case() {
        let wanted = wanted(&words("--seconds 0 counting pack-check"));
        let report = wanted.and_then(bench).unwrap();
        for part in ["processor: ", "counting ", "pack-check ", "run at least"] {
            assert!(report.contains(part), "{part} is not in {report}");
        }
    }
}
