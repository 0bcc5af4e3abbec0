//! Font tables judged by the rules of a pack, by the convention of examples/README.md.
//! The pack is checked once, and the rule of each table looked up.
//!
//! usage: judge PACK TAG TABLE [GLYPHS METRICS LOCA_FORMAT OUTLINES] [-- TAG TABLE ..]..
//!
//! TABLE is a file with the table's bytes as they stand in the font; the numbers are
//! decimal, and those left out are 0. Behind each -- stands another table. Prints a
//! verdict for each, in turn. Exit status: 0 where all are good, 1 where one is refused
//! or has no verdict, 2 for bad usage or a file that cannot be read.

use std::ffi::OsString;
use std::io::{self, Write};
use std::process::ExitCode;
use std::str::FromStr;
use std::{env, fs};

use khalixoshi::pack::Checked;
use khalixoshi::tables::{judge_in, Facts, Verdict, Why};
use khalixoshi::Error;

const USAGE: &str =
    "usage: judge PACK TAG TABLE [GLYPHS METRICS LOCA_FORMAT OUTLINES] [-- TAG TABLE ..]..";

fn main() -> ExitCode {
    let words: Vec<OsString> = env::args_os().skip(1).collect();
    match judged(&words) {
        Ok(status) => ExitCode::from(status),
        Err(why) => {
            eprintln!("judge: {why}");
            ExitCode::from(2)
        }
    }
}

/// Judges the table of each group of words by the pack, and tells the verdict: the worst
/// of their exit statuses.
fn judged(words: &[OsString]) -> Result<u8, String> {
    let (pack, groups) = words.split_first().ok_or(USAGE)?;
    let pack = contents(pack)?;
    let rules = Checked::new(&pack);
    let mut worst = 0;
    for group in groups.split(|word| word == "--") {
        let verdict = judged_one(&rules, group)?;
        worst = worst.max(told(verdict));
    }
    Ok(worst)
}

/// The verdict on the table of a group of words; none by a pack that was refused.
fn judged_one(rules: &Result<Checked, Error>, words: &[OsString]) -> Result<Verdict, String> {
    let (tag, table, facts) = match words {
        [tag, table] => (tag, table, Facts::default()),
        [tag, table, facts @ ..] if facts.len() == 4 => (tag, table, known(facts)?),
        _ => return Err(USAGE.to_string()),
    };
    let (tag, table) = (number(tag)?, contents(table)?);
    Ok(match rules {
        Ok(rules) => judge_in(rules, tag, &table, &facts),
        Err(error) => Verdict::None(Why::Pack(*error)),
    })
}

/// Prints a verdict and gives its exit status: good counts only where it was told.
fn told(verdict: Verdict) -> u8 {
    let told = writeln!(io::stdout(), "{verdict}").is_ok();
    match verdict.is_good() {
        true if told => 0,
        true => 2,
        false => 1,
    }
}

fn known(words: &[OsString]) -> Result<Facts, String> {
    Ok(Facts {
        glyphs: number(&words[0])?,
        metrics: number(&words[1])?,
        loca_format: number(&words[2])?,
        outlines: number(&words[3])?,
    })
}

fn contents(file: &OsString) -> Result<Vec<u8>, String> {
    fs::read(file).map_err(|_| format!("cannot read {}", file.to_string_lossy()))
}

fn number<N: FromStr>(word: &OsString) -> Result<N, String> {
    let digits = |word: &&str| word.bytes().all(|byte| byte.is_ascii_digit());
    let number = word
        .to_str()
        .filter(digits)
        .and_then(|word| word.parse().ok());
    number.ok_or_else(|| format!("no number that fits: {}", word.to_string_lossy()))
}
