//! khx pack: builds a pack from a manifest.

use std::ffi::OsStr;
use std::io::Write;

use khalixoshi::pack::{build, Rule};
use khalixoshi::{Error, PROGRAM_MAX};

use crate::args::Args;
use crate::failure::{Failure, Outcome};
use crate::manifest::{self, Line};
use crate::{aside, files, hints, terminal};

pub const HELP: &str = "\
khx pack: builds a pack from a manifest of its rules.

usage: khx pack MANIFEST [-o FILE]

  -o FILE   write the pack there; without it, or with -, to standard output

The manifest is plain text, a line for each rule in the order of their tags: TAG CELLS FILE, with blanks between.
The tag is decimal, or hex after 0x; FILE is the rest of the line, a program, looked for from the manifest's
folder. Empty lines and lines that begin with # are passed over. An example:

  # the head table
  0x6865 4 head.rex
  0x686D 2 hmtx.rex

MANIFEST may be -, standard input; its files are then looked for from where you are.
Exit status: 0, or 1 where the pack is refused (over 64 rules, tags that don't ascend, sizes over the limits).
";

pub fn main(mut args: Args, out: &mut dyn Write) -> Result<Outcome, Failure> {
    let target = args.value("-o")?.filter(|file| file != "-");
    let [manifest] = args.files(&["MANIFEST"])?;
    if target.is_none() && terminal::is_output() {
        let message = "pack: a pack is no text for a terminal: name a file with -o";
        return Err(Failure::usage(message));
    }
    let pack = packed(&manifest, target.as_deref())?;
    match target {
        Some(file) => files::write(&file, &pack)?,
        None => out.write_all(&pack)?,
    }
    Ok(Outcome::Good)
}

fn packed(manifest: &OsStr, target: Option<&OsStr>) -> Result<Vec<u8>, Failure> {
    let exchanged = || hints::for_target(target);
    let text = manifest::read(manifest).map_err(|failure| failure.hinted(exchanged()))?;
    let lines = manifest::rules(manifest, &text).map_err(|failure| {
        let other = || hints::for_manifest((manifest, &text));
        failure.hinted(exchanged().or_else(other))
    })?;
    let body = |line: &Line| {
        let place = format!("{}:{}", files::name(manifest), line.number);
        files::read(line.file.as_os_str(), PROGRAM_MAX).map_err(|failure| failure.at(&place))
    };
    let bodies = lines.iter().map(body).collect::<Result<Vec<_>, _>>()?;
    let rules: Vec<Rule> = lines.iter().zip(&bodies).map(rule).collect();
    let mut hints = lines.iter().zip(&bodies).map(hint);
    let pack = build(&rules).map_err(|error| {
        let (name, by) = (files::name(manifest), refused_by(&rules, error));
        let message = format!("{name}:{}: refused {error}", lines[by].number);
        Failure::Refused(message).hinted(hints.nth(by).flatten())
    })?;
    hints.for_each(aside::hint);
    Ok(pack)
}

/// Of a rule's file that may be no program.
fn hint((line, body): (&Line, &Vec<u8>)) -> Option<String> {
    let file = line.file.as_os_str();
    hints::for_program(&files::name(file), (file, body))
}

fn rule<'a>((line, body): (&Line, &'a Vec<u8>)) -> Rule<'a> {
    Rule {
        tag: line.tag,
        cells: line.cells,
        body,
    }
}

/// The rule by which a pack comes to its refusal: that of the rules up to it is the
/// same already.
fn refused_by(rules: &[Rule], error: Error) -> usize {
    let refused = |last: &usize| build(&rules[..=*last]) == Err(error);
    (0..rules.len()).find(refused).unwrap_or_default()
}
