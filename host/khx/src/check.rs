//! khx check: the verdict on each rule of a pack, and why a rule is refused.

use std::io::Write;

use khalixoshi::pack::{self, Entry};
use khalixoshi::{depths, verdicts, Refused, PACK_MAX};

use crate::args::Args;
use crate::failure::{Failure, Outcome};
use crate::{explain, files, hidden, hints, lines, stream};

pub const HELP: &str = "\
khx check: the verdict on each rule of a pack, and why a rule is refused.

usage: khx check PACK
       khx check --stream [PACK]

First a line for each rule, as packcheck prints them: `TTTT accepted` or `TTTT refused N at AAAA`, or only
`pack refused N` (tag and address in hex). Then, for each rule refused, the listing around the instruction
refused, which is marked with >, what the number means, how the rule comes to it, and what to do about it; and,
for each rule accepted of which the listing would not show all that runs, a warning: khx list --paths does.

  --stream   check a pack while it comes, from standard input unless a PACK is named, and without holding it

With --stream a line on standard error gives the verdict on each rule as soon as its last byte is in: `khx: provisional:
TTTT accepted`. What follows may still refuse the pack, or not come, and then `khx: withdrawn: ..` takes them all back.
Where it is refused whatever follows, `khx: lost: ..` says so at once; it is read on to its end, for the number may still
become 31, but khx stops once byte 24,577 has come. Only then come the final verdicts, on standard output, and for each
rule refused what its number means and what to do about it. There is no listing, no way that leads there, no hint and no
warning that a listing hides what runs: for these run khx check on the pack.

PACK may be -, standard input. Exit status: 0 where every rule is accepted, 1 where one is refused.
";

pub fn main(mut args: Args, out: &mut dyn Write) -> Result<Outcome, Failure> {
    if args.flag("--stream") {
        return stream::main(args, out);
    }
    let [file] = args.files(&["PACK"])?;
    let pack = files::read(&file, PACK_MAX)?;
    out.write_all(verdicts(&pack).as_bytes())?;
    let entries = match pack::entries(&pack) {
        Ok(entries) => entries,
        Err(error) => {
            writeln!(out, "\n{error}\n  {}", error.advice())?;
            if let Some(hint) = hints::for_pack((&file, &pack)) {
                writeln!(out, "  hint: {hint}")?;
            }
            return Ok(Outcome::Bad);
        }
    };
    let mut outcome = Outcome::Good;
    for entry in entries {
        let program = pack::body(&pack, &entry);
        match depths(program, entry.cells.into()) {
            Ok(map) => out.write_all(warned(&entry, program, &map).as_bytes())?,
            Err(refused) => {
                outcome = Outcome::Bad;
                out.write_all(explained(&entry, program, refused).as_bytes())?;
            }
        }
    }
    Ok(outcome)
}

fn explained(entry: &Entry, program: &[u8], refused: Refused) -> String {
    let head = lines::head(entry);
    let place = refused.at.map(|at| lines::around(program, at));
    let place = place.unwrap_or_default();
    let why = explain::refusal(program, entry.cells.into(), refused);
    let why = why.map_or(String::new(), |why| format!("  {why}\n"));
    let advice = refused.advice();
    format!("\n{head}\n{place}  {refused}\n{why}  {advice}\n")
}

/// What is said of an accepted rule: nothing, but where its listing hides something.
fn warned(entry: &Entry, program: &[u8], map: &[u16]) -> String {
    let place = match hidden::met(program, map).first() {
        Some(hidden) => lines::around(program, hidden.at),
        None => return String::new(),
    };
    let (head, tag) = (lines::head(entry), entry.tag);
    let warning = hidden::warning(program, entry.cells.into()).unwrap_or_default();
    format!("\n{head}\n{place}  warning: {tag:04X}: {warning}\n")
}
