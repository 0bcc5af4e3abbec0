//! khx: the command for people. Here: which command was asked for, and how it ends.

mod args;
mod aside;
mod bench;
mod check;
mod conform;
mod explain;
mod failure;
mod files;
mod hidden;
mod hints;
mod lines;
mod list;
mod looks;
mod machine;
mod manifest;
mod pack;
mod paths;
mod progress;
mod run;
mod shapes;
mod stream;
mod table;
mod terminal;
mod words;

use std::ffi::OsString;
use std::io::{self, BufWriter, ErrorKind, Write};
use std::process::ExitCode;

use args::Args;
use failure::{Failure, Outcome};

const HELP: &str = "\
khx: rules of a font sanitiser, checked, listed, run and packed by the proved engine.

usage: khx COMMAND WORDS..

  check [--stream] PACK   the verdict on each rule of a pack, also while it comes, and why a rule is refused
  list FILE               the listing of a program, or of each rule of a pack
  run PROGRAM TABLE       runs a program over a font table, and says its verdict
  pack MANIFEST           builds a pack from its rules
  shapes [BYTE..]         how long each instruction is, what it takes and pushes, by its first byte
  conform                 answers the cases of the conformance protocol
  bench                   measures the engine against plain C

`khx COMMAND --help` says more. A file named - is standard input.
Exit status: 0 good; 1 refused, faulted or no verdict; 2 bad usage, or a file that cannot be read or written.
";

fn main() -> ExitCode {
    let words: Vec<OsString> = std::env::args_os().skip(1).collect();
    if words.first().map_or(false, |name| name == "bench") {
        return bench(&words[1..]);
    }
    let unread = unread(&words);
    let mut out = BufWriter::new(io::stdout().lock());
    let answer = command(words, &mut out).and_then(|outcome| {
        out.flush()?;
        Ok(outcome)
    });
    match answer {
        Ok(Outcome::Good) => ExitCode::SUCCESS,
        Ok(Outcome::Bad) => ExitCode::from(1),
        Err(Failure::Output(error)) if error.kind() == ErrorKind::BrokenPipe => unread,
        Err(failure) => {
            // What was printed before goes first, if it can be written.
            let _ = out.flush();
            aside::tell(&failure.to_string());
            ExitCode::from(failure.status())
        }
    }
}

/// The exit status where the reader of the output has gone away. Text that was cut at
/// will is no error; of a verdict or a pack, nothing good is said that was not found.
fn unread(words: &[OsString]) -> ExitCode {
    let name = words.first().map(|name| name.to_string_lossy());
    match name.as_deref() {
        Some("check" | "run" | "pack") => ExitCode::from(2),
        _ => ExitCode::SUCCESS,
    }
}

fn command(mut words: Vec<OsString>, out: &mut dyn Write) -> Result<Outcome, Failure> {
    if words.is_empty() {
        return Err(Failure::usage("no command is given: see khx --help"));
    }
    let name = words.remove(0).to_string_lossy().into_owned();
    let (help, main): (&str, Command) = match name.as_str() {
        "check" => (check::HELP, check::main),
        "list" => (list::HELP, list::main),
        "run" => (run::HELP, run::main),
        "pack" => (pack::HELP, pack::main),
        "shapes" => (shapes::HELP, shapes::main),
        "conform" => (conform::HELP, conform::main),
        "--help" | "-h" | "help" => (HELP, help),
        _ => {
            let message = format!("there is no command {name}: see khx --help");
            return Err(Failure::usage(message));
        }
    };
    // Alone: beside other words it may be the name of a file to judge.
    if matches!(words.as_slice(), [word] if word == "--help" || word == "-h") {
        out.write_all(help.as_bytes())?;
        return Ok(Outcome::Good);
    }
    main(Args::new(&name, words), out)
}

/// The benchmark prints as it goes, and has its own exit status.
fn bench(words: &[OsString]) -> ExitCode {
    let words: Vec<String> = words
        .iter()
        .map(|word| word.to_string_lossy().into_owned())
        .collect();
    ExitCode::from(bench::main(&words) as u8)
}

type Command = fn(Args, &mut dyn Write) -> Result<Outcome, Failure>;

fn help(args: Args, out: &mut dyn Write) -> Result<Outcome, Failure> {
    let [] = args.files(&[])?;
    out.write_all(HELP.as_bytes())?;
    Ok(Outcome::Good)
}
