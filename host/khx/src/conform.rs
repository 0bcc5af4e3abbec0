//! khx conform: answers the cases of the conformance protocol.

use std::io::{self, ErrorKind, Read, Write};

use crate::args::Args;
use crate::failure::{Failure, Outcome};
use crate::progress::Progress;
use crate::terminal;
use ::conform::{serve, Engine, Proved, Second};

pub const HELP: &str = "\
khx conform: answers the cases of the conformance protocol, a line for each line of standard input.

usage: khx conform [--second]

  --second   ask the second implementation; without it every answer comes from the proved library

An empty line, and one that begins with #, is copied. What is no case is answered `bad case`.
docs/CONFORMANCE.md has the cases. An example:

  $ echo 'run 85831500 - 00000000 0 0 running 10' | khx conform
  ok 4 3 1 halted - 0003fffe
";

pub fn main(mut args: Args, out: &mut dyn Write) -> Result<Outcome, Failure> {
    let engine: &dyn Engine = match args.flag("--second") {
        true => &Second,
        false => &Proved,
    };
    let [] = args.files(&[])?;
    let input = Watched {
        input: io::stdin().lock(),
        bytes: 0,
        progress: Progress::only_if(!terminal::is_input() && !terminal::is_output()),
    };
    match serve(engine, input, out) {
        Ok(()) => Ok(Outcome::Good),
        Err(error) if error.kind() == ErrorKind::BrokenPipe => Err(Failure::Output(error)),
        Err(error) => Err(Failure::File(format!("conform: {error}"))),
    }
}

/// An input that tells how much of it was read.
struct Watched<R> {
    input: R,
    bytes: u64,
    progress: Progress,
}

impl<R: Read> Read for Watched<R> {
    fn read(&mut self, room: &mut [u8]) -> io::Result<usize> {
        let count = self.input.read(room)?;
        self.bytes += count as u64;
        let kilobytes = self.bytes / 1_000;
        self.progress
            .show(|| format!("{kilobytes} kB of cases read"));
        Ok(count)
    }
}
