//! khx shapes: the table of first bytes, as the page docs/SHAPES.md. All of it is the
//! library's: the rows by the table itself, the names by the listing.

use std::ffi::OsStr;
use std::io::Write;

use khalixoshi::{shape, Shape, INSTRUCTION_MAX};

use crate::args::Args;
use crate::failure::{Failure, Outcome};
use crate::lines;

pub const HELP: &str = "\
khx shapes: how long an instruction is, what it takes and what it pushes, by its first byte.

usage: khx shapes [BYTE..]

Without a BYTE it prints docs/SHAPES.md: the table of all 256 first bytes. With one or more, each in hex, it prints
their rows alone. Where no instruction begins with a byte, its row says illegal, and has no numbers.

  $ khx shapes 3b
  | first byte | name | length | takes | pushes |
  |---|---|---|---|---|
  | 3B | call-imm8 | 2 | 0 | 1 |
";

/// What stands above the table on the page.
const PAGE: &str = "\
# Instruction shapes

What the first byte of an instruction says of it: its length in bytes, how many values it takes from the stack, and how many it pushes.
First bytes are in hex. No instruction begins with an illegal byte: decoder and verifier refuse it by 2, and a run that comes to it faults by 2.
A shift's second byte is not in the table: where it is over 15, the shifts 31 and 32 are refused so too.
What each instruction does is in [GUIDE.md](GUIDE.md). `khx shapes` prints this page from the proved table, and tools/shapes writes it here.

";

const HEAD: &str = "\
| first byte | name | length | takes | pushes |
|---|---|---|---|---|
";

pub fn main(mut args: Args, out: &mut dyn Write) -> Result<Outcome, Failure> {
    let mut bytes = Vec::new();
    for word in args.rest()? {
        bytes.push(byte(&word).ok_or_else(|| no_byte(&args, &word))?);
    }
    let text = match bytes.is_empty() {
        true => page(),
        false => table(bytes),
    };
    out.write_all(text.as_bytes())?;
    Ok(Outcome::Good)
}

fn page() -> String {
    PAGE.to_string() + &table(0..=255)
}

fn table(bytes: impl IntoIterator<Item = u8>) -> String {
    let rows = bytes.into_iter().map(row);
    HEAD.to_string() + &rows.collect::<String>()
}

fn row(first: u8) -> String {
    match shape(first) {
        Some(Shape {
            length,
            taken,
            pushed,
        }) => {
            let name = name(first);
            format!("| {first:02X} | {name} | {length} | {taken} | {pushed} |\n")
        }
        None => format!("| {first:02X} | illegal | | | |\n"),
    }
}

/// The name that a listing has for a first byte. Its operands are 0, which is a good
/// shift byte too.
fn name(first: u8) -> String {
    let mut program = [0; INSTRUCTION_MAX];
    program[0] = first;
    let text = lines::text_at(&program, 0).unwrap_or_default();
    let name = text.split(' ').next().unwrap_or_default();
    name.to_string()
}

/// One or two hex digits.
fn byte(word: &OsStr) -> Option<u8> {
    let digits = word.to_str()?;
    let all = digits.bytes().all(|digit| digit.is_ascii_hexdigit());
    u8::from_str_radix(digits, 16).ok().filter(|_| all)
}

fn no_byte(args: &Args, word: &OsStr) -> Failure {
    let word = word.to_string_lossy();
    args.wrong(&format!("{word} is no byte in hex, 00 to FF"))
}
