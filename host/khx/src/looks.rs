//! What bytes look like that were given for something else.

use std::ffi::OsStr;
use std::path::Path;

use khalixoshi::tables::{MARK, PREAMBLE};
use khalixoshi::{depths, pack, Error, Refused, CELLS_MAX};
use second::opcodes::{Opcode, Operation, OPCODES};

use crate::manifest;

/// The first byte of a program that halts before it does anything.
const HALT: u8 = 0x00;

/// A file's end of the name, such as `rex`.
pub fn ends_in(file: &OsStr, end: &str) -> bool {
    Path::new(file).extension() == Some(OsStr::new(end))
}

/// A pack that has rules.
pub fn is_pack(bytes: &[u8]) -> bool {
    pack::check(bytes).map_or(false, |entries| entries > 0)
}

/// A program that the verifier accepts, and that does something.
pub fn is_program(bytes: &[u8]) -> bool {
    bytes.first() != Some(&HALT) && depths(bytes, CELLS_MAX).is_ok()
}

/// Bytes that are no program, or one that ends with its first instruction.
pub fn ends_at_once(bytes: &[u8]) -> bool {
    match depths(bytes, CELLS_MAX) {
        Ok(_) => bytes.first() == Some(&HALT),
        Err(Refused { error, at }) => {
            let early = matches!(at, None | Some(0));
            let hopeless = [
                Error::ProgramSize,
                Error::End,
                Error::Illegal,
                Error::Cut,
                Error::Few,
            ];
            early && hopeless.contains(&error)
        }
    }
}

/// A font, or a collection of fonts: by the first bytes, and by the names of its
/// tables, since some tables begin with the same bytes.
pub fn is_font(bytes: &[u8]) -> bool {
    let number = |at: usize| {
        bytes
            .get(at..at + 2)
            .map(|two| u16::from_be_bytes([two[0], two[1]]))
    };
    match bytes.get(..4) {
        Some(b"ttcf") => matches!(number(4), Some(1 | 2)) && number(6) == Some(0),
        Some([0, 1, 0, 0] | b"OTTO" | b"true") => {
            let tables = usize::from(number(4).unwrap_or(0));
            let name = |table| bytes.get(12 + 16 * table..).and_then(|rest| rest.get(..4));
            let named = |table| name(table).map_or(false, |name| name.iter().all(is_printable));
            tables > 0 && (0..tables).all(named)
        }
        _ => false,
    }
}

/// A font whose tables are compressed.
pub fn is_compressed(bytes: &[u8]) -> bool {
    bytes.starts_with(b"wOFF") || bytes.starts_with(b"wOF2")
}

/// A table laid out for a rule.
pub fn is_laid_out(bytes: &[u8]) -> bool {
    bytes.starts_with(&MARK) && bytes.len() >= PREAMBLE
}

/// A manifest of at least one rule.
pub fn is_manifest(bytes: &[u8]) -> bool {
    text(bytes).map_or(false, manifest::has_rules)
}

/// A source of a program, or a listing, which is one too.
pub fn is_source(bytes: &[u8]) -> bool {
    text(bytes).map_or(false, |text| text.lines().any(is_statement))
}

/// Bytes that are text, which may be cut inside its last character.
fn text(bytes: &[u8]) -> Option<&str> {
    let text = match std::str::from_utf8(bytes) {
        Ok(text) => text,
        Err(error) if error.error_len().is_none() => {
            std::str::from_utf8(&bytes[..error.valid_up_to()]).ok()?
        }
        Err(_) => return None,
    };
    let control = |char: char| char.is_control() && !char.is_whitespace();
    (!text.contains(control)).then_some(text)
}

/// Whether a line includes another source, or is an instruction by its name, with as
/// many operands as it has; a label or an address may stand before it.
fn is_statement(line: &str) -> bool {
    let line = line.split('#').next().unwrap_or_default();
    let mut words: Vec<&str> = line.split_whitespace().collect();
    if words
        .first()
        .map_or(false, |word| word.ends_with(':') || is_address(word))
    {
        words.remove(0);
    }
    match words.split_first() {
        Some((&"include", files)) => files.len() == 1,
        Some((name, operands)) => {
            let named = |opcode: &&Opcode| opcode.name == *name;
            let opcode = OPCODES.iter().find(named);
            opcode.map_or(false, |opcode| takes(opcode, operands.len()))
        }
        None => false,
    }
}

fn is_address(word: &str) -> bool {
    word.len() == 4 && word.chars().all(|digit| digit.is_ascii_hexdigit())
}

/// Whether an instruction has so many operands in a source.
fn takes(opcode: &Opcode, operands: usize) -> bool {
    match opcode.operation {
        Operation::PushValues => (1..=4).contains(&operands),
        Operation::Push => operands == 1,
        _ => operands == usize::from(opcode.length() > 1),
    }
}

fn is_printable(byte: &u8) -> bool {
    (b' '..=b'~').contains(byte)
}
