//! The file TABLE of khx run: a table laid out by the convention of examples/README.md,
//! or other data.

use std::ffi::OsStr;

use khalixoshi::tables::{Facts, Preamble, MARK, PIECE, PREAMBLE};
use khalixoshi::DATA_MAX;

use crate::failure::Failure;
use crate::files;

pub enum Table {
    /// Behind the mark: what the 64 bytes say of the font, and the whole table.
    LaidOut(Facts, Vec<u8>),
    /// Data without the mark, as it stands in the file.
    Plain(Vec<u8>),
}

impl Table {
    /// The data without the mark, if that is what the file holds.
    pub fn plain(&self) -> &[u8] {
        match self {
            Table::LaidOut(..) => &[],
            Table::Plain(data) => data,
        }
    }
}

pub fn read(file: &OsStr) -> Result<Table, Failure> {
    let mut bytes = files::read_by_head(file, PREAMBLE, most)?;
    if !bytes.starts_with(&MARK) {
        return Ok(Table::Plain(bytes));
    }
    if let Some(why) = unlike_a_first_run(&bytes) {
        return Err(Failure::File(format!("{}: {why}", files::name(file))));
    }
    let told = Preamble::read(&bytes);
    bytes.drain(..PREAMBLE);
    Ok(Table::LaidOut(told.facts, bytes))
}

/// How many bytes a file can have that begins like this and is in order.
fn most(head: &[u8]) -> usize {
    match head.starts_with(&MARK) {
        true => PREAMBLE + Preamble::read(head).length as usize,
        false => DATA_MAX,
    }
}

/// What the file of a table laid out has wrong, if anything.
fn unlike_a_first_run(bytes: &[u8]) -> Option<String> {
    let head = match bytes.get(..PREAMBLE) {
        Some(head) => head,
        None => {
            return Some(format!(
                "it begins with the mark and has no {PREAMBLE} bytes"
            ))
        }
    };
    let told = Preamble::read(head);
    let (length, behind) = (told.length as usize, bytes.len() - PREAMBLE);
    let first = Preamble {
        length: told.length,
        lent: length.min(PIECE) as u16,
        facts: told.facts,
        ..Preamble::default()
    };
    if told.start != 0 {
        let start = told.start;
        Some(format!(
            "it has bytes of a table from {start} on, and must have the whole table"
        ))
    } else if behind > length {
        Some(format!(
            "it tells of a table of {length} bytes, and has more"
        ))
    } else if behind < length {
        Some(format!(
            "it tells of a table of {length} bytes, and has {behind}"
        ))
    } else if head != first.bytes() {
        Some(format!(
            "its first {PREAMBLE} bytes are not those of a first run"
        ))
    } else {
        None
    }
}
