//! The manifest of a pack: plain text, a line for each rule.

use std::ffi::OsStr;
use std::path::{Path, PathBuf};

use crate::failure::Failure;
use crate::files;

/// The most bytes of a manifest.
const MANIFEST_MAX: usize = 1_000_000;

/// What some editors write before a text.
const BYTE_ORDER_MARK: &[u8] = b"\xEF\xBB\xBF";

/// A rule's line, and its number in the file.
#[derive(Debug, PartialEq)]
pub struct Line {
    pub number: usize,
    pub tag: u16,
    pub cells: u16,
    pub file: PathBuf,
}

/// What the file of a manifest holds, but no more than shows that it is over size.
pub fn read(manifest: &OsStr) -> Result<Vec<u8>, Failure> {
    files::read(manifest, MANIFEST_MAX)
}

/// The lines of a manifest; their files are looked for from its folder.
pub fn rules(manifest: &OsStr, text: &[u8]) -> Result<Vec<Line>, Failure> {
    if text.len() > MANIFEST_MAX {
        let name = files::name(manifest);
        return Err(Failure::File(format!("{name}: over {MANIFEST_MAX} bytes")));
    }
    let folder = match Path::new(manifest).parent() {
        Some(folder) if folder != Path::new("") => folder,
        _ => Path::new("."),
    };
    let text = text.strip_prefix(BYTE_ORDER_MARK).unwrap_or(text);
    lines(&String::from_utf8_lossy(text), folder).map_err(|(number, message)| {
        let name = files::name(manifest);
        Failure::File(format!("{name}:{number}: {message}"))
    })
}

/// Whether a text is a manifest of one rule or more.
pub fn has_rules(text: &str) -> bool {
    lines(text, Path::new(".")).map_or(false, |lines| !lines.is_empty())
}

/// The lines, or the number of a wrong one and what is wrong.
fn lines(text: &str, folder: &Path) -> Result<Vec<Line>, (usize, &'static str)> {
    let mut lines = Vec::new();
    for (index, text) in text.lines().enumerate() {
        let text = text.trim();
        if text.is_empty() || text.starts_with('#') {
            continue;
        }
        let number = index + 1;
        let line = line(number, text, folder).map_err(|message| (number, message))?;
        lines.push(line);
    }
    Ok(lines)
}

fn line(number: usize, text: &str, folder: &Path) -> Result<Line, &'static str> {
    let (tag, rest) = word(text).ok_or("TAG CELLS FILE is expected")?;
    let (cells, file) = word(rest).ok_or("TAG CELLS FILE is expected")?;
    Ok(Line {
        number,
        tag: tag_of(tag).ok_or("the tag is no number from 0 to 65535, or 0x0 to 0xFFFF")?,
        cells: cells
            .parse()
            .map_err(|_| "the cells are no number from 0 to 65535")?,
        file: folder.join(file),
    })
}

/// The first word of a text, and what follows.
fn word(text: &str) -> Option<(&str, &str)> {
    let (word, rest) = text.split_once(char::is_whitespace)?;
    Some((word, rest.trim_start()))
}

fn tag_of(word: &str) -> Option<u16> {
    match word.strip_prefix("0x") {
        Some(digits) => u16::from_str_radix(digits, 16).ok(),
        None => word.parse().ok(),
    }
}

#[cfg(test)]
mod tests {
    use super::*;

    #[test]
    fn every_kind_of_line() {
        let text = "# rules\n\n0x0007 2 a b.rex\r\n   \n  65535\t0   ../c.rex  \n";
        let rule = |number, tag, cells, file: &str| Line {
            number,
            tag,
            cells,
            file: PathBuf::from(file),
        };
        assert_eq!(
            lines(text, Path::new("rules")),
            Ok(vec![
                rule(3, 7, 2, "rules/a b.rex"),
                rule(5, 65_535, 0, "rules/../c.rex")
            ])
        );
    }

    #[test]
    fn a_byte_order_mark_is_passed_over() {
        let read = rules(OsStr::new("rules.txt"), b"\xEF\xBB\xBF7 2 m1.rex\n").unwrap();
        assert_eq!(read[0].tag, 7);
    }

    #[test]
    fn wrong_lines_are_named() {
        let wrong = |text: &str| lines(text, Path::new(".")).map_err(|(number, _)| number);
        assert_eq!(wrong("1 1 a\n2\n"), Err(2));
        assert_eq!(wrong("1 1 a\n2 2\n"), Err(2));
        assert_eq!(wrong("65536 1 a"), Err(1));
        assert_eq!(wrong("0x10000 1 a"), Err(1));
        assert_eq!(wrong("-1 1 a"), Err(1));
        assert_eq!(wrong("head 1 a"), Err(1));
        assert_eq!(wrong("\n\n1 many a"), Err(3));
        assert_eq!(wrong("1 65536 a"), Err(1));
    }
}
