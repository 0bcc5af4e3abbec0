//! Files, or standard input where a file is named `-`.

use std::ffi::OsStr;
use std::fs::File;
use std::io::{self, ErrorKind, Read};
use std::path::Path;

use crate::failure::Failure;

/// What a file holds, but no more than one byte over `most`: that is enough for the
/// engine to see that it is over size.
pub fn read(file: &OsStr, most: usize) -> Result<Vec<u8>, Failure> {
    read_by_head(file, 0, |_| most)
}

/// The same, where the first bytes of the file, so many if it has them, say how many
/// are the most.
pub fn read_by_head(
    file: &OsStr,
    head: usize,
    most: impl FnOnce(&[u8]) -> usize,
) -> Result<Vec<u8>, Failure> {
    let read = || -> io::Result<Vec<u8>> {
        let mut from = opened(file)?;
        let mut bytes = Vec::new();
        from.by_ref().take(head as u64).read_to_end(&mut bytes)?;
        let rest = (most(&bytes) + 1).saturating_sub(bytes.len());
        from.take(rest as u64).read_to_end(&mut bytes)?;
        Ok(bytes)
    };
    read().map_err(|error| unusable(file, &error))
}

/// Hands on what a file holds as it comes, never waiting for more than one byte, until its
/// end or until the taker fails or says that it has enough.
pub fn read_as_it_comes(
    file: &OsStr,
    mut has_enough: impl FnMut(&[u8]) -> Result<bool, Failure>,
) -> Result<(), Failure> {
    let mut from = opened(file).map_err(|error| unusable(file, &error))?;
    let mut room = [0; 4_096];
    loop {
        match from.read(&mut room) {
            Ok(0) => return Ok(()),
            Ok(count) if has_enough(&room[..count])? => return Ok(()),
            Ok(_) => {}
            Err(error) if error.kind() == ErrorKind::Interrupted => {}
            Err(error) => return Err(unusable(file, &error)),
        }
    }
}

/// Writes a file.
pub fn write(file: &OsStr, bytes: &[u8]) -> Result<(), Failure> {
    std::fs::write(file, bytes).map_err(|error| unusable(file, &error))
}

/// A file's name as a person is told it.
pub fn name(file: &OsStr) -> String {
    match file == "-" {
        true => "standard input".to_string(),
        false => Path::new(file).display().to_string(),
    }
}

fn opened(file: &OsStr) -> io::Result<Box<dyn Read>> {
    Ok(match file == "-" {
        true => Box::new(io::stdin().lock()),
        false => Box::new(File::open(file)?),
    })
}

fn unusable(file: &OsStr, error: &io::Error) -> Failure {
    Failure::File(format!("{}: {error}", name(file)))
}
