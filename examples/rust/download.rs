//! A pack checked while it downloads. A thread of its own plays the server: it sends a file
//! through a socket, piece by piece, with a pause behind each, as a slow line brings it. The
//! client never holds the pack. It feeds each chunk to an admission, and tells the verdict on
//! a rule as soon as its last byte is in; but it goes by none of them before the close.
//! Whatever goes wrong on the way, nothing is accepted.
//!
//! usage: download PACK [PIECE]
//!
//! PIECE is how many bytes are sent at a time, 1 to 24,576; 64 where it is left out. Prints the
//! provisional verdicts, and at the end the final ones, or that none stands. Exit status: 0
//! where the pack and all its rules are accepted, 1 where one is refused, 2 for bad usage,
//! where the pack did not come, or where the output cannot be written.

use std::ffi::OsString;
use std::fs::File;
use std::io::{self, ErrorKind, Read, Write};
use std::os::unix::net::UnixStream;
use std::process::ExitCode;
use std::time::Duration;
use std::{env, thread};

use khalixoshi::{Admission, PACK_MAX};

const USAGE: &str = "usage: download PACK [PIECE]";
/// How many bytes the client takes at a time, or fewer.
const CHUNK: usize = 512;
const PIECE: usize = 64;
const PAUSE: Duration = Duration::from_millis(1);

fn main() -> ExitCode {
    let words: Vec<OsString> = env::args_os().skip(1).collect();
    match started(&words) {
        Ok(status) => ExitCode::from(status),
        Err(why) => {
            eprintln!("download: {why}");
            ExitCode::from(2)
        }
    }
}

/// Starts the server and downloads from it: the exit status.
fn started(words: &[OsString]) -> Result<u8, String> {
    let (name, piece) = match words {
        [name] => (name, PIECE),
        [name, piece] => (name, number(piece)?),
        _ => return Err(USAGE.to_string()),
    };
    let cannot_read = || format!("cannot read {}", name.to_string_lossy());
    let file = File::open(name).map_err(|_| cannot_read())?;
    let (line, other_end) = UnixStream::pair().map_err(|_| "there is no socket")?;
    let server = thread::spawn(move || serve(other_end, file, piece));
    download(line, || match server.join() {
        Ok(Ok(())) => Ok(()),
        _ => Err(cannot_read()),
    })
}

/// Downloads a pack and tells what is final: the one place that accepts it. Closes only where
/// the sender says that the line's end is the pack's. Gives the exit status.
fn download(line: impl Read, sent: impl FnOnce() -> Result<(), String>) -> Result<u8, String> {
    let mut admission = Admission::new();
    take(&mut admission, line)?;
    sent()?;
    if let Err(error) = admission.close() {
        let number = error.number();
        tell(format!("pack refused {number}: no verdict stands"))?;
        return Ok(1);
    }
    let rulings = admission.verdicts().ok_or("there are no final verdicts")?;
    let mut status = 0;
    for ruling in rulings {
        tell(ruling.to_string())?;
        if ruling.verdict.is_err() {
            status = 1;
        }
    }
    Ok(status)
}

/// Admits what comes over a line, until its end or until the pack is lost, and tells each
/// verdict as soon as it is known.
fn take(admission: &mut Admission, mut line: impl Read) -> Result<(), String> {
    let mut chunk = [0; CHUNK];
    let mut told = 0;
    loop {
        let count = match line.read(&mut chunk) {
            Ok(0) => return Ok(()),
            Ok(count) => count,
            Err(error) if error.kind() == ErrorKind::Interrupted => continue,
            Err(error) => return Err(format!("the download failed: {error}")),
        };
        let known = admission.feed(&chunk[..count]);
        known.map_err(|error| error.to_string())?;
        for ruling in admission.provisional().skip(told) {
            tell(format!("provisional: {ruling}"))?;
            told += 1;
        }
        if let Some(error) = admission.lost() {
            let number = error.number();
            return tell(format!("lost: refused by {number}, whatever follows"));
        }
    }
}

/// Tells a line, so that it is seen at once.
fn tell(text: String) -> Result<(), String> {
    let told = writeln!(io::stdout(), "{text}");
    told.map_err(|error| format!("cannot write: {error}"))
}

/// The server: sends a file piece by piece, to its end or as long as somebody takes what it
/// sends. Fails where the file cannot be read.
fn serve(mut line: UnixStream, mut file: File, piece: usize) -> io::Result<()> {
    let mut bytes = vec![0; piece];
    loop {
        let count = file.read(&mut bytes)?;
        if count == 0 || line.write_all(&bytes[..count]).is_err() {
            return Ok(());
        }
        thread::sleep(PAUSE);
    }
}

fn number(word: &OsString) -> Result<usize, String> {
    let digits = |word: &&str| word.bytes().all(|byte| byte.is_ascii_digit());
    let number = word
        .to_str()
        .filter(digits)
        .and_then(|word| word.parse().ok());
    number
        .filter(|number| (1..=PACK_MAX).contains(number))
        .ok_or_else(|| format!("no number that fits: {}", word.to_string_lossy()))
}
