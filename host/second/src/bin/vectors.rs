//! Writes the cases on which the two implementations are compared, with this
//! implementation's answers, or checks that they are as they would be written:
//!
//! ```text
//! vectors isa DIR            the decoder, the encoder and the table of first bytes
//! vectors machine DIR        the run
//! vectors verify DIR         the verifier
//! vectors pack DIR           packs
//! vectors admission DIR      packs that come in chunks
//! vectors listing DIR        the listing and the reader
//! vectors check KIND DIR
//! vectors reports DIR        packs that the thin program reads
//! ```
//!
//! DIR/stdin has the cases, DIR/stdout the answers, one line a case. Of the packs
//! that the thin program reads each is a file, DIR/NNN.pack, and what it prints for
//! it another, DIR/NNN.txt.

use std::path::Path;
use std::process::ExitCode;
use std::{env, fs, io};

use second::cases::{admission, isa, listing, machine, pack, reports, verify, Vectors};

fn main() -> ExitCode {
    let arguments: Vec<String> = env::args().skip(1).collect();
    let arguments: Vec<&str> = arguments.iter().map(String::as_str).collect();
    let done = match arguments[..] {
        ["check", kind, directory] => made(kind).and_then(|it| check(&it, directory.as_ref())),
        ["reports", directory] => write_reports(directory.as_ref()),
        [kind, directory] => made(kind).and_then(|it| write(&it, directory.as_ref())),
        _ => Err(
            "usage: vectors [check] isa|machine|verify|pack|admission|listing DIR, vectors reports DIR"
                .to_string(),
        ),
    };
    match done {
        Ok(()) => ExitCode::SUCCESS,
        Err(reason) => {
            eprintln!("{reason}");
            ExitCode::FAILURE
        }
    }
}

/// The cases of a kind.
fn made(kind: &str) -> Result<Vectors, String> {
    match kind {
        "isa" => Ok(isa::vectors()),
        "machine" => Ok(machine::vectors()),
        "verify" => Ok(verify::vectors()),
        "pack" => Ok(pack::vectors()),
        "admission" => Ok(admission::vectors()),
        "listing" => Ok(listing::vectors()),
        _ => Err(format!("no cases of kind {kind}")),
    }
}

/// Writes both files and prints the counts.
fn write(vectors: &Vectors, directory: &Path) -> Result<(), String> {
    let failed = |error: io::Error| format!("{}: {error}", directory.display());
    fs::create_dir_all(directory).map_err(failed)?;
    fs::write(directory.join("stdin"), &vectors.stdin).map_err(failed)?;
    fs::write(directory.join("stdout"), &vectors.stdout).map_err(failed)?;
    let (cases, refused) = (vectors.cases(), vectors.refused());
    println!("{cases} cases, {} good, {refused} refused", cases - refused);
    Ok(())
}

/// Writes a pack and what is printed for it as two files each, and prints how many
/// packs there are.
fn write_reports(directory: &Path) -> Result<(), String> {
    let failed = |error: io::Error| format!("{}: {error}", directory.display());
    fs::create_dir_all(directory).map_err(failed)?;
    let reports = reports::reports();
    for (number, report) in reports.iter().enumerate() {
        let path = directory.join(format!("{number:03}"));
        fs::write(path.with_extension("pack"), &report.pack).map_err(failed)?;
        fs::write(path.with_extension("txt"), &report.text).map_err(failed)?;
    }
    println!("{} packs", reports.len());
    Ok(())
}

/// Compares both files with what would be written.
fn check(vectors: &Vectors, directory: &Path) -> Result<(), String> {
    for (name, made) in [
        ("stdin", vectors.stdin.as_slice()),
        ("stdout", vectors.stdout.as_bytes()),
    ] {
        let path = directory.join(name);
        let found = fs::read(&path).map_err(|error| format!("{}: {error}", path.display()))?;
        if found != made {
            return Err(format!("{} is not as it would be written", path.display()));
        }
    }
    Ok(())
}
