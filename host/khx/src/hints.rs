//! Hints at what was probably meant, where a file is not what it was given for. They
//! change no verdict and no exit status.

use std::ffi::OsStr;
use std::path::Path;

use crate::{looks, manifest};

/// A file as it was named, and what it holds.
pub type Given<'a> = (&'a OsStr, &'a [u8]);

/// What a file may be instead.
#[derive(Clone, Copy)]
enum Kind {
    Font,
    Compressed,
    LaidOut,
    Pack,
    Manifest,
    Source,
    Program,
    /// It is no good pack, but is named as one.
    NamedPack,
}

/// Of a file that was given for a program, and by which word it is spoken of.
pub fn for_program(word: &str, file: Given) -> Option<String> {
    if looks::is_program(file.1) {
        return None;
    }
    let kinds = [
        Kind::Font,
        Kind::Compressed,
        Kind::LaidOut,
        Kind::Pack,
        Kind::Manifest,
        Kind::Source,
        Kind::NamedPack,
    ];
    first(&kinds, word, file)
}

/// Of a file that was given for a pack, and is refused as one.
pub fn for_pack(file: Given) -> Option<String> {
    let kinds = [
        Kind::Font,
        Kind::Compressed,
        Kind::LaidOut,
        Kind::Manifest,
        Kind::Source,
        Kind::Program,
    ];
    first(&kinds, "it", file)
}

/// Of a file that was given for a manifest, and is none.
pub fn for_manifest(file: Given) -> Option<String> {
    let kinds = [
        Kind::Font,
        Kind::Compressed,
        Kind::LaidOut,
        Kind::Pack,
        Kind::Source,
        Kind::Program,
        Kind::NamedPack,
    ];
    first(&kinds, "it", file)
}

/// Of the file that a pack goes to, where its manifest cannot be read.
pub fn for_target(target: Option<&OsStr>) -> Option<String> {
    let target = target.filter(|file| Path::new(file).is_file())?;
    let text = manifest::read(target).ok()?;
    let exchanged = looks::is_manifest(&text);
    exchanged.then(|| "are MANIFEST and the FILE of -o exchanged?".to_string())
}

/// Of the files of a run.
pub fn for_run(program: Given, table: Given) -> Option<String> {
    let hint = for_program("PROGRAM", program);
    let a_table = [Kind::Font, Kind::Compressed, Kind::LaidOut];
    let unknown = hint.is_none() || a_table.iter().any(|kind| kind.fits(program));
    if unknown && looks::ends_at_once(program.1) && Kind::Program.fits(table) {
        return Some("are PROGRAM and TABLE exchanged?".to_string());
    }
    hint.or_else(|| first(&[Kind::Font, Kind::Compressed], "TABLE", table))
}

/// The first of some kinds that a file is of, in words.
fn first(kinds: &[Kind], word: &str, file: Given) -> Option<String> {
    let kind = kinds.iter().find(|kind| kind.fits(file))?;
    let told = kind.told(&file.0.to_string_lossy());
    Some(format!("{word} {told}"))
}

impl Kind {
    fn fits(self, (name, bytes): Given) -> bool {
        match self {
            Kind::Font => looks::is_font(bytes),
            Kind::Compressed => looks::is_compressed(bytes),
            Kind::LaidOut => looks::is_laid_out(bytes),
            Kind::Pack => looks::is_pack(bytes),
            Kind::Manifest => looks::is_manifest(bytes),
            Kind::Source => looks::is_source(bytes),
            Kind::Program => looks::is_program(bytes) || looks::ends_in(name, "rex"),
            Kind::NamedPack => looks::ends_in(name, "pack"),
        }
    }

    fn told(self, name: &str) -> String {
        match self {
            Kind::Font => {
                format!("is a font: tools/lend {name} TABLE writes one table's data")
            }
            Kind::Compressed => "is a WOFF font: unpack it to a plain one, of which tools/lend \
                                 writes one table's data"
                .to_string(),
            Kind::LaidOut => {
                format!("is a table laid out: khx run PROGRAM {name} runs a rule over it")
            }
            Kind::Pack => {
                format!("is a rule pack: khx check {name}, or khx list --pack {name}")
            }
            Kind::Manifest => format!("looks like a manifest: khx pack {name} -o PACK"),
            Kind::Source => {
                format!("looks like a source: tools/assemble {name} -o PROGRAM makes the program")
            }
            Kind::Program => format!("looks like a program: khx list {name}"),
            Kind::NamedPack => format!("is named as a rule pack: khx check {name}"),
        }
    }
}
