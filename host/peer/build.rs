//! Compiles the C in c/ by each compiler and level that the proved library is measured
//! against: gcc -O2, gcc -O3 and, where it is installed for this processor, clang -O3.
//! Then it links each function that is timed, C's and the proved library's, at four
//! places, and writes the names of the copies for `sides!` in src/lib.rs.

use std::env;
use std::fs;
use std::path::{Path, PathBuf};
use std::process::Command;

/// C's functions that are timed, in the order of `sides!`, and their sources.
const C: [(&str, &str); 6] = [
    ("peer_run", "run"),
    ("peer_verify_bitmap", "verify_bitmap"),
    ("peer_pack_check", "pack"),
    ("peer_verify", "verify"),
    ("peer_run_memmove", "run_memmove"),
    ("peer_pack_scan", "pack"),
];
/// The proved library's.
const PROVED: [&str; 11] = [
    "khx_run",
    "khx_verify",
    "khx_pack_check",
    "khx_read",
    "khx_list",
    "khx_pack_find",
    "khx_pack_lookup",
    "khx_report",
    "khx_admit_start",
    "khx_admit_chunk",
    "khx_admit_close",
];
/// How far past a multiple of `LINE` the copies of a function begin.
const PLACES: [usize; 4] = [0, 16, 32, 48];
const LINE: usize = 64;

fn main() {
    println!("cargo:rerun-if-changed=c");
    println!("cargo:rerun-if-env-changed=PATH");
    let archive = PathBuf::from(set_by_cargo("DEP_KHALIXOSHI_ARCHIVE"));
    println!("cargo:rerun-if-changed={}", archive.display());

    let gcc = gcc();
    let mut linker = Linker::of(gcc);
    let mut sides = format!("sides! {{\nproved {};\n", linker.proved(&archive));
    let mut builds = vec![(gcc, "gcc", "-O2"), (gcc, "gcc", "-O3")];
    if has_clang() {
        builds.push(("clang", "clang", "-O3"));
    }
    for (compiler, name, level) in builds {
        let version = said_by(compiler, "--version");
        let copies = linker.compiled(compiler, name, level);
        sides += &format!("\"{name} {level}\" {version:?} {copies};\n");
    }
    write(&linker.out.join("sides.rs"), &(sides + "}\n"));
    linker.archive("peer");
}

/// Whether cargo builds for an x86-64 on another processor.
fn crosses() -> bool {
    let [target, host] = ["TARGET", "HOST"].map(set_by_cargo);
    target.starts_with("x86_64") && !host.starts_with("x86_64")
}

/// gcc for the processor that cargo builds for.
fn gcc() -> &'static str {
    if crosses() {
        return "x86_64-linux-gnu-gcc";
    }
    "gcc"
}

/// Whether there is a clang for the processor that cargo builds for.
fn has_clang() -> bool {
    !crosses() && Command::new("clang").arg("--version").output().is_ok()
}

/// Makes the copies, by the tools that come with gcc.
struct Linker {
    ar: String,
    ld: String,
    nm: String,
    objcopy: String,
    out: PathBuf,
    /// The copies so far.
    objects: Vec<PathBuf>,
}

impl Linker {
    fn of(gcc: &str) -> Linker {
        let tool = |name: &str| said_by(gcc, &format!("-print-prog-name={name}"));
        Linker {
            ar: tool("ar"),
            ld: tool("ld"),
            nm: tool("nm"),
            objcopy: tool("objcopy"),
            out: PathBuf::from(set_by_cargo("OUT_DIR")),
            objects: Vec::new(),
        }
    }

    /// The copies of the proved library's functions.
    fn proved(&mut self, archive: &Path) -> String {
        let copies = PROVED.map(|function| self.copies(archive, function, "proved"));
        copies.join(" ")
    }

    /// The copies of C's functions as one compiler makes them. Each function has a
    /// section of its own, which can be laid first.
    fn compiled(&mut self, compiler: &str, name: &str, level: &str) -> String {
        let build = format!("{name}{}", level.replace('-', "_"));
        let copies = C.map(|(function, source)| {
            let object = self.out.join(format!("{source}_{build}.o"));
            run(Command::new(compiler)
                .args(["-std=c11", level, "-fPIC", "-ffunction-sections"])
                .args(["-Wall", "-Wextra", "-c"])
                .arg(format!("c/{source}.c"))
                .arg("-o")
                .arg(&object));
            self.copies(&object, function, &build)
        });
        copies.join(" ")
    }

    /// Links a function of an object or an archive at each place; gives the names of the
    /// copies, in brackets.
    fn copies(&mut self, from: &Path, function: &str, side: &str) -> String {
        let begins = self.begins(from, function);
        let names = PLACES.map(|place| {
            let name = format!("{function}_{side}_{place}");
            self.copy(from, function, (place + LINE - begins % LINE) % LINE, &name);
            name
        });
        format!("[{}]", names.join(" "))
    }

    /// How far into its section a function begins.
    fn begins(&self, from: &Path, function: &str) -> usize {
        let mut command = Command::new(&self.nm);
        let symbols = command.args(["--defined-only", "--format=posix"]).arg(from);
        let line = lines(symbols)
            .find(|line| line.starts_with(&format!("{function} ")))
            .unwrap_or_else(|| panic!("{} has no {function}", from.display()));
        let value = line.split_whitespace().nth(2).unwrap_or_default();
        usize::from_str_radix(value, 16).unwrap_or_else(|error| panic!("{line}: {error}"))
    }

    /// Links a function's section so far past a multiple of 64, whatever it is aligned to,
    /// with all that stands in its object beside it. Only its new name is global.
    fn copy(&mut self, from: &Path, function: &str, past: usize, name: &str) {
        let [script, object] = ["ld", "o"].map(|end| self.out.join(format!("{name}.{end}")));
        let own = format!(
            ".text.{function} : ALIGN({LINE}) SUBALIGN(1) {{ . += {past}; *(.text.{function}) }}"
        );
        let others = ".text : SUBALIGN(16) { *(.text .text.*) }";
        write(&script, &format!("SECTIONS {{ {own} {others} }}\n"));
        run(Command::new(&self.ld)
            .args(["-r", "-u", function, "-T"])
            .arg(script)
            .arg(from)
            .arg("-o")
            .arg(&object));
        run(Command::new(&self.objcopy)
            .arg(format!("--redefine-sym={function}={name}"))
            .arg(format!("--keep-global-symbol={name}"))
            .arg(&object));
        self.objects.push(object);
    }

    /// Hands the copies to cargo.
    fn archive(&self, name: &str) {
        let archive = self.out.join(format!("lib{name}.a"));
        let _ = fs::remove_file(&archive);
        run(Command::new(&self.ar)
            .arg("crs")
            .arg(archive)
            .args(&self.objects));
        println!("cargo:rustc-link-search=native={}", self.out.display());
        println!("cargo:rustc-link-lib=static={name}");
    }
}

/// The first line that a compiler prints.
fn said_by(compiler: &str, word: &str) -> String {
    let mut lines = lines(Command::new(compiler).arg(word));
    lines.next().unwrap_or_default()
}

/// The lines that a command prints.
fn lines(command: &mut Command) -> impl Iterator<Item = String> {
    let output = command
        .output()
        .unwrap_or_else(|error| panic!("{command:?}: {error}"));
    let text = String::from_utf8_lossy(&output.stdout);
    let lines: Vec<String> = text.lines().map(String::from).collect();
    lines.into_iter()
}

fn run(command: &mut Command) {
    match command.status() {
        Ok(status) if status.success() => {}
        Ok(status) => panic!("{command:?}: {status}"),
        Err(error) => panic!("{command:?}: {error}"),
    }
}

fn write(file: &Path, text: &str) {
    fs::write(file, text).unwrap_or_else(|error| panic!("{}: {error}", file.display()));
}

fn set_by_cargo(name: &str) -> String {
    env::var(name).unwrap_or_else(|_| panic!("cargo sets {name}"))
}
