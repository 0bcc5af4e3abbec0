//! Tells cargo where the proved library stands.

use std::path::PathBuf;
use std::{env, process};

const FOLDER: &str = "KHALIXOSHI_LIB_DIR";

fn main() {
    println!("cargo:rerun-if-env-changed={FOLDER}");
    let folder = match env::var_os(FOLDER) {
        Some(folder) => PathBuf::from(folder),
        None => shipped(),
    };
    let archive = folder.join("libkhalixoshi.a");
    println!("cargo:rerun-if-changed={}", archive.display());
    if !archive.is_file() {
        refuse(&format!(
            "{} is not there. Build it with `make target/staticlib/libkhalixoshi.a` at the \
             repository's root, or name the folder that holds libkhalixoshi.a in {FOLDER}.",
            archive.display()
        ));
    }
    println!("cargo:rustc-link-search=native={}", folder.display());
    println!("cargo:rustc-link-lib=static=khalixoshi");
    // for the build script of a crate that stands on this one
    println!("cargo:archive={}", archive.display());
}

/// The folder of the library that the kit builds.
fn shipped() -> PathBuf {
    if set_by_cargo("CARGO_CFG_TARGET_ARCH") != "x86_64"
        || set_by_cargo("CARGO_CFG_TARGET_OS") != "linux"
    {
        refuse(
            "libkhalixoshi.a is for x86-64 Linux: build for the target x86_64-unknown-linux-gnu \
             (tools/host does so on every processor).",
        );
    }
    PathBuf::from(set_by_cargo("CARGO_MANIFEST_DIR")).join("../../target/staticlib")
}

fn set_by_cargo(name: &str) -> String {
    env::var(name).unwrap_or_default()
}

fn refuse(why: &str) -> ! {
    eprintln!("{why}");
    process::exit(1)
}
