//! The command started as a person starts it, and what it printed held to what it should print.

// Each file of tests takes what it needs.
#![allow(dead_code)]

use std::fs;
use std::io::Write;
use std::path::Path;
use std::process::{Child, ChildStdin, Command, Output, Stdio};
use std::thread;
use std::time::Duration;

pub const ROOT: &str = concat!(env!("CARGO_MANIFEST_DIR"), "/../..");
pub const M1: [u8; 4] = [0x85, 0x83, 0x15, 0x00];
pub const PACK: [u8; 14] = [1, 0, 7, 0, 2, 0, 10, 0, 4, 0, 0x85, 0x83, 0x15, 0x00];

/// The command, under the emulator by which cargo runs programs of another processor.
pub fn command(words: &[&str]) -> Command {
    let program = env!("CARGO_BIN_EXE_khx");
    let mut command = match std::env::var("CARGO_TARGET_X86_64_UNKNOWN_LINUX_GNU_RUNNER") {
        Ok(emulator) => {
            let mut command = Command::new(emulator);
            command.arg(program);
            command
        }
        Err(_) => Command::new(program),
    };
    command.args(words).stdin(Stdio::null());
    command
}

pub fn khx(words: &[&str]) -> Output {
    command(words).output().unwrap()
}

pub fn started(words: &[&str]) -> Child {
    let mut command = command(words);
    command.stdin(Stdio::piped()).stdout(Stdio::piped());
    command.stderr(Stdio::piped()).spawn().unwrap()
}

/// A pipe that nobody reads. A child that another test starts meanwhile holds the end to
/// read from too, until it runs its own program: so it is written to until that fails.
pub fn unread_pipe() -> ChildStdin {
    let mut reader = started(&["conform"]);
    let mut pipe = reader.stdin.take().unwrap();
    reader.kill().unwrap();
    reader.wait().unwrap();
    while pipe.write_all(b"\n").is_ok() {
        thread::sleep(Duration::from_millis(1));
    }
    pipe
}

pub fn khx_reading(words: &[&str], input: &[u8]) -> Output {
    let mut child = started(words);
    child.stdin.take().unwrap().write_all(input).unwrap();
    child.wait_with_output().unwrap()
}

/// A file that holds these bytes.
pub fn file(name: &str, bytes: &[u8]) -> String {
    let path = Path::new(env!("CARGO_TARGET_TMPDIR")).join(name);
    fs::create_dir_all(path.parent().unwrap()).unwrap();
    fs::write(&path, bytes).unwrap();
    path.into_os_string().into_string().unwrap()
}

pub fn assert_prints(output: &Output, status: i32, text: &str) {
    assert_eq!(String::from_utf8_lossy(&output.stderr), "");
    assert_eq!(String::from_utf8_lossy(&output.stdout), text);
    assert_eq!(output.status.code(), Some(status));
}

/// Nothing is printed, and one line on standard error says why.
pub fn assert_fails(output: &Output, status: i32, told: &str) {
    let error = String::from_utf8_lossy(&output.stderr);
    assert_eq!(String::from_utf8_lossy(&output.stdout), "", "{error}");
    assert!(
        error.starts_with("khx: ") && error.contains(told),
        "{error}"
    );
    assert_eq!(error.matches('\n').count(), 1, "{error}");
    assert!(error.ends_with('\n'));
    assert_eq!(output.status.code(), Some(status), "{error}");
}
