//! khx check --stream: a pack that comes in pieces, with nothing behind a piece until what it
//! brought was told.

mod start;

use std::fs;
use std::io::{BufRead, BufReader, Read, Write};
use std::os::unix::io::OwnedFd;
use std::os::unix::net::UnixStream;
use std::process::{Child, ChildStderr, ChildStdin, Stdio};

use khalixoshi::pack;
use start::{assert_fails, command, file, khx, khx_reading, started, unread_pipe, PACK, ROOT};

/// Two rules of one byte, a halt each, with the tags 7 and 9.
const TWO: [u8; 20] = [
    2, 0, 7, 0, 0, 0, 18, 0, 1, 0, 9, 0, 0, 0, 19, 0, 1, 0, 0x00, 0x00,
];

/// The command while its pack comes.
struct Coming {
    child: Child,
    line: ChildStdin,
    told: BufReader<ChildStderr>,
}

impl Coming {
    fn new() -> Coming {
        let mut child = started(&["check", "--stream"]);
        Coming {
            line: child.stdin.take().unwrap(),
            told: BufReader::new(child.stderr.take().unwrap()),
            child,
        }
    }

    fn send(&mut self, piece: &[u8]) {
        self.line.write_all(piece).unwrap();
    }

    /// The next line on standard error is this one: nothing was sent since.
    fn tells(&mut self, expected: &str) {
        tells(&mut self.told, expected);
    }

    /// The pack has come to its end, and nothing more is told aside.
    fn ends(self, status: i32, text: &str) {
        drop(self.line);
        ended(self.child, self.told, status, text);
    }

    /// The command ends though more of the pack may come.
    fn ends_by_itself(self, status: i32, text: &str) {
        ended(self.child, self.told, status, text);
    }
}

fn tells(told: &mut impl BufRead, expected: &str) {
    let mut line = String::new();
    told.read_line(&mut line).unwrap();
    assert_eq!(line, format!("khx: {expected}\n"));
}

fn ended(child: Child, mut told: BufReader<ChildStderr>, status: i32, text: &str) {
    let output = child.wait_with_output().unwrap();
    let mut rest = String::new();
    told.read_to_string(&mut rest).unwrap();
    assert_eq!(rest, "");
    assert_eq!(String::from_utf8_lossy(&output.stdout), text);
    assert_eq!(output.status.code(), Some(status));
}

fn text(bytes: &[u8]) -> String {
    String::from_utf8_lossy(bytes).into_owned()
}

#[test]
fn a_verdict_before_the_rest_is_sent() {
    let mut coming = Coming::new();
    coming.send(&TWO[..1]);
    coming.send(&TWO[1..19]);
    coming.tells("provisional: 0007 accepted");
    coming.send(&TWO[19..]);
    coming.tells("provisional: 0009 accepted");
    coming.ends(0, "0007 accepted\n0009 accepted\n");
}

#[test]
fn byte_by_byte() {
    let mut coming = Coming::new();
    let mut pack = TWO;
    pack[19] = 0x5B;
    for byte in &pack[..19] {
        coming.send(&[*byte]);
    }
    coming.tells("provisional: 0007 accepted");
    coming.send(&pack[19..]);
    coming.tells("provisional: 0009 refused 2 at 0000");
    coming.ends(
        1,
        "0007 accepted\n0009 refused 2 at 0000\n\n0009:\n  refused 2 at 0000: illegal first byte, \
         flags or shift byte\n  the program is not what it claims to be, or the address is inside \
         an operand\n",
    );
}

#[test]
fn withdrawn_at_the_end() {
    let mut coming = Coming::new();
    coming.send(&TWO[..19]);
    coming.tells("provisional: 0007 accepted");
    drop(coming.line);
    let mut rest = String::new();
    coming.told.read_to_string(&mut rest).unwrap();
    assert_eq!(rest, "khx: withdrawn: 1 provisional verdict\n");
    let output = coming.child.wait_with_output().unwrap();
    assert!(output.stdout.starts_with(b"pack refused 34\n\n34: the "));
    assert_eq!(output.status.code(), Some(1));
}

/// A socket is reset where its other end goes away with bytes unread.
#[test]
fn withdrawn_where_reading_fails() {
    let (mut line, other_end) = UnixStream::pair().unwrap();
    (&other_end).write_all(&[0]).unwrap();
    let mut command = command(&["check", "--stream"]);
    command.stdin(OwnedFd::from(other_end));
    command.stdout(Stdio::piped()).stderr(Stdio::piped());
    let mut child = command.spawn().unwrap();
    let mut told = BufReader::new(child.stderr.take().unwrap());
    line.write_all(&TWO[..19]).unwrap();
    tells(&mut told, "provisional: 0007 accepted");
    drop(line);
    tells(&mut told, "withdrawn: 1 provisional verdict");
    tells(
        &mut told,
        "standard input: Connection reset by peer (os error 104)",
    );
    ended(child, told, 2, "");
}

/// What is over size is told at once, and nothing more is waited for.
#[test]
fn withdrawn_by_too_many_bytes() {
    let mut coming = Coming::new();
    coming.send(&TWO);
    coming.tells("provisional: 0007 accepted");
    coming.tells("provisional: 0009 accepted");
    coming.send(&[0; 24_576 - 20]);
    coming.send(&[0]);
    coming.tells("lost: the pack is refused, whatever follows: 31: the pack is over 24,576 bytes");
    coming.tells("withdrawn: 2 provisional verdicts");
    coming.ends_by_itself(
        1,
        "pack refused 31\n\n31: the pack is over 24,576 bytes\n  split it\n",
    );
}

#[test]
fn lost_is_told_and_the_rest_is_read() {
    let equal_tags: Vec<u8> = [&TWO[..10], &TWO[2..4], &TWO[12..]].concat();
    let mut coming = Coming::new();
    coming.send(&equal_tags[..18]);
    coming.tells("lost: the pack is refused, whatever follows: 32: a tag not above the one before");
    coming.send(&equal_tags[18..]);
    coming.ends(
        1,
        "pack refused 32\n\n32: a tag not above the one before\n  sort the entries, one for each \
         tag\n",
    );
    let over = [&equal_tags[..], &[0; 24_576]].concat();
    let output = khx_reading(&["check", "--stream"], &over);
    assert!(output.stdout.starts_with(b"pack refused 31\n"));
}

/// Wherever a pack is cut, the verdicts are those of the whole file. Those of the rules before
/// the cut are waited for, so that what follows is a piece of its own.
#[test]
fn verdicts_as_of_the_whole() {
    let verdicts = fs::read_to_string(format!("{ROOT}/crates/packcheck/stdout")).unwrap();
    let file = format!("{ROOT}/examples/nightly.pack");
    let whole = text(&khx(&["check", "--stream", &file]).stdout);
    assert!(whole.starts_with(&format!("{verdicts}\n0020:\n  refused 5")));
    let pack = fs::read(file).unwrap();
    let entries = pack::entries(&pack).unwrap();
    for at in [1, 2, 50, 82, 83, 86, 87, 100, 110, pack.len() - 1] {
        let is_before = |entry: &&pack::Entry| usize::from(entry.offset + entry.length) <= at;
        let before = entries.iter().filter(is_before).count();
        let mut coming = Coming::new();
        coming.send(&pack[..at]);
        for (place, verdict) in verdicts.lines().enumerate() {
            if place == before {
                coming.send(&pack[at..]);
            }
            coming.tells(&format!("provisional: {verdict}"));
        }
        coming.ends(1, &whole);
    }
}

#[test]
fn a_file_and_no_rules() {
    let pack = file("stream/m1.pack", &PACK);
    let output = khx(&["check", "--stream", &pack]);
    assert_eq!(text(&output.stderr), "khx: provisional: 0007 accepted\n");
    assert_eq!(text(&output.stdout), "0007 accepted\n");
    assert_eq!(output.status.code(), Some(0));
    let output = khx_reading(&["check", "--stream", "-"], &[0, 0]);
    assert_eq!((output.stdout.len(), output.stderr.len()), (0, 0));
    assert_eq!(output.status.code(), Some(0));
    let endless = khx(&["check", "/dev/zero", "--stream"]);
    assert!(endless.stdout.starts_with(b"pack refused 31\n"));
    let nothing = khx(&["check", "--stream"]);
    assert!(nothing.stdout.starts_with(b"pack refused 30\n"));
}

#[test]
fn bad_usage() {
    assert_fails(&khx(&["check", "--stream", "a", "b"]), 2, "too many: b");
    assert_fails(&khx(&["check", "--stream", "--all"]), 2, "no option --all");
    assert_fails(&khx(&["check", "--stream", "none.pack"]), 2, "none.pack: ");
    assert_fails(&khx(&["check", "--stream", "."]), 2, ".: ");
}

/// Nothing good is said that was not found; but nobody need hear the provisional verdicts.
#[test]
fn told_to_nobody() {
    let pack = file("stream/unheard.pack", &PACK);
    let words = ["check", "--stream", &pack];
    let output = command(&words).stdout(unread_pipe()).output().unwrap();
    assert_eq!(text(&output.stderr), "khx: provisional: 0007 accepted\n");
    assert_eq!(output.status.code(), Some(2));
    let output = command(&words).stderr(unread_pipe()).output().unwrap();
    assert_eq!(text(&output.stdout), "0007 accepted\n");
    assert_eq!(output.status.code(), Some(0));
}
