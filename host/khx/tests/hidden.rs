//! A rule that a straight listing hides: the warnings, and the listing of its paths.

mod start;

use std::process::Command;

use khalixoshi::pack::{build, Rule};
use start::{assert_fails, assert_prints, file, khx, khx_reading, ROOT};

/// Straight on it compares, and says 1; but it jumps into the comparison's operand,
/// where it says 2.
const HIDES: [u8; 7] = [0x3C, 0x03, 0x41, 0x82, 0x00, 0x81, 0x00];
const LINES: &str = "\
0000 jump-imm8 $03
0002 eq--imm16 $0082
0005 push-u8 $01
0006 halt
";
const PATHS: &str = "\
0000 jump-imm8 $03 -> L0003           depth 0
0002 .. 0002  no path meets: 41
L0003:
0003 push-u8 $02                      depth 0
0004 halt                             depth 1
0005 .. 0006  no path meets: 81 00
";
const WARNING: &str =
    "the listing hides what runs: a path meets 0003, inside the instruction at 0002 \
                       (eq--imm16 $0082), and 1 more such place; khx list --paths shows what runs";

/// One that counts down: every address that a path meets is a line.
const STRAIGHT: [u8; 11] = [
    0x83, 0x37, 0x00, 0x3D, 0x06, 0x00, 0x33, 0x00, 0x1A, 0x3C, 0x01,
];

/// A pack of some rules, from the tag 7 on.
fn pack(bodies: &[&[u8]], cells: u16) -> Vec<u8> {
    let rules = (7..).zip(bodies);
    let rules = rules.map(|(tag, body)| Rule { tag, cells, body });
    build(&rules.collect::<Vec<_>>()).unwrap()
}

#[test]
fn a_listing_warns() {
    let program = file("hidden/hides.rex", &HIDES);
    let output = khx(&["list", &program]);
    let listing = String::from_utf8(output.stdout).unwrap();
    assert_eq!(listing, format!("# warning: {WARNING}\n{LINES}"));
    let told = format!("khx: warning: {program}: {WARNING}\n");
    assert_eq!(String::from_utf8_lossy(&output.stderr), told);
    assert_eq!(output.status.code(), Some(0));

    let output = khx_reading(&["list", "--pack", "-"], &pack(&[&STRAIGHT, &HIDES], 1));
    let listing = String::from_utf8(output.stdout).unwrap();
    let rule = format!("\n0008: 1 cell, 7 bytes\n# warning: {WARNING}\n{LINES}");
    assert!(listing.ends_with(&rule), "{listing}");
    assert_eq!(listing.matches("warning").count(), 1);
    let told = format!("khx: warning: standard input: 0008: {WARNING}\n");
    assert_eq!(String::from_utf8_lossy(&output.stderr), told);
    assert_eq!(output.status.code(), Some(0));
}

/// With the warning in it, the listing is still a source of the same program.
#[test]
fn a_listing_that_warns_is_a_source() {
    let program = file("source/hides.rex", &HIDES);
    let listing = khx(&["list", &program]).stdout;
    let source = file("source/listing.txt", &listing);
    let assemble = format!("{ROOT}/tools/assemble");
    let made = Command::new(assemble).arg(source).output().unwrap();
    assert_eq!(made.stdout, HIDES);
}

/// Not accepted, so no path is known: what the lines name is looked at.
#[test]
fn a_listing_of_what_is_refused_warns() {
    let warns = |program: &[u8], told: &str| {
        let output = khx_reading(&["list", "-"], program);
        let error = String::from_utf8(output.stderr).unwrap();
        let beginning = "khx: warning: standard input: the listing may hide what runs: ";
        assert_eq!(error, format!("{beginning}{told}\n"));
        assert!(output
            .stdout
            .starts_with(b"# warning: the listing may hide"));
        assert_eq!(output.status.code(), Some(0));
    };
    let inside = "a jump or a call leads to 0005, inside the instruction at 0004 (eq--imm16 $0082)";
    for code in [0x3B, 0x3C, 0x3D, 0x3E] {
        warns(&[0x05, 0x05, code, 0x05, 0x41, 0x82, 0x00], inside);
    }
    for code in [0x55, 0x56, 0x57, 0x58] {
        warns(&[0x05, code, 0x05, 0x00, 0x41, 0x82, 0x00], inside);
    }
    // by the stack it goes to 0004, where it says 1; the lines have a comparison there
    for (code, name) in (5..=8).zip(["call", "jump", "jump-if", "jump-if-not"]) {
        let told = format!("0001 ({name}) leads to where the stack says");
        warns(&[0x84, code, 0x41, 0x00, 0x81, 0x00], &told);
    }
    let silent = |program: &[u8]| {
        let output = khx_reading(&["list", "-"], program);
        assert_eq!(String::from_utf8_lossy(&output.stderr), "");
        assert!(!output.stdout.starts_with(b"#"));
    };
    // to a line, to the end, past it; and a call of a function that has the number
    silent(&[0x09, 0x09, 0x3C, 0x04, 0x41, 0x82, 0x00]);
    silent(&[0x09, 0x09, 0x3C, 0x07, 0x41, 0x82, 0x00]);
    silent(&[0x09, 0x09, 0x3C, 0xFF, 0x41, 0x82, 0x00]);
    silent(&[0x09, 0x09, 0x3F, 0x05, 0x41, 0x82, 0x00]);
    // by the stack, where every byte is a line
    silent(&[0x82, 0x06, 0x81, 0x00]);
}

/// The verdicts and the exit status are those of an accepted pack.
#[test]
fn check_warns() {
    let output = khx_reading(&["check", "-"], &pack(&[&STRAIGHT, &HIDES], 1));
    let told = format!(
        "\
0007 accepted
0008 accepted

0008: 1 cell, 7 bytes
    0000 jump-imm8 $03
    0002 eq--imm16 $0082
  > 0003 push-u8 $02
    0004 halt
    0005 push-u8 $01
    0006 halt
  warning: 0008: {WARNING}
"
    );
    assert_prints(&output, 0, &told);
}

#[test]
fn paths_of_a_program_and_of_a_pack() {
    let program = file("paths/hides.rex", &HIDES);
    assert_prints(&khx(&["list", "--paths", &program]), 0, PATHS);
    let words = ["list", &program, "--cells", "1", "--paths"];
    assert_prints(&khx(&words), 0, PATHS);

    let pack = pack(&[&[0x80, 0x80], &HIDES], 1);
    let rules = format!(
        "\
0007: 1 cell, 2 bytes
refused 5 at 0001: depth less taken plus pushed exceeds the cells (it comes with 1 value, takes 0 and pushes 1: \
that needs 2 cells (given: 1); with 1,024 it is refused 1 at 0001: the instruction leads to the program's end or \
past it)

0008: 1 cell, 7 bytes
{PATHS}"
    );
    let output = khx_reading(&["list", "--paths", "--pack", "-"], &pack);
    assert_prints(&output, 1, &rules);
}

#[test]
fn paths_of_what_is_refused() {
    let program = file("paths/few.rex", &HIDES);
    let told = "few.rex: refused 5 at 0003: depth less taken plus pushed exceeds the cells (";
    let words = ["list", "--paths", "--cells", "0", &program];
    assert_fails(&khx(&words), 1, told);
    let told = "few.rex: refused 22: the stack is over 1,024 cells\n";
    let words = ["list", "--paths", "--cells", "1025", &program];
    assert_fails(&khx(&words), 1, told);
    let empty = khx(&["list", "--paths", "/dev/null"]);
    assert_fails(&empty, 1, "refused 1 at 0000: ");
}

/// Instructions that share bytes are both there, each at its own address.
#[test]
fn paths_that_overlap() {
    let program = [0xC0, 0x3C, 0x01, 0x3C, 0x01];
    let text = "\
0000 push-values $3C                  depth 0
L0001:
0001 jump-imm8 $01 -> L0001           depth 0  (inside the instruction at 0000)
0002 discard                          depth 1  (inside the instruction at 0001)
0003 jump-imm8 $01 -> L0001           depth 0
";
    assert_prints(&khx_reading(&["list", "--paths", "-"], &program), 0, text);
}

#[test]
fn bytes_that_no_path_meets() {
    let mut program = vec![0x3C, 0x15];
    program.extend(0..19);
    program.push(0x00);
    let text = "\
0000 jump-imm8 $15 -> L0015           depth 0
0002 .. 0011  no path meets: 00 01 02 03 04 05 06 07 08 09 0A 0B 0C 0D 0E 0F
0012 .. 0014  no path meets: 10 11 12
L0015:
0015 halt                             depth 0
";
    assert_prints(&khx_reading(&["list", "--paths", "-"], &program), 0, text);
}

/// What ships hides nothing.
#[test]
fn nothing_is_said_where_nothing_is_hidden() {
    for name in [
        "countdown.rex",
        "rules/cmap.rex",
        "rules/os2.rex",
        "fonts.pack",
        "nightly.pack",
    ] {
        let output = khx(&["list", &format!("{ROOT}/examples/{name}")]);
        assert_eq!(String::from_utf8_lossy(&output.stderr), "", "{name}");
        assert!(
            !String::from_utf8_lossy(&output.stdout).contains('#'),
            "{name}"
        );
    }
    let output = khx(&["check", &format!("{ROOT}/examples/fonts.pack")]);
    let text = String::from_utf8(output.stdout).unwrap();
    assert!(
        text.lines().all(|line| line.ends_with(" accepted")),
        "{text}"
    );
}
