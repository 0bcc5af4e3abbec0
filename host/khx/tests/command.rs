//! The command as a person starts it.

mod start;

use std::fs;
use std::io::{BufRead, BufReader, Write};
use std::path::{Path, PathBuf};
use std::process::Stdio;

use start::{
    assert_fails, assert_prints, command, file, khx, khx_reading, started, unread_pipe, M1, PACK,
    ROOT,
};

const COMMANDS: [&str; 7] = ["check", "list", "run", "pack", "shapes", "conform", "bench"];

#[test]
fn help() {
    for words in [vec!["--help"], vec!["-h"], vec!["help"]] {
        let output = khx(&words);
        let text = String::from_utf8(output.stdout).unwrap();
        for name in COMMANDS {
            assert!(text.contains(&format!("\n  {name} ")), "{name}");
        }
        assert_eq!(output.status.code(), Some(0));
    }
    for name in COMMANDS {
        let output = khx(&[name, "--help"]);
        let text = String::from_utf8(output.stdout).unwrap();
        assert!(text.contains(&format!("usage: khx {name}")), "{text}");
        assert_eq!(output.status.code(), Some(0));
        assert_eq!(output.stderr, b"");
    }
}

#[test]
fn bad_usage() {
    let m1 = file("usage/m1.rex", &M1);
    let m1 = m1.as_str();
    let wrong: [(&[&str], &str); 24] = [
        (&[], "no command"),
        (&["verify"], "no command verify"),
        (&["help", "me"], "too many: me"),
        (&["check"], "no PACK"),
        (&["check", m1, m1], "too many"),
        (&["check", "--all", m1], "no option --all"),
        (&["list"], "no FILE"),
        (&["list", "--pack", "--program", m1], "--program and --pack"),
        (&["list", "--cells", "1", m1], "without --paths"),
        (&["list", "--paths", "--cells", "65536", m1], "--cells"),
        (
            &["list", "--paths", "--pack", "--cells", "1", m1],
            "a pack states",
        ),
        (&["run", m1], "no TABLE"),
        (&["run", "-", "-"], "standard input"),
        (&["run", m1, m1, "--cells"], "--cells needs a value"),
        (&["run", m1, m1, "--cells", "65536"], "from 0 to 65535"),
        (&["run", m1, m1, "--cells", "x"], "--cells needs a number"),
        (&["run", m1, m1, "--cells", "1", "--cells", "2"], "twice"),
        (&["run", m1, m1, "--budget", "4294967296"], "--budget"),
        (&["run", m1, m1, "--budget", "-1"], "--budget"),
        (&["run", m1, m1, "--fast"], "no option --fast"),
        (&["pack"], "no MANIFEST"),
        (&["pack", m1, "-o"], "-o needs a value"),
        (&["conform", "--third"], "no option --third"),
        (&["conform", m1], "too many"),
    ];
    for (words, told) in wrong {
        assert_fails(&khx(words), 2, told);
    }
    for words in [
        vec!["check", "no such\nfile"],
        vec!["list", "none.rex"],
        vec!["run", "none.rex", m1],
        vec!["run", m1, "none.ttf"],
        vec!["pack", "none.txt"],
        vec!["check", "."],
    ] {
        assert_fails(&khx(&words), 2, "");
    }
}

#[test]
fn check_accepts() {
    let pack = file("accepted.pack", &PACK);
    assert_prints(&khx(&["check", &pack]), 0, "0007 accepted\n");
    assert_prints(&khx_reading(&["check", "-"], &PACK), 0, "0007 accepted\n");
    assert_prints(&khx_reading(&["check", "-"], &[0, 0]), 0, "");
}

/// The verdicts are those that the thin program prints; then each refusal is told.
#[test]
fn check_explains() {
    let pack = format!("{ROOT}/examples/nightly.pack");
    let output = khx(&["check", &pack]);
    let text = String::from_utf8(output.stdout).unwrap();
    let verdicts = fs::read_to_string(format!("{ROOT}/crates/packcheck/stdout")).unwrap();
    let told = text.strip_prefix(&verdicts).unwrap();
    assert!(told.starts_with("\n0020: 1 cell, 4 bytes\n"), "{told}");
    let refused = "
0100: 1 cell, 3 bytes
    0000 push-u8 $01
  > 0001 jump-imm8 $00
  refused 10 at 0001: the address that the instruction leads to is met at two depths
  0001 leads to 0000 with 1 value; 0000 was met first with 0 values, as the program's start
  let every path to an address leave the same number of values
";
    assert!(told.contains(refused), "{told}");
    assert!(told.contains("\n  > 0000 (the program's end)\n"), "{told}");
    assert_eq!(
        told.matches("\n  > ").count(),
        verdicts.matches(" at ").count()
    );
    assert_eq!(output.status.code(), Some(1));
}

#[test]
fn check_refuses_a_pack() {
    let output = khx_reading(&["check", "-"], &PACK[..13]);
    let text = String::from_utf8(output.stdout).unwrap();
    assert!(
        text.starts_with("pack refused 34\n\n34: the bodies do not end"),
        "{text}"
    );
    assert_eq!(output.status.code(), Some(1));
    let endless = khx(&["check", "/dev/zero"]);
    assert!(endless.stdout.starts_with(b"pack refused 31\n"));
}

#[test]
fn list_programs_and_packs() {
    let listing = "0000 push-u8 $05\n0001 push-u8 $03\n0002 sub\n0003 halt\n";
    let program = file("list/m1.rex", &M1);
    assert_prints(&khx(&["list", &program]), 0, listing);
    assert_prints(&khx_reading(&["list", "-"], &M1), 0, listing);
    let pack = file("list/m1.pack", &PACK);
    let rules = format!("0007: 2 cells, 4 bytes\n{listing}");
    assert_prints(&khx(&["list", &pack]), 0, &rules);
    assert_prints(&khx_reading(&["list", "--pack", "-"], &PACK), 0, &rules);
    let output = khx(&["list", &pack, "--program"]);
    assert!(output.stdout.starts_with(b"0000 discard\n0001 halt\n"));
    let nightly = khx(&["list", &format!("{ROOT}/examples/nightly.pack")]);
    let text = String::from_utf8(nightly.stdout).unwrap();
    assert_eq!(text.matches("\n\n").count(), 9);
    assert_eq!(nightly.status.code(), Some(0));
}

#[test]
fn list_refuses() {
    let pack = file("list/bad.pack", &PACK[..13]);
    assert_fails(
        &khx(&["list", &pack]),
        1,
        "bad.pack: refused 34: the bodies",
    );
    let told = "/dev/zero: refused 20: the program is over 16,384 bytes";
    assert_fails(&khx(&["list", "/dev/zero"]), 1, told);
}

#[test]
fn run_to_a_halt() {
    let m1 = file("run/m1.rex", &M1);
    let text = "status halted at 0003\nsteps 4\ndepth 1\nstack FFFE\n";
    assert_prints(&khx(&["run", &m1, "/dev/null"]), 0, text);
    assert_prints(&khx_reading(&["run", "-", "/dev/null"], &M1), 0, text);
    assert_prints(&khx(&["run", "--cells", "2", &m1, "/dev/null"]), 0, text);
    let load = file("run/load.rex", &[0x33, 0x00, 0x33, 0x01, 0x00]);
    let output = khx_reading(&["run", &load, "-"], &[0x12, 0x34]);
    assert_prints(
        &output,
        0,
        "status halted at 0004\nsteps 3\ndepth 2\nstack 0034 0012\n",
    );
}

#[test]
fn run_step_by_step() {
    let m1 = file("trace/m1.rex", &M1);
    let text = "\
0000 push-u8 $05          depth 0: -
0001 push-u8 $03          depth 1: 0005
0002 sub                  depth 2: 0003 0005
0003 halt                 depth 1: FFFE
status halted at 0003
steps 4
depth 1
stack FFFE
";
    assert_prints(&khx(&["run", &m1, "/dev/null", "--trace"]), 0, text);
    let pushes = file("trace/pushes.rex", &[0x81; 10]);
    let output = khx(&["run", &pushes, "/dev/null", "--trace"]);
    let text = String::from_utf8(output.stdout).unwrap();
    assert!(
        text.contains("depth 9: 0001 0001 0001 0001 0001 0001 0001 0001 ..\n"),
        "{text}"
    );
    assert!(
        text.contains("\n000A (the program's end)  depth 10: "),
        "{text}"
    );
    assert!(text.contains("status faulted 1 at 000A"), "{text}");
    assert_eq!(output.status.code(), Some(1));
}

/// A run in stretches comes to the same as a run at once; it has not halted.
#[test]
fn run_out_of_budget() {
    let idle = file("run/idle.rex", &[0x3C, 0x00]);
    for budget in ["0", "1", "2500000"] {
        let output = khx(&["run", &idle, "/dev/null", "--budget", budget]);
        let text = format!(
            "status running at 0000: the budget is used\nsteps {budget}\ndepth 0\nstack -\n"
        );
        assert_prints(&output, 1, &text);
    }
}

#[test]
fn run_faulted_and_refused() {
    let m9 = file("run/m9.rex", &[0xC9, 0x01, 0xFF, 0xFF, 0x20]);
    let text = "status faulted 6 at 0004: a data range: p + w, as a whole number, is over the \
                data's length\nsteps 1\ndepth 2\nstack FFFF 0001\n";
    assert_prints(&khx(&["run", &m9, "/dev/null"]), 1, text);
    let told = "run: refused 21: the data is over 65,535 bytes";
    assert_fails(&khx(&["run", &m9, "/dev/zero", "--trace"]), 1, told);
    let told = "run: refused 20: ";
    assert_fails(&khx(&["run", "/dev/zero", "/dev/null"]), 1, told);
    let words = ["run", &m9, "/dev/null", "--cells", "1025"];
    assert_fails(&khx(&words), 1, "run: refused 22: ");
}

#[test]
fn pack_from_a_manifest() {
    file("pack/m1.rex", &M1);
    file("pack/more/halt.rex", &[0x00]);
    let text = b"# two rules\n0x0007 2 m1.rex\n\n300 0 more/halt.rex\n";
    let manifest = file("pack/rules.txt", text);
    let built = khx(&["pack", &manifest]);
    assert_eq!(built.stderr, b"");
    assert_eq!(built.status.code(), Some(0));
    let verdicts = "0007 accepted\n012C accepted\n";
    assert_prints(&khx_reading(&["check", "-"], &built.stdout), 0, verdicts);

    let target = PathBuf::from(&manifest).with_file_name("rules.pack");
    let target = target.to_str().unwrap();
    assert_prints(&khx(&["pack", "-o", target, &manifest]), 0, "");
    assert_eq!(fs::read(target).unwrap(), built.stdout);
    let to_output = khx(&["pack", &manifest, "-o", "-"]);
    assert_eq!(to_output.stdout, built.stdout);
}

#[test]
fn pack_from_standard_input() {
    file("stdin/m1.rex", &M1);
    let mut child = command(&["pack", "-"]);
    child.current_dir(Path::new(env!("CARGO_TARGET_TMPDIR")).join("stdin"));
    let mut child = child
        .stdin(Stdio::piped())
        .stdout(Stdio::piped())
        .spawn()
        .unwrap();
    let input = child.stdin.take();
    input.unwrap().write_all(b"7 2 m1.rex").unwrap();
    assert_eq!(child.wait_with_output().unwrap().stdout, PACK);
    assert_eq!(khx_reading(&["pack", "-"], b"").stdout, [0, 0]);
}

#[test]
fn pack_refused_at_a_line() {
    file("refused/m1.rex", &M1);
    file("refused/long.rex", &[0; 20_000]);
    file("refused/half.rex", &[0; 16_000]);
    let fails = |text: &str, status, told: &str| {
        let manifest = file("refused/rules.txt", text.as_bytes());
        assert_fails(&khx(&["pack", &manifest]), status, told);
    };
    fails(
        "7 2 m1.rex\n\n7 2 m1.rex\n8 2 m1.rex",
        1,
        "rules.txt:3: refused 32: a tag",
    );
    fails(
        "7 2 m1.rex\n8 1025 m1.rex\n",
        1,
        "rules.txt:2: refused 35: ",
    );
    fails("7 2 long.rex\n", 1, "rules.txt:1: refused 35: ");
    fails(
        "1 0 half.rex\n2 0 half.rex\n",
        1,
        "rules.txt:2: refused 31: ",
    );
    let many: String = (0..66).map(|tag| format!("{tag} 0 m1.rex\n")).collect();
    fails(&many, 1, "rules.txt:65: refused 30: ");
    fails("7 2 m1.rex\n8 m1.rex\n", 2, "rules.txt:2: TAG CELLS FILE");
    fails("\n7 2 none.rex\n", 2, "rules.txt:2: ");
    fails("\n7 2 none.rex\n", 2, "none.rex: No such file");
    let long = format!("7 2 m1.rex\n#{}\n", " ".repeat(1_000_000));
    fails(&long, 2, "rules.txt: over 1000000 bytes");
}

/// The page has each case with its answer below it.
#[test]
fn conform_by_either_engine() {
    let page = fs::read_to_string(format!("{ROOT}/docs/CONFORMANCE.md")).unwrap();
    let examples: Vec<&str> = page.rsplit("```").nth(1).unwrap().trim().lines().collect();
    let mut cases = b"# caf\xE9\n\nrun\n\xFF\n".to_vec();
    let mut answers = b"# caf\xE9\n\nbad case\nbad case\n".to_vec();
    for pair in examples.chunks_exact(2) {
        cases.extend(format!("{}\n", pair[0]).bytes());
        answers.extend(format!("{}\n", pair[1]).bytes());
    }
    assert!(examples.len() >= 8);
    for words in [vec!["conform"], vec!["conform", "--second"]] {
        let output = khx_reading(&words, &cases);
        assert_eq!(output.stdout, answers);
        assert_eq!((output.stderr.len(), output.status.code()), (0, Some(0)));
    }
}

/// Who asks line by line gets each answer before the next question.
#[test]
fn conform_answers_at_once() {
    let mut child = started(&["conform"]);
    let mut input = child.stdin.take().unwrap();
    let mut output = BufReader::new(child.stdout.take().unwrap());
    for _ in 0..3 {
        input.write_all(b"pack 0000\n").unwrap();
        let mut line = String::new();
        output.read_line(&mut line).unwrap();
        assert_eq!(line, "ok 0\n");
    }
    drop(input);
    assert!(child.wait().unwrap().success());
}

/// A reader that goes away ends the command quietly.
#[test]
fn a_closed_pipe() {
    let mut child = started(&["conform"]);
    drop(child.stdout.take());
    let mut input = child.stdin.take().unwrap();
    // The command may be gone before all is written.
    let _ = input.write_all(&b"pack 0000\n".repeat(100_000));
    drop(input);
    let output = child.wait_with_output().unwrap();
    assert_eq!(String::from_utf8_lossy(&output.stderr), "");
    assert_eq!(output.status.code(), Some(0));
}

/// Text that nobody reads on is no error; but what was refused is not good because
/// nobody read it, and a pack that nobody took is not written.
#[test]
fn a_verdict_that_nobody_reads() {
    let unread = |words: &[&str]| {
        let output = command(words).stdout(unread_pipe()).output().unwrap();
        assert_eq!(String::from_utf8_lossy(&output.stderr), "");
        output.status.code()
    };
    let m1 = file("unread/m1.rex", &M1);
    let manifest = file("unread/rules.txt", b"7 2 m1.rex\n");
    let pack = file("unread/rules.pack", &PACK);
    assert_eq!(unread(&["run", &m1, "/dev/null", "--verdict"]), Some(2));
    assert_eq!(unread(&["check", &pack]), Some(2));
    assert_eq!(unread(&["pack", &manifest]), Some(2));
    assert_eq!(unread(&["list", &m1]), Some(0));
    assert_eq!(unread(&["--help"]), Some(0));
}

/// A table whose file is named as the option for help is not told as good.
#[test]
fn help_beside_other_words() {
    let halts = file("helped/halts.rex", &[0x81, 0x00]);
    for option in ["-h", "--help"] {
        let output = khx(&["run", &halts, option, "--verdict"]);
        assert_fails(
            &output,
            2,
            &format!("run: there is no option {option}: see khx run --help"),
        );
    }
}

#[test]
fn an_output_that_takes_nothing() {
    let m1 = file("full/m1.rex", &M1);
    let full = fs::OpenOptions::new().write(true).open("/dev/full");
    let output = command(&["list", &m1]).stdout(full.unwrap()).output();
    assert_fails(&output.unwrap(), 2, "standard output: ");
}
