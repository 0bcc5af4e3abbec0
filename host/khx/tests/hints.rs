//! Hints at the likely cause where a file is not what it was given for; and none elsewhere.

mod start;

use std::fs;
use std::path::Path;

use khalixoshi::tables::{Facts, Lending, BUDGET};
use start::{assert_fails, assert_prints, file, khx, M1, PACK, ROOT};

const SOURCE: &str = "# a rule\n        push-u8  1      # good\nend:    halt\n";
const MANIFEST: &str = "# rules\n7 2 m1.rex\n";

/// A font of one table, which has a name, and of a kind by its first bytes.
fn font(kind: &[u8; 4]) -> Vec<u8> {
    let mut font = kind.to_vec();
    font.extend([0, 1, 0, 16, 0, 0, 0, 0]);
    font.extend(b"head\0\0\0\0\0\0\0\x1C\0\0\0\x04\x01\x02\x03\x04");
    font
}

/// The file of a table of zeros, laid out.
fn laid_out(name: &str) -> String {
    let mut lending = Lending::new(&[0; 54], &Facts::default(), BUDGET).unwrap();
    file(name, lending.data())
}

/// The hint that is told on standard error, beside what is printed.
fn told(words: &[&str], status: i32) -> String {
    let output = khx(words);
    assert_eq!(output.status.code(), Some(status));
    assert!(!output.stdout.is_empty());
    let error = String::from_utf8(output.stderr).unwrap();
    let hint = error
        .strip_prefix("khx: hint: ")
        .unwrap_or_else(|| panic!("{error}"));
    let hint = hint.strip_suffix('\n').unwrap();
    assert!(!hint.contains('\n'), "{error}");
    hint.to_string()
}

fn untold(words: &[&str]) {
    let output = khx(words);
    assert_eq!(String::from_utf8_lossy(&output.stderr), "", "{words:?}");
    let text = String::from_utf8_lossy(&output.stdout);
    assert!(!text.contains("hint"), "{words:?}: {text}");
}

#[test]
fn listed_for_a_program() {
    let pack = file("list_hints/rules.bin", &PACK);
    let hint = format!("it is a rule pack: khx check {pack}, or khx list --pack {pack}");
    assert_eq!(told(&["list", &pack], 0), hint);
    assert_fails(
        &khx(&["list", "--paths", &pack]),
        1,
        &format!("takes 1) (hint: {hint})"),
    );
    let source = file("list_hints/rule.txt", SOURCE.as_bytes());
    let hint =
        format!("it looks like a source: tools/assemble {source} -o PROGRAM makes the program");
    assert_eq!(told(&["list", &source], 0), hint);
    let manifest = file("list_hints/rules.txt", MANIFEST.as_bytes());
    let hint = format!("it looks like a manifest: khx pack {manifest} -o PACK");
    assert_eq!(told(&["list", &manifest], 0), hint);
    for kind in [b"\0\x01\0\0", b"OTTO", b"true"] {
        let font = file("list_hints/font.ttf", &font(kind));
        let hint = format!("it is a font: tools/lend {font} TABLE writes one table's data");
        assert_eq!(told(&["list", &font], 0), hint);
    }
    let collection = file("list_hints/fonts.ttc", b"ttcf\0\x01\0\0\0\0\0\x01");
    assert!(told(&["list", &collection], 0).starts_with("it is a font"));
    // Who says that it is a program is believed.
    untold(&["list", "--program", &pack]);
}

#[test]
fn run_for_a_program() {
    let pack = file("run_hints/rules.bin", &PACK);
    let hint = format!("PROGRAM is a rule pack: khx check {pack}, or khx list --pack {pack}");
    assert_eq!(told(&["run", &pack, "/dev/null"], 1), hint);
    let table = laid_out("run_hints/zeros.data");
    assert_eq!(told(&["run", &pack, &table], 1), hint);
    let broken = file("run_hints/broken.pack", &PACK[..12]);
    let hint = format!("PROGRAM is named as a rule pack: khx check {broken}");
    assert_eq!(told(&["run", &broken, "/dev/null"], 1), hint);
    let source = file("run_hints/rule.txt", SOURCE.as_bytes());
    assert!(told(&["run", &source, "/dev/null"], 1).starts_with("PROGRAM looks like a source: "));
    // Too long for a program: the hint is behind the refusal.
    let mut long = font(b"OTTO");
    long.resize(70_000, 0);
    let long = file("run_hints/long.otf", &long);
    let told = format!(
        "refused 20: the program is over 16,384 bytes (hint: PROGRAM is a font: tools/lend {long} "
    );
    assert_fails(&khx(&["run", &long, "/dev/null"]), 1, &told);
}

#[test]
fn run_over_a_font() {
    let program = file("table_hints/m1.rex", &M1);
    let mut bytes = font(b"\0\x01\0\0");
    let font = file("table_hints/font.ttf", &bytes);
    let hint = format!("TABLE is a font: tools/lend {font} TABLE writes one table's data");
    assert_eq!(told(&["run", &program, &font], 0), hint);
    assert_eq!(told(&["run", &program, &font, "--verdict"], 1), hint);
    bytes.resize(70_000, 0);
    let font = file("table_hints/long.ttf", &bytes);
    let told = format!(
        "refused 21: the data is over 65,535 bytes (hint: TABLE is a font: tools/lend {font} "
    );
    assert_fails(&khx(&["run", &program, &font]), 1, &told);
}

#[test]
fn program_and_table_exchanged() {
    let exchanged = "are PROGRAM and TABLE exchanged?";
    let program = file("exchanged/m1.rex", &M1);
    // the bytes lent, a table that begins with 0, a font, nothing at all
    let table = file("exchanged/head.data", b"KHX1\x36\0\0\0");
    assert_eq!(told(&["run", &table, &program], 1), exchanged);
    let zeros = file("exchanged/zeros.data", &[0; 20]);
    assert_eq!(told(&["run", &zeros, &program], 0), exchanged);
    let font = file("exchanged/font.ttf", &font(b"true"));
    assert_eq!(told(&["run", &font, &program], 1), exchanged);
    assert_eq!(told(&["run", "/dev/null", &program], 1), exchanged);
    // A program that is not accepted has only its name.
    let calls = file("exchanged/calls.rex", &[0x3B, 0x02, 0x00]);
    assert_eq!(told(&["run", &table, &calls], 1), exchanged);
    let mut long = b"KHX1".to_vec();
    long.resize(20_000, 1);
    let long = file("exchanged/long.data", &long);
    let told = format!("run: refused 20: the program is over 16,384 bytes (hint: {exchanged})");
    assert_fails(&khx(&["run", &long, &program]), 1, &told);
}

#[test]
fn checked_for_a_pack() {
    let hints = |name: &str, bytes: &[u8], hint: &str| {
        let given = file(&format!("check_hints/{name}"), bytes);
        let output = khx(&["check", &given]);
        assert_eq!(String::from_utf8_lossy(&output.stderr), "");
        let text = String::from_utf8(output.stdout).unwrap();
        assert!(text.starts_with("pack refused 3"), "{text}");
        let hint = hint.replace("FILE", &given);
        assert!(text.ends_with(&format!("\n  hint: it {hint}\n")), "{text}");
        assert_eq!(output.status.code(), Some(1));
        let listed = khx(&["list", "--pack", &given]);
        assert_fails(&listed, 1, &format!(" (hint: it {hint})"));
    };
    let source = "looks like a source: tools/assemble FILE -o PROGRAM makes the program";
    hints("rule.txt", SOURCE.as_bytes(), source);
    hints("listing", b"0000 push-u8 $05\n0001 halt\n", source);
    hints("includes", b"\ninclude preamble.txt\n", source);
    hints(
        "rules.txt",
        MANIFEST.as_bytes(),
        "looks like a manifest: khx pack FILE -o PACK",
    );
    hints("m1", &M1, "looks like a program: khx list FILE");
    hints(
        "calls.rex",
        &[0x3B, 0x02, 0x00],
        "looks like a program: khx list FILE",
    );
    let lend = "is a font: tools/lend FILE TABLE writes one table's data";
    hints("font.ttf", &font(b"OTTO"), lend);
    let compressed =
        "is a WOFF font: unpack it to a plain one, of which tools/lend writes one table's data";
    hints("font.woff", b"wOFF\0\x01\0\0", compressed);
    hints("font.woff2", &b"wOF2".repeat(10_000), compressed);
    let mut lending = Lending::new(&[0; 54], &Facts::default(), BUDGET).unwrap();
    let laid_out = "is a table laid out: khx run PROGRAM FILE runs a rule over it";
    hints("head.data", lending.data(), laid_out);
}

#[test]
fn packed_from_what_is_no_manifest() {
    let fails = |name: &str, bytes: &[u8], hint: &str| {
        let given = file(&format!("pack_hints/{name}"), bytes);
        let hint = format!("(hint: it {})\n", hint.replace("FILE", &given));
        assert_fails(&khx(&["pack", &given]), 2, &hint);
    };
    let pack = "is a rule pack: khx check FILE, or khx list --pack FILE";
    fails("rules.pack", &PACK, pack);
    fails(
        "broken.pack",
        &PACK[..9],
        "is named as a rule pack: khx check FILE",
    );
    fails("m1.rex", &M1, "looks like a program: khx list FILE");
    let source = "looks like a source: tools/assemble FILE -o PROGRAM makes the program";
    fails("rule.txt", SOURCE.as_bytes(), source);
}

/// The pack is not written over the manifest.
#[test]
fn manifest_and_target_exchanged() {
    let told = "(hint: are MANIFEST and the FILE of -o exchanged?)\n";
    let manifest = file("pack_exchanged/rules.txt", MANIFEST.as_bytes());
    let pack = file("pack_exchanged/rules.pack", &PACK);
    assert_fails(&khx(&["pack", &pack, "-o", &manifest]), 2, told);
    let none = format!("{pack}.new");
    assert_fails(&khx(&["pack", &none, "-o", &manifest]), 2, told);
    assert_eq!(fs::read(&manifest).unwrap(), MANIFEST.as_bytes());
}

/// The pack is made as its manifest says.
#[test]
fn a_rule_that_is_no_program() {
    let source = file("rule_hints/m1.rex", SOURCE.as_bytes());
    let manifest = file("rule_hints/rules.txt", MANIFEST.as_bytes());
    let hint = format!(
        "{source} looks like a source: tools/assemble {source} -o PROGRAM makes the program"
    );
    assert_eq!(told(&["pack", &manifest], 0), hint);
    // Too long for a rule: the hint is behind the refusal.
    file("rule_hints/m1.rex", SOURCE.repeat(500).as_bytes());
    let told = format!(
        "rules.txt:2: refused 35: an entry of over 1,024 cells or 16,384 bytes (hint: {hint})"
    );
    assert_fails(&khx(&["pack", &manifest]), 1, &told);
}

#[test]
fn none_where_all_is_well() {
    let examples = Path::new(ROOT).join("examples");
    let example = |name: &str| examples.join(name).to_str().unwrap().to_string();
    for pack in ["fonts.pack", "nightly.pack"] {
        untold(&["check", &example(pack)]);
        untold(&["list", &example(pack)]);
        untold(&["list", "--paths", &example(pack)]);
    }
    untold(&["pack", &example("fonts.txt")]);
    let rules = fs::read_dir(examples.join("rules")).unwrap();
    let rules = rules.map(|rule| rule.unwrap().path());
    let programs: Vec<_> = rules
        .filter(|rule| rule.extension() == Some("rex".as_ref()))
        .collect();
    assert!(programs.len() >= 8);
    let table = laid_out("well/head.data");
    for program in programs {
        let program = program.to_str().unwrap();
        untold(&["list", program]);
        untold(&["list", "--paths", program]);
        untold(&["run", program, &table]);
    }
    let m1 = file("well/m1.rex", &M1);
    let plain = file("well/plain", &M1);
    untold(&["list", &plain]);
    untold(&["run", &plain, "/dev/null"]);
    // A table of a font on its own begins as a font does; a program may be data.
    let head = file(
        "well/head",
        b"\0\x01\0\0\0\x01\0\0\0\0\0\0\x5F\x0F\x3C\xF5\0\0\0\0\0\0\0\0\0\0\0\0",
    );
    untold(&["run", &m1, &head]);
    untold(&["run", &m1, &plain]);
    // A good program may be named as it likes, and two halts are a pack without rules.
    let odd = file("well/odd.pack", &M1);
    untold(&["run", &odd, "/dev/null"]);
    let halts = file("well/halts", &[0x00, 0x00]);
    untold(&["list", &halts]);
    untold(&["run", &halts, "/dev/null"]);
    // A program may be refused by the verifier, and run for all that.
    let calls = file("well/calls", &[0x3B, 0x02, 0x00]);
    untold(&["list", &calls]);
    untold(&["run", &calls, &plain]);
    let halt = file("well/halt", &[0x00]);
    assert_prints(&khx(&["list", &halt]), 0, "0000 halt\n");
    untold(&["run", &halt, "/dev/null"]);
    // A broken file that looks like nothing.
    let junk = file("well/junk", &[0x7F, 0xFF, 0x00, 0xFE]);
    untold(&["check", &junk]);
    untold(&["list", &junk]);
    let prose = file(
        "well/prose.txt",
        b"Rules of a font sanitiser,\nand what they are for.\n",
    );
    untold(&["check", &prose]);
    assert_fails(&khx(&["pack", &prose]), 2, "0x0 to 0xFFFF\n");
}
