//! khx run over tables laid out by the convention of examples/README.md: the verdict,
//! the bytes asked for, and the exit status by which no table passes that is not good.

mod start;

use khalixoshi::tables::{Facts, Lending, Preamble, BUDGET, PIECE, PREAMBLE};
use start::{assert_fails, assert_prints, file, khx, ROOT};

/// Whether the table begins with 7: 1, good, or 5, the reason why not.
const SEVEN: &[u8] = &[
    0x33, 0x40, // 0000 ld-u8--imm8 table
    0x25, 0x07, // 0002 eq--imm8 7
    0x3D, 0x08, // 0004 jump-imm8-if 0008
    0x85, 0x00, // 0006 push-u8 5, halt
    0x81, 0x00, // 0008 push-u8 1, halt
];

/// Asks for the last byte of the table, then says it.
const LAST: &[u8] = &[
    0x34, 0x08, // 0000 ld-u16-imm8 start
    0x3D, 0x15, // 0002 jump-imm8-if 0015
    0x34, 0x04, // 0004 ld-u16-imm8 length
    0x1A, // 0006 dec
    0x38, 0x1C, // 0007 st-u16-imm8 next_start
    0x01, // 0009 discard
    0x34, 0x06, // 000A ld-u16-imm8 length+2
    0x38, 0x1E, // 000C st-u16-imm8 next_start+2
    0x01, // 000E discard
    0x82, // 000F push-u8 2
    0x38, 0x1A, // 0010 st-u16-imm8 next_lent
    0x01, // 0012 discard
    0x80, 0x00, // 0013 push-u8 0, halt
    0x33, 0x40, // 0015 ld-u8--imm8 table
    0x00, // 0017 halt
];

/// The file of a table laid out whole.
fn laid_out(name: &str, table: &[u8]) -> String {
    let facts = Facts::default();
    let mut lending = Lending::new(table, &facts, BUDGET).unwrap();
    let mut bytes = lending.data()[..PREAMBLE].to_vec();
    bytes.extend(table);
    file(name, &bytes)
}

#[test]
fn good_and_refused() {
    let rule = file("verdict/seven.rex", SEVEN);
    let good = laid_out("verdict/good", &[7, 8, 9]);
    let bad = laid_out("verdict/bad", &[9, 8, 7]);
    assert_prints(&khx(&["run", &rule, &good, "--verdict"]), 0, "good\n");
    assert_prints(&khx(&["run", "--verdict", &rule, &bad]), 1, "refused 5\n");
    let text = "status halted at 0009\nsteps 5\ndepth 1\nstack 0001\nverdict: good\n";
    assert_prints(&khx(&["run", &rule, &good]), 0, text);
    let text = "status halted at 0007\nsteps 5\ndepth 1\nstack 0005\nverdict: refused 5\n";
    assert_prints(&khx(&["run", &rule, &bad]), 1, text);
}

#[test]
fn no_verdict() {
    let none = |name: &str, rule: &[u8], words: &[&str], status: &str, why: &str| {
        let rule = file(&format!("none/{name}.rex"), rule);
        let table = laid_out(&format!("none/{name}"), &[]);
        let all = [&["run", &rule, &table][..], words].concat();
        let line = format!("no verdict: {why}\n");
        assert_prints(&khx(&all), 1, &format!("{status}{line}"));
        assert_prints(&khx(&[&all[..], &["--verdict"]].concat()), 1, &line);
    };
    let fault = "status faulted 6 at 0000: a data range: p + w, as a whole number, is over the \
                 data's length\nsteps 0\ndepth 0\nstack -\n";
    none("empty", SEVEN, &[], fault, "fault 6 at 0000");
    let status = "status running at 0000: the budget is used\nsteps 20000000\ndepth 0\nstack -\n";
    none("idle", &[0x3C, 0x00], &[], status, "the budget is used");
    let two = "status halted at 0002\nsteps 3\ndepth 2\nstack 0001 0001\n";
    let why = "it halted with 2 values on the stack, not one";
    none("two", &[0x81, 0x81, 0x00], &[], two, why);
    let status = "status halted at 0014\nsteps 14\ndepth 1\nstack 0000\n";
    let why = "it asks for bytes from 65535 on, and the table has 0";
    none("outside", LAST, &[], status, why);
}

/// The verdict has the number, and a hint beside it what the number means.
#[test]
fn a_rule_that_is_refused() {
    let table = laid_out("unverified/table", &[7]);
    let refused = |name: &str, rule: &[u8], cells: &str, why: &str, hint: &str| {
        let rule = file(&format!("unverified/{name}.rex"), rule);
        for words in [&[][..], &["--verdict"]] {
            let output = khx(&[&["run", &rule, &table, "--cells", cells], words].concat());
            let line = format!("no verdict: the rule is refused by {why}\n");
            assert_eq!(String::from_utf8_lossy(&output.stdout), line);
            let error = String::from_utf8_lossy(&output.stderr);
            assert_eq!(error, format!("khx: hint: refused {hint}\n"));
            assert_eq!(output.status.code(), Some(1));
        }
    };
    let few = "5 at 0000: depth less taken plus pushed exceeds the cells (it comes with 0 values, \
               takes 0 and pushes 1: that needs 1 cell (given: 0); with 1 it is accepted)";
    refused("cells", SEVEN, "0", "5 at 0000", few);
    let over = "22: the stack is over 1,024 cells";
    refused("many", SEVEN, "1025", "22", over);
    let long = "20: the program is over 16,384 bytes";
    refused("long", &[0; 16_385], "1", "20", long);
}

/// The bytes lent count, in the first run too.
#[test]
fn a_small_budget() {
    let rule = file("budget/seven.rex", SEVEN);
    let table = laid_out("budget/table", &[7, 8, 9]);
    let used = "no verdict: the budget is used\n";
    let with = |budget| khx(&["run", &rule, &table, "--budget", budget]);
    assert_prints(&with("2"), 1, used);
    let status = "status running at 0009: the budget is used\nsteps 4\ndepth 1\nstack 0001\n";
    assert_prints(&with("7"), 1, &format!("{status}{used}"));
    let text = "status halted at 0009\nsteps 5\ndepth 1\nstack 0001\nverdict: good\n";
    assert_prints(&with("8"), 0, text);
}

#[test]
fn bytes_asked_for() {
    let rule = file("asks/last.rex", LAST);
    let mut table = vec![0; 70_000];
    table[69_999] = 1;
    let good = laid_out("asks/good", &table);
    assert_prints(&khx(&["run", &rule, &good, "--verdict"]), 0, "good\n");
    let text = "status halted at 0017\nsteps 18\ndepth 1\nstack 0001\nverdict: good\n";
    assert_prints(&khx(&["run", &rule, &good]), 0, text);
    let output = khx(&["run", &rule, &good, "--trace"]);
    let traced = String::from_utf8(output.stdout).unwrap();
    let between = "\
0013 push-u8 $00          depth 0: -
0014 halt                 depth 1: 0000
-- lent 1 byte from 69999 on
0000 ld-u16-imm8 $08      depth 0: -
0002 jump-imm8-if $15     depth 1: 116F
0015 ld-u8--imm8 $40      depth 0: -
0017 halt                 depth 1: 0001
";
    assert!(traced.ends_with(&format!("{between}{text}")), "{traced}");
    let output = khx(&["run", &rule, &good, "--trace", "--verdict"]);
    let traced = String::from_utf8(output.stdout).unwrap();
    assert!(traced.ends_with(&format!("{between}good\n")), "{traced}");
    table[69_999] = 9;
    let bad = laid_out("asks/bad", &table);
    assert_prints(&khx(&["run", &rule, &bad, "--verdict"]), 1, "refused 9\n");
}

/// There is no verdict, the status tells, and a hint says what to do.
fn assert_not_laid_out(words: &[&str]) {
    let output = khx(words);
    let none = "no verdict: the data does not begin with the mark\n";
    assert_eq!(String::from_utf8_lossy(&output.stdout), none, "{words:?}");
    let hint = "khx: hint: TABLE is not laid out: tools/lend FONT TABLE writes it\n";
    assert_eq!(String::from_utf8_lossy(&output.stderr), hint, "{words:?}");
    assert_eq!(output.status.code(), Some(1), "{words:?}");
}

/// A table as it stands in the font is run over as it stands, and has no verdict.
#[test]
fn without_the_mark() {
    let one = file("unmarked/one.rex", &[0x81, 0x00]);
    let raw = file("unmarked/table", &[7; 200]);
    for table in [&raw, "/dev/zero", "/dev/null"] {
        assert_not_laid_out(&["run", &one, table, "--verdict"]);
    }
    let text = "status halted at 0001\nsteps 2\ndepth 1\nstack 0001\n";
    assert_prints(&khx(&["run", &one, &raw]), 0, text);
}

/// A rule that keeps the convention says nothing of bare bytes, whether the verdict is
/// asked for or not.
#[test]
fn a_shipped_rule_without_the_mark() {
    let raw = file("unmarked/raw", &[1; 200]);
    for name in [
        "head", "maxp", "hhea", "hmtx", "os2", "post", "cmap", "loca",
    ] {
        let rule = format!("{ROOT}/examples/rules/{name}.rex");
        assert_not_laid_out(&["run", &rule, &raw]);
        assert_not_laid_out(&["run", &rule, &raw, "--trace"]);
        assert_not_laid_out(&["run", &rule, "/dev/null", "--verdict"]);
    }
}

/// What begins with the mark must be a whole table, laid out for a first run.
#[test]
fn laid_out_wrong() {
    let one = file("wrong/one.rex", &[0x81, 0x00]);
    let fails = |preamble: Preamble, behind: usize, told: &str| {
        let bytes = [&preamble.bytes()[..], &vec![0; behind]].concat();
        let table = file("wrong/table", &bytes);
        for words in [
            &["run", &one, &table][..],
            &["run", &one, &table, "--verdict"],
        ] {
            assert_fails(&khx(words), 2, &format!("wrong/table: {told}"));
        }
    };
    let of = |length: usize| Preamble {
        length: length as u32,
        lent: length.min(PIECE) as u16,
        ..Preamble::default()
    };
    let told = "it tells of a table of 54 bytes, and has 53";
    fails(of(54), 53, told);
    fails(of(54), 55, "it tells of a table of 54 bytes, and has more");
    fails(
        of(u32::MAX as usize),
        0,
        "it tells of a table of 4294967295 bytes",
    );
    let told = "it tells of a table of 140000 bytes, and has 65468";
    fails(of(140_000), PIECE, told);
    let later = Preamble { start: 4, ..of(10) };
    fails(later, 6, "it has bytes of a table from 4 on");
    let not_first = "its first 64 bytes are not those of a first run";
    let used = Preamble {
        own: [1; 32],
        ..of(10)
    };
    fails(used, 10, not_first);
    fails(Preamble { lent: 9, ..of(10) }, 10, not_first);
    let asked = Preamble {
        next_start: 1,
        ..of(10)
    };
    fails(asked, 10, not_first);
    let cut = file("wrong/cut", &of(0).bytes()[..63]);
    let told = "it begins with the mark and has no 64 bytes";
    assert_fails(&khx(&["run", &one, &cut]), 2, told);
}

/// The help has the budget that holds without one.
#[test]
fn the_budget_of_the_help() {
    let output = khx(&["run", "--help"]);
    let text = String::from_utf8(output.stdout).unwrap();
    assert!(text.contains(&format!("; {BUDGET} without it)")), "{text}");
}
