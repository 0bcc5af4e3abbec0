//! khx shapes: the page of all first bytes, and the rows of some.

mod start;

use second::opcodes::Opcode;
use second::shape::shape;
use start::{assert_fails, assert_prints, khx};

const HEAD: &str = "| first byte | name | length | takes | pushes |\n|---|---|---|---|---|\n";

/// The row that the second implementation has.
fn row(first: u8) -> String {
    match (shape(first), Opcode::of(first)) {
        (Some(row), Some(opcode)) => format!(
            "| {first:02X} | {} | {} | {} | {} |\n",
            opcode.name, row.length, row.taken, row.pushed
        ),
        _ => format!("| {first:02X} | illegal | | | |\n"),
    }
}

/// A heading and some sentences, then the whole table in order.
#[test]
fn the_whole_page() {
    let output = khx(&["shapes"]);
    assert_eq!((output.stderr.len(), output.status.code()), (0, Some(0)));
    let page = String::from_utf8(output.stdout).unwrap();
    assert!(page.starts_with("# Instruction shapes\n\n"), "{page}");
    let (_, table) = page.split_once(&format!("\n\n{HEAD}")).unwrap();
    assert_eq!(table, (0..=255).map(row).collect::<String>());
}

#[test]
fn some_rows() {
    let rows = "\
| 0A | extcall | 1 | 1 | 0 |
| 40 | extcall-imm8 | 2 | 0 | 0 |
| 5A | extcall-imm16 | 3 | 0 | 0 |
| 3B | call-imm8 | 2 | 0 | 1 |
| 31 | shl-imm4 | 2 | 1 | 1 |
| FF | push-values | 9 | 0 | 4 |
| C8 | illegal | | | |
| 5B | illegal | | | |
";
    let output = khx(&["shapes", "a", "40", "5A", "3b", "31", "fF", "c8", "5b"]);
    assert_prints(&output, 0, &format!("{HEAD}{rows}"));
}

#[test]
fn what_is_no_byte() {
    for word in ["", "100", "g0", "+3", "0x3b", "$3B", "3b ", "é"] {
        let told = format!("shapes: {word} is no byte in hex, 00 to FF: see khx shapes --help");
        assert_fails(&khx(&["shapes", "3b", word]), 2, &told);
    }
    assert_fails(&khx(&["shapes", "-1"]), 2, "shapes: there is no option -1");
}
