//! How khx check tells that a rule comes to its refusal.

mod start;

use khalixoshi::pack::{build, Rule};
use start::khx_reading;

/// What is said below the listing around the instruction refused.
fn told(body: &[u8], cells: u16) -> String {
    let rule = Rule {
        tag: 7,
        cells,
        body,
    };
    let output = khx_reading(&["check", "-"], &build(&[rule]).unwrap());
    assert_eq!(String::from_utf8_lossy(&output.stderr), "");
    assert_eq!(output.status.code(), Some(1));
    let text = String::from_utf8(output.stdout).unwrap();
    let (_, told) = text.split_once("  refused ").unwrap();
    told.to_string()
}

#[test]
fn led_out_of_the_program() {
    let out = "the instruction leads to the program's end or past it";
    let advice = "end every path with a halt, and jump only to an address in the program";
    assert_eq!(
        told(&[0x81, 0x81], 2),
        format!(
            "1 at 0001: {out}\n  0001 leads on to 0002, and the last byte is at 0001\n  {advice}\n"
        )
    );
    assert_eq!(
        told(&[0x81, 0x3D, 0x12, 0x00], 1),
        format!(
            "1 at 0001: {out}\n  0001 leads to 0012, and the last byte is at 0003\n  {advice}\n"
        )
    );
    let empty = "or the program is empty";
    assert_eq!(
        told(&[], 1),
        format!("1 at 0000: {out}, {empty}\n  the program is empty\n  {advice}\n")
    );
    assert_eq!(
        told(&[0x81], 1),
        format!("1 at 0000: {out}, {empty}\n  0000 leads on to 0001, and the last byte is at 0000\n  {advice}\n")
    );
}

/// No instruction stands there: who leads to it, and what the listing has there.
#[test]
fn led_to_what_is_no_instruction() {
    let line = |body: &[u8]| told(body, 2).lines().nth(1).unwrap().to_string();
    assert_eq!(line(&[0x80, 0x7F]), "  a path comes here from 0000");
    assert_eq!(
        line(&[0x3C, 0x03, 0x00, 0x41]),
        "  a path comes here from 0000"
    );
    assert_eq!(
        line(&[0x3C, 0x03, 0x41, 0x7F, 0x00, 0x00]),
        "  a path comes here from 0000, inside the instruction that the listing has at 0002 (eq--imm16 $007F)"
    );
    let start = told(&[0x7F], 1);
    assert_eq!(start.lines().count(), 2, "{start}");
}

#[test]
fn values_and_cells() {
    let line = |body: &[u8], cells| told(body, cells).lines().nth(1).unwrap().to_string();
    assert_eq!(
        line(&[0x81, 0x15, 0x00], 1),
        "  it comes with 1 value and takes 2"
    );
    assert_eq!(line(&[0x02], 1), "  it comes with 0 values and takes 3");
    assert_eq!(
        line(&[0x81, 0xC2, 1, 2, 3, 0x15, 0x00], 3),
        "  it comes with 1 value, takes 0 and pushes 3: that needs 4 cells (given: 3); with 4 it is accepted"
    );
    // More are needed further on, and that is what is told.
    assert_eq!(
        line(&[0x81, 0x82, 0x83, 0x00], 1),
        "  it comes with 1 value, takes 0 and pushes 1: that needs 2 cells (given: 1); with 3 it is accepted"
    );
    let never = line(&[0x81, 0x3C, 0x00], 0);
    assert!(
        never.contains("that needs 1 cell (given: 0); with 1,024 it is refused 10 at 0001: "),
        "{never}"
    );
    let endless = line(&[0x81, 0x82, 0x3B, 0x00], 1);
    assert!(endless.ends_with("(05 to 0A, 3B, 55)"), "{endless}");
}

#[test]
fn met_at_two_depths() {
    let line = |body: &[u8]| told(body, 3).lines().nth(1).unwrap().to_string();
    assert_eq!(
        line(&[0x81, 0x3C, 0x00]),
        "  0001 leads to 0000 with 1 value; 0000 was met first with 0 values, as the program's start"
    );
    // 1 jumps over the push at 3, which leads on to the same address
    assert_eq!(
        line(&[0x81, 0x3D, 0x04, 0x82, 0x00]),
        "  0003 leads to 0004 with 1 value; 0004 was met first with 0 values, from 0001"
    );
    // The next instruction is looked at before the target.
    assert_eq!(
        line(&[0x80, 0x3D, 0x08, 0x80, 0x80, 0x04, 0x3D, 0xFF, 0x00]),
        "  0006 leads to 0008 with 1 value; 0008 was met first with 0 values, from 0001"
    );
}

/// Where the number says all, no line is added.
#[test]
fn nothing_to_add() {
    for (body, number) in [(&[0x3B, 0x00], 9), (&[0x40, 0x00], 8)] {
        let told = told(body, 1);
        assert!(told.starts_with(&format!("{number} at 0000: ")), "{told}");
        assert_eq!(told.lines().count(), 2, "{told}");
    }
}
