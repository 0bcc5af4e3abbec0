//! The convention between host and rule: what is lent, byte for byte, what is lent
//! again, every verdict, and that no table comes through by accident.

use khalixoshi::pack::{body, build, entries, find, Checked, Rule};
use khalixoshi::tables::{
    judge, judge_by, judge_in, tests_mark, Facts, Lending, Next, Preamble, Verdict, Why, BUDGET,
    MARK, PIECE, PREAMBLE,
};
use khalixoshi::{Error, Fault, Ran, Refused, State, Status};

/// The numbers that rules are written with, and the C host that is held to them too.
const NUMBERS: &str = include_str!("../../../examples/rules/preamble.txt");
const C_HOST: &str = include_str!("../../../examples/c/judge.c");
const SHIPPED: &[u8] = include_bytes!("../../../examples/fonts.pack");

const FACTS: Facts = Facts {
    glyphs: 0x0102,
    metrics: 0x0304,
    loca_format: 0x0506,
    outlines: 0x0708_090A,
};

/// Looks at each byte of a table by asking for it, and adds them up in its own bytes:
/// the sum must be what the facts give as glyphs, else it is the reason.
const EACH_BYTE: &[u8] = &[
    0x33, 0x40, // 0000 ld-u8--imm8 table
    0x34, 0x20, // 0002 ld-u16-imm8 own
    0x14, // 0004 add
    0x38, 0x20, // 0005 st-u16-imm8 own
    0x01, // 0007 discard
    0x34, 0x08, // 0008 ld-u16-imm8 start
    0x19, // 000A inc
    0x38, 0x1C, // 000B st-u16-imm8 next_start
    0x34, 0x04, // 000D ld-u16-imm8 length
    0x0B, // 000F eq
    0x3D, 0x18, // 0010 jump-imm8-if 0018
    0x81, // 0012 push-u8 1
    0x38, 0x1A, // 0013 st-u16-imm8 next_lent
    0x01, // 0015 discard
    0x80, 0x00, // 0016 push-u8 0, halt: asks
    0x34, 0x0E, // 0018 ld-u16-imm8 glyphs
    0x34, 0x20, // 001A ld-u16-imm8 own
    0x0B, // 001C eq
    0x3D, 0x22, // 001D jump-imm8-if 0022
    0x34, 0x20, // 001F ld-u16-imm8 own
    0x00, // 0021 halt: refuses
    0x81, 0x00, // 0022 push-u8 1, halt: good
];

/// Asks once for as many bytes as the facts give as metrics, from where they give
/// outlines; then refuses by how many it was lent, and two more.
const AS_TOLD: &[u8] = &[
    0x34, 0x20, // 0000 ld-u16-imm8 own
    0x3D, 0x17, // 0002 jump-imm8-if 0017
    0x34, 0x10, // 0004 ld-u16-imm8 metrics
    0x38, 0x1A, // 0006 st-u16-imm8 next_lent
    0x38, 0x20, // 0008 st-u16-imm8 own
    0x01, // 000A discard
    0x34, 0x14, // 000B ld-u16-imm8 outlines
    0x38, 0x1C, // 000D st-u16-imm8 next_start
    0x01, // 000F discard
    0x34, 0x16, // 0010 ld-u16-imm8 outlines+2
    0x38, 0x1E, // 0012 st-u16-imm8 next_start+2
    0x01, // 0014 discard
    0x80, 0x00, // 0015 push-u8 0, halt: asks
    0x34, 0x0C, // 0017 ld-u16-imm8 lent
    0x2E, 0x02, // 0019 add-imm8 2
    0x00, // 001B halt: refuses
];

/// Asks for as many bytes as there are, for ever.
const FOR_EVER: &[u8] = &[
    0x80, // 0000 push-u8 0
    0x1B, // 0001 not: 65,535
    0x38, 0x1A, // 0002 st-u16-imm8 next_lent
    0x01, // 0004 discard
    0x80, 0x00, // 0005 push-u8 0, halt: asks
];

/// What a run that halted with these values on the stack came to.
fn halted(depth: usize) -> Ran {
    Ran {
        state: State {
            address: 0,
            depth,
            status: Status::Halted,
        },
        steps: 0,
    }
}

/// The lines `name = VALUE` of preamble.txt, in their order.
fn numbers() -> Vec<(&'static str, usize)> {
    let lines = NUMBERS
        .lines()
        .map(|line| line.split('#').next().unwrap_or_default());
    lines
        .filter_map(|line| line.split_once('='))
        .map(|(name, value)| (name.trim(), value.trim().parse().unwrap()))
        .collect()
}

/// The first byte that a change to the fresh preamble alters.
fn place(change: impl Fn(&mut Preamble)) -> usize {
    let mut preamble = Preamble::default();
    change(&mut preamble);
    let (fresh, changed) = (Preamble::default().bytes(), preamble.bytes());
    (0..PREAMBLE).find(|at| fresh[*at] != changed[*at]).unwrap()
}

#[test]
fn numbers_of_the_rules() {
    let ours = [
        ("mark", 0),
        ("length", place(|preamble| preamble.length = !0)),
        ("start", place(|preamble| preamble.start = !0)),
        ("lent", place(|preamble| preamble.lent = !0)),
        ("glyphs", place(|preamble| preamble.facts.glyphs = !0)),
        ("metrics", place(|preamble| preamble.facts.metrics = !0)),
        (
            "loca_format",
            place(|preamble| preamble.facts.loca_format = !0),
        ),
        ("outlines", place(|preamble| preamble.facts.outlines = !0)),
        ("next_lent", place(|preamble| preamble.next_lent = !0)),
        ("next_start", place(|preamble| preamble.next_start = !0)),
        ("own", place(|preamble| preamble.own = [!0; 32])),
        ("table", PREAMBLE),
        ("piece", PIECE),
        ("budget", BUDGET as usize),
        ("unmarked", 63),
        ("unkept", 62),
    ];
    assert_eq!(numbers(), ours);
}

/// The mark as the rules test it: two numbers, low byte first.
#[test]
fn the_mark_of_the_rules() {
    let tested: Vec<u8> = NUMBERS
        .lines()
        .filter_map(|line| line.trim().strip_prefix("ne--imm16"))
        .map(|number| u16::from_str_radix(number.trim().trim_start_matches('$'), 16).unwrap())
        .flat_map(u16::to_le_bytes)
        .collect();
    assert_eq!(tested, MARK);
    assert_eq!(Preamble::default().bytes()[..4], MARK);
}

/// Every shipped rule begins with the test of the mark, and refuses by its number what
/// is not laid out.
#[test]
fn every_shipped_rule_tests_the_mark() {
    let unmarked = numbers().into_iter().find(|(name, _)| *name == "unmarked");
    for entry in entries(SHIPPED).unwrap() {
        let rule = body(SHIPPED, &entry);
        assert!(tests_mark(rule), "{}", entry.tag);
        for at in 0..MARK.len() {
            let mut data = Preamble::default().bytes();
            data[at] ^= 1;
            let mut cells = vec![0; entry.cells.into()];
            let ran = State::fresh().run(rule, &mut data, &mut cells, 100);
            let state = ran.unwrap().state;
            assert_eq!(state.status, Status::Halted, "{}", entry.tag);
            let value = state.stack(&cells).iter().map(|value| usize::from(*value));
            assert!(
                value.eq(unmarked.map(|(_, number)| number)),
                "{}",
                entry.tag
            );
        }
    }
    assert!(!tests_mark(EACH_BYTE));
}

/// A host that lends fewer bytes than it tells has no verdict by any shipped rule.
#[test]
fn fewer_bytes_than_are_told() {
    for entry in entries(SHIPPED).unwrap() {
        for lent in [1, 6, 32, 36, 54, 100, PIECE] {
            let told = Preamble {
                length: lent as u32,
                lent: lent as u16,
                facts: FACTS,
                ..Preamble::default()
            };
            let mut data = told.bytes().to_vec();
            data.resize(PREAMBLE + lent - 1, 0);
            let mut cells = vec![0; entry.cells.into()];
            let ran = State::fresh().run(body(SHIPPED, &entry), &mut data, &mut cells, 100);
            let status = ran.unwrap().state.status;
            assert_eq!(status, Status::Faulted(Fault(6)), "{}", entry.tag);
        }
    }
}

/// What a shipped rule says in a run that a host lays out wrong.
fn said_of(tag: u16, told: Preamble, lent: &[u8]) -> u16 {
    let entry = find(SHIPPED, tag).unwrap();
    let mut data = told.bytes().to_vec();
    data.extend(lent);
    let mut cells = vec![0; entry.cells.into()];
    let ran = State::fresh().run(body(SHIPPED, &entry), &mut data, &mut cells, BUDGET);
    assert_eq!(ran.unwrap().state.status, Status::Halted);
    cells[cells.len() - 1]
}

/// A host that does not keep `own` lends a far subtable, and cmap would take it for the
/// table's beginning: version 0, no records.
#[test]
fn a_cmap_whose_own_bytes_are_not_kept() {
    for start in [4, 66_000, 0x1_0000] {
        let later = Preamble {
            length: 140_000,
            start,
            lent: 10,
            ..Preamble::default()
        };
        assert_eq!(said_of(7, later, &[0; 10]), 62);
    }
}

/// A host that leaves what another table left, or lends other bytes than it was asked
/// for, would make cmap look for a record of that table.
#[test]
fn a_cmap_whose_own_bytes_are_of_another_table() {
    let mut own = [0; 32];
    own[0] = 1; // left
    own[2] = 4; // record
    own[6] = 10; // needed
    own[8..12].copy_from_slice(&70_000_u32.to_le_bytes()); // place
    let asked = Preamble {
        length: 80_000,
        start: 70_000,
        lent: 10,
        own,
        ..Preamble::default()
    };
    let subtable = [0, 6, 0, 10, 0, 0, 0, 0, 0, 0];
    assert_ne!(said_of(7, asked, &subtable), 62);
    for start in [0, 4, 70_000 - 1, 70_000 + 0x1_0000] {
        assert_eq!(said_of(7, Preamble { start, ..asked }, &subtable), 62);
    }
    let more = Preamble { lent: 11, ..asked };
    assert_eq!(said_of(7, more, &[0; 11]), 62);
}

/// A host that does not keep `own`, or leaves what another table left there, would make
/// loca believe that no offset is left to look at.
#[test]
fn a_loca_whose_own_bytes_are_not_right() {
    let facts = Facts {
        glyphs: 1,
        loca_format: 0,
        ..FACTS
    };
    let falls = [0, 9, 0, 1];
    let first = Preamble {
        length: 4,
        lent: 4,
        facts,
        ..Preamble::default()
    };
    assert_eq!(said_of(8, first, &falls), 4);
    let mut own = [0; 32];
    own[0] = 2;
    assert_eq!(said_of(8, Preamble { own, ..first }, &falls), 62);
    for start in [2, 0x1_0000] {
        assert_eq!(said_of(8, Preamble { start, ..first }, &falls), 62);
    }
}

/// The C host defines the same numbers: AT_OWN is `own`, BUDGET `budget`.
#[test]
fn numbers_of_the_c_host() {
    let defined: Vec<(String, usize)> = C_HOST
        .lines()
        .filter_map(|line| line.strip_prefix("#define "))
        .filter_map(|line| {
            let mut words = line.split_whitespace();
            let name = words.next()?.trim_start_matches("AT_").to_lowercase();
            Some((name, words.next()?.trim_end_matches('u').parse().ok()?))
        })
        .collect();
    let told: Vec<(String, usize)> = numbers()
        .into_iter()
        .filter(|(name, _)| !["unmarked", "unkept"].contains(name))
        .map(|(name, value)| (name.to_string(), value))
        .collect();
    assert_eq!(defined, told);
    let mark = String::from_utf8(MARK.to_vec()).unwrap();
    assert!(C_HOST.contains(&format!("\"{mark}\"")));
}

#[test]
fn the_first_bytes_lent() {
    let mut lending = Lending::new(b"abc", &FACTS, 10).unwrap();
    let mut data = b"KHX1".to_vec();
    data.extend([3, 0, 0, 0]); // length
    data.extend([0, 0, 0, 0]); // start
    data.extend([3, 0]); // lent
    data.extend([2, 1, 4, 3, 6, 5]); // glyphs, metrics, loca_format
    data.extend([0x0A, 9, 8, 7]); // outlines
    data.extend([0; 40]); // kept, next_lent, next_start, own
    data.extend(b"abc");
    assert_eq!(lending.data(), data);
    assert_eq!(lending.left(), 7);
}

#[test]
fn a_long_table_is_lent_as_far_as_a_piece_goes() {
    let table = vec![5; PIECE + 1];
    for length in [PIECE - 1, PIECE, PIECE + 1] {
        let mut lending = Lending::new(&table[..length], &FACTS, BUDGET).unwrap();
        let lent = length.min(PIECE);
        assert_eq!(lending.data().len(), PREAMBLE + lent);
        let told = Preamble::read(lending.data());
        assert_eq!((told.length as usize, told.lent as usize), (length, lent));
    }
}

/// Whatever a rule made of its data: its own bytes alone are kept.
#[test]
fn only_its_own_bytes_are_kept() {
    let table: Vec<u8> = (0..100).collect();
    let mut lending = Lending::new(&table, &FACTS, 1_000).unwrap();
    let left = Preamble {
        next_lent: 3,
        next_start: 90,
        own: [0xBB; 32],
        ..Preamble::default()
    };
    lending.data().fill(0xAA);
    lending.data()[26..PREAMBLE].copy_from_slice(&left.bytes()[26..]);
    assert_eq!(lending.after(&halted(1), &[0]), Next::Again);
    let anew = Preamble {
        length: 100,
        start: 90,
        lent: 3,
        facts: FACTS,
        own: [0xBB; 32],
        ..Preamble::default()
    };
    let mut data = anew.bytes().to_vec();
    data.extend([90, 91, 92]);
    assert_eq!(lending.data(), data);
    assert_eq!(lending.left(), 1_000 - 100 - 3);
}

/// A host that hands in fewer cells than the rule left values has no good table by it.
#[test]
fn cells_that_are_not_the_rules() {
    let mut lending = Lending::new(&[], &FACTS, 1_000).unwrap();
    let none = |depth| Next::Verdict(Verdict::None(Why::Depth(depth)));
    assert_eq!(lending.after(&halted(2), &[1]), none(2));
    assert_eq!(lending.after(&halted(1), &[]), none(1));
    assert_eq!(
        lending.after(&halted(1), &[9, 1]),
        Next::Verdict(Verdict::Good)
    );
}

#[test]
fn a_rule_that_asks_for_each_next_byte() {
    let table: Vec<u8> = (1..=200).collect();
    let facts = |glyphs| Facts { glyphs, ..FACTS };
    let judged = |table: &[u8], glyphs| judge_by(EACH_BYTE, 2, table, &facts(glyphs));
    assert_eq!(judged(&table, 20_100), Verdict::Good);
    assert_eq!(judged(&table, 20_099), Verdict::Refused(20_100));
    assert_eq!(judged(&table[..1], 1), Verdict::Good);
    let none = Verdict::None(Why::Fault(Fault(6), 0));
    assert_eq!(judged(&[], 0), none);
}

/// As many as the table has from there on, and no more than a piece.
#[test]
fn what_is_asked_for_is_lent_as_far_as_it_goes() {
    let table = vec![0; 140_000];
    let lent = |metrics, outlines| {
        let facts = Facts {
            metrics,
            outlines,
            ..FACTS
        };
        judge_by(AS_TOLD, 1, &table, &facts)
    };
    assert_eq!(lent(1, 0), Verdict::Refused(1 + 2));
    assert_eq!(lent(65_535, 0), Verdict::Refused(65_468 + 2));
    assert_eq!(lent(65_535, 139_990), Verdict::Refused(10 + 2));
    assert_eq!(lent(10, 139_990), Verdict::Refused(10 + 2));
    assert_eq!(lent(9, 139_990), Verdict::Refused(9 + 2));
    assert_eq!(lent(1, 140_000), Verdict::Refused(2));
    for start in [140_001, u32::MAX] {
        let length = 140_000;
        let outside = Why::Outside { start, length };
        assert_eq!(lent(1, start), Verdict::None(outside));
    }
}

/// The bytes lent count, so it ends after some 305 runs of this rule.
#[test]
fn a_rule_that_asks_for_ever() {
    let none = Verdict::None(Why::Budget);
    assert_eq!(judge_by(FOR_EVER, 1, &vec![0; PIECE], &FACTS), none);
    assert_eq!(judge_by(FOR_EVER, 1, &vec![0; PIECE + 9], &FACTS), none);
    assert_eq!(judge_by(FOR_EVER, 1, &[], &FACTS), none);
}

/// The runs that a budget allows a rule of 6 steps, over a table of 4 bytes.
#[test]
fn the_budget_counts_bytes_and_steps() {
    let runs = |budget| {
        let mut lending = Lending::new(&[0; 4], &FACTS, budget)?;
        let mut runs = 0;
        loop {
            let (left, mut cells) = (lending.left(), [0]);
            let ran = State::fresh().run(FOR_EVER, lending.data(), &mut cells, left);
            let ran = ran.unwrap();
            match lending.after(&ran, &cells) {
                Next::Again => runs += 1,
                Next::Verdict(verdict) => {
                    assert_eq!(verdict, Verdict::None(Why::Budget));
                    return Ok((runs, ran.state.status));
                }
            }
        }
    };
    assert_eq!(runs(3), Err(Why::Budget));
    assert_eq!(runs(4), Ok((0, Status::Running)));
    assert_eq!(runs(9), Ok((0, Status::Running)));
    assert_eq!(runs(10), Ok((0, Status::Halted)));
    assert_eq!(runs(13), Ok((0, Status::Halted)));
    assert_eq!(runs(14), Ok((1, Status::Running)));
    assert_eq!(runs(103), Ok((9, Status::Halted)));
    assert_eq!(runs(104), Ok((10, Status::Running)));
}

/// Each cause, and its words.
#[test]
fn every_verdict() {
    let rule = |tag, cells, body| Rule { tag, cells, body };
    let pack = build(&[
        rule(1, 1, &[0x81, 0x00]),       // push 1, halt
        rule(2, 1, &[0x82, 0x00]),       // push 2, halt
        rule(3, 0, &[0x81, 0x00]),       // a push without a cell
        rule(4, 1, &[0x33, 0x44, 0x00]), // ld-u8 at 68: the fifth byte of the table
        rule(5, 0, &[0x3C, 0x00]),       // jump to itself
        rule(6, 0, &[0x00]),             // halt
        rule(7, 2, &[0x81, 0x81, 0x00]), // push 1, push 1, halt
        rule(8, 1, AS_TOLD),
        rule(9, 1, &[0xC4, 0xFF, 0xFF, 0x00]), // push 65,535, halt
    ])
    .unwrap();
    let checked = Checked::new(&pack).unwrap();
    let said = |tag, verdict: Verdict, words: &str| {
        assert_eq!(judge(&pack, tag, &[0; 4], &FACTS), verdict);
        assert_eq!(judge_in(&checked, tag, &[0; 4], &FACTS), verdict);
        assert_eq!(verdict.to_string(), words);
        assert_eq!(verdict.is_good(), words == "good");
    };
    let none = |tag, why, words: &str| {
        said(tag, Verdict::None(why), &format!("no verdict: {words}"));
    };
    said(1, Verdict::Good, "good");
    said(2, Verdict::Refused(2), "refused 2");
    said(9, Verdict::Refused(65_535), "refused 65535");
    let full = Refused {
        error: Error::Full,
        at: Some(0),
    };
    none(3, Why::Rule(full), "the rule is refused by 5 at 0000");
    none(4, Why::Fault(Fault(6), 0), "fault 6 at 0000");
    none(5, Why::Budget, "the budget is used");
    none(
        6,
        Why::Depth(0),
        "it halted with 0 values on the stack, not one",
    );
    none(
        7,
        Why::Depth(2),
        "it halted with 2 values on the stack, not one",
    );
    let outside = Why::Outside {
        start: FACTS.outlines,
        length: 4,
    };
    none(
        8,
        outside,
        "it asks for bytes from 117967114 on, and the table has 4",
    );
    none(10, Why::NoRule(10), "no rule has the tag 10");
    let refused = judge(&pack[..pack.len() - 1], 1, &[0; 4], &FACTS);
    assert_eq!(refused, Verdict::None(Why::Pack(Error::PackEnd)));
    let words = "no verdict: the pack is refused by 34";
    assert_eq!(refused.to_string(), words);
}

/// Causes that no pack leads to: more cells than there may be, and what hosts of other
/// makes may meet.
#[test]
fn causes_without_a_pack() {
    let refused = judge_by(&[0x81, 0x00], 1_025, &[], &FACTS).to_string();
    assert_eq!(refused, "no verdict: the rule is refused by 22");
    let run = Why::Run(Error::Deep).to_string();
    assert_eq!(run, "the run is refused by 24");
    let long = Why::Length.to_string();
    assert_eq!(long, "the table is over 4,294,967,295 bytes");
    let unmarked = Why::Unmarked.to_string();
    assert_eq!(unmarked, "the data does not begin with the mark");
}

/// A table longer than four bytes can tell has no verdict. It is never touched, so it
/// takes no memory; where the system gives no such room, nothing is tried.
#[test]
fn a_table_over_four_gigabytes() {
    let mut table: Vec<u8> = Vec::new();
    let most = u32::MAX as usize;
    if table.try_reserve_exact(most + 1).is_err() {
        return;
    }
    drop(table);
    let table = vec![0; most + 1];
    let good = |table| judge_by(&[0x81, 0x00], 1, table, &FACTS);
    assert_eq!(good(&table), Verdict::None(Why::Length));
    assert_eq!(good(&table[1..]), Verdict::Good);
    let last = Facts {
        metrics: 65_535,
        outlines: u32::MAX - 7,
        ..FACTS
    };
    let asked = judge_by(AS_TOLD, 1, &table[1..], &last);
    assert_eq!(asked, Verdict::Refused(7 + 2));
}

/// Numbers that follow from a seed, by xorshift.
struct Chance(u64);

impl Chance {
    fn next(&mut self) -> u64 {
        self.0 ^= self.0 << 13;
        self.0 ^= self.0 >> 7;
        self.0 ^= self.0 << 17;
        self.0
    }

    fn bytes(&mut self, length: usize) -> Vec<u8> {
        (0..length).map(|_| self.next() as u8).collect()
    }
}

/// What is no table, to every shipped rule: never good, and never a panic. Only hmtx,
/// whose numbers may be any, is good wherever it is long enough.
#[test]
fn garbage_is_not_good_by_the_shipped_rules() {
    let mut chance = Chance(1);
    let lengths = [
        0,
        1,
        6,
        32,
        36,
        54,
        64,
        86,
        100,
        4_000,
        PIECE,
        PIECE + 1,
        200_000,
    ];
    for tag in (1..=8).filter(|tag| *tag != 4) {
        for length in lengths {
            let facts = Facts {
                glyphs: chance.next() as u16,
                metrics: chance.next() as u16,
                loca_format: chance.next() as u16 % 3,
                outlines: chance.next() as u32,
            };
            let table = chance.bytes(length);
            let verdict = judge(SHIPPED, tag, &table, &facts);
            assert!(!verdict.is_good(), "tag {tag}, {length} bytes");
        }
    }
    let short = Facts {
        glyphs: 100,
        metrics: 100,
        ..FACTS
    };
    let verdict = judge(SHIPPED, 4, &chance.bytes(399), &short);
    assert_eq!(verdict, Verdict::Refused(2));
}

/// Any bytes as a pack, and the shipped one with any byte of its contents altered.
#[test]
fn broken_packs() {
    let mut chance = Chance(2);
    for length in 0..200 {
        let pack = chance.bytes(length);
        assert!(!judge(&pack, 1, b"abc", &FACTS).is_good());
    }
    for at in 0..2 + 8 * entries(SHIPPED).unwrap().len() {
        let mut pack = SHIPPED.to_vec();
        pack[at] ^= 1 + chance.next() as u8 % 255;
        for tag in 0..10 {
            assert!(!judge(&pack, tag, b"abc", &FACTS).is_good(), "{tag} {at}");
        }
    }
}
