//! What the cases are like: repeatable, of every family, at the limits, and such
//! that every answer that 01 knows is given.

mod streams;

use std::collections::BTreeSet;

use conform::{answer, Second, LINE_MAX};
use streams::{came, events};
use trials::{Cases, Kind, Tally, COPIED, NO_CASE};

const SEED: u64 = 1;
/// The rarest answer, 21 of a step, comes about four times in so many.
const COUNT: u64 = 200_000;

fn lines() -> impl Iterator<Item = Vec<u8>> {
    let cases = Cases::new(SEED);
    (0..COUNT).map(move |number| cases.case(number))
}

#[test]
fn the_same_seed_gives_the_same_cases() {
    let some = |seed, first: u64| -> Vec<Vec<u8>> {
        let cases = Cases::new(seed);
        (first..first + 300)
            .map(|number| cases.case(number))
            .collect()
    };
    assert_eq!(some(7, 0), some(7, 0));
    assert_eq!(some(7, 0)[200..], some(7, 200)[..100]);
    let [one, other] = [some(7, 0), some(8, 0)];
    let alike = one.iter().filter(|line| other.contains(line)).count();
    assert!(alike < 20, "{alike}");
}

/// The refusals and faults that 01 has for each family.
const NUMBERS: [(&str, &[u32], &[u32]); 14] = [
    ("decode", &[1, 2, 3, 20], &[]),
    ("encode", &[25, 26], &[]),
    ("shape", &[], &[]),
    ("step", &[20, 21, 22, 24], &[1, 2, 3, 4, 5, 6, 7, 8]),
    ("run", &[20, 21, 22, 24], &[1, 2, 3, 4, 5, 6, 7, 8]),
    ("verify", &[1, 2, 3, 4, 5, 8, 9, 10, 20, 22, 23], &[]),
    ("listing", &[20, 25], &[]),
    ("read", &[1, 2, 3, 20], &[]),
    ("pack", &[30, 31, 32, 33, 34, 35], &[]),
    ("find", &[30, 31, 32, 33, 34, 35, 36], &[]),
    ("lookup", &[30, 31, 34, 35, 36], &[]),
    ("writepack", &[25, 30, 31, 32, 34, 35], &[]),
    ("report", &[30, 31, 32, 33, 34, 35], &[]),
    ("stream", &[30, 31, 32, 33, 34, 35, 37], &[]),
];

/// The other answers of each family.
const GOOD: [(&str, &[&str]); 16] = [
    ("decode", &["ok"]),
    ("encode", &["ok"]),
    ("shape", &["illegal", "row"]),
    ("step", &["halted", "running"]),
    ("run", &["halted", "running"]),
    ("verify", &["accepted"]),
    ("listing", &["ok"]),
    ("read", &["nothing", "ok"]),
    ("pack", &["ok"]),
    ("find", &["found"]),
    ("lookup", &["found"]),
    ("writepack", &["ok"]),
    ("report", &["all accepted", "nothing", "some refused"]),
    (
        "stream",
        &["all accepted", "nothing", "ok", "open", "some refused"],
    ),
    (NO_CASE, &["bad case"]),
    (COPIED, &["as it stands"]),
];

/// Every answer occurs, no other does, and in each family at least a quarter are
/// neither refused nor faulted.
#[test]
fn every_answer_occurs_and_no_family_is_all_refusals() {
    let mut tally = Tally::default();
    for line in lines() {
        tally.add(&line, &answer(&Second, &line));
    }
    for (family, refusals, faults) in NUMBERS {
        let refused = refusals.iter().copied().map(Kind::Refused);
        let faulted = faults.iter().copied().map(Kind::Faulted);
        let expected: BTreeSet<Kind> = refused.chain(faulted).chain(good(family)).collect();
        let kinds = tally.kinds(family).into_iter();
        let seen: BTreeSet<Kind> = kinds.filter(|kind| !stopped_before(kind)).collect();
        assert_eq!(seen, expected, "{family}");
        let sum =
            |kinds: Vec<Kind>| -> u64 { kinds.iter().map(|&kind| tally.count(family, kind)).sum() };
        let (all, done) = (sum(tally.kinds(family)), sum(good(family).collect()));
        assert!(4 * done >= all, "{family}: {done} of {all}");
    }
    for family in [NO_CASE, COPIED] {
        assert_eq!(tally.kinds(family), good(family).collect::<Vec<Kind>>());
    }
}

fn good(family: &str) -> impl Iterator<Item = Kind> {
    let (_, words) = GOOD.into_iter().find(|(name, _)| *name == family).unwrap();
    words.iter().copied().map(Kind::Good)
}

/// A fault that no step gives was in the state before.
fn stopped_before(kind: &Kind) -> bool {
    matches!(kind, Kind::Faulted(fault) if !(1..=8).contains(fault))
}

/// What stands in one field of the cases of a family.
fn fields<'a>(
    lines: &'a [Vec<u8>],
    family: &'a str,
    field: usize,
) -> impl Iterator<Item = &'a [u8]> {
    lines.iter().filter_map(move |line| {
        let mut words = line.split(|&byte| byte == b' ');
        let is_asked = words.next() == Some(family.as_bytes());
        words.nth(field).filter(|_| is_asked)
    })
}

#[test]
fn at_the_limits_and_past_them() {
    let lines: Vec<Vec<u8>> = lines().collect();
    for line in &lines {
        assert!(line.len() <= LINE_MAX && !line.contains(&b'\n'));
    }
    sizes_at_the_limits(&lines);
    numbers_at_the_limits(&lines);
    all_first_bytes(&lines);
    all_counts(&lines);
    streams_of_every_kind(&lines);
}

fn sizes_at_the_limits(lines: &[Vec<u8>]) {
    let (bytes, cells) = (2, 4);
    for (family, field, digits, limit) in [
        ("decode", 0, bytes, 16_384),
        ("run", 0, bytes, 16_384),
        ("run", 1, bytes, 65_535),
        ("run", 2, cells, 1_024),
        ("step", 1, bytes, 65_535),
        ("verify", 0, bytes, 16_384),
        ("verify", 2, cells, 16_384),
        ("listing", 0, bytes, 16_384),
        ("pack", 0, bytes, 24_576),
        ("lookup", 0, bytes, 24_576),
        ("writepack", 0, cells, 64),
    ] {
        let words = fields(lines, family, field);
        let sizes: BTreeSet<usize> = words.map(|word| word.len() / digits).collect();
        let all = sizes.contains(&limit) && sizes.contains(&(limit + 1));
        assert!(all, "{family} {field}");
    }
}

fn all_first_bytes(lines: &[Vec<u8>]) {
    let found: BTreeSet<&[u8]> = fields(lines, "shape", 0).collect();
    for first in 0..=258 {
        assert!(found.contains(first.to_string().as_bytes()), "{first}");
    }
}

/// Tags are looked up in packs of every number of entries, and of one too many.
fn all_counts(lines: &[Vec<u8>]) {
    let counts = fields(lines, "lookup", 0).filter_map(|pack| pack.get(..4));
    every_count(counts.map(Vec::from).collect());
}

fn every_count(found: BTreeSet<Vec<u8>>) {
    for count in 0..=65 {
        let digits = format!("{count:02x}00");
        assert!(found.contains(digits.as_bytes()), "{count}");
    }
}

/// About one case in ten is a stream. Packs come with every number of entries, as long as
/// they may be and longer; whole, byte by byte and closed too soon.
fn streams_of_every_kind(lines: &[Vec<u8>]) {
    let streams: Vec<Vec<&[u8]>> = lines.iter().filter_map(|line| events(line)).collect();
    assert!((9..=11).contains(&(100 * streams.len() / lines.len())));
    let packs: Vec<Vec<u8>> = streams.iter().map(|events| came(events)).collect();
    let counts = packs.iter().filter_map(|pack| pack.get(..4));
    every_count(counts.map(Vec::from).collect());
    for length in [0, 2, 24_575, 24_576, 24_577] {
        assert!(
            packs.iter().any(|pack| pack.len() == 2 * length),
            "{length}"
        );
    }
    let some = |is: &dyn Fn(&[&[u8]]) -> bool| streams.iter().filter(|it| is(it)).count();
    let ends = |word: &[u8]| some(&|events| events.ends_with(&[b"close", word]));
    assert!(ends(b"-") > 100 && ends(b"close") > 100 && ends(b"ask") > 100);
    assert!(some(&|events| events.iter().any(|event| event.len() > 100_000)) > 0);
    assert!(some(&|events| events.len() > 10_000) > 0);
    let apart = |event: &&[u8]| matches!(event.len(), 1 | 2) || matches!(*event, b"ask" | b"close");
    assert!(some(&|events| events.len() > 10 && events.iter().all(apart)) > 1_000);
}

fn numbers_at_the_limits(lines: &[Vec<u8>]) {
    for (family, field, numbers) in [
        (
            "run",
            6,
            &["0", "1", "65536", "4294967294", "4294967295"][..],
        ),
        ("run", 3, &["0", "1", "65535"]),
        ("run", 4, &["0", "1", "1024", "65535"]),
        (
            "run",
            5,
            &["running", "halted", "faulted:0", "faulted:6", "faulted:255"],
        ),
        ("verify", 1, &["0", "1", "1023", "1024", "1025", "65535"]),
        ("decode", 1, &["0", "16383", "16384", "65535"]),
        ("read", 1, &["0", "1", "65535"]),
        (
            "encode",
            1,
            &["15", "16", "63", "64", "255", "256", "65535"],
        ),
        ("encode", 2, &["0", "1", "4", "5", "255"]),
        ("find", 1, &["0", "65535"]),
        ("lookup", 1, &["0", "65535"]),
    ] {
        let found: BTreeSet<&[u8]> = fields(lines, family, field).collect();
        for number in numbers {
            let is_there = found.contains(number.as_bytes());
            assert!(is_there, "{family} {field}: {number}");
        }
    }
}
