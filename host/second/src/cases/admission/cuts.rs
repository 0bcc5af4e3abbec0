//! Good packs, cut in every place, in many, and in none.

use super::case::Case;
use crate::cases::pack::built::{built, example, three, Rule};
use crate::cases::pack::sizes::many;
use crate::cases::pieces::piece;
use crate::cases::programs::M1;
use crate::cases::Vectors;

pub fn add_all(vectors: &mut Vectors) {
    for pack in packs() {
        one_cut(vectors, &pack);
        alike(vectors, &pack);
        apart(vectors, &pack);
    }
    two_cuts(vectors);
    where_parts_end(vectors);
}

/// Packs of few programs.
fn packs() -> Vec<Vec<u8>> {
    vec![
        example(),
        vec![0, 0],
        built(&three()),
        built(&every_verdict()),
        built(&empty(1)),
        built(&empty(3)),
    ]
}

/// A program for each verdict of a walk.
pub fn every_verdict() -> Vec<Rule> {
    let programs: [(u16, &[u8]); 10] = [
        (2, &M1),
        (1, &[0x81, 0x3D, 0x00]),
        (0, &[0x7F]),
        (0, &[0x55, 0x00]),
        (0, &[0x01]),
        (1, &M1),
        (0, &[0x3F, 0x01]),
        (0, &[0x06]),
        (1, &[0x81, 0x3C, 0x00]),
        (1_024, &[]),
    ];
    let rule = |(tag, (cells, program)): (u16, (u16, &[u8]))| (tag, cells, program.to_vec());
    (250..).zip(programs).map(rule).collect()
}

/// So many programs of no bytes.
pub fn empty(count: u16) -> Vec<Rule> {
    (0..count).map(|tag| (tag, tag, vec![])).collect()
}

/// In one chunk, and in two of every length.
fn one_cut(vectors: &mut Vectors, pack: &[u8]) {
    Case::of(pack).chunk(pack.len()).close().add(vectors);
    for first in 0..=pack.len() {
        let case = Case::of(pack).chunk(first).chunk(pack.len() - first);
        case.close().add(vectors);
    }
}

/// In chunks of one length.
fn alike(vectors: &mut Vectors, pack: &[u8]) {
    for length in [1, 2, 3, 5, 7, 8, 9, 11] {
        Case::in_chunks(&[piece(1, pack)], length).add(vectors);
    }
}

/// All bytes apart, each answered; then with nothing before, between and behind them,
/// and with asks there.
fn apart(vectors: &mut Vectors, pack: &[u8]) {
    let each = |before: fn(Case) -> Case| {
        let case = (0..pack.len()).fold(Case::of(pack), |case, _| before(case).chunk(1));
        before(case).close()
    };
    each(|case| case).add(vectors);
    each(|case| case.chunk(0)).add(vectors);
    each(|case| case.chunks(3, 0)).add(vectors);
    each(|case| case.ask().chunk(0)).ask().add(vectors);
}

/// In three chunks, the second one of nothing too.
fn two_cuts(vectors: &mut Vectors) {
    let pack = example();
    for first in 0..=pack.len() {
        for second in 0..=pack.len() - first {
            let case = Case::of(&pack).chunk(first).chunk(second);
            case.chunk(pack.len() - first - second).close().add(vectors);
        }
    }
}

/// About the count's end, the contents' end and every body's end, in packs of many.
fn where_parts_end(vectors: &mut Vectors) {
    for (count, body) in [(1, 40), (9, 3), (63, 1), (64, 0), (64, 2)] {
        let pack = many(count, 3, body);
        let (count, body) = (usize::from(count), usize::from(body));
        let contents = 2 + 8 * count;
        for first in [1, 2, 3, contents - 1, contents, contents + 1] {
            let first = first.min(pack.len());
            let case = Case::of(&pack).chunk(first).chunk(pack.len() - first);
            case.close().add(vectors);
        }
        let ends = Case::of(&pack).chunk(2).chunks(count, 8);
        ends.chunks(count, body).ask().close().add(vectors);
        Case::in_chunks(&[piece(1, &pack)], 1).add(vectors);
    }
}
