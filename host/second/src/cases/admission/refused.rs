//! Each refusal of a pack by each of its causes, wherever the pack is cut.

use super::case::Case;
use super::cuts::every_verdict;
use crate::cases::pack::built::{built, contents, example, raw, three, Fields};
use crate::cases::pieces::piece;
use crate::cases::Vectors;

pub fn add_all(vectors: &mut Vectors) {
    cut_short(vectors);
    too_long(vectors);
    counts(vectors);
    entries(vectors);
    two_faults(vectors);
    offsets_past_sixteen_bits(vectors);
}

/// In one chunk, with its bytes apart, and cut in a place where it matters.
fn add(vectors: &mut Vectors, pack: &[u8], cut: usize) {
    Case::of(pack).chunk(pack.len()).close().add(vectors);
    Case::in_chunks(&[piece(1, pack)], 1).ask().add(vectors);
    let cut = cut.min(pack.len());
    let case = Case::of(pack).chunk(cut).ask().chunk(pack.len() - cut);
    case.close().ask().add(vectors);
}

/// 30 and 34: every beginning of good packs.
fn cut_short(vectors: &mut Vectors) {
    for pack in [example(), built(&three())] {
        for length in 0..pack.len() {
            add(vectors, &pack[..length], length / 2);
        }
    }
}

/// 34: bytes behind the last program, whose verdict was there.
fn too_long(vectors: &mut Vectors) {
    for pack in [
        vec![0, 0],
        example(),
        built(&three()),
        built(&every_verdict()),
    ] {
        for more in [1, 2, 8, 600] {
            let longer = [&pack[..], &vec![0; more]].concat();
            add(vectors, &longer, pack.len());
        }
    }
}

/// 30: counts that a pack cannot have, or that its bytes do not reach.
fn counts(vectors: &mut Vectors) {
    for (count, behind) in [
        (1, 0),
        (1, 1),
        (1, 7),
        (2, 15),
        (63, 503),
        (64, 511),
        (65, 0),
        (65, 520),
        (66, 1),
        (128, 8),
        (256, 0),
        (257, 8),
        (320, 0),
        (32_768, 0),
        (65_535, 0),
        (65_535, 520),
    ] {
        add(vectors, &contents(count, &[[0; 4]; 65])[..2 + behind], 1);
    }
}

/// Four entries with bodies of five bytes, each body a halt and what it does not come to.
fn four() -> Vec<Fields> {
    (0..4)
        .map(|entry| [10 * (entry + 1), 3, 34 + 5 * entry, 5])
        .collect()
}

/// What can be wrong with an entry: 32, 35 by its cells and by its length, 33 below and
/// above, and a length that is not that of its body.
const FAULTS: [(usize, u16); 8] = [
    (0, 10),
    (0, 0),
    (1, 1_025),
    (3, 16_385),
    (2, 33),
    (2, 50),
    (3, 4),
    (3, 6),
];

/// One fault in each entry; cut within the field that shows it.
fn entries(vectors: &mut Vectors) {
    for entry in 0..4 {
        for (field, number) in FAULTS {
            let mut fields = four();
            fields[entry][field] = number;
            add(vectors, &raw(&fields, &[0; 20]), 3 + 8 * entry + 2 * field);
        }
    }
}

/// Two faults in one pack: the first entry's comes first, and in one entry the order of
/// 01.
fn two_faults(vectors: &mut Vectors) {
    for (first, second) in [(1, 1), (1, 2), (2, 3)] {
        for one in FAULTS {
            for other in FAULTS {
                let mut fields = four();
                fields[second][other.0] = other.1;
                fields[first][one.0] = one.1;
                let pack = raw(&fields, &[0; 20]);
                Case::in_chunks(&[piece(1, &pack)], 9).add(vectors);
            }
        }
    }
}

/// 33: lengths whose sum passes 65,535, with offsets that would be right modulo 65,536.
fn offsets_past_sixteen_bits(vectors: &mut Vectors) {
    for count in [5, 9, 64] {
        let start = 2 + 8 * u32::from(count);
        let offset = |entry: u16| (start + 16_384 * u32::from(entry)) as u16;
        let entry = |entry| [entry, 0, offset(entry), 16_384];
        let fields: Vec<Fields> = (0..count).map(entry).collect();
        add(vectors, &raw(&fields, &[]), 2 + 8 * 4);
    }
}
