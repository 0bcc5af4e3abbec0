//! Packs with one fault, with two, cut, and with any byte altered.

use super::add_read;
use super::built::{built, contents, example, fields, raw, three, Fields};
use crate::cases::{Varied, Vectors};

pub fn add_all(vectors: &mut Vectors) {
    add_read(vectors, &example());
    cut(vectors);
    counts(vectors);
    one_field(vectors);
    two_faults(vectors);
    offsets_past_sixteen_bits(vectors);
    altered(vectors);
}

/// Every beginning of good packs, and bytes behind them.
fn cut(vectors: &mut Vectors) {
    for pack in [vec![0, 0], example(), built(&three())] {
        for length in 0..=pack.len() {
            add_read(vectors, &pack[..length]);
        }
        add_read(vectors, &[&pack[..], &[0]].concat());
        add_read(vectors, &[&pack[..], &pack].concat());
    }
}

/// Counts that the contents do not have.
fn counts(vectors: &mut Vectors) {
    let fields = fields(&three());
    for count in [
        0, 1, 2, 3, 4, 63, 64, 65, 255, 256, 259, 512, 32_768, 65_535,
    ] {
        add_read(vectors, &contents(count, &fields));
        let longer = [contents(count, &fields), vec![0; 600]].concat();
        add_read(vectors, &longer);
    }
}

/// A good pack of four, with every field in turn at and past its limits.
fn one_field(vectors: &mut Vectors) {
    let good = four();
    let limits: [&[u16]; 4] = [
        &[0, 9, 10, 11, 19, 20, 21, 29, 30, 31, 40, 65_535],
        &[0, 1, 1_023, 1_024, 1_025, 1_026, 2_048, 32_768, 65_535],
        &[],
        &[
            0, 1, 4, 5, 6, 255, 256, 16_383, 16_384, 16_385, 32_768, 65_535,
        ],
    ];
    for entry in 0..good.len() {
        for field in 0..4 {
            let now = good[entry][field];
            let near = [
                now.wrapping_sub(1),
                now,
                now + 1,
                now ^ 256,
                now.wrapping_sub(8),
            ];
            for &other in limits[field].iter().chain(&near) {
                let mut fields = good.clone();
                fields[entry][field] = other;
                add_read(vectors, &raw(&fields, &[0; 20]));
            }
        }
    }
}

/// Four entries with bodies of five bytes.
fn four() -> Vec<Fields> {
    (0..4)
        .map(|entry| [10 * (entry + 1), 3, 34 + 5 * entry, 5])
        .collect()
}

/// What can be wrong with an entry.
const FAULTS: [(usize, u16); 5] = [(0, 0), (1, 1_025), (3, 16_385), (2, 33), (3, 6)];

/// Two faults in one pack, with bodies that fit, a byte too few and a byte too
/// many: the first entry comes first, and in one entry the order of 01.
fn two_faults(vectors: &mut Vectors) {
    for (first, second, bodies) in [
        (0, 0, 20),
        (0, 1, 20),
        (1, 1, 20),
        (1, 2, 19),
        (1, 2, 20),
        (1, 2, 21),
        (1, 3, 20),
        (3, 3, 20),
    ] {
        for one in FAULTS {
            for other in FAULTS {
                let mut fields = four();
                fields[first][one.0] = one.1;
                fields[second][other.0] = other.1;
                add_read(vectors, &raw(&fields, &vec![0; bodies]));
            }
        }
    }
}

/// Lengths whose sum passes 65,535, with offsets that would be right modulo
/// 65,536.
fn offsets_past_sixteen_bits(vectors: &mut Vectors) {
    for count in [4, 5, 6, 8, 9, 64] {
        let mut offset = 2 + 8 * u32::from(count);
        let mut fields = Vec::new();
        for tag in 0..count {
            fields.push([tag, 0, offset as u16, 16_384]);
            offset += 16_384;
        }
        add_read(vectors, &raw(&fields, &[]));
        let last = fields.len() - 1;
        fields[last][3] = 0;
        add_read(vectors, &raw(&fields, &[]));
        fields[last][2] = 65_535;
        add_read(vectors, &raw(&fields, &[]));
    }
}

/// Good packs with one byte altered, and bytes of any kind.
fn altered(vectors: &mut Vectors) {
    let mut varied = Varied(7);
    for pack in [example(), built(&three())] {
        for place in 0..pack.len() {
            for change in [1, 0x80] {
                let mut altered = pack.clone();
                altered[place] ^= change;
                add_read(vectors, &altered);
            }
        }
    }
    for _ in 0..60 {
        let length = varied.below(40);
        let mut pack = varied.bytes(length);
        if let [low, high, ..] = &mut pack[..] {
            *low %= 4;
            *high = 0;
        }
        add_read(vectors, &pack);
    }
}
