//! Packs asked for tags that are there, tags that are not, and tags in packs that
//! are refused.

use super::built::{built, example, three, varied_rules};
use super::sizes::many;
use super::{add_find, add_read};
use crate::cases::{Varied, Vectors};

pub fn add_all(vectors: &mut Vectors) {
    few(vectors);
    many_entries(vectors);
    varied(vectors);
}

/// Good packs of few entries, and the same damaged.
fn few(vectors: &mut Vectors) {
    for tag in [0, 6, 7, 8, 7 << 8, 7 + 256, 65_535] {
        add_find(vectors, &example(), tag);
        add_find(vectors, &[0, 0], tag);
    }
    for tag in [0, 1, 2, 10, 0x09FF, 0x0A00, 0x0A01, 65_535] {
        let pack = built(&three());
        add_find(vectors, &pack, tag);
        add_find(vectors, &pack[..pack.len() - 1], tag);
        add_find(vectors, &[&pack[..], &[0]].concat(), tag);
        for place in [0, 1, 4, 6, 8, 10, 12, 14, 17, 19] {
            let mut damaged = pack.clone();
            damaged[place] ^= 0x40;
            add_find(vectors, &damaged, tag);
        }
    }
}

/// Every place in packs of several sizes.
fn many_entries(vectors: &mut Vectors) {
    for count in [1, 2, 3, 4, 5, 7, 8, 64] {
        let pack = many(count, 3, 2);
        for tag in 0..=3 * count.min(8) {
            add_find(vectors, &pack, tag);
        }
    }
    for tag in (0..=192).step_by(5).chain([189, 190, 191]) {
        add_find(vectors, &many(64, 3, 1), tag);
    }
}

/// Varied packs, read, and asked for each of their tags and for one beside it.
fn varied(vectors: &mut Vectors) {
    let mut varied = Varied(10);
    for _ in 0..150 {
        let rules = varied_rules(&mut varied);
        let pack = built(&rules);
        add_read(vectors, &pack);
        for (place, (tag, _, _)) in rules.iter().enumerate() {
            add_find(vectors, &pack, *tag);
            if place == 1 {
                add_find(vectors, &pack, tag + 1);
            }
        }
    }
}
