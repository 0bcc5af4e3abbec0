//! Tags looked up: in good packs of many sizes, in contents whose tags do not ascend,
//! and beside every refusal.

use super::built::{built, contents, example, fields, raw, three, Fields, Rule};
use super::{add_lookup, add_lookup_pieces};
use crate::cases::pieces::piece;
use crate::cases::{Varied, Vectors};
use crate::numbers::PACK_BYTES;

pub fn add_all(vectors: &mut Vectors) {
    few(vectors);
    good(vectors);
    far_apart(vectors);
    orders(vectors);
    first_looked_at(vectors);
    any_order(vectors);
    counts(vectors);
    entries_at_their_limits(vectors);
    sizes(vectors);
    any_entries(vectors);
}

/// Packs of few entries, and the same cut.
fn few(vectors: &mut Vectors) {
    for tag in [0, 6, 7, 8, 7 << 8, 65_535] {
        add_lookup(vectors, &example(), tag);
    }
    add_lookup(vectors, &[0, 0], 0);
    for (pack, tag) in [(example(), 7), (built(&three()), 0)] {
        for length in 0..pack.len() {
            add_lookup(vectors, &pack[..length], tag);
        }
    }
    for tag in [0, 1, 2, 10, 0x09FF, 0x0A00, 0x0A01, 65_535] {
        add_lookup(vectors, &built(&three()), tag);
    }
}

/// So many rules, the first with the tag 10, the others three further each.
fn rules(count: u16) -> Vec<Rule> {
    let rule = |place: u16| (10 + 3 * place, place, vec![place as u8]);
    (0..count).map(rule).collect()
}

/// Below the first tag, at it and behind it, about the middle, and about the last.
fn good(vectors: &mut Vectors) {
    for count in [1, 2, 3, 4, 5, 8, 9, 16, 17, 32, 33, 63, 64] {
        let (pack, last) = (built(&rules(count)), 10 + 3 * (count - 1));
        let middle = 10 + 3 * (count / 2);
        for tag in [9, 10, 11, middle, middle + 1, last - 3, last, last + 1] {
            add_lookup(vectors, &pack, tag);
        }
    }
    for place in (0..64).step_by(3) {
        add_lookup(vectors, &built(&rules(64)), 10 + 3 * place);
    }
}

/// Tags at the edges of bytes and of signs, and those between them; 512 has the low byte
/// of 256, to which it comes.
fn far_apart(vectors: &mut Vectors) {
    let tags = [0, 255, 256, 32_767, 32_768, 65_534, 65_535];
    let pack = built(&tags.map(|tag| (tag, 1, vec![tag as u8])));
    for tag in tags
        .into_iter()
        .chain([1, 254, 512, 32_766, 32_769, 65_533])
    {
        add_lookup(vectors, &pack, tag);
    }
}

/// Contents with these tags; each entry has a program of two bytes, its own tag.
fn tagged(tags: &[u16]) -> Vec<u8> {
    let entry = |place: usize| [tags[place], place as u16, 2 + 8 * place as u16, 2];
    let fields: Vec<Fields> = (0..tags.len()).map(entry).collect();
    raw(&fields, &[])
}

/// Few tags in every order, and alike.
fn orders(vectors: &mut Vectors) {
    for tags in [[5, 7], [7, 5], [7, 7]] {
        for tag in [5, 7] {
            add_lookup(vectors, &tagged(&tags), tag);
        }
    }
    for tags in [
        [5, 6, 7],
        [5, 7, 6],
        [6, 5, 7],
        [6, 7, 5],
        [7, 5, 6],
        [7, 6, 5],
    ] {
        for tag in 5..=7 {
            add_lookup(vectors, &tagged(&tags), tag);
        }
    }
    for count in [3, 4, 5, 33, 64] {
        for tag in [6, 7] {
            add_lookup(vectors, &tagged(&vec![7; count]), tag);
        }
    }
}

/// Tags alike but for one that is above them: that of the entry looked at first, or of
/// the one that it leads to.
fn first_looked_at(vectors: &mut Vectors) {
    for (count, width) in [(3, 2), (5, 4), (12, 8), (24, 16), (40, 32)] {
        for place in [width, count - width] {
            let mut tags = vec![7; count];
            tags[place] = 8;
            add_lookup(vectors, &tagged(&tags), 7);
        }
    }
}

/// Tags of any order, so few that each is there more than once.
fn any_order(vectors: &mut Vectors) {
    let mut varied = Varied(13);
    for count in [4, 5, 6, 7, 12, 24, 40, 64] {
        let tags: Vec<u16> = (0..count).map(|_| varied.below(5) as u16).collect();
        for tag in [1, 2, 3] {
            add_lookup(vectors, &tagged(&tags), tag);
        }
    }
}

/// Counts that the contents do not have.
fn counts(vectors: &mut Vectors) {
    let fields = fields(&three());
    for count in [0, 1, 2, 3, 4, 63, 64, 65, 256, 259, 65_535] {
        add_lookup(vectors, &contents(count, &fields), 1);
        let longer = [contents(count, &fields), vec![0; 600]].concat();
        add_lookup(vectors, &longer, 1);
    }
}

/// The entry asked for with every number at and past its limits, between two that are
/// past all of theirs.
fn entries_at_their_limits(vectors: &mut Vectors) {
    let (room, end) = (16_400, 26 + 16_400);
    for [cells, offset, length] in [
        [0, 0, 0],
        [1_023, 26, 4],
        [1_024, 26, 4],
        [1_025, 26, 4],
        [65_535, 26, 4],
        [0, 26, 16_383],
        [0, 26, 16_384],
        [0, 26, 16_385],
        [0, 26, 65_535],
        [0, end - 1, 0],
        [0, end, 0],
        [0, end + 1, 0],
        [0, end - 4, 4],
        [0, end - 3, 4],
        [0, end - 16_384, 16_384],
        [0, end - 16_383, 16_384],
        [0, 65_535, 0],
        [0, 65_535, 1],
        [0, 65_535, 16_384],
        [1_025, end, 1],
        [0, end, 16_385],
    ] {
        let wrong = |tag| [tag, 65_535, 65_535, 65_535];
        let fields = [wrong(6), [7, cells, offset, length], wrong(8)];
        let pieces = [piece(1, &contents(3, &fields)), piece(room, &[0xA5])];
        add_lookup_pieces(vectors, &pieces, 7);
    }
}

/// The longest packs and those past them, with contents that have the tag, and with
/// such as cannot be read.
fn sizes(vectors: &mut Vectors) {
    let contents = contents(1, &[[7, 0, 8, 2]]);
    for length in [PACK_BYTES - 1, PACK_BYTES, PACK_BYTES + 1, 65_538] {
        let rest = piece(length - contents.len(), &[0xA5]);
        for tag in [7, 8] {
            add_lookup_pieces(vectors, &[piece(1, &contents), rest.clone()], tag);
        }
        let half = piece(length / 2, &[0xFF]);
        let both = [half.clone(), half, piece(length % 2, &[0xFF])];
        add_lookup_pieces(vectors, &both, 65_535);
    }
}

/// Entries of any kind, of a few tags.
fn any_entries(vectors: &mut Vectors) {
    let mut varied = Varied(14);
    for count in 1..=40 {
        let entries: Vec<Fields> = (0..count % 8 + 1)
            .map(|_| [3, 1_400, 120, 12].map(|limit| varied.below(limit) as u16))
            .collect();
        add_lookup(vectors, &raw(&entries, &varied.bytes(40)), count % 3);
    }
}
