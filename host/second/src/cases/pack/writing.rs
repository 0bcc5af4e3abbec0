//! Packs that are written, and each refusal of the writer.

use super::built::{three, varied_rules, Rule};
use crate::cases::fields;
use crate::cases::lent::Lent;
use crate::cases::pieces::{laid, piece, written, Piece};
use crate::cases::{Varied, Vectors};
use crate::numbers::PACK_BYTES;
use crate::pack::write;
use crate::protocol::length_or_refusal;

/// What the writer is given.
#[derive(Clone)]
struct Written {
    lists: [Vec<u16>; 3],
    bodies: Vec<Piece>,
}

impl Written {
    fn of(rules: &[Rule]) -> Written {
        let bodies: Vec<&[u8]> = rules.iter().map(|(_, _, body)| &body[..]).collect();
        Written {
            lists: [
                rules.iter().map(|rule| rule.0).collect(),
                rules.iter().map(|rule| rule.1).collect(),
                rules.iter().map(|rule| rule.2.len() as u16).collect(),
            ],
            bodies: vec![piece(1, &bodies.concat())],
        }
    }

    /// Entries of these lengths with bodies of so many bytes.
    fn of_lengths(lengths: &[u16], bodies: usize) -> Written {
        let count = lengths.len() as u16;
        Written {
            lists: [
                (0..count).collect(),
                vec![1; lengths.len()],
                lengths.to_vec(),
            ],
            bodies: vec![piece(bodies / 2, &[0x80, 0x01]), piece(bodies % 2, &[0x00])],
        }
    }

    /// Adds the case with a room of so many bytes.
    fn add(&self, vectors: &mut Vectors, room: usize) {
        let lent = Lent::repeated(&[0xA5, 0x5A, 0xEE][..room.min(3)], room);
        let mut case = vec![b'W'];
        for list in &self.lists {
            case.extend((list.len() as u16).to_le_bytes());
            case.extend(list.iter().flat_map(|number| number.to_le_bytes()));
        }
        case.extend(written(&self.bodies));
        case.extend((lent.length as u32).to_le_bytes());
        case.extend((lent.given.len() as u16).to_le_bytes());
        case.extend(&lent.given);
        let mut room = lent.memory();
        let [tags, cells, lengths] = &self.lists;
        let answer = write(tags, cells, lengths, &laid(&self.bodies), &mut room);
        let answer = format!("{} {}", length_or_refusal(&answer), fields::bytes(&room));
        vectors.add(&case, &answer);
    }

    /// Adds the case with rooms about the length of the pack.
    fn add_rooms(&self, vectors: &mut Vectors) {
        let length = 2 + 8 * self.lists[0].len() + laid(&self.bodies).len();
        for room in [0, length - 1, length, length + 1, length + 7] {
            self.add(vectors, room);
        }
    }

    /// The same with another number in a list.
    fn with(&self, list: usize, entry: usize, number: u16) -> Written {
        let mut other = self.clone();
        other.lists[list][entry] = number;
        other
    }
}

pub fn add_all(vectors: &mut Vectors) {
    rooms(vectors);
    unlike_lists(vectors);
    entries_at_their_limits(vectors);
    two_faults(vectors);
    sums(vectors);
    varied(vectors);
}

/// Packs of several sizes in rooms that are too short, fit, and are longer.
fn rooms(vectors: &mut Vectors) {
    for rules in [&three()[..0], &three()[..1], &three()[1..2], &three()[..]] {
        Written::of(rules).add_rooms(vectors);
    }
    for count in [2, 30, 63, 64] {
        Written::of_lengths(&vec![1; count], count).add_rooms(vectors);
    }
    for last in [8_157, 8_158] {
        Written::of_lengths(&[16_384, last, 0, 0], 16_384 + usize::from(last)).add_rooms(vectors);
    }
}

/// Lists of unlike length, and too long ones, also where the room is too short
/// and the bodies do not fit.
fn unlike_lists(vectors: &mut Vectors) {
    for list in 0..3 {
        for room in [0, 100] {
            let mut longer = Written::of(&three());
            longer.lists[list].push(70);
            longer.add(vectors, room);
            let mut shorter = Written::of(&three());
            shorter.lists[list].pop();
            shorter.add(vectors, room);
            let mut none = Written::of(&three());
            none.lists[list].clear();
            none.add(vectors, room);
        }
    }
    for count in [65, 66, 128, 256, 300] {
        Written::of_lengths(&vec![1; count], count).add(vectors, 3_000);
        Written::of_lengths(&vec![1; count], 0).add(vectors, 0);
    }
}

/// Every number in turn at and past its limits.
fn entries_at_their_limits(vectors: &mut Vectors) {
    let good = Written::of_lengths(&[5, 5, 5], 15);
    for entry in 0..3 {
        for tag in [0, 1, 2, 3, 256, 65_535] {
            good.with(0, entry, tag).add(vectors, 41);
        }
        for cells in [0, 1_023, 1_024, 1_025, 32_768, 65_535] {
            good.with(1, entry, cells).add(vectors, 41);
        }
        for length in [0, 4, 5, 6, 261, 16_384, 16_385, 65_535] {
            good.with(2, entry, length).add(vectors, 41);
        }
    }
}

/// Two faults at once, the room fitting or too short.
fn two_faults(vectors: &mut Vectors) {
    let good = Written::of_lengths(&[5, 5, 5], 15);
    let faults = [(0, 0), (1, 1_025), (2, 16_385), (2, 4)];
    for first in 1..3 {
        for second in first..3 {
            for one in faults {
                for other in faults {
                    let bad = good.with(one.0, first, one.1);
                    bad.with(other.0, second, other.1).add(vectors, 41 - second);
                }
            }
        }
    }
}

/// Lengths that do not sum to the bodies, or do so only modulo 65,536, and packs
/// about the greatest length, in rooms that are too short as well.
fn sums(vectors: &mut Vectors) {
    for (lengths, bodies) in [
        (vec![], 1),
        (vec![3], 0),
        (vec![3], 2),
        (vec![3], 4),
        (vec![3, 4], 6),
        (vec![3, 4], 8),
        (vec![16_384; 4], 0),
        (vec![16_384; 4], 65_536),
        (vec![16_384, 16_384, 16_384, 16_384, 7], 7),
        (vec![16_384; 8], 0),
        (vec![16_384; 64], 0),
        (vec![16_384, 8_173], 24_557),
        (vec![16_384, 8_174], 24_558),
        (vec![16_384, 8_175], 24_559),
        (vec![16_384, 8_175], 24_558),
        (vec![16_384, 8_174], 24_559),
        (vec![16_384, 16_384], 32_768),
    ] {
        for room in [0, 24, 24_575, PACK_BYTES, PACK_BYTES + 1] {
            Written::of_lengths(&lengths, bodies).add(vectors, room);
        }
    }
}

/// Varied packs in rooms that fit, are longer, or are too short by one.
fn varied(vectors: &mut Vectors) {
    let mut varied = Varied(8);
    for _ in 0..150 {
        let rules = varied_rules(&mut varied);
        let bodies: usize = rules.iter().map(|rule| rule.2.len()).sum();
        let length = 2 + 8 * rules.len() + bodies;
        let room = length + varied.one_of(&[0, 0, 1, 5, 200]) - varied.below(4) / 3;
        Written::of(&rules).add(vectors, room);
    }
}
