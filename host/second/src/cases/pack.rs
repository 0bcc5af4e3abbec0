//! Cases of packs.
//!
//! Numbers have their low byte first; packs and bodies are in pieces (see
//! `pieces`). A case is one of:
//!
//! - `P` (50 hex): a pack. Answered as `pack`.
//! - `F` (46 hex): a tag as u16, a pack. Answered as `find`, then the bytes of the
//!   program found.
//! - `L` (4C hex): the same, answered as `lookup`, then the bytes of the program found.
//! - `W` (57 hex): three lists (tags, cells, lengths), each its count as u16 and
//!   its numbers, u16 each; the bodies; the room's length as u32, how many of its
//!   bytes are given as u16, the bytes given, which it repeats. Answered as
//!   `writepack`.
//!
//! Rooms and programs are as `fields` has them.

pub(super) mod built;
mod damaged;
mod finding;
mod looking_up;
pub(super) mod sizes;
mod writing;

use super::pieces::{laid, piece, written, Piece};
use super::{fields, Vectors};
use crate::pack::{entries, find, lookup, Entry};
use crate::protocol::{find_answer, pack_answer};

/// All cases, in order.
pub fn vectors() -> Vectors {
    let mut vectors = Vectors::default();
    damaged::add_all(&mut vectors);
    sizes::add_all(&mut vectors);
    finding::add_all(&mut vectors);
    looking_up::add_all(&mut vectors);
    writing::add_all(&mut vectors);
    vectors
}

/// A pack that is read.
fn add_read(vectors: &mut Vectors, pack: &[u8]) {
    add_read_pieces(vectors, &[piece(1, pack)]);
}

fn add_read_pieces(vectors: &mut Vectors, pieces: &[Piece]) {
    let case = [vec![b'P'], written(pieces)].concat();
    let answer = entries(&laid(pieces));
    vectors.add(&case, &pack_answer(&answer));
}

/// A pack that is asked for a tag.
fn add_find(vectors: &mut Vectors, pack: &[u8], tag: u16) {
    add_asked(vectors, (b'F', find), &[piece(1, pack)], tag);
}

/// A pack in which a tag is looked up.
fn add_lookup(vectors: &mut Vectors, pack: &[u8], tag: u16) {
    add_lookup_pieces(vectors, &[piece(1, pack)], tag);
}

fn add_lookup_pieces(vectors: &mut Vectors, pieces: &[Piece], tag: u16) {
    add_asked(vectors, (b'L', lookup), pieces, tag);
}

/// A way to ask for a tag: its kind of case, and what answers it.
type Way = (u8, fn(&[u8], u16) -> Result<(Entry, &[u8]), u32>);

fn add_asked(vectors: &mut Vectors, (kind, asked): Way, pieces: &[Piece], tag: u16) {
    let mut case = vec![kind];
    case.extend(tag.to_le_bytes());
    case.extend(written(pieces));
    let pack = laid(pieces);
    let found = asked(&pack, tag);
    let mut answer = find_answer(&found);
    if let Ok((_, program)) = found {
        answer = format!("{answer} {}", fields::bytes(program));
    }
    vectors.add(&case, &answer);
}

#[cfg(test)]
mod tests {
    use super::*;

    #[test]
    fn the_cases_stay_few_and_balanced() {
        let vectors = vectors();
        assert!(vectors.stdin.len() < 250_000);
        assert!(vectors.stdout.len() < 600_000);
        assert!((1_000..4_000).contains(&vectors.cases()));
        let refused = vectors.refused();
        assert!((2 * refused).abs_diff(vectors.cases()) < vectors.cases() / 5);
    }

    #[test]
    fn every_refusal_appears_often() {
        let vectors = vectors();
        for number in [30, 31, 32, 33, 34, 35] {
            let line = format!("refused {number}");
            assert!(vectors.answers(&line) >= 20, "{line}");
        }
        assert!(vectors.answers("refused 36") >= 20);
        assert!(vectors.answers("refused 25 ") >= 20);
    }

    /// The first case, which is 01's example, by hand.
    #[test]
    fn the_form_of_a_case() {
        let vectors = vectors();
        let example = [
            0x50, 1, 1, 0, 0, 0, 14, 0, 1, 0, 7, 0, 2, 0, 10, 0, 4, 0, 0x85, 0x83, 0x15, 0x00,
        ];
        assert!(vectors.stdin.starts_with(&example));
        assert!(vectors.stdout.starts_with("ok 1 7 2 10 4\n"));
    }

    /// A lookup in it, by hand.
    #[test]
    fn the_form_of_a_lookup() {
        let mut vectors = Vectors::default();
        add_lookup(&mut vectors, &built::example(), 7);
        let case = [
            0x4C, 7, 0, 1, 1, 0, 0, 0, 14, 0, 1, 0, 7, 0, 2, 0, 10, 0, 4, 0, 0x85, 0x83, 0x15, 0x00,
        ];
        assert_eq!(vectors.stdin, case);
        assert_eq!(vectors.stdout, "found 2 10 4 85831500\n");
    }
}
