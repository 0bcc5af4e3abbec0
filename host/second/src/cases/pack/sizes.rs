//! The longest packs, the most entries, and those past them.

use super::built::{contents, Fields};
use super::{add_read, add_read_pieces};
use crate::cases::pieces::{piece, Piece};
use crate::cases::Vectors;
use crate::numbers::PACK_BYTES;

pub fn add_all(vectors: &mut Vectors) {
    for length in [PACK_BYTES - 1, PACK_BYTES, PACK_BYTES + 1, 65_536, 65_538] {
        for last in [0, 1] {
            add_read_pieces(vectors, &longest(length + last, length));
            add_read_pieces(vectors, &longest(length, length + last));
        }
        for first in [0x00, 0x01, 0x41, 0xFF] {
            let half = length / 2;
            let (low, high) = (piece(half - 1, &[0]), piece(length - half, &[0]));
            add_read_pieces(vectors, &[piece(1, &[first]), low, high]);
        }
    }
    for count in [1, 2, 62, 63, 64, 65, 66, 128, 256] {
        for step in [1, 1_000] {
            add_read(vectors, &many(count, step, 0));
            add_read(vectors, &many(count, step, 2));
        }
    }
}

/// Four entries whose bodies make a pack of the first length; it has the second.
pub fn longest(meant: usize, length: usize) -> [Piece; 2] {
    let start = 2 + 8 * 4;
    let mut left = meant - start;
    let mut offset = start;
    let mut fields: Vec<Fields> = Vec::new();
    for tag in 0..4 {
        let body = left.min(16_384);
        fields.push([tag, 1_024, offset as u16, body as u16]);
        offset += body;
        left -= body;
    }
    [piece(1, &contents(4, &fields)), piece(length - start, &[0])]
}

/// So many entries with bodies of so many bytes.
pub fn many(count: u16, step: u16, body: u16) -> Vec<u8> {
    let start = 2 + 8 * count;
    let entry = |tag: u16| [tag.wrapping_mul(step), tag, start + body * tag, body];
    let fields: Vec<Fields> = (0..count).map(entry).collect();
    let bodies = (0..count * body).map(|place| place as u8);
    contents(count, &fields).into_iter().chain(bodies).collect()
}
