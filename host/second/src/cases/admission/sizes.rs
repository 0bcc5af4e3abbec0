//! The longest packs and those past them, the longest programs, and 31 that comes first.

use super::case::Case;
use crate::cases::pack::built::{contents, example, Fields};
use crate::cases::pack::sizes::longest;
use crate::cases::pieces::{laid, piece, Piece};
use crate::cases::Vectors;
use crate::numbers::PACK_BYTES;

pub fn add_all(vectors: &mut Vectors) {
    about_the_longest(vectors);
    size_comes_first(vectors);
    far_past(vectors);
    far_addresses(vectors);
}

/// Whole, in chunks of many lengths, and with the last byte by itself.
fn add(vectors: &mut Vectors, pieces: &[Piece]) {
    let length = laid(pieces).len();
    for each in [1, 7, 512, 4_096, length] {
        Case::in_chunks(pieces, each).add(vectors);
    }
    let case = Case::of_pieces(pieces).chunk(length - 1).ask();
    case.chunks(2, 0).chunk(1).close().ask().add(vectors);
}

/// Packs whose bodies fit, and whose bodies are a byte too short or too long.
fn about_the_longest(vectors: &mut Vectors) {
    for length in [PACK_BYTES - 1, PACK_BYTES, PACK_BYTES + 1] {
        for meant in [length - 1, length, length + 1] {
            add(vectors, &longest(meant, length));
        }
    }
}

/// Contents that are refused by 30, 32, 33 and 35, and good ones, in packs that have as
/// many bytes as they may, one more, and many more.
fn size_comes_first(vectors: &mut Vectors) {
    let good: Fields = [7, 0, 18, 16_384];
    for (count, entries) in [
        (65, [good; 2]),
        (65_535, [good; 2]),
        (2, [good; 2]),
        (2, [[7, 0, 19, 0], [8, 0, 18, 0]]),
        (2, [[7, 1_025, 18, 0], [8, 0, 18, 0]]),
        (2, [good, [8, 0, 16_402, 16_385]]),
        (2, [good, [8, 0, 16_402, 16_384]]),
        (0, [[0; 4]; 2]),
    ] {
        let contents = contents(count, &entries);
        for length in [PACK_BYTES, PACK_BYTES + 1, 50_000] {
            let rest = length - contents.len();
            let pieces = [piece(1, &contents), piece(rest, &[0])];
            let case = Case::of_pieces(&pieces);
            case.clone().chunk(length).close().ask().add(vectors);
            let at_contents = case.chunk(contents.len()).ask().chunk(rest);
            at_contents.close().close().chunk(0).ask().add(vectors);
            Case::in_chunks(&pieces, 600).add(vectors);
        }
    }
}

/// So many bytes that a count of them in 16 bits would be that of a good pack.
fn far_past(vectors: &mut Vectors) {
    let (pack, half) = (piece(1, &example()), piece(32_768, &[0]));
    for pieces in [
        [pack.clone(), half.clone(), half.clone()],
        [half.clone(), half, pack],
    ] {
        for each in [2, 14, 32_768, 65_533] {
            Case::in_chunks(&pieces, each).add(vectors);
        }
    }
}

/// The longest programs, refused and accepted at their last bytes, whole and cut there.
fn far_addresses(vectors: &mut Vectors) {
    for last in [0x00, 0x01, 0x7F, 0x80] {
        let fields = [[7, 1, 18, 16_384], [9, 2, 16_402, 8_174]];
        let mut pieces = vec![piece(1, &contents(2, &fields))];
        for length in fields.map(|entry: Fields| entry[3]) {
            let [low, high] = (length - 2).to_le_bytes();
            pieces.push(piece(1, &[0x56, low, high]));
            pieces.push(piece(usize::from(length) - 5, &[0x5B]));
            pieces.push(piece(1, &[0x80, last]));
        }
        let case = Case::of_pieces(&pieces);
        case.clone().chunk(PACK_BYTES).close().add(vectors);
        let in_two = case.clone().chunk(16_402).chunk(8_174);
        in_two.close().add(vectors);
        let at_lasts = case.chunk(16_401).chunk(1).chunk(8_173);
        at_lasts.ask().chunk(1).close().ask().add(vectors);
        Case::in_chunks(&pieces, 1).add(vectors);
    }
}
