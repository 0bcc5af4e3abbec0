//! Cases of the verifier.
//!
//! Numbers have their low byte first. A case is `V` (56 hex), then
//!
//! - the number of stack cells as u32;
//! - the map lent: its length as u32, how many of its cells are given as u16,
//!   the cells given, u16 each; a map longer than what is given repeats that;
//! - the program, in pieces (see `pieces`).
//!
//! Answered as `verify`, with the map as `fields` has it.

mod case;
mod examples;
mod hostile;
mod instructions;
mod sizes;
mod varied;

use super::Vectors;
use case::Case;

/// All cases, in order.
pub fn vectors() -> Vectors {
    let mut vectors = Vectors::default();
    for (program, cells) in programs() {
        Case::of(&program, cells).add(&mut vectors);
    }
    for case in examples::lent_maps() {
        case.add(&mut vectors);
    }
    for case in sizes::cases().into_iter().chain(hostile::cases()) {
        case.add(&mut vectors);
    }
    vectors
}

/// The short programs among the cases, each with its number of cells.
pub fn programs() -> Vec<(Vec<u8>, usize)> {
    [
        examples::marked(),
        examples::orders(),
        examples::by_names(),
        instructions::every_first_byte(),
        instructions::cut(),
        instructions::functions(),
        instructions::jumps(),
        varied::altered(),
        varied::parts(),
        varied::bytes(),
        varied::grown(),
    ]
    .concat()
}

#[cfg(test)]
mod tests {
    use super::*;

    #[test]
    fn the_cases_stay_few_and_balanced() {
        let vectors = vectors();
        assert!(vectors.stdin.len() < 200_000);
        assert!(vectors.stdout.len() < 600_000);
        assert!((2_000..5_000).contains(&vectors.cases()));
        let (accepted, refused) = (vectors.answers("accepted "), vectors.answers("refused "));
        assert_eq!(accepted + refused, vectors.cases());
        assert!(accepted.abs_diff(refused) < vectors.cases() / 10);
    }

    #[test]
    fn every_refusal_appears_often() {
        let vectors = vectors();
        for number in [1, 2, 3, 4, 5, 8, 9, 10, 20, 22, 23] {
            assert!(
                vectors.answers(&format!("refused {number} ")) >= 10,
                "{number}"
            );
        }
    }

    /// The first case, which is M2, by hand.
    #[test]
    fn the_form_of_a_case() {
        let vectors = vectors();
        let m2 = [
            0x56, 2, 0, 0, 0, 4, 0, 0, 0, 3, 0, 0xA1, 0xA1, 0xB2, 0x80, 0xC3, 0x00, 1, 1, 0, 0, 0,
            4, 0, 0x85, 0x83, 0x15, 0x00,
        ];
        assert!(vectors.stdin.starts_with(&m2));
        assert!(vectors.stdout.starts_with("accepted 0000000100020001\n"));
    }
}
