//! The verifier's short programs, several in a pack, some packs with a byte altered; in
//! any chunks, with asks between, and with more behind the close.

use super::case::Case;
use crate::cases::pack::built::{built, Rule};
use crate::cases::verify::programs;
use crate::cases::{Varied, Vectors};

/// The most bytes of a program.
const SHORT: usize = 40;

pub fn add_all(vectors: &mut Vectors) {
    let mut programs = programs();
    programs.retain(|(program, _)| program.len() <= SHORT);
    let mut varied = Varied(15);
    for number in 0..300 {
        let mut rules: Vec<Rule> = Vec::new();
        let mut tag = varied.below(5_000);
        for _ in 0..varied.below(5) {
            let (program, cells) = &programs[varied.below(programs.len())];
            rules.push((tag as u16, *cells as u16, program.clone()));
            tag += 1 + varied.below(12_000);
        }
        let mut pack = built(&rules);
        if number % 4 == 0 {
            let place = varied.below(pack.len());
            pack[place] ^= 1 << varied.below(8);
        }
        coming(&mut varied, &pack).add(vectors);
    }
}

/// A pack that comes in some way; sometimes it is closed too soon.
fn coming(varied: &mut Varied, pack: &[u8]) -> Case {
    let end = match varied.below(8) {
        0 => varied.below(pack.len()),
        _ => pack.len(),
    };
    let longest = varied.one_of(&[1, 2, 4, 20, 100]);
    let (mut case, mut left) = (Case::of(pack), end);
    while left > 0 {
        let length = varied.below(longest + 1).min(left);
        case = case.chunk(length);
        left -= length;
        if varied.below(16) == 0 {
            case = case.ask();
        }
    }
    case = case.close();
    for _ in 0..varied.below(4) {
        case = match varied.below(4) {
            0 => case.chunk(0),
            1 => case.close(),
            _ => case.ask(),
        };
    }
    match pack.len() - end {
        0 => case,
        rest => case.chunk(rest),
    }
}
