//! Packs that the thin program reads, with what it prints for them: verdicts of
//! every kind, and packs refused.

use super::pack::built::{built, contents, example, three, Rule};
use super::pack::sizes::many;
use super::pieces::{laid, piece, stepped, Piece};
use super::verify::programs;
use super::Varied;
use crate::report::report;

/// A pack and what is printed for it.
pub struct Report {
    /// The pack.
    pub pack: Vec<u8>,
    /// The lines, each with its line feed.
    pub text: String,
}

/// All packs, in order.
pub fn reports() -> Vec<Report> {
    let mut reports = Vec::new();
    for pack in [vec![0, 0], example(), built(&three()), many(64, 1_000, 1)] {
        add(&mut reports, &[piece(1, &pack)]);
    }
    refused_packs(&mut reports);
    far_addresses(&mut reports);
    varied(&mut reports);
    reports
}

fn add(reports: &mut Vec<Report>, pieces: &[Piece]) {
    let pack = laid(pieces);
    let text = report(&pack);
    reports.push(Report { pack, text });
}

/// 30 to 35, where nothing else is printed.
fn refused_packs(reports: &mut Vec<Report>) {
    let pack = built(&three());
    for length in 0..pack.len() {
        add(reports, &[piece(1, &pack[..length])]);
    }
    for place in 0..26 {
        let mut damaged = pack.clone();
        damaged[place] ^= 0xC0;
        add(reports, &[piece(1, &damaged)]);
    }
    for length in [24_576, 24_577, 65_536] {
        for byte in [0x00, 0x01, 0xFF] {
            add(
                reports,
                &[piece(length / 2, &[byte]), piece(length - length / 2, &[0])],
            );
        }
    }
}

/// Programs refused at addresses of four digits, in the longest packs.
fn far_addresses(reports: &mut Vec<Report>) {
    let jump = |target: u16| {
        let [low, high] = target.to_le_bytes();
        [0x56, low, high]
    };
    for (first, second) in [(16_384, 8_174), (0x0ABC, 16_384), (0x1000, 0x2FFF)] {
        let fields = [[0x00AF, 1, 18, first], [0xFFFF, 1_024, 18 + first, second]];
        for last in [0x00, 0x01, 0x06, 0x7F, 0x80] {
            let body = |length: u16| {
                [
                    piece(1, &jump(length - 1)),
                    piece(usize::from(length) - 4, &[0x5B]),
                    piece(1, &[last]),
                ]
            };
            let mut pieces = vec![piece(1, &contents(2, &fields))];
            pieces.extend(body(first));
            pieces.extend(body(second));
            add(reports, &pieces);
        }
    }
    for jumps in [2_000, 5_461] {
        let length = 3 * jumps as u16;
        let fields = [[1, 0, 10, length]];
        let chain = stepped(jumps, &jump(3), 3);
        add(reports, &[piece(1, &contents(1, &fields)), chain]);
    }
}

/// The verifier's short programs, several in a pack.
fn varied(reports: &mut Vec<Report>) {
    let programs = programs();
    let mut varied = Varied(9);
    for _ in 0..150 {
        let mut rules: Vec<Rule> = Vec::new();
        let mut tag = varied.below(5_000);
        for _ in 0..1 + varied.below(5) {
            let (program, cells) = &programs[varied.below(programs.len())];
            rules.push((tag as u16, *cells as u16, program.clone()));
            tag += 1 + varied.below(12_000);
        }
        add(reports, &[piece(1, &built(&rules))]);
    }
}

#[cfg(test)]
mod tests {
    use super::*;

    #[test]
    fn reports_stay_few() {
        assert!((200..300).contains(&reports().len()));
    }

    #[test]
    fn every_refusal_is_printed() {
        let printed: String = reports().into_iter().map(|it| it.text).collect();
        let times = |words: &str| printed.matches(words).count();
        for number in [30, 31, 32, 33, 34, 35] {
            assert!(times(&format!("pack refused {number}\n")) >= 3, "{number}");
        }
        for number in [1, 2, 3, 4, 5, 8, 9, 10] {
            assert!(times(&format!(" refused {number} at ")) >= 5, "{number}");
        }
        assert!(times(" accepted\n") >= 100);
    }

    /// The second, which is 01's example, by hand.
    #[test]
    fn the_example() {
        let reports = reports();
        let pack = [1, 0, 7, 0, 2, 0, 10, 0, 4, 0, 0x85, 0x83, 0x15, 0x00];
        assert_eq!(reports[1].pack, pack);
        assert_eq!(reports[1].text, "0007 accepted\n");
    }
}
