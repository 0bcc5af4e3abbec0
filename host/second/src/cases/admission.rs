//! Cases of admissions.
//!
//! Numbers have their low byte first. A case is `A` (41 hex), then
//!
//! - all bytes that come, in pieces (see `pieces`);
//! - how many events there are as u16, and for each how often it comes, one time after
//!   the other, as u16, and what comes as u16: 65,535 is a close, 65,534 an ask, any
//!   other number a chunk of so many bytes, those behind the ones before.
//!
//! Answered as `stream`, but that an event which comes several times is answered once,
//! as it is the last time.

mod case;
mod cuts;
mod events;
mod refused;
mod sizes;
mod varied;

use super::Vectors;

/// All cases, in order.
pub fn vectors() -> Vectors {
    let mut vectors = Vectors::default();
    cuts::add_all(&mut vectors);
    events::add_all(&mut vectors);
    refused::add_all(&mut vectors);
    sizes::add_all(&mut vectors);
    varied::add_all(&mut vectors);
    vectors
}

#[cfg(test)]
mod tests {
    use super::*;

    #[test]
    fn the_cases_stay_few_and_balanced() {
        let vectors = vectors();
        assert!(vectors.stdin.len() < 200_000);
        assert!(vectors.stdout.len() < 200_000);
        assert!((1_000..4_000).contains(&vectors.cases()));
        let (good, refused) = (vectors.answers("good "), vectors.refused());
        assert!(4 * good > vectors.cases() && 4 * refused > vectors.cases());
    }

    #[test]
    fn every_answer_appears_often() {
        let vectors = vectors();
        for number in [30, 31, 32, 33, 34, 35, 37] {
            let answer = format!("refused {number}");
            assert!(vectors.answers(&answer) >= 30, "{answer}");
        }
        assert!(vectors.answers("open") >= 30);
        let said = |words: &str| vectors.stdout.matches(words).count();
        for number in [1, 2, 3, 4, 5, 8, 9, 10] {
            let verdict = format!(" refused {number} ");
            assert!(said(&verdict) >= 30, "{verdict}");
        }
        assert!(said(" accepted") >= 100);
    }

    /// The first case, which is 01's example in one chunk, by hand.
    #[test]
    fn the_form_of_a_case() {
        let vectors = vectors();
        let example = [
            0x41, 1, 1, 0, 0, 0, 14, 0, 1, 0, 7, 0, 2, 0, 10, 0, 4, 0, 0x85, 0x83, 0x15, 0x00, 2,
            0, 1, 0, 14, 0, 1, 0, 0xFF, 0xFF,
        ];
        assert!(vectors.stdin.starts_with(&example));
        assert!(vectors.stdout.starts_with("ok ; good 1 7 accepted\n"));
    }
}
