//! The verdicts that an admission shows, chunk by chunk, and what is made of one that was not
//! kept to: an answer that is not the pack's.

use crate::engine::{Number, Reply, Ruling};

/// The verdicts that were shown.
#[derive(Default)]
pub struct Shown {
    /// The first on each program.
    first: Vec<Ruling>,
    /// Those that are not the first, and the first ones that were taken back.
    others: Vec<Ruling>,
}

impl Shown {
    /// Looks at all that are shown now.
    pub fn look(&mut self, now: &[Ruling]) {
        for (place, &ruling) in now.iter().enumerate() {
            match self.first.get(place) {
                None => self.first.push(ruling),
                Some(first) if *first != ruling => self.others.push(ruling),
                Some(_) => {}
            }
        }
        self.others.extend(self.first.iter().skip(now.len()));
    }

    /// A good pack's answer, with all verdicts that were ever shown: one that was not kept to
    /// stands behind the others.
    pub fn good(&self, programs: usize) -> Reply {
        Reply::Good(programs, [&self.first[..], &self.others].concat())
    }
}

/// What a closed admission says, with the verdicts that it shows now: a refused pack has
/// none, and is not said to be refused where some are left.
pub fn closed(said: Result<usize, Number>, now: Vec<Ruling>) -> Reply {
    match said {
        Err(refusal) if now.is_empty() => Reply::Refused(refusal),
        said => Reply::Good(said.unwrap_or(0), now),
    }
}

#[cfg(test)]
mod tests {
    use super::*;
    use crate::engine::Verdict;

    const ACCEPTED: Ruling = Ruling {
        tag: 7,
        verdict: Verdict::Accepted,
    };
    const REFUSED: Ruling = Ruling {
        tag: 7,
        verdict: Verdict::Refused(10, Some(1)),
    };
    const SECOND: Ruling = Ruling {
        tag: 9,
        verdict: Verdict::Accepted,
    };

    /// What the close of a pack with two programs says, after these were shown.
    fn good_after(shown: &[&[Ruling]]) -> Reply {
        let mut all = Shown::default();
        for now in shown {
            all.look(now);
        }
        all.good(2)
    }

    /// An answer with both verdicts, and one behind them.
    fn both_and(other: Ruling) -> Reply {
        Reply::Good(2, vec![ACCEPTED, SECOND, other])
    }

    #[test]
    fn verdicts_that_were_kept_to_are_the_answer() {
        let both = [ACCEPTED, SECOND];
        let reply = good_after(&[&[], &[ACCEPTED], &[ACCEPTED], &both, &both]);
        assert_eq!(reply, Reply::Good(2, both.to_vec()));
    }

    #[test]
    fn a_changed_verdict_is_noticed() {
        let changed = good_after(&[&[ACCEPTED], &[REFUSED, SECOND]]);
        assert_eq!(changed, both_and(REFUSED));
        let and_back = good_after(&[&[ACCEPTED], &[REFUSED], &[ACCEPTED, SECOND]]);
        assert_eq!(and_back, both_and(REFUSED));
    }

    #[test]
    fn a_missing_verdict_is_noticed() {
        let both = [ACCEPTED, SECOND];
        assert_eq!(good_after(&[&both, &both[..1]]), both_and(SECOND));
        assert_eq!(good_after(&[&both, &both[..1], &both]), both_and(SECOND));
        let never = Reply::Good(2, vec![ACCEPTED]);
        assert_eq!(good_after(&[&both[..1], &both[..1]]), never);
    }

    #[test]
    fn a_verdict_that_is_left_over_is_noticed() {
        assert_eq!(closed(Err(34), Vec::new()), Reply::Refused(34));
        let left_over = Reply::Good(0, vec![ACCEPTED]);
        assert_eq!(closed(Err(34), vec![ACCEPTED]), left_over);
        let good = Reply::Good(1, vec![ACCEPTED]);
        assert_eq!(closed(Ok(1), vec![ACCEPTED]), good);
    }
}
