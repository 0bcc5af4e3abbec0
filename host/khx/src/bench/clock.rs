//! Timing: the sides of a case take turns at all their places, and of each copy the least
//! time counts.

use std::time::{Duration, Instant};

use peer::PLACES;

use super::case::{Case, Side};

/// A timed part lasts about so long, or one call where that is longer or does not do the
/// same again.
const PART: Duration = Duration::from_millis(1);
const LEAST_ROUNDS: u32 = 5;

/// The least nanoseconds of a call at each place.
#[derive(Clone, Copy, Debug, PartialEq)]
pub struct Times(pub [f64; PLACES]);

impl Times {
    /// What a side is measured by: no place is a lucky one.
    pub fn mean(&self) -> f64 {
        self.0.iter().sum::<f64>() / PLACES as f64
    }

    pub fn least(&self) -> f64 {
        self.0.iter().copied().fold(f64::INFINITY, f64::min)
    }

    pub fn most(&self) -> f64 {
        self.0.iter().copied().fold(0.0, f64::max)
    }
}

pub struct Timed {
    /// Of each side.
    pub times: Vec<(Side, Times)>,
    pub rounds: u32,
}

/// A copy, how many of its calls make a timed part, and the least nanoseconds of one.
struct Lane {
    side: Side,
    place: usize,
    calls: u32,
    least: f64,
}

/// Times the sides of a case for about so long.
pub fn time(case: &mut Case, limit: Duration, mut each_round: impl FnMut()) -> Timed {
    let mut lanes = lanes(case);
    let start = Instant::now();
    let mut rounds = 0;
    while rounds < LEAST_ROUNDS || start.elapsed() < limit {
        each_round();
        for lane in &mut lanes {
            let part = part(case, lane.side, lane.place, lane.calls);
            let call = part.as_nanos() as f64 / f64::from(lane.calls);
            lane.least = lane.least.min(call);
        }
        lanes.reverse();
        rounds += 1;
    }
    let times = |&side: &Side| (side, times(&lanes, side));
    Timed {
        times: case.sides.iter().map(times).collect(),
        rounds,
    }
}

fn lanes(case: &mut Case) -> Vec<Lane> {
    let most = if case.repeats() { 1 << 20 } else { 1 };
    let copies = case.copies().into_iter();
    let lane = |(side, place)| Lane {
        side,
        place,
        calls: calls(case, side, place, most),
        least: f64::INFINITY,
    };
    copies.map(lane).collect()
}

/// What the lanes of a side found.
fn times(lanes: &[Lane], side: Side) -> Times {
    let mut times = [f64::NAN; PLACES];
    for lane in lanes.iter().filter(|lane| lane.side == side) {
        times[lane.place] = lane.least;
    }
    Times(times)
}

/// How many calls of a copy make a timed part.
fn calls(case: &mut Case, side: Side, place: usize, most: u32) -> u32 {
    let mut calls = 1;
    while calls < most && part(case, side, place, calls) < PART {
        calls *= 2;
    }
    calls
}

/// The time of so many calls; the memories are laid out before it begins.
fn part(case: &mut Case, side: Side, place: usize, calls: u32) -> Duration {
    case.work.clear();
    let start = Instant::now();
    for _ in 0..calls {
        case.work.call(side, place);
    }
    start.elapsed()
}

#[cfg(test)]
mod tests {
    use super::*;

    #[test]
    fn over_the_places() {
        let times = Times([2.0, 4.0, 1.0, 5.0]);
        assert_eq!((times.mean(), times.least(), times.most()), (3.0, 1.0, 5.0));
    }

    #[test]
    fn a_side_has_its_own_times_by_place() {
        let lane = |side, place, least| Lane {
            side,
            place,
            calls: 1,
            least,
        };
        let mut lanes = Vec::new();
        for place in [2, 0, 3, 1] {
            lanes.push(lane(Side::C(0), place, 9.0));
            lanes.push(lane(Side::Proved, place, place as f64));
        }
        assert_eq!(times(&lanes, Side::Proved), Times([0.0, 1.0, 2.0, 3.0]));
    }
}
