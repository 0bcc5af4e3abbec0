//! What is timed: a piece of work that more than one side can do.

use std::fmt;

use peer::{Measured, PLACES};

/// Who does the work.
#[derive(Clone, Copy, Debug, PartialEq, Eq)]
pub enum Side {
    /// The proved library.
    Proved,
    /// Its own run, which lies at one place, whatever the place that is asked for.
    Shipped,
    /// A build of the C; of its two verifiers the one with a bitmap, of its two runs the
    /// one that copies byte by byte.
    C(usize),
    /// A build of C's verifier with a cursor.
    Cursor(usize),
    /// A build of C's run that copies by memmove.
    Memmove(usize),
    /// The proved library's report on a whole pack.
    Whole,
}

impl Side {
    /// The build of C that does it; none where it is the proved library.
    pub fn build(self) -> Option<&'static peer::Build> {
        match self {
            Side::C(build) | Side::Cursor(build) | Side::Memmove(build) => {
                Some(&peer::BUILDS[build])
            }
            Side::Proved | Side::Shipped | Side::Whole => None,
        }
    }

    /// What it has as all sides do.
    pub fn functions(self) -> &'static dyn Measured {
        match self.build() {
            Some(build) => &build.functions,
            None => &peer::PROVED,
        }
    }
}

impl fmt::Display for Side {
    fn fmt(&self, f: &mut fmt::Formatter<'_>) -> fmt::Result {
        match *self {
            Side::Proved => write!(f, "the proved library"),
            Side::Shipped => write!(f, "the proved library as shipped"),
            Side::C(build) => write!(f, "C by {}", peer::BUILDS[build].name),
            Side::Cursor(build) => write!(f, "C, cursor, by {}", peer::BUILDS[build].name),
            Side::Memmove(build) => write!(f, "C, memmove, by {}", peer::BUILDS[build].name),
            Side::Whole => write!(f, "the report on the whole pack"),
        }
    }
}

/// The proved library, where C has no such function.
pub fn ours_alone() -> Vec<Side> {
    vec![Side::Proved]
}

/// The proved library in parts, and its report on a whole pack.
pub fn ours_and_the_whole() -> Vec<Side> {
    vec![Side::Proved, Side::Whole]
}

/// The proved library, and C by each of its builds.
pub fn both() -> Vec<Side> {
    let builds = (0..peer::BUILDS.len()).map(Side::C);
    std::iter::once(Side::Proved).chain(builds).collect()
}

/// The same, and C's verifier with a cursor by each build.
pub fn all_verifiers() -> Vec<Side> {
    both_and(Side::Cursor)
}

/// The same two of a run, and the library's own where its place is fixed.
pub fn both_and_shipped() -> Vec<Side> {
    with_shipped(both())
}

/// The same, and C's run that copies by memmove by each build.
pub fn all_runs() -> Vec<Side> {
    with_shipped(both_and(Side::Memmove))
}

fn with_shipped(mut sides: Vec<Side>) -> Vec<Side> {
    sides.extend(peer::shipped_past().map(|_| Side::Shipped));
    sides
}

fn both_and(other: fn(usize) -> Side) -> Vec<Side> {
    let others = (0..peer::BUILDS.len()).map(other);
    both().into_iter().chain(others).collect()
}

/// The numbers that a call gives.
pub type Answer = [u32; 5];

/// The numbers that a call gives and the memories that it leaves.
#[derive(Debug, PartialEq, Eq)]
pub struct Outcome {
    pub answer: Answer,
    pub bytes: Vec<u8>,
    pub cells: Vec<u16>,
}

pub trait Work {
    /// Lays the memories out anew.
    fn clear(&mut self);

    /// Does the work once, by a side's copy at one of its places.
    fn call(&mut self, side: Side, place: usize) -> Answer;

    /// The memories as they are.
    fn memories(&self) -> (Vec<u8>, Vec<u16>);
}

/// What a case's times are told for.
#[derive(Clone, Copy, Debug, PartialEq, Eq)]
pub enum Unit {
    /// One of so many steps of a call.
    Step(u32),
    /// One of so many bytes that a call copies.
    Byte(u32),
    /// One of so many tags that a call asks for.
    Tag(u32),
    /// A call, which examines so many instructions.
    Instructions(u32),
    /// A call.
    Call,
}

pub struct Case {
    pub name: &'static str,
    pub about: &'static str,
    pub sides: Vec<Side>,
    pub unit: Unit,
    pub work: Box<dyn Work>,
}

impl Case {
    /// Whether a word is its name, or the part of it before a dash.
    pub fn is_called(&self, word: &str) -> bool {
        let begins = |rest: &str| rest.is_empty() || rest.starts_with('-');
        self.name.strip_prefix(word).map_or(false, begins)
    }

    /// An error where two copies, of one side or of two, give different answers or leave
    /// different memories.
    pub fn agree(&mut self) -> Result<(), String> {
        let ours = self.outcome(Side::Proved, 0);
        for (side, place) in self.copies() {
            if self.outcome(side, place) != ours {
                return Err(format!(
                    "{}: {side}, copy {place}, and the proved library differ",
                    self.name
                ));
            }
        }
        Ok(())
    }

    /// Each side at each place, the sides in turn.
    pub fn copies(&self) -> Vec<(Side, usize)> {
        let at = |place| self.sides.iter().map(move |&side| (side, place));
        (0..PLACES).flat_map(at).collect()
    }

    /// Whether a call on the memories that a call has left gives the same numbers again.
    pub fn repeats(&mut self) -> bool {
        self.work.clear();
        self.work.call(Side::Proved, 0) == self.work.call(Side::Proved, 0)
    }

    /// What one copy comes to from the memories as laid out.
    pub fn outcome(&mut self, side: Side, place: usize) -> Outcome {
        self.work.clear();
        let answer = self.work.call(side, place);
        let (bytes, cells) = self.work.memories();
        Outcome {
            answer,
            bytes,
            cells,
        }
    }
}

#[cfg(test)]
mod tests {
    use super::*;

    /// Work in which one copy of one build of C differs in one number, or leaves another
    /// memory.
    struct Unlike {
        answer: u32,
        memory: u8,
        left: u8,
    }

    impl Work for Unlike {
        fn clear(&mut self) {
            self.left = 0;
        }

        fn call(&mut self, side: Side, place: usize) -> Answer {
            if (side, place) != (Side::C(1), 3) {
                return [0; 5];
            }
            self.left = self.memory;
            [0, 0, 0, 0, self.answer]
        }

        fn memories(&self) -> (Vec<u8>, Vec<u16>) {
            (vec![self.left], Vec::new())
        }
    }

    fn agree(answer: u32, memory: u8) -> Result<(), String> {
        let left = 9;
        let mut case = Case {
            name: "unlike",
            about: "",
            sides: both(),
            unit: Unit::Call,
            work: Box::new(Unlike {
                answer,
                memory,
                left,
            }),
        };
        case.agree()
    }

    #[test]
    fn a_difference_is_noticed() {
        assert_eq!(agree(0, 0), Ok(()));
        let told = Err("unlike: C by gcc -O3, copy 3, and the proved library differ".to_string());
        assert_eq!(agree(1, 0), told);
        assert_eq!(agree(0, 1), told);
    }
}
