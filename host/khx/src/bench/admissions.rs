//! Packs admitted in chunks, each beside the report on the whole pack.

use khalixoshi::pack::{self, Rule};
use khalixoshi::{depths, Error, Refused, Ruling, CELLS_MAX, PACK_MAX, PROGRAM_MAX};
use khalixoshi::{REPORT_MAX, UNMET};
use peer::Memories;

use super::case::{self, Answer, Case, Side, Unit, Work};
use super::programs;

/// Name and words, how many programs the pack has, and how many bytes a chunk.
const CASES: [(&str, &str, u16, usize); 8] = [
    (
        "admit-64-by-1",
        "admission: a pack of 64 programs, 24 KB, byte by byte, against the report on the whole",
        64,
        1,
    ),
    (
        "admit-64-by-64",
        "admission: the same in chunks of 64 bytes",
        64,
        64,
    ),
    (
        "admit-64-by-1460",
        "admission: the same in chunks of 1,460 bytes, as a network brings them",
        64,
        1_460,
    ),
    (
        "admit-64-by-24576",
        "admission: the same in one chunk",
        64,
        PACK_MAX,
    ),
    (
        "admit-1-by-1",
        "admission: a pack of one program of 16 KB, byte by byte, against the report on the whole",
        1,
        1,
    ),
    (
        "admit-1-by-64",
        "admission: the same in chunks of 64 bytes",
        1,
        64,
    ),
    (
        "admit-1-by-1460",
        "admission: the same in chunks of 1,460 bytes",
        1,
        1_460,
    ),
    (
        "admit-1-by-24576",
        "admission: the same in one chunk",
        1,
        PACK_MAX,
    ),
];

pub fn cases() -> Vec<Case> {
    CASES.into_iter().map(case).collect()
}

fn case((name, about, programs, chunk): (&'static str, &'static str, u16, usize)) -> Case {
    let programs = of_random(programs.into());
    let examined = programs.iter().map(|program| examined(program)).sum();
    Case {
        name,
        about,
        sides: case::ours_and_the_whole(),
        unit: Unit::Instructions(examined),
        work: Box::new(Admit::of(pack_of(&programs), chunk)),
    }
}

/// So many random programs that fill a pack, or are as long as they may be.
fn of_random(count: usize) -> Vec<Vec<u8>> {
    let length = PROGRAM_MAX.min((PACK_MAX - 2) / count - 8);
    let seeds = 7..7 + count as u64;
    seeds
        .map(|seed| programs::random_of(length, seed))
        .collect()
}

/// How many instructions the verifier examines.
fn examined(program: &[u8]) -> u32 {
    let map = depths(program, CELLS_MAX).expect("the program is accepted");
    map.iter().filter(|&&depth| depth != UNMET).count() as u32
}

fn pack_of(programs: &[Vec<u8>]) -> Vec<u8> {
    let rule = |(tag, body)| Rule {
        tag,
        cells: CELLS_MAX as u16,
        body,
    };
    let bodies = programs.iter().map(Vec::as_slice);
    let rules: Vec<Rule> = (0..).zip(bodies).map(rule).collect();
    pack::build(&rules).expect("up to 64 programs and 24,576 bytes are allowed")
}

/// A pack that is admitted in chunks, or reported on as a whole. Whatever the memories hold,
/// a call begins anew.
struct Admit {
    pack: Vec<u8>,
    chunk: usize,
    memories: Box<Memories>,
    map: Vec<u16>,
    room: Vec<u8>,
    /// Whose call was the last, and how many verdicts or bytes it left.
    left: (Side, usize),
}

impl Admit {
    fn of(pack: Vec<u8>, chunk: usize) -> Admit {
        Admit {
            pack,
            chunk,
            memories: Box::new(Memories::new()),
            map: vec![0; PROGRAM_MAX],
            room: vec![0; REPORT_MAX],
            left: (Side::Whole, 0),
        }
    }

    /// The lines of the report, as the verdicts of an admission say them.
    fn lines(&self, verdicts: usize) -> String {
        let cells = self.memories.verdicts.chunks_exact(3).take(verdicts);
        cells.map(|cells| format!("{}\n", ruling(cells))).collect()
    }
}

/// The verdict in three cells.
fn ruling(cells: &[u16]) -> Ruling {
    let refused = Refused {
        error: Error::from_number(cells[1].into()),
        at: Some(cells[2].into()),
    };
    Ruling {
        tag: cells[0],
        verdict: if cells[1] == 0 { Ok(()) } else { Err(refused) },
    }
}

impl Work for Admit {
    fn clear(&mut self) {}

    fn call(&mut self, side: Side, place: usize) -> Answer {
        let [refusal, left] = match side {
            Side::Whole => {
                let (map, room) = (&mut self.map, &mut self.room);
                peer::REPORTER.report(place, &self.pack, map, room)
            }
            _ => peer::ADMITTER.admit(place, &self.pack, self.chunk, &mut self.memories),
        };
        self.left = (side, left as usize);
        [refusal, 0, 0, 0, 0]
    }

    fn memories(&self) -> (Vec<u8>, Vec<u16>) {
        let lines = match self.left {
            (Side::Whole, length) => self.room[..length].to_vec(),
            (_, verdicts) => self.lines(verdicts).into_bytes(),
        };
        (lines, Vec::new())
    }
}

#[cfg(test)]
mod tests {
    use super::*;

    #[test]
    fn the_packs_are_full_and_accepted() {
        for (count, length) in [(64, 24_514), (1, 16_394)] {
            let pack = pack_of(&of_random(count));
            assert_eq!(pack.len(), length);
            let verdicts = khalixoshi::verdicts(&pack);
            assert_eq!(verdicts.matches(" accepted\n").count(), count);
        }
    }

    /// Both sides leave the lines of the report, of programs that are refused too.
    #[test]
    fn an_admission_says_what_the_report_does() {
        let programs = [vec![0x00], vec![], vec![0x80, 0x15], vec![0x81, 0x3C, 0x00]];
        let pack = pack_of(&programs);
        let verdicts = khalixoshi::verdicts(&pack);
        assert_eq!(verdicts.matches(" refused ").count(), 3);
        let mut work = Admit::of(pack, 5);
        for side in case::ours_and_the_whole() {
            for place in 0..peer::PLACES {
                assert_eq!(work.call(side, place), [0; 5]);
                assert_eq!(work.memories().0, verdicts.as_bytes(), "{side}, {place}");
            }
        }
    }
}
