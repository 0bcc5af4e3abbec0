//! The cases, each with the work of its sides.

use khalixoshi::pack::{self, Checked};
use khalixoshi::tables::{Facts, Lending, BUDGET};
use khalixoshi::{CELLS_MAX, LIST_MAX, PACK_MAX, UNMET};

use super::case::{self, Answer, Case, Side, Unit, Work};
use super::tags::{Order, Ours, Tags, ASKED};
use super::{admissions, programs};

/// The rules that ship in examples/, and the tags of two of them.
const RULES: &[u8] = include_bytes!("../../../../examples/fonts.pack");
const OS2: u16 = 5;
const LOCA: u16 = 8;
/// By how many bytes the copies that overlap shift them: a record of a table.
const RECORD: u16 = 12;
/// What the other tables of the font say from which the real tables are.
const FACTS: Facts = Facts {
    glyphs: 3_377,
    metrics: 4,
    loca_format: 1,
    outlines: 256_584,
};

/// The library's two ways to find a tag.
static LOOKUP: Ours = Ours::Copies(&peer::LOOKUP);
static FIND: Ours = Ours::Copies(&peer::FIND);

/// All cases, in the order in which they are timed.
pub fn all() -> Vec<Case> {
    let mut cases = beside_c();
    cases.extend(admissions::cases());
    cases
}

/// Those beside C, and the reader and the listing, which C does not have.
fn beside_c() -> Vec<Case> {
    let rules = Checked::new(RULES).expect("the shipped pack is good");
    vec![
        run(
            "counting",
            "run: a loop that counts down from 65,535",
            Run::of(programs::counting(), vec![0; 2], 2),
        ),
        run(
            "alu",
            "run: a loop of arithmetic, shifts and comparisons",
            Run::of(programs::alu(), vec![0; 4], 4),
        ),
        run(
            "bytes",
            "run: a rule that looks at each of 61,440 bytes of data",
            Run::of(programs::byte_scan(), programs::table(), 1),
        ),
        run(
            "pushes",
            "run: push-values of every form, until the stack is nearly full",
            Run::of(programs::pushes(), Vec::new(), CELLS_MAX),
        ),
        run(
            "loca",
            "run: the shipped rule for loca over a real table of 3,378 offsets",
            Run::of_rule(&rules, LOCA, include_bytes!("tables/loca")),
        ),
        short(
            "short",
            "run: the shipped rule for OS/2 over a real table, 52 steps, each call from a fresh state",
            Run::of_rule(&rules, OS2, include_bytes!("tables/os2")),
        ),
        short(
            "short-20",
            "run: the same of a rule that looks at 4 bytes, 20 steps",
            Run::of(programs::looks(4), vec![0; 4], 1),
        ),
        short(
            "short-100",
            "run: the same of a rule that looks at 24 bytes, 100 steps",
            Run::of(programs::looks(24), vec![0; 24], 1),
        ),
        copy(
            "copy-up",
            "run: a dcopy of 30,000 bytes, 12 bytes up, so that its ranges overlap",
            RECORD,
            0,
        ),
        copy(
            "copy-down",
            "run: the same, 12 bytes down",
            0,
            RECORD,
        ),
        copy(
            "copy-apart",
            "run: the same to a range apart",
            programs::COPIED,
            0,
        ),
        verify(
            "verify-straight",
            "verify: 16 KB, 16,384 instructions, no jump",
            programs::straight(),
        ),
        verify(
            "verify-random",
            "verify: 16 KB, random instructions of all kinds, branches to and fro",
            programs::random(),
        ),
        verify(
            "verify-hostile",
            "verify: 16 KB, jumps to and fro between the two ends",
            programs::ping_pong(),
        ),
        verify(
            "verify-branches",
            "verify: the same with conditional jumps, so that addresses stay due",
            programs::branches(),
        ),
        Case {
            name: "pack-check",
            about: "pack check: 24 KB, 64 entries",
            sides: case::both(),
            unit: Unit::Call,
            work: Box::new(PackCheck {
                pack: full_pack(64),
            }),
        },
        tags(
            "tags-64-lookup",
            "lookup: all tags of a pack of 64 rules, checked once, each pass in another order",
            (64, Order::Varied),
            LOOKUP,
        ),
        tags(
            "tags-64-rust",
            "lookup: the same by pack::Checked of the face for Rust",
            (64, Order::Varied),
            Ours::Rust,
        ),
        tags(
            "tags-64-find",
            "find: the same; it checks the pack for each tag",
            (64, Order::Varied),
            FIND,
        ),
        tags(
            "tags-4-lookup",
            "lookup: as tags-64-lookup, a pack of 4 rules",
            (4, Order::Varied),
            LOOKUP,
        ),
        tags(
            "tags-4-rust",
            "lookup: as tags-64-rust, a pack of 4 rules",
            (4, Order::Varied),
            Ours::Rust,
        ),
        tags(
            "tags-4-find",
            "find: as tags-64-find, a pack of 4 rules",
            (4, Order::Varied),
            FIND,
        ),
        tags(
            "rising-64-lookup",
            "lookup: as tags-64-lookup, each pass in rising order, which the processor learns",
            (64, Order::Rising),
            LOOKUP,
        ),
        tags(
            "rising-64-find",
            "find: the same; it checks the pack for each tag",
            (64, Order::Rising),
            FIND,
        ),
        tags(
            "rising-4-lookup",
            "lookup: as rising-64-lookup, a pack of 4 rules",
            (4, Order::Rising),
            LOOKUP,
        ),
        tags(
            "rising-4-find",
            "find: as rising-64-find, a pack of 4 rules",
            (4, Order::Rising),
            FIND,
        ),
        read(
            "read",
            "read: 16 KB, random instructions of all kinds, one after the other",
            programs::random(),
        ),
        list("list", "list: the same program", programs::random()),
    ]
}

fn run(name: &'static str, about: &'static str, mut work: Run) -> Case {
    let [_, steps, ..] = work.call(Side::Proved, 0);
    Case {
        name,
        about,
        sides: case::both_and_shipped(),
        unit: Unit::Step(steps),
        work: Box::new(work),
    }
}

/// A run that is told by the call.
fn short(name: &'static str, about: &'static str, work: Run) -> Case {
    Case {
        unit: Unit::Call,
        ..run(name, about, work)
    }
}

fn copy(name: &'static str, about: &'static str, to: u16, from: u16) -> Case {
    let program = programs::copy(to, from);
    Case {
        name,
        about,
        sides: case::all_runs(),
        unit: Unit::Byte(programs::COPIED.into()),
        work: Box::new(Run::of(program, programs::table(), 3)),
    }
}

fn verify(name: &'static str, about: &'static str, program: Vec<u8>) -> Case {
    let mut work = Verify::of(program);
    work.call(Side::Proved, 0);
    let met = work.map.iter().filter(|&&depth| depth != UNMET).count();
    Case {
        name,
        about,
        sides: case::all_verifiers(),
        unit: Unit::Instructions(met as u32),
        work: Box::new(work),
    }
}

/// A pack of so many entries, asked in an order.
fn tags(
    name: &'static str,
    about: &'static str,
    (entries, order): (u16, Order),
    ours: Ours,
) -> Case {
    Case {
        name,
        about,
        sides: case::both(),
        unit: Unit::Tag(ASKED),
        work: Box::new(Tags::of(full_pack(entries), order, ours)),
    }
}

fn read(name: &'static str, about: &'static str, program: Vec<u8>) -> Case {
    let [_, _, instructions] = peer::READER.read(0, &program);
    Case {
        name,
        about,
        sides: case::ours_alone(),
        unit: Unit::Instructions(instructions),
        work: Box::new(Read { program }),
    }
}

fn list(name: &'static str, about: &'static str, program: Vec<u8>) -> Case {
    let room = vec![0; LIST_MAX];
    Case {
        work: Box::new(List {
            program: program.clone(),
            room,
        }),
        ..read(name, about, program)
    }
}

/// A program run from the fresh state until it stops.
struct Run {
    program: Vec<u8>,
    at_first: Vec<u8>,
    data: Vec<u8>,
    cells: Vec<u16>,
}

impl Run {
    fn of(program: Vec<u8>, data: Vec<u8>, cells: usize) -> Run {
        Run {
            program,
            at_first: data.clone(),
            data,
            cells: vec![0; cells],
        }
    }

    /// A shipped rule over a real table as a host lends it, with its cells.
    fn of_rule(rules: &Checked, tag: u16, table: &[u8]) -> Run {
        let rule = rules.rule(tag).expect("the shipped pack has the rule");
        let lending = Lending::new(table, &FACTS, BUDGET);
        let data = lending.expect("the table is short").data().to_vec();
        Run::of(rule.body.to_vec(), data, rule.cells.into())
    }
}

impl Work for Run {
    fn clear(&mut self) {
        self.data.copy_from_slice(&self.at_first);
        self.cells.fill(0);
    }

    fn call(&mut self, side: Side, place: usize) -> Answer {
        let (program, data, cells) = (&self.program, &mut self.data, &mut self.cells);
        match side {
            Side::Memmove(build) => {
                let memmove = &peer::BUILDS[build].memmove;
                memmove.run(place, program, data, cells)
            }
            Side::Shipped => peer::SHIPPED.run(program, data, cells),
            _ => side.functions().run(place, program, data, cells),
        }
    }

    fn memories(&self) -> (Vec<u8>, Vec<u16>) {
        (self.data.clone(), self.cells.clone())
    }
}

/// A program verified with all cells.
struct Verify {
    program: Vec<u8>,
    map: Vec<u16>,
    done: Vec<u8>,
}

impl Verify {
    fn of(program: Vec<u8>) -> Verify {
        Verify {
            map: vec![0; program.len()],
            done: vec![0; program.len()],
            program,
        }
    }
}

/// Two numbers as an answer.
fn answer([refusal, number]: [u32; 2]) -> Answer {
    [refusal, number, 0, 0, 0]
}

impl Work for Verify {
    fn clear(&mut self) {
        self.map.fill(0);
        self.done.fill(0);
    }

    fn call(&mut self, side: Side, place: usize) -> Answer {
        let (program, map) = (&self.program, &mut self.map);
        answer(match side {
            Side::Cursor(build) => {
                let cursor = &peer::BUILDS[build].cursor;
                cursor.verify(place, program, CELLS_MAX, map, &mut self.done)
            }
            _ => side.functions().verify(place, program, CELLS_MAX, map),
        })
    }

    fn memories(&self) -> (Vec<u8>, Vec<u16>) {
        (Vec::new(), self.map.clone())
    }
}

/// A pack checked; it is only read.
struct PackCheck {
    pack: Vec<u8>,
}

impl Work for PackCheck {
    fn clear(&mut self) {}

    fn call(&mut self, side: Side, place: usize) -> Answer {
        answer(side.functions().pack_check(place, &self.pack))
    }

    fn memories(&self) -> (Vec<u8>, Vec<u16>) {
        (Vec::new(), Vec::new())
    }
}

/// A program read to its end; it is only read.
struct Read {
    program: Vec<u8>,
}

impl Work for Read {
    fn clear(&mut self) {}

    fn call(&mut self, _: Side, place: usize) -> Answer {
        let [refusal, at, instructions] = peer::READER.read(place, &self.program);
        [refusal, at, instructions, 0, 0]
    }

    fn memories(&self) -> (Vec<u8>, Vec<u16>) {
        (Vec::new(), Vec::new())
    }
}

/// A program listed.
struct List {
    program: Vec<u8>,
    room: Vec<u8>,
}

impl Work for List {
    fn clear(&mut self) {
        self.room.fill(0);
    }

    fn call(&mut self, _: Side, place: usize) -> Answer {
        let (program, room) = (&self.program, &mut self.room);
        answer(peer::LISTER.list(place, program, room))
    }

    fn memories(&self) -> (Vec<u8>, Vec<u16>) {
        (self.room.clone(), Vec::new())
    }
}

/// A pack of the largest size with so many entries, 2 to 64.
fn full_pack(entries: u16) -> Vec<u8> {
    let count = usize::from(entries);
    let bodies = vec![0x01; PACK_MAX - (2 + 8 * count)];
    let begin = |i: u16| usize::from(i) * bodies.len() / count;
    let rules: Vec<pack::Rule> = (0..entries)
        .map(|i| pack::Rule {
            tag: i * 7,
            cells: 16 * i,
            body: &bodies[begin(i)..begin(i + 1)],
        })
        .collect();
    pack::build(&rules).expect("up to 64 entries and 24,576 bytes are allowed")
}

#[cfg(test)]
mod tests {
    use super::*;

    fn case(name: &str) -> Case {
        let named = |case: &Case| case.name == name;
        all().into_iter().find(named).expect("a case")
    }

    /// The steps of a shipped rule that halts with its verdict alone on the stack: 1, good.
    fn steps_to_good(name: &str) -> u32 {
        let outcome = case(name).outcome(Side::Proved, 0);
        let [refusal, steps, _, depth, status] = outcome.answer;
        assert_eq!((refusal, depth, status), (0, 1, peer::HALTED), "{name}");
        assert_eq!(outcome.cells.last(), Some(&1), "{name}");
        steps
    }

    #[test]
    fn the_copies_move_all_their_bytes() {
        let copied = usize::from(programs::COPIED);
        for (name, to, from) in [
            ("copy-up", 12, 0),
            ("copy-down", 0, 12),
            ("copy-apart", copied, 0),
        ] {
            let outcome = case(name).outcome(Side::Proved, 0);
            let [refusal, steps, _, depth, status] = outcome.answer;
            let ended = (refusal, steps, depth, status);
            assert_eq!(ended, (0, 3, 1, peer::HALTED), "{name}");
            let mut moved = programs::table();
            moved.copy_within(from..from + copied, to);
            assert_eq!(outcome.bytes, moved, "{name}");
        }
    }

    #[test]
    fn the_rules_find_their_tables_good() {
        assert_eq!(steps_to_good("loca"), 152_117);
        for name in ["short", "short-20", "short-100"] {
            let steps = steps_to_good(name);
            let told = format!(" {steps} steps");
            assert!(case(name).about.contains(&told), "{name}: {steps}");
        }
    }

    #[test]
    fn all_of_the_program_is_read_and_listed() {
        let program = programs::random();
        let [end, at, instructions, ..] = case("read").outcome(Side::Proved, 0).answer;
        assert_eq!((end, at as usize), (1, program.len()));
        let listing = khalixoshi::listing(&program).unwrap();
        assert_eq!(instructions as usize, listing.lines().count());
        assert!(!listing.contains(" byte "));
        let listed = case("list").outcome(Side::Proved, 0);
        assert_eq!(listed.answer[..2], [0, listing.len() as u32]);
        assert_eq!(listed.bytes[..listing.len()], *listing.as_bytes());
    }

    #[test]
    fn the_packs_are_full() {
        for entries in [4, 64] {
            let pack = full_pack(entries);
            assert_eq!(pack.len(), PACK_MAX);
            assert_eq!(pack::check(&pack), Ok(entries.into()));
        }
    }

    #[test]
    fn only_the_rule_for_loca_must_begin_anew() {
        for mut case in all() {
            assert_eq!(case.repeats(), case.name != "loca", "{}", case.name);
        }
    }
}
