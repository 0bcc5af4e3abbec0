//! Planted differences, to show that one is noticed: the second implementation with
//! one easy error.

use conform::{
    Decoded, Engine, Entry, Event, Instruction, Number, Ran, Readings, Reply, Second, Shape, State,
    Status, Verdict,
};

use crate::maker::PACK_BYTES;

/// The second implementation with an error.
#[derive(Clone, Copy, Debug, PartialEq, Eq)]
pub enum Planted {
    /// ld-u16-offs adds its operands modulo 65,536.
    Sum,
    /// dcopy copies one byte at a time, lowest address first, as it did before No. 2.
    Copy,
    /// The row of call-imm8 has what it takes and what it pushes exchanged.
    Shape,
    /// A lookup does not come to the last entry.
    Lookup,
    /// An admission counts no bytes behind contents that are bad.
    Stream,
}

/// The code of ld-u16-offs.
const LOAD: u8 = 0x20;
/// The code of dcopy.
const DATA_COPY: u8 = 0x02;
/// The code of call-imm8.
const CALL: u8 = 0x3B;
/// The refusal of a tag that is absent.
const ABSENT: Number = 36;
/// The refusal of a pack that is too long.
const TOO_LONG: Number = 31;
/// The refusal of a pack whose bodies do not end at its end.
const WRONG_END: Number = 34;

impl Planted {
    /// All of them.
    pub const ALL: [Planted; 5] = [
        Planted::Sum,
        Planted::Copy,
        Planted::Shape,
        Planted::Lookup,
        Planted::Stream,
    ];

    /// Its word on the command line.
    pub fn name(self) -> &'static str {
        match self {
            Planted::Sum => "sum",
            Planted::Copy => "copy",
            Planted::Shape => "shape",
            Planted::Lookup => "lookup",
            Planted::Stream => "stream",
        }
    }
}

/// Whether a running machine is at a code.
fn is_at(code: u8, program: &[u8], state: State) -> bool {
    program.get(state.address) == Some(&code) && state.status == Status::Running
}

/// What ld-u16-offs loads here by the wrong sum, where the right one is past the
/// data's end.
fn wrongly_loaded(program: &[u8], data: &[u8], stack: &[u16], state: State) -> Option<u16> {
    let top = stack.len().checked_sub(state.depth)?;
    let (a, b) = (stack.get(top)?, stack.get(top + 1)?);
    let place = usize::from(a.checked_add(*b).map_or(a.wrapping_add(*b), |_| u16::MAX));
    let bytes = data.get(place..place + 2);
    let bytes = bytes.filter(|_| is_at(LOAD, program, state))?;
    Some(u16::from_le_bytes([bytes[0], bytes[1]]))
}

/// A step in which ld-u16-offs adds wrongly.
fn step_by_sum(program: &[u8], data: &mut [u8], stack: &mut [u16], state: State) -> Ran {
    let refused = Second.run(program, data, stack, state, 0).steps.is_err();
    match wrongly_loaded(program, data, stack, state) {
        Some(value) if !refused => {
            let second = stack.len() - state.depth + 1;
            stack[second] = value;
            let address = state.address + 1;
            let depth = state.depth - 1;
            let state = State {
                address,
                depth,
                ..state
            };
            Ran {
                steps: Ok(1),
                state,
            }
        }
        _ => Second.step(program, data, stack, state),
    }
}

/// A step in which dcopy reads bytes that it has written.
fn step_by_copy(program: &[u8], data: &mut [u8], stack: &mut [u16], state: State) -> Ran {
    if !is_at(DATA_COPY, program, state) {
        return Second.step(program, data, stack, state);
    }
    let (bytes, cells) = (data.to_vec(), stack.to_vec());
    let ran = Second.step(program, data, stack, state);
    if ran.steps == Ok(1) {
        let top = cells.len() - state.depth;
        let [to, from, count] = [0, 1, 2].map(|operand| usize::from(cells[top + operand]));
        data.copy_from_slice(&bytes);
        for byte in 0..count {
            data[to + byte] = data[from + byte];
        }
    }
    ran
}

/// A lookup that finds what is there, but not where it is the last entry of the contents.
fn lookup_but_last(pack: &[u8], tag: u16) -> Result<Entry, Number> {
    let found = Second.lookup(pack, tag)?;
    let last = 2 + 8 * (usize::from(pack[0]) - 1);
    match pack[last..last + 2] == tag.to_le_bytes() {
        true => Err(ABSENT),
        false => Ok(found),
    }
}

/// An admission that does not come to 31 where the contents are refused by another number.
fn stream_uncounted(events: &[Event]) -> Vec<Reply> {
    let mut came = Vec::new();
    for event in events.iter().take_while(|event| **event != Event::Close) {
        if let Event::Chunk(chunk) = event {
            came.extend(chunk);
        }
    }
    came.truncate(PACK_BYTES);
    let bad = Second.pack(&came).err();
    let bad = bad.filter(|number| *number != WRONG_END);
    let uncounted = |reply| match (reply, bad) {
        (Reply::Refused(TOO_LONG), Some(number)) => Reply::Refused(number),
        (reply, _) => reply,
    };
    Second.stream(events).into_iter().map(uncounted).collect()
}

impl Engine for Planted {
    fn step(&self, program: &[u8], data: &mut [u8], stack: &mut [u16], state: State) -> Ran {
        match self {
            Planted::Sum => step_by_sum(program, data, stack, state),
            Planted::Copy => step_by_copy(program, data, stack, state),
            _ => Second.step(program, data, stack, state),
        }
    }

    fn run(
        &self,
        program: &[u8],
        data: &mut [u8],
        stack: &mut [u16],
        state: State,
        budget: u32,
    ) -> Ran {
        let mut ran = Second.run(program, data, stack, state, 0);
        while let Ok(steps) = ran.steps {
            if ran.state.status != Status::Running || steps >= budget.into() {
                break;
            }
            let next = self.step(program, data, stack, ran.state);
            ran = Ran {
                steps: next.steps.map(|more| steps + more),
                state: next.state,
            };
        }
        ran
    }

    fn decode(&self, program: &[u8], at: usize) -> Result<Decoded, Number> {
        Second.decode(program, at)
    }

    fn encode(&self, instruction: &Instruction, room: &mut [u8]) -> Result<usize, Number> {
        Second.encode(instruction, room)
    }

    fn shape(&self, first: u8) -> Option<Shape> {
        let row = Second.shape(first)?;
        match (self, first) {
            (Planted::Shape, CALL) => Some(Shape {
                taken: row.pushed,
                pushed: row.taken,
                ..row
            }),
            _ => Some(row),
        }
    }

    fn verify(&self, program: &[u8], cells: usize, map: &mut [u16]) -> Verdict {
        Second.verify(program, cells, map)
    }

    fn listing(&self, program: &[u8], room: &mut [u8]) -> Result<usize, Number> {
        Second.listing(program, room)
    }

    fn read(&self, program: &[u8], count: usize) -> Readings {
        Second.read(program, count)
    }

    fn pack(&self, pack: &[u8]) -> Result<Vec<Entry>, Number> {
        Second.pack(pack)
    }

    fn find(&self, pack: &[u8], tag: u16) -> Result<Entry, Number> {
        Second.find(pack, tag)
    }

    fn lookup(&self, pack: &[u8], tag: u16) -> Result<Entry, Number> {
        match self {
            Planted::Lookup => lookup_but_last(pack, tag),
            _ => Second.lookup(pack, tag),
        }
    }

    fn writepack(
        &self,
        tags: &[u16],
        cells: &[u16],
        lengths: &[u16],
        bodies: &[u8],
        room: &mut [u8],
    ) -> Result<usize, Number> {
        Second.writepack(tags, cells, lengths, bodies, room)
    }

    fn report(&self, pack: &[u8]) -> String {
        Second.report(pack)
    }

    fn stream(&self, events: &[Event]) -> Vec<Reply> {
        match self {
            Planted::Stream => stream_uncounted(events),
            _ => Second.stream(events),
        }
    }
}

#[cfg(test)]
mod tests {
    use super::*;
    use conform::answer;

    /// M9: only the planted error lets it load, and only where the sum wraps.
    #[test]
    fn a_sum_wrong_in_one_place() {
        let wraps: &[u8] = b"run c901ffff20 0102 00000000 0 0 running 9";
        assert_eq!(answer(&Second, wraps), "ok 1 4 2 faulted:6 0102 ffff0001");
        let planted = answer(&Planted::Sum, wraps);
        assert_eq!(planted, "ok 2 5 1 faulted:1 0102 ffff0201");
        alike(
            Planted::Sum,
            &[
                b"run c901feff20 0102 00000000 0 0 running 9",
                b"run c901ffff20 0102 00000000 0 0 running 1",
                b"run c901ffff1f 0102 00000000 0 0 running 9",
                b"run c900000020 0102 0000 0 0 running 9",
                b"step 20 0102 0001ffff 0 3 running",
            ],
        );
    }

    /// M12: only up, and only where the ranges overlap.
    #[test]
    fn a_copy_wrong_in_one_place() {
        let up: &[u8] = b"step 02 01020304 000100000003 0 3 running";
        let m12 = "ok 1 1 1 running 01010203 000100000004";
        assert_eq!(answer(&Second, up), m12);
        let planted = answer(&Planted::Copy, up);
        assert_eq!(planted, "ok 1 1 1 running 01010101 000100000004");
        alike(
            Planted::Copy,
            &[
                b"step 02 01020304 000000010003 0 3 running",
                b"step 02 01020304 000200000002 0 3 running",
                b"step 02 01020304 000200000003 0 3 running",
                b"step 02 01020304 000100000003 0 2 running",
                b"step 02 01020304 000100000003 0 4 running",
                b"step 02 01020304 000100000003 0 3 halted",
                b"step 03 01020304 000100000001 0 3 running",
            ],
        );
    }

    #[test]
    fn a_row_wrong_in_one_place() {
        let call: &[u8] = b"shape 59";
        assert_eq!(answer(&Second, call), "row 2 0 1");
        assert_eq!(answer(&Planted::Shape, call), "row 2 1 0");
        let others = (0..=255).filter(|first| *first != CALL);
        let lines: Vec<String> = others.map(|first| format!("shape {first}")).collect();
        let lines: Vec<&[u8]> = lines.iter().map(String::as_bytes).collect();
        alike(Planted::Shape, &lines);
    }

    /// 01's example alone, and before a second entry.
    #[test]
    fn a_lookup_wrong_in_one_place() {
        let last: &[u8] = b"lookup 0100070002000a00040085831500 7";
        assert_eq!(answer(&Second, last), "found 2 10 4");
        assert_eq!(answer(&Planted::Lookup, last), "refused 36");
        alike(
            Planted::Lookup,
            &[
                b"lookup 020007000000000000000800000000000000 7",
                b"lookup 020007000000000000000800000000000000 9",
                b"lookup 0100070001040a00040085831500 7",
                b"lookup 0100070002000a000400858315 7",
                b"lookup 4100070002000a00040085831500 7",
                b"lookup 0000 7",
                b"find 0100070002000a00040085831500 7",
            ],
        );
    }

    /// Contents of too many entries, in a pack that is as long as it may be, and longer.
    #[test]
    fn a_stream_wrong_in_one_place() {
        let over = |contents, bytes| format!("stream {contents} {} close ask", "00".repeat(bytes));
        let bad = over("4100", PACK_BYTES - 1);
        let right = "ok ; ok ; refused 31 ; refused 31";
        assert_eq!(answer(&Second, bad.as_bytes()), right);
        let planted = answer(&Planted::Stream, bad.as_bytes());
        assert_eq!(planted, "ok ; ok ; refused 30 ; refused 30");
        alike(
            Planted::Stream,
            &[
                over("4100", PACK_BYTES - 2).as_bytes(),
                over("0000", PACK_BYTES - 1).as_bytes(),
                over("0100070000000a000000", PACK_BYTES).as_bytes(),
                b"stream 01 00070002000a00040085831500 close - ask",
                b"stream 4100 close 00 close",
                b"stream - ask",
            ],
        );
    }

    fn alike(planted: Planted, lines: &[&[u8]]) {
        for line in lines {
            assert_eq!(answer(&planted, line), answer(&Second, line));
            assert_ne!(answer(&Second, line), conform::BAD_CASE);
        }
    }
}
