//! The second implementation.

use crate::engine::{
    Decoded, Engine, Entry, Event, Instruction, Number, Ran, Readings, Reply, Ruling, Shape, State,
    Status, Verdict,
};
use ::second::admission::{Admission, Closed};
use ::second::{instruction, listing, machine, pack, reader, report, shape, verifier};

/// The second implementation, which shares no code with the proved library.
#[derive(Clone, Copy, Debug, Default)]
pub struct Second;

impl Engine for Second {
    fn decode(&self, program: &[u8], at: usize) -> Result<Decoded, Number> {
        decoded(instruction::decode(program, at))
    }

    fn encode(&self, instruction: &Instruction, room: &mut [u8]) -> Result<usize, Number> {
        let instruction = instruction::Instruction {
            code: instruction.code,
            number: instruction.number,
            count: instruction.count,
            flags: instruction.flags,
            values: instruction.values,
        };
        instruction::encode(&instruction, room).map_err(number)
    }

    fn shape(&self, first: u8) -> Option<Shape> {
        let shape = shape::shape(first)?;
        Some(Shape {
            length: shape.length,
            taken: shape.taken,
            pushed: shape.pushed,
        })
    }

    fn step(&self, program: &[u8], data: &mut [u8], stack: &mut [u16], state: State) -> Ran {
        ran(machine::step(program, data, stack, handed_in(state)))
    }

    fn run(
        &self,
        program: &[u8],
        data: &mut [u8],
        stack: &mut [u16],
        state: State,
        budget: u32,
    ) -> Ran {
        ran(machine::run(program, data, stack, handed_in(state), budget))
    }

    fn verify(&self, program: &[u8], cells: usize, map: &mut [u16]) -> Verdict {
        verdict(verifier::verify(program, cells, map))
    }

    fn listing(&self, program: &[u8], room: &mut [u8]) -> Result<usize, Number> {
        listing::listing(program, room).map_err(number)
    }

    fn read(&self, program: &[u8], count: usize) -> Readings {
        let mut reader = reader::Reader::new(program);
        Readings {
            answers: (0..count).map(|_| decoded(reader.read())).collect(),
            address: reader.address(),
        }
    }

    fn pack(&self, pack: &[u8]) -> Result<Vec<Entry>, Number> {
        let entries = pack::entries(pack).map_err(number)?;
        Ok(entries.iter().map(entry).collect())
    }

    fn find(&self, pack: &[u8], tag: u16) -> Result<Entry, Number> {
        let (found, _) = pack::find(pack, tag).map_err(number)?;
        Ok(entry(&found))
    }

    fn lookup(&self, pack: &[u8], tag: u16) -> Result<Entry, Number> {
        let (found, _) = pack::lookup(pack, tag).map_err(number)?;
        Ok(entry(&found))
    }

    fn writepack(
        &self,
        tags: &[u16],
        cells: &[u16],
        lengths: &[u16],
        bodies: &[u8],
        room: &mut [u8],
    ) -> Result<usize, Number> {
        pack::write(tags, cells, lengths, bodies, room).map_err(number)
    }

    fn report(&self, pack: &[u8]) -> String {
        report::report(pack)
    }

    fn stream(&self, events: &[Event]) -> Vec<Reply> {
        let mut admission = Admission::default();
        let reply = |event| reply(&mut admission, event);
        events.iter().map(reply).collect()
    }
}

fn number(number: u32) -> Number {
    number as Number
}

fn decoded(answer: Result<(instruction::Instruction, usize), u32>) -> Result<Decoded, Number> {
    let (instruction, length) = answer.map_err(number)?;
    Ok(Decoded {
        instruction: Instruction {
            code: instruction.code,
            number: instruction.number,
            count: instruction.count,
            flags: instruction.flags,
            values: instruction.values,
        },
        length,
    })
}

fn verdict(verdict: verifier::Verdict) -> Verdict {
    match verdict {
        verifier::Verdict::Accepted => Verdict::Accepted,
        verifier::Verdict::Refused(refusal) => Verdict::Refused(number(refusal), None),
        verifier::Verdict::RefusedAt(refusal, at) => Verdict::Refused(number(refusal), Some(at)),
    }
}

fn reply(admission: &mut Admission, event: &Event) -> Reply {
    match event {
        Event::Chunk(chunk) => match admission.chunk(chunk) {
            Ok(()) => Reply::Taken,
            Err(refusal) => Reply::Refused(number(refusal)),
        },
        Event::Close => closed(&admission.close()),
        Event::Ask => admission.answer().map_or(Reply::Open, closed),
    }
}

fn closed(answer: &Closed) -> Reply {
    let ruling = |&(tag, it): &(u16, verifier::Verdict)| Ruling {
        tag,
        verdict: verdict(it),
    };
    match answer {
        Ok(verdicts) => Reply::Good(verdicts.len(), verdicts.iter().map(ruling).collect()),
        Err(refusal) => Reply::Refused(number(*refusal)),
    }
}

fn entry(entry: &pack::Entry) -> Entry {
    Entry {
        tag: entry.tag,
        cells: entry.cells,
        offset: entry.offset,
        length: entry.length,
    }
}

fn handed_in(state: State) -> machine::State {
    let status = match state.status {
        Status::Running => machine::Status::Running,
        Status::Halted => machine::Status::Halted,
        Status::Faulted(number) => machine::Status::Faulted(number as u32),
    };
    machine::State {
        address: state.address,
        depth: state.depth,
        status,
    }
}

fn ran((refusal, steps, after): machine::Answer) -> Ran {
    let status = match after.status {
        machine::Status::Running => Status::Running,
        machine::Status::Halted => Status::Halted,
        machine::Status::Faulted(fault) => Status::Faulted(number(fault)),
    };
    Ran {
        steps: refusal.map_or(Ok(steps), |refusal| Err(number(refusal))),
        state: State {
            address: after.address,
            depth: after.depth,
            status,
        },
    }
}
