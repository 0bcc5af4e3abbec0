//! The proved library.

use super::watched::Watched;
use crate::engine::{
    Decoded, Engine, Entry, Event, Instruction, Number, Ran, Readings, Reply, Shape, State, Status,
    Verdict,
};
use khalixoshi::{pack, Error, Fault, Reader, Refused};

/// The proved library, by its face for Rust.
#[derive(Clone, Copy, Debug, Default)]
pub struct Proved;

impl Engine for Proved {
    fn decode(&self, program: &[u8], at: usize) -> Result<Decoded, Number> {
        decoded(khalixoshi::decode(program, at))
    }

    fn encode(&self, instruction: &Instruction, room: &mut [u8]) -> Result<usize, Number> {
        let instruction = khalixoshi::Instruction {
            code: instruction.code,
            number: instruction.number,
            count: instruction.count,
            flags: instruction.flags,
            values: instruction.values,
        };
        khalixoshi::encode(&instruction, room).map_err(Error::number)
    }

    fn shape(&self, first: u8) -> Option<Shape> {
        let shape = khalixoshi::shape(first)?;
        Some(Shape {
            length: shape.length,
            taken: shape.taken,
            pushed: shape.pushed,
        })
    }

    fn step(&self, program: &[u8], data: &mut [u8], stack: &mut [u16], state: State) -> Ran {
        ran(state, handed_in(state).step(program, data, stack))
    }

    fn run(
        &self,
        program: &[u8],
        data: &mut [u8],
        stack: &mut [u16],
        state: State,
        budget: u32,
    ) -> Ran {
        ran(state, handed_in(state).run(program, data, stack, budget))
    }

    fn verify(&self, program: &[u8], cells: usize, map: &mut [u16]) -> Verdict {
        verdict(khalixoshi::verify(program, cells, map))
    }

    fn listing(&self, program: &[u8], room: &mut [u8]) -> Result<usize, Number> {
        khalixoshi::list(program, room).map_err(Error::number)
    }

    fn read(&self, program: &[u8], count: usize) -> Readings {
        let mut reader = Reader::new(program);
        Readings {
            answers: (0..count).map(|_| decoded(reader.read())).collect(),
            address: reader.address(),
        }
    }

    fn pack(&self, pack: &[u8]) -> Result<Vec<Entry>, Number> {
        let entries = pack::entries(pack).map_err(Error::number)?;
        Ok(entries.iter().map(entry).collect())
    }

    fn find(&self, pack: &[u8], tag: u16) -> Result<Entry, Number> {
        let found = pack::find(pack, tag).map_err(Error::number)?;
        Ok(entry(&found))
    }

    fn lookup(&self, pack: &[u8], tag: u16) -> Result<Entry, Number> {
        let found = pack::lookup_unchecked(pack, tag).map_err(Error::number)?;
        Ok(entry(&found))
    }

    fn writepack(
        &self,
        tags: &[u16],
        cells: &[u16],
        lengths: &[u16],
        bodies: &[u8],
        room: &mut [u8],
    ) -> Result<usize, Number> {
        pack::write(tags, cells, lengths, bodies, room).map_err(Error::number)
    }

    fn report(&self, pack: &[u8]) -> String {
        khalixoshi::verdicts(pack)
    }

    fn stream(&self, events: &[Event]) -> Vec<Reply> {
        let mut watched = Watched::default();
        events.iter().map(|event| watched.reply(event)).collect()
    }
}

pub fn verdict(answer: Result<(), Refused>) -> Verdict {
    match answer {
        Ok(()) => Verdict::Accepted,
        Err(refused) => Verdict::Refused(refused.error.number(), refused.at),
    }
}

fn decoded(answer: Result<khalixoshi::Decoded, Error>) -> Result<Decoded, Number> {
    let khalixoshi::Decoded {
        instruction,
        length,
    } = answer.map_err(Error::number)?;
    Ok(Decoded {
        instruction: Instruction {
            code: instruction.code,
            number: instruction.number,
            count: instruction.count,
            flags: instruction.flags,
            values: instruction.values,
        },
        length,
    })
}

fn entry(entry: &pack::Entry) -> Entry {
    Entry {
        tag: entry.tag,
        cells: entry.cells,
        offset: entry.offset,
        length: entry.length,
    }
}

fn handed_in(state: State) -> khalixoshi::State {
    let status = match state.status {
        Status::Running => khalixoshi::Status::Running,
        Status::Halted => khalixoshi::Status::Halted,
        Status::Faulted(number) => khalixoshi::Status::Faulted(Fault(number)),
    };
    khalixoshi::State {
        address: state.address,
        depth: state.depth,
        status,
    }
}

fn handed_back(state: khalixoshi::State) -> State {
    let status = match state.status {
        khalixoshi::Status::Running => Status::Running,
        khalixoshi::Status::Halted => Status::Halted,
        khalixoshi::Status::Faulted(Fault(number)) => Status::Faulted(number),
    };
    State {
        address: state.address,
        depth: state.depth,
        status,
    }
}

/// A refused run leaves the state with the caller, who has it still.
fn ran(before: State, answer: Result<khalixoshi::Ran, Error>) -> Ran {
    match answer {
        Ok(ran) => Ran {
            steps: Ok(ran.steps.into()),
            state: handed_back(ran.state),
        },
        Err(error) => Ran {
            steps: Err(error.number()),
            state: before,
        },
    }
}
