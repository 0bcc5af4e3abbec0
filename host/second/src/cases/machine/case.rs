//! One case of the run, put together part by part.

use crate::cases::lent::Lent;
use crate::cases::Vectors;
use crate::machine::{run, Answer, State, Status, FRESH};
use crate::protocol::run_answer;

/// The largest budget.
pub const MOST: u32 = u32::MAX;

/// A case that is being put together.
#[derive(Clone)]
pub struct Case {
    pub program: Lent<u8>,
    pub data: Lent<u8>,
    pub cells: Lent<u16>,
    pub state: State,
    pub budget: u32,
}

/// A program with no data, no cells, a fresh state and the largest budget.
pub fn case(program: &[u8]) -> Case {
    Case {
        program: Lent::whole(program),
        data: Lent::whole(&[]),
        cells: Lent::whole(&[]),
        state: FRESH,
        budget: MOST,
    }
}

impl Case {
    /// A program made of these bytes over and over.
    pub fn repeated(given: &[u8], length: usize) -> Case {
        Case {
            program: Lent::repeated(given, length),
            ..case(&[])
        }
    }

    /// So many bytes of data that differ from their neighbours.
    pub fn data(self, length: usize) -> Case {
        let given: Vec<u8> = (0..length.min(13))
            .map(|place| (0x17 + 0x1B * place) as u8)
            .collect();
        Case {
            data: Lent::repeated(&given, length),
            ..self
        }
    }

    pub fn data_of(self, bytes: &[u8]) -> Case {
        Case {
            data: Lent::whole(bytes),
            ..self
        }
    }

    /// Live values, top first, and so many cells to spare.
    pub fn stack(self, live: &[u16], spare: usize) -> Case {
        let dead = (0..spare).map(|cell| 0xD0D0 + cell as u16);
        let cells: Vec<u16> = dead.chain(live.iter().copied()).collect();
        let depth = live.len();
        Case {
            cells: Lent::whole(&cells),
            ..self
        }
        .depth(depth)
    }

    /// So many cells, all dead until a depth is set.
    pub fn cells(self, count: usize) -> Case {
        let given: Vec<u16> = (0..count.min(3)).map(|cell| 0xD0D0 + cell as u16).collect();
        Case {
            cells: Lent::repeated(&given, count),
            ..self
        }
    }

    pub fn depth(mut self, depth: usize) -> Case {
        self.state.depth = depth;
        self
    }

    pub fn at(mut self, address: usize) -> Case {
        self.state.address = address;
        self
    }

    pub fn status(mut self, status: Status) -> Case {
        self.state.status = status;
        self
    }

    pub fn budget(self, budget: u32) -> Case {
        Case { budget, ..self }
    }

    /// The answer, the data and the cells afterwards.
    pub fn run(&self) -> (Answer, Vec<u8>, Vec<u16>) {
        let (mut data, mut cells) = (self.data.memory(), self.cells.memory());
        let program = self.program.memory();
        let answer = run(&program, &mut data, &mut cells, self.state, self.budget);
        (answer, data, cells)
    }

    /// Adds the case with its answer.
    pub fn add(self, vectors: &mut Vectors) {
        let (answer, data, cells) = self.run();
        vectors.add(&self.bytes(), &run_answer(&answer, &data, &cells));
    }

    /// The case in its binary form.
    fn bytes(&self) -> Vec<u8> {
        let mut bytes = vec![b'R'];
        bytes.extend((self.program.length as u16).to_le_bytes());
        bytes.extend((self.program.given.len() as u16).to_le_bytes());
        bytes.extend(&self.program.given);
        bytes.extend((self.data.length as u32).to_le_bytes());
        bytes.extend((self.data.given.len() as u16).to_le_bytes());
        bytes.extend(&self.data.given);
        bytes.extend((self.cells.length as u16).to_le_bytes());
        bytes.extend((self.cells.given.len() as u16).to_le_bytes());
        bytes.extend(self.cells.given.iter().flat_map(|cell| cell.to_le_bytes()));
        let (status, fault) = match self.state.status {
            Status::Running => (0, 0),
            Status::Halted => (1, 0),
            Status::Faulted(number) => (2, number as u8),
        };
        bytes.extend((self.state.address as u32).to_le_bytes());
        bytes.extend((self.state.depth as u16).to_le_bytes());
        bytes.extend([status, fault]);
        bytes.extend(self.budget.to_le_bytes());
        bytes
    }
}
