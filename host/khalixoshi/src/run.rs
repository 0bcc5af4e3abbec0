//! The machine: its state, the run and the step.

use crate::{c, Error, Fault};

/// Whether a machine has a next step.
#[derive(Clone, Copy, Debug, PartialEq, Eq, Hash)]
pub enum Status {
    /// It has one; after a run, the budget is used.
    Running,
    /// It was stopped by halt or by system function 0.
    Halted,
    /// It was stopped by a fault.
    Faulted(Fault),
}

/// A machine's state. It is handed in and handed back; the memories stay with the
/// caller.
#[derive(Clone, Copy, Debug, PartialEq, Eq, Hash)]
pub struct State {
    /// Where the next instruction is, or the one that stopped the machine.
    pub address: usize,
    /// How many values are on the stack.
    pub depth: usize,
    /// Whether there is a next step.
    pub status: Status,
}

/// What a run came to.
#[derive(Clone, Copy, Debug, PartialEq, Eq)]
pub struct Ran {
    /// The state: hand it in again, with the same memories, to go on.
    pub state: State,
    /// The steps taken.
    pub steps: u32,
}

impl State {
    /// The state with which a program starts: address 0, depth 0, running.
    pub fn fresh() -> State {
        State {
            address: 0,
            depth: 0,
            status: Status::Running,
        }
    }

    /// Runs at most `budget` steps over the lent data and cells. A stopped state comes
    /// back as it was, with 0 steps. Refusals: 20, 21, 22, 24, which touch no memory.
    ///
    /// ```
    /// use khalixoshi::{State, Status};
    ///
    /// // ld-u8 at 0, add 1, st-u8 at 0, halt
    /// let program = [0x33, 0x00, 0x2E, 0x01, 0x37, 0x00, 0x00];
    /// let (mut data, mut cells) = ([41], [0; 1]);
    /// let paused = State::fresh().run(&program, &mut data, &mut cells, 2)?;
    /// assert_eq!((paused.steps, paused.state.status), (2, Status::Running));
    ///
    /// let ended = paused.state.run(&program, &mut data, &mut cells, 100)?;
    /// assert_eq!((ended.steps, ended.state.status), (2, Status::Halted));
    /// assert_eq!(data, [42]);
    /// # Ok::<(), khalixoshi::Error>(())
    /// ```
    pub fn run(
        self,
        program: &[u8],
        data: &mut [u8],
        cells: &mut [u16],
        budget: u32,
    ) -> Result<Ran, Error> {
        let ran = c::run(self.plain(), program, data, cells, budget);
        Error::unless_none(ran.refusal)?;
        Ok(Ran {
            state: State::of(ran.state),
            steps: ran.steps,
        })
    }

    /// One step: a run with a budget of one.
    ///
    /// ```
    /// use khalixoshi::State;
    ///
    /// let mut cells = [0; 4];
    /// let ran = State::fresh().step(&[0x85, 0x00], &mut [], &mut cells)?;
    /// assert_eq!((ran.state.address, ran.state.depth), (1, 1));
    /// assert_eq!(cells, [0, 0, 0, 5]);
    /// # Ok::<(), khalixoshi::Error>(())
    /// ```
    pub fn step(self, program: &[u8], data: &mut [u8], cells: &mut [u16]) -> Result<Ran, Error> {
        self.run(program, data, cells, 1)
    }

    /// The live values of a stack, the top first: the last `depth` cells.
    ///
    /// ```
    /// use khalixoshi::State;
    ///
    /// let state = State { depth: 2, ..State::fresh() };
    /// assert_eq!(state.stack(&[9, 9, 3, 5]), [3, 5]);
    /// ```
    pub fn stack(self, cells: &[u16]) -> &[u16] {
        &cells[cells.len().saturating_sub(self.depth)..]
    }

    fn plain(self) -> c::State {
        let (status, fault) = match self.status {
            Status::Running => (c::RUNNING, 0),
            Status::Halted => (c::HALTED, 0),
            Status::Faulted(Fault(number)) => (c::FAULTED, number),
        };
        c::State {
            address: self.address,
            depth: self.depth,
            status,
            fault,
        }
    }

    fn of(plain: c::State) -> State {
        let status = match plain.status {
            c::RUNNING => Status::Running,
            c::HALTED => Status::Halted,
            _ => Status::Faulted(Fault(plain.fault)),
        };
        State {
            address: plain.address,
            depth: plain.depth,
            status,
        }
    }
}
