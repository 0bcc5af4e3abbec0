//! A program while it runs: in stretches, or step by step, and what it came to.

use std::io::Write;

use khalixoshi::{depths, Error, Ran, Refused, State, Status};

use crate::failure::Failure;
use crate::progress::Progress;
use crate::{lines, terminal};

/// The steps between two looks at the clock.
const STRETCH: u32 = 1_000_000;
/// The values of the stack that a traced step shows.
const TOP: usize = 8;

/// A program, its cells, and what its last run has come to; the data is lent.
pub struct Machine {
    program: Vec<u8>,
    cells: Vec<u16>,
    ran: Ran,
    /// The steps of the runs before; none where it has not started.
    before: Option<u64>,
}

impl Machine {
    pub fn new(program: Vec<u8>, cells: usize) -> Machine {
        Machine {
            program,
            cells: vec![0; cells],
            ran: Ran {
                state: State::fresh(),
                steps: 0,
            },
            before: None,
        }
    }

    /// Whether the verifier lets the program run with its cells.
    pub fn verified(&self) -> Result<(), Refused> {
        depths(&self.program, self.cells.len()).map(|_| ())
    }

    /// A run from the beginning, with cells of 0. It takes no step yet: what is refused
    /// is refused before anything is printed.
    pub fn start(&mut self, data: &mut [u8]) -> Result<(), Error> {
        self.before = Some(self.steps());
        self.cells.fill(0);
        self.ran = State::fresh().run(&self.program, data, &mut self.cells, 0)?;
        Ok(())
    }

    /// Goes on until the program stops or the run has taken so many steps.
    pub fn finish(&mut self, data: &mut [u8], budget: u32) -> Result<(), Failure> {
        let mut progress = Progress::new();
        while self.has_next(budget) {
            self.go_on(data, STRETCH.min(budget - self.ran.steps))?;
            progress.show(|| format!("{} of {budget} steps", self.ran.steps));
        }
        Ok(())
    }

    /// The same, with a line before each step.
    pub fn step_by_step(
        &mut self,
        data: &mut [u8],
        budget: u32,
        out: &mut dyn Write,
    ) -> Result<(), Failure> {
        let mut progress = Progress::only_if(!terminal::is_output());
        while self.has_next(budget) {
            writeln!(out, "{}", self.next_step())?;
            self.go_on(data, 1)?;
            progress.show(|| format!("{} of {budget} steps", self.ran.steps));
        }
        Ok(())
    }

    /// What the last run came to, and its cells.
    pub fn came_to(&self) -> (&Ran, &[u16]) {
        (&self.ran, &self.cells)
    }

    /// Prints the last run's status, depth and stack, and the steps of all runs; nothing
    /// where there was none.
    pub fn print(&self, out: &mut dyn Write) -> Result<(), Failure> {
        if self.before.is_none() {
            return Ok(());
        }
        let State {
            address,
            depth,
            status,
        } = self.ran.state;
        match status {
            Status::Running => {
                writeln!(out, "status running at {address:04X}: the budget is used")?
            }
            Status::Halted => writeln!(out, "status halted at {address:04X}")?,
            Status::Faulted(fault) => {
                let (number, meaning) = (fault.0, fault.meaning());
                writeln!(out, "status faulted {number} at {address:04X}: {meaning}")?;
            }
        }
        writeln!(out, "steps {}", self.steps())?;
        writeln!(out, "depth {depth}")?;
        writeln!(out, "stack {}", hex(self.ran.state.stack(&self.cells)))?;
        Ok(())
    }

    /// The steps of all runs.
    fn steps(&self) -> u64 {
        self.before.unwrap_or(0) + u64::from(self.ran.steps)
    }

    fn has_next(&self, budget: u32) -> bool {
        self.ran.state.status == Status::Running && self.ran.steps < budget
    }

    fn go_on(&mut self, data: &mut [u8], budget: u32) -> Result<(), Failure> {
        let state = self.ran.state;
        let ran = state.run(&self.program, data, &mut self.cells, budget);
        let ran = ran.map_err(refused)?;
        self.ran.state = ran.state;
        self.ran.steps += ran.steps;
        Ok(())
    }

    fn next_step(&self) -> String {
        let State { address, depth, .. } = self.ran.state;
        let text = lines::text_at(&self.program, address);
        let text = text.as_deref().unwrap_or("(the program's end)");
        let stack = self.ran.state.stack(&self.cells);
        let top = hex(&stack[..stack.len().min(TOP)]);
        let more = if stack.len() > TOP { " .." } else { "" };
        format!("{address:04X} {text:<20} depth {depth}: {top}{more}")
    }
}

/// A run that the engine does not take.
pub fn refused(error: Error) -> Failure {
    Failure::Refused(format!("run: refused {error}"))
}

/// Values as hex digits, `-` where there are none.
fn hex(values: &[u16]) -> String {
    if values.is_empty() {
        return "-".to_string();
    }
    let digits: Vec<String> = values.iter().map(|value| format!("{value:04X}")).collect();
    digits.join(" ")
}
