//! The step and the run (01, "Memories and state", "Instructions" and "Faults
//! and refusals").

use crate::instruction::{decode, low_byte_first, Instruction};
use crate::numbers::{
    CELLS_SIZE, DATA_BYTES, DATA_RANGE, DATA_SIZE, ILLEGAL, NO_FUNCTION, PROGRAM_BYTES,
    PROGRAM_RANGE, PROGRAM_SIZE, STACK_CELLS, TOO_DEEP, TOO_FEW, TOO_MANY,
};
use crate::opcodes::{Memory, Opcode, Operation};

/// 01: "A machine's status is running, halted, or faulted with its number."
#[derive(Clone, Copy, Debug, PartialEq, Eq)]
pub enum Status {
    /// Not stopped: at the end of a run, paused.
    Running,
    /// Stopped by halt or by system function 0.
    Halted,
    /// Stopped by the fault of this number.
    Faulted(u32),
}

/// 01: "The state is handed in and handed back: address, depth, status."
#[derive(Clone, Copy, Debug, PartialEq, Eq)]
pub struct State {
    /// Where the next instruction is.
    pub address: usize,
    /// How many values are on the stack.
    pub depth: usize,
    /// Whether there is a next step.
    pub status: Status,
}

/// 01: "A fresh state is address 0, depth 0, running."
pub const FRESH: State = State {
    address: 0,
    depth: 0,
    status: Status::Running,
};

/// What a run hands back: the refusal, if any, the number of steps taken, and the
/// state reached.
pub type Answer = (Option<u32>, u64, State);

/// Runs until the budget is used, or the machine halts or faults. The refusals are
/// looked for in every status, before a stopped state comes back as it was.
pub fn run(
    program: &[u8],
    data: &mut [u8],
    cells: &mut [u16],
    state: State,
    budget: u32,
) -> Answer {
    let refusal = refusal(program, data, cells, state);
    if refusal.is_some() {
        return (refusal, 0, state);
    }
    let mut machine = Machine {
        program,
        data,
        cells,
    };
    let mut state = state;
    let mut steps = 0;
    while state.status == Status::Running && steps < u64::from(budget) {
        match machine.advance(state) {
            Ok(next) => {
                state = next;
                steps += 1;
            }
            Err(fault) => state.status = Status::Faulted(fault),
        }
    }
    (None, steps, state)
}

/// A single step: a run with a budget of one.
pub fn step(program: &[u8], data: &mut [u8], cells: &mut [u16], state: State) -> Answer {
    run(program, data, cells, state, 1)
}

/// The checks of a run: 20, 21, 22, 24.
fn refusal(program: &[u8], data: &[u8], cells: &[u16], state: State) -> Option<u32> {
    [
        (program.len() > PROGRAM_BYTES, PROGRAM_SIZE),
        (data.len() > DATA_BYTES, DATA_SIZE),
        (cells.len() > STACK_CELLS, CELLS_SIZE),
        (state.depth > cells.len(), TOO_DEEP),
    ]
    .into_iter()
    .find_map(|(applies, number)| applies.then_some(number))
}

/// The memories lent to a run.
struct Machine<'a> {
    program: &'a [u8],
    data: &'a mut [u8],
    cells: &'a mut [u16],
}

/// What an instruction leaves behind, besides what it wrote to data memory.
struct Outcome {
    pushed: Vec<u16>,
    address: usize,
    status: Status,
}

impl Machine<'_> {
    /// The next state, or the fault. 01: "A step checks 1, then 2 on the first
    /// byte, 3, 2 on the second byte, 4, 5, 6, 7, 8." Nothing is written before
    /// the last of these checks.
    fn advance(&mut self, state: State) -> Result<State, u32> {
        let (instruction, length) = decode(self.program, state.address)?;
        let opcode = Opcode::of(instruction.code).ok_or(ILLEGAL)?;
        let depth = state.depth.checked_sub(opcode.taken()).ok_or(TOO_FEW)?;
        if depth + pushed(opcode.operation, &instruction) > self.cells.len() {
            return Err(TOO_MANY);
        }
        let operands = self.operands(opcode, &instruction, state.depth);
        let next = state.address + length;
        let outcome = self.perform(opcode.operation, &operands, state.address, next)?;
        Ok(State {
            address: outcome.address,
            depth: self.push(depth, &outcome.pushed),
            status: outcome.status,
        })
    }

    /// The operands in the order of the table: `a` is the top, `b` and `c` lie
    /// below it, `x` is in the code; a push-values has its values instead.
    fn operands(&self, opcode: &Opcode, instruction: &Instruction, depth: usize) -> Vec<u16> {
        let live = &self.cells[self.cells.len() - depth..];
        let operand = |letter| match letter {
            'a' => live[0],
            'b' => live[1],
            'c' => live[2],
            _ => instruction.number,
        };
        let values = &instruction.values[..instruction.count.into()];
        let taken = opcode.operands.chars().map(operand);
        taken.chain(values.iter().copied()).collect()
    }

    /// Writes each value into the cell below the top; gives the new depth.
    fn push(&mut self, depth: usize, values: &[u16]) -> usize {
        for (above, &value) in values.iter().enumerate() {
            let cell = self.cells.len() - depth - above - 1;
            self.cells[cell] = value;
        }
        depth + values.len()
    }

    /// The effect of an operation on its operands, for an instruction at `here`
    /// with another to follow at `next`.
    fn perform(
        &mut self,
        operation: Operation,
        operands: &[u16],
        here: usize,
        next: usize,
    ) -> Result<Outcome, u32> {
        let target = || usize::from(operands[0]);
        let outcome = match operation {
            Operation::Halt => Outcome::halt(here),
            Operation::Discard => Outcome::go(next),
            Operation::Copy(from) => Outcome::push(&[self.copy(from, operands)?], next),
            Operation::Swap | Operation::Push | Operation::PushValues => {
                Outcome::push(operands, next)
            }
            Operation::Call => Outcome::push(&[next as u16], target()),
            Operation::Jump => Outcome::go(target()),
            Operation::JumpIf if operands[1] != 0 => Outcome::go(target()),
            Operation::JumpIfNot if operands[1] == 0 => Outcome::go(target()),
            Operation::JumpIf | Operation::JumpIfNot => Outcome::go(next),
            Operation::SystemCall if operands[0] == 0 => Outcome::halt(here),
            Operation::SystemCall | Operation::ExtensionCall => return Err(NO_FUNCTION),
            Operation::One(function) => Outcome::push(&[function(operands[0])], next),
            Operation::Two(function) => Outcome::push(&[function(operands[0], operands[1])], next),
            Operation::Load(width) => Outcome::push(&[self.load(width, operands)?], next),
            Operation::Store(width) => Outcome::push(&[self.store(width, operands)?], next),
        };
        Ok(outcome)
    }

    /// 01: "c bytes from data b to data a [..]; push a+c", or the same from the
    /// program; 02, No. 2: "all source bytes are read before any is written". Both
    /// ends are looked at first, "also for c = 0".
    fn copy(&mut self, from: Memory, operands: &[u16]) -> Result<u16, u32> {
        let [to, source, count] = [0, 1, 2].map(|operand| usize::from(operands[operand]));
        within(self.data.len(), to, count, DATA_RANGE)?;
        let (memory, fault) = match from {
            Memory::Data => (&self.data[..], DATA_RANGE),
            Memory::Program => (self.program, PROGRAM_RANGE),
        };
        within(memory.len(), source, count, fault)?;
        let read = memory[source..source + count].to_vec();
        self.data[to..to + count].copy_from_slice(&read);
        Ok((to + count) as u16)
    }

    /// The number in `width` bytes of data at the sum of the operands, low byte
    /// first.
    fn load(&self, width: usize, operands: &[u16]) -> Result<u16, u32> {
        let place = sum(operands);
        within(self.data.len(), place, width, DATA_RANGE)?;
        Ok(low_byte_first(&self.data[place..place + width]))
    }

    /// Stores the low `width` bytes of the last operand at the sum of the others,
    /// low byte first; gives the number that then stands there. 01: "A store
    /// pushes what it stored; a u8 store uses the value modulo 256."
    fn store(&mut self, width: usize, operands: &[u16]) -> Result<u16, u32> {
        let last = operands.len() - 1;
        let place = sum(&operands[..last]);
        within(self.data.len(), place, width, DATA_RANGE)?;
        let stored = &operands[last].to_le_bytes()[..width];
        self.data[place..place + width].copy_from_slice(stored);
        Ok(low_byte_first(stored))
    }
}

impl Outcome {
    /// Halted; the address is kept.
    fn halt(here: usize) -> Outcome {
        Outcome {
            status: Status::Halted,
            ..Outcome::go(here)
        }
    }

    /// Running on at an address, with nothing pushed.
    fn go(address: usize) -> Outcome {
        Outcome::push(&[], address)
    }

    /// Running on at an address with these values pushed, the last on top.
    fn push(values: &[u16], address: usize) -> Outcome {
        Outcome {
            pushed: values.to_vec(),
            address,
            status: Status::Running,
        }
    }
}

/// How many values an instruction pushes.
pub fn pushed(operation: Operation, instruction: &Instruction) -> usize {
    match operation {
        Operation::Halt
        | Operation::Discard
        | Operation::Jump
        | Operation::JumpIf
        | Operation::JumpIfNot
        | Operation::SystemCall
        | Operation::ExtensionCall => 0,
        Operation::Copy(_)
        | Operation::Call
        | Operation::One(_)
        | Operation::Two(_)
        | Operation::Load(_)
        | Operation::Store(_)
        | Operation::Push => 1,
        Operation::Swap => 2,
        Operation::PushValues => instruction.count.into(),
    }
}

/// 01: "Address sums are exact whole numbers."
fn sum(places: &[u16]) -> usize {
    places.iter().copied().map(usize::from).sum()
}

/// 01: "An access of w bytes at p is good exactly if p + w is at most the
/// memory's length."
fn within(length: usize, place: usize, width: usize, fault: u32) -> Result<(), u32> {
    if place + width <= length {
        Ok(())
    } else {
        Err(fault)
    }
}

#[cfg(test)]
mod tests {
    use super::*;

    const HALTED: Status = Status::Halted;
    const MOST: u32 = u32::MAX;

    fn state(address: usize, depth: usize, status: Status) -> State {
        State {
            address,
            depth,
            status,
        }
    }

    fn running(address: usize, depth: usize) -> State {
        state(address, depth, Status::Running)
    }

    fn faulted(address: usize, depth: usize, fault: u32) -> State {
        state(address, depth, Status::Faulted(fault))
    }

    /// Runs one instruction or two on a stack given top first, with one cell to
    /// spare; gives the steps, the state, and the live values, top first.
    fn on_stack(
        program: &[u8],
        data: &mut [u8],
        stack: &[u16],
        budget: u32,
    ) -> (u64, State, Vec<u16>) {
        let mut cells = vec![0xDEAD];
        cells.extend(stack);
        let before = running(0, stack.len());
        let (refusal, steps, after) = run(program, data, &mut cells, before, budget);
        assert_eq!(refusal, None);
        (steps, after, cells.split_off(cells.len() - after.depth))
    }

    /// The value that one instruction leaves on an otherwise empty stack.
    fn result(program: &[u8], stack: &[u16]) -> u16 {
        let (steps, after, values) = on_stack(program, &mut [0; 8], stack, 1);
        assert_eq!(steps, 1);
        assert_eq!(after, running(program.len(), 1));
        values[0]
    }

    const M4: [u8; 11] = [
        0x83, 0x37, 0x00, 0x3D, 0x06, 0x00, 0x33, 0x00, 0x1A, 0x3C, 0x01,
    ];

    #[test]
    fn m1() {
        let mut cells = [0; 2];
        let answer = run(&[0x85, 0x83, 0x15, 0x00], &mut [], &mut cells, FRESH, MOST);
        assert_eq!(answer, (None, 4, state(3, 1, HALTED)));
        assert_eq!(cells, [3, 65_534]);
    }

    #[test]
    fn m4() {
        let (mut data, mut cells) = ([0xAA], [0xBBBB]);
        let answer = run(&M4, &mut data, &mut cells, FRESH, MOST);
        assert_eq!(answer, (None, 19, state(5, 0, HALTED)));
        assert_eq!((data, cells), ([0], [0]));
    }

    #[test]
    fn m4_with_every_budget_and_resumed() {
        for budget in 0..=20 {
            let (mut data, mut cells) = ([0xAA], [0xBBBB]);
            let (refusal, steps, middle) = run(&M4, &mut data, &mut cells, FRESH, budget);
            assert_eq!(refusal, None);
            assert_eq!(steps, u64::from(budget.min(19)));
            assert_eq!(middle.status == HALTED, budget >= 19);
            let (refusal, more, end) = run(&M4, &mut data, &mut cells, middle, MOST);
            assert_eq!((refusal, steps + more), (None, 19));
            assert_eq!(end, state(5, 0, HALTED));
            assert_eq!((data, cells), ([0], [0]));
        }
    }

    #[test]
    fn m9_with_any_data() {
        for length in [0, 1, 2, 256, 65_535] {
            let mut cells = [7, 7];
            let program = [0xC9, 0x01, 0xFF, 0xFF, 0x20];
            let answer = run(&program, &mut vec![9; length], &mut cells, FRESH, MOST);
            assert_eq!(answer, (None, 1, faulted(4, 2, 6)));
            assert_eq!(cells, [65_535, 1]);
        }
    }

    #[test]
    fn m10_and_m11_as_faults() {
        for (program, fault) in [
            (vec![0xC8, 0x05], 2),
            (vec![0x31, 0x10], 2),
            (vec![0x31], 3),
        ] {
            let answer = run(&program, &mut [], &mut [], FRESH, 1);
            assert_eq!(answer, (None, 0, faulted(0, 0, fault)));
        }
    }

    #[test]
    fn m12() {
        let mut data = [1, 2, 3, 4];
        let (steps, after, values) = on_stack(&[0x02], &mut data, &[1, 0, 3], 1);
        assert_eq!((steps, after), (1, running(1, 1)));
        assert_eq!(data, [1, 1, 2, 3]);
        assert_eq!(values, [4]);
    }

    #[test]
    fn a_copy_downwards_moves_all_bytes() {
        let mut data = [1, 2, 3, 4];
        let (_, _, values) = on_stack(&[0x02], &mut data, &[0, 1, 3], 1);
        assert_eq!((data, values), ([2, 3, 4, 4], vec![3]));
    }

    #[test]
    fn copies_of_nothing_need_good_ends() {
        let fault = |code, stack: &[u16]| on_stack(&[code], &mut [0; 4], stack, 1).1.status;
        assert_eq!(fault(0x02, &[4, 4, 0]), Status::Running);
        assert_eq!(fault(0x02, &[5, 4, 0]), Status::Faulted(6));
        assert_eq!(fault(0x02, &[4, 5, 0]), Status::Faulted(6));
        assert_eq!(fault(0x03, &[4, 1, 0]), Status::Running);
        assert_eq!(fault(0x03, &[4, 2, 0]), Status::Faulted(7));
        assert_eq!(fault(0x03, &[5, 2, 0]), Status::Faulted(6));
    }

    #[test]
    fn pcopy_reads_the_program() {
        let mut data = [0; 4];
        let program = [0x03, 0x11, 0x22, 0x33];
        let (_, _, values) = on_stack(&program, &mut data, &[1, 1, 3], 1);
        assert_eq!((data, values), ([0, 0x11, 0x22, 0x33], vec![4]));
    }

    #[test]
    fn a_is_the_top() {
        assert_eq!(result(&[0x15], &[3, 5]), 65_534);
        assert_eq!(result(&[0x0F], &[3, 5]), 1);
        assert_eq!(result(&[0x0E], &[3, 5]), 0);
        assert_eq!(result(&[0x17], &[1, 4]), 16);
        assert_eq!(result(&[0x18], &[16, 4]), 1);
        assert_eq!(result(&[0x2F, 0x05], &[3]), 65_534);
        assert_eq!(result(&[0x45, 0x05, 0x00], &[3]), 1);
    }

    #[test]
    fn arithmetic_is_modulo_65536() {
        assert_eq!(result(&[0x14], &[65_535, 2]), 1);
        assert_eq!(result(&[0x16], &[256, 257]), 256);
        assert_eq!(result(&[0x19], &[65_535]), 0);
        assert_eq!(result(&[0x1A], &[0]), 65_535);
        assert_eq!(result(&[0x1B], &[0x00FF]), 0xFF00);
        assert_eq!(result(&[0x1C], &[1]), 65_535);
        assert_eq!(result(&[0x17], &[1, 16]), 0);
        assert_eq!(result(&[0x18], &[65_535, 65_535]), 0);
    }

    #[test]
    fn swap_exchanges_and_writes_both_cells() {
        let (_, after, values) = on_stack(&[0x04], &mut [], &[1, 2], 1);
        assert_eq!((after, values), (running(1, 2), vec![2, 1]));
    }

    #[test]
    fn the_last_value_ends_on_top() {
        let mut cells = [9; 5];
        let program = [0xE7, 0x01, 0x02, 0x03, 0x04, 0x05, 0x06];
        let answer = run(&program, &mut [], &mut cells, FRESH, 1);
        assert_eq!(answer, (None, 1, running(7, 4)));
        assert_eq!(cells, [9, 0x0605, 4, 3, 0x0201]);
    }

    #[test]
    fn four_values_into_three_cells_write_none() {
        let mut cells = [9; 3];
        let answer = run(&[0xC3, 1, 2, 3, 4], &mut [], &mut cells, FRESH, 1);
        assert_eq!(answer, (None, 0, faulted(0, 0, 5)));
        assert_eq!(cells, [9; 3]);
    }

    #[test]
    fn data_has_its_low_byte_first() {
        let mut data = [0xEE; 4];
        let (_, _, values) = on_stack(&[0x22], &mut data, &[1, 0x1234], 1);
        assert_eq!((data, values), ([0xEE, 0x34, 0x12, 0xEE], vec![0x1234]));
        let (_, _, values) = on_stack(&[0x34, 0x00], &mut data, &[], 1);
        assert_eq!(values, [0x34EE]);
    }

    #[test]
    fn stores_take_their_operands_in_order_and_push_what_they_stored() {
        let stored = |program: &[u8], stack: &[u16]| {
            let mut data = [0xEE; 4];
            let (_, _, values) = on_stack(program, &mut data, stack, 1);
            (data, values)
        };
        let low = ([0xEE, 0xEE, 0x34, 0xEE], vec![0x34]);
        assert_eq!(stored(&[0x21], &[2, 0x1234]), low);
        assert_eq!(stored(&[0x23], &[0, 2, 0x1234]), low);
        assert_eq!(stored(&[0x37, 0x02], &[0x1234]), low);
        assert_eq!(stored(&[0x39, 0x01], &[1, 0x1234]), low);
        assert_eq!(stored(&[0x53, 0x02, 0x00], &[0, 0x1234]), low);
        let both = ([0xEE, 0xEE, 0x34, 0x12], vec![0x1234]);
        assert_eq!(stored(&[0x24], &[1, 1, 0x1234]), both);
        assert_eq!(stored(&[0x38, 0x02], &[0x1234]), both);
        assert_eq!(stored(&[0x3A, 0x02], &[0, 0x1234]), both);
        assert_eq!(stored(&[0x52, 0x02, 0x00], &[0x1234]), both);
        assert_eq!(stored(&[0x54, 0x01, 0x00], &[1, 0x1234]), both);
    }

    #[test]
    fn a_word_needs_both_its_bytes() {
        let word_at_254 = |length: usize| {
            let mut data = vec![1; length];
            on_stack(&[0x34, 0xFE], &mut data, &[], 1).1
        };
        assert_eq!(word_at_254(254), faulted(0, 0, 6));
        assert_eq!(word_at_254(255), faulted(0, 0, 6));
        assert_eq!(word_at_254(256), running(2, 1));
    }

    #[test]
    fn jumps_take_their_test_either_way() {
        let after = |program: &[u8], stack: &[u16]| on_stack(program, &mut [], stack, 1).1;
        assert_eq!(after(&[0x07], &[9, 1]), running(9, 0));
        assert_eq!(after(&[0x07], &[9, 0]), running(1, 0));
        assert_eq!(after(&[0x08], &[9, 0]), running(9, 0));
        assert_eq!(after(&[0x08], &[9, 256]), running(1, 0));
        assert_eq!(after(&[0x3D, 0x09], &[256]), running(9, 0));
        assert_eq!(after(&[0x3E, 0x09], &[1]), running(2, 0));
        assert_eq!(after(&[0x58, 0x09, 0x01], &[0]), running(0x109, 0));
        assert_eq!(after(&[0x06], &[65_535]), running(65_535, 0));
    }

    #[test]
    fn a_jump_to_a_bad_address_succeeds() {
        let (steps, after, _) = on_stack(&[0x56, 0xFF, 0xFF], &mut [], &[], 2);
        assert_eq!((steps, after), (1, faulted(65_535, 0, 1)));
    }

    #[test]
    fn a_call_pushes_the_next_address() {
        let (_, after, values) = on_stack(&[0x05, 0x00], &mut [], &[1], 1);
        assert_eq!((after, values), (running(1, 1), vec![1]));
        let (_, after, values) = on_stack(&[0x3B, 0x07], &mut [], &[], 1);
        assert_eq!((after, values), (running(7, 1), vec![2]));
        let (_, after, values) = on_stack(&[0x55, 0x00, 0x01], &mut [], &[], 1);
        assert_eq!((after, values), (running(256, 1), vec![3]));
    }

    #[test]
    fn a_call_by_05_is_good_on_a_full_stack() {
        let mut cells = [0];
        let answer = run(&[0x05], &mut [], &mut cells, running(0, 1), 1);
        assert_eq!(answer, (None, 1, running(0, 1)));
        assert_eq!(cells, [1]);
        let answer = run(&[0x3B, 0x00], &mut [], &mut cells, running(0, 1), 1);
        assert_eq!(answer, (None, 0, faulted(0, 1, 5)));
        assert_eq!(cells, [1]);
    }

    #[test]
    fn functions() {
        let after = |program: &[u8], stack: &[u16]| {
            let (steps, after, _) = on_stack(program, &mut [], stack, 1);
            (steps, after)
        };
        assert_eq!(after(&[0x09], &[0]), (1, state(0, 0, HALTED)));
        assert_eq!(after(&[0x09], &[1]), (0, faulted(0, 1, 8)));
        assert_eq!(after(&[0x09], &[]), (0, faulted(0, 0, 4)));
        assert_eq!(after(&[0x0A], &[0]), (0, faulted(0, 1, 8)));
        assert_eq!(after(&[0x3F, 0x00], &[]), (1, state(0, 0, HALTED)));
        assert_eq!(after(&[0x3F, 0x01], &[]), (0, faulted(0, 0, 8)));
        assert_eq!(after(&[0x40, 0x00], &[]), (0, faulted(0, 0, 8)));
        assert_eq!(after(&[0x59, 0x00, 0x01], &[]), (0, faulted(0, 0, 8)));
        assert_eq!(after(&[0x59, 0x00, 0x00], &[]), (1, state(0, 0, HALTED)));
        assert_eq!(after(&[0x5A, 0x00, 0x00], &[]), (0, faulted(0, 0, 8)));
    }

    #[test]
    fn faults_in_their_order() {
        let fault = |program: &[u8], cells: &mut [u16], depth| {
            run(program, &mut [], cells, running(0, depth), 1).2.status
        };
        assert_eq!(fault(&[], &mut [], 0), Status::Faulted(1));
        assert_eq!(fault(&[0x25], &mut [], 0), Status::Faulted(3));
        assert_eq!(fault(&[0x31, 0x10], &mut [], 0), Status::Faulted(2));
        assert_eq!(fault(&[0x31, 0x0F], &mut [], 0), Status::Faulted(4));
        assert_eq!(fault(&[0x1D], &mut [], 0), Status::Faulted(4));
        assert_eq!(fault(&[0x33, 0x00], &mut [], 0), Status::Faulted(5));
        assert_eq!(fault(&[0x33, 0x00], &mut [0], 0), Status::Faulted(6));
        assert_eq!(fault(&[0x03], &mut [9, 9, 9], 3), Status::Faulted(6));
    }

    #[test]
    fn a_fault_needs_a_budget() {
        let answer = run(&[0xFC], &mut [], &mut [], FRESH, 0);
        assert_eq!(answer, (None, 0, FRESH));
        let answer = run(&[0xFC], &mut [], &mut [], FRESH, 1);
        assert_eq!(answer, (None, 0, faulted(0, 0, 2)));
    }

    #[test]
    fn a_stopped_state_comes_back() {
        for status in [HALTED, Status::Faulted(1), Status::Faulted(77)] {
            let before = state(1, 1, status);
            let mut cells = [4];
            let answer = run(&[0x80, 0x01], &mut [], &mut cells, before, MOST);
            assert_eq!((answer, cells), ((None, 0, before), [4]));
        }
    }

    #[test]
    fn refusals_in_their_order_and_in_every_status() {
        let refusal = |program: usize, data: usize, cells: usize, depth, status| {
            let before = state(5, depth, status);
            let (mut data, mut cells) = (vec![3; data], vec![3; cells]);
            let answer = run(&vec![0x80; program], &mut data, &mut cells, before, 1);
            assert!(data.iter().all(|&byte| byte == 3));
            assert!(cells.iter().all(|&cell| cell == 3));
            assert_eq!((answer.1, answer.2), (0, before));
            answer.0
        };
        for status in [Status::Running, HALTED, Status::Faulted(3)] {
            assert_eq!(refusal(16_385, 65_536, 1_025, 1_026, status), Some(20));
            assert_eq!(refusal(16_384, 65_536, 1_025, 1_026, status), Some(21));
            assert_eq!(refusal(16_384, 65_535, 1_025, 1_026, status), Some(22));
            assert_eq!(refusal(16_384, 65_535, 1_024, 1_025, status), Some(24));
        }
        assert_eq!(refusal(0, 0, 0, 1, Status::Running), Some(24));
    }

    #[test]
    fn a_step_is_a_run_with_a_budget_of_one() {
        let mut cells = [0; 2];
        let answer = step(&[0x85, 0x83], &mut [], &mut cells, FRESH);
        assert_eq!(answer, (None, 1, running(1, 1)));
        assert_eq!(cells, [0, 5]);
        let deep = running(0, 3);
        let answer = step(&[0x85], &mut [], &mut cells, deep);
        assert_eq!(answer, (Some(24), 0, deep));
    }
}
