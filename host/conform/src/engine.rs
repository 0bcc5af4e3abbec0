//! What is asked of an implementation, over plain data.

/// The number of a refusal or of a fault.
pub type Number = usize;

/// An instruction as a value.
#[derive(Clone, Copy, Debug, Default, PartialEq, Eq)]
pub struct Instruction {
    /// 128 for 80 to BF, 192 for C0 to FF, else the first byte.
    pub code: u8,
    /// The number in the code.
    pub number: u16,
    /// How many values are pushed.
    pub count: u8,
    /// Bit i is set where value i is two bytes wide.
    pub flags: u8,
    /// The values, the first one first.
    pub values: [u16; 4],
}

/// An instruction and its length in bytes.
#[derive(Clone, Copy, Debug, PartialEq, Eq)]
pub struct Decoded {
    /// The instruction.
    pub instruction: Instruction,
    /// Its length.
    pub length: usize,
}

/// A row of the table of first bytes.
#[derive(Clone, Copy, Debug, PartialEq, Eq)]
pub struct Shape {
    /// The length of an instruction in bytes.
    pub length: usize,
    /// How many values it takes.
    pub taken: usize,
    /// How many values it pushes.
    pub pushed: usize,
}

/// A machine's status.
#[derive(Clone, Copy, Debug, PartialEq, Eq)]
pub enum Status {
    /// There is a next step.
    Running,
    /// Stopped by halt or by system function 0.
    Halted,
    /// Stopped by the fault of this number.
    Faulted(Number),
}

/// A machine's state.
#[derive(Clone, Copy, Debug, PartialEq, Eq)]
pub struct State {
    /// Where the next instruction is.
    pub address: usize,
    /// How many values are on the stack.
    pub depth: usize,
    /// Whether there is a next step.
    pub status: Status,
}

/// What a run came to.
#[derive(Clone, Copy, Debug, PartialEq, Eq)]
pub struct Ran {
    /// The steps taken, or the refusal.
    pub steps: Result<u64, Number>,
    /// The state afterwards.
    pub state: State,
}

/// What the verifier says.
#[derive(Clone, Copy, Debug, PartialEq, Eq)]
pub enum Verdict {
    /// The program may run.
    Accepted,
    /// Refused, and the address of the instruction refused where one was looked at.
    Refused(Number, Option<usize>),
}

/// What a reader answered, one time after the other, and its address at the end.
#[derive(Clone, Debug, PartialEq, Eq)]
pub struct Readings {
    /// The answers.
    pub answers: Vec<Result<Decoded, Number>>,
    /// The reader's address.
    pub address: usize,
}

/// An entry of a pack.
#[derive(Clone, Copy, Debug, PartialEq, Eq)]
pub struct Entry {
    /// What the program is asked for by.
    pub tag: u16,
    /// The stack cells that it wants.
    pub cells: u16,
    /// Where it begins in the pack.
    pub offset: u16,
    /// How many bytes it has.
    pub length: u16,
}

/// What comes to an admission.
#[derive(Clone, Debug, PartialEq, Eq)]
pub enum Event {
    /// The next bytes of the pack, or none.
    Chunk(Vec<u8>),
    /// The pack's end.
    Close,
    /// The question what the answer is so far.
    Ask,
}

/// A program's tag, and the verdict on it.
#[derive(Clone, Copy, Debug, PartialEq, Eq)]
pub struct Ruling {
    /// What the program is asked for by.
    pub tag: u16,
    /// Whether it may run with the cells that it wants.
    pub verdict: Verdict,
}

/// What an admission answers to an event.
#[derive(Clone, Debug, PartialEq, Eq)]
pub enum Reply {
    /// The chunk is taken.
    Taken,
    /// There was no close yet.
    Open,
    /// The pack is closed and good: how many programs it has, and what is said of them.
    Good(usize, Vec<Ruling>),
    /// Refused, the event or the pack.
    Refused(Number),
}

/// An implementation of the machine. Memories, maps and rooms are lent: how they are
/// left is part of the answer.
pub trait Engine {
    /// The instruction at an address.
    fn decode(&self, program: &[u8], at: usize) -> Result<Decoded, Number>;

    /// Writes an instruction into a room, and gives its length.
    fn encode(&self, instruction: &Instruction, room: &mut [u8]) -> Result<usize, Number>;

    /// The row of a first byte; none where no instruction begins with it.
    fn shape(&self, first: u8) -> Option<Shape>;

    /// One step.
    fn step(&self, program: &[u8], data: &mut [u8], stack: &mut [u16], state: State) -> Ran;

    /// A run of at most `budget` steps.
    fn run(
        &self,
        program: &[u8],
        data: &mut [u8],
        stack: &mut [u16],
        state: State,
        budget: u32,
    ) -> Ran;

    /// Verifies a program for so many stack cells.
    fn verify(&self, program: &[u8], cells: usize, map: &mut [u16]) -> Verdict;

    /// Writes the listing of a program into a room, and gives its length.
    fn listing(&self, program: &[u8], room: &mut [u8]) -> Result<usize, Number>;

    /// Asks a new reader on the program `count` times.
    fn read(&self, program: &[u8], count: usize) -> Readings;

    /// The entries of a pack.
    fn pack(&self, pack: &[u8]) -> Result<Vec<Entry>, Number>;

    /// The entry with a tag, of a pack that is checked first.
    fn find(&self, pack: &[u8], tag: u16) -> Result<Entry, Number>;

    /// The entry with a tag, by halving, of a pack that is not checked.
    fn lookup(&self, pack: &[u8], tag: u16) -> Result<Entry, Number>;

    /// Writes a pack into a room, and gives its length.
    fn writepack(
        &self,
        tags: &[u16],
        cells: &[u16],
        lengths: &[u16],
        bodies: &[u8],
        room: &mut [u8],
    ) -> Result<usize, Number>;

    /// What the thin program prints for a pack.
    fn report(&self, pack: &[u8]) -> String;

    /// Lets the events come to a new admission, and gives its answer to each.
    fn stream(&self, events: &[Event]) -> Vec<Reply>;
}
