//! The functions that are timed, at each of their places, behind functions over slices.
//! All unsafe code of this crate is written here and in functions/admission.rs. Both sides
//! take the same arguments; how they write their numbers and states is their [`Form`].

mod admission;

use std::ptr;

use crate::PLACES;
pub use admission::{AdmitChunk, AdmitNumbers, Admitter, Memories, Report, Reporter};

/// The status of a machine that has halted, as C numbers it; 0 is one that runs, and any
/// other number is a fault.
pub const HALTED: u32 = 100;

/// How a side writes what it is given and what it gives.
pub trait Form {
    type Number: Copy;
    /// All 0 where a program begins.
    type State: Copy + Default;

    fn number(number: Self::Number) -> u32;

    /// A state's address, depth and status, the status as C numbers it.
    fn state(state: Self::State) -> [u32; 3];
}

/// The proved library's: include/khalixoshi.h.
pub enum Proved {}

#[repr(C)]
#[derive(Clone, Copy, Default)]
pub struct ProvedState {
    address: usize,
    depth: usize,
    status: usize,
    fault: usize,
}

impl Form for Proved {
    type Number = usize;
    type State = ProvedState;

    fn number(number: usize) -> u32 {
        number as u32
    }

    fn state(state: ProvedState) -> [u32; 3] {
        let status = match state.status {
            0 => 0,
            1 => HALTED,
            _ => state.fault as u32,
        };
        [state.address as u32, state.depth as u32, status]
    }
}

/// The plain C's: c/peer.h.
pub enum Plain {}

#[repr(C)]
#[derive(Clone, Copy, Default)]
pub struct PlainState {
    address: u32,
    depth: u32,
    status: u32,
}

impl Form for Plain {
    type Number = u32;
    type State = PlainState;

    fn number(number: u32) -> u32 {
        number
    }

    fn state(state: PlainState) -> [u32; 3] {
        [state.address, state.depth, state.status]
    }
}

/// What a run came to.
#[repr(C)]
pub struct Ran<F: Form> {
    refusal: F::Number,
    steps: u32,
    state: F::State,
}

/// What a verifier, a pack check or a listing says: a refusal, and an address, a count or
/// a length.
#[repr(C)]
pub struct Said<F: Form> {
    refusal: F::Number,
    number: F::Number,
}

impl<F: Form> Said<F> {
    fn numbers(&self) -> [u32; 2] {
        [F::number(self.refusal), F::number(self.number)]
    }
}

/// What the library reads at an address. The instruction has so many bytes, and is not
/// looked at here.
#[repr(C)]
pub struct Decoded {
    refusal: usize,
    length: usize,
    _instruction: [u16; 7],
}

/// An entry of a pack. Its tag is the one that was asked for, and is not looked at here.
#[repr(C)]
pub struct Entry {
    _tag: u16,
    cells: u16,
    offset: u16,
    length: u16,
}

/// What the library says to a tag.
#[repr(C)]
pub struct ProvedFound {
    refusal: usize,
    _present: usize,
    entry: Entry,
}

impl ProvedFound {
    /// The refusal, and the entry's numbers, each read by itself as C reads it: the library
    /// has written them so, and a processor waits where they are read in one piece.
    fn numbers(&self) -> [u32; 4] {
        let entry = &self.entry;
        let [cells, offset, length] = [&entry.cells, &entry.offset, &entry.length].map(|number| {
            // SAFETY: a reference can be read.
            u32::from(unsafe { ptr::read_volatile(number) })
        });
        [self.refusal as u32, cells, offset, length]
    }
}

/// What C's scan says to it.
#[repr(C)]
pub struct PlainFound {
    refusal: usize,
    entry: Entry,
}

impl PlainFound {
    /// As [`ProvedFound::numbers`], but out of registers.
    fn numbers(&self) -> [u32; 4] {
        let entry = &self.entry;
        let [cells, offset, length] = [entry.cells, entry.offset, entry.length].map(u32::from);
        [self.refusal as u32, cells, offset, length]
    }
}

/// From a state, over program, data and cells, at most so many steps.
pub type Run<F> = unsafe extern "C" fn(
    <F as Form>::State,
    *const u8,
    usize,
    *mut u8,
    usize,
    *mut u16,
    usize,
    u32,
) -> Ran<F>;
/// The depth map of a program for so many cells.
pub type Verify<F> = unsafe extern "C" fn(*const u8, usize, usize, *mut u16, usize) -> Said<F>;
/// The same, with a byte for each byte of the program.
pub type VerifyByCursor =
    unsafe extern "C" fn(*const u8, usize, usize, *mut u16, usize, *mut u8) -> Said<Plain>;
pub type PackCheck<F> = unsafe extern "C" fn(*const u8, usize) -> Said<F>;
/// The instruction at an address, which is then moved past it.
pub type Read = unsafe extern "C" fn(*const u8, usize, *mut usize) -> Decoded;
/// The listing of a program, into a room.
pub type List = unsafe extern "C" fn(*const u8, usize, *mut u8, usize) -> Said<Proved>;
/// The entry of a pack with a tag.
pub type Find = unsafe extern "C" fn(*const u8, usize, u16) -> ProvedFound;
/// The same of a pack that was checked.
pub type Scan = unsafe extern "C" fn(*const u8, u16) -> PlainFound;

/// One function at each of its places.
pub type Copies<Function> = [Function; PLACES];

/// The copies of a function by their names.
macro_rules! copies {
    ($function:ty, [$($name:ident)*]) => {{
        extern "C" {
            $(fn $name();)*
        }
        // SAFETY: the type is what the header of the function's side declares.
        [$(unsafe { std::mem::transmute::<unsafe extern "C" fn(), $function>($name) }),*]
    }};
}
pub(crate) use copies;

/// What both sides have.
pub struct Functions<F: Form> {
    pub(crate) run: Copies<Run<F>>,
    pub(crate) verify: Copies<Verify<F>>,
    pub(crate) pack_check: Copies<PackCheck<F>>,
}

/// A side, whatever its form.
pub trait Measured {
    /// Runs a program from the fresh state, as many steps as can be counted: the
    /// refusal, the steps, the address, the depth and the status.
    fn run(&self, place: usize, program: &[u8], data: &mut [u8], cells: &mut [u16]) -> [u32; 5];

    /// The depth map, by C with a bitmap of the addresses still due: the refusal, and
    /// where.
    fn verify(&self, place: usize, program: &[u8], cells: usize, map: &mut [u16]) -> [u32; 2];

    /// Checks a whole pack: the refusal, and the count of entries.
    fn pack_check(&self, place: usize, pack: &[u8]) -> [u32; 2];
}

impl<F: Form> Measured for Functions<F> {
    fn run(&self, place: usize, program: &[u8], data: &mut [u8], cells: &mut [u16]) -> [u32; 5] {
        run_by(self.run[place], program, data, cells)
    }

    fn verify(&self, place: usize, program: &[u8], cells: usize, map: &mut [u16]) -> [u32; 2] {
        let (length, map_length) = (program.len(), map.len());
        let (program, map) = (program.as_ptr(), map.as_mut_ptr());
        // SAFETY: each pointer is a slice's own, with its length.
        let said = unsafe { (self.verify[place])(program, length, cells, map, map_length) };
        said.numbers()
    }

    fn pack_check(&self, place: usize, pack: &[u8]) -> [u32; 2] {
        // SAFETY: the pointer is the slice's own, with its length.
        let said = unsafe { (self.pack_check[place])(pack.as_ptr(), pack.len()) };
        said.numbers()
    }
}

/// Runs a program by a side's run at a place, as [`Measured::run`] does.
fn run_by<F: Form>(run: Run<F>, program: &[u8], data: &mut [u8], cells: &mut [u16]) -> [u32; 5] {
    // SAFETY: each pointer is a slice's own, with its length.
    let ran = unsafe {
        run(
            F::State::default(),
            program.as_ptr(),
            program.len(),
            data.as_mut_ptr(),
            data.len(),
            cells.as_mut_ptr(),
            cells.len(),
            u32::MAX,
        )
    };
    let [address, depth, status] = F::state(ran.state);
    [F::number(ran.refusal), ran.steps, address, depth, status]
}

/// The proved library's own run, at the one place where it is shipped.
pub struct Shipped(pub(crate) [Run<Proved>; 1]);

impl Shipped {
    /// As [`Measured::run`].
    pub fn run(&self, program: &[u8], data: &mut [u8], cells: &mut [u16]) -> [u32; 5] {
        run_by(self.0[0], program, data, cells)
    }
}

/// The run that copies by memmove, which C alone has.
pub struct Memmove(pub(crate) Copies<Run<Plain>>);

impl Memmove {
    /// As [`Measured::run`].
    pub fn run(
        &self,
        place: usize,
        program: &[u8],
        data: &mut [u8],
        cells: &mut [u16],
    ) -> [u32; 5] {
        run_by(self.0[place], program, data, cells)
    }
}

/// The verifier with a cursor, which C alone has.
pub struct Cursor(pub(crate) Copies<VerifyByCursor>);

impl Cursor {
    /// The depth map; `done` has as many bytes as the program.
    pub fn verify(
        &self,
        place: usize,
        program: &[u8],
        cells: usize,
        map: &mut [u16],
        done: &mut [u8],
    ) -> [u32; 2] {
        assert_eq!(done.len(), program.len());
        let (length, map_length) = (program.len(), map.len());
        let (program, map, done) = (program.as_ptr(), map.as_mut_ptr(), done.as_mut_ptr());
        // SAFETY: each pointer is a slice's own, with its length; `done` has the program's.
        let said = unsafe { (self.0[place])(program, length, cells, map, map_length, done) };
        said.numbers()
    }
}

/// The reader, which the library alone has.
pub struct Reader(pub(crate) Copies<Read>);

impl Reader {
    /// Reads a program from its start to the first refusal, an instruction a call: the
    /// refusal, the address there, and how many instructions were read.
    pub fn read(&self, place: usize, program: &[u8]) -> [u32; 3] {
        let (mut at, mut count) = (0, 0);
        loop {
            // SAFETY: the pointer is the slice's own, with its length; `at` is lent alone.
            let read = unsafe { (self.0[place])(program.as_ptr(), program.len(), &mut at) };
            if read.refusal != 0 {
                return [read.refusal as u32, at as u32, count];
            }
            count += 1;
        }
    }
}

/// The listing, which the library alone has.
pub struct Lister(pub(crate) Copies<List>);

impl Lister {
    /// Writes a listing into a room: the refusal, and its length.
    pub fn list(&self, place: usize, program: &[u8], room: &mut [u8]) -> [u32; 2] {
        let (length, room_length) = (program.len(), room.len());
        let (program, room) = (program.as_ptr(), room.as_mut_ptr());
        // SAFETY: each pointer is a slice's own, with its length.
        let said = unsafe { (self.0[place])(program, length, room, room_length) };
        said.numbers()
    }
}

/// A way to find tags, of the two that the library has.
pub struct Finder(pub(crate) Copies<Find>);

impl Finder {
    /// Asks a pack for tags, one after the other: the sums of the refusals, the cells, the
    /// offsets and the lengths.
    pub fn find(&self, place: usize, pack: &[u8], tags: &[u16]) -> [u32; 4] {
        sums(tags, |tag| {
            // SAFETY: the pointer is the slice's own, with its length.
            let found = unsafe { (self.0[place])(pack.as_ptr(), pack.len(), tag) };
            found.numbers()
        })
    }
}

/// The scan for a tag, which C alone has.
pub struct Scanner(pub(crate) Copies<Scan>);

impl Scanner {
    /// As [`Finder::find`]. The pack is checked first, once for all tags.
    pub fn find(&self, place: usize, pack: &[u8], tags: &[u16]) -> [u32; 4] {
        let [refusal, _] = crate::PROVED.pack_check(place, pack);
        assert_eq!(refusal, 0);
        sums(tags, |tag| {
            // SAFETY: the pointer is the slice's own, and the pack in it is good.
            let found = unsafe { (self.0[place])(pack.as_ptr(), tag) };
            found.numbers()
        })
    }
}

/// The sums of the numbers that some tags are answered with.
pub fn sums(tags: &[u16], find: impl Fn(u16) -> [u32; 4]) -> [u32; 4] {
    let mut sums = [0_u32; 4];
    for &tag in tags {
        for (sum, number) in sums.iter_mut().zip(find(tag)) {
            *sum = sum.wrapping_add(number);
        }
    }
    sums
}
