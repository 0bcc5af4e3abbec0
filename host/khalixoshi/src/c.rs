//! The functions of libkhalixoshi.a as include/khalixoshi.h has them, each behind a
//! function over slices. All unsafe code of this crate is here. What the header asks
//! of a caller holds in each call: a pointer and its count come from one slice, and
//! what may be written is lent by `&mut`, so it overlaps nothing else.

use std::ptr;

pub const RUNNING: usize = 0;
pub const HALTED: usize = 1;
pub const FAULTED: usize = 2;

#[repr(C)]
#[derive(Clone, Copy)]
pub struct Instruction {
    pub code: u8,
    pub count: u8,
    pub flags: u8,
    pub number: u16,
    pub v0: u16,
    pub v1: u16,
    pub v2: u16,
    pub v3: u16,
}

#[repr(C)]
pub struct Decoded {
    pub refusal: usize,
    pub length: usize,
    pub instruction: Instruction,
}

#[repr(C)]
pub struct Row {
    pub refusal: usize,
    pub length: usize,
    pub taken: usize,
    pub pushed: usize,
}

#[repr(C)]
pub struct Written {
    pub refusal: usize,
    pub length: usize,
}

#[repr(C)]
#[derive(Clone, Copy)]
pub struct State {
    pub address: usize,
    pub depth: usize,
    pub status: usize,
    pub fault: usize,
}

#[repr(C)]
pub struct Ran {
    pub refusal: usize,
    pub steps: u32,
    pub state: State,
}

#[repr(C)]
pub struct Verdict {
    pub refusal: usize,
    pub at: usize,
}

#[repr(C)]
pub struct Checked {
    pub refusal: usize,
    pub entries: usize,
}

#[repr(C)]
pub struct Entry {
    pub refusal: usize,
    pub present: usize,
    pub tag: u16,
    pub cells: u16,
    pub offset: u16,
    pub length: u16,
}

#[repr(C)]
pub struct Admitted {
    pub refusal: usize,
    pub closed: usize,
    pub verdicts: usize,
    pub lost: usize,
}

extern "C" {
    fn khx_decode(program: *const u8, program_length: usize, at: usize) -> Decoded;
    fn khx_read(program: *const u8, program_length: usize, at: *mut usize) -> Decoded;
    fn khx_encode(instruction: Instruction, room: *mut u8, room_length: usize) -> Written;
    fn khx_shape(first: u8) -> Row;
    fn khx_run(
        state: State,
        program: *const u8,
        program_length: usize,
        data: *mut u8,
        data_length: usize,
        cells: *mut u16,
        cells_length: usize,
        budget: u32,
    ) -> Ran;
    fn khx_verify(
        program: *const u8,
        program_length: usize,
        cells: usize,
        map: *mut u16,
        map_length: usize,
    ) -> Verdict;
    fn khx_list(
        program: *const u8,
        program_length: usize,
        room: *mut u8,
        room_length: usize,
    ) -> Written;
    fn khx_pack_check(pack: *const u8, pack_length: usize) -> Checked;
    fn khx_pack_entry(pack: *const u8, pack_length: usize, index: usize) -> Entry;
    fn khx_pack_find(pack: *const u8, pack_length: usize, tag: u16) -> Entry;
    fn khx_pack_lookup(pack: *const u8, pack_length: usize, tag: u16) -> Entry;
    fn khx_pack_write(
        tags: *const u16,
        tags_count: usize,
        cells: *const u16,
        cells_count: usize,
        lengths: *const u16,
        lengths_count: usize,
        bodies: *const u8,
        bodies_length: usize,
        room: *mut u8,
        room_length: usize,
    ) -> Written;
    fn khx_report(
        pack: *const u8,
        pack_length: usize,
        map: *mut u16,
        map_length: usize,
        room: *mut u8,
        room_length: usize,
    ) -> Written;
    fn khx_admit_start(numbers: *mut usize, numbers_length: usize) -> Admitted;
    fn khx_admit_chunk(
        numbers: *mut usize,
        numbers_length: usize,
        chunk: *const u8,
        chunk_length: usize,
        contents: *mut u8,
        contents_length: usize,
        body: *mut u8,
        body_length: usize,
        map: *mut u16,
        map_length: usize,
        verdicts: *mut u16,
        verdicts_length: usize,
    ) -> Admitted;
    fn khx_admit_close(numbers: *mut usize, numbers_length: usize) -> Admitted;
    fn khx_admit_ask(numbers: *const usize, numbers_length: usize) -> Admitted;
}

pub fn decode(program: &[u8], at: usize) -> Decoded {
    unsafe { khx_decode(program.as_ptr(), program.len(), at) }
}

pub fn read(program: &[u8], at: &mut usize) -> Decoded {
    unsafe { khx_read(program.as_ptr(), program.len(), at) }
}

pub fn encode(instruction: Instruction, room: &mut [u8]) -> Written {
    unsafe { khx_encode(instruction, room.as_mut_ptr(), room.len()) }
}

pub fn shape(first: u8) -> Row {
    unsafe { khx_shape(first) }
}

pub fn run(state: State, program: &[u8], data: &mut [u8], cells: &mut [u16], budget: u32) -> Ran {
    unsafe {
        khx_run(
            state,
            program.as_ptr(),
            program.len(),
            data.as_mut_ptr(),
            data.len(),
            cells.as_mut_ptr(),
            cells.len(),
            budget,
        )
    }
}

pub fn verify(program: &[u8], cells: usize, map: &mut [u16]) -> Verdict {
    unsafe {
        khx_verify(
            program.as_ptr(),
            program.len(),
            cells,
            map.as_mut_ptr(),
            map.len(),
        )
    }
}

pub fn list(program: &[u8], room: &mut [u8]) -> Written {
    unsafe {
        khx_list(
            program.as_ptr(),
            program.len(),
            room.as_mut_ptr(),
            room.len(),
        )
    }
}

pub fn pack_check(pack: &[u8]) -> Checked {
    unsafe { khx_pack_check(pack.as_ptr(), pack.len()) }
}

pub fn pack_entry(pack: &[u8], index: usize) -> Entry {
    number_by_number(&unsafe { khx_pack_entry(pack.as_ptr(), pack.len(), index) })
}

#[inline]
pub fn pack_find(pack: &[u8], tag: u16) -> Entry {
    number_by_number(&unsafe { khx_pack_find(pack.as_ptr(), pack.len(), tag) })
}

#[inline]
pub fn pack_lookup(pack: &[u8], tag: u16) -> Entry {
    number_by_number(&unsafe { khx_pack_lookup(pack.as_ptr(), pack.len(), tag) })
}

/// The same answer, each of the entry's four numbers read by itself. The library has just
/// written them one by one, and the compiler would read them in one piece of eight bytes,
/// for which a processor waits until all four have reached its cache: nearly as long as a
/// lookup takes. Volatile reads are never joined; a reference can always be read.
#[inline]
fn number_by_number(answer: &Entry) -> Entry {
    let read = |number: &u16| unsafe { ptr::read_volatile(number) };
    Entry {
        refusal: answer.refusal,
        present: answer.present,
        tag: read(&answer.tag),
        cells: read(&answer.cells),
        offset: read(&answer.offset),
        length: read(&answer.length),
    }
}

pub fn pack_write(
    tags: &[u16],
    cells: &[u16],
    lengths: &[u16],
    bodies: &[u8],
    room: &mut [u8],
) -> Written {
    unsafe {
        khx_pack_write(
            tags.as_ptr(),
            tags.len(),
            cells.as_ptr(),
            cells.len(),
            lengths.as_ptr(),
            lengths.len(),
            bodies.as_ptr(),
            bodies.len(),
            room.as_mut_ptr(),
            room.len(),
        )
    }
}

pub fn report(pack: &[u8], map: &mut [u16], room: &mut [u8]) -> Written {
    unsafe {
        khx_report(
            pack.as_ptr(),
            pack.len(),
            map.as_mut_ptr(),
            map.len(),
            room.as_mut_ptr(),
            room.len(),
        )
    }
}

pub fn admit_start(numbers: &mut [usize]) -> Admitted {
    unsafe { khx_admit_start(numbers.as_mut_ptr(), numbers.len()) }
}

pub fn admit_chunk(
    numbers: &mut [usize],
    chunk: &[u8],
    contents: &mut [u8],
    body: &mut [u8],
    map: &mut [u16],
    verdicts: &mut [u16],
) -> Admitted {
    unsafe {
        khx_admit_chunk(
            numbers.as_mut_ptr(),
            numbers.len(),
            chunk.as_ptr(),
            chunk.len(),
            contents.as_mut_ptr(),
            contents.len(),
            body.as_mut_ptr(),
            body.len(),
            map.as_mut_ptr(),
            map.len(),
            verdicts.as_mut_ptr(),
            verdicts.len(),
        )
    }
}

pub fn admit_close(numbers: &mut [usize]) -> Admitted {
    unsafe { khx_admit_close(numbers.as_mut_ptr(), numbers.len()) }
}

pub fn admit_ask(numbers: &[usize]) -> Admitted {
    unsafe { khx_admit_ask(numbers.as_ptr(), numbers.len()) }
}
