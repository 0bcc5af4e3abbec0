//! A pack admitted in chunks, and the report on the whole of it: both are the library's alone.

use khalixoshi::{ENTRIES_MAX, PROGRAM_MAX};

use super::{Copies, Proved, Said};

/// How an admission stands; whether it is closed or lost is not looked at here.
#[repr(C)]
pub struct Admitted {
    refusal: usize,
    _closed: usize,
    verdicts: usize,
    _lost: usize,
}

/// What starts an admission, and what closes it.
pub type AdmitNumbers = unsafe extern "C" fn(*mut usize, usize) -> Admitted;
/// Takes a chunk, over numbers, contents, body, map and verdicts.
pub type AdmitChunk = unsafe extern "C" fn(
    *mut usize,
    usize,
    *const u8,
    usize,
    *mut u8,
    usize,
    *mut u8,
    usize,
    *mut u16,
    usize,
    *mut u16,
    usize,
) -> Admitted;
/// The report on a pack over a map, into a room.
pub type Report =
    unsafe extern "C" fn(*const u8, usize, *mut u16, usize, *mut u8, usize) -> Said<Proved>;

/// The memories of an admission.
pub struct Memories {
    numbers: [usize; 8],
    contents: [u8; 2 + 8 * ENTRIES_MAX],
    body: [u8; PROGRAM_MAX],
    map: [u16; PROGRAM_MAX],
    /// A tag, a refusal and an address for each program.
    pub verdicts: [u16; 3 * ENTRIES_MAX],
}

impl Memories {
    /// As they are before the first start.
    pub fn new() -> Memories {
        Memories {
            numbers: [0; 8],
            contents: [0; 2 + 8 * ENTRIES_MAX],
            body: [0; PROGRAM_MAX],
            map: [0; PROGRAM_MAX],
            verdicts: [0; 3 * ENTRIES_MAX],
        }
    }
}

impl Default for Memories {
    fn default() -> Memories {
        Memories::new()
    }
}

/// The admission: its start, its chunks and its close.
pub struct Admitter {
    pub(crate) start: Copies<AdmitNumbers>,
    pub(crate) chunk: Copies<AdmitChunk>,
    pub(crate) close: Copies<AdmitNumbers>,
}

impl Admitter {
    /// Admits a pack in chunks of so many bytes: the refusal, and how many verdicts there are.
    pub fn admit(&self, place: usize, pack: &[u8], chunk: usize, over: &mut Memories) -> [u32; 2] {
        let Memories {
            numbers,
            contents,
            body,
            map,
            verdicts,
        } = over;
        let all = numbers.len();
        // SAFETY: each pointer is a slice's own, with its length, in this and the other calls.
        unsafe { (self.start[place])(numbers.as_mut_ptr(), all) };
        for chunk in pack.chunks(chunk) {
            unsafe {
                (self.chunk[place])(
                    numbers.as_mut_ptr(),
                    all,
                    chunk.as_ptr(),
                    chunk.len(),
                    contents.as_mut_ptr(),
                    contents.len(),
                    body.as_mut_ptr(),
                    body.len(),
                    map.as_mut_ptr(),
                    map.len(),
                    verdicts.as_mut_ptr(),
                    verdicts.len(),
                )
            };
        }
        let closed = unsafe { (self.close[place])(numbers.as_mut_ptr(), all) };
        [closed.refusal, closed.verdicts].map(|number| number as u32)
    }
}

/// The report on a whole pack.
pub struct Reporter(pub(crate) Copies<Report>);

impl Reporter {
    /// Writes a report into a room: the refusal, and its length.
    pub fn report(&self, place: usize, pack: &[u8], map: &mut [u16], room: &mut [u8]) -> [u32; 2] {
        let (pack, length) = (pack.as_ptr(), pack.len());
        let (map, map_length) = (map.as_mut_ptr(), map.len());
        let (room, room_length) = (room.as_mut_ptr(), room.len());
        // SAFETY: each pointer is a slice's own, with its length.
        let said = unsafe { (self.0[place])(pack, length, map, map_length, room, room_length) };
        said.numbers()
    }
}
