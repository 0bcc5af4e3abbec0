//! Packs checked while they come.

use std::{fmt, io};

use crate::{c, Error, Refused, ENTRIES_MAX, PROGRAM_MAX};

/// The numbers that the library keeps of an admission.
pub(crate) const NUMBERS: usize = 8;
/// The most bytes of a pack's contents: the count, and 8 bytes for each entry.
pub(crate) const CONTENTS_MAX: usize = 2 + 8 * ENTRIES_MAX;
/// The cells of a verdict: tag, refusal, address.
const CELLS: usize = 3;
/// The cells of all verdicts.
pub(crate) const VERDICT_CELLS: usize = CELLS * ENTRIES_MAX;

/// A pack that is checked while it comes: it is fed chunk by chunk, each of any length, and
/// then closed. It is never held whole: its contents are, and one body at a time.
///
/// At the close the pack's own answer is that of [`pack::check`](crate::pack::check) on all
/// the bytes, and each program's verdict that of [`verify`](crate::verify), wherever the
/// pack was cut. A program has a [`provisional`](Admission::provisional) verdict once its last
/// byte is in, but what follows may still refuse the pack, and a refused pack has no verdicts.
/// A pack is good only where [`close`](Admission::close) gave `Ok`: then, and not before, its
/// [`verdicts`](Admission::verdicts) are there. So let no program run before the close.
///
/// ```
/// use khalixoshi::pack::{build, Rule};
/// use khalixoshi::{verdicts, Admission, Answer, Error};
///
/// let pack = build(&[
///     Rule { tag: 7, cells: 2, body: &[0x85, 0x83, 0x15, 0x00] },
///     Rule { tag: 9, cells: 1, body: &[0x81, 0x3C, 0x00] },
/// ])?;
///
/// let mut admission = Admission::new();
/// for chunk in pack.chunks(5) {
///     let known = admission.feed(chunk)?;
///     assert_eq!(admission.provisional().count(), known);
/// }
/// assert_eq!(admission.answer(), Answer::Open);
/// assert!(admission.verdicts().is_none()); // nothing is final
///
/// assert_eq!(admission.close(), Ok(2));
/// let rulings = admission.verdicts().expect("the pack is good");
/// let lines: String = rulings.map(|ruling| format!("{ruling}\n")).collect();
/// assert_eq!(lines, "0007 accepted\n0009 refused 10 at 0001\n");
/// assert_eq!(lines, verdicts(&pack));
///
/// // closed is closed, and the first answer stays
/// assert_eq!(admission.feed(&[]), Err(Error::AdmissionClosed));
/// assert_eq!(admission.close(), Err(Error::AdmissionClosed));
/// assert_eq!(admission.answer(), Answer::Closed(Ok(2)));
/// # Ok::<(), Error>(())
/// ```
///
/// Where the end of a pack is missing, what was said of its programs is withdrawn:
///
/// ```
/// use khalixoshi::{Admission, Error};
///
/// let pack = [2, 0, 7, 0, 0, 0, 18, 0, 1, 0, 9, 0, 0, 0, 19, 0, 1, 0, 0x00, 0x00];
/// let mut admission = Admission::new();
/// assert_eq!(admission.feed(&pack[..19]), Ok(1));
/// assert_eq!(admission.close(), Err(Error::PackEnd));
/// assert_eq!(admission.provisional().count(), 0);
/// assert!(admission.verdicts().is_none());
/// ```
///
/// It is written to as a file is, so what reads from a line can be copied into it. A line may
/// be endless, and behind byte 24,577 nothing changes the answer: take no more of it.
///
/// ```
/// use khalixoshi::{Admission, PACK_MAX};
/// use std::io::{self, Read};
///
/// let line: &[u8] = &[1, 0, 7, 0, 0, 0, 10, 0, 1, 0, 0x00];
/// let mut admission = Admission::new();
/// io::copy(&mut line.take(PACK_MAX as u64 + 1), &mut admission)?;
/// assert_eq!(admission.close(), Ok(1));
/// # Ok::<(), io::Error>(())
/// ```
///
/// It has memory of its own, some 50 KB on the heap.
///
/// There is one of it, and its close counts for it alone: a copy would go on as if the close
/// had not been. This does not compile:
///
/// ```compile_fail,E0599
/// # use khalixoshi::{Admission, Error};
/// let mut admission = Admission::new();
/// admission.feed(&[0, 0])?;
/// let mut other = admission.clone();
/// assert_eq!(other.close(), Ok(0));
/// # Ok::<(), Error>(())
/// ```
///
/// The same lines where it is moved do:
///
/// ```
/// # use khalixoshi::{Admission, Error};
/// let mut admission = Admission::new();
/// admission.feed(&[0, 0])?;
/// let mut other = admission;
/// assert_eq!(other.close(), Ok(0));
/// # Ok::<(), Error>(())
/// ```
pub struct Admission {
    numbers: [usize; NUMBERS],
    contents: Box<[u8]>,
    body: Box<[u8]>,
    map: Box<[u16]>,
    verdicts: Box<[u16]>,
}

/// What an admission says of its pack.
#[derive(Clone, Copy, Debug, PartialEq, Eq, Hash)]
pub enum Answer {
    /// It is not closed: nothing is final.
    Open,
    /// What its first close gave: how many programs the pack has, or what it is refused by.
    Closed(Result<usize, Error>),
}

/// A program's tag and its verdict. It prints as a line of a pack's verdicts.
///
/// ```
/// use khalixoshi::{depths, Ruling};
///
/// let ruling = |tag, program| Ruling { tag, verdict: depths(program, 1).map(|_| ()) };
/// assert_eq!(ruling(7, &[0x00]).to_string(), "0007 accepted");
/// assert_eq!(ruling(256, &[0x81, 0x81]).to_string(), "0100 refused 5 at 0001");
/// ```
#[derive(Clone, Copy, Debug, PartialEq, Eq, Hash)]
pub struct Ruling {
    /// What the program is asked for by.
    pub tag: u16,
    /// Whether it may run with the cells of its entry, as [`verify`](crate::verify) says.
    pub verdict: Result<(), Refused>,
}

impl Admission {
    /// An admission that has begun: no byte has come yet.
    pub fn new() -> Admission {
        let mut admission = Admission {
            numbers: [0; NUMBERS],
            contents: vec![0; CONTENTS_MAX].into_boxed_slice(),
            body: vec![0; PROGRAM_MAX].into_boxed_slice(),
            map: vec![0; PROGRAM_MAX].into_boxed_slice(),
            verdicts: vec![0; VERDICT_CELLS].into_boxed_slice(),
        };
        c::admit_start(&mut admission.numbers);
        admission
    }

    /// Takes the next bytes of the pack, and gives how many programs have their verdict now:
    /// provisional ones. No pack is refused here: that comes with the close, and
    /// [`lost`](Admission::lost) may tell it before. Refusal: 37, of a chunk of no bytes too,
    /// which changes nothing.
    ///
    /// ```
    /// use khalixoshi::Admission;
    ///
    /// let mut admission = Admission::new();
    /// assert_eq!(admission.feed(&[1, 0, 7, 0, 0, 0, 10, 0, 1, 0]), Ok(0));
    /// assert_eq!(admission.feed(&[]), Ok(0));
    /// assert_eq!(admission.feed(&[0x00]), Ok(1));
    /// ```
    pub fn feed(&mut self, chunk: &[u8]) -> Result<usize, Error> {
        answered(&c::admit_chunk(
            &mut self.numbers,
            chunk,
            &mut self.contents,
            &mut self.body,
            &mut self.map,
            &mut self.verdicts,
        ))
    }

    /// Closes it: the pack has come to its end. Gives how many programs it has, and then
    /// alone the pack is good; their [`verdicts`](Admission::verdicts) are final now.
    /// Refusals: 37, which changes nothing; then the pack's own, those of
    /// [`pack::check`](crate::pack::check), by which it is closed as well, without a verdict.
    pub fn close(&mut self) -> Result<usize, Error> {
        answered(&c::admit_close(&mut self.numbers))
    }

    /// What it says of its pack: nothing before the close, and after it what the first
    /// close gave.
    pub fn answer(&self) -> Answer {
        let asked = c::admit_ask(&self.numbers);
        match (asked.closed, asked.refusal) {
            (0, 0) => Answer::Open,
            _ => Answer::Closed(answered(&asked)),
        }
    }

    /// Why the pack is refused whatever follows, where that is known already: by this, or by
    /// 31 if it comes to over [`PACK_MAX`](crate::PACK_MAX) bytes. A host may stop there.
    /// After the close it is what refused the pack, and `None` of a good one.
    ///
    /// ```
    /// use khalixoshi::{Admission, Error};
    ///
    /// let mut admission = Admission::new();
    /// admission.feed(&[65])?;
    /// assert_eq!(admission.lost(), None);
    /// admission.feed(&[0])?; // a pack has at most 64 entries
    /// assert_eq!(admission.lost(), Some(Error::PackContents));
    /// assert_eq!(admission.close(), Err(Error::PackContents));
    /// assert_eq!(admission.lost(), Some(Error::PackContents));
    /// # Ok::<(), Error>(())
    /// ```
    pub fn lost(&self) -> Option<Error> {
        Error::unless_none(c::admit_ask(&self.numbers).lost).err()
    }

    /// The verdicts that are known while it is open, in the pack's order: to be shown, or to
    /// prepare what comes next, but not to go by. There are none after the close.
    pub fn provisional(&self) -> impl Iterator<Item = Ruling> + '_ {
        self.first(match self.answer() {
            Answer::Closed(Ok(_)) => 0,
            // Of a refused pack the library itself tells none.
            _ => c::admit_ask(&self.numbers).verdicts,
        })
    }

    /// The final verdicts, one for each program of a good pack, in the pack's order; `None`
    /// before the close, and where the close refused the pack.
    ///
    /// ```
    /// use khalixoshi::Admission;
    ///
    /// let good = |admission: &Admission| match admission.verdicts() {
    ///     Some(mut rulings) => rulings.all(|ruling| ruling.verdict.is_ok()),
    ///     None => false,
    /// };
    /// let mut admission = Admission::new();
    /// admission.feed(&[1, 0, 7, 0, 0, 0, 10, 0, 1, 0, 0x00])?;
    /// assert!(!good(&admission));
    /// admission.close()?;
    /// assert!(good(&admission));
    /// # Ok::<(), khalixoshi::Error>(())
    /// ```
    pub fn verdicts(&self) -> Option<impl Iterator<Item = Ruling> + '_> {
        match self.answer() {
            Answer::Closed(Ok(programs)) => Some(self.first(programs)),
            _ => None,
        }
    }

    /// The first verdicts, so many.
    fn first(&self, count: usize) -> impl Iterator<Item = Ruling> + '_ {
        self.verdicts.chunks_exact(CELLS).take(count).map(ruling)
    }
}

impl Default for Admission {
    fn default() -> Admission {
        Admission::new()
    }
}

impl fmt::Debug for Admission {
    fn fmt(&self, f: &mut fmt::Formatter<'_>) -> fmt::Result {
        f.debug_struct("Admission")
            .field("answer", &self.answer())
            .field("lost", &self.lost())
            .field("provisional", &self.provisional().count())
            .finish_non_exhaustive()
    }
}

/// Feeds it: every chunk is taken whole. After the close it is an error of the kind `Other`,
/// whose cause is [`Error::AdmissionClosed`].
impl io::Write for Admission {
    fn write(&mut self, chunk: &[u8]) -> io::Result<usize> {
        match self.feed(chunk) {
            Ok(_) => Ok(chunk.len()),
            Err(error) => Err(io::Error::new(io::ErrorKind::Other, error)),
        }
    }

    /// There is nothing to do.
    fn flush(&mut self) -> io::Result<()> {
        Ok(())
    }
}

impl fmt::Display for Ruling {
    fn fmt(&self, f: &mut fmt::Formatter<'_>) -> fmt::Result {
        write!(f, "{:04X} ", self.tag)?;
        match self.verdict {
            Ok(()) => f.write_str("accepted"),
            Err(refused) => refused.in_numbers(f),
        }
    }
}

/// How many verdicts there are, or the refusal.
fn answered(answer: &c::Admitted) -> Result<usize, Error> {
    Error::unless_none(answer.refusal).map(|()| answer.verdicts)
}

/// The verdict in these three cells.
fn ruling(cells: &[u16]) -> Ruling {
    Ruling {
        tag: cells[0],
        verdict: Refused::unless_none(cells[1].into(), cells[2].into()),
    }
}

#[cfg(test)]
mod tests {
    use super::*;

    /// Numbers that no admission has: each a little outside what they may be.
    const DAMAGED: [[usize; NUMBERS]; 12] = [
        [0; NUMBERS],
        [24_578, 2, 0, 0, 0, 0, 0, 0],
        [0, 1, 0, 0, 0, 0, 0, 0],
        [0, 515, 0, 0, 0, 0, 0, 0],
        [600, 514, 65, 0, 0, 0, 0, 0],
        [600, 514, 64, 0, 65, 0, 0, 0],
        [600, 514, 64, 0, 0, 16_385, 0, 0],
        [600, 514, 0, 0, 0, 0, 29, 0],
        [600, 514, 0, 0, 0, 0, 36, 0],
        [600, 514, 64, 0, 1, 0, 30, 0],
        [600, 514, 64, 0, 0, 0, 0, 2],
        [1, 2, 1, 0, 0, 0, 0, 0],
    ];

    /// A chunk of bytes that no memory of `filled` holds.
    const CHUNK: [u8; 3] = [2, 0, 4];

    /// An admission of these numbers, whose memories hold something everywhere.
    fn filled(numbers: [usize; NUMBERS]) -> Admission {
        let bytes = |count| (0..count).map(|at| at as u8 | 1).collect();
        let cells = |count| (0..count).map(|at| at as u16 | 1).collect();
        Admission {
            numbers,
            contents: bytes(CONTENTS_MAX),
            body: bytes(PROGRAM_MAX),
            map: cells(PROGRAM_MAX),
            verdicts: cells(VERDICT_CELLS),
        }
    }

    /// Numbers and memories are those that it was filled with.
    fn is_untouched(admission: &Admission, numbers: [usize; NUMBERS]) -> bool {
        let held = filled(numbers);
        admission.numbers == held.numbers
            && admission.contents == held.contents
            && admission.body == held.body
            && admission.map == held.map
            && admission.verdicts == held.verdicts
    }

    /// It has no answer but its refusal, and nothing is written.
    #[test]
    fn damaged() {
        let damaged = Error::AdmissionDamaged;
        for numbers in DAMAGED {
            let mut admission = filled(numbers);
            assert_eq!(admission.feed(&CHUNK), Err(damaged));
            assert!(is_untouched(&admission, numbers), "fed: {numbers:?}");
            assert_eq!(admission.close(), Err(damaged));
            assert!(is_untouched(&admission, numbers), "closed: {numbers:?}");
            assert_eq!(admission.answer(), Answer::Closed(Err(damaged)));
            assert_eq!(admission.lost(), None);
            assert_eq!(admission.provisional().count(), 0);
            assert!(admission.verdicts().is_none());
            assert!(is_untouched(&admission, numbers), "asked: {numbers:?}");
        }
    }

    /// Each memory by one too short, before anything else is looked at: nothing is written.
    #[test]
    fn short_of_memory() {
        let lengths = [
            NUMBERS,
            CONTENTS_MAX,
            PROGRAM_MAX,
            PROGRAM_MAX,
            VERDICT_CELLS,
        ];
        let begun = Admission::new().numbers;
        for short in 0..=lengths.len() {
            let mut lent = filled(begun);
            let length = |place: usize| lengths[place] - usize::from(place == short);
            let answer = c::admit_chunk(
                &mut lent.numbers[..length(0)],
                &CHUNK,
                &mut lent.contents[..length(1)],
                &mut lent.body[..length(2)],
                &mut lent.map[..length(3)],
                &mut lent.verdicts[..length(4)],
            );
            let enough = short == lengths.len();
            assert_eq!(answer.refusal, if enough { 0 } else { 90 }, "{short}");
            assert_eq!(is_untouched(&lent, begun), !enough, "{short}");
        }
    }

    #[test]
    fn short_of_numbers() {
        let short = [7; NUMBERS - 1];
        let mut numbers = short;
        assert_eq!(c::admit_start(&mut numbers).refusal, 90);
        assert_eq!(numbers, short);
        assert_eq!(c::admit_close(&mut numbers).refusal, 90);
        assert_eq!(numbers, short);
        assert_eq!(c::admit_ask(&numbers).refusal, 90);
        assert_eq!(numbers, short);
    }
}
