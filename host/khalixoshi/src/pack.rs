//! Rule packs: checked, their entries by index and by tag, written.
//!
//! A host that asks one pack for many tags checks it once ([`Checked`]) and looks them
//! up; [`find`] takes any bytes, and checks all of them at each call.

use crate::{c, Error, PACK_MAX};

/// An entry of a pack.
#[derive(Clone, Copy, Debug, PartialEq, Eq, Hash)]
pub struct Entry {
    /// What the rule is asked for by.
    pub tag: u16,
    /// The stack cells that it runs with.
    pub cells: u16,
    /// Where its body begins in the pack.
    pub offset: u16,
    /// How many bytes its body has.
    pub length: u16,
}

/// A rule as it goes into a pack and comes out of one.
#[derive(Clone, Copy, Debug, PartialEq, Eq)]
pub struct Rule<'a> {
    /// What it is asked for by.
    pub tag: u16,
    /// The stack cells that it runs with.
    pub cells: u16,
    /// Its program.
    pub body: &'a [u8],
}

/// Checks a whole pack, and gives its count of entries. Refusals: 31, 30, then entry
/// by entry 32, 35, 33, and last 34.
///
/// ```
/// use khalixoshi::{pack, Error};
///
/// assert_eq!(pack::check(&[0, 0]), Ok(0));
/// assert_eq!(pack::check(&[0]), Err(Error::PackContents));
/// ```
pub fn check(pack: &[u8]) -> Result<usize, Error> {
    let checked = c::pack_check(pack);
    Error::unless_none(checked.refusal).map(|()| checked.entries)
}

/// All entries of a pack, in order. Refusals: those of [`check`].
///
/// ```
/// use khalixoshi::pack::{build, entries, Rule};
///
/// let rules = [
///     Rule { tag: 3, cells: 0, body: &[0x00] },
///     Rule { tag: 7, cells: 2, body: &[0x85, 0x83, 0x15, 0x00] },
/// ];
/// let offsets: Vec<u16> = entries(&build(&rules)?)?.iter().map(|entry| entry.offset).collect();
/// assert_eq!(offsets, [18, 19]);
/// # Ok::<(), khalixoshi::Error>(())
/// ```
pub fn entries(pack: &[u8]) -> Result<Vec<Entry>, Error> {
    let mut entries = Vec::with_capacity(check(pack)?);
    while let Some(next) = entry(pack, entries.len())? {
        entries.push(next);
    }
    Ok(entries)
}

/// The entry at an index, the first being 0; none past the last. Refusals: those of
/// [`check`].
///
/// ```
/// use khalixoshi::pack;
///
/// let bytes = [1, 0, 7, 0, 2, 0, 10, 0, 4, 0, 0x85, 0x83, 0x15, 0x00];
/// assert_eq!(pack::entry(&bytes, 0)?.map(|entry| entry.tag), Some(7));
/// assert_eq!(pack::entry(&bytes, 1)?, None);
/// # Ok::<(), khalixoshi::Error>(())
/// ```
pub fn entry(pack: &[u8], index: usize) -> Result<Option<Entry>, Error> {
    let found = c::pack_entry(pack, index);
    Error::unless_none(found.refusal)?;
    Ok((found.present == 1).then(|| Entry::of(&found)))
}

/// The entry with a tag, of any bytes: the whole pack is checked at each call. Refusals:
/// those of [`check`], then 36.
///
/// ```
/// use khalixoshi::{pack, Error};
///
/// let bytes = [1, 0, 7, 0, 2, 0, 10, 0, 4, 0, 0x85, 0x83, 0x15, 0x00];
/// assert_eq!(pack::find(&bytes, 7)?.cells, 2);
/// assert_eq!(pack::find(&bytes, 8), Err(Error::PackAbsent));
/// # Ok::<(), Error>(())
/// ```
#[inline]
pub fn find(pack: &[u8], tag: u16) -> Result<Entry, Error> {
    Entry::found(&c::pack_find(pack, tag))
}

/// The entry with a tag, found by halving, of bytes that nobody has checked: use
/// [`Checked`], unless you keep the proof yourself that [`check`] accepted these very bytes
/// and that they have not changed since. Of such a pack this answers what [`find`] does.
///
/// It has an answer for any other bytes too, and is safe. But an entry may come that is in
/// no good pack, or 36 though they have the tag: it says that the one entry come to has
/// another. So much holds of an entry that comes: it has the tag asked for, at most 1,024
/// cells and 16,384 bytes, and they are inside the bytes. Refusals: 31, 30, 36, 35, and
/// 34 where its body ends past their end; they do not stand in for the check.
///
/// ```
/// use khalixoshi::{pack, Error};
///
/// let mut bytes = [1, 0, 7, 0, 2, 0, 10, 0, 4, 0, 0x85, 0x83, 0x15, 0x00];
/// assert_eq!(pack::check(&bytes), Ok(1));
/// assert_eq!(pack::lookup_unchecked(&bytes, 7), pack::find(&bytes, 7));
/// assert_eq!(pack::lookup_unchecked(&bytes, 8), Err(Error::PackAbsent));
///
/// bytes[8] = 3; // one byte of the body less, and the pack is none any more
/// assert_eq!(pack::find(&bytes, 7), Err(Error::PackEnd));
/// assert_eq!(pack::lookup_unchecked(&bytes, 7)?.length, 3);
/// # Ok::<(), Error>(())
/// ```
#[inline]
pub fn lookup_unchecked(pack: &[u8], tag: u16) -> Result<Entry, Error> {
    Entry::found(&c::pack_lookup(pack, tag))
}

/// A pack that was checked: its rules are looked up by their tags, as often as they are
/// needed, without another check. The bytes are borrowed, so they stay what they were.
///
/// ```
/// use khalixoshi::pack::{build, Checked, Rule};
/// use khalixoshi::Error;
///
/// let body = [0x85, 0x83, 0x15, 0x00];
/// let rules = [3, 7, 9].map(|tag| Rule { tag, cells: 2, body: &body });
/// let bytes = build(&rules)?;
///
/// let pack = Checked::new(&bytes)?;
/// assert_eq!(pack.count(), 3);
/// for rule in rules {
///     assert_eq!(pack.rule(rule.tag), Ok(rule));
/// }
/// assert_eq!(pack.rule(8), Err(Error::PackAbsent));
///
/// // the last byte is missing
/// let cut = &bytes[..bytes.len() - 1];
/// assert_eq!(Checked::new(cut), Err(Error::PackEnd));
/// # Ok::<(), Error>(())
/// ```
///
/// As long as it is used nobody can change a byte. This does not compile:
///
/// ```compile_fail,E0506
/// # use khalixoshi::{pack::Checked, Error};
/// let mut bytes = [0, 0];
/// let pack = Checked::new(&bytes)?;
/// bytes[0] = 1;
/// assert_eq!(pack.lookup(7), Err(Error::PackAbsent));
/// # Ok::<(), Error>(())
/// ```
///
/// The same lines with the write behind the last use do:
///
/// ```
/// # use khalixoshi::{pack::Checked, Error};
/// let mut bytes = [0, 0];
/// let pack = Checked::new(&bytes)?;
/// assert_eq!(pack.lookup(7), Err(Error::PackAbsent));
/// bytes[0] = 1;
/// # Ok::<(), Error>(())
/// ```
#[derive(Clone, Copy, Debug, PartialEq, Eq)]
pub struct Checked<'a> {
    bytes: &'a [u8],
    count: usize,
}

impl<'a> Checked<'a> {
    /// Checks a whole pack. Refusals: those of [`check`].
    pub fn new(pack: &'a [u8]) -> Result<Checked<'a>, Error> {
        let count = check(pack)?;
        Ok(Checked { bytes: pack, count })
    }

    /// How many rules it has.
    #[inline]
    pub fn count(&self) -> usize {
        self.count
    }

    /// The entry with a tag. Refusal: 36.
    #[inline]
    pub fn lookup(&self, tag: u16) -> Result<Entry, Error> {
        lookup_unchecked(self.bytes, tag)
    }

    /// The rule with a tag, its body a part of the pack. Refusal: 36.
    #[inline]
    pub fn rule(&self, tag: u16) -> Result<Rule<'a>, Error> {
        let entry = self.lookup(tag)?;
        Ok(Rule {
            tag,
            cells: entry.cells,
            body: body(self.bytes, &entry),
        })
    }
}

/// The body of an entry: the part of the pack that it names, as far as the pack
/// goes.
///
/// ```
/// use khalixoshi::pack;
///
/// let bytes = [1, 0, 7, 0, 2, 0, 10, 0, 4, 0, 0x85, 0x83, 0x15, 0x00];
/// let entry = pack::find(&bytes, 7)?;
/// assert_eq!(pack::body(&bytes, &entry), [0x85, 0x83, 0x15, 0x00]);
/// assert_eq!(pack::body(&bytes[..12], &entry), [0x85, 0x83]);
/// # Ok::<(), khalixoshi::Error>(())
/// ```
#[inline]
pub fn body<'a>(pack: &'a [u8], entry: &Entry) -> &'a [u8] {
    let from = pack.get(entry.offset.into()..).unwrap_or_default();
    &from[..from.len().min(entry.length.into())]
}

/// Writes a pack at the start of a room from the tags, cells and lengths of its
/// entries and their bodies end to end, and gives its length; [`PACK_MAX`] bytes of
/// room are enough. Refusals: 30, 32, 35, 34, 31, 25, which leave the room as it was.
///
/// ```
/// use khalixoshi::{pack, Error};
///
/// let mut room = [0; 16];
/// assert_eq!(pack::write(&[7], &[2], &[1], &[0x00], &mut room), Ok(11));
/// assert_eq!(room[..11], [1, 0, 7, 0, 2, 0, 10, 0, 1, 0, 0x00]);
/// assert_eq!(pack::write(&[7], &[2], &[2], &[0x00], &mut room), Err(Error::PackEnd));
/// ```
pub fn write(
    tags: &[u16],
    cells: &[u16],
    lengths: &[u16],
    bodies: &[u8],
    room: &mut [u8],
) -> Result<usize, Error> {
    let written = c::pack_write(tags, cells, lengths, bodies, room);
    Error::unless_none(written.refusal).map(|()| written.length)
}

/// The pack of some rules, whose tags ascend. Refusals: 30, 32, 35, 31.
///
/// ```
/// use khalixoshi::pack::{build, check, Rule};
/// use khalixoshi::Error;
///
/// let rule = Rule { tag: 7, cells: 2, body: &[0x00] };
/// assert_eq!(check(&build(&[rule])?), Ok(1));
/// assert_eq!(build(&[rule, rule]), Err(Error::PackTags));
/// # Ok::<(), Error>(())
/// ```
pub fn build(rules: &[Rule]) -> Result<Vec<u8>, Error> {
    let tags: Vec<u16> = rules.iter().map(|rule| rule.tag).collect();
    let cells: Vec<u16> = rules.iter().map(|rule| rule.cells).collect();
    // A length that no u16 holds is over 16,384 as the largest u16 is: 35 either way.
    let length = |rule: &Rule| u16::try_from(rule.body.len()).unwrap_or(u16::MAX);
    let lengths: Vec<u16> = rules.iter().map(length).collect();
    let bodies: Vec<u8> = rules.iter().flat_map(|rule| rule.body).copied().collect();
    let mut room = vec![0; PACK_MAX];
    let length = write(&tags, &cells, &lengths, &bodies, &mut room)?;
    room.truncate(length);
    Ok(room)
}

impl Entry {
    /// The entry that was asked for by its tag, or the refusal.
    #[inline]
    fn found(answer: &c::Entry) -> Result<Entry, Error> {
        Error::unless_none(answer.refusal).map(|()| Entry::of(answer))
    }

    #[inline]
    fn of(plain: &c::Entry) -> Entry {
        Entry {
            tag: plain.tag,
            cells: plain.cells,
            offset: plain.offset,
            length: plain.length,
        }
    }
}
