//! Rule packs, read and written (01, "Rule pack"), and looked up (request No. 4).

use crate::instruction::low_byte_first;
use crate::numbers::{
    CONTENTS, ENTRY_SIZE, NO_TAG, OFFSET, PACK_BYTES, PACK_END, PACK_ENTRIES, PACK_SIZE,
    PROGRAM_BYTES, ROOM, STACK_CELLS, TAG_ORDER,
};

/// One entry of the contents.
#[derive(Clone, Copy, Debug, PartialEq, Eq)]
pub struct Entry {
    /// What the program is asked for by.
    pub tag: u16,
    /// The stack cells that the program wants.
    pub cells: u16,
    /// Where the program begins in the pack.
    pub offset: u16,
    /// How many bytes the program has.
    pub length: u16,
}

/// The bytes of an entry, and of the count before all entries.
const ENTRY_BYTES: usize = 8;
const COUNT_BYTES: usize = 2;

/// The entries of a pack. 01: "Checks: 31 too long; 30 contents cut, or n over
/// 64; then for each entry 32 tag not above the one before, 35 cells over 1,024
/// or length over 16,384, 33 wrong offset; last 34 bodies don't end at the pack's
/// end."
pub fn entries(pack: &[u8]) -> Result<Vec<Entry>, u32> {
    let entries = unchecked_entries(pack)?;
    let mut end = COUNT_BYTES + ENTRY_BYTES * entries.len();
    let mut before = None;
    for entry in &entries {
        good_entry(before, entry.tag, entry.cells, entry.length)?;
        if usize::from(entry.offset) != end {
            return Err(OFFSET);
        }
        before = Some(entry.tag);
        end += usize::from(entry.length);
    }
    if end != pack.len() {
        return Err(PACK_END);
    }
    Ok(entries)
}

/// The entries as they stand in the contents: 31, 30, and no other check.
fn unchecked_entries(pack: &[u8]) -> Result<Vec<Entry>, u32> {
    if pack.len() > PACK_BYTES {
        return Err(PACK_SIZE);
    }
    contents(pack).ok_or(CONTENTS)
}

/// 01: "All fields u16, low byte first. Contents first: count n (0 to 64), then n
/// entries of tag, cells, offset, length." None where they are cut or too many.
fn contents(pack: &[u8]) -> Option<Vec<Entry>> {
    let count = usize::from(low_byte_first(pack.get(..COUNT_BYTES)?));
    if count > PACK_ENTRIES {
        return None;
    }
    let fields = pack.get(COUNT_BYTES..COUNT_BYTES + ENTRY_BYTES * count)?;
    let entry = |bytes: &[u8]| Entry {
        tag: low_byte_first(&bytes[0..2]),
        cells: low_byte_first(&bytes[2..4]),
        offset: low_byte_first(&bytes[4..6]),
        length: low_byte_first(&bytes[6..8]),
    };
    Some(fields.chunks(ENTRY_BYTES).map(entry).collect())
}

/// The checks 32 and 35 of an entry, after the tag of the one before, if any.
fn good_entry(before: Option<u16>, tag: u16, cells: u16, length: u16) -> Result<(), u32> {
    if before.map_or(false, |before| tag <= before) {
        return Err(TAG_ORDER);
    }
    good_size(cells, length)
}

/// The check 35 of an entry.
fn good_size(cells: u16, length: u16) -> Result<(), u32> {
    if usize::from(cells) > STACK_CELLS || usize::from(length) > PROGRAM_BYTES {
        return Err(ENTRY_SIZE);
    }
    Ok(())
}

/// The entry of a tag and its program, a part of the pack. 01: "Asking for a tag
/// gives the pack's own refusal first, then 36 if the tag is absent."
pub fn find(pack: &[u8], tag: u16) -> Result<(Entry, &[u8]), u32> {
    let entries = entries(pack)?;
    let entry = entries.into_iter().find(|entry| entry.tag == tag);
    let entry = entry.ok_or(NO_TAG)?;
    Ok((entry, program(pack, &entry)))
}

/// The entry of a tag and its program, in a pack that is not checked. Request No. 4:
/// "Find the entry by halving. The same tag gives the same part of the pack, or 36."
/// So much for a good pack. Of any bytes: 31 and 30 as in a check, 36 where there is no
/// entry or the one come to has another tag, then of that one 35, and 34 where its
/// program ends past the pack's end.
pub fn lookup(pack: &[u8], tag: u16) -> Result<(Entry, &[u8]), u32> {
    let entries = unchecked_entries(pack)?;
    let entry = halved(&entries, tag).filter(|entry| entry.tag == tag);
    let entry = entry.ok_or(NO_TAG)?;
    good_size(entry.cells, entry.length)?;
    if usize::from(entry.offset) + usize::from(entry.length) > pack.len() {
        return Err(PACK_END);
    }
    Ok((entry, program(pack, &entry)))
}

/// The entry that halving comes to. It begins at the first one, which it is where there
/// is no other. Else `width` is the greatest power of two below their count. Where entry
/// number `width` has a tag not above the one sought, it goes to the first of the last
/// `width` entries; then further by half of that, and half again, down to 1, wherever
/// the entry it would go to has such a tag.
fn halved(entries: &[Entry], tag: u16) -> Option<Entry> {
    let count = entries.len();
    let below = |power: &usize| *power < count;
    let mut at = 0;
    if let Some(mut width) = [32, 16, 8, 4, 2, 1].into_iter().find(below) {
        if entries[width].tag <= tag {
            at = count - width;
        }
        while width > 1 {
            width /= 2;
            if entries[at + width].tag <= tag {
                at += width;
            }
        }
    }
    entries.get(at).copied()
}

/// The program of an entry that is inside its pack.
pub fn program<'a>(pack: &'a [u8], entry: &Entry) -> &'a [u8] {
    let start = usize::from(entry.offset);
    &pack[start..start + usize::from(entry.length)]
}

/// Writes a pack at the beginning of the room and gives its length. 01: "The
/// writer takes tags, cells and lengths, with the bodies end to end; it gives 30
/// (n over 64, or lists of unlike length), 32, 35, 34, 31, 25, the entries in
/// order as above, and on any refusal writes nothing."
pub fn write(
    tags: &[u16],
    cells: &[u16],
    lengths: &[u16],
    bodies: &[u8],
    room: &mut [u8],
) -> Result<usize, u32> {
    let count = tags.len();
    if count > PACK_ENTRIES || cells.len() != count || lengths.len() != count {
        return Err(CONTENTS);
    }
    let mut before = None;
    for entry in 0..count {
        good_entry(before, tags[entry], cells[entry], lengths[entry])?;
        before = Some(tags[entry]);
    }
    if lengths.iter().copied().map(usize::from).sum::<usize>() != bodies.len() {
        return Err(PACK_END);
    }
    let mut offset = COUNT_BYTES + ENTRY_BYTES * count;
    if offset + bodies.len() > PACK_BYTES {
        return Err(PACK_SIZE);
    }
    let mut pack = (count as u16).to_le_bytes().to_vec();
    for entry in 0..count {
        for field in [tags[entry], cells[entry], offset as u16, lengths[entry]] {
            pack.extend(field.to_le_bytes());
        }
        offset += usize::from(lengths[entry]);
    }
    pack.extend(bodies);
    let place = room.get_mut(..pack.len()).ok_or(ROOM)?;
    place.copy_from_slice(&pack);
    Ok(pack.len())
}

#[cfg(test)]
mod tests;
