//! Cases of lookup: packs of any number of entries, well formed, and such as only a
//! check would refuse.

use std::collections::BTreeSet;

use crate::damage::damage;
use crate::line::Line;
use crate::maker::{Maker, PACK_ENTRIES, PROGRAM_BYTES, STACK_CELLS};

/// An entry as it stands in the contents: tag, cells, offset, length.
type Fields = [u16; 4];

/// What a pack is laid out from: its entries, and the bytes behind them.
struct Parts {
    entries: Vec<Fields>,
    bodies: Vec<u8>,
}

impl Maker<'_> {
    /// `lookup PACK TAG`: about half of the packs are well formed.
    pub fn lookup(&mut self) -> Line {
        let (pack, tags) = match self.large || self.source.one_in(4) {
            true => self.some_pack(),
            false => self.pack_of_many(),
        };
        let tag = self.tag_near(&tags);
        Line::new("lookup").bytes(&pack).number(tag)
    }

    /// A pack of any number of entries, and the tags to ask it for: all of its own, or
    /// that of the entry which is spoiled.
    pub fn pack_of_many(&mut self) -> (Vec<u8>, Vec<u16>) {
        let mut parts = self.parts();
        let mut tags = parts.tags();
        let spoiled = self.source.below(12);
        match spoiled {
            0 | 1 => self.disorder(&mut parts.entries),
            2 | 3 => tags = self.spoil_entry(&mut parts),
            _ => {}
        }
        let mut pack = parts.pack();
        match spoiled {
            4 => pack.truncate(self.source.below(pack.len())),
            5 => self.spoil_count(&mut pack),
            6 => damage(&mut self.source, &mut pack),
            _ => {}
        }
        (pack, tags)
    }

    /// Those of a good pack, with small bodies, or none at all.
    fn parts(&mut self) -> Parts {
        let count = self.source.between(0, PACK_ENTRIES);
        let start = 2 + 8 * count;
        let longest = self.source.below(4);
        let mut end = start as u16;
        let mut entries = Vec::new();
        for tag in self.ascending(count) {
            let cells = self.source.between(0, STACK_CELLS) as u16;
            let length = self.source.between(0, longest) as u16;
            entries.push([tag, cells, end, length]);
            end += length;
        }
        let bodies = self.source.bytes(usize::from(end) - start);
        Parts { entries, bodies }
    }

    /// So many tags, one behind the other, or mostly small and at the ends.
    fn ascending(&mut self, count: usize) -> BTreeSet<u16> {
        let first = self.source.number();
        if self.source.one_in(3) && count <= usize::from(u16::MAX - first) {
            return (first..).take(count).collect();
        }
        let mut tags = BTreeSet::new();
        while tags.len() < count {
            tags.insert(self.source.number());
        }
        tags
    }

    /// Puts entries out of order, all or some, or gives each one of a few tags.
    fn disorder(&mut self, entries: &mut [Fields]) {
        match self.source.below(3) {
            0 => entries.reverse(),
            1 => {
                for place in 0..entries.len() {
                    let other = self.source.near(place).min(entries.len() - 1);
                    entries.swap(place, other);
                }
            }
            _ => {
                let tags = self.source.between(1, 8);
                for entry in entries {
                    entry[0] = self.source.below(tags) as u16;
                }
            }
        }
    }

    /// Puts a number of one entry about its limit, or its body about the pack's end or
    /// where 16 bits end, and gives its tag, if there is an entry.
    fn spoil_entry(&mut self, parts: &mut Parts) -> Vec<u16> {
        let size = parts.pack().len();
        let place = self.source.below(parts.entries.len().max(1));
        let entry = match parts.entries.get_mut(place) {
            Some(entry) => entry,
            None => return Vec::new(),
        };
        match self.source.below(5) {
            0 => entry[1] = self.at_limit(STACK_CELLS) as u16,
            1 => entry[3] = self.at_limit(PROGRAM_BYTES) as u16,
            2 => entry[2] = self.source.near(size - usize::from(entry[3])) as u16,
            3 => entry[2] = entry[3].wrapping_neg(),
            _ => entry[self.source.between(1, 3)] = self.source.number(),
        }
        vec![entry[0]]
    }

    /// Gives a pack a count that is not its own: near it, near the most, or any.
    pub fn spoil_count(&mut self, pack: &mut [u8]) {
        let own = usize::from(pack[0]);
        let count = match self.source.below(3) {
            0 => self.source.near(own) as u16,
            1 => self.source.near(PACK_ENTRIES) as u16,
            _ => self.source.number(),
        };
        pack[..2].copy_from_slice(&count.to_le_bytes());
    }
}

impl Parts {
    fn tags(&self) -> Vec<u16> {
        self.entries.iter().map(|entry| entry[0]).collect()
    }

    /// The pack, whether it is good or not.
    fn pack(&self) -> Vec<u8> {
        let count = self.entries.len() as u16;
        let fields = self.entries.concat().into_iter();
        let contents = [count].into_iter().chain(fields);
        let mut pack: Vec<u8> = contents.flat_map(u16::to_le_bytes).collect();
        pack.extend(&self.bodies);
        pack
    }
}
