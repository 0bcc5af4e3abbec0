//! Packs asked for all their tags.

use khalixoshi::pack::{self, Checked};
use peer::Finder;

use super::case::{Answer, Side, Work};
use super::random::Random;

/// So many tags a call asks for. A list that is much shorter is learnt by a processor even
/// where each pass has another order.
pub const ASKED: u32 = 65_536;

/// In which order a pack is asked for its tags, in passes over all of them.
#[derive(Clone, Copy, Debug, PartialEq, Eq)]
pub enum Order {
    /// Each pass in another one: a processor cannot learn where a scan will end.
    Varied,
    /// Each pass in the pack's own one: a processor learns it.
    Rising,
}

/// What the library is asked by.
#[derive(Clone, Copy)]
pub enum Ours {
    /// One of its functions, at each of its places.
    Copies(&'static Finder),
    /// Its face for Rust. Of that khx has one copy, whatever the place.
    Rust,
}

impl Ours {
    /// As [`Finder::find`].
    fn find(self, place: usize, pack: &[u8], tags: &[u16]) -> [u32; 4] {
        match self {
            Ours::Copies(finder) => finder.find(place, pack, tags),
            Ours::Rust => find_by_rust(pack, tags),
        }
    }
}

/// As [`Finder::find`], of a good pack, by the face for Rust: it is checked once.
fn find_by_rust(pack: &[u8], tags: &[u16]) -> [u32; 4] {
    let pack = Checked::new(pack).expect("the pack is good");
    peer::sums(tags, |tag| match pack.lookup(tag) {
        Ok(entry) => [0, entry.cells, entry.offset, entry.length].map(u32::from),
        Err(error) => [error.number() as u32, 0, 0, 0],
    })
}

/// A pack asked for its tags, one after the other: the library in one of its ways, C by a
/// scan. The pack is only read.
pub struct Tags {
    pack: Vec<u8>,
    asked: Vec<u16>,
    ours: Ours,
}

impl Tags {
    pub fn of(pack: Vec<u8>, order: Order, ours: Ours) -> Tags {
        Tags {
            asked: asked(&pack, order),
            pack,
            ours,
        }
    }
}

impl Work for Tags {
    fn clear(&mut self) {}

    fn call(&mut self, side: Side, place: usize) -> Answer {
        let (pack, tags) = (&self.pack, &self.asked);
        let [refusals, cells, offsets, lengths] = match side.build() {
            Some(build) => build.scanner.find(place, pack, tags),
            None => self.ours.find(place, pack, tags),
        };
        [refusals, cells, offsets, lengths, 0]
    }

    fn memories(&self) -> (Vec<u8>, Vec<u16>) {
        (Vec::new(), Vec::new())
    }
}

/// All tags of a pack over and over.
fn asked(pack: &[u8], order: Order) -> Vec<u16> {
    let entries = pack::entries(pack).expect("the pack is good");
    let mut tags: Vec<u16> = entries.iter().map(|entry| entry.tag).collect();
    let mut random = Random(1);
    let mut asked = Vec::new();
    while asked.len() < ASKED as usize {
        if order == Order::Varied {
            random.shuffle(&mut tags);
        }
        asked.extend(&tags);
    }
    asked
}

#[cfg(test)]
mod tests {
    use super::*;
    use crate::bench::case;

    /// A pack of 4 rules with the tags 0, 3, 6 and 9.
    fn pack() -> Vec<u8> {
        let body = [0x00; 4];
        let rules: Vec<pack::Rule> = (0..4_u16)
            .map(|i| pack::Rule {
                tag: 3 * i,
                cells: 10 + i,
                body: &body[..usize::from(i)],
            })
            .collect();
        pack::build(&rules).unwrap()
    }

    #[test]
    fn each_pass_asks_for_every_tag() {
        let asked = asked(&pack(), Order::Varied);
        assert_eq!(asked.len(), ASKED as usize);
        for pass in asked.chunks(4) {
            let mut tags = pass.to_vec();
            tags.sort_unstable();
            assert_eq!(tags, [0, 3, 6, 9]);
        }
        let repeated = asked.chunks(4).zip(asked[4..].chunks(4));
        let repeated = repeated.filter(|(pass, next)| pass == next).count();
        assert!(repeated < 1_000, "{repeated}");
    }

    #[test]
    fn a_rising_order_is_the_packs_own() {
        let asked = asked(&pack(), Order::Rising);
        assert_eq!(asked, [0, 3, 6, 9].repeat(ASKED as usize / 4));
    }

    #[test]
    fn every_copy_finds_each_tag() {
        for tag in 0..12 {
            let said = match pack::find(&pack(), tag) {
                Ok(entry) => [0, entry.cells, entry.offset, entry.length, 0],
                Err(error) => [error.number() as u16, 0, 0, 0, 0],
            };
            let [find, lookup] = [&peer::FIND, &peer::LOOKUP].map(Ours::Copies);
            for ours in [find, lookup, Ours::Rust] {
                let (pack, asked) = (pack(), vec![tag]);
                let mut work = Tags { pack, asked, ours };
                for side in case::both() {
                    for place in 0..peer::PLACES {
                        assert_eq!(work.call(side, place), said.map(u32::from), "{tag} {side}");
                    }
                }
            }
        }
    }
}
