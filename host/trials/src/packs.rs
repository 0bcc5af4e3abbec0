//! Cases of pack, find, report and writepack.

use crate::damage::damage;
use crate::line::Line;
use crate::maker::{Maker, PACK_BYTES, PACK_ENTRIES, PROGRAM_BYTES, STACK_CELLS};

/// What a pack is made of: lists as the writer takes them.
#[derive(Default)]
struct Rules {
    tags: Vec<u16>,
    cells: Vec<u16>,
    lengths: Vec<u16>,
    bodies: Vec<u8>,
}

impl Maker<'_> {
    /// `pack PACK`.
    pub fn pack(&mut self) -> Line {
        let (pack, _) = self.some_pack();
        Line::new("pack").bytes(&pack)
    }

    /// `find PACK TAG`.
    pub fn find(&mut self) -> Line {
        let (pack, tags) = self.some_pack();
        let tag = self.tag_near(&tags);
        Line::new("find").bytes(&pack).number(tag)
    }

    /// One of the tags, one beside it, or any.
    pub fn tag_near(&mut self, tags: &[u16]) -> u16 {
        let tag = match tags.len() {
            0 => self.source.number(),
            _ => self.source.one_of(tags),
        };
        match self.source.below(8) {
            0 => self.source.number(),
            1 => tag.wrapping_add(1),
            2 => tag.wrapping_sub(1),
            _ => tag,
        }
    }

    /// `report PACK`.
    pub fn report(&mut self) -> Line {
        let (pack, _) = self.some_pack();
        Line::new("report").bytes(&pack)
    }

    /// `writepack TAGS CELLS LENGTHS BODIES ROOM`.
    pub fn writepack(&mut self) -> Line {
        let mut rules = self.rules();
        if self.source.one_in(3) {
            self.spoil_rules(&mut rules);
        }
        let room = self.room_for(2 + 8 * rules.tags.len() + rules.bodies.len());
        Line::new("writepack")
            .cells(&rules.tags)
            .cells(&rules.cells)
            .cells(&rules.lengths)
            .bytes(&rules.bodies)
            .bytes(&room)
    }

    /// A pack and its tags: two in three well formed.
    pub fn some_pack(&mut self) -> (Vec<u8>, Vec<u16>) {
        let mut rules = self.rules();
        let spoiled = self.source.below(6);
        if spoiled == 0 {
            self.spoil_rules(&mut rules);
        }
        let mut pack = rules.pack();
        match spoiled {
            1 => damage(&mut self.source, &mut pack),
            2 => self.spoil_field(&mut pack),
            _ => {}
        }
        (pack, rules.tags)
    }

    /// Lists that make a good pack, up to the limits where the case is large.
    fn rules(&mut self) -> Rules {
        let mut rules = Rules::default();
        let count = match self.large || self.source.one_in(100) {
            true => self.at_limit(PACK_ENTRIES).min(PACK_ENTRIES),
            false => self.source.below(5),
        };
        let large = std::mem::take(&mut self.large);
        let mut tag = self.source.number() % 2_000;
        for _ in 0..count {
            self.rule(tag, &mut rules);
            tag += 1 + self.source.number() % 900;
        }
        self.large = large;
        if large && count > 0 {
            self.fill(&mut rules);
        }
        rules
    }

    /// One more rule: a small program.
    fn rule(&mut self, tag: u16, rules: &mut Rules) {
        let program = self.program(8);
        rules.tags.push(tag);
        rules.cells.push(match self.source.below(16) {
            0 => self.source.one_of(&[0, STACK_CELLS as u16]),
            _ => (program.deepest + self.source.below(2)) as u16,
        });
        rules.lengths.push(program.bytes.len() as u16);
        rules.bodies.extend(program.bytes);
    }

    /// Lengthens the last body to the longest program, and the one before until
    /// the pack has its largest size, each sometimes by one byte less or more.
    fn fill(&mut self, rules: &mut Rules) {
        let target = self.at_limit(PACK_BYTES);
        let rest = target.saturating_sub(2 + 8 * rules.tags.len() + rules.bodies.len());
        let last = rules.lengths.len() - 1;
        let longest = self.at_limit(PROGRAM_BYTES);
        let more = rest.min(longest - usize::from(rules.lengths[last]));
        self.lengthen(rules, last, more);
        let before = last.saturating_sub(1);
        self.lengthen(rules, before, rest - more);
    }

    /// Puts more bytes behind a body.
    fn lengthen(&mut self, rules: &mut Rules, place: usize, more: usize) {
        let end: usize = rules.lengths[..=place]
            .iter()
            .copied()
            .map(usize::from)
            .sum();
        let filling = vec![self.source.one_of(&[0x80, 0x00]); more];
        rules.bodies.splice(end..end, filling);
        rules.lengths[place] += more as u16;
    }

    /// Alters one thing in the lists.
    fn spoil_rules(&mut self, rules: &mut Rules) {
        let place = self.source.below(rules.tags.len().max(1));
        let number = self.source.number();
        match self.source.below(12) {
            0 => set(&mut rules.cells, place, STACK_CELLS as u16 + 1),
            1 => set(&mut rules.cells, place, number),
            2 => set(&mut rules.lengths, place, PROGRAM_BYTES as u16 + 1),
            3 => set(&mut rules.lengths, place, number),
            4 => rules.tags.reverse(),
            5 => {
                let other = self.source.below(rules.tags.len().max(1));
                let tag = rules.tags.get(other).copied().unwrap_or(0);
                set(&mut rules.tags, place, tag);
            }
            6 => damage(&mut self.source, &mut rules.bodies),
            7 => rules.lengths.push(0),
            8 => {
                let list = self.source.below(3);
                [&mut rules.tags, &mut rules.cells, &mut rules.lengths][list].pop();
            }
            9 => *rules = too_many(),
            10 => set(&mut rules.tags, place, number),
            _ => wrap(rules),
        }
    }

    /// Alters one of the fields of a pack, by one or altogether.
    pub fn spoil_field(&mut self, pack: &mut [u8]) {
        let contents = pack.len().min(2 + 8 * PACK_ENTRIES);
        let field = self.source.below(contents / 2) * 2;
        let old = u16::from_le_bytes([pack[field], pack[field + 1]]);
        let new = match self.source.below(3) {
            0 => old.wrapping_add(1),
            1 => old.wrapping_sub(1),
            _ => self.source.number(),
        };
        pack[field..field + 2].copy_from_slice(&new.to_le_bytes());
    }
}

impl Rules {
    /// The pack of the rules, whether it is good or not.
    fn pack(&self) -> Vec<u8> {
        let mut pack = Vec::new();
        let mut field = |number: usize| pack.extend((number as u16).to_le_bytes());
        let mut offset = 2 + 8 * self.tags.len();
        field(self.tags.len());
        for (place, &tag) in self.tags.iter().enumerate() {
            let length = self.lengths.get(place).copied().unwrap_or(0);
            field(tag.into());
            field(self.cells.get(place).copied().unwrap_or(0).into());
            field(offset);
            field(length.into());
            offset += usize::from(length);
        }
        pack.extend(&self.bodies);
        pack
    }
}

/// One rule more than a pack holds, each without a body.
fn too_many() -> Rules {
    let count = PACK_ENTRIES + 1;
    Rules {
        tags: (0..count as u16).collect(),
        cells: vec![0; count],
        lengths: vec![0; count],
        bodies: Vec::new(),
    }
}

/// Puts four of the longest programs first, whose lengths add up to 65,536, and
/// whose bodies are not there: where sums wrap, all is as before.
fn wrap(rules: &mut Rules) {
    rules.tags.iter_mut().for_each(|tag| *tag += 4);
    rules.tags.splice(..0, 0..4);
    rules.cells.splice(..0, [0; 4]);
    rules.lengths.splice(..0, [PROGRAM_BYTES as u16; 4]);
}

fn set(list: &mut [u16], place: usize, number: u16) {
    if let Some(item) = list.get_mut(place) {
        *item = number;
    }
}
