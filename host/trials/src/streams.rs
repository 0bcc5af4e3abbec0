//! Cases of stream: packs that come in chunks of every kind, with asks between them, with
//! more behind the close, and over size.

use crate::line::Line;
use crate::maker::{Maker, PACK_BYTES};

/// The bytes of the longest pack that comes.
const LONGEST: usize = 150_000;

/// How often the longest chunk goes into a large pack, but for the few that come byte by
/// byte.
const CHUNKS: usize = 60;

impl Maker<'_> {
    /// `stream EVENT..`: one pack in ten is closed too soon, or never.
    pub fn stream(&mut self) -> Line {
        let pack = self.coming_pack();
        let end = match self.source.below(16) {
            0 => self.source.below(pack.len() + 1),
            _ => pack.len(),
        };
        let line = self.chunks(Line::new("stream"), &pack[..end]);
        match self.source.below(48) {
            0 => line.word("ask"),
            1 => line.bytes(&[]),
            _ => self.behind(line.word("close"), &pack[end..]),
        }
    }

    /// A pack of few programs, of many entries, or over size.
    fn coming_pack(&mut self) -> Vec<u8> {
        let (mut pack, _) = match !self.large && self.source.one_in(4) {
            true => self.pack_of_many(),
            false => self.some_pack(),
        };
        if self.source.one_in(60) {
            self.fill_up(&mut pack);
        }
        pack
    }

    /// Puts bytes behind a pack, and often alters its contents: 31 comes first.
    fn fill_up(&mut self, pack: &mut Vec<u8>) {
        let filling = self.source.byte();
        let size = self.size_about_the_most();
        pack.resize(pack.len().max(size), filling);
        match self.source.below(4) {
            0 => self.spoil_count(pack),
            1 => self.spoil_field(pack),
            _ => {}
        }
    }

    /// How long a pack is to be that is filled up: mostly one byte too long, sometimes so
    /// long that in 16 bits it would be small.
    fn size_about_the_most(&mut self) -> usize {
        match self.source.below(8) {
            0 => PACK_BYTES,
            1 => self.source.between(PACK_BYTES, LONGEST),
            2 => 65_536 + self.source.below(600),
            _ => PACK_BYTES + 1,
        }
    }

    /// Some bytes in chunks: in one, in two or three that are cut where a part of a pack
    /// may end, or in many.
    fn chunks(&mut self, line: Line, bytes: &[u8]) -> Line {
        match self.source.below(8) {
            0 => line.bytes(bytes),
            1 | 2 => self.cut_at_parts(line, bytes),
            _ => self.many_chunks(line, bytes),
        }
    }

    /// Cut about the end of the count, of the contents or of the bytes, once or twice.
    fn cut_at_parts(&mut self, line: Line, bytes: &[u8]) -> Line {
        let count = bytes.first().copied().map_or(0, usize::from);
        let mut cuts = [(); 2].map(|_| {
            let end = self.source.one_of(&[2, 2 + 8 * count, bytes.len()]);
            self.source.near(end).min(bytes.len())
        });
        cuts.sort_unstable();
        let (first, rest) = bytes.split_at(cuts[0]);
        let (second, third) = rest.split_at(cuts[1] - cuts[0]);
        line.bytes(first).bytes(second).bytes(third)
    }

    /// In chunks of any lengths up to some, some of them of nothing, with a few asks.
    fn many_chunks(&mut self, mut line: Line, bytes: &[u8]) -> Line {
        let longest = self.longest_chunk(bytes.len());
        let least = self.source.below(2);
        let mut left = bytes;
        while !left.is_empty() {
            let length = self.source.between(least, longest).min(left.len());
            let (chunk, rest) = left.split_at(length);
            line = line.bytes(chunk);
            left = rest;
            if self.source.one_in(32) {
                line = line.word("ask");
            }
        }
        line
    }

    /// How long the chunks of so many bytes are to be at most: often a byte alone.
    fn longest_chunk(&mut self, length: usize) -> usize {
        let longest = self.source.one_of(&[1, 1, 2, 5, 12, 40]);
        match length {
            0..=1_000 => longest,
            1_001..=24_577 if self.source.one_in(12) => longest,
            _ => longest.max(length / CHUNKS),
        }
    }

    /// What comes behind the close, mostly nothing; first, if anything, what was left of
    /// the pack.
    fn behind(&mut self, mut line: Line, rest: &[u8]) -> Line {
        let mut chunk = rest;
        while self.source.one_in(3) {
            line = match self.source.below(4) {
                0 => line.bytes(chunk),
                1 => line.bytes(&[]),
                2 => line.word("close"),
                _ => line.word("ask"),
            };
            chunk = &[0x00];
        }
        line
    }
}
