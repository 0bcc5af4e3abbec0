//! Where the numbers of a case come from: a small generator (splitmix64) that
//! begins anew for each case, so that any case can be made again by itself.

/// A repeatable source of varied numbers.
pub struct Source(u64);

/// Numbers at the edges of bytes, of signs and of what is lent.
const EDGES: [u16; 16] = [
    0, 1, 2, 15, 16, 17, 63, 64, 127, 128, 255, 256, 32_767, 32_768, 65_534, 65_535,
];

impl Source {
    /// The source of a case.
    pub fn new(seed: u64, number: u64) -> Source {
        Source(mixed(mixed(seed) ^ number))
    }

    fn next(&mut self) -> u64 {
        self.0 = self.0.wrapping_add(0x9E37_79B9_7F4A_7C15);
        mixed(self.0)
    }

    /// A number from 0 to `limit` - 1.
    pub fn below(&mut self, limit: usize) -> usize {
        (((self.next() >> 32) * limit as u64) >> 32) as usize
    }

    /// A number from the first to the last, both possible.
    pub fn between(&mut self, first: usize, last: usize) -> usize {
        first + self.below(last - first + 1)
    }

    /// True once in so many times.
    pub fn one_in(&mut self, times: usize) -> bool {
        self.below(times) == 0
    }

    /// One of the choices.
    pub fn one_of<T: Copy>(&mut self, choices: &[T]) -> T {
        choices[self.below(choices.len())]
    }

    /// The number, or one just below or above it.
    pub fn near(&mut self, number: usize) -> usize {
        (number + self.below(5)).saturating_sub(2)
    }

    /// A number that is mostly small or at an edge.
    pub fn number(&mut self) -> u16 {
        match self.below(4) {
            0 => self.below(65_536) as u16,
            1 => self.one_of(&EDGES),
            _ => self.below(40) as u16,
        }
    }

    /// Any byte.
    pub fn byte(&mut self) -> u8 {
        (self.next() >> 56) as u8
    }

    /// Any bytes, or all alike, as what is lent often is.
    pub fn bytes(&mut self, count: usize) -> Vec<u8> {
        if self.one_in(3) {
            return vec![self.byte(); count];
        }
        (0..count).map(|_| self.byte()).collect()
    }

    /// Any cells, or all alike.
    pub fn cells(&mut self, count: usize) -> Vec<u16> {
        if self.one_in(3) {
            return vec![self.number(); count];
        }
        (0..count).map(|_| self.number()).collect()
    }
}

fn mixed(number: u64) -> u64 {
    let number = (number ^ (number >> 30)).wrapping_mul(0xBF58_476D_1CE4_E5B9);
    let number = (number ^ (number >> 27)).wrapping_mul(0x94D0_49BB_1331_11EB);
    number ^ (number >> 31)
}

#[cfg(test)]
mod tests {
    use super::*;

    #[test]
    fn all_of_a_range() {
        let mut source = Source::new(1, 2);
        let mut met = [false; 6];
        for _ in 0..200 {
            met[source.between(2, 5)] = true;
        }
        assert_eq!(met, [false, false, true, true, true, true]);
    }

    /// The streams of neighbours are not one stream moved by a number.
    #[test]
    fn neighbours_share_nothing() {
        let first: Vec<u64> = stream(7, 0);
        for (seed, number) in [(7, 1), (8, 0), (6, 1)] {
            let other = stream(seed, number);
            assert!(other.iter().all(|number| !first.contains(number)));
        }
    }

    fn stream(seed: u64, number: u64) -> Vec<u64> {
        let mut source = Source::new(seed, number);
        (0..100).map(|_| source.next()).collect()
    }
}
