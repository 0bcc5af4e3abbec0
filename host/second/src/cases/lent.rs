//! A memory that a case lends: what is given of it, repeated to its length.

/// Of g given, place i holds the one given at i modulo g.
#[derive(Clone)]
pub struct Lent<T> {
    pub length: usize,
    pub given: Vec<T>,
}

impl<T: Copy> Lent<T> {
    pub fn whole(given: &[T]) -> Lent<T> {
        Lent::repeated(given, given.len())
    }

    pub fn repeated(given: &[T], length: usize) -> Lent<T> {
        Lent {
            length,
            given: given.to_vec(),
        }
    }

    pub fn memory(&self) -> Vec<T> {
        let repeated = self.given.iter().copied().cycle();
        repeated.take(self.length).collect()
    }
}
