//! Draws that several lists of cases make.

use crate::random::Random;

impl Random {
    /// Up to `end`, itself left out.
    pub fn below(&mut self, end: u64) -> u64 {
        self.next() % end
    }

    pub fn one_of<T: Copy>(&mut self, all: &[T]) -> T {
        all[self.below(all.len() as u64) as usize]
    }
}
