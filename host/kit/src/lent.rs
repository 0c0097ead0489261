//! Lent buffers that notice every write, for the tests: guards before and behind, all in a pattern.

const GUARD: usize = 40;

/// A buffer to lend, between two guards.
#[derive(Clone, Debug, PartialEq)]
pub struct Lent<T> {
    entries: Vec<T>,
}

/// The entries of a fresh buffer. They come round after 251, a prime: what is copied within
/// the buffer by whole records or blocks shows, too.
fn pattern<T: From<u8>>(index: usize) -> T {
    T::from((index * 37 % 251) as u8 ^ 0xA5)
}

impl<T: Copy + From<u8> + PartialEq> Lent<T> {
    pub fn of_length(length: usize) -> Lent<T> {
        Lent { entries: (0..GUARD + length + GUARD).map(pattern).collect() }
    }

    pub fn slice(&mut self) -> &mut [T] {
        let end = self.entries.len() - GUARD;
        &mut self.entries[GUARD..end]
    }

    /// Whether everything from `output` entries on, and the guards, are still the pattern.
    pub fn stayed_past(&self, output: usize) -> bool {
        let stayed = |index: usize| self.entries[index] == pattern(index);
        (0..GUARD).all(stayed) && (GUARD + output..self.entries.len()).all(stayed)
    }
}
