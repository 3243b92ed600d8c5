//! A generator of numbers for cases and requests that look random and are always the same.

/// The generator; the number that it starts with decides all that follow.
pub(crate) struct Numbers(pub(crate) u64);

impl Numbers {
    /// A number below a limit.
    pub(crate) fn below(&mut self, limit: usize) -> usize {
        self.0 = self.0.wrapping_mul(6_364_136_223_846_793_005).wrapping_add(1);
        (self.0 >> 33) as usize % limit
    }

    /// A word.
    pub(crate) fn word(&mut self) -> u16 {
        self.below(0x1_0000) as u16
    }

    /// One of some words.
    pub(crate) fn one_of(&mut self, words: &[u16]) -> u16 {
        words[self.below(words.len())]
    }
}
