//! Sets of rules, one bit each, worked on word by word.

/// Words of a set.
pub(crate) const SET_WORDS: usize = 4;

/// A set of numbers from 0 to 255.
#[derive(Clone, Copy, Debug, Default, PartialEq, Eq)]
pub(crate) struct Set([u64; SET_WORDS]);

impl Set {
    /// Adds a number.
    #[inline]
    pub fn insert(&mut self, number: usize) {
        *self.word_mut(number >> 6) |= 1 << (number & 63);
    }

    /// Whether the number is in the set.
    #[inline]
    pub fn contains(&self, number: usize) -> bool {
        self.word(number >> 6) >> (number & 63) & 1 == 1
    }

    /// The smallest number.
    #[inline]
    pub fn first(&self) -> Option<usize> {
        let word = self.0.iter().position(|&bits| bits != 0)?;
        Some(member(word, self.0[word]))
    }

    /// Adds every number that is not in `other`.
    pub fn join_all_but(&mut self, other: &Set) {
        self.0.iter_mut().zip(other.0).for_each(|(bits, without)| *bits |= !without);
    }

    /// Numbers from 64 times `word` on; the mask keeps the index in range without a check.
    #[inline]
    pub fn word(&self, word: usize) -> u64 {
        self.0[word & (SET_WORDS - 1)]
    }

    /// The same, to be changed.
    #[inline]
    pub fn word_mut(&mut self, word: usize) -> &mut u64 {
        &mut self.0[word & (SET_WORDS - 1)]
    }
}

/// The smallest number of a word that is not 0.
#[inline]
pub(crate) fn member(word: usize, bits: u64) -> usize {
    word << 6 | bits.trailing_zeros() as usize
}
