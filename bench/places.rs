//! Sets of places, that is, of the numbers of units of one platform, as bits. They are gone through word by word.

#[derive(Clone, Copy)]
pub struct Places<const WORDS: usize>([u64; WORDS]);

impl<const WORDS: usize> Places<WORDS> {
    pub const NONE: Self = Places([0; WORDS]);

    pub fn is_empty(&self) -> bool {
        self.0.iter().all(|word| *word == 0)
    }

    pub fn put(&mut self, place: usize) {
        self.0[place / 64] |= 1 << (place % 64);
    }

    pub fn remove(&mut self, place: usize) {
        self.0[place / 64] &= !(1 << (place % 64));
    }

    /// Removes all places of another set.
    pub fn remove_all(&mut self, other: &Self) {
        for (word, gone) in self.0.iter_mut().zip(&other.0) {
            *word &= !gone;
        }
    }

    /// The places of one word that another set has too.
    pub fn with(&self, other: &Self, word: usize) -> Word {
        Word { first: 64 * word, bits: self.0[word] & other.0[word] }
    }

    /// The places of one word that another set doesn't have.
    pub fn without(&self, other: &Self, word: usize) -> Word {
        Word { first: 64 * word, bits: self.0[word] & !other.0[word] }
    }
}

/// The places of one word of a set.
pub struct Word {
    first: usize,
    bits: u64,
}

impl Word {
    pub fn is_empty(&self) -> bool {
        self.bits == 0
    }

    /// Takes out the least place.
    pub fn take_first(&mut self) -> Option<usize> {
        let bit = self.bits.trailing_zeros();
        (bit < 64).then(|| {
            self.bits &= self.bits - 1;
            self.first + bit as usize
        })
    }

    /// Takes out the greatest place.
    pub fn take_last(&mut self) -> Option<usize> {
        let bit = self.bits.checked_ilog2()?;
        self.bits &= !(1 << bit);
        Some(self.first + bit as usize)
    }
}
