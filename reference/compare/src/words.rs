//! Words that the product is lent, a store or a reader, between words that it is
//! not.

use std::hint::black_box;

/// Words on each side of what is lent, to be left alone.
const CANARY: usize = 8;

pub struct Words {
    words: Vec<u64>,
    /// As they were when last kept.
    before: Vec<u64>,
}

impl Words {
    /// Words that differ from place to place, none of them likely to be written.
    pub fn new(count: usize) -> Self {
        let word = |place: u64| (place + 1).wrapping_mul(0x9E37_79B9_7F4A_7C15);
        let words: Vec<u64> = (0..(CANARY + count + CANARY) as u64).map(word).collect();
        Words {
            before: words.clone(),
            words,
        }
    }

    /// What the product is lent.
    pub fn lent(&mut self) -> &mut [u64] {
        let end = self.words.len() - CANARY;
        &mut self.words[CANARY..end]
    }

    /// Takes the words as they are for what [`Words::changed`] compares with.
    pub fn keep(&mut self) {
        self.before.clone_from(&self.words);
    }

    /// How many of the lent words changed.
    pub fn changed(&self) -> u64 {
        self.changes(|lent| lent)
    }

    /// How many of the words around them changed.
    pub fn around(&self) -> u64 {
        self.changes(|lent| !lent)
    }

    fn changes(&self, counts: fn(bool) -> bool) -> u64 {
        let lent = CANARY..self.words.len() - CANARY;
        let pairs = black_box(&self.words).iter().zip(&self.before);
        let changed = pairs
            .enumerate()
            .filter(|(place, (after, before))| counts(lent.contains(place)) && after != before);
        changed.count() as u64
    }
}
