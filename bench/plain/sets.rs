//! Sets of small numbers as bits of a word, and sets of larger ones as bits of many words.

/// The members of a set of numbers below 64, ascending.
pub fn members(set: u64) -> Members {
    Members(set)
}

pub struct Members(u64);

impl Iterator for Members {
    type Item = usize;

    #[inline(always)]
    fn next(&mut self) -> Option<usize> {
        if self.0 == 0 {
            return None;
        }
        let member = self.0.trailing_zeros() as usize;
        self.0 &= self.0 - 1;
        Some(member)
    }
}

/// A set of numbers of which the least is found at once: a bit of `words` for each number, and a bit of `summary` for
/// each word that is not zero.
#[derive(Default)]
pub struct NumberSet {
    words: Vec<u64>,
    summary: Vec<u64>,
    /// The words of the summary below this are zero.
    low: usize,
}

impl NumberSet {
    pub fn insert(&mut self, number: usize) {
        let (word, top) = (number / 64, number / 4096);
        if self.words.len() <= word {
            self.words.resize(word + 1, 0);
            self.summary.resize(top + 1, 0);
        }
        self.words[word] |= 1 << (number % 64);
        self.summary[top] |= 1 << (word % 64);
        self.low = self.low.min(top);
    }

    pub fn remove(&mut self, number: usize) {
        let (word, top) = (number / 64, number / 4096);
        self.words[word] &= !(1 << (number % 64));
        if self.words[word] == 0 {
            self.summary[top] &= !(1 << (word % 64));
        }
    }

    pub fn clear(&mut self) {
        self.words.fill(0);
        self.summary.fill(0);
        self.low = self.summary.len();
    }

    #[inline(always)]
    pub fn least(&mut self) -> Option<usize> {
        while let Some(summary) = self.summary.get(self.low) {
            if *summary != 0 {
                let word = self.low * 64 + summary.trailing_zeros() as usize;
                return Some(word * 64 + self.words[word].trailing_zeros() as usize);
            }
            self.low += 1;
        }
        None
    }
}
