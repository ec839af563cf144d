//! Tables of bits: each row is a set of small numbers.

#[derive(Clone)]
pub struct BitMatrix {
    /// Words in one row.
    words: usize,
    bits: Vec<u64>,
}

impl BitMatrix {
    pub fn new(rows: usize, columns: usize) -> Self {
        let words = columns.div_ceil(64);
        BitMatrix {
            words,
            bits: vec![0; rows * words],
        }
    }

    pub fn row(&self, row: usize) -> &[u64] {
        &self.bits[row * self.words..][..self.words]
    }

    /// The numbers in a row, smallest first.
    pub fn members(&self, row: usize) -> impl Iterator<Item = usize> + '_ {
        ones(self.row(row).iter().copied())
    }

    /// Puts a number into a row; false if it was there.
    pub fn insert(&mut self, row: usize, number: usize) -> bool {
        let word = &mut self.bits[row * self.words + number / 64];
        let before = *word;
        *word |= 1 << (number % 64);
        *word != before
    }

    pub fn remove(&mut self, row: usize, number: usize) {
        self.bits[row * self.words + number / 64] &= !(1 << (number % 64));
    }

    pub fn contains(&self, row: usize, number: usize) -> bool {
        self.row(row)[number / 64] >> (number % 64) & 1 == 1
    }

    /// Adds all that row `from` holds to row `into`.
    pub fn merge(&mut self, into: usize, from: usize) {
        for word in 0..self.words {
            self.bits[into * self.words + word] |= self.bits[from * self.words + word];
        }
    }
}

/// The numbers in a set given by its words, smallest first.
pub fn ones(words: impl Iterator<Item = u64>) -> impl Iterator<Item = usize> {
    Ones {
        words,
        word: 0,
        next_start: 0,
    }
}

struct Ones<W> {
    words: W,
    /// What is left of the word at hand.
    word: u64,
    /// The number of the next word's lowest bit.
    next_start: usize,
}

impl<W: Iterator<Item = u64>> Iterator for Ones<W> {
    type Item = usize;

    fn next(&mut self) -> Option<usize> {
        while self.word == 0 {
            self.word = self.words.next()?;
            self.next_start += 64;
        }
        let bit = self.word.trailing_zeros() as usize;
        self.word &= self.word - 1;
        Some(self.next_start - 64 + bit)
    }
}
