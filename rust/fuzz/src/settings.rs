//! The head of an input: how what is lent besides the text is made from it.

use generator::Rng;

/// No buffer and no order list is longer, in cells: a table of 1,024 labels and
/// some more.
pub const MOST_CELLS: usize = 8 * 1_024 + 64;

/// No buffer for the print is longer, in bytes: more than any print has.
pub const MOST_PRINT: usize = 49_188 + 64;

/// Zeros, which a sheet without settings has, stand for buffers of exactly the
/// cells needed, Follow down the plan, Name of label 2, and Retouch with the first
/// two N lines at 0.
#[derive(Debug, Default, Clone, Copy, PartialEq, Eq)]
pub struct Settings {
    /// How the list for Follow is made, the fault in it and where that is.
    pub order: u8,
    pub fault: u8,
    pub at: u16,
    pub other: u16,
    /// How the lengths of table, plan, results and changes come from the cells
    /// needed.
    pub ways: [u8; 4],
    pub amounts: [u16; 4],
    /// How the label for Name comes from the word.
    pub label: u8,
    pub word: i64,
    /// What the buffers hold beforehand, and a seed for a list.
    pub seed: u64,
    /// A list, one byte for a label.
    pub list: [u8; 16],
    /// How the length of the buffer for the print comes from the bytes needed.
    pub print_way: u8,
    pub print_amount: u16,
    /// How the list for Retouch is made and of how many pairs, the fault in it and
    /// where that is.
    pub pairs: u8,
    pub pair_count: u8,
    pub pair_fault: u8,
    pub pair_at: u16,
    /// For each pair a byte that chooses the N line and one for the number.
    pub touches: [u8; 16],
}

impl Settings {
    pub const BYTES: usize = 75;

    /// The settings of an input and its text; what is missing is 0.
    pub fn split(input: &[u8]) -> (Self, &[u8]) {
        let (head, text) = input.split_at(input.len().min(Self::BYTES));
        let mut bytes = [0; Self::BYTES];
        bytes[..head.len()].copy_from_slice(head);
        (Self::from_bytes(&bytes), text)
    }

    fn from_bytes(bytes: &[u8; Self::BYTES]) -> Self {
        let pair = |at: usize| u16::from_le_bytes([bytes[at], bytes[at + 1]]);
        let eight = |at: usize| std::array::from_fn(|byte| bytes[at + byte]);
        Settings {
            order: bytes[0],
            fault: bytes[1],
            at: pair(2),
            other: pair(4),
            ways: [bytes[6], bytes[7], bytes[8], bytes[51]],
            label: bytes[9],
            amounts: [pair(10), pair(12), pair(14), pair(52)],
            word: i64::from_le_bytes(eight(16)),
            seed: u64::from_le_bytes(eight(24)),
            list: std::array::from_fn(|byte| bytes[32 + byte]),
            print_way: bytes[48],
            print_amount: pair(49),
            pairs: bytes[54],
            pair_count: bytes[55],
            pair_fault: bytes[56],
            pair_at: pair(57),
            touches: std::array::from_fn(|byte| bytes[59 + byte]),
        }
    }

    pub fn to_bytes(self) -> Vec<u8> {
        let [table, plan, results, changes] = self.amounts.map(u16::to_le_bytes);
        let [ways @ .., changes_way] = self.ways;
        [
            &[self.order, self.fault][..],
            &self.at.to_le_bytes(),
            &self.other.to_le_bytes(),
            &ways,
            &[self.label],
            &table,
            &plan,
            &results,
            &self.word.to_le_bytes(),
            &self.seed.to_le_bytes(),
            &self.list,
            &[self.print_way],
            &self.print_amount.to_le_bytes(),
            &[changes_way],
            &changes,
            &[self.pairs, self.pair_count, self.pair_fault],
            &self.pair_at.to_le_bytes(),
            &self.touches,
        ]
        .concat()
    }

    /// Settings of any sort, lengths most often those needed.
    pub fn random(rng: &mut Rng) -> Self {
        let mut settings = Settings::default();
        for _ in 0..12 {
            settings.change(rng);
        }
        settings
    }

    /// One of the settings anew.
    pub fn change(&mut self, rng: &mut Rng) {
        let buffer = rng.below(4);
        let small = rng.below(64) as i64;
        let edges = [small, small, small, -small, -1, i64::MIN, i64::MAX];
        match rng.below(18) {
            0 => self.order = rng.below(8) as u8,
            1 => self.fault = rng.below(8) as u8,
            2 => self.at = small as u16,
            3 => self.other = small as u16,
            4 => self.ways[buffer] = rng.below(32) as u8,
            5 => self.amounts[buffer] = rng.below(MOST_CELLS + 1) as u16,
            6 => self.word = *rng.pick(&edges),
            7 => self.seed = rng.word(),
            8 => self.label = rng.below(8) as u8,
            9 => self.print_way = rng.below(32) as u8,
            10 => self.print_amount = rng.below(MOST_PRINT + 1) as u16,
            11 => self.list[rng.below(16)] = small as u8,
            12 => self.pairs = rng.below(8) as u8,
            13 => self.pair_count = rng.below(8) as u8,
            14 => self.pair_fault = rng.below(8) as u8,
            15 => self.pair_at = small as u16,
            _ => self.touches[rng.below(16)] = rng.word() as u8,
        }
    }
}

#[cfg(test)]
mod tests {
    use super::*;

    #[test]
    fn settings_read_back() {
        let rng = &mut Rng::new(1);
        for _ in 0..1_000 {
            let settings = Settings::random(rng);
            let bytes = settings.to_bytes();
            assert_eq!(bytes.len(), Settings::BYTES);
            assert_eq!(Settings::split(&bytes), (settings, &[][..]));
        }
    }

    #[test]
    fn what_is_missing_is_zero() {
        assert_eq!(Settings::split(&[]), (Settings::default(), &[][..]));
        let short = Settings {
            order: 3,
            ..Settings::default()
        };
        assert_eq!(Settings::split(&[3]), (short, &[][..]));
    }
}
