//! What the library is lent, with what is not its own on both sides.

use std::fmt::Display;

/// How many bytes or cells stand on each side.
const MARGIN: usize = 8;

/// What may stand around a text and around a list. A reader that goes
/// past an end of the text meets a line end, or more of a field; past an end of
/// the list it meets no label, or one that may well be a value's.
pub const SURROUNDINGS: [(u8, i64); 2] = [(b'\n', 0), (b'7', 2)];

/// A text or a list between bytes or cells that are not its own.
pub struct LentPart<T> {
    all: Vec<T>,
}

impl<T: Copy> LentPart<T> {
    pub fn new(part: &[T], surrounding: T) -> Self {
        let margin = [surrounding; MARGIN];
        LentPart {
            all: [&margin, part, &margin].concat(),
        }
    }

    pub fn part(&self) -> &[T] {
        &self.all[MARGIN..self.all.len() - MARGIN]
    }
}

/// What a buffer is made of, and what stands beside it.
pub trait Cell: Copy + PartialEq + Display {
    const CANARY: Self;
}

impl Cell for i64 {
    const CANARY: i64 = 0x0123_4567_89AB_CDEF;
}

impl Cell for u8 {
    const CANARY: u8 = 0xA5;
}

/// Cells to write to, or bytes, between others that must stay as they are.
pub struct LentCells<T> {
    cells: Vec<T>,
    rubbish: T,
}

impl<T: Cell> LentCells<T> {
    pub fn new(length: usize, rubbish: T) -> Self {
        let cells = vec![T::CANARY; length + 2 * MARGIN];
        LentCells { cells, rubbish }
    }

    /// The cells to lend, full of rubbish again.
    pub fn lend(&mut self) -> &mut [T] {
        let rubbish = self.rubbish;
        let part = self.part();
        part.fill(rubbish);
        part
    }

    /// The cells that were lent.
    pub fn part(&mut self) -> &mut [T] {
        let end = self.cells.len() - MARGIN;
        &mut self.cells[MARGIN..end]
    }

    /// Whether the cells are these and every canary is as it was; else the
    /// difference in words.
    pub fn compare(&self, wanted: &[T]) -> Result<(), String> {
        let (before, rest) = self.cells.split_at(MARGIN);
        let (part, after) = rest.split_at(rest.len() - MARGIN);
        if part != wanted {
            let differs = |&at: &usize| part[at] != wanted[at];
            let at = (0..wanted.len()).find(differs).unwrap_or(0);
            return Err(format!("cell {at} is {}, wanted {}", part[at], wanted[at]));
        }
        if before.iter().chain(after).any(|&cell| cell != T::CANARY) {
            return Err("cells beside it were written".to_string());
        }
        Ok(())
    }
}
