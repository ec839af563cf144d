//! A sheet as its lines: what the table's eight cells hold, with types.

use std::ops::RangeInclusive;

/// Counts lines from 1, as the paper does.
pub type Label = usize;

/// The twelve kinds; the number of each is the paper's code.
#[derive(Debug, Clone, Copy, PartialEq, Eq)]
pub enum Kind {
    Group = 1,
    Value,
    Function,
    Number,
    Argument,
    Read,
    Call,
    Sum,
    Difference,
    Product,
    Quotient,
    Choice,
}

impl Kind {
    /// "G, V and F lines are definitions; the rest are expressions."
    pub fn is_definition(self) -> bool {
        matches!(self, Kind::Group | Kind::Value | Kind::Function)
    }
}

/// The tie rule: which neighbour D gives where a / b is a half.
#[derive(Debug, Clone, Copy, PartialEq, Eq)]
pub enum Ties {
    /// "Halves away from zero."
    Away,
    /// "Rounds a half to the even neighbour."
    Even,
}

/// A part of the text; both 0 for a missing field.
#[derive(Debug, Clone, Copy, Default)]
pub struct Span {
    pub start: u32,
    pub length: u32,
}

/// One line; `owner` and `target` are 0 until `tree` and `paths` fill them.
#[derive(Debug, Clone, Copy)]
pub struct Line {
    pub kind: Kind,
    pub name: Span,
    /// Fields a, b and c: labels, or the number of an N line; 0 for `-`.
    pub fields: [i64; 3],
    pub owner: u32,
    pub target: u32,
}

impl Line {
    /// Field a, b or c (0, 1, 2) read as a label.
    pub fn link(&self, field: usize) -> Label {
        self.fields[field] as Label
    }
}

pub struct Sheet<'a> {
    pub text: &'a [u8],
    pub ties: Ties,
    pub lines: Vec<Line>,
}

impl<'a> Sheet<'a> {
    pub fn count(&self) -> usize {
        self.lines.len()
    }

    pub fn labels(&self) -> RangeInclusive<Label> {
        1..=self.count()
    }

    pub fn line(&self, label: Label) -> &Line {
        &self.lines[label - 1]
    }

    pub fn kind(&self, label: Label) -> Kind {
        self.line(label).kind
    }

    pub fn owner(&self, label: Label) -> Label {
        self.line(label).owner as Label
    }

    /// The name field of a line, empty for `-`.
    pub fn name(&self, label: Label) -> &'a [u8] {
        let Span { start, length } = self.line(label).name;
        &self.text[start as usize..][..length as usize]
    }
}
