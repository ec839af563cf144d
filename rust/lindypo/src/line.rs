//! A line of a sheet in plain types.

use std::fmt;

use crate::Label;

/// The twelve kinds of a line; the number of each is the paper's code.
#[derive(Debug, Clone, Copy, PartialEq, Eq, Hash)]
pub enum Kind {
    Group = 1,
    Value,
    Function,
    Number,
    Argument,
    Read,
    Call,
    Sum,
    Difference,
    Product,
    Quotient,
    Choice,
}

impl Kind {
    /// Each in its code's place.
    pub const ALL: [Kind; 12] = [
        Kind::Group,
        Kind::Value,
        Kind::Function,
        Kind::Number,
        Kind::Argument,
        Kind::Read,
        Kind::Call,
        Kind::Sum,
        Kind::Difference,
        Kind::Product,
        Kind::Quotient,
        Kind::Choice,
    ];

    /// The paper's code, 1 to 12.
    pub fn code(self) -> i64 {
        self as i64
    }

    /// The letter that stands for the kind in a sheet.
    pub fn letter(self) -> char {
        char::from(b"GVFNPRCASMDI"[self as usize - 1])
    }

    /// G, V and F lines are definitions, all others are expressions.
    pub fn is_definition(self) -> bool {
        matches!(self, Kind::Group | Kind::Value | Kind::Function)
    }

    pub(crate) fn of_code(code: i64) -> Option<Kind> {
        Kind::ALL.into_iter().find(|kind| kind.code() == code)
    }

    pub(crate) fn of_field(field: &str) -> Option<Kind> {
        let mut letters = field.chars();
        let letter = letters.next()?;
        let is_meant = |kind: &Kind| kind.letter() == letter;
        Kind::ALL
            .into_iter()
            .find(is_meant)
            .filter(|_| letters.next().is_none())
    }
}

/// The kind in words: `Group`, `value`, `sum`.
impl fmt::Display for Kind {
    fn fmt(&self, f: &mut fmt::Formatter) -> fmt::Result {
        f.write_str(match self {
            Kind::Group => "Group",
            Kind::Value => "value",
            Kind::Function => "function",
            Kind::Number => "number",
            Kind::Argument => "argument",
            Kind::Read => "read",
            Kind::Call => "call",
            Kind::Sum => "sum",
            Kind::Difference => "difference",
            Kind::Product => "product",
            Kind::Quotient => "quotient",
            Kind::Choice => "choice",
        })
    }
}

/// What Read's table says of a line.
#[derive(Debug, Clone, Copy, PartialEq, Eq, Hash)]
pub struct Line<'text> {
    pub label: Label,
    pub kind: Kind,
    /// A definition's name, a path of an R or C.
    pub name: Option<&'text str>,
    /// The fields as the table has them: labels, or the number of an N line; 0
    /// for a missing one.
    pub a: i64,
    pub b: i64,
    pub c: i64,
    /// A definition's Group, an expression's definition; none for label 1.
    pub owner: Option<Label>,
    /// What the path of an R or C leads to.
    pub target: Option<Label>,
}
