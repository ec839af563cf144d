//! The R and C lines of a sheet: which definition mentions which.

use lindypo::{Kind, Label, Sheet};

/// A line by which a definition reads a value or calls a function.
#[derive(Debug, Clone, Copy, PartialEq, Eq)]
pub struct Mention {
    /// Read or call.
    pub kind: Kind,
    pub line: Label,
    pub from: Label,
    pub to: Label,
}

impl Mention {
    pub fn verb(&self) -> &'static str {
        match self.kind {
            Kind::Call => "calls",
            _ => "reads",
        }
    }
}

/// All of them, upward through the labels of the lines.
pub fn of<'a>(sheet: &'a Sheet) -> impl Iterator<Item = Mention> + 'a {
    sheet.lines().filter_map(|line| {
        Some(Mention {
            kind: line.kind,
            line: line.label,
            from: line.owner?,
            to: line.target?,
        })
    })
}
