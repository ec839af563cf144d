//! Names in formulas: words, marks, and what to call an argument.

use crate::build::{Expression, Node};
use crate::same_name;

/// The words of the grammar, compared as names are.
#[derive(Debug, Clone, Copy, PartialEq, Eq)]
pub enum Word {
    If,
    Then,
    Else,
}

impl Word {
    const ALL: [Word; 3] = [Word::If, Word::Then, Word::Else];

    pub fn text(self) -> &'static str {
        match self {
            Word::If => "if",
            Word::Then => "then",
            Word::Else => "else",
        }
    }

    pub fn of(name: &str) -> Option<Word> {
        let is_meant = |word: &Word| same_name(word.text(), name);
        Word::ALL.into_iter().find(is_meant)
    }
}

/// What a definition's name stands between where it may be taken for something
/// else.
pub const MARK: char = '`';

/// A definition's name as it is written.
pub fn written(name: &str) -> String {
    match Word::of(name) {
        Some(_) => marked(name),
        None => name.to_string(),
    }
}

pub fn marked(name: &str) -> String {
    format!("{MARK}{name}{MARK}")
}

pub fn written_path(path: &str) -> String {
    let names: Vec<String> = path.split('.').map(written).collect();
    names.join(".")
}

/// A name for the argument that hides no name which the body reads or calls.
pub fn argument(body: &Expression) -> String {
    let heads: Vec<&str> = body.nodes().iter().filter_map(head).collect();
    let is_free = |name: &String| !heads.iter().any(|head| same_name(head, name));
    let letters = ["x", "y", "z"].map(str::to_string).into_iter();
    let numbered = (1..).map(|count| format!("x{count}"));
    let mut names = letters.chain(numbered);
    names.find(is_free).unwrap_or_default()
}

fn head(node: &Node) -> Option<&str> {
    node.path()?.split('.').next()
}
