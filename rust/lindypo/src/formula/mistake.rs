//! What is wrong with a text of formulas.

use std::error::Error;
use std::fmt;

use crate::{Help, Mark};

/// Why a text of formulas gives no sheet.
#[derive(Debug, Clone, PartialEq, Eq, Hash)]
pub struct Mistake {
    /// The row of the paper's table that refuses the sheet that these formulas
    /// stand for; none where the text breaks the grammar.
    pub row: Option<u64>,
    /// What to look at in the text; none where it is the text as a whole.
    pub mark: Option<Mark>,
    /// What is wrong, in words.
    pub sentence: String,
    /// How to mend it, and other places of the text that it has to do with.
    pub help: Vec<Help>,
}

impl Mistake {
    /// Against the grammar.
    pub(super) fn at(mark: Mark, sentence: impl Into<String>) -> Self {
        Mistake {
            row: None,
            mark: Some(mark),
            sentence: sentence.into(),
            help: vec![],
        }
    }

    /// With another place of the text.
    pub(super) fn see(mut self, mark: Mark, sentence: &str) -> Self {
        self.help.push(Help {
            sentence: sentence.to_string(),
            mark: Some(mark),
        });
        self
    }
}

/// Line, column and the sentence.
impl fmt::Display for Mistake {
    fn fmt(&self, f: &mut fmt::Formatter) -> fmt::Result {
        if let Some(Mark { line, column, .. }) = self.mark {
            write!(f, "line {line}, column {column}: ")?;
        }
        f.write_str(&self.sentence)
    }
}

impl Error for Mistake {}
