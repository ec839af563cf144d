//! What is wrong with what was to be built.

use std::error::Error;
use std::fmt;

/// Why no sheet can be built.
#[derive(Debug, Clone, PartialEq, Eq, Hash)]
pub struct Mistake {
    /// The row of the paper's table that would refuse the sheet: 1, 3, 7, 10
    /// or 11.
    pub row: u64,
    /// The definition, with its kind and full name, where it is in one.
    pub definition: Option<String>,
    /// What is wrong, in words.
    pub sentence: String,
    pub(crate) place: Place,
}

/// Where a mistake is.
#[derive(Debug, Clone, Copy, PartialEq, Eq, Hash)]
pub(crate) enum Place {
    /// In all together.
    Sheet,
    /// A definition, by its place in the list.
    Definition(usize),
    /// A definition's body, and a node of it by its place there.
    Node(usize, usize),
}

/// The definition, and what is wrong with it.
impl fmt::Display for Mistake {
    fn fmt(&self, f: &mut fmt::Formatter) -> fmt::Result {
        if let Some(definition) = &self.definition {
            write!(f, "{definition}: ")?;
        }
        f.write_str(&self.sentence)
    }
}

impl Error for Mistake {}
