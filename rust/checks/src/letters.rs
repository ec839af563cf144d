//! Names that are the same and written in other letters: what order 1 brings.

use generator::{is_same_name, rows, OtherLetters};

use crate::Wanted;

/// Whether a sheet reads with heads of paths, or later names, in other letters
/// than their definitions; whether it is refused for two names of one Group in
/// other letters.
#[derive(Debug, Default, Clone, Copy, PartialEq, Eq)]
pub struct Letters {
    pub heads: bool,
    pub later_names: bool,
    pub clash: bool,
}

/// The row for a name that a smaller label in its Group has.
const CLASH: u64 = 12;

impl Letters {
    /// Those of a text, of which Read has to give this.
    pub fn of(text: &[u8], read: &Wanted) -> Self {
        let mut letters = Letters::default();
        match read.reply.refusal {
            0 => {
                let others = OtherLetters::of(text, &read.buffers[0]);
                letters.heads = others.heads > 0;
                letters.later_names = others.later_names > 0;
            }
            CLASH => letters.clash = clashes_in_other_letters(text, read.reply.place as usize),
            _ => {}
        }
        letters
    }
}

/// Whether the name at this label is written otherwise than the one that it
/// clashes with. Of the lines that pass rows 5 to 11, only definitions have a
/// name and this Group.
fn clashes_in_other_letters(text: &[u8], label: usize) -> bool {
    let rows = rows::split(text).expect("lines of five fields");
    let [_, name, group, ..] = &rows[label - 1];
    let clashes = |row: &&rows::Row| row[2] == *group && is_same_name(&row[1], name);
    let smaller = rows[..label - 1].iter().find(clashes);
    smaller.is_some_and(|row| row[1] != *name)
}
