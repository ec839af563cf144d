//! Labels and names as they are typed.

use lindypo::{Label, Sheet};

/// The label that a word is, or that of the definition whose full name it is, in
/// capitals or small letters. A label may be one that the sheet has not.
pub fn of(sheet: &Sheet, word: &str) -> Option<Label> {
    match is_label(word) {
        true => word.parse().ok(),
        false => sheet.find(word),
    }
}

/// Whether a word is a label and no name: names begin with a letter.
pub fn is_label(word: &str) -> bool {
    !word.is_empty() && word.bytes().all(|byte| byte.is_ascii_digit())
}
