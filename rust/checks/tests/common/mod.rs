//! What several tests look at.

use lindypo::{Mark, Refusal};

/// All that a refusal points at is in the text: a part of a line, or one column
/// past its end where something is missing (a line end, the rest of line one, a
/// field).
pub fn is_in_text(text: &[u8], refusal: &Refusal) {
    let helps = refusal.help().iter().filter_map(|help| help.mark);
    for mark in refusal.mark().into_iter().chain(helps) {
        let Mark {
            line,
            column,
            width,
        } = mark;
        let line = text.split(|&byte| byte == b'\n').nth(line - 1);
        let length = line.expect("a line of the text").len();
        let is_past = (column, width) == (length + 1, 1);
        let may_be_past = matches!(refusal.number(), 1 | 2 | 5);
        let is_within = column >= 1 && width >= 1 && column - 1 + width <= length;
        assert!(is_within || is_past && may_be_past, "{mark:?}: {refusal}");
    }
}
