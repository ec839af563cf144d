//! Texts that are no plain text, by how they begin.

use super::Finding;
use crate::Mark;

pub const BYTE_ORDER_MARK: &[u8] = b"\xef\xbb\xbf";

/// How to save what a program saved in its own way.
pub const PLAIN: &str = "save the file as plain text: ASCII, or UTF-8 without byte order mark";

/// How other files begin, and what they are.
const BEGINNINGS: [(&[u8], &str); 9] = [
    (b"PK\x03\x04", "a spreadsheet or ZIP archive"),
    (b"\xd0\xcf\x11\xe0", "an old spreadsheet or document"),
    (b"%PDF", "a PDF document"),
    (b"{\\rtf", "a rich text document"),
    (b"\x89PNG", "a picture"),
    (b"\xff\xd8\xff", "a picture"),
    (b"\x1f\x8b", "a gzip archive"),
    (b"<", "a web page or XML document"),
    (b"{", "a JSON document"),
];

/// How many bytes tell whether a text has two for each character.
const TOLD_BY: usize = 64;

/// What sort of file it is by its beginning, as a hint; none for plain text.
pub fn kind_of(text: &[u8]) -> Option<String> {
    let mut files = BEGINNINGS.iter();
    let (_, file) = files.find(|(beginning, _)| text.starts_with(beginning))?;
    Some(format!(
        "the file looks like {file}: export the sheet as plain text"
    ))
}

/// Whether the text is UTF-16, with its mark or without.
pub fn wide(text: &[u8]) -> Option<Finding> {
    let start = &text[..text.len().min(TOLD_BY) / 2 * 2];
    let has_zeros = |odd: usize| {
        let zero = |(at, &byte): (usize, &u8)| (byte == 0) == (at % 2 == odd);
        start.len() >= 4 && start.iter().enumerate().all(zero)
    };
    let (ends, width) = match text {
        [0xff, 0xfe, ..] => ("little-endian", 2),
        [0xfe, 0xff, ..] => ("big-endian", 2),
        _ if has_zeros(1) => ("little-endian", 1),
        _ if has_zeros(0) => ("big-endian", 1),
        _ => return None,
    };
    let mark = Mark {
        line: 1,
        column: 1,
        width,
    };
    let sentence = format!("the text is UTF-16 ({ends}): two bytes for each character");
    Some(Finding::at(mark, sentence).help(PLAIN))
}
