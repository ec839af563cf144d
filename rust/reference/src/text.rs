//! Rows 1 to 3: the text as a whole.

use crate::sheet::Ties;
use crate::Refusal;

const MAX_BYTES: usize = 65_536;
const MAX_LINES: usize = 1_024;

/// The lines that may be line one, their ends included, and the tie rule that
/// each names.
const FIRST_LINES: [(&[u8], Ties); 2] = [
    (b"kind name a b c\n", Ties::Away),
    (b"kind2 name a b c\n", Ties::Even),
];

/// What line one and the line ends say.
pub struct Outline {
    pub ties: Ties,
    /// Where the first byte after line one stands.
    pub start: usize,
    /// The number n of lines after line one.
    pub count: usize,
}

pub fn outline(text: &[u8]) -> Result<Outline, Refusal> {
    if text.len() > MAX_BYTES || text.last() != Some(&b'\n') {
        return Err(Refusal::new(1, 0));
    }
    if !text.iter().fold(true, |all, &byte| all & is_allowed(byte)) {
        return Err(Refusal::new(1, 0));
    }
    let mut first_lines = FIRST_LINES.into_iter();
    let Some((line, ties)) = first_lines.find(|(line, _)| text.starts_with(line)) else {
        return Err(Refusal::new(2, 0));
    };
    let start = line.len();
    match count_ends(&text[start..]) {
        count @ 1..=MAX_LINES => Ok(Outline { ties, start, count }),
        _ => Err(Refusal::new(3, 0)),
    }
}

fn is_allowed(byte: u8) -> bool {
    byte == b'\n' || (32..=126).contains(&byte)
}

/// Line ends, counted in bytes as long as a byte can hold them: many at a time.
fn count_ends(text: &[u8]) -> usize {
    let ends = |part: &[u8]| part.iter().map(|&byte| u8::from(byte == b'\n')).sum::<u8>();
    text.chunks(255).map(|part| usize::from(ends(part))).sum()
}
