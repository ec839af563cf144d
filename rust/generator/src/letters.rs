//! The case of letters in names and paths.

use crate::first_lines::first_line;
use crate::rng::Rng;
use crate::rows;

/// Whether two names are one: the case of ASCII letters does not count.
pub fn is_same_name(name: &[u8], other: &[u8]) -> bool {
    name.eq_ignore_ascii_case(other)
}

/// The name or path with the case of letters changed: all of them capitals or
/// small, the first one, any of them. Now and then none is another.
pub fn recase(rng: &mut Rng, name: &mut [u8]) {
    match rng.below(6) {
        0 => name.make_ascii_uppercase(),
        1 => name.make_ascii_lowercase(),
        2 => name.iter_mut().take(1).for_each(swap_case),
        way => {
            let share = [10, 50, 90][way - 3];
            let chosen = name.iter_mut().filter(|_| rng.chance(share));
            chosen.for_each(swap_case);
        }
    }
}

/// A name or path in other letters.
pub fn recased_name(rng: &mut Rng, name: &str) -> String {
    let mut bytes = name.as_bytes().to_vec();
    recase(rng, &mut bytes);
    String::from_utf8(bytes).expect("letters of ASCII alone are changed")
}

/// A small letter for a capital, a capital for a small letter.
fn swap_case(byte: &mut u8) {
    if byte.is_ascii_alphabetic() {
        *byte ^= b'a' ^ b'A';
    }
}

/// The text with the case of letters changed in the second field of lines after
/// the first: its names and paths. Whatever the text, it answers or is refused
/// as before, since where that field is no name or path a letter of either case
/// is wrong.
pub fn recased(rng: &mut Rng, text: &[u8]) -> Vec<u8> {
    let mut text = text.to_vec();
    let share = *rng.pick(&[10, 50, 100]);
    for line in text.split_mut(|&byte| byte == b'\n').skip(1) {
        let name = line.split_mut(|&byte| byte == b' ').nth(1);
        if let Some(name) = name.filter(|_| rng.chance(share)) {
            recase(rng, name);
        }
    }
    text
}

/// A sheet with every path in capitals.
pub fn capital_paths(text: &[u8]) -> Vec<u8> {
    let mut rows = rows::split(text).expect("a sheet");
    for row in rows
        .iter_mut()
        .filter(|row| matches!(row[0][..], [b'R' | b'C']))
    {
        row[1].make_ascii_uppercase();
    }
    rows::join_under(first_line(text), &rows)
}

/// How many names in the paths of a sheet are in other letters than the
/// definitions that they lead to have.
#[derive(Debug, Default, Clone, Copy, PartialEq, Eq)]
pub struct OtherLetters {
    pub heads: usize,
    pub later_names: usize,
}

impl OtherLetters {
    /// Those of a sheet that reads, by its table.
    pub fn of(text: &[u8], table: &[i64]) -> Self {
        let name = |row: &[i64]| &text[row[1] as usize..][..row[2] as usize];
        let mut others = OtherLetters::default();
        for path in table.chunks_exact(8).filter(|row| row[7] != 0) {
            let mut names = name(path).rsplit(|&byte| byte == b'.').peekable();
            // A member's owner is the Group that the name before it leads to.
            let mut definition = path[7];
            while let Some(written) = names.next() {
                let row = &table[8 * (definition as usize - 1)..][..8];
                definition = row[6];
                let count = match names.peek() {
                    Some(_) => &mut others.later_names,
                    None => &mut others.heads,
                };
                *count += usize::from(written != name(row));
            }
        }
        others
    }
}
