//! Pieces that several sentences share.

use std::fmt::Display;

use crate::names::lowercase;
use crate::{Kind, Ties};

/// The most bytes of a field that a sentence repeats.
const QUOTED: usize = 40;

/// The most definitions of a way that a sentence names.
const NAMED: usize = 8;

/// How people begin a comment in other languages.
const COMMENTS: [&str; 7] = ["#", "//", "/*", ";", "--", "%", "'"];

/// A field as a sentence repeats it; a long one is cut.
pub fn quoted(field: &str) -> String {
    let cut = field.char_indices().nth(QUOTED);
    match cut {
        Some((end, _)) => format!("`{}...`", &field[..end]),
        None => format!("`{field}`"),
    }
}

/// A full name as a sentence has it; the middle of a long one is left out.
pub fn shortened(name: &str) -> String {
    let letters: Vec<char> = name.chars().collect();
    match letters.len().checked_sub(QUOTED) {
        Some(end) if end > QUOTED => {
            let [start, end] = [&letters[..QUOTED], &letters[end..]].map(String::from_iter);
            format!("{start}...{end}")
        }
        _ => name.to_string(),
    }
}

/// A kind in words, with its letter: "a value (V)".
pub fn of_kind(kind: Kind) -> String {
    let article = match kind {
        Kind::Argument => "an",
        _ => "a",
    };
    format!("{article} {kind} ({})", kind.letter())
}

/// How a line of a kind is written; capitals stand for what is put there.
pub fn template(kind: Kind) -> String {
    let fields = match kind {
        Kind::Group => "NAME GROUP - -",
        Kind::Value | Kind::Function => "NAME GROUP BODY -",
        Kind::Number => "- NUMBER - -",
        Kind::Argument => "- - - -",
        Kind::Read => "PATH - - -",
        Kind::Call => "PATH ARGUMENT - -",
        Kind::Choice => "- TEST THEN ELSE",
        _ => "- LEFT RIGHT -",
    };
    format!("`{} {fields}`", kind.letter())
}

/// "2, 3, 4".
pub fn list<T: Display>(items: &[T]) -> String {
    let words: Vec<String> = items.iter().map(T::to_string).collect();
    words.join(", ")
}

/// "2, 3 and 4".
pub fn and<T: Display>(items: &[T]) -> String {
    joined(items, "and")
}

/// "2, 3 or 4".
pub fn or<T: Display>(items: &[T]) -> String {
    joined(items, "or")
}

fn joined<T: Display>(items: &[T], word: &str) -> String {
    match items {
        [rest @ .., last] if !rest.is_empty() => format!("{} {word} {last}", list(rest)),
        _ => list(items),
    }
}

/// "2, 3 and 4"; of more than `most`, "2, 3 and 17 more".
pub fn and_more<T: Display>(items: &[T], most: usize) -> String {
    match items.len().saturating_sub(most) {
        0 => and(items),
        more => format!("{} and {more} more", list(&items[..most])),
    }
}

/// Names in backticks, as `and_more` has them.
pub fn names(names: &[String], most: usize) -> String {
    let quoted: Vec<String> = names.iter().map(|name| format!("`{name}`")).collect();
    and_more(&quoted, most)
}

/// A count with what it counts: "1 line", "2 lines".
pub fn counted(count: usize, thing: &str) -> String {
    let end = if count == 1 { "" } else { "s" };
    format!("{count} {thing}{end}")
}

/// Names with arrows between; the middle of a long way is left out.
pub fn way(names: &[String]) -> String {
    let mut names = names.to_vec();
    if names.len() > NAMED {
        let tail = names.len() - NAMED / 2;
        names.splice(NAMED / 2..tail, ["...".to_string()]);
    }
    names.join(" -> ")
}

pub fn is_comment(word: &str) -> bool {
    COMMENTS.iter().any(|beginning| word.starts_with(beginning))
}

/// Whether a line after line one, cut into fields, is the column names once more,
/// of either tie rule and in any case.
pub fn is_first_line(fields: &[&str]) -> bool {
    Ties::of_line(lowercase(&fields.join(" ")).as_bytes()).is_some()
}

/// What line one has to be: "`kind name a b c` or `kind2 name a b c`".
pub fn first_lines() -> String {
    or(&Ties::ALL.map(|ties| format!("`{}`", ties.first_line())))
}

#[cfg(test)]
mod tests {
    use super::*;

    #[test]
    fn long_words_are_cut() {
        let long = "é".repeat(81);
        let part = "é".repeat(40);
        assert_eq!(quoted(&long), format!("`{part}...`"));
        assert_eq!(shortened(&long), format!("{part}...{part}"));
        assert_eq!(shortened(&long[2..]), long[2..]);
    }
}
