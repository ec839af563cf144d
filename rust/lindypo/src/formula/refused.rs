//! The refusal of a sheet that was written, in the words of its formulas: who
//! writes these sees no labels and no lines of the sheet.

use super::parse::Marks;
use super::Mistake;
use crate::{Help, Label, Mark, Refusal};

/// Where the name or path of a line begins: after its kind and a space.
const NAME_COLUMN: usize = 3;

/// What rows 12 to 16 find in a sheet, where that stands in its formulas.
pub fn mistake(sheet: &[u8], marks: &Marks, refusal: &Refusal) -> Mistake {
    let place = |mark: Mark| {
        let whole = marks.of_label(mark.line - 1)?;
        Some(within(whole, name_of(sheet, mark.line), mark))
    };
    let help = refusal.help().iter().map(|help| Help {
        sentence: by_line(marks, &as_formula(&help.sentence)),
        mark: help.mark.and_then(place),
    });
    Mistake {
        row: Some(refusal.number()),
        mark: refusal.mark().and_then(place),
        sentence: by_line(marks, refusal.sentence()),
        help: help.collect(),
    }
}

/// The name or path of a line.
fn name_of(sheet: &[u8], line: usize) -> &[u8] {
    let line = sheet.split(|&byte| byte == b'\n').nth(line - 1);
    let name = line.and_then(|line| line.split(|&byte| byte == b' ').nth(1));
    name.unwrap_or_default()
}

/// What a mark in the name or path of a line is in the formulas, where that is
/// written as it stands, without backquotes; else all of it.
fn within(whole: Mark, name: &[u8], mark: Mark) -> Mark {
    let before = mark.column.checked_sub(NAME_COLUMN);
    match before.filter(|before| whole.width == name.len() && before + mark.width <= name.len()) {
        Some(before) => Mark {
            column: whole.column + before,
            width: mark.width,
            ..whole
        },
        None => whole,
    }
}

/// A sentence with lines of the formulas in place of labels and of lines of the
/// sheet.
fn by_line(marks: &Marks, sentence: &str) -> String {
    let mut words: Vec<String> = sentence.split(' ').map(str::to_string).collect();
    for at in 1..words.len() {
        let number = words[at].trim_end_matches(|letter: char| !letter.is_ascii_digit());
        let rest = words[at][number.len()..].to_string();
        let number: Option<Label> = number.parse().ok();
        let label = match words[at - 1].trim_start_matches('(') {
            "label" => number,
            "line" => number.and_then(|line| line.checked_sub(1)),
            _ => None,
        };
        if let Some(mark) = label.and_then(|label| marks.of_label(label)) {
            words[at - 1] = words[at - 1].replace("label", "line");
            words[at] = format!("{}{rest}", mark.line);
        }
    }
    words.join(" ")
}

/// A hint that shows a line of a sheet shows a formula instead.
fn as_formula(hint: &str) -> String {
    let path = |kind: &str, rest: &str| {
        let (words, line) = hint.split_once(&format!(": `{kind} "))?;
        Some((words.to_string(), line.strip_suffix(rest)?.to_string()))
    };
    let called = path("C", " ARGUMENT - -`").map(|(words, path)| format!("{words}: `{path}(...)`"));
    let read = path("R", " - - -`").map(|(words, path)| format!("{words}: `{path}`"));
    called.or(read).unwrap_or_else(|| hint.to_string())
}
