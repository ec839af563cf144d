//! Refusals 2 and 3: line one, and how many lines there are.

use super::rows::{self, FIELDS};
use super::{files, near, words, Finding};
use crate::{Kind, Mark, Ties};

pub const MOST_LINES: usize = 1_024;

/// Line one without a byte order mark.
pub fn line_one(text: &[u8]) -> &[u8] {
    let text = text.strip_prefix(files::BYTE_ORDER_MARK).unwrap_or(text);
    rows::lines_of(text).next().unwrap_or(b"")
}

/// Whether a line is one of those that line one may be.
pub fn is_first_line(line: &[u8]) -> bool {
    Ties::of_line(line).is_some()
}

/// How many lines there are after line one, whatever the text.
pub fn line_count(text: &[u8]) -> usize {
    rows::lines_of(text).count() - 1
}

/// Refusal 2.
pub fn first_line(text: &[u8]) -> Finding {
    let line = String::from_utf8_lossy(line_one(text));
    let sentence = format!("line one has to be {}", words::first_lines());
    let found = Finding::at(differing(&line), sentence);
    if let Some((later, width)) = later_first_line(text) {
        let mark = Mark {
            line: later,
            column: 1,
            width,
        };
        let help = "the column names stand here: leave out what is before them";
        return found.see(mark, help);
    }
    let help = files::kind_of(text).or_else(|| slip(&line));
    found.help(help.unwrap_or_else(|| differing_name(&line)))
}

/// What to look at: a first name with a wrong number, else all from where the
/// line meant has something else.
fn differing(line: &str) -> Mark {
    let same = line.bytes().zip(meant(line).first_line().bytes());
    let agree = same.take_while(|(a, b)| a == b).count();
    let (before, width) = match misnumbered(line) {
        Some(first) => (0, first.len()),
        None => (agree, line.len().saturating_sub(agree).max(1)),
    };
    Mark {
        line: 1,
        column: before + 1,
        width,
    }
}

/// The rule whose line is meant: the one with the 2 where the line begins nearly
/// so, whatever stands around it.
fn meant(line: &str) -> Ties {
    let column = Ties::Even.column();
    let letters = line.chars().filter(char::is_ascii_alphanumeric);
    let start: String = letters.take(column.len()).collect();
    match start.ends_with('2') && near::nearest(&start, [((), column)]).is_some() {
        true => Ties::Even,
        false => Ties::Away,
    }
}

/// The first line after line one that is the column names, and its width.
fn later_first_line(text: &[u8]) -> Option<(usize, usize)> {
    let later = (2..).zip(rows::lines_of(text).skip(1).take(MOST_LINES));
    let mut names = later.filter(|(_, line)| is_first_line(line));
    names.next().map(|(at, line)| (at, line.len()))
}

/// What happens to column names.
fn slip(line: &str) -> Option<String> {
    let fields: Vec<&str> = line.split(' ').collect();
    let is_line = fields.len() == FIELDS.len() && Kind::of_field(fields[0]).is_some();
    if is_line {
        let lines = words::first_lines();
        return Some(format!(
            "the column names are missing: put the line {lines} first"
        ));
    }
    if line.is_empty() {
        return Some("line one is empty: write the column names there".into());
    }
    if words::is_comment(line) {
        return Some("a sheet has no comments: leave the line out".into());
    }
    spacing(line).or_else(|| misnumbered(line).map(number))
}

/// The column names with other spaces, in capitals, or with signs between them.
fn spacing(line: &str) -> Option<String> {
    let squeezed = |line: &str| line.split_whitespace().collect::<Vec<_>>().join(" ");
    let is_first_line = |line: String| is_first_line(line.as_bytes());
    let is_names = |line: &str| is_first_line(squeezed(line).to_lowercase());
    if is_names(line) {
        let is_spaced = squeezed(line) == line;
        return Some(match is_first_line(squeezed(line)) {
            true => "write one space between names, and none before or after".into(),
            false if is_spaced => "write it in small letters".into(),
            false => "write it in small letters, with one space between names".into(),
        });
    }
    let separator = line.chars().find(|letter| ",;|:".contains(*letter))?;
    let is_separated = is_names(&line.replace(separator, " "));
    is_separated.then(|| format!("one space stands between names, not `{separator}`"))
}

/// What stands for the first of the column names, where that is `kind` and a
/// number that it does not have, and the others are as they should be.
fn misnumbered(line: &str) -> Option<&str> {
    let (kind, small) = (Ties::Away.column(), line.to_ascii_lowercase());
    let others = Ties::Away.first_line().strip_prefix(kind)?;
    let first = &line[..small.strip_suffix(others)?.len()];
    let number = small[..first.len()].strip_prefix(kind)?;
    let has = |is_it: fn(&char) -> bool| number.chars().any(|letter| is_it(&letter));
    let is_number = has(char::is_ascii_digit) && !has(char::is_ascii_alphabetic);
    (is_number && number.trim_end() != "2").then_some(first)
}

/// Which number is meant, or which there are.
fn number(first: &str) -> String {
    let is_digit = |letter: &char| letter.is_ascii_digit();
    let digits: String = first.chars().filter(is_digit).collect();
    let line = Ties::Even.first_line();
    match digits.as_str() {
        "2" if first.ends_with('2') => {
            format!("nothing stands between `kind` and `2`: write `{line}`")
        }
        "2" => format!("{} is not `kind2`: write `{line}`", words::quoted(first)),
        _ => {
            let rules = Ties::ALL.map(|ties| format!("`{}` for {ties}", ties.column()));
            let first = words::quoted(first);
            format!("{first} names no tie rule: write {}", words::or(&rules))
        }
    }
}

/// The first of the column names that is another, or all that are missing.
fn differing_name(line: &str) -> String {
    let names: Vec<&str> = line.split(' ').collect();
    let columns: Vec<&str> = meant(line).first_line().split(' ').collect();
    let differs = |&at: &usize| names.get(at) != columns.get(at);
    let at = (0..=columns.len()).find(differs).unwrap_or(0);
    match (names.get(at), columns.get(at)) {
        (Some(name), Some(_)) if at == 0 && meant(line) == Ties::Away => {
            let columns = Ties::ALL.map(|ties| format!("`{}`", ties.column()));
            let (name, columns) = (words::quoted(name), words::or(&columns));
            format!("{name} stands where {columns} has to")
        }
        (Some(name), Some(wanted)) => {
            format!("{} stands where `{wanted}` has to", words::quoted(name))
        }
        (None, Some(_)) => format!("`{}` is missing at the end", columns[at..].join(" ")),
        (name, None) => {
            let name = words::quoted(name.unwrap_or(&""));
            format!("{name} is too many: a sheet has five columns")
        }
    }
}

/// Refusal 3.
pub fn count(text: &[u8]) -> Finding {
    let lines = line_count(text);
    if lines == 0 {
        let sentence = "there is no line after line one; label 1 has to be `G - 0 - -`";
        return Finding::new(sentence).help("the smallest sheet has this one line more");
    }
    let sentence =
        format!("there are {lines} lines after line one; at most {MOST_LINES} are allowed");
    let is_empty = |line: &&[u8]| line.is_empty();
    let kept = rows::lines_of(text)
        .skip(1)
        .filter(|line| !is_empty(line))
        .count();
    let help = match kept <= MOST_LINES {
        true => format!("{} of them are empty: leave those out", lines - kept),
        false => "leave out what the order does not need, or send it as two sheets".to_string(),
    };
    Finding::new(sentence).help(help)
}
