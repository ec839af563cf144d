//! Refusals 5 and 6: the fields of a line, and its kind.

use super::rows::{Rows, FIELDS, KIND};
use super::{rewrite, words, Finding};
use crate::{Kind, Label, Mark};

/// How people write a kind in words or signs.
const SIGNS: [(&str, Kind); 15] = [
    ("+", Kind::Sum),
    ("add", Kind::Sum),
    ("plus", Kind::Sum),
    ("-", Kind::Difference),
    ("sub", Kind::Difference),
    ("minus", Kind::Difference),
    ("*", Kind::Product),
    ("mul", Kind::Product),
    ("times", Kind::Product),
    ("/", Kind::Quotient),
    ("div", Kind::Quotient),
    ("?", Kind::Choice),
    ("if", Kind::Choice),
    ("const", Kind::Number),
    ("arg", Kind::Argument),
];

/// A line that is to be left out: it is empty, a comment, or the column names
/// once more. The labels after it then count otherwise.
pub fn is_no_line(rows: &Rows, label: Label) -> bool {
    let fields = rows.fields(label);
    let is_empty = fields.iter().all(|field| field.is_empty());
    is_empty || words::is_comment(fields[0]) || words::is_first_line(fields)
}

/// Refusal 5.
pub fn fields(rows: &Rows, label: Label) -> Finding {
    let fields = rows.fields(label);
    let line = fields.join(" ");
    let found = match fields.iter().position(|field| field.is_empty()) {
        Some(empty) => empty_field(rows, label, empty),
        None => wrong_number(rows, label),
    };
    if is_no_line(rows, label) {
        return left_out(found, rows, label);
    }
    let rewritten = rewrite::line(&line, rows.count());
    let help = match (rewritten, rewrite::name_in_two(&line)) {
        (_, Some(name)) => format!("a name has no spaces: is `{name}` meant?"),
        (Some(line), None) => format!("write `{line}`"),
        (None, None) => template(rows, label),
    };
    alike(found.help(help), rows, label)
}

/// How a line of this kind is written, or one of any.
fn template(rows: &Rows, label: Label) -> String {
    match rows.kind(label) {
        Some(kind) => format!("a {kind} is written {}", words::template(kind)),
        None => "a line begins with its kind; `-` stands for a missing field".to_string(),
    }
}

/// What to do with a line that is none.
fn left_out(found: Finding, rows: &Rows, label: Label) -> Finding {
    let fields = rows.fields(label);
    let what = match fields[0] {
        _ if words::is_first_line(fields) => "the column names stand in line one alone",
        word if words::is_comment(word) => "a sheet has no comments",
        _ => "a sheet has no empty lines",
    };
    let found = found.help(format!("{what}: leave the line out"));
    let is_counted = |&other: &Label| !is_no_line(rows, other);
    let moved = (label + 1..=rows.count()).any(|other| is_counted(&other));
    let labels = "a label counts the lines after line one: those after this one are then one less";
    found.may_help(moved.then(|| labels.to_string()))
}

fn wrong_number(rows: &Rows, label: Label) -> Finding {
    let has = match rows.fields(label).len() {
        1 => "one field".to_string(),
        count => format!("{count} fields"),
    };
    let sentence = format!("the line has {has}; it has to have five: kind, name, a, b, c");
    let found = Finding::at(rows.mark_from(label, FIELDS.len()), sentence);
    let comment = rows.fields(label).get(FIELDS.len());
    let is_comment = comment.is_some_and(|word| words::is_comment(word));
    let help = "a sheet has no comments: leave out what follows the fifth field";
    found.may_help(is_comment.then(|| help.to_string()))
}

/// A field is empty where a space has no field on one of its sides; that space
/// is marked.
fn empty_field(rows: &Rows, label: Label, empty: usize) -> Finding {
    let mark = rows.mark(label, empty);
    let last = rows.fields(label).len() - 1;
    let sentence = match empty {
        0 if last == 0 => "the line is empty; it has to have five fields: kind, name, a, b, c",
        0 => "the line begins with a space; one space stands between fields, nowhere else",
        _ if empty < last => "two spaces stand side by side; one is wanted between fields",
        _ => {
            let column = mark.column - 1;
            let sentence =
                "the line ends with a space; one space stands between fields, nowhere else";
            return Finding::at(Mark { column, ..mark }, sentence);
        }
    };
    Finding::at(mark, sentence)
}

/// With how many other lines have an empty field where this one has: at the
/// start, at the end or between.
fn alike(found: Finding, rows: &Rows, label: Label) -> Finding {
    let sort = |label: Label| {
        let fields = rows.fields(label);
        let empty = fields.iter().position(|field| field.is_empty())?;
        Some((empty == 0, empty + 1 == fields.len()))
    };
    let is_alike = |&other: &Label| other != label && sort(other) == sort(label);
    let others = rows.labels().filter(is_alike).count();
    let lines = if others == 1 { "line is" } else { "lines are" };
    let is_said = others > 0 && sort(label).is_some();
    found.may_help(is_said.then(|| format!("{others} more {lines} so")))
}

/// Refusal 6.
pub fn kind(rows: &Rows, label: Label) -> Finding {
    let word = rows.field(label, KIND);
    let quoted = words::quoted(word);
    let sentence = format!("{quoted} is no kind; the kinds are G V F N P R C A S M D I");
    let found = Finding::at(rows.mark(label, KIND), sentence);
    if is_no_line(rows, label) {
        return left_out(found, rows, label);
    }
    if Kind::of_field(&word.to_ascii_uppercase()).is_some() {
        let capital = word.to_ascii_uppercase();
        let found = found.help(format!("a kind is a capital letter: write `{capital}`"));
        return small_kinds(found, rows, label);
    }
    let meant = meant(word).map(|kind| {
        let letter = kind.letter();
        format!("for {} write `{letter}`", words::of_kind(kind))
    });
    found.help(meant.unwrap_or_else(kinds))
}

/// The kind that a word or sign stands for.
fn meant(word: &str) -> Option<Kind> {
    let small = word.to_ascii_lowercase();
    let is_word = |kind: &Kind| kind.to_string().eq_ignore_ascii_case(&small);
    let by_word = Kind::ALL.into_iter().find(is_word);
    let by_sign = || SIGNS.iter().find(|(sign, _)| *sign == small);
    by_word.or_else(|| by_sign().map(|&(_, kind)| kind))
}

/// Each letter and what it stands for.
fn kinds() -> String {
    let kinds = Kind::ALL.map(|kind| format!("{} {kind}", kind.letter()));
    words::and(&kinds)
}

/// How many more lines have a small letter.
fn small_kinds(found: Finding, rows: &Rows, label: Label) -> Finding {
    let is_small = |&other: &Label| {
        let word = rows.field(other, KIND);
        let capital = Kind::of_field(&word.to_ascii_uppercase());
        other != label && rows.kind(other).is_none() && capital.is_some()
    };
    let others = rows.labels().filter(is_small).count();
    let more = if others == 1 {
        "line has"
    } else {
        "lines have"
    };
    found.may_help((others > 0).then(|| format!("{others} more {more} a small letter")))
}
