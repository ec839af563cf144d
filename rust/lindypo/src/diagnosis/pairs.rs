//! Refusals 19 to 21: lists of pairs, an N line and its new number.

use std::collections::BTreeSet;

use super::forms::NUMBER;
use super::order;
use super::rows::{Rows, A, B, NAME};
use super::words;
use super::Finding;
use crate::{Kind, Label};

/// The most pairs of a list.
const PAIRS: usize = 1024;

/// The most N lines that a sentence names, and of these the most that are shown.
const NUMBERS: usize = 8;
const SHOWN: usize = 3;

const NAME_ONE: &str = "name an N line";

/// Refusal 19, of a list of whole pairs.
pub fn list(count: usize) -> Finding {
    Finding::new(format!(
        "the list has {count} pairs, and may have {PAIRS} at most"
    ))
    .help(format!(
        "put the first {PAIRS} numbers into the sheet, and retouch that with the others"
    ))
}

/// Refusal 20.
pub fn label(rows: &Rows, label: Label) -> Finding {
    let Some(kind) = rows.kind(label) else {
        let found = Finding::new(format!("there is no label {label}"));
        return found.help(match &numbers(rows, |_| true)[..] {
            [] => "the sheet has no N lines, so no number can be changed".to_string(),
            all => format!("{NAME_ONE}; {}", are(all, "the only one", "they")),
        });
    };
    match kind {
        Kind::Value | Kind::Function => definition(rows, label),
        Kind::Group => {
            let title = rows.title(label);
            let sentence = format!("{title} is not a number");
            let mark = match label {
                1 => rows.mark_line(label),
                _ => rows.mark(label, NAME),
            };
            within(Finding::at(mark, sentence), rows, label)
        }
        kind => {
            let sentence = format!("label {label} is {}, not a number", words::of_kind(kind));
            within(Finding::at(rows.mark_line(label), sentence), rows, label)
        }
    }
}

/// A value or function in place of the N line that is its body, or of one in it.
fn definition(rows: &Rows, label: Label) -> Finding {
    let body = rows.link(label, B);
    let kind = rows.kind(body).unwrap_or(Kind::Number);
    if kind == Kind::Number {
        let sentence = format!("label {label} is {}, not its number", rows.title(label));
        return Finding::at(rows.mark(label, NAME), sentence)
            .see(rows.mark(body, A), format!("label {body} is its number"))
            .help(format!("name label {body}"));
    }
    let (name, line, kind) = (rows.shown_name(label), body + 1, words::of_kind(kind));
    let sentence = format!("the body of `{name}` is not a number: line {line} is {kind}");
    within(Finding::at(rows.mark_line(body), sentence), rows, label)
}

/// With the N lines in a Group, a definition or an expression; where it has none,
/// with those of what it reaches.
fn within(found: Finding, rows: &Rows, label: Label) -> Finding {
    let own = numbers(rows, |number| outward(rows, number).any(|at| at == label));
    if !own.is_empty() {
        let those = are(&own, "the one in it", "those in it");
        return shown(found, rows, &own).help(format!("{NAME_ONE}; {those}"));
    }
    let reached = reached(rows, label);
    let reached = numbers(rows, |number| reached.contains(&rows.owner(number)));
    match &reached[..] {
        [] => found.help("no N line is in it, nor in what it reaches"),
        numbers => {
            let those = are(numbers, "the one that it reaches", "those that it reaches");
            shown(found, rows, numbers).help(format!("{NAME_ONE}; {those}"))
        }
    }
}

/// With the first of the N lines.
fn shown(found: Finding, rows: &Rows, numbers: &[Label]) -> Finding {
    let first = numbers.iter().take(SHOWN);
    first.fold(found, |found, &number| {
        found.see(rows.mark(number, A), format!("label {number} is here"))
    })
}

/// All N lines that `is_meant` has.
fn numbers(rows: &Rows, is_meant: impl Fn(Label) -> bool) -> Vec<Label> {
    let is_number = |label: &Label| rows.kind(*label) == Some(Kind::Number);
    rows.labels()
        .filter(is_number)
        .filter(|&label| is_meant(label))
        .collect()
}

/// From an expression outward: the lines that it stands in, its owner, and the
/// Groups around that.
fn outward<'a>(rows: &'a Rows, label: Label) -> impl Iterator<Item = Label> + 'a {
    let groups = std::iter::successors(rows.around(rows.owner(label)), |&at| rows.around(at));
    rows.outward(label).chain(groups)
}

/// The definitions that a Group, a definition or an expression reaches, by the R
/// and C lines in it.
fn reached(rows: &Rows, label: Label) -> BTreeSet<Label> {
    let mentions = order::mentions(rows);
    let is_in = |line: Label| line == label || outward(rows, line).any(|at| at == label);
    let lines = mentions.iter().flatten();
    let mut open: Vec<Label> = lines
        .filter(|mention| is_in(mention.line))
        .map(|mention| mention.target)
        .collect();
    let mut reached = BTreeSet::new();
    while let Some(at) = open.pop() {
        if reached.insert(at) {
            open.extend(mentions[at].iter().map(|mention| mention.target));
        }
    }
    reached
}

/// "the one in it is label 4", "those in it are labels 4, 5 and 7".
fn are(numbers: &[Label], one: &str, several: &str) -> String {
    let labels = words::and_more(numbers, NUMBERS);
    match numbers.len() {
        1 => format!("{one} is label {labels}"),
        _ => format!("{several} are labels {labels}"),
    }
}

/// Refusal 21.
pub fn number(rows: &Rows, (label, number): (Label, i64)) -> Finding {
    let sentence = match number > 0 {
        true => format!("{number} is above {NUMBER}, the largest number"),
        false => format!("{number} is below -{NUMBER}, the smallest number"),
    };
    Finding::at(rows.mark(label, A), sentence)
        .help(format!("a number is from -{NUMBER} to {NUMBER}"))
}
