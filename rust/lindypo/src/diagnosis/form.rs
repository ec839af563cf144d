//! Refusal 7: the form of a field.

use super::forms::{self, Form};
use super::rows::{Rows, A, FIELDS, KIND};
use super::{named, numbers, rewrite, words, Finding};
use crate::{names, Kind, Label};

/// What label 1 has to be.
const OUTERMOST: [&str; 5] = ["G", "-", "0", "-", "-"];

/// Whether label 1 is as it has to be.
pub fn is_outermost(fields: &[&str]) -> bool {
    fields == OUTERMOST
}

/// The fields of a line of five, with a kind, that refusal 7 is about.
pub fn misfits(rows: &Rows, label: Label) -> Vec<usize> {
    let fields = rows.fields(label);
    if label == 1 {
        let differs = |&at: &usize| fields[at] != OUTERMOST[at];
        return (0..FIELDS.len()).find(differs).into_iter().collect();
    }
    let kind = rows.kind(label);
    kind.map_or(vec![], |kind| Form::misfits(kind, fields, rows.count()))
}

/// Those of them that are faults by themselves: the first alone where the line
/// has its fields in other places, or those of another kind.
pub fn separate_misfits(rows: &Rows, label: Label) -> Vec<usize> {
    let (fields, count) = (rows.fields(label), rows.count());
    let is_moved = rewrite::line(&fields.join(" "), count).is_some();
    let is_one = is_moved || !rewrite::other_kinds(fields, count).is_empty();
    let mut misfits = misfits(rows, label);
    misfits.truncate(if is_one { 1 } else { FIELDS.len() });
    misfits
}

/// Refusal 7, of one field.
pub fn form(rows: &Rows, label: Label, at: usize) -> Finding {
    let kind = rows.kind(label).unwrap_or(Kind::Group);
    if label == 1 {
        return outermost(rows, kind, at);
    }
    let form = Form::wanted(kind)[at - 1];
    let (field, wanted) = (FIELDS[at], form.words(rows.count()));
    let (written, of_kind) = (words::quoted(rows.field(label, at)), words::of_kind(kind));
    let sentence = format!("field {field} of {of_kind} is {written}; it has to be {wanted}");
    let found = Finding::at(rows.mark(label, at), sentence);
    let field = rows.field(label, at);
    let help = match form {
        _ if field == "-" => None,
        Form::Number => numbers::instead(field),
        Form::Label => label_instead(rows, label, at),
        Form::Name => name_instead(rows, field),
        Form::Path => path_instead(field),
        Form::Missing => None,
    };
    found.help(help.unwrap_or_else(|| line_instead(rows, label, kind)))
}

/// The line with its fields in their places, another kind, or how a line of
/// this kind is written.
fn line_instead(rows: &Rows, label: Label, kind: Kind) -> String {
    let fields = rows.fields(label);
    if let Some(line) = rewrite::line(&fields.join(" "), rows.count()) {
        return format!("write `{line}`");
    }
    let others = rewrite::other_kinds(fields, rows.count());
    let others: Vec<String> = others.into_iter().map(words::of_kind).collect();
    let template = words::template(kind);
    match &others[..] {
        [] => format!("a {kind} is written {template}"),
        others => format!(
            "a {kind} is written {template}; the fields are those of {}",
            words::or(others)
        ),
    }
}

/// Label 1, from the first field that differs.
fn outermost(rows: &Rows, kind: Kind, at: usize) -> Finding {
    let sentence = "label 1 has to be `G - 0 - -`, the outermost Group";
    let found = Finding::at(rows.mark(1, at), sentence);
    let is_other = Form::misfits(kind, rows.fields(1), rows.count()).is_empty();
    match is_other || at == KIND {
        true => found.help("put the line `G - 0 - -` before it; every label is then one more"),
        false => found.help("write `G - 0 - -`"),
    }
}

fn label_instead(rows: &Rows, label: Label, at: usize) -> Option<String> {
    let (field, count) = (rows.field(label, at), rows.count());
    let is_group = at == A && rows.is_definition(label);
    if forms::is_path(field) {
        return named_instead(rows, field, is_group);
    }
    let Ok(number) = field.parse::<i64>() else {
        let is_decimal = numbers::is_decimal(field);
        return is_decimal.then(|| "a label is the number of a line, and whole".to_string());
    };
    match number {
        0 if is_group => Some("the outermost Group is label 1: write `1`".to_string()),
        0 => Some("labels count from 1, the first line after line one".to_string()),
        _ if number < 0 => Some(format!(
            "a label is wanted: put the number in a line of its own, `N - {number} - -`"
        )),
        _ if number == count as i64 + 1 => Some(format!(
            "labels count from the line after line one: line {number} is label {count}"
        )),
        _ if number > count as i64 => {
            Some(format!("the last label is {count}, in line {}", count + 1))
        }
        _ => Some(format!("write `{number}`")),
    }
}

/// A name where a label has to be.
fn named_instead(rows: &Rows, path: &str, is_group: bool) -> Option<String> {
    let is_meant = |&label: &Label| {
        let is_kind = (rows.kind(label) == Some(Kind::Group)) == is_group;
        rows.is_definition(label) && is_kind && names::ends_with(&rows.full_name(label), path)
    };
    let label = rows.labels().find(is_meant)?;
    let group = || format!("{} is label {label}: write `{label}`", rows.title(label));
    named::by_label(rows, label, path).or_else(|| Some(group()))
}

fn name_instead(rows: &Rows, field: &str) -> Option<String> {
    if let Some((group, name)) = field.rsplit_once('.') {
        let is_meant = |&label: &Label| {
            rows.kind(label) == Some(Kind::Group) && names::ends_with(&rows.full_name(label), group)
        };
        let label = rows.labels().skip(1).find(is_meant)?;
        let group = rows.shown_name(label);
        return Some(format!(
            "a definition has one name: write `{name}`, \
             and in field a {label}, the label of `{group}`"
        ));
    }
    let is_part = |letter: &char| letter.is_ascii_alphanumeric();
    let plain: String = field.chars().filter(is_part).collect();
    match plain.len() {
        _ if forms::is_name(&plain) => {
            Some(format!("letters and digits alone: is `{plain}` meant?"))
        }
        length if length > forms::NAME_LETTERS => Some(format!("this one has {length} letters")),
        1.. => Some("a name begins with a letter".to_string()),
        _ => None,
    }
}

fn path_instead(field: &str) -> Option<String> {
    let is_other = |letter: char| !letter.is_ascii_alphanumeric();
    let names: Vec<&str> = field
        .split(is_other)
        .filter(|name| !name.is_empty())
        .collect();
    let path = names.join(".");
    if forms::is_path(&path) {
        return Some(format!("names are joined by one dot: is `{path}` meant?"));
    }
    if let Some(number) = numbers::read(field) {
        return Some(format!(
            "a number has a line of its own: `N - {number} - -`"
        ));
    }
    let long = names.iter().find(|name| name.len() > forms::NAME_LETTERS);
    match long {
        Some(name) => Some(format!("`{name}` has {} letters", name.len())),
        None if names.len() > forms::PATH_NAMES => {
            Some(format!("this one has {} names", names.len()))
        }
        None => None,
    }
}
