//! Which value is meant.

use lindypo::{why, Kind, Label, Sheet};

use crate::labels::{self, is_label};
use crate::numerals::counted;

/// The most values that a message names.
const NAMED: usize = 12;

/// The line with this label or full name.
pub fn label_of(sheet: &Sheet, name: &str) -> Option<Label> {
    labels::of(sheet, name).filter(|&label| sheet.line(label).is_some())
}

/// What to say of a name that is no value's.
pub fn unknown(sheet: &Sheet, name: &str) -> String {
    let Some(label) = label_of(sheet, name) else {
        return match is_label(name) {
            true => format!("there is no label {name}: the last is {}", sheet.labels()),
            false => format!("there is no value `{name}`; {}", meant(sheet, name)),
        };
    };
    let what = match is_label(name) {
        true => format!("label {name}"),
        false => format!("`{}`", sheet.full_name(label)),
    };
    match sheet.line(label).map(|line| line.kind) {
        Some(Kind::Group) => format!("{what} is a Group; {}", values_under(sheet, label)),
        Some(kind) => format!("{what} is no value but {} (line {})", a(kind), label + 1),
        None => what,
    }
}

/// "a function", "an argument".
fn a(kind: Kind) -> String {
    let article = if kind == Kind::Argument { "an" } else { "a" };
    format!("{article} {kind}")
}

/// Which values it may mean, or which there are.
fn meant(sheet: &Sheet, name: &str) -> String {
    let labels = why::meant(sheet, name);
    match labels.is_empty() {
        true => values_under(sheet, 1),
        false => {
            let names = labels.iter().map(|&label| sheet.full_name(label));
            let names: Vec<String> = names.map(|name| format!("`{name}`")).collect();
            format!("is {} meant?", names.join(" or "))
        }
    }
}

/// The values of a Group, at any depth.
fn values_under(sheet: &Sheet, group: Label) -> String {
    let around = |&label: &Label| sheet.line(label)?.owner;
    let is_under = |&label: &Label| {
        let mut groups = std::iter::successors(Some(label), around);
        groups.any(|at| at == group)
    };
    let values = sheet.lines().filter(|line| line.kind == Kind::Value);
    let values: Vec<Label> = values.map(|line| line.label).filter(is_under).collect();
    let names = values
        .iter()
        .take(NAMED)
        .map(|&label| sheet.full_name(label));
    let names: Vec<String> = names.map(|name| format!("`{name}`")).collect();
    let holder = if group == 1 { "the sheet" } else { "it" };
    match values.len().saturating_sub(NAMED) {
        _ if values.is_empty() => format!("{holder} has no values"),
        0 => format!("{holder} has {}", names.join(", ")),
        more => format!(
            "{holder} has {} and {}",
            names.join(", "),
            counted(more as u64, "more value")
        ),
    }
}
