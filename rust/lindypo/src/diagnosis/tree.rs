//! Refusals 8 to 11: who uses whom.

use super::rows::{Rows, Use, A, FIELDS, NAME};
use super::{named, paths, words, Finding};
use crate::{Kind, Label};

/// The most users that a sentence names.
const USERS: usize = 6;

/// The deepest level that is allowed.
pub const LEVELS: usize = 32;

/// Whether a field of a line wants a Group; else it wants an expression.
fn wants_group(rows: &Rows, label: Label, field: usize) -> bool {
    field == A && rows.is_definition(label)
}

/// Whether a label is on the side of a line where its field has to lead.
fn is_on_side(rows: &Rows, label: Label, field: usize, part: Label) -> bool {
    match wants_group(rows, label, field) {
        true => part < label,
        false => part > label,
    }
}

/// Whether a field may lead to a label, as far as is known: a line without a
/// kind may be anything.
fn may_lead(rows: &Rows, label: Label, field: usize, part: Label) -> bool {
    let is_kind = match wants_group(rows, label, field) {
        true => rows.kind(part) == Some(Kind::Group),
        false => rows.is_expression(part),
    };
    is_on_side(rows, label, field, part) && (is_kind || rows.kind(part).is_none())
}

/// The fields of a line that name a Group, a body or an operand.
pub fn link_fields(rows: &Rows, label: Label) -> impl Iterator<Item = usize> {
    let group = (label > 1 && rows.is_definition(label)).then_some(A);
    group.into_iter().chain(rows.part_fields(label))
}

/// The fields of a line that refusal 8 is about.
pub fn wrong_links(rows: &Rows, label: Label) -> Vec<usize> {
    let is_wrong = |&field: &usize| {
        let part = rows.link(label, field);
        !may_lead(rows, label, field, part)
    };
    link_fields(rows, label).filter(is_wrong).collect()
}

/// Refusal 8, of one field.
pub fn link(rows: &Rows, label: Label, field: usize) -> Finding {
    let (name, part) = (FIELDS[field], rows.link(label, field));
    let wanted = match wants_group(rows, label, field) {
        true => "a Group with a smaller label",
        false => "an expression with a larger label",
    };
    let found = match rows.kind(part) {
        _ if part == label => "this very line".to_string(),
        Some(kind) => format!("label {part}, {}", words::of_kind(kind)),
        None => format!("label {part}"),
    };
    let sentence =
        format!("field {name} leads to {found}; it has to lead to {wanted} than {label}");
    let mut finding = Finding::at(rows.mark(label, field), sentence);
    if part != label {
        finding = finding.see(rows.mark_line(part), format!("label {part} is here"));
    }
    let slip = counted_otherwise(rows, label, field);
    finding.may_help(slip.or_else(|| mended(rows, label, field)))
}

/// The label that a field means where its writer counts lines from line one, or
/// from 0.
fn counted_otherwise(rows: &Rows, label: Label, field: usize) -> Option<String> {
    let part = rows.link(label, field);
    let is_free = |other: Label| {
        let is_used = !wants_group(rows, label, field) && !rows.uses(other).is_empty();
        let is_known = rows.is_whole() && rows.kind(other).is_some();
        is_known && may_lead(rows, label, field, other) && !is_used
    };
    let (less, more) = (part.wrapping_sub(1), part + 1);
    let meant = |other: Label| {
        let kind = rows.kind(other).map_or(String::new(), words::of_kind);
        format!("is `{other}` meant, {kind}?")
    };
    if is_free(less) {
        let why = "labels count from the line after line one";
        return Some(format!(
            "{why}: line {part} is label {less}; {}",
            meant(less)
        ));
    }
    is_free(more).then(|| format!("labels count from 1; {}", meant(more)))
}

/// What to do where the label is the one that is meant.
fn mended(rows: &Rows, label: Label, field: usize) -> Option<String> {
    let part = rows.link(label, field);
    let (kind, is_group) = (rows.kind(part)?, wants_group(rows, label, field));
    Some(match kind {
        _ if part == label && is_group => "write the label of the Group around it".to_string(),
        _ if part == label => "write the label of the line that it uses".to_string(),
        Kind::Group if is_group => "a Group stands above its members: move its line up".to_string(),
        _ if is_group => "write the label of a Group; the outermost Group is `1`".to_string(),
        Kind::Group => "a Group has no number: read a value of it".to_string(),
        Kind::Value | Kind::Function => {
            return named::by_label(rows, part, &path_here(rows, label, part));
        }
        _ => "an expression stands below the line that uses it: move its line down".to_string(),
    })
}

/// The path by which a line can name a definition, or what stands for it.
fn path_here(rows: &Rows, label: Label, definition: Label) -> String {
    let owner = match rows.is_definition(label) {
        true => label,
        false => rows.owner(label),
    };
    let path = paths::path_to(rows, rows.link(owner, A), definition);
    path.unwrap_or_else(|| "PATH".to_string())
}

/// Refusal 9.
pub fn uses(rows: &Rows, label: Label) -> Finding {
    let uses = rows.uses(label);
    let users = users_named(uses);
    let sentence = match uses.len() {
        0 => "no field uses this expression; one field has to".to_string(),
        2 => format!("this expression is used twice, by {users}"),
        count => format!("this expression is used {count} times, by {users}"),
    };
    let mut found = Finding::at(rows.mark_line(label), sentence);
    for at in uses.iter().take(USERS) {
        found = found.see(rows.mark(at.user, at.field), used_as(rows, at));
    }
    match uses.is_empty() {
        true => unused(found, rows, label),
        false => found.help(match free(rows, label) {
            Some(free) => format!("label {free} is used by no field: is it meant in one of these?"),
            None => "each use has a line of its own: write it once more, with all it uses".into(),
        }),
    }
}

/// Which field of which line uses it.
fn used_as(rows: &Rows, at: &Use) -> String {
    let user = match rows.is_definition(at.user) {
        true => rows.title(at.user),
        false => format!("label {}", at.user),
    };
    format!("field {} of {user}", FIELDS[at.field])
}

/// The only expression that nobody uses, other than this one.
fn free(rows: &Rows, label: Label) -> Option<Label> {
    let is_free = |&other: &Label| rows.is_expression(other) && rows.uses(other).is_empty();
    let mut free = rows
        .labels()
        .filter(|&other| other != label)
        .filter(is_free);
    free.next()
        .filter(|_| free.next().is_none() && rows.is_whole())
}

/// What may have been meant with an expression that nobody uses.
fn unused(found: Finding, rows: &Rows, label: Label) -> Finding {
    let is_busy = |&other: &Label| rows.is_expression(other) && rows.uses(other).len() > 1;
    let Some(busy) = rows.labels().find(is_busy) else {
        return found.help("name it in the field where it belongs, or leave the line out");
    };
    let mut found = found;
    for at in rows
        .uses(busy)
        .iter()
        .filter(|at| at.user < label)
        .take(USERS)
    {
        let used = used_as(rows, at);
        let help = format!("{used} leads to label {busy}, as another does: is `{label}` meant?");
        found = found.see(rows.mark(at.user, at.field), help);
    }
    found
}

/// The lines that use an expression, each once; the rest of many is left out.
fn users_named(uses: &[Use]) -> String {
    let mut users: Vec<Label> = uses.iter().map(|at| at.user).collect();
    users.dedup();
    let labels = if users.len() == 1 { "label" } else { "labels" };
    format!("{labels} {}", words::and_more(&users, USERS))
}

/// Refusal 10.
pub fn argument(rows: &Rows, label: Label) -> Finding {
    let owner = rows.owner(label);
    let title = rows.title(owner);
    let sentence = format!("an argument (P) stands in {title}; only a function has one");
    Finding::at(rows.mark_line(label), sentence)
        .see(rows.mark(owner, NAME), format!("{title} is here"))
        .help("put a number (N) or a read (R) in its place, or make the value a function (F)")
}

/// Refusal 11.
pub fn level(rows: &Rows, label: Label) -> Finding {
    let (level, owner) = (rows.outward(label).count(), rows.owner(label));
    let title = rows.title(owner);
    let sentence = format!(
        "this expression is at level {level} in {title}; at most {LEVELS} levels are allowed"
    );
    Finding::at(rows.mark_line(label), sentence)
        .see(rows.mark(owner, NAME), format!("{title} is here"))
        .help("give a part of the expression a value (V) of its own and read that (R)")
}
