//! Where paths lead.

use super::forms::PATH_NAMES;
use super::rows::{Rows, A, NAME};
use crate::{Kind, Label, Mark};

/// How far a path leads: the definition that it comes to last, 0 for none, and
/// how many of its names are then used up.
#[derive(Clone, Copy)]
pub struct Walk {
    pub found: Label,
    pub used: usize,
}

/// The names of a path.
pub fn names<'text>(rows: &Rows<'text>, label: Label) -> Vec<&'text str> {
    rows.name(label).split('.').collect()
}

/// The Group whose member is the owner.
pub fn start(rows: &Rows, label: Label) -> Label {
    rows.link(rows.owner(label), A)
}

/// A Group and those around it, outward.
pub fn outward<'rows>(rows: &'rows Rows, group: Label) -> impl Iterator<Item = Label> + 'rows {
    std::iter::successors(Some(group), |&group| rows.around(group))
}

/// Follows the names from a Group.
pub fn walk(rows: &Rows, group: Label, names: &[&str]) -> Walk {
    let mut groups = outward(rows, group);
    let head = groups.find_map(|group| rows.member(group, names[0]));
    let Some(mut found) = head else {
        return Walk { found: 0, used: 0 };
    };
    for (used, name) in names.iter().enumerate().skip(1) {
        let is_group = rows.kind(found) == Some(Kind::Group);
        match rows.member(found, name).filter(|_| is_group) {
            Some(member) => found = member,
            None => return Walk { found, used },
        }
    }
    let used = names.len();
    Walk { found, used }
}

/// What a path has to lead to: a value for a read, a function for a call.
pub fn wanted(rows: &Rows, label: Label) -> Kind {
    match rows.kind(label) {
        Some(Kind::Read) => Kind::Value,
        _ => Kind::Function,
    }
}

/// What a path leads to from a Group, all its names used up.
pub fn target_of(rows: &Rows, group: Label, path: &str) -> Option<Label> {
    let names: Vec<&str> = path.split('.').collect();
    let Walk { found, used } = walk(rows, group, &names);
    (used == names.len()).then_some(found)
}

/// The target of an R or C, where its path leads to what it has to.
pub fn target(rows: &Rows, label: Label) -> Option<Label> {
    let found = target_of(rows, start(rows, label), rows.name(label))?;
    (rows.kind(found) == Some(wanted(rows, label))).then_some(found)
}

/// The shortest path that leads from a Group to a definition.
pub fn path_to(rows: &Rows, group: Label, definition: Label) -> Option<String> {
    let full_name = rows.full_name(definition);
    let names: Vec<&str> = full_name.split('.').collect();
    let path = |from: usize| names[from..].join(".");
    let leads = |path: &String| target_of(rows, group, path) == Some(definition);
    let shortest = (0..names.len()).rev().take(PATH_NAMES);
    shortest.map(path).find(leads)
}

/// One name of a path.
pub fn mark_name(rows: &Rows, label: Label, at: usize) -> Mark {
    let names = names(rows, label);
    let before: usize = names.iter().take(at).map(|name| name.len() + 1).sum();
    let field = rows.mark(label, NAME);
    Mark {
        column: field.column + before,
        width: names.get(at).map_or(1, |name| name.len()),
        ..field
    }
}
