//! Refusals 12 to 15: names and paths, and what was meant.

use super::near;
use super::paths::{mark_name, names, outward, path_to, start, target_of, walk, wanted, Walk};
use super::rows::{Rows, A, NAME};
use super::words;
use super::Finding;
use crate::{same_name, Kind, Label};

/// The most members of a Group that a sentence names, and the most Groups.
const MEMBERS: usize = 12;
const GROUPS: usize = 3;

/// Refusal 12.
pub fn name(rows: &Rows, label: Label) -> Finding {
    let (group, name) = (rows.link(label, A), rows.name(label));
    let earlier = rows.member(group, name).unwrap_or(0);
    let (group, first, line) = (rows.title(group), rows.name(earlier), earlier + 1);
    let why = match first == name {
        true => "",
        false => ": names are compared without regard to capitals",
    };
    let sentence = format!("{group} has a member `{first}` already (line {line}){why}");
    Finding::at(rows.mark(label, NAME), sentence)
        .see(rows.mark(earlier, NAME), format!("`{first}` is here first"))
        .help("give one of them another name, or another Group")
}

/// Refusal 13.
pub fn head(rows: &Rows, label: Label) -> Finding {
    let (start, head) = (start(rows, label), names(rows, label)[0]);
    let sentence = match start {
        0 | 1 => format!("the outermost Group has no member `{head}`"),
        group => {
            let group = rows.title(group);
            format!("neither {group} nor a Group around it has a member `{head}`")
        }
    };
    let mut found = Finding::at(mark_name(rows, label, 0), sentence);
    let groups: Vec<Label> = outward(rows, start).collect();
    found = alike(found, rows, label, 0, &groups);
    found = elsewhere(found, rows, label, 0);
    found = anywhere(found, rows, label, 0);
    for &group in groups.iter().take(GROUPS) {
        found = found.help(members_named(rows, group));
    }
    found
}

/// Refusal 14.
pub fn member(rows: &Rows, label: Label) -> Finding {
    let names = names(rows, label);
    let Walk { found, used } = walk(rows, start(rows, label), &names);
    let (title, name) = (rows.title(found), names.get(used).copied().unwrap_or(""));
    let mark = mark_name(rows, label, used);
    if rows.kind(found) == Some(Kind::Group) {
        let finding = Finding::at(mark, format!("{title} has no member `{name}`"));
        let finding = alike(finding, rows, label, used, &[found]);
        let finding = elsewhere(finding, rows, label, used);
        let finding = anywhere(finding, rows, label, used);
        return hidden(finding, rows, label).help(members_named(rows, found));
    }
    let sentence = format!("{title} is no Group, so it has no member `{name}`");
    let finding = Finding::at(mark, sentence);
    let finding = elsewhere(hidden(finding, rows, label), rows, label, used);
    let is_wanted = rows.kind(found) == Some(wanted(rows, label));
    let path = names[..used].join(".");
    finding.may_help(is_wanted.then(|| format!("if {title} is meant, write `{path}`")))
}

/// Refusal 15.
pub fn wrong_target(rows: &Rows, label: Label) -> Finding {
    let (start, path) = (start(rows, label), rows.name(label));
    let found = target_of(rows, start, path).unwrap_or(0);
    let title = rows.title(found);
    let must = match wanted(rows, label) {
        Kind::Value => "a read (R) has to lead to a value",
        _ => "a call (C) has to lead to a function",
    };
    let sentence = format!("{must}; `{path}` leads to {title}");
    let finding = Finding::at(rows.mark(label, NAME), sentence)
        .see(rows.mark(found, NAME), format!("{title} is here"));
    hidden(finding, rows, label).may_help(match rows.kind(found) {
        Some(Kind::Function) => Some(format!("call it: `C {path} ARGUMENT - -`")),
        Some(Kind::Value) => Some(format!("read it: `R {path} - - -`")),
        _ => Some(members_of_kind(rows, found, wanted(rows, label), path)),
    })
}

/// What of a kind a Group has, to be written after its path.
fn members_of_kind(rows: &Rows, group: Label, kind: Kind, path: &str) -> String {
    let is_kind = |&&member: &&Label| rows.kind(member) == Some(kind);
    let members = rows.members(group).iter().filter(is_kind);
    let names: Vec<String> = members
        .map(|&member| rows.name(member).to_string())
        .collect();
    match &names[..] {
        [] => members_named(rows, group),
        [name] => format!("name the {kind} in it: `{path}.{name}`"),
        names => {
            let names = words::names(names, MEMBERS);
            format!("name a {kind} in it, after `{path}.`: {names}")
        }
    }
}

/// How to use a value or function where the label of an expression is wanted.
pub fn by_label(rows: &Rows, definition: Label, path: &str) -> Option<String> {
    let title = rows.title(definition);
    match rows.kind(definition)? {
        Kind::Value => Some(format!(
            "to read {title}, write the label of a line `R {path} - - -`"
        )),
        Kind::Function => Some(format!(
            "to call {title}, write the label of a line `C {path} ARGUMENT - -`"
        )),
        _ => None,
    }
}

/// With the question whether a definition is meant, by a path that leads to it.
fn ask(found: Finding, rows: &Rows, near: Label, path: &str) -> Finding {
    let line = near + 1;
    found
        .go_on(&format!("; is `{path}` (line {line}) meant?"))
        .see(rows.mark(near, NAME), format!("`{path}` is here"))
}

/// The member of these Groups whose name is nearest to a name of the path. Of
/// those that are as near it is the first Group's, since the path would end there.
fn alike(found: Finding, rows: &Rows, label: Label, at: usize, groups: &[Label]) -> Finding {
    let name = names(rows, label)[at];
    let members = groups.iter().flat_map(|&group| rows.members(group));
    let named = members.map(|&member| (member, rows.name(member)));
    match near::nearest(name, named) {
        Some(near) => ask(found, rows, near, rows.name(near)),
        None => found,
    }
}

/// Definitions elsewhere that the rest of a path names, with a path that leads
/// there from here.
fn elsewhere(found: Finding, rows: &Rows, label: Label, at: usize) -> Finding {
    let (start, kind) = (start(rows, label), wanted(rows, label));
    let names = names(rows, label);
    let is_meant = |&other: &Label| {
        let around = std::iter::successors(Some(other), |&at| rows.around(at));
        let rest = names[at..].iter().rev();
        let is_named =
            |(label, name): (Label, &&str)| label > 1 && same_name(rows.name(label), name);
        rows.kind(other) == Some(kind) && around.zip(rest).all(is_named)
    };
    let there = |other: Label| Some((other, path_to(rows, start, other)?));
    let others = rows.labels().skip(1).filter(is_meant).filter_map(there);
    others.take(GROUPS).fold(found, |found, (other, path)| {
        let group = match rows.link(other, A) {
            1 => "the outermost Group".to_string(),
            group => format!("`{}`", rows.shown_name(group)),
        };
        let name = rows.name(other);
        found.see(
            rows.mark(other, NAME),
            format!("`{name}` is in {group}: write `{path}`"),
        )
    })
}

/// Where nothing is found yet: the definition whose name is nearest, wherever
/// it stands.
fn anywhere(found: Finding, rows: &Rows, label: Label, at: usize) -> Finding {
    let names = names(rows, label);
    if found.has_help() || at + 1 < names.len() {
        return found;
    }
    let is_kind = |&other: &Label| rows.kind(other) == Some(wanted(rows, label));
    let others = rows.labels().skip(1).filter(is_kind);
    let near = near::nearest(names[at], others.map(|other| (other, rows.name(other))));
    let path = |near: Label| path_to(rows, start(rows, label), near);
    match near.and_then(|near| Some((near, path(near)?))) {
        Some((near, path)) => ask(found, rows, near, &path),
        None => found,
    }
}

/// A Group further out from which the whole path would lead to what it has to:
/// the first with the head settles it.
fn hidden(found: Finding, rows: &Rows, label: Label) -> Finding {
    let (path, head) = (rows.name(label), names(rows, label)[0]);
    let has_head = |&group: &Label| rows.member(group, head).is_some();
    let leads = |group: Label| {
        let target = target_of(rows, group, path)?;
        (rows.kind(target) == Some(wanted(rows, label))).then(|| rows.member(group, head))?
    };
    let mut groups = outward(rows, start(rows, label)).filter(has_head);
    let inner = groups.next().and_then(|group| rows.member(group, head));
    let (Some(inner), Some(outer)) = (inner, groups.find_map(leads)) else {
        return found;
    };
    let (hidden, hiding, line) = (rows.name(outer), rows.name(inner), inner + 1);
    found.see(
        rows.mark(outer, NAME),
        format!("this `{hidden}` is hidden by `{hiding}` further in (line {line}): give one another name"),
    )
}

/// What a Group has.
fn members_named(rows: &Rows, group: Label) -> String {
    let members = rows.members(group).iter();
    let members: Vec<String> = members
        .map(|&member| rows.name(member).to_string())
        .collect();
    let title = rows.title(group);
    match members.is_empty() {
        true => format!("{title} has no members"),
        false => format!("{title} has {}", words::names(&members, MEMBERS)),
    }
}
