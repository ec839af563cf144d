//! Refusals 16 to 18: cycles and orders.

use std::collections::VecDeque;

use super::paths;
use super::rows::{Rows, NAME};
use super::words;
use super::Finding;
use crate::{Kind, Label};

/// The most values that a sentence names.
const VALUES: usize = 8;

/// A mention: the R or C line, and the definition that it leads to.
#[derive(Clone, Copy)]
pub struct Mention {
    pub line: Label,
    pub target: Label,
}

/// By label of a definition, from 0: what it mentions, upward through the lines.
pub type Mentions = Vec<Vec<Mention>>;

/// All mentions of lines whose paths lead to what they have to.
pub fn mentions(rows: &Rows) -> Mentions {
    let mut mentions: Mentions = vec![vec![]; rows.count() + 1];
    let is_path = |&label: &Label| matches!(rows.kind(label), Some(Kind::Read | Kind::Call));
    for line in rows.labels().filter(is_path) {
        if let Some(target) = paths::target(rows, line) {
            mentions[rows.owner(line)].push(Mention { line, target });
        }
    }
    mentions
}

/// Refusal 16.
pub fn cycle(rows: &Rows, mentions: &Mentions, label: Label) -> Finding {
    let round = way(mentions, label, |found| found == label);
    let name = rows.shown_name(label);
    let names = way_named(rows, label, &round);
    let sentence = format!("the value `{name}` reaches itself: {names}");
    let found = Finding::at(rows.mark(label, NAME), sentence);
    steps(found, rows, label, &round).help("no value may reach itself: change one of these lines")
}

/// Refusal 17.
pub fn listed(rows: &Rows, order: &[Label], position: usize) -> Finding {
    let Some(&label) = order.get(position.saturating_sub(1)) else {
        return missing(rows, order);
    };
    match rows.kind(label) {
        Some(Kind::Value) => {
            let first = 1 + order.iter().position(|&other| other == label).unwrap_or(0);
            let name = rows.shown_name(label);
            let sentence = format!("`{name}` is listed already, at position {first}");
            Finding::new(sentence).help("leave out one of the two")
        }
        Some(kind) => {
            let kind = words::of_kind(kind);
            let sentence = format!("label {label} is {kind}, not a value");
            let found =
                Finding::new(sentence).see(rows.mark_line(label), format!("label {label} is here"));
            found.help(values(rows))
        }
        None => Finding::new(format!("there is no label {label}")).help(values(rows)),
    }
}

/// What an order lists.
fn values(rows: &Rows) -> String {
    let is_value = |&label: &Label| rows.kind(label) == Some(Kind::Value);
    let values: Vec<Label> = rows.labels().filter(is_value).collect();
    match values.is_empty() {
        true => "the sheet has no values: its order is empty".to_string(),
        false => format!(
            "an order lists the values: {}",
            words::and_more(&values, VALUES)
        ),
    }
}

fn missing(rows: &Rows, order: &[Label]) -> Finding {
    let is_missing =
        |&label: &Label| rows.kind(label) == Some(Kind::Value) && !order.contains(&label);
    let missing: Vec<Label> = rows.labels().filter(is_missing).collect();
    let first = missing.first().copied().unwrap_or(0);
    let name = rows.shown_name(first);
    let found = Finding::new(format!("the value `{name}` (label {first}) is not listed"))
        .see(rows.mark(first, NAME), format!("label {first} is here"));
    match missing.len() {
        1 => found.help("put it after every value that it reaches"),
        count => {
            let missing = words::and_more(&missing, VALUES);
            found.help(format!("{count} values are not listed: {missing}"))
        }
    }
}

/// Refusal 18.
pub fn early(rows: &Rows, mentions: &Mentions, order: &[Label], position: usize) -> Finding {
    let (before, label) = (&order[..position - 1], order[position - 1]);
    let is_late = |found: Label| rows.kind(found) == Some(Kind::Value) && !before.contains(&found);
    let way = way(mentions, label, is_late);
    let late = way.last().map_or(0, |mention| mention.target);
    let (name, late_name) = (rows.shown_name(label), rows.shown_name(late));
    let mut sentence = format!("`{name}` reaches `{late_name}`, which is not listed earlier");
    if way.len() > 1 {
        sentence += &format!(": {}", way_named(rows, label, &way));
    }
    let later = order
        .iter()
        .position(|&other| other == late)
        .map_or(0, |at| at + 1);
    steps(Finding::new(sentence), rows, label, &way).help(format!(
        "put `{late_name}` (label {late}), now at position {later}, before position {position}"
    ))
}

/// The names along a way, its start first.
fn way_named(rows: &Rows, from: Label, way: &[Mention]) -> String {
    let labels = std::iter::once(from).chain(way.iter().map(|mention| mention.target));
    let names: Vec<String> = labels.map(|label| rows.shown_name(label)).collect();
    words::way(&names)
}

/// Every step of a way, with its R or C line.
fn steps(found: Finding, rows: &Rows, from: Label, way: &[Mention]) -> Finding {
    let sources = std::iter::once(from).chain(way.iter().map(|mention| mention.target));
    sources.zip(way).fold(found, |found, (source, mention)| {
        let verb = match rows.kind(mention.line) {
            Some(Kind::Read) => "reads",
            _ => "calls",
        };
        let [source, target] = [source, mention.target].map(|label| rows.shown_name(label));
        let mark = rows.mark(mention.line, NAME);
        found.see(mark, format!("`{source}` {verb} `{target}`"))
    })
}

/// A shortest way along mentions from a definition to one that is looked for.
pub fn way(mentions: &Mentions, from: Label, is_wanted: impl Fn(Label) -> bool) -> Vec<Mention> {
    let mut came_by: Vec<Option<(Label, Mention)>> = vec![None; mentions.len()];
    let mut waiting = VecDeque::from([from]);
    while let Some(at) = waiting.pop_front() {
        for &mention in &mentions[at] {
            let next = mention.target;
            if is_wanted(next) {
                return way_back(&came_by, at, mention);
            }
            if next != from && came_by[next].is_none() {
                came_by[next] = Some((at, mention));
                waiting.push_back(next);
            }
        }
    }
    vec![]
}

fn way_back(came_by: &[Option<(Label, Mention)>], at: Label, last: Mention) -> Vec<Mention> {
    let back = std::iter::successors(came_by[at], |&(before, _)| came_by[before]);
    let mut way: Vec<Mention> = back.map(|(_, mention)| mention).collect();
    way.reverse();
    way.push(last);
    way
}
