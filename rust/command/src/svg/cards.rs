//! The values and functions, top to bottom: each has a row of its own. So has a
//! folded Group.

use std::collections::BTreeMap;

use lindypo::{Label, Sheet, State};

use super::titles;
use super::view::{Counts, View};
use crate::numerals::counted;
use crate::outline::positions;
use crate::tree::Node;

/// A value, a function or a folded Group.
pub struct Card<'a> {
    pub view: &'a View<'a>,
    /// How many Groups it stands in.
    pub depth: usize,
    /// What a value was before, where it has changed.
    before: Option<State>,
    /// How many of its values have changed.
    pub changed: usize,
}

pub struct Cards<'a> {
    pub list: Vec<Card<'a>>,
}

impl<'a> Cards<'a> {
    /// In the sequence of the tree.
    pub fn new(outermost: &'a View, before: &BTreeMap<Label, State>) -> Self {
        let mut list = vec![];
        add(&mut list, outermost, 0, before);
        Cards { list }
    }

    /// The row of each definition that has one, by label: its own, or that of
    /// the folded Group that it is in.
    pub fn rows(&self, labels: usize) -> Vec<Option<usize>> {
        let mut rows = vec![None; labels + 1];
        for (row, card) in self.list.iter().enumerate() {
            for label in card.view.labels() {
                rows[label] = Some(row);
            }
        }
        rows
    }
}

fn add<'a>(
    list: &mut Vec<Card<'a>>,
    view: &'a View<'a>,
    depth: usize,
    before: &BTreeMap<Label, State>,
) {
    if view.is_card() {
        let labels = view.labels();
        let changed = labels.iter().filter(|label| before.contains_key(label));
        list.push(Card {
            view,
            depth,
            before: before.get(&view.label()).copied(),
            changed: changed.count(),
        });
        return;
    }
    for member in &view.members {
        add(list, member, depth + 1, before);
    }
}

impl<'a> Card<'a> {
    pub fn node(&self) -> &'a Node<'a> {
        self.view.node
    }

    pub fn class(&self) -> &'static str {
        match self.view.counts() {
            _ if self.failures() > 0 => "failed",
            _ if self.view.is_folded => "folded",
            Counts { values: 0, .. } => "function",
            _ => "value",
        }
    }

    /// How many of its values have no number.
    pub fn failures(&self) -> usize {
        failures(self.view)
    }

    /// The place in the plan; a function has none, and is marked as one.
    pub fn badge(&self) -> String {
        match self.node().span {
            Some(span) => positions(span),
            None if self.view.counts().functions > 0 => "f".to_string(),
            None => "-".to_string(),
        }
    }

    /// The number, or in words why there is none; of a value that has changed,
    /// after what it was.
    pub fn state(&self) -> String {
        match (self.node().outcome, self.failures()) {
            (Some(outcome), _) => {
                let before = self.before.map(|before| format!("{before} \u{2192} "));
                format!("{}{}", before.unwrap_or_default(), outcome.state)
            }
            (None, 0) => String::new(),
            (None, failures) => format!("{failures} without a number"),
        }
    }

    /// The last words of the card.
    pub fn note(&self) -> String {
        match self.node().outcome {
            Some(outcome) => counted(u64::from(outcome.steps), "step"),
            None if self.view.is_folded && self.changed > 0 => {
                format!("{}, {} changed", contents(self.view), self.changed)
            }
            None if self.view.is_folded => contents(self.view),
            None => "function".to_string(),
        }
    }

    /// What is said where the pointer rests on it, line by line.
    pub fn title(&self, sheet: &Sheet) -> Vec<String> {
        let mut lines = match self.view.is_folded {
            true => titles::group(sheet, self.view),
            false => titles::definition(sheet, self.node()),
        };
        let before = self.before.map(|before| format!("before: {before}"));
        lines.extend(before);
        lines
    }
}

fn failures(view: &View) -> usize {
    let state = view.node.outcome.map(|outcome| outcome.state);
    let own = state.is_some_and(|state| !matches!(state, State::Number(_)));
    let members: usize = view.members.iter().map(failures).sum();
    usize::from(own) + members
}

/// "3 of 15 values, 1 function".
pub fn contents(view: &View) -> String {
    let (drawn, all) = (view.counts(), view.counts_of_all());
    let part = |drawn: usize, all: usize, thing: &str| {
        let of = if drawn < all {
            format!("{drawn} of ")
        } else {
            String::new()
        };
        (all > 0).then(|| of + &counted(all as u64, thing))
    };
    let parts = [
        part(drawn.values, all.values, "value"),
        part(drawn.functions, all.functions, "function"),
    ];
    match parts.iter().flatten().next() {
        None => "no values".to_string(),
        Some(_) => parts.into_iter().flatten().collect::<Vec<_>>().join(", "),
    }
}
