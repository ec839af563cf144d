//! Which Groups to fold, so that a picture can be taken in.

use std::collections::BTreeSet;

use lindypo::Label;

use super::view::View;

/// The most cards of a picture, where folding helps.
pub const MOST: usize = 60;

/// The Groups to fold: the innermost and largest first, and none for nothing.
/// The Groups around the label `open` stay open.
pub fn automatic(view: &View, open: Option<Label>) -> BTreeSet<Label> {
    let mut folded = BTreeSet::new();
    let mut groups = vec![];
    add_groups(&mut groups, view, 0, open);
    groups.sort_by_key(|group| {
        (
            usize::MAX - group.depth,
            usize::MAX - group.cards,
            group.label,
        )
    });
    let mut sequence = vec![];
    for group in groups {
        if cards(view, &folded) > MOST {
            folded.insert(group.label);
            sequence.push(group.label);
        }
    }
    for label in sequence.into_iter().rev() {
        let fewest = cards(view, &folded).max(MOST);
        folded.remove(&label);
        if cards(view, &folded) > fewest {
            folded.insert(label);
        }
    }
    folded
}

struct Group {
    label: Label,
    depth: usize,
    cards: usize,
}

/// All Groups that folding makes smaller, but the outermost. Answers whether
/// `open` is under the view.
fn add_groups(groups: &mut Vec<Group>, view: &View, depth: usize, open: Option<Label>) -> bool {
    let mut has_open = open == Some(view.label());
    for member in &view.members {
        has_open |= add_groups(groups, member, depth + 1, open);
    }
    let cards = view.counts().all();
    if view.is_group() && depth > 0 && cards > 1 && !has_open {
        groups.push(Group {
            label: view.label(),
            depth,
            cards,
        });
    }
    has_open
}

/// How many cards there are where these Groups are folded.
fn cards(view: &View, folded: &BTreeSet<Label>) -> usize {
    match folded.contains(&view.label()) || !view.is_group() {
        true => 1,
        false => view
            .members
            .iter()
            .map(|member| cards(member, folded))
            .sum(),
    }
}
