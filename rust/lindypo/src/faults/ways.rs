//! Refusals 13 to 16 at every place, as far as each can be judged.

use super::judge::Judge;
use crate::diagnosis::order::{self, Mention, Mentions};
use crate::diagnosis::rows::A;
use crate::diagnosis::{named, paths};
use crate::{Kind, Label};

/// What becomes of a path.
#[derive(Clone, Copy, PartialEq, Eq)]
enum End {
    HeadNotFound,
    MemberNotFound,
    WrongKind(Label),
    Target(Label),
}

impl End {
    /// The refusal that it is, if it is one.
    fn number(self) -> u64 {
        match self {
            End::HeadNotFound => 13,
            End::MemberNotFound => 14,
            End::WrongKind(_) => 15,
            End::Target(_) => 0,
        }
    }
}

pub fn judge(judge: &mut Judge) {
    let is_path = |&label: &Label| matches!(judge.rows.kind(label), Some(Kind::Read | Kind::Call));
    let lines = judge.rows.labels().filter(is_path);
    let ends: Vec<(Label, End)> = lines.filter_map(|at| Some((at, end(judge, at)?))).collect();
    for number in 13..=15 {
        for &(label, _) in ends.iter().filter(|(_, end)| end.number() == number) {
            let finding = match number {
                13 => named::head(&judge.rows, label),
                14 => named::member(&judge.rows, label),
                _ => named::wrong_target(&judge.rows, label),
            };
            judge.find(number, label, finding);
        }
    }
    judge_cycles(judge, &ends);
}

/// Refusal 16: a value on a cycle that is shown already is not shown again.
fn judge_cycles(judge: &mut Judge, ends: &[(Label, End)]) {
    let mut mentions: Mentions = vec![vec![]; judge.rows.count() + 1];
    for &(line, end) in ends {
        if let (End::Target(target), Some(owner)) = (end, judge.owners[line]) {
            mentions[owner].push(Mention { line, target });
        }
    }
    let mut is_shown = vec![false; mentions.len()];
    let is_value = |&label: &Label| judge.rows.kind(label) == Some(Kind::Value);
    let values: Vec<Label> = judge.rows.labels().filter(is_value).collect();
    for value in values {
        let round = order::way(&mentions, value, |found| found == value);
        if !is_shown[value] && !round.is_empty() {
            judge.find(16, value, order::cycle(&judge.rows, &mentions, value));
            for mention in round {
                is_shown[mention.target] = true;
            }
        }
    }
}

/// What becomes of the path of an R or C; `None` where that rests on what is
/// not known.
fn end(judge: &Judge, label: Label) -> Option<End> {
    let owner = judge.owners[label].filter(|&owner| judge.is_placed(owner))?;
    let names = paths::names(&judge.rows, label);
    let Some(mut found) = head(judge, judge.rows.link(owner, A), names[0])? else {
        return Some(End::HeadNotFound);
    };
    for name in &names[1..] {
        if judge.rows.kind(found) != Some(Kind::Group) {
            return Some(End::MemberNotFound);
        }
        let Some(member) = member(judge, found, name)? else {
            let is_known = !judge.may_define(name);
            return is_known.then_some(End::MemberNotFound);
        };
        found = member;
    }
    let is_wanted = judge.rows.kind(found) == Some(paths::wanted(&judge.rows, label));
    Some(match is_wanted {
        true => End::Target(found),
        false => End::WrongKind(found),
    })
}

/// The definition that settles a head, from a Group outward, if there is one;
/// `None` where a line that is not known may.
fn head(judge: &Judge, start: Label, name: &str) -> Option<Option<Label>> {
    let is_known = !judge.may_define(name);
    for group in paths::outward(&judge.rows, start) {
        match member(judge, group, name)? {
            Some(found) => return (group == start || is_known).then_some(Some(found)),
            None if judge.is_placed(group) => {}
            None => return None,
        }
    }
    is_known.then_some(None)
}

/// The member of a Group with a name, if there is one; `None` where two have it.
fn member(judge: &Judge, group: Label, name: &str) -> Option<Option<Label>> {
    let is_doubled = judge.is_doubled(group, name);
    (!is_doubled).then(|| judge.rows.member(group, name))
}
