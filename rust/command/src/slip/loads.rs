//! The Groups as they are loaded, one after the other.

use std::collections::BTreeSet;

use lindypo::{Label, Sheet};

/// Values of one Group, not of those in it, that stand side by side in the plan.
#[derive(Debug, Clone, PartialEq, Eq)]
pub struct Load {
    pub group: Label,
    /// Positions in the plan, from 1.
    pub first: usize,
    pub last: usize,
    pub turn: Turn,
}

/// Whether the Group is loaded for the first time.
#[derive(Debug, Clone, Copy, PartialEq, Eq)]
pub enum Turn {
    First,
    /// It was loaded before, and since then only Groups in it were.
    Continued,
    /// This Group, or one around it, was loaded before and left since.
    Again(Label),
}

/// The loads of a plan.
pub fn of(sheet: &Sheet, plan: &[Label]) -> Vec<Load> {
    let mut loads: Vec<Load> = vec![];
    let mut past = Past::default();
    for (position, &value) in (1..).zip(plan) {
        let groups = groups_around(sheet, value);
        let group = groups.last().copied().unwrap_or(1);
        match loads.last_mut().filter(|load| load.group == group) {
            Some(load) => load.last = position,
            None => loads.push(Load {
                group,
                first: position,
                last: position,
                turn: past.load(groups),
            }),
        }
    }
    loads
}

/// The Groups that a definition is in, outermost first.
fn groups_around(sheet: &Sheet, label: Label) -> Vec<Label> {
    let around = |&at: &Label| sheet.line(at)?.owner;
    let mut groups: Vec<Label> = std::iter::successors(Some(label), around).skip(1).collect();
    groups.reverse();
    groups
}

/// The loads up to here.
#[derive(Default)]
struct Past {
    /// All Groups with a value at any depth.
    opened: BTreeSet<Label>,
    /// Those with a load of their own.
    loaded: BTreeSet<Label>,
    /// The Groups around the last value, outermost first.
    last: Vec<Label>,
}

impl Past {
    /// What it means to load the last of these Groups now.
    fn load(&mut self, groups: Vec<Label>) -> Turn {
        let shared = groups.iter().zip(&self.last);
        let shared = shared.take_while(|(one, other)| one == other).count();
        let mut entered = groups.iter().skip(shared);
        let again = entered.find(|group| self.opened.contains(group)).copied();
        let is_loaded = groups
            .last()
            .is_some_and(|&group| !self.loaded.insert(group));
        self.opened.extend(&groups);
        self.last = groups;
        match again {
            Some(group) => Turn::Again(group),
            None if is_loaded => Turn::Continued,
            None => Turn::First,
        }
    }
}

#[cfg(test)]
mod tests {
    use super::*;

    /// Groups 1; 2 and 5 in it; 3 in 2: values 6 and 7 of 2, 8 and 9 of 3, 10 of
    /// 5, 11 of 1.
    const SHEET: &[u8] = b"kind name a b c\nG - 0 - -\nG a 1 - -\nG b 2 - -\nG none 1 - -\n\
        G c 1 - -\nV p 2 12 -\nV q 2 13 -\nV r 3 14 -\nV s 3 15 -\nV t 5 16 -\nV u 1 17 -\n\
        N - 1 - -\nN - 1 - -\nN - 1 - -\nN - 1 - -\nN - 1 - -\nN - 1 - -\n";

    fn loads(plan: &[Label]) -> Vec<(Label, usize, usize, Turn)> {
        let sheet = Sheet::read(SHEET).expect("a sheet");
        let loads = of(&sheet, plan).into_iter();
        loads
            .map(|load| (load.group, load.first, load.last, load.turn))
            .collect()
    }

    #[test]
    fn a_group_in_another_does_not_leave_it() {
        let wanted = [
            (2, 1, 1, Turn::First),
            (3, 2, 3, Turn::First),
            (2, 4, 4, Turn::Continued),
            (1, 5, 5, Turn::First),
            (5, 6, 6, Turn::First),
        ];
        assert_eq!(loads(&[6, 8, 9, 7, 11, 10]), wanted);
    }

    #[test]
    fn a_group_that_was_left_is_loaded_again() {
        let wanted = [
            (3, 1, 1, Turn::First),
            (5, 2, 2, Turn::First),
            (2, 3, 3, Turn::Again(2)),
            (1, 4, 4, Turn::First),
            (3, 5, 5, Turn::Again(2)),
            (2, 6, 6, Turn::Continued),
        ];
        assert_eq!(loads(&[8, 10, 6, 11, 9, 7]), wanted);
    }

    #[test]
    fn nothing_is_loaded_of_no_values() {
        assert_eq!(loads(&[]), []);
    }
}
