//! Blocks of several: members of a Group that need each other around a cycle, so
//! that no order keeps the values of each together (document 02, order 2).
//!
//! The library makes the plan. This finds once more, from kinds, owners and
//! targets alone, what tangles it, for whoever is to mend the sheet.

use std::collections::VecDeque;
use std::mem;

use lindypo::{Kind, Label, Order, Run, Sheet};

use crate::mentions::{self, Mention};

/// A block of several.
#[derive(Debug, Clone, PartialEq, Eq)]
pub struct Tangle {
    /// The Group that they are members of.
    pub group: Label,
    /// Upward through the labels, at least two.
    pub members: Vec<Label>,
    /// A cycle of as few members as can be that begins with the first of them:
    /// each needs the next, and the last one the first.
    pub cycle: Vec<Need>,
}

/// Why a member needs another.
#[derive(Debug, Clone, PartialEq, Eq)]
pub struct Need {
    pub member: Label,
    pub needed: Label,
    /// From a value of the one to a value of the other, by as few mentions as
    /// can be.
    pub chain: Vec<Mention>,
}

impl Tangle {
    pub fn has(&self, member: Label) -> bool {
        self.members.binary_search(&member).is_ok()
    }
}

/// The blocks of several of a sheet that runs. A whole plan has none.
pub fn of_run(sheet: &Sheet, run: &Run) -> Vec<Tangle> {
    match run.plan.order {
        Order::Whole => vec![],
        Order::Mixed => tangles(sheet),
    }
}

/// The blocks of several, by Group, then by smallest label. Inside of one no
/// others are formed.
pub fn tangles(sheet: &Sheet) -> Vec<Tangle> {
    let table = Table::new(sheet);
    let make = |group, members: &_, block: &_| table.tangle(group, members, block);
    let mut tangles = table.several(1, make);
    tangles.sort_by_key(|tangle| (tangle.group, tangle.members[0]));
    tangles
}

/// How many values of a cycle are tried out as a mend.
const TRIED: usize = 8;

/// A value that undoes the tangle where it is moved to the Group of the members,
/// to stand beside them: those that are read first, then those that read.
pub fn mend(sheet: &Sheet, tangle: &Tangle) -> Option<Label> {
    let table = Table::new(sheet);
    let mut wanted = table.labels(tangle.group);
    wanted.retain(|members| *members != tangle.members);
    let read = tangle.cycle.iter().filter_map(|need| need.chain.last());
    let reading = tangle.cycle.iter().filter_map(|need| need.chain.first());
    let values = read
        .map(|last| last.to)
        .chain(reading.map(|first| first.from));
    let values = values.filter(|&value| table.groups[value] != tangle.group);
    let undoes = |&value: &Label| {
        let mut moved = table.clone();
        moved.groups[value] = tangle.group;
        moved.labels(tangle.group) == wanted
    };
    values.take(TRIED).find(undoes)
}

/// What blocks go by.
#[derive(Clone)]
struct Table {
    /// By label.
    kinds: Vec<Option<Kind>>,
    /// The Group of each definition; 0 for label 1, which has none, and for
    /// expressions. It is smaller than the label.
    groups: Vec<Label>,
    /// By definition, upward through the lines.
    mentions: Vec<Vec<Mention>>,
}

/// The members of a Group. Elsewhere in it they go by their places in `labels`.
struct Members {
    /// Upward.
    labels: Vec<Label>,
    /// By definition: the member that it is or is under.
    places: Vec<Option<usize>>,
    /// By member: those that it needs, upward.
    needs: Vec<Vec<usize>>,
}

impl Members {
    fn labels_of(&self, places: &[usize]) -> Vec<Label> {
        places.iter().map(|&place| self.labels[place]).collect()
    }
}

impl Table {
    fn new(sheet: &Sheet) -> Self {
        let mut table = Table {
            kinds: vec![None; sheet.labels() + 1],
            groups: vec![0; sheet.labels() + 1],
            mentions: vec![vec![]; sheet.labels() + 1],
        };
        for line in sheet.lines() {
            table.kinds[line.label] = Some(line.kind);
            if line.kind.is_definition() {
                table.groups[line.label] = line.owner.unwrap_or(0);
            }
        }
        for mention in mentions::of(sheet) {
            table.mentions[mention.from].push(mention);
        }
        table
    }

    /// What `make` makes of the blocks of several in a Group, and in those of
    /// its blocks that are one Group each.
    fn several<T>(&self, group: Label, make: impl Fn(Label, &Members, &[usize]) -> T) -> Vec<T> {
        let (mut made, mut open) = (vec![], vec![group]);
        while let Some(group) = open.pop() {
            let members = self.members(group);
            for block in blocks(&members.needs) {
                match block[..] {
                    [single] => open.extend(self.group(members.labels[single])),
                    _ => made.push(make(group, &members, &block)),
                }
            }
        }
        made
    }

    /// The labels of the blocks of several in a Group and further in.
    fn labels(&self, group: Label) -> Vec<Vec<Label>> {
        self.several(group, |_, members, block| members.labels_of(block))
    }

    /// The label, where it is that of a Group.
    fn group(&self, label: Label) -> Option<Label> {
        (self.kinds[label] == Some(Kind::Group)).then_some(label)
    }

    fn members(&self, group: Label) -> Members {
        let (mut labels, mut places) = (vec![], vec![None; self.groups.len()]);
        for (label, &around) in self.groups.iter().enumerate() {
            places[label] = places[around];
            if around == group {
                places[label] = Some(labels.len());
                labels.push(label);
            }
        }
        let mut members = Members {
            needs: vec![],
            labels,
            places,
        };
        let needs = (0..members.labels.len()).map(|member| self.needs(&members, member));
        members.needs = needs.collect();
        members
    }

    fn needs(&self, members: &Members, member: usize) -> Vec<usize> {
        let reached = self.reached(members, member).into_iter();
        let needed = reached.filter_map(|mention| self.value_of(members, mention.to));
        let mut needs: Vec<usize> = needed.filter(|&other| other != member).collect();
        needs.sort_unstable();
        needs.dedup();
        needs
    }

    /// The member that a value is or is under; none for a function.
    fn value_of(&self, members: &Members, label: Label) -> Option<usize> {
        members.places[label].filter(|_| self.kinds[label] == Some(Kind::Value))
    }

    /// All that the values of a member reach, the nearest first: of each
    /// definition the mention that leads to it.
    fn reached(&self, members: &Members, member: usize) -> Vec<Mention> {
        let is_own = |&label: &Label| self.value_of(members, label) == Some(member);
        let mut open: VecDeque<Label> = (1..self.kinds.len()).filter(is_own).collect();
        let mut is_found = vec![false; self.kinds.len()];
        open.iter().for_each(|&value| is_found[value] = true);
        let mut reached = vec![];
        while let Some(at) = open.pop_front() {
            for &mention in &self.mentions[at] {
                if !mem::replace(&mut is_found[mention.to], true) {
                    reached.push(mention);
                    open.push_back(mention.to);
                }
            }
        }
        reached
    }

    fn tangle(&self, group: Label, members: &Members, block: &[usize]) -> Tangle {
        let cycle = cycle(&members.needs, block[0]);
        let next = cycle.iter().cycle().skip(1);
        let need = |(&member, &needed): (&usize, &usize)| Need {
            member: members.labels[member],
            needed: members.labels[needed],
            chain: self.chain(members, member, needed),
        };
        Tangle {
            group,
            members: members.labels_of(block),
            cycle: cycle.iter().zip(next).map(need).collect(),
        }
    }

    /// The shortest chain of mentions by which a member needs another.
    fn chain(&self, members: &Members, member: usize, needed: usize) -> Vec<Mention> {
        let reached = self.reached(members, member);
        let ends = |mention: &&Mention| self.value_of(members, mention.to) == Some(needed);
        let before = |mention: &&Mention| reached.iter().find(|other| other.to == mention.from);
        let back = std::iter::successors(reached.iter().find(ends), before);
        let mut chain: Vec<Mention> = back.copied().collect();
        chain.reverse();
        chain
    }
}

/// The blocks of a Group whose members need these: two are in one where each
/// needs the other, directly or through others.
fn blocks(needs: &[Vec<usize>]) -> Vec<Vec<usize>> {
    let (count, through) = (needs.len(), through(needs));
    let mut is_placed = vec![false; count];
    let mut blocks = vec![];
    for member in 0..count {
        let is_with =
            |&other: &usize| other == member || through[member][other] && through[other][member];
        if !is_placed[member] {
            let block: Vec<usize> = (member..count).filter(is_with).collect();
            block.iter().for_each(|&other| is_placed[other] = true);
            blocks.push(block);
        }
    }
    blocks
}

/// Whom each member needs, directly or through others.
fn through(needs: &[Vec<usize>]) -> Vec<Vec<bool>> {
    let mut rows = vec![vec![false; needs.len()]; needs.len()];
    for (row, needs) in rows.iter_mut().zip(needs) {
        needs.iter().for_each(|&other| row[other] = true);
    }
    for middle in 0..needs.len() {
        let beyond = rows[middle].clone();
        for row in rows.iter_mut().filter(|row| row[middle]) {
            row.iter_mut()
                .zip(&beyond)
                .for_each(|(own, other)| *own |= other);
        }
    }
    rows
}

/// The shortest cycle that begins with this member of a block of several.
fn cycle(needs: &[Vec<usize>], start: usize) -> Vec<usize> {
    let mut before = vec![None; needs.len()];
    let mut open = VecDeque::from([start]);
    while let Some(at) = open.pop_front() {
        for &other in &needs[at] {
            if before[other].is_none() {
                before[other] = Some(at);
                open.push_back(other);
            }
        }
    }
    let back = |&at: &usize| before[at].filter(|&at| at != start);
    let mut cycle: Vec<usize> = std::iter::successors(Some(start), back).collect();
    cycle[1..].reverse();
    cycle
}

#[cfg(test)]
mod tests {
    use super::*;

    fn of(text: &str) -> Vec<(Label, Vec<Label>)> {
        let sheet = Sheet::read(text.as_bytes()).expect("a sheet");
        let tangles = tangles(&sheet).into_iter();
        tangles
            .map(|tangle| (tangle.group, tangle.members))
            .collect()
    }

    /// Groups 2 and 3, values 4 and 5 of the one and 6 and 7 of the other, and
    /// what these read.
    fn sheet(bodies: [&str; 4]) -> String {
        let bodies = bodies.map(|body| format!("{body} - -\n")).concat();
        format!(
            "kind name a b c\nG - 0 - -\nG a 1 - -\nG b 1 - -\nV p 2 8 -\nV q 2 9 -\n\
             V p 3 10 -\nV q 3 11 -\n{bodies}"
        )
    }

    #[test]
    fn needs_round_a_cycle() {
        let blocks_of = |needs: &[&[usize]]| {
            let needs: Vec<Vec<usize>> = needs.iter().map(|needs| needs.to_vec()).collect();
            blocks(&needs)
        };
        assert_eq!(blocks_of(&[]), [[]; 0]);
        assert_eq!(blocks_of(&[&[1], &[2], &[]]), [[0], [1], [2]]);
        let wanted = [vec![0, 2], vec![1, 3]];
        assert_eq!(blocks_of(&[&[2, 1], &[3], &[0], &[1]]), wanted);
        assert_eq!(blocks_of(&[&[1], &[2], &[0]]), [[0, 1, 2]]);
    }

    #[test]
    fn the_shortest_cycle_from_a_member() {
        let needs = [vec![1, 2], vec![2], vec![3], vec![0, 1]];
        assert_eq!(cycle(&needs, 0), [0, 2, 3]);
        assert_eq!(cycle(&needs, 1), [1, 2, 3]);
    }

    #[test]
    fn each_has_to_need_the_other() {
        let one_way = sheet(["R b.p -", "N - 1", "N - 1", "R p -"]);
        assert_eq!(of(&one_way), []);
        let both_ways = sheet(["R b.p -", "N - 1", "N - 1", "R a.q -"]);
        assert_eq!(of(&both_ways), [(1, vec![2, 3])]);
    }

    /// What is read last comes before what reads it as a mend; moved out, it
    /// stands beside both.
    #[test]
    fn a_value_that_undoes_the_tangle() {
        let text = sheet(["R b.p -", "N - 1", "R a.q -", "N - 1"]);
        let sheet = Sheet::read(text.as_bytes()).expect("a sheet");
        let [tangle] = &tangles(&sheet)[..] else {
            panic!("one block");
        };
        let lines = tangle.cycle.iter().flat_map(|need| &need.chain);
        assert_eq!(
            lines.map(|mention| mention.line).collect::<Vec<_>>(),
            [8, 10]
        );
        // `b.p` itself would be needed by `a` and need it
        assert_eq!(mend(&sheet, tangle), Some(5));
    }

    /// Value 2 is in a block with Group 3, which has a value on either side of
    /// it; what Groups 4 and 5 in that one would form is no block of its own.
    #[test]
    fn inside_a_block_no_others_are_formed() {
        let text = "kind name a b c\nG - 0 - -\nV v 1 10 -\nG g 1 - -\nG x 3 - -\nG y 3 - -\n\
            V p 4 11 -\nV q 4 12 -\nV p 5 13 -\nV q 5 14 -\n\
            R g.x.q - - -\nR y.p - - -\nN - 1 - -\nR v - - -\nR x.q - - -\n";
        assert_eq!(of(text), [(1, vec![2, 3])]);
        let apart = text.replace("R v -", "N - 1");
        assert_eq!(of(&apart), [(3, vec![4, 5])]);
    }

    #[test]
    fn a_whole_sheet_has_none() {
        assert_eq!(of("kind name a b c\nG - 0 - -\n"), []);
    }
}
