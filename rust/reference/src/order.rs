//! The plan, and rows 17 and 18 on a lent order.

use crate::adjacency::Adjacency;
use crate::bits::BitMatrix;
use crate::needs::Needs;
use crate::reach::Reach;
use crate::sheet::{Kind, Label, Sheet};
use crate::{Order, Refusal};

/// The plan: "'Mixed' is the answer when some block has several members." It puts
/// what the values under a Group reach into the Group's row; all other rows stay.
pub fn plan(sheet: &Sheet, reach: &mut Reach) -> (Vec<Label>, Order) {
    let mut planner = Planner::new(sheet, reach);
    planner.list_group(0);
    (planner.listed, planner.order)
}

/// Lists Group by Group; definitions go by their numbers in `Reach`. The row of
/// a Group there has all that the values under it reach.
struct Planner<'s> {
    sheet: &'s Sheet<'s>,
    reach: &'s Reach,
    /// The Groups and values of each Group, as lists and as rows of bits. "F
    /// gives nothing", needs nothing and is not needed.
    members: Adjacency,
    member_rows: BitMatrix,
    /// Where each one stands in its Group's list; a value of a block of several,
    /// once that is listed, among the values of the block.
    places: Vec<u32>,
    listed: Vec<Label>,
    order: Order,
}

impl<'s> Planner<'s> {
    fn new(sheet: &'s Sheet<'s>, reach: &'s mut Reach) -> Self {
        let count = reach.labels.len();
        let is_listed = |&member: &usize| sheet.kind(reach.labels[member]) != Kind::Function;
        let listed: Vec<usize> = (1..count).filter(is_listed).collect();
        let group_of = |member: usize| reach.groups[member] as usize;
        let pairs = listed.iter().map(|&member| (group_of(member), member));
        let members = Adjacency::new(count, pairs.clone());
        let mut member_rows = BitMatrix::new(count, count);
        let mut places = vec![0; count];
        let mut sizes = vec![0; count];
        for (group, member) in pairs {
            member_rows.insert(group, member);
            places[member] = sizes[group];
            sizes[group] += 1;
        }
        // Members lie above their Group: going down, a Group is complete when met.
        // What values reach in their own Group is no need of that Group.
        for &member in listed.iter().rev() {
            reach.reached.remove(member, member);
            reach.reached.merge(reach.groups[member] as usize, member);
        }
        Planner {
            sheet,
            reach,
            members,
            member_rows,
            places,
            listed: Vec::new(),
            order: Order::Whole,
        }
    }

    /// A Group's blocks in their order. Blocks are looked for only where placing
    /// the members one by one gets stuck; else each is a block by itself.
    fn list_group(&mut self, group: usize) {
        let mut needs = self.member_needs(group);
        match needs.place() {
            Some(placed) => {
                for at in placed {
                    self.list_member(self.member(group, at));
                }
            }
            None => self.list_blocks(group, needs),
        }
    }

    fn list_blocks(&mut self, group: usize, stuck: Needs) {
        self.order = Order::Mixed;
        let blocks = stuck.blocks();
        for lead in blocks.place() {
            let items = blocks.items(lead);
            let members: Vec<usize> = items.map(|at| self.member(group, at)).collect();
            match members[..] {
                [member] => self.list_member(member),
                _ => self.list_several(members),
            }
        }
    }

    /// "A block that is one Group is listed by this same rule inside."
    fn list_member(&mut self, member: usize) {
        let label = self.reach.labels[member];
        match self.sheet.kind(label) {
            Kind::Group => self.list_group(member),
            _ => self.listed.push(label),
        }
    }

    /// "A block of several lists all values under its members, smallest label
    /// first, once those it reaches in the block are listed." No value reaches
    /// itself (row 16), so this never gets stuck.
    fn list_several(&mut self, members: Vec<usize>) {
        let inside = self.values_under(members);
        let values: Vec<usize> = inside.members(0).collect();
        for (place, &value) in (0..).zip(&values) {
            self.places[value] = place;
        }
        let mut needs = self.needs(values.iter().copied(), inside.row(0));
        let placed = needs.place().expect("no value reaches itself");
        let label = |at: usize| self.reach.labels[values[at]];
        self.listed.extend(placed.into_iter().map(label));
    }

    /// One row: the values that are one of these members or under one.
    fn values_under(&self, mut members: Vec<usize>) -> BitMatrix {
        let mut inside = BitMatrix::new(1, self.reach.labels.len());
        while let Some(member) = members.pop() {
            match self.sheet.kind(self.reach.labels[member]) {
                Kind::Group => members.extend(self.members.of(member).iter().map(|&m| m as usize)),
                _ => {
                    inside.insert(0, member);
                }
            }
        }
        inside
    }

    fn member(&self, group: usize, place: usize) -> usize {
        self.members.of(group)[place] as usize
    }

    /// "Member p needs another member q of its Group if a V that is p or under
    /// p reaches one that is q or under q." A row has the Groups around the
    /// values reached, so q is in that of p.
    fn member_needs(&self, group: usize) -> Needs {
        let members = self.members.of(group).iter().map(|&member| member as usize);
        self.needs(members, self.member_rows.row(group))
    }

    /// Which of these definitions need which, by their places; the set has them
    /// all.
    fn needs(&self, list: impl ExactSizeIterator<Item = usize>, set: &[u64]) -> Needs {
        let mut needs = Needs::new(list.len());
        for (place, definition) in list.enumerate() {
            let needed = self.reach.reached_among(definition, set);
            needs.add(place, needed.map(|other| self.places[other] as usize));
        }
        needs
    }
}

/// The labels of the order lent, if it is proper.
pub fn check(sheet: &Sheet, reach: &Reach, order: &[i64]) -> Result<Vec<Label>, Refusal> {
    let listed = check_listed(sheet, reach, order)?;
    check_reached(reach, &listed)?;
    Ok(listed)
}

/// Row 17: every V label once, nothing else.
fn check_listed(sheet: &Sheet, reach: &Reach, order: &[i64]) -> Result<Vec<Label>, Refusal> {
    let mut missing = vec![false; sheet.count() + 1];
    for value in reach.values() {
        missing[reach.labels[value]] = true;
    }
    let mut listed = Vec::with_capacity(reach.labels.len());
    for (position, &label) in (1..).zip(order) {
        let label = usize::try_from(label).unwrap_or(0);
        match missing.get_mut(label) {
            Some(missing) if *missing => *missing = false,
            _ => return Err(Refusal::new(17, position)),
        }
        listed.push(label);
    }
    if missing.contains(&true) {
        return Err(Refusal::new(17, order.len() + 1));
    }
    Ok(listed)
}

/// Row 18: every value stands after those that it reaches.
fn check_reached(reach: &Reach, listed: &[Label]) -> Result<(), Refusal> {
    let mut unlisted = reach.values.clone();
    for (position, &label) in (1..).zip(listed) {
        let value = reach.number(label);
        let mut words = reach.reached.row(value).iter().zip(unlisted.row(0));
        if words.any(|(reached, unlisted)| reached & unlisted != 0) {
            return Err(Refusal::new(18, position));
        }
        unlisted.remove(0, value);
    }
    Ok(())
}
