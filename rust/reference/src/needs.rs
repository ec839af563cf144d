//! Items 0, 1, ... that need each other: how they are placed, and the blocks
//! that they form.

use std::cmp::Reverse;
use std::collections::BinaryHeap;

use crate::bits::{ones, BitMatrix};

/// Which of the items need which.
pub struct Needs {
    /// How many items each one needs that are not yet placed.
    unmet: Vec<u32>,
    /// Row q: the items that need q.
    needed_by: BitMatrix,
}

impl Needs {
    pub fn new(count: usize) -> Self {
        Needs {
            unmet: vec![0; count],
            needed_by: BitMatrix::new(count, count),
        }
    }

    /// All that an item needs, each once.
    pub fn add(&mut self, item: usize, needed: impl Iterator<Item = usize>) {
        let mut count = 0;
        for needed in needed {
            self.needed_by.insert(needed, item);
            count += 1;
        }
        self.unmet[item] = count;
    }

    /// Repeatedly places the smallest item not yet placed whose needed items are
    /// all placed; `None` if that gets stuck, which it does exactly where items
    /// need each other round a circle.
    pub fn place(&mut self) -> Option<Vec<usize>> {
        let placed = self.place_among(0..self.unmet.len());
        (placed.len() == self.unmet.len()).then_some(placed)
    }

    /// The same with these items and those that need one of them, as far as it
    /// goes.
    fn place_among(&mut self, items: impl Iterator<Item = usize>) -> Vec<usize> {
        let is_ready = |&item: &usize| self.unmet[item] == 0;
        let mut ready: BinaryHeap<_> = items.filter(is_ready).map(Reverse).collect();
        let mut placed = Vec::with_capacity(self.unmet.len());
        while let Some(Reverse(next)) = ready.pop() {
            placed.push(next);
            for item in self.needed_by.members(next) {
                self.unmet[item] -= 1;
                if self.unmet[item] == 0 {
                    ready.push(Reverse(item));
                }
            }
        }
        placed
    }

    /// The blocks, once placing is stuck. What was placed needs nobody round a
    /// circle, and whoever needs one of the rest is of the rest: only there is
    /// a block of several.
    pub fn blocks(self) -> Blocks {
        Search::new(self).finish()
    }
}

/// "Members that need each other round a circle now form one block." A block
/// goes by its smallest item, its lead.
pub struct Blocks {
    /// The lead of each item's block.
    leads: Vec<usize>,
    /// Row of a lead: the items of its block.
    items: BitMatrix,
    /// Row of a lead: the items that need one of its block.
    needed_by: BitMatrix,
}

impl Blocks {
    /// The leads, "placed by the smallest label they hold, as soon as every
    /// block they need is placed".
    pub fn place(&self) -> Vec<usize> {
        let count = self.leads.len();
        let leads = (0..count).filter(|&item| self.leads[item] == item);
        let mut needs = Needs::new(count);
        for lead in leads.clone() {
            for item in ones(self.needers(lead)) {
                let needer = self.leads[item];
                needs.unmet[needer] += u32::from(needs.needed_by.insert(lead, needer));
            }
        }
        needs.place_among(leads)
    }

    /// The items of a lead's block, smallest first.
    pub fn items(&self, lead: usize) -> impl Iterator<Item = usize> + '_ {
        self.items.members(lead)
    }

    /// The items outside a block that need one of it, as words.
    fn needers(&self, block: usize) -> impl Iterator<Item = u64> + '_ {
        let words = self.needed_by.row(block).iter().zip(self.items.row(block));
        words.map(|(needers, items)| needers & !items)
    }
}

/// A walk from an item to one that needs it, and on. The path holds blocks as
/// far as they are known, each needed by the next; where one before needs the
/// last too, that is a circle. Rows are joined as blocks are, so that a step
/// looks at words, not at items, and there are at most three steps an item.
struct Search {
    blocks: Blocks,
    /// One row: the items whose blocks are still open.
    open: BitMatrix,
    /// The first items met of the blocks on the path; they go by these until
    /// they are closed.
    path: Vec<usize>,
    is_met: Vec<bool>,
}

impl Search {
    fn new(stuck: Needs) -> Self {
        let Needs { unmet, needed_by } = stuck;
        let count = unmet.len();
        let mut items = BitMatrix::new(count, count);
        let mut open = BitMatrix::new(1, count);
        for (item, &unmet) in unmet.iter().enumerate() {
            items.insert(item, item);
            if unmet > 0 {
                open.insert(0, item);
            }
        }
        Search {
            blocks: Blocks {
                leads: (0..count).collect(),
                items,
                needed_by,
            },
            open,
            path: Vec::new(),
            is_met: vec![false; count],
        }
    }

    fn finish(mut self) -> Blocks {
        loop {
            let Some(item) = self.open.members(0).next() else {
                return self.blocks;
            };
            self.walk(item);
        }
    }

    /// Closes the block of an item and those of all that need it.
    fn walk(&mut self, item: usize) {
        self.meet(item);
        while let Some(&last) = self.path.last() {
            match self.open_needer(last) {
                Some(needer) if self.is_met[needer] => self.join(needer),
                Some(needer) => self.meet(needer),
                None => self.close(last),
            }
        }
    }

    fn meet(&mut self, item: usize) {
        self.is_met[item] = true;
        self.path.push(item);
    }

    /// Somebody outside a block that needs one of it, if not in a closed block.
    fn open_needer(&self, block: usize) -> Option<usize> {
        let words = self.blocks.needers(block).zip(self.open.row(0));
        ones(words.map(|(needers, open)| needers & open)).next()
    }

    /// The last blocks of the path, back to the one with this item, are one.
    fn join(&mut self, item: usize) {
        let Blocks {
            items, needed_by, ..
        } = &mut self.blocks;
        while let [.., before, last] = self.path[..] {
            if items.contains(last, item) {
                break;
            }
            items.merge(before, last);
            needed_by.merge(before, last);
            self.path.pop();
        }
    }

    /// Nobody outside a closed block needs the last one of the path: it is
    /// complete.
    fn close(&mut self, last: usize) {
        self.path.pop();
        let Blocks {
            leads,
            items,
            needed_by,
        } = &mut self.blocks;
        let lead = items.members(last).next().unwrap_or(last);
        items.merge(lead, last);
        needed_by.merge(lead, last);
        for item in items.members(lead) {
            leads[item] = lead;
            self.open.remove(0, item);
        }
    }
}
