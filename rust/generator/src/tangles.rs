//! Where a sheet is tangled: what order 2 brings. By the definitions, with little
//! care for speed.

use crate::lent::{mentions, values};

const GROUP: i64 = 1;
const VALUE: i64 = 2;

/// What is so of a sheet with blocks of several members.
#[derive(Debug, Default, Clone, Copy, PartialEq, Eq)]
pub struct Tangles {
    /// Some Group, not the outermost, has two values or more and stays whole.
    pub beside_whole_group: bool,
    /// Some block is in a Group below the outermost.
    pub below: bool,
    /// Some block has a value for a member.
    pub with_value: bool,
    /// Some Group has two blocks.
    pub two_in_group: bool,
    /// Some block is inside a member of another, which is opened.
    pub inside_opened: bool,
}

impl Tangles {
    /// How many of them there are.
    pub const COUNT: usize = 5;

    /// Those of a table that Plan wrote; the zeros after its lines are no lines.
    pub fn of(table: &[i64]) -> Self {
        let tangled = Tangled::of(table);
        let Tangled { tree, blocks } = &tangled;
        let groups: Vec<usize> = blocks.iter().map(|block| tree.owner(block[0])).collect();
        let has_twin = |at: usize| groups[..at].contains(&groups[at]);
        Tangles {
            beside_whole_group: !blocks.is_empty() && tangled.has_whole_group(),
            below: groups.iter().any(|&group| group != 1),
            with_value: blocks.iter().flatten().any(|&m| tree.kind(m) == VALUE),
            two_in_group: (0..groups.len()).any(has_twin),
            inside_opened: groups.iter().any(|&group| tangled.is_opened(group)),
        }
    }

    pub fn counts(self) -> [u64; Self::COUNT] {
        let Tangles {
            beside_whole_group,
            below,
            with_value,
            two_in_group,
            inside_opened,
        } = self;
        let all = [
            beside_whole_group,
            below,
            with_value,
            two_in_group,
            inside_opened,
        ];
        all.map(u64::from)
    }
}

/// The blocks of several members of a table that Plan wrote, as labels; the
/// blocks by their smallest ones.
pub fn tangled_blocks(table: &[i64]) -> Vec<Vec<usize>> {
    Tangled::of(table).blocks
}

/// A table as a tree; labels count from 1.
struct Tree<'t> {
    table: &'t [i64],
}

impl Tree<'_> {
    fn kind(&self, label: usize) -> i64 {
        self.table[8 * (label - 1)]
    }

    fn owner(&self, label: usize) -> usize {
        self.table[8 * (label - 1) + 6] as usize
    }

    /// A definition and the Groups around it, the outermost last.
    fn outward(&self, definition: usize) -> impl Iterator<Item = usize> + '_ {
        let owner = |&label: &usize| Some(self.owner(label)).filter(|&owner| owner != 0);
        std::iter::successors(Some(definition), owner)
    }

    /// The two members of one Group that two values are or are under.
    fn parting(&self, first: usize, second: usize) -> (usize, usize) {
        let [first, second] = [first, second].map(|value| {
            let mut way: Vec<usize> = self.outward(value).collect();
            way.reverse();
            way
        });
        let mut pairs = first.into_iter().zip(second);
        pairs.find(|(p, q)| p != q).expect("two different values")
    }
}

struct Tangled<'t> {
    tree: Tree<'t>,
    blocks: Vec<Vec<usize>>,
}

impl<'t> Tangled<'t> {
    /// "Members that need each other round a circle now form one block."
    fn of(table: &'t [i64]) -> Self {
        let tree = Tree { table };
        let needs = needs(&tree);
        let through: Vec<Vec<bool>> = (0..needs.len()).map(|from| led_to(&needs, from)).collect();
        // members need others only: one that needs itself does so round a circle
        let mut left: Vec<usize> = (1..needs.len()).filter(|&m| through[m][m]).collect();
        let mut blocks = Vec::new();
        while let Some(&first) = left.first() {
            let is_one = |&m: &usize| through[first][m] && through[m][first];
            let (block, rest) = left.into_iter().partition(is_one);
            blocks.push(block);
            left = rest;
        }
        Tangled { tree, blocks }
    }

    /// Whether a Group is a member of a block of several, or under one.
    fn is_opened(&self, group: usize) -> bool {
        let is_tangled = |label: usize| self.blocks.iter().any(|block| block.contains(&label));
        self.tree.outward(group).any(is_tangled)
    }

    fn has_whole_group(&self) -> bool {
        let mut sizes = vec![0; self.tree.table.len() / 8 + 1];
        for at in values(self.tree.table) {
            for group in self.tree.outward(at + 1).skip(1) {
                sizes[group] += 1;
            }
        }
        let is_large = |&group: &usize| self.tree.kind(group) == GROUP && sizes[group] > 1;
        let mut large = (2..sizes.len()).filter(is_large);
        large.any(|group| !self.is_opened(group))
    }
}

/// What each member of each Group needs, by labels.
fn needs(tree: &Tree) -> Vec<Vec<usize>> {
    let mentions = mentions(tree.table);
    let values = values(tree.table);
    let mut needs = vec![Vec::new(); mentions.len() + 1];
    for &value in &values {
        let reached = led_to(&mentions, value);
        for &other in values.iter().filter(|&&other| reached[other]) {
            let (p, q) = tree.parting(value + 1, other + 1);
            needs[p].push(q);
        }
    }
    for list in &mut needs {
        list.sort_unstable();
        list.dedup();
    }
    needs
}

/// Where links lead in one step or more.
fn led_to(links: &[Vec<usize>], from: usize) -> Vec<bool> {
    let mut met = vec![false; links.len()];
    let mut open = vec![from];
    while let Some(next) = open.pop() {
        for &target in &links[next] {
            if !std::mem::replace(&mut met[target], true) {
                open.push(target);
            }
        }
    }
    met
}
