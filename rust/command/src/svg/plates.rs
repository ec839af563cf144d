//! Where everything stands down the page.

use super::cards::Cards;
use super::measure::{Measures, BLOCK_PAD, CAPTION_LINE, CARD, GAP, MARGIN, PAD, PORT, TITLE};
use super::view::View;
use super::wires::Wires;
use crate::blocks::Tangle;

/// A box on the page.
#[derive(Clone, Copy)]
pub struct Plate {
    pub x: f64,
    pub y: f64,
    pub width: f64,
    pub height: f64,
}

impl Plate {
    pub fn right(&self) -> f64 {
        self.x + self.width
    }

    pub fn bottom(&self) -> f64 {
        self.y + self.height
    }

    /// Half way down.
    pub fn middle(&self) -> f64 {
        self.y + self.height / 2.0
    }
}

/// The boxes of the cards by row, of the Groups, outer ones first, and of the
/// blocks of several.
pub struct Plates<'a> {
    pub cards: Vec<Plate>,
    pub groups: Vec<(&'a View<'a>, usize, Plate)>,
    pub blocks: Vec<(&'a Tangle, Plate)>,
}

impl<'a> Plates<'a> {
    pub fn new(
        outermost: &'a View<'a>,
        cards: &Cards,
        tangles: &'a [Tangle],
        measures: &Measures,
        wires: [&Wires; 2],
    ) -> Self {
        let ports = |row: usize| {
            wires
                .map(|wires| wires.ports[row].len())
                .into_iter()
                .max()
                .unwrap_or(0)
        };
        let height = |row: usize| CARD.max(PORT * (ports(row) + 1) as f64);
        let mut stack = Stack {
            heights: (0..cards.list.len()).map(height).collect(),
            tangles,
            measures,
            plates: Plates {
                cards: vec![],
                groups: vec![],
                blocks: vec![],
            },
        };
        stack.group(outermost, 0, MARGIN + CAPTION_LINE);
        stack.plates
    }

    /// The outermost Group.
    pub fn outermost(&self) -> Plate {
        self.groups[0].2
    }
}

/// The boxes laid down so far.
struct Stack<'a, 'm> {
    heights: Vec<f64>,
    tangles: &'a [Tangle],
    measures: &'m Measures,
    plates: Plates<'a>,
}

impl<'a> Stack<'a, '_> {
    /// Lays down a Group and its members from `y` on; answers where it ends.
    fn group(&mut self, view: &'a View<'a>, depth: usize, y: f64) -> f64 {
        let (x, width) = match depth {
            0 => (MARGIN, self.measures.outermost()),
            _ => self.measures.extent(depth),
        };
        let place = self.plates.groups.len();
        let plate = |height| Plate {
            x,
            y,
            width,
            height,
        };
        self.plates.groups.push((view, depth, plate(TITLE)));
        // the plan has the values of a block side by side, so its members are
        let block = |view: &View| self.tangles.iter().find(|tangle| tangle.has(view.label()));
        let blocks = view
            .members
            .chunk_by(|one, next| block(one).is_some() && block(one) == block(next));
        let blocks: Vec<_> = blocks
            .map(|members| (block(&members[0]), members))
            .collect();
        let mut bottom = y + TITLE - GAP;
        for (tangle, members) in blocks {
            bottom = match tangle {
                Some(tangle) => self.block(tangle, members, depth + 1, bottom + GAP),
                None => self.members(members, depth + 1, bottom),
            };
        }
        let end = if view.members.is_empty() {
            y + TITLE
        } else {
            bottom + PAD
        };
        self.plates.groups[place].2 = plate(end - y);
        end
    }

    /// Lays down members beneath what ends at `bottom`.
    fn members(&mut self, members: &'a [View<'a>], depth: usize, mut bottom: f64) -> f64 {
        for member in members {
            bottom = match member.is_card() {
                true => self.card(depth, bottom + GAP),
                false => self.group(member, depth, bottom + GAP),
            };
        }
        bottom
    }

    /// Lays down a block of several, as far as it is drawn.
    fn block(&mut self, tangle: &'a Tangle, members: &'a [View<'a>], depth: usize, y: f64) -> f64 {
        let (x, width) = self.measures.extent(depth);
        let bottom = self.members(members, depth, y + TITLE - GAP) + BLOCK_PAD;
        let plate = Plate {
            x: x - BLOCK_PAD,
            y,
            width: width + 2.0 * BLOCK_PAD,
            height: bottom - y,
        };
        self.plates.blocks.push((tangle, plate));
        bottom
    }

    /// Lays down the next card.
    fn card(&mut self, depth: usize, y: f64) -> f64 {
        let (x, width) = self.measures.extent(depth);
        let height = self.heights[self.plates.cards.len()];
        self.plates.cards.push(Plate {
            x,
            y,
            width,
            height,
        });
        y + height
    }
}
