//! Arrows in the gutter on one side of the cards: which lanes they run in, and
//! in what sequence they meet a card.

use std::collections::BTreeMap;

use lindypo::{Kind, Sheet};

use super::cards::Cards;
use crate::mentions::{self, Mention};

/// Calls run on the left of the cards, reads on the right.
#[derive(Clone, Copy, PartialEq, Eq)]
pub enum Side {
    Left,
    Right,
}

/// All mentions from one card to another. Cards are their rows here.
pub struct Tail {
    pub row: usize,
    pub mentions: Vec<Mention>,
}

/// All mentions of what one card stands for.
pub struct Trunk {
    pub target: usize,
    pub tails: Vec<Tail>,
    /// From 0, nearest to the cards.
    pub lane: usize,
}

/// Where an arrow meets a card.
#[derive(Clone, Copy, PartialEq, Eq)]
pub struct Port {
    pub trunk: usize,
    pub at: Meeting,
}

/// The sequence of ports down a card. Arrows that leave upward stand above the
/// one that comes in, those that leave downward below it.
#[derive(Clone, Copy, PartialEq, Eq, PartialOrd, Ord)]
pub enum Meeting {
    Up,
    Head,
    Itself,
    Down,
}

pub struct Wires {
    pub side: Side,
    pub trunks: Vec<Trunk>,
    /// How many lanes the trunks take.
    pub lanes: usize,
    /// The ports of each card, top to bottom.
    pub ports: Vec<Vec<Port>>,
}

impl Wires {
    pub fn new(side: Side, cards: &Cards, sheet: &Sheet) -> Self {
        let mut trunks = trunks(side, cards, sheet);
        let lanes = deal_lanes(&mut trunks);
        let ports = ports(&trunks, cards.list.len());
        Wires {
            side,
            trunks,
            lanes,
            ports,
        }
    }

    /// How far down a card a port stands, as a part of its height.
    pub fn share(&self, row: usize, port: Port) -> f64 {
        let ports = &self.ports[row];
        let at = ports.iter().position(|&other| other == port).unwrap_or(0);
        (at + 1) as f64 / (ports.len() + 1) as f64
    }
}

impl Trunk {
    /// How an arrow from this row leaves it.
    pub fn meeting(&self, source: usize) -> Meeting {
        match source.cmp(&self.target) {
            std::cmp::Ordering::Greater => Meeting::Up,
            std::cmp::Ordering::Equal => Meeting::Itself,
            std::cmp::Ordering::Less => Meeting::Down,
        }
    }

    /// What the trunk takes of its lane: from one port to another. They are
    /// ordered as they stand down the page.
    fn reach(&self) -> ((usize, Meeting), (usize, Meeting)) {
        let head = (self.target, Meeting::Head);
        let tails = self.tails.iter();
        let tails = tails.map(|tail| (tail.row, self.meeting(tail.row)));
        tails.fold((head, head), |(top, bottom), tail| {
            (top.min(tail), bottom.max(tail))
        })
    }

    fn meets(&self, other: &Trunk) -> bool {
        let (one, two) = (self.reach(), other.reach());
        one.0 <= two.1 && two.0 <= one.1
    }
}

/// The mentions on one side by what is mentioned, then by who mentions it. What
/// a folded Group has to do with itself is no arrow.
fn trunks(side: Side, cards: &Cards, sheet: &Sheet) -> Vec<Trunk> {
    let rows = cards.rows(sheet.labels());
    let mut arrows: BTreeMap<(usize, usize), Vec<Mention>> = BTreeMap::new();
    for mention in mentions(side, sheet) {
        let (Some(source), Some(target)) = (rows[mention.from], rows[mention.to]) else {
            continue;
        };
        if source != target || !cards.list[source].view.is_folded {
            arrows.entry((target, source)).or_default().push(mention);
        }
    }
    let mut trunks: Vec<Trunk> = vec![];
    for ((target, row), mentions) in arrows {
        let tail = Tail { row, mentions };
        match trunks.last_mut().filter(|trunk| trunk.target == target) {
            Some(trunk) => trunk.tails.push(tail),
            None => trunks.push(Trunk {
                target,
                tails: vec![tail],
                lane: 0,
            }),
        }
    }
    trunks
}

/// Calls on the left, reads on the right.
fn mentions<'a>(side: Side, sheet: &'a Sheet) -> impl Iterator<Item = Mention> + 'a {
    let kind = match side {
        Side::Left => Kind::Call,
        Side::Right => Kind::Read,
    };
    mentions::of(sheet).filter(move |mention| mention.kind == kind)
}

/// Gives each trunk the nearest lane in which it meets no other, the short ones
/// first: so the long ones run around them. Answers how many lanes there are.
fn deal_lanes(trunks: &mut [Trunk]) -> usize {
    let mut sequence: Vec<usize> = (0..trunks.len()).collect();
    sequence.sort_by_key(|&at| {
        let (top, bottom) = trunks[at].reach();
        (bottom.0 - top.0, top)
    });
    let mut lanes: Vec<Vec<usize>> = vec![];
    for at in sequence {
        let is_free =
            |lane: &Vec<usize>| !lane.iter().any(|&other| trunks[at].meets(&trunks[other]));
        let lane = lanes.iter().position(is_free).unwrap_or(lanes.len());
        if lane == lanes.len() {
            lanes.push(vec![]);
        }
        lanes[lane].push(at);
        trunks[at].lane = lane;
    }
    lanes.len()
}

/// The ports of every card. Arrows that leave the same way are in the sequence
/// in which they do not cross: the nearest lane outermost.
fn ports(trunks: &[Trunk], cards: usize) -> Vec<Vec<Port>> {
    let mut ports = vec![vec![]; cards];
    for (trunk, lines) in trunks.iter().enumerate() {
        let at = Meeting::Head;
        ports[lines.target].push(Port { trunk, at });
        for tail in &lines.tails {
            let at = lines.meeting(tail.row);
            ports[tail.row].push(Port { trunk, at });
        }
    }
    for ports in &mut ports {
        ports.sort_by_key(|port| {
            let lane = trunks[port.trunk].lane as i64;
            let place = if port.at == Meeting::Up { lane } else { -lane };
            (port.at, place)
        });
    }
    ports
}
