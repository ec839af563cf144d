//! Sizes, in pixels, and the columns of the cards.

use super::cards::{Card, Cards};
use super::letters::{GROUP, NAME, NOTE, PART, POSITION, STATE};
use super::view::View;
use super::wires::Wires;

/// Around the picture, and between a Group's border and its members.
pub const MARGIN: f64 = 18.0;
pub const PAD: f64 = 12.0;
/// The title of a Group, and what is left between members.
pub const TITLE: f64 = 30.0;
pub const GAP: f64 = 9.0;
/// A card, and what a card with many ports has for each.
pub const CARD: f64 = 32.0;
pub const PORT: f64 = 9.0;
/// From the cards to the first lane, and from lane to lane.
pub const GUTTER: f64 = 24.0;
pub const LANE: f64 = 11.0;
/// The badge of a card, and the space around it.
pub const BADGE: f64 = 20.0;
pub const INSET: f64 = 9.0;

/// The head of an arrow.
pub const HEAD: f64 = 9.0;
/// The line above the outermost Group.
pub const CAPTION_LINE: f64 = 32.0;
/// The word beside the title of a mixed Group, with its frame, and that of a
/// block of several.
pub const MIXED_TAG: f64 = 52.0;
pub const TANGLED_TAG: f64 = 62.0;
/// From the members of a block to its outline, which stands half way to the
/// border of their Group.
pub const BLOCK_PAD: f64 = PAD / 2.0;

/// The columns of the cards count from the left of the outermost Group's
/// members, and are the same for every card.
pub struct Measures {
    pub badge: f64,
    /// The right edge of the numbers, and of the notes.
    pub state: f64,
    pub note: f64,
    /// How wide a member of the outermost Group is.
    pub width: f64,
    /// What the arrows take on either side.
    pub left: f64,
    pub right: f64,
}

impl Measures {
    /// Boxes of a width that takes all words; the outermost one has at least
    /// `least` of it.
    pub fn new(outermost: &View, cards: &Cards, wires: [&Wires; 2], least: f64) -> Self {
        let [left, right] = wires.map(gutter);
        let widest = |width: &dyn Fn(&Card) -> f64| {
            let widths = cards.list.iter().map(width);
            widths.fold(0.0, f64::max)
        };
        let badge = widest(&|card| POSITION.width(&card.badge()) + 8.0).max(BADGE);
        let start = |card: &Card| inset(card.depth) + 2.0 * INSET + badge;
        let names = widest(&|card| start(card) + NAME.width(card.node().title()));
        let states = widest(&|card| STATE.width(&card.state()));
        let notes = widest(&|card| NOTE.width(&card.note()));
        let edge = widest(&|card| inset(card.depth)) + INSET;
        let width = (names + 22.0 + states + 16.0 + notes + edge)
            .max(titles(outermost, 0))
            .max(least - left - right - 2.0 * PAD)
            .ceil();
        Measures {
            badge,
            state: width - edge - notes - 16.0,
            note: width - edge,
            width,
            left,
            right,
        }
    }

    /// How wide the outermost Group is.
    pub fn outermost(&self) -> f64 {
        self.left + self.width + self.right + 2.0 * PAD
    }

    /// The left of the outermost Group's members.
    pub fn origin(&self) -> f64 {
        MARGIN + PAD + self.left
    }

    /// Left edge and width of what stands in this many Groups.
    pub fn extent(&self, depth: usize) -> (f64, f64) {
        let inset = inset(depth);
        (self.origin() + inset, self.width - 2.0 * inset)
    }
}

/// How far in a definition stands that is in this many Groups.
fn inset(depth: usize) -> f64 {
    PAD * depth.saturating_sub(1) as f64
}

/// The width that the titles of Groups need.
fn titles(view: &View, depth: usize) -> f64 {
    let mixed = if view.node.is_mixed() {
        MIXED_TAG + PAD
    } else {
        0.0
    };
    let part = part(view).map_or(0.0, |words| PAD + PART.width(&words));
    let own = GROUP.width(view.node.title()) + part + mixed + 2.0 * (PAD + inset(depth));
    let groups = view.members.iter().filter(|member| !member.is_card());
    groups
        .map(|group| titles(group, depth + 1))
        .fold(own, f64::max)
}

/// How much of a Group is drawn, where that is not all: "2 of 7 members".
pub fn part(view: &View) -> Option<String> {
    let (drawn, all) = (view.members.len(), view.node.members.len());
    (drawn < all).then(|| format!("{drawn} of {all} members"))
}

fn gutter(wires: &Wires) -> f64 {
    match wires.lanes {
        0 => 0.0,
        lanes => GUTTER + LANE * lanes.saturating_sub(1) as f64,
    }
}
