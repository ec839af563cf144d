//! The picture itself: page, Groups and cards.

use lindypo::{Label, Order, Sheet};

use super::arrows;
use super::cards::{Card, Cards};
use super::elements::{page, rect, together};
use super::legend::Legend;
use super::letters::{CAPTION, GROUP, MIXED, NAME, NOTE, PART, POSITION, STATE, SUMMARY};
use super::measure::{
    part, Measures, BADGE, CAPTION_LINE, INSET, MARGIN, MIXED_TAG, PAD, TANGLED_TAG, TITLE,
};
use super::plates::{Plate, Plates};
use super::titles;
use super::view::View;
use super::wires::Wires;
use crate::blocks::Tangle;
use crate::tangles;
use crate::tree::Node;

/// How far a card behind another one stands below it, and in.
const BELOW: f64 = 4.0;
const WITHIN: f64 = 5.0;

pub struct Drawing<'a> {
    pub sheet: &'a Sheet<'a>,
    /// All that there is, drawn or not.
    pub outermost: &'a Node<'a>,
    pub caption: &'a str,
    pub summary: &'a str,
    pub order: Order,
    /// What the picture is about, where it is not about all.
    pub focus: Option<Label>,
    pub cards: Cards<'a>,
    pub left: Wires,
    pub right: Wires,
    pub measures: Measures,
    pub plates: Plates<'a>,
}

impl Drawing<'_> {
    pub fn svg(&self) -> String {
        let outermost = self.plates.outermost();
        let legend = Legend::new(self);
        let width = outermost.width + 2.0 * MARGIN;
        let height = outermost.bottom() + legend.height(outermost.width) + MARGIN;
        let label = format!("{} {}", self.caption, self.summary);
        let mut svg = page(width, height, label.trim());
        svg += &self.heading(outermost);
        for (view, depth, plate) in &self.plates.groups {
            svg += &self.group(view, *depth, *plate);
        }
        for (tangle, plate) in &self.plates.blocks {
            svg += &self.block(tangle, *plate);
        }
        svg += &arrows::svg(self, &self.left);
        svg += &arrows::svg(self, &self.right);
        for (card, &plate) in self.cards.list.iter().zip(&self.plates.cards) {
            svg += &self.card(card, plate);
        }
        svg += &legend.svg(outermost);
        svg + "</svg>\n"
    }

    /// Above the outermost Group: the caption at its left, the plan at its
    /// right.
    fn heading(&self, outermost: Plate) -> String {
        let y = outermost.y - CAPTION_LINE / 2.0;
        let class = match self.order {
            Order::Whole => "plan",
            Order::Mixed => "mixed-plan",
        };
        let caption = CAPTION.write(outermost.x + 2.0, y, self.caption);
        let summary = SUMMARY.write(outermost.right() - 2.0, y, self.summary);
        caption + &together(class, &[], &summary)
    }

    fn card(&self, card: &Card, plate: Plate) -> String {
        let (columns, origin, middle) = (&self.measures, self.measures.origin(), plate.middle());
        let name = plate.x + 2.0 * INSET + columns.badge;
        let is_focus = |label: Label| card.view.labels().contains(&label);
        let elements = [
            match card.view.is_folded {
                true => stacked("card", plate, 6.0),
                false => rect("card", plate, 6.0),
            },
            match card.view.is_folded && card.node().is_mixed() {
                true => rect("sign mixed", plate, 6.0),
                false => String::new(),
            },
            badge(&card.badge(), plate.x + INSET, middle, columns.badge),
            NAME.write(name, middle, card.node().title()),
            STATE.write(origin + columns.state, middle, &card.state()),
            NOTE.write(origin + columns.note, middle, &card.note()),
        ];
        let focus = if self.focus.is_some_and(is_focus) {
            " focus"
        } else {
            ""
        };
        let changed = if card.changed > 0 { " changed" } else { "" };
        let class = format!("{}{changed}{focus}", card.class());
        together(&class, &card.title(self.sheet), &elements.concat())
    }

    /// A Group's box and title, whether it is drawn in part, and whether it is
    /// mixed.
    fn group(&self, view: &View, depth: usize, plate: Plate) -> String {
        let shade = match depth {
            0 => "shade0",
            _ if depth.is_multiple_of(2) => "shade2",
            _ => "shade1",
        };
        let mixed = if view.node.is_mixed() { " mixed" } else { "" };
        let is_focus = depth > 0 && self.focus == Some(view.label());
        let focus = if is_focus { " focus" } else { "" };
        let (x, y) = (plate.x + PAD, plate.y + TITLE / 2.0);
        let after = x + GROUP.width(view.node.title()) + PAD;
        let elements = [
            rect(&format!("group {shade}{mixed}{focus}"), plate, 9.0),
            GROUP.write(x, y, view.node.title()),
            part(view).map_or(String::new(), |words| PART.write(after, y, &words)),
            match view.node.is_mixed() {
                true => tag("mixed", plate.right() - PAD - MIXED_TAG, y, MIXED_TAG),
                false => String::new(),
            },
        ];
        together("box", &titles::group(self.sheet, view), &elements.concat())
    }

    /// The outline of a block of several.
    fn block(&self, tangle: &Tangle, plate: Plate) -> String {
        let (x, y) = (plate.x + PAD, plate.y + TITLE / 2.0);
        let outline = rect("sign block", plate, 9.0);
        let title = tangles::lines(self.sheet, self.outermost, tangle);
        together(
            "tangle",
            &title,
            &(outline + &tag("tangled", x, y, TANGLED_TAG)),
        )
    }
}

/// A word in a frame with its left at `x`, and its middle at `y`.
fn tag(word: &str, x: f64, y: f64, width: f64) -> String {
    let tag = Plate {
        x,
        y: y - 9.0,
        width,
        height: 18.0,
    };
    let word = MIXED.write(tag.x + tag.width / 2.0, tag.middle(), word);
    rect("mixed-tag", tag, 9.0) + &word
}

/// A card with others behind it.
pub fn stacked(class: &str, plate: Plate, round: f64) -> String {
    let behind = Plate {
        x: plate.x + WITHIN,
        y: plate.y + BELOW,
        width: plate.width - 2.0 * WITHIN,
        ..plate
    };
    rect("stack", behind, round) + &rect(class, plate, round)
}

/// A round badge with its left at `x`, and its middle at `y`.
pub fn badge(words: &str, x: f64, y: f64, width: f64) -> String {
    let plate = Plate {
        x,
        y: y - BADGE / 2.0,
        width,
        height: BADGE,
    };
    rect("badge", plate, BADGE / 2.0) + &POSITION.write(x + width / 2.0, y, words)
}
