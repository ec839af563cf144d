//! What the signs in the picture mean: those that occur in it.

use super::draw::{badge, stacked, Drawing};
use super::elements::{head, ink, px, rect, together};
use super::letters::LEGEND;
use super::measure::{BADGE, GAP, HEAD};
use super::plates::Plate;

/// The height of a line, the width of a sign, and of it with the space after.
const LINE: f64 = 24.0;
const SIGN: f64 = 22.0;
const COLUMN: f64 = 29.0;

#[derive(Clone, Copy)]
enum Sign {
    Position,
    Read,
    Call,
    Mixed,
    Block,
    Folded,
    Changed,
    Focus,
}

impl Sign {
    fn words(self) -> &'static str {
        match self {
            Sign::Position => "position in the plan",
            Sign::Read => "reads",
            Sign::Call => "calls",
            Sign::Mixed => "values of others stand between",
            Sign::Block => "members that need each other",
            Sign::Folded => "Group, folded",
            Sign::Changed => "changed, before \u{2192} now",
            Sign::Focus => "in focus",
        }
    }

    fn width(self) -> f64 {
        COLUMN + LEGEND.width(self.words()) + 14.0
    }

    /// The sign with its left at `x` and its middle at `y`.
    fn svg(self, x: f64, y: f64) -> String {
        let plate = Plate {
            x,
            y: y - 7.0,
            width: SIGN,
            height: 14.0,
        };
        match self {
            Sign::Position => together("value", &[], &badge("1", x, y, BADGE)),
            Sign::Read => arrow(x, x + SIGN, y),
            Sign::Call => arrow(x + SIGN, x, y),
            Sign::Mixed => rect("sign mixed", plate, 4.0),
            Sign::Block => rect("sign block", plate, 4.0),
            Sign::Folded => together("folded", &[], &stacked("card sign", plate, 4.0)),
            Sign::Changed => rect("change", plate, 4.0),
            Sign::Focus => rect("ring", plate, 4.0),
        }
    }
}

/// An arrow along a line at `y`.
fn arrow(from: f64, to: f64, y: f64) -> String {
    let back = HEAD * (from - to).signum();
    let line = format!(
        "<path class=\"arrow\" d=\"M{} {}H{}\"/>\n",
        px(from),
        px(y),
        px(to + back)
    );
    together(&ink(0), &[], &(line + &head((to, y), back)))
}

pub struct Legend {
    signs: Vec<Sign>,
}

impl Legend {
    pub fn new(drawing: &Drawing) -> Self {
        let cards = || drawing.cards.list.iter();
        let has_values = cards().any(|card| card.node().span.is_some());
        let groups = drawing.plates.groups.iter().map(|(view, ..)| view.node);
        let folded = || cards().filter(|card| card.view.is_folded);
        let is_mixed = groups
            .chain(folded().map(|card| card.node()))
            .any(|node| node.is_mixed());
        let signs = [
            (Sign::Position, has_values),
            (Sign::Read, !drawing.right.trunks.is_empty()),
            (Sign::Call, !drawing.left.trunks.is_empty()),
            (Sign::Mixed, is_mixed),
            (Sign::Block, !drawing.plates.blocks.is_empty()),
            (Sign::Folded, folded().next().is_some()),
            (Sign::Changed, cards().any(|card| card.changed > 0)),
            (Sign::Focus, drawing.focus.is_some()),
        ];
        let occurs = |(sign, occurs): (Sign, bool)| occurs.then_some(sign);
        Legend {
            signs: signs.into_iter().filter_map(occurs).collect(),
        }
    }

    /// Where each sign stands in a legend of this width, line by line.
    fn places(&self, width: f64) -> Vec<(f64, f64)> {
        let (mut x, mut y) = (0.0, 0.0);
        let mut place = |sign: &Sign| {
            if x > 0.0 && x + sign.width() > width {
                (x, y) = (0.0, y + LINE);
            }
            let place = (x, y);
            x += sign.width();
            place
        };
        self.signs.iter().map(&mut place).collect()
    }

    pub fn height(&self, width: f64) -> f64 {
        let places = self.places(width);
        places.last().map_or(0.0, |(_, y)| GAP + y + LINE)
    }

    /// Beneath the outermost Group.
    pub fn svg(&self, outermost: Plate) -> String {
        let (left, top) = (outermost.x + 2.0, outermost.bottom() + GAP + LINE / 2.0);
        let places = self.places(outermost.width);
        let item = |(sign, (x, y)): (&Sign, (f64, f64))| {
            let (x, y) = (left + x, top + y);
            sign.svg(x, y) + &LEGEND.write(x + COLUMN, y, sign.words())
        };
        self.signs.iter().zip(places).map(item).collect()
    }
}
