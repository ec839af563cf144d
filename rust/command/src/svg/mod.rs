//! The picture of a sheet: Groups as boxes in boxes, values in the order of the
//! plan, an arrow for each mention; an outline around members that are tangled.
//!
//! Every value and function has a row of its own, and so has a Group that is
//! folded. Arrows run in gutters beside the boxes: reads on the right, calls on
//! the left. So no arrow runs through a box or a word. All arrows to one card
//! share a trunk in the gutter and a head; trunks side by side keep apart in
//! lanes.

mod arrows;
mod cards;
mod draw;
mod elements;
mod focus;
mod folds;
mod legend;
mod letters;
mod measure;
mod plates;
mod titles;
mod view;
mod wires;

use std::collections::{BTreeMap, BTreeSet};

use lindypo::{Label, Run, Sheet, State, Ties};

use crate::blocks;
use crate::files::Sort;
use crate::numerals::counted;
use crate::tree::Node;
use cards::Cards;
use draw::Drawing;
pub use folds::MOST;
use letters::{CAPTION, SUMMARY};
use measure::Measures;
use plates::Plates;
use view::View;
use wires::{Side, Wires};

/// How a picture is known that was drawn earlier.
pub const SORT: Sort = Sort {
    name: "picture of lindypo",
    start: elements::START,
};

/// What to draw.
#[derive(Debug, Clone, Default)]
pub struct Wanted {
    /// Only what this definition reaches and what reaches it.
    pub focus: Option<Label>,
    /// These Groups folded; where nothing is said, as many as it takes.
    pub folded: Option<BTreeSet<Label>>,
    /// What these values were before they changed.
    pub before: BTreeMap<Label, State>,
}

/// A picture in SVG that needs nothing else; `caption` stands above it. Answers
/// how many Groups were folded without being named.
pub fn picture(sheet: &Sheet, run: &Run, wanted: &Wanted, caption: &str) -> (String, usize) {
    let outermost = Node::outermost(sheet, run);
    let kept = wanted.focus.map(|label| focus::around(sheet, label));
    let keep = |label: Label| kept.as_ref().is_none_or(|kept| kept.contains(&label));
    let mut view = View::new(&outermost, &keep);
    let folded = match &wanted.folded {
        Some(folded) => folded.clone(),
        None => folds::automatic(&view, wanted.focus),
    };
    view.fold(&folded);
    let summary = summary(&view, sheet, run);
    let focus = wanted.focus.map(|label| sheet.full_name(label));
    let parts = [caption, focus.as_deref().unwrap_or("")];
    let parts: Vec<&str> = parts.into_iter().filter(|part| !part.is_empty()).collect();
    let caption = parts.join(": ");
    let svg = drawn(sheet, run, &view, wanted, (&caption, &summary));
    let unasked = if wanted.folded.is_none() {
        folded.len()
    } else {
        0
    };
    (svg, unasked)
}

/// "3 of 7 values, whole plan", and the tie rule where it is not the one that goes
/// without saying.
fn summary(view: &View, sheet: &Sheet, run: &Run) -> String {
    let (drawn, all) = (view.counts().values, view.counts_of_all().values);
    let of = if drawn < all {
        format!("{drawn} of ")
    } else {
        String::new()
    };
    let ties = match sheet.ties() {
        Ties::Away => String::new(),
        ties => format!(", {ties}"),
    };
    let (values, order) = (counted(all as u64, "value"), run.plan.order);
    format!("{of}{values}, {order} plan{ties}")
}

fn drawn(
    sheet: &Sheet,
    run: &Run,
    view: &View,
    wanted: &Wanted,
    (caption, summary): (&str, &str),
) -> String {
    let (cards, tangles) = (Cards::new(view, &wanted.before), blocks::of_run(sheet, run));
    let left = Wires::new(Side::Left, &cards, sheet);
    let right = Wires::new(Side::Right, &cards, sheet);
    let heading = CAPTION.width(caption) + 30.0 + SUMMARY.width(summary);
    let measures = Measures::new(view, &cards, [&left, &right], heading);
    let plates = Plates::new(view, &cards, &tangles, &measures, [&left, &right]);
    let drawing = Drawing {
        sheet,
        outermost: view.node,
        caption,
        summary,
        order: run.plan.order,
        focus: wanted.focus,
        cards,
        left,
        right,
        measures,
        plates,
    };
    drawing.svg()
}
