//! The picture of a layout, as SVG. The lowest layer stands at the bottom.

use std::fmt::Write as _;

use super::layout::{Layout, Place};
use super::Crates;

const MARGIN: f64 = 24.0;
const HEIGHT: f64 = 30.0;
/// From one layer to the next.
const STEP: f64 = 76.0;
const CAPTION: f64 = 34.0;

const STYLE: &str = "\
.page{fill:#ffffff;stroke:#d5dde6}
.crate{fill:#f3f6fa;stroke:#4a6580;stroke-width:1.2}
.last{fill:#fff4d6;stroke:#a97908}
.name{font:bold 14px 'DejaVu Sans Mono',Menlo,Consolas,'Liberation Mono',monospace;fill:#1b2733;text-anchor:middle}
.legend{font:11.5px Helvetica,Arial,'DejaVu Sans',sans-serif;fill:#5c6b7a}
.arrow{fill:none;stroke:#8ba0b6;stroke-width:1.3;marker-end:url(#head)}
";

const CAPTION_TEXT: &str = "An arrow leads to what a crate rests on; what follows through others \
is left out. On yellow ones no crate rests.";

/// Where a place stands in the picture: its middle, its top and its bottom.
struct Spot {
    x: f64,
    top: f64,
    bottom: f64,
}

struct Picture<'a> {
    crates: &'a Crates,
    layout: &'a Layout,
}

impl Picture<'_> {
    fn width(&self) -> f64 {
        (self.layout.width() + 2.0 * MARGIN).max(CAPTION_TEXT.len() as f64 * 5.8)
    }

    fn height(&self) -> f64 {
        let steps = self.layout.layer_count() - 1;
        2.0 * MARGIN + CAPTION + HEIGHT + STEP * steps as f64
    }

    fn spot(&self, place: &Place) -> Spot {
        let from_top = self.layout.layer_count() - 1 - place.layer;
        let top = MARGIN + STEP * from_top as f64;
        let side = (self.width() - self.layout.width()) / 2.0;
        Spot {
            x: place.x + side,
            top,
            bottom: top + HEIGHT,
        }
    }

    /// A line down through the places that it passes.
    fn arrow(&self, places: &[usize]) -> String {
        let mut path = String::new();
        for pair in places.windows(2) {
            let from = self.spot(&self.layout.places[pair[0]]);
            let to = self.spot(&self.layout.places[pair[1]]);
            let start = if path.is_empty() { 'M' } else { 'L' };
            let half = (from.bottom + to.top) / 2.0;
            let _ = write!(
                path,
                "{start}{:.0} {:.0}C{:.0} {half:.0} {:.0} {half:.0} {:.0} {:.0}",
                from.x, from.bottom, from.x, to.x, to.x, to.top
            );
        }
        format!("<path class=\"arrow\" d=\"{path}\"/>\n")
    }

    fn card(&self, place: &Place, of: usize) -> String {
        let spot = self.spot(place);
        let class = if self.crates.is_last(of) {
            "crate last"
        } else {
            "crate"
        };
        format!(
            "<rect class=\"{class}\" x=\"{:.0}\" y=\"{:.0}\" width=\"{:.0}\" height=\"{HEIGHT:.0}\" rx=\"5\"/>\n\
             <text class=\"name\" x=\"{:.0}\" y=\"{:.0}\">{}</text>\n",
            spot.x - place.width / 2.0,
            spot.top,
            place.width,
            spot.x,
            spot.top + 20.0,
            self.crates.names[of]
        )
    }
}

pub fn picture(crates: &Crates, layout: &Layout) -> String {
    let picture = Picture { crates, layout };
    let (width, height) = (picture.width(), picture.height());
    let arrows = layout.arrows.iter().map(|arrow| picture.arrow(arrow));
    let cards = layout.places.iter().filter_map(|place| {
        let of = place.holds?;
        Some(picture.card(place, of))
    });
    let drawn: String = arrows.chain(cards).collect();
    format!(
        "<svg xmlns=\"http://www.w3.org/2000/svg\" role=\"img\" width=\"{width:.0}\" height=\"{height:.0}\" \
         viewBox=\"0 0 {width:.0} {height:.0}\">\n\
         <title>The crates and what each rests on</title>\n<style>\n{STYLE}</style>\n\
         <marker id=\"head\" viewBox=\"0 0 8 8\" refX=\"8\" refY=\"4\" markerWidth=\"7\" markerHeight=\"7\" orient=\"auto\">\
         <path d=\"M0 0L8 4L0 8z\" fill=\"#8ba0b6\"/></marker>\n\
         <rect class=\"page\" x=\"0.5\" y=\"0.5\" width=\"{:.0}\" height=\"{:.0}\" rx=\"6\"/>\n\
         {drawn}<text class=\"legend\" x=\"{MARGIN:.0}\" y=\"{:.0}\">{CAPTION_TEXT}</text>\n</svg>\n",
        width - 1.0,
        height - 1.0,
        height - MARGIN
    )
}
