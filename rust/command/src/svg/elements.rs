//! The elements that the picture is made of, as SVG writes them.

use super::letters;
use super::plates::Plate;
use super::titles;
use crate::markup::escaped;

/// Colours, and where words stand about their place. Light of its own, so that
/// it can be read on a dark page too.
const STYLE: &str = "\
.page{fill:#ffffff;stroke:#d5dde6}
.caption,.name,.state{fill:#1b2733}
.summary,.group-name,.note,.legend,.part{fill:#5c6b7a}
.summary,.state,.note{text-anchor:end}
.position,.mixed-word{fill:#ffffff;text-anchor:middle}
.group{stroke:#8ba0b6;stroke-width:1.2}
.shade0{fill:#f3f6fa}
.shade1{fill:#e6edf5}
.shade2{fill:#f8fafc}
.mixed{stroke:#c2410c;stroke-width:1.6;stroke-dasharray:7 4}
.block{stroke:#c2410c;stroke-width:2.4}
.mixed-tag,.mixed-plan .summary{fill:#c2410c}
.value .card{fill:#ffffff;stroke:#4a6580}
.value .badge{fill:#4a6580}
.changed .state{fill:#6d28d9}
.failed .card{fill:#fdeceb;stroke:#b3261e}
.failed .badge,.failed .state{fill:#b3261e}
.folded .card,.stack{fill:#dde6f0;stroke:#4a6580}
.folded .badge{fill:#4a6580}
.failed .stack{fill:#fdeceb;stroke:#b3261e}
.function .card{fill:#fff4d6;stroke:#a97908}
.function .badge{fill:#a97908}
.card,.stack{stroke-width:1.2}
.changed .card,.change{stroke:#6d28d9;stroke-width:3}
.focus .card,.group.focus,.ring{stroke:#1b2733;stroke-width:3}
.arrow{fill:none;stroke-width:1.7}
.head,.tail{stroke:none}
.sign,.ring,.change{fill:none}
";

/// The colours of arrows, in turn.
const INKS: [&str; 7] = [
    "#1668b5", "#0c7f5b", "#8a3ea8", "#8a6a00", "#b02a63", "#3f5566", "#0e7490",
];

/// The class of the arrows to a definition.
pub fn ink(number: usize) -> String {
    format!("ink{}", number % INKS.len())
}

fn style() -> String {
    let ink = |(number, colour): (usize, &&str)| {
        let class = ink(number);
        format!(".{class}{{stroke:{colour};fill:{colour}}}\n")
    };
    let inks: String = INKS.iter().enumerate().map(ink).collect();
    format!("{}{STYLE}{inks}", letters::style())
}

/// How every picture begins.
pub const START: &str = "<svg class=\"lindypo\"";

/// The beginning of a picture, with its background.
pub fn page(width: f64, height: f64, label: &str) -> String {
    let plate = Plate {
        x: 0.5,
        y: 0.5,
        width: width - 1.0,
        height: height - 1.0,
    };
    let (width, height, label, style) = (px(width), px(height), escaped(label), style());
    let page = rect("page", plate, 10.0);
    format!(
        "{START} xmlns=\"http://www.w3.org/2000/svg\" role=\"img\" \
         width=\"{width}\" height=\"{height}\" viewBox=\"0 0 {width} {height}\">\n\
         <title>{label}</title>\n<style>\n{style}</style>\n{page}"
    )
}

pub fn rect(class: &str, plate: Plate, round: f64) -> String {
    let [x, y, width, height] = [plate.x, plate.y, plate.width, plate.height].map(px);
    let round = px(round);
    format!(
        "<rect class=\"{class}\" x=\"{x}\" y=\"{y}\" \
         width=\"{width}\" height=\"{height}\" rx=\"{round}\"/>\n"
    )
}

/// Elements that belong together; the lines are said where the pointer rests.
pub fn together(class: &str, title: &[String], elements: &str) -> String {
    let title = titles::element(title);
    format!("<g class=\"{class}\">{title}\n{elements}</g>\n")
}

/// The head of an arrow with its tip at a place. A length below 0 points right.
pub fn head((x, y): (f64, f64), length: f64) -> String {
    let half = length.abs() / 2.0;
    let [x, y, length, half, height] = [x, y, length, half, 2.0 * half].map(px);
    format!("<path class=\"head\" d=\"M{x} {y}l{length} -{half}v{height}z\"/>\n")
}

/// A length with at most one place after the point.
pub fn px(length: f64) -> String {
    let tenths = (length * 10.0).round() as i64;
    match tenths % 10 {
        0 => (tenths / 10).to_string(),
        _ => format!("{:.1}", tenths as f64 / 10.0),
    }
}

#[cfg(test)]
mod tests {
    use super::*;

    #[test]
    fn lengths_are_short() {
        assert_eq!(
            [0.0, 12.0, 12.34, -0.5].map(px),
            ["0", "12", "12.3", "-0.5"]
        );
    }
}
