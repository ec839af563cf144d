//! Sheets of as many lines as words of bits hold, one less and one more.

use checks::Trial;
use generator::{line_count, Rng};

use crate::agree;

const EDGES: [usize; 5] = [64, 128, 256, 512, 1_024];

/// The text with Groups added, up to this many lines.
fn padded(mut text: Vec<u8>, lines: usize) -> Vec<u8> {
    for label in line_count(&text) + 1..=lines {
        text.extend(format!("G pad{label} 1 - -\n").bytes());
    }
    text
}

/// The numbers of lines to try: around each edge, 1,024 at most.
fn counts() -> impl Iterator<Item = usize> {
    let around = |edge: usize| edge - 3..=edge + 3;
    EDGES.into_iter().flat_map(around).filter(|&n| n <= 1_024)
}

#[test]
fn shapes_at_the_edges() {
    for lines in counts() {
        let texts = [
            generator::everyday(lines, 3),
            generator::backward((lines - 1) / 2),
            generator::forward((lines - 1) / 2),
            generator::tangled((lines - 3) / 2),
            generator::ring((lines - 3) / 3),
            generator::rings((lines - 1) / 8),
            generator::every_second_in_ring((lines - 3) / 3),
            generator::rings_in_every_second((lines - 1) / 12 * 2),
            generator::nested_tangle((lines - 3) * 5 / 17),
            generator::nested_values((lines - 1) / 3),
            generator::dense((lines + 4) / 6),
            generator::nested((lines - 3) * 100 / 204),
        ];
        for text in texts {
            let text = padded(text, lines);
            assert_eq!(line_count(&text), lines);
            assert_eq!(agree(&text).run.refusal, 0);
        }
    }
}

/// Random sheets of nearly as many lines, with orders for Follow and pairs for
/// Retouch.
#[test]
fn random_sheets_at_the_edges() {
    let rng = &mut Rng::new(11);
    for lines in counts() {
        for _ in 0..20 {
            let text = generator::sheet_within(rng, lines);
            let text = padded(text, lines);
            let order = generator::order(rng, &text);
            let pairs = generator::pairs(rng, &text);
            Trial::new(&text, &order).retouching(&pairs).expect();
        }
    }
}
