//! Random order sheets from a seed, so that a failure can be run again, and
//! fixed shapes for speed figures.
//!
//! `random` makes sheets that read, `damage` spoils them, `first_lines` puts them
//! under the one or the other tie rule, `letters` writes their names in capitals and
//! small letters, `rows` takes them apart, `lent` chooses
//! buffer lengths and orders for Follow, `pairs` makes lists for Retouch, `tangles`
//! says where a sheet is tangled, `near` makes names that are nearly the same,
//! `everyday`, `shapes`, `tangled` and `long_names` hold the fixed sheets, `slots`
//! names that share a slot of the library's hash.

#![forbid(unsafe_code)]

mod builder;
mod damage;
mod everyday;
mod first_lines;
mod lent;
mod letters;
mod long_names;
mod near;
mod pairs;
mod random;
mod rng;
pub mod rows;
mod shapes;
pub mod slots;
mod tangled;
mod tangles;

pub use damage::{damage, damage_line_one, damaged, WRONG_LINES};
pub use everyday::{everyday, everyday_on_one};
pub use first_lines::{first_line, is_one_byte_off, under, under_other, AWAY, EVEN, FIRST_LINES};
pub use lent::{buffer_length, order, planned, print_length, proper_order};
pub use letters::{capital_paths, is_same_name, recase, recased, recased_name, OtherLetters};
pub use long_names::{near_names, near_paths, one_hash, one_slot};
pub use near::{long_name, make_near, NearNames};
pub use pairs::{number_labels, pairs, put_numbers};
pub use random::{sheet, sheet_within};
pub use rng::Rng;
pub use shapes::{
    backward, deepest_calls, dense, flat, forward, halves, halves_in_calls, late_refusal, nested,
    nested_values, shapes, short_values, spent, Shape,
};
pub use tangled::{
    every_second_in_ring, nested_tangle, ring, ring_among, rings, rings_in_every_second, tangled,
};
pub use tangles::{tangled_blocks, Tangles};

/// All that one trial of all the calls needs.
#[derive(Debug, Clone, PartialEq, Eq)]
pub struct Case {
    pub text: Vec<u8>,
    /// Lengths of the buffers to lend.
    pub table: usize,
    pub plan: usize,
    pub results: usize,
    /// What the buffers are full of beforehand.
    pub rubbish: i64,
    /// A label for Name.
    pub label: i64,
    /// A list for Follow.
    pub order: Vec<i64>,
    /// Bytes to lend for the print.
    pub print: usize,
    /// A list of pairs for Retouch, and the cells to lend for its changes.
    pub pairs: Vec<i64>,
    pub changes: usize,
}

/// The trial with this seed.
pub fn case(seed: u64) -> Case {
    let rng = &mut Rng::new(seed);
    let text = any_sheet(rng);
    let lines = line_count(&text);
    let mut case = Case {
        table: buffer_length(rng, 8 * lines),
        plan: buffer_length(rng, lines),
        results: buffer_length(rng, 3 * lines),
        rubbish: *rng.pick(&[0, 1, -1, i64::MIN, i64::MAX, 77]),
        label: lent::label(rng, lines),
        order: order(rng, &text),
        print: print_length(rng, &text),
        pairs: Vec::new(),
        changes: 0,
        text,
    };
    // last, so that all else of a seed's trial is what it was without them
    case.pairs = pairs(rng, &case.text);
    case.changes = buffer_length(rng, 3 * (case.pairs.len() / 2));
    case
}

/// A sheet of any sort: about half of them read.
pub fn any_sheet(rng: &mut Rng) -> Vec<u8> {
    if rng.chance(55) {
        sheet(rng)
    } else {
        damaged(rng)
    }
}

/// The number n of lines after line one, whatever the text.
pub fn line_count(text: &[u8]) -> usize {
    let ends = text.iter().filter(|&&byte| byte == b'\n').count();
    ends.saturating_sub(1)
}
