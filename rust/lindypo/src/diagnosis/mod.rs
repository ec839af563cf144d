//! What is wrong, in words, and how to mend it. Number and place are the
//! library's, which proves them; here the text is looked at again for the field
//! to point at, for the names to say and for the slip that was made most likely.
//!
//! Each function takes it that its refusal applies at its label: those above it
//! in the paper's table found nothing that it rests on.

pub(crate) mod bytes;
pub(crate) mod files;
mod finding;
pub(crate) mod form;
pub(crate) mod forms;
mod letters;
pub(crate) mod lines;
pub(crate) mod named;
pub(crate) mod near;
pub(crate) mod numbers;
pub(crate) mod order;
mod pairs;
pub(crate) mod paths;
mod rewrite;
pub(crate) mod rows;
pub(crate) mod text;
pub(crate) mod tree;
pub(crate) mod words;

use crate::raw;
use crate::{Label, Refusal, Sheet};
pub(crate) use finding::Finding;
use rows::Rows;

/// The refusal of a text by Read.
pub fn of_text(text: &[u8], refusal: raw::Refusal) -> Refusal {
    let raw::Refusal { number, place } = refusal;
    let finding = match number {
        1 => bytes::all(text).swap_remove(0),
        2 => text::first_line(text),
        3 => text::count(text),
        _ => of_line(&Rows::new(text), number, place as Label),
    };
    finding.refusal(number, place)
}

/// What refusals 5 to 15 are about at a label. Up to refusal 3 a text may be of
/// any size, so its lines are cut into fields from here on only.
fn of_line(rows: &Rows, number: u64, label: Label) -> Finding {
    let first = |fields: Vec<usize>| fields.first().copied().unwrap_or(rows::A);
    match number {
        5 => lines::fields(rows, label),
        6 => lines::kind(rows, label),
        7 => form::form(rows, label, first(form::misfits(rows, label))),
        8 => tree::link(rows, label, first(tree::wrong_links(rows, label))),
        9 => tree::uses(rows, label),
        10 => tree::argument(rows, label),
        11 => tree::level(rows, label),
        12 => named::name(rows, label),
        13 => named::head(rows, label),
        14 => named::member(rows, label),
        _ => named::wrong_target(rows, label),
    }
}

/// The refusal by Retouch of a sheet that reads.
pub fn of_pairs(sheet: &Sheet, pairs: &[(Label, i64)], refusal: raw::Refusal) -> Refusal {
    let raw::Refusal { number, place } = refusal;
    let rows = Rows::new(sheet.text());
    let pair = |place: u64| pairs.get(place as usize - 1).copied().unwrap_or((0, 0));
    let finding = match number {
        19 => pairs::list(pairs.len()),
        20 => pairs::label(&rows, pair(place).0),
        21 => pairs::number(&rows, pair(place)),
        _ => return of_order(sheet, &[], refusal),
    };
    finding.refusal(number, place)
}

/// The refusal by Plan, Run or Follow of a sheet that reads.
pub fn of_order(sheet: &Sheet, order: &[Label], refusal: raw::Refusal) -> Refusal {
    let raw::Refusal { number, place } = refusal;
    let rows = Rows::new(sheet.text());
    let position = place as usize;
    let finding = match number {
        16 => order::cycle(&rows, &order::mentions(&rows), position),
        17 => order::listed(&rows, order, position),
        _ => order::early(&rows, &order::mentions(&rows), order, position),
    };
    finding.refusal(number, place)
}
