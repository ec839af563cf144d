//! Every fault of a text, not the first alone.

mod judge;
mod loose;
mod ways;

use crate::diagnosis::bytes::{self, MOST_BYTES};
use crate::diagnosis::rows::Rows;
use crate::diagnosis::text::{self, MOST_LINES};
use crate::diagnosis::{files, form, Finding};
use crate::{Refusal, Sheet};
use judge::Judge;

/// Every fault of a text; none where the sheet runs.
///
/// The first is the refusal that the library gives. The others are those that
/// stand in the text beside it and do not follow from it: a refusal is looked
/// for at a place where those before it found nothing that it rests on there.
/// They come in the sequence of the paper's table: the text, the lines from the
/// top, then refusal after refusal from 8 to 16, each upward through the labels.
///
/// ```
/// let text = b"kind name a b c\nG - 0 - -\nV size 1 4 -\nV x 1 5 -\nN - 1.5 - -\nR sise - - -\n";
/// let faults = lindypo::faults(text);
/// let places: Vec<(u64, u64)> = faults.iter().map(|it| (it.number(), it.place())).collect();
/// assert_eq!(places, [(7, 4), (13, 5)]);
/// assert_eq!(
///     faults[1].sentence(),
///     "the outermost Group has no member `sise`; is `size` (line 3) meant?"
/// );
/// assert!(lindypo::faults(b"kind name a b c\nG - 0 - -\n").is_empty());
/// ```
pub fn faults(text: &[u8]) -> Vec<Refusal> {
    let plan = Sheet::read(text).and_then(|sheet| sheet.plan());
    let Err(first) = plan else {
        return vec![];
    };
    let found = judged(text);
    debug_assert_eq!(found.first(), Some(&first));
    let others = found.into_iter().skip(1);
    std::iter::once(first).chain(others).collect()
}

/// What is found in a text, refusal by refusal.
fn judged(text: &[u8]) -> Vec<Refusal> {
    let mut found = of_whole(text);
    if is_no_sheet(text) {
        found.truncate(1);
    } else if let Some(rows) = counted_rows(text) {
        found.extend(Judge::new(text, rows).all());
    }
    found
}

/// Whether a text is none, or not plain text: more of it tells no more.
fn is_no_sheet(text: &[u8]) -> bool {
    text.is_empty() || files::wide(text).is_some() || files::kind_of(text).is_some()
}

/// Refusals 1 to 3. What a text is that was cut off is not known.
fn of_whole(text: &[u8]) -> Vec<Refusal> {
    let whole = |number: u64| move |finding: Finding| finding.refusal(number, 0);
    let mut found: Vec<Refusal> = bytes::all(text).into_iter().map(whole(1)).collect();
    let line_one = text::line_one(text);
    let is_clean = bytes::is_clean(line_one) && !bytes::is_cut(text);
    if is_clean && !text::is_first_line(line_one) {
        found.push(text::first_line(text).refusal(2, 0));
    }
    let lines = text::line_count(text);
    // where line one has bytes that are no text, line ends may be among them
    if lines > MOST_LINES || lines == 0 && is_clean {
        found.push(text::count(text).refusal(3, 0));
    }
    found
}

/// The lines after line one, where it is known which of them has which label.
fn counted_rows(text: &[u8]) -> Option<Rows<'_>> {
    let is_count = (1..=MOST_LINES).contains(&text::line_count(text));
    let is_whole = is_count && text.len() <= MOST_BYTES && !bytes::is_cut(text);
    let rows = is_whole.then(|| Rows::new(text))?;
    let has_names = text::is_first_line(text::line_one(text));
    (has_names || form::is_outermost(rows.fields(1))).then_some(rows)
}
