//! The rules of order sheets in Rust: document 01, "the paper", with the orders
//! of document 02 so far: 1, names compared without regard to the case of
//! letters, 2, only the tangled Groups opened, 3, names compared by the word, 4,
//! retouching numbers, and 5, halves to even.
//!
//! One module for each stage, in the order in which refusals are found:
//! `text` (rows 1 to 3), `lines` (5 to 7), `tree` (8 to 11), `paths` (12 to
//! 15), `reach` (16), `order` (the plan, 17 and 18), then `evaluate` and
//! `retouch` (19 to 21). The calls below put the stages together and add row 4.
//! They clear every buffer first and write only once nothing is left to refuse,
//! so a refusal leaves zeros everywhere.

#![forbid(unsafe_code)]

mod adjacency;
mod bits;
mod evaluate;
mod lines;
mod needs;
mod order;
mod paths;
mod print;
mod reach;
mod retouch;
mod sheet;
mod text;
mod tree;

use evaluate::Outcome;
use reach::Reach;
use sheet::{Label, Sheet};
use text::Outline;

pub use print::{print, print_into, Printed};

/// A refusal: its number and its place in the paper's table.
#[derive(Debug, Clone, Copy, PartialEq, Eq)]
pub struct Refusal {
    pub number: u64,
    pub place: u64,
}

impl Refusal {
    pub(crate) fn new(number: u64, place: usize) -> Self {
        let place = place as u64;
        Refusal { number, place }
    }
}

/// Whether a plan keeps the values of every Group together, or some block has
/// several members.
#[derive(Debug, Clone, Copy, PartialEq, Eq)]
pub enum Order {
    Whole,
    Mixed,
}

/// Cells for each label in the table and in the results.
const TABLE_CELLS: usize = 8;
const RESULT_CELLS: usize = 3;

/// The lengths of the buffers lent for writing; `None` for one not lent.
#[derive(Default)]
struct Lent {
    table: Option<usize>,
    plan: Option<usize>,
    results: Option<usize>,
    changes: Option<usize>,
    /// How many pairs the changes are of.
    pairs: usize,
}

impl Lent {
    /// Row 4, "lowest place first, only those lent".
    fn check(&self, count: usize) -> Result<(), Refusal> {
        let wanted = [
            (self.table, TABLE_CELLS * count),
            (self.plan, count),
            (self.results, RESULT_CELLS * count),
            (self.changes, retouch::CHANGE_CELLS * self.pairs),
        ];
        for (place, (length, cells)) in (1..).zip(wanted) {
            if length.is_some_and(|length| length < cells) {
                return Err(Refusal::new(4, place));
            }
        }
        Ok(())
    }
}

/// A sheet with its plan.
struct Planned<'a> {
    sheet: Sheet<'a>,
    plan: Vec<Label>,
    order: Order,
    reach: Reach,
}

/// Read: writes the table and answers n.
pub fn read(text: &[u8], table: &mut [i64]) -> Result<usize, Refusal> {
    table.fill(0);
    let lent = Lent {
        table: Some(table.len()),
        ..Lent::default()
    };
    let sheet = read_sheet(text, &lent)?;
    write_table(&sheet, table);
    Ok(sheet.count())
}

/// Name: writes the table as Read does and hands back that label's name field
/// "as that very part of the text".
pub fn name<'a>(text: &'a [u8], table: &mut [i64], label: i64) -> &'a [u8] {
    table.fill(0);
    let lent = Lent {
        table: Some(table.len()),
        ..Lent::default()
    };
    let Ok(sheet) = read_sheet(text, &lent) else {
        return &text[..0];
    };
    write_table(&sheet, table);
    match usize::try_from(label) {
        Ok(label) if sheet.labels().contains(&label) => sheet.name(label),
        _ => &text[..0],
    }
}

/// Plan: writes the table and the plan, and answers the plan's length.
pub fn plan(text: &[u8], table: &mut [i64], plan: &mut [i64]) -> Result<(usize, Order), Refusal> {
    table.fill(0);
    plan.fill(0);
    let lent = Lent {
        table: Some(table.len()),
        plan: Some(plan.len()),
        ..Lent::default()
    };
    let planned = plan_sheet(text, &lent)?;
    write_table(&planned.sheet, table);
    write_plan(&planned.plan, plan);
    Ok((planned.plan.len(), planned.order))
}

/// Run: Plan, then every value of the plan evaluated into the results.
pub fn run(
    text: &[u8],
    table: &mut [i64],
    plan: &mut [i64],
    results: &mut [i64],
) -> Result<(usize, Order), Refusal> {
    table.fill(0);
    plan.fill(0);
    results.fill(0);
    let lent = Lent {
        table: Some(table.len()),
        plan: Some(plan.len()),
        results: Some(results.len()),
        ..Lent::default()
    };
    let planned = plan_sheet(text, &lent)?;
    write_table(&planned.sheet, table);
    write_plan(&planned.plan, plan);
    write_results(&evaluate::evaluate(&planned.sheet, &planned.plan), results);
    Ok((planned.plan.len(), planned.order))
}

/// Follow: evaluates the values in the order lent and answers its length.
pub fn follow(
    text: &[u8],
    order: &[i64],
    table: &mut [i64],
    results: &mut [i64],
) -> Result<usize, Refusal> {
    table.fill(0);
    results.fill(0);
    let lent = Lent {
        table: Some(table.len()),
        results: Some(results.len()),
        ..Lent::default()
    };
    let sheet = read_sheet(text, &lent)?;
    let listed = order::check(&sheet, &reach::reach(&sheet)?, order)?;
    write_table(&sheet, table);
    write_results(&evaluate::evaluate(&sheet, &listed), results);
    Ok(listed.len())
}

/// Retouch: Run, then each pair of a list (label, number) applied in turn. Answers
/// as Run does; the table has the new numbers, the changes have three cells for
/// each pair.
pub fn retouch(
    text: &[u8],
    pairs: &[i64],
    table: &mut [i64],
    plan: &mut [i64],
    results: &mut [i64],
    changes: &mut [i64],
) -> Result<(usize, Order), Refusal> {
    table.fill(0);
    plan.fill(0);
    results.fill(0);
    changes.fill(0);
    let lent = Lent {
        table: Some(table.len()),
        plan: Some(plan.len()),
        results: Some(results.len()),
        changes: Some(changes.len()),
        pairs: retouch::count_pairs(pairs),
    };
    let mut planned = plan_sheet(text, &lent)?;
    let pairs = retouch::check(&planned.sheet, pairs)?;
    let mut outcomes = evaluate::evaluate(&planned.sheet, &planned.plan);
    retouch::apply(&mut planned, &mut outcomes, &pairs, changes);
    write_table(&planned.sheet, table);
    write_plan(&planned.plan, plan);
    write_results(&outcomes, results);
    Ok((planned.plan.len(), planned.order))
}

/// Rows 1 to 7.
fn split_sheet<'a>(text: &'a [u8], lent: &Lent) -> Result<Sheet<'a>, Refusal> {
    let Outline { ties, start, count } = text::outline(text)?;
    lent.check(count)?;
    let lines = lines::split(text, start, count)?;
    Ok(Sheet { text, ties, lines })
}

/// Rows 1 to 15: the sheet with owners and targets.
fn read_sheet<'a>(text: &'a [u8], lent: &Lent) -> Result<Sheet<'a>, Refusal> {
    let mut sheet = split_sheet(text, lent)?;
    tree::connect(&mut sheet)?;
    paths::resolve(&mut sheet)?;
    Ok(sheet)
}

/// Rows 1 to 16, and the plan.
fn plan_sheet<'a>(text: &'a [u8], lent: &Lent) -> Result<Planned<'a>, Refusal> {
    let sheet = read_sheet(text, lent)?;
    let mut reach = reach::reach(&sheet)?;
    let (plan, order) = order::plan(&sheet, &mut reach);
    Ok(Planned {
        sheet,
        plan,
        order,
        reach,
    })
}

fn write_table(sheet: &Sheet, table: &mut [i64]) {
    for (cells, line) in table.chunks_exact_mut(TABLE_CELLS).zip(&sheet.lines) {
        let [a, b, c] = line.fields;
        cells.copy_from_slice(&[
            line.kind as i64,
            i64::from(line.name.start),
            i64::from(line.name.length),
            a,
            b,
            c,
            i64::from(line.owner),
            i64::from(line.target),
        ]);
    }
}

fn write_plan(listed: &[Label], plan: &mut [i64]) {
    for (cell, &label) in plan.iter_mut().zip(listed) {
        *cell = label as i64;
    }
}

fn write_results(outcomes: &[Option<Outcome>], results: &mut [i64]) {
    for (cells, outcome) in results.chunks_exact_mut(RESULT_CELLS).zip(outcomes) {
        if let Some(outcome) = outcome {
            cells.copy_from_slice(&outcome.cells());
        }
    }
}
