//! What each pair of a list changed, for people.

use lindypo::{Kind, Sheet, State};

use super::pairs::listed;
use super::stages::{Redone, Stage, Stages};
use crate::numerals::{counted, grouped};
use crate::output::Paint;
use crate::table::{self, figures, words, Cell, Column};
use crate::values;

const COLUMNS: [Column; 5] = [
    figures("label"),
    words("name"),
    figures("before"),
    figures("after"),
    figures("steps"),
];

pub fn of(sheet: &Sheet, stages: &Stages, paint: Paint) -> String {
    let values = values::of_run(sheet, &stages.run);
    let headline = values::headline_of(&values);
    let meaning = values::meaning(stages.run.plan.order);
    let pairs = (1..).zip(&stages.list);
    let pairs: String = pairs
        .map(|(number, stage)| pair(sheet, number, stage, paint))
        .collect();
    let end = match stages.list.len() {
        0 | 1 => String::new(),
        _ => end(sheet, stages, paint),
    };
    format!("{headline}; {meaning}\n{pairs}{end}")
}

/// What all pairs together changed.
fn end(sheet: &Sheet, stages: &Stages, paint: Paint) -> String {
    let changed = stages.changed();
    let values = counted(stages.run.plan.labels.len() as u64, "value");
    match changed.len() as u64 {
        0 => format!("\n{}\n", paint.strong("in the end: all values as before")),
        count => {
            let title = format!("in the end: {} of {values} changed", grouped(count));
            let changed: Vec<&Redone> = changed.iter().collect();
            format!(
                "\n{}\n\n{}",
                paint.strong(&title),
                rows(sheet, &changed, paint)
            )
        }
    }
}

/// A pair, its figures, the values that it changed, and those that it did not.
fn pair(sheet: &Sheet, number: usize, stage: &Stage, paint: Paint) -> String {
    let title = paint.strong(&format!("pair {number}: {}", title(sheet, stage)));
    let (changed, same): (Vec<&Redone>, Vec<&Redone>) =
        stage.redone.iter().partition(|redone| redone.is_changed());
    let redone = match stage.change.redone as u64 {
        0 => "no value depends on it".to_string(),
        count => {
            let changed = match changed.len() as u64 {
                0 => "none".to_string(),
                count => grouped(count),
            };
            format!("{} redone, {changed} changed", counted(count, "value"))
        }
    };
    let failing = failing(stage, paint);
    let steps = counted(stage.change.steps, "step");
    let mut text = format!("\n{title}\n{redone}; {failing}; {steps} in all\n");
    if !changed.is_empty() {
        text += &format!("\n{}", rows(sheet, &changed, paint));
    }
    if !same.is_empty() {
        let names = same.iter().map(|redone| sheet.full_name(redone.label));
        let blank = if changed.is_empty() { "" } else { "\n" };
        text += &format!("{blank}as before: {}\n", listed(names));
    }
    text
}

/// "right.sphere (label 14), -325 becomes -400".
fn title(sheet: &Sheet, stage: &Stage) -> String {
    let (label, old, number) = (stage.label, stage.old, stage.number);
    let becomes = match old == number {
        true => format!("stays {number}"),
        false => format!("{old} becomes {number}"),
    };
    format!("{}, {becomes}", name(sheet, stage, label))
}

/// A number by the name of the value that it is, or by its label.
fn name(sheet: &Sheet, stage: &Stage, label: usize) -> String {
    let owner = sheet.full_name(stage.owner);
    let line = sheet.line(stage.owner);
    let is_body = line.is_some_and(|line| line.kind == Kind::Value && line.b == label as i64);
    match is_body {
        true => format!("{owner} (label {label})"),
        false => format!("label {label} in {owner}"),
    }
}

fn failing(stage: &Stage, paint: Paint) -> String {
    match stage.change.failing as u64 {
        0 => "no value fails".to_string(),
        1 => paint.bad("1 value fails"),
        count => paint.bad(&format!("{} fail", counted(count, "value"))),
    }
}

fn rows(sheet: &Sheet, changed: &[&Redone], paint: Paint) -> String {
    let rows: Vec<_> = changed.iter().map(|redone| row(sheet, redone)).collect();
    table::aligned(COLUMNS, &rows, paint)
}

fn row(sheet: &Sheet, redone: &Redone) -> [Cell; 5] {
    [
        Cell::from(redone.label),
        Cell::from(sheet.full_name(redone.label)),
        cell(redone.before.state),
        cell(redone.after.state),
        Cell::from(redone.after.steps),
    ]
}

/// The number, or why there is none.
fn cell(state: State) -> Cell {
    match state {
        State::Number(number) => Cell::from(number),
        failure => Cell::bad(failure),
    }
}
