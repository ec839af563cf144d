//! What each pair of a list changed, for programs.

use lindypo::Sheet;

use super::stages::{Redone, Stage, Stages};
use crate::json::{Json, Object};
use crate::values::{self, STATES};
use crate::words::Field;

pub const FIELDS: [Field; 23] = [
    ("pairs", "the pairs, as they were applied:"),
    ("pairs.label", "the label of the N line"),
    ("pairs.line", "that line, from 1"),
    (
        "pairs.owner",
        "the full name of the value or function that it stands in",
    ),
    ("pairs.was", "its number before this pair"),
    ("pairs.number", "its number after it"),
    ("pairs.redone", "how many values were evaluated again"),
    ("pairs.failing", "how many values then have no number"),
    ("pairs.steps", "the sum of the steps of all values then"),
    (
        "pairs.values",
        "the values that were evaluated again, in the order of the plan:",
    ),
    ("pairs.values.label", "its label"),
    ("pairs.values.name", "its full name"),
    ("pairs.values.line", "the line that it stands in, from 1"),
    ("pairs.values.state", STATES),
    ("pairs.values.number", "the number, in state 1"),
    (
        "pairs.values.failure",
        "why there is no number, in every other state",
    ),
    ("pairs.values.steps", "the steps that it took"),
    (
        "pairs.values.changed",
        "whether it came to another number or state",
    ),
    ("pairs.values.was", "what it came to before:"),
    ("pairs.values.was.state", ""),
    ("pairs.values.was.number", ""),
    ("pairs.values.was.failure", ""),
    ("pairs.values.was.steps", ""),
];

pub fn of(sheet: &Sheet, stages: &Stages) -> Object {
    let pairs = stages.list.iter().map(|stage| pair(sheet, stage));
    let values = values::json(&values::of_run(sheet, &stages.run));
    values::run_object(sheet, &stages.run)
        .with("pairs", pairs.collect::<Json>())
        .with("values", values)
}

fn pair(sheet: &Sheet, stage: &Stage) -> Object {
    let values = stage.redone.iter().map(|redone| value(sheet, redone));
    Object::new()
        .with("label", stage.label)
        .with("line", stage.label + 1)
        .with("owner", sheet.full_name(stage.owner))
        .with("was", stage.old)
        .with("number", stage.number)
        .with("redone", stage.change.redone)
        .with("failing", stage.change.failing)
        .with("steps", stage.change.steps)
        .with("values", values.collect::<Json>())
}

fn value(sheet: &Sheet, redone: &Redone) -> Object {
    values::name_object(redone.label, &sheet.full_name(redone.label))
        .and(values::outcome_object(redone.after))
        .with("changed", redone.is_changed())
        .with("was", values::outcome_object(redone.before))
}
