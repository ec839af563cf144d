//! How a value came to what it is, for programs.

use lindypo::why::{Call, Failure, Half, Handed, Read, Why};
use lindypo::{formula, Label, Sheet};

use super::text;
use crate::json::{Json, Object};
use crate::values::{self, STATES};
use crate::words::Field;

pub const FIELDS: [Field; 48] = [
    ("label", "the value's label"),
    ("name", "its full name"),
    ("line", "the line that it stands in, from 1"),
    ("formula", "its formula"),
    ("state", STATES),
    ("number", "the number, in state 1"),
    ("failure", "why there is no number, in every other state"),
    ("steps", "the steps that it took"),
    ("reads", "what it read, each R line once:"),
    ("reads.line", "the R line, from 1"),
    ("reads.label", "the label of the value that it reads"),
    ("reads.name", "the full name of that value"),
    ("reads.state", STATES),
    ("reads.number", "the number that was read"),
    ("reads.failure", "why that value has none"),
    ("reads.times", "how often the line was entered"),
    (
        "calls",
        "the first of the calls that it entered, in their sequence:",
    ),
    ("calls.line", "the C line, from 1"),
    ("calls.label", "the label of the function"),
    ("calls.name", "the full name of the function"),
    ("calls.argument", "the argument"),
    (
        "calls.depth",
        "how deep the call is, 1 for one by the value itself",
    ),
    ("calls.state", STATES),
    ("calls.number", "the number that it came to"),
    ("calls.failure", "why it came to none"),
    ("more_calls", "how many more calls it entered"),
    (
        "halves",
        "the quotients that were a half, each D line once:",
    ),
    ("halves.line", "the D line, from 1"),
    ("halves.dividend", "what was divided, the first time"),
    ("halves.divisor", "by what it was divided"),
    ("halves.number", "what that came to, by the tie rule"),
    ("halves.times", "how often its quotient was a half"),
    ("began", "of a value without a number, where that began:"),
    ("began.line", "the line of the expression, from 1"),
    (
        "began.label",
        "the label of the value that it stands in or that called it",
    ),
    ("began.name", "the full name of that value"),
    ("began.cause", "what the line could not do"),
    ("began.within", "the calls around it, outermost first:"),
    ("began.within.line", "the C line, from 1"),
    ("began.within.label", "the label of the function"),
    ("began.within.name", "the full name of the function"),
    ("began.within.argument", "the argument"),
    ("began.within.depth", "how deep the call is"),
    (
        "began.handed_on",
        "the reads that handed it on, that of the value asked for first:",
    ),
    ("began.handed_on.line", "the R line, from 1"),
    (
        "began.handed_on.label",
        "the label of the value that it came to",
    ),
    ("began.handed_on.name", "the full name of that value"),
    (
        "began.handed_on.from",
        "the full name of the value that it came from",
    ),
];

pub fn of(sheet: &Sheet, why: &Why) -> Object {
    let formula = formula::of(sheet, why.label).unwrap_or_default();
    let reads: Json = why
        .reads
        .iter()
        .map(|read| read_object(sheet, read))
        .collect();
    let calls = why.calls.iter();
    let calls: Json = calls
        .map(|call| call_object(sheet, call).and(values::state_object(call.state)))
        .collect();
    let began = why.failure.as_ref().map(|failure| began(sheet, failure));
    values::ties_object(sheet)
        .and(values::name_object(why.label, &sheet.full_name(why.label)))
        .with("formula", formula)
        .and(values::outcome_object(why.outcome))
        .with("reads", reads)
        .with("calls", calls)
        .with("more_calls", why.more_calls)
        .with(
            "halves",
            why.halves.iter().map(half_object).collect::<Json>(),
        )
        .with_some("began", began)
}

/// A line of the text, and a definition that it has to do with.
fn line_object(sheet: &Sheet, line: Label, definition: Label) -> Object {
    Object::new()
        .with("line", line + 1)
        .with("label", definition)
        .with("name", sheet.full_name(definition))
}

fn read_object(sheet: &Sheet, read: &Read) -> Object {
    line_object(sheet, read.line, read.value)
        .and(values::state_object(read.state))
        .with("times", read.times)
}

fn call_object(sheet: &Sheet, call: &Call) -> Object {
    line_object(sheet, call.line, call.function)
        .with("argument", call.argument)
        .with("depth", call.depth)
}

fn half_object(half: &Half) -> Object {
    Object::new()
        .with("line", half.line + 1)
        .with("dividend", half.a)
        .with("divisor", half.b)
        .with("number", half.result)
        .with("times", half.times)
}

fn began(sheet: &Sheet, failure: &Failure) -> Object {
    let within = failure.within.iter().map(|call| call_object(sheet, call));
    let handed_on = failure.handed_on.iter();
    let handed_on = handed_on.map(|handed| handed_object(sheet, handed));
    line_object(sheet, failure.line, failure.value)
        .with("cause", text::cause(sheet, failure))
        .with("within", within.collect::<Json>())
        .with("handed_on", handed_on.collect::<Json>())
}

fn handed_object(sheet: &Sheet, handed: &Handed) -> Object {
    line_object(sheet, handed.line, handed.by).with("from", sheet.full_name(handed.from))
}
