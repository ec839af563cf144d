//! The values of a sheet one beneath the other, with their full names.

use lindypo::{Label, Order, Outcome, Results, Run, Sheet, State, Ties};

use crate::formulas;
use crate::json::{Json, Object};
use crate::numerals::{counted, grouped};
use crate::output::Paint;
use crate::status::Status;
use crate::table::{self, figures, words, Cell, Column};
use crate::words::Field;

/// A value that has been evaluated.
pub struct Value {
    pub label: Label,
    pub name: String,
    pub outcome: Outcome,
}

/// What the numbers of the states mean.
pub const STATES: &str = "1 a number, 2 out of range, 3 a zero divisor, 4 out of steps, 5 too deep";

/// Every state in which a value has no number, by its number from 2.
pub const FAILURES: [State; 4] = [
    State::OutOfRange,
    State::ZeroDivisor,
    State::OutOfSteps,
    State::TooDeep,
];

/// The JSON of a plan, of a value, and of one that has been evaluated.
pub const ORDER_FIELDS: [Field; 1] = [("order", "whole or mixed")];
/// The JSON of what is evaluated.
pub const TIES_FIELDS: [Field; 1] = [(
    "ties",
    "where a quotient goes that is a half: away (from zero) or even",
)];
pub const NAME_FIELDS: [Field; 4] = [
    ("values", "the values in this order:"),
    ("values.label", "its label"),
    ("values.name", "its full name"),
    ("values.line", "the line that it stands in, from 1"),
];
pub const OUTCOME_FIELDS: [Field; 4] = [
    ("values.state", STATES),
    ("values.number", "the number, in state 1"),
    (
        "values.failure",
        "why there is no number, in every other state",
    ),
    ("values.steps", "the steps that it took"),
];

/// Values in some order, as far as there are results.
pub fn listed(sheet: &Sheet, labels: &[Label], results: &Results) -> Vec<Value> {
    let value = |&label: &Label| {
        Some(Value {
            label,
            name: sheet.full_name(label),
            outcome: results.of(label)?,
        })
    };
    labels.iter().filter_map(value).collect()
}

/// The values of a run in the order of its plan.
pub fn of_run(sheet: &Sheet, run: &Run) -> Vec<Value> {
    listed(sheet, &run.plan.labels, &run.results)
}

/// Whether every value is a number.
pub fn status(values: &[Value]) -> Status {
    match numbers(values) == values.len() {
        true => Status::Answered,
        false => Status::Failed,
    }
}

/// "3 of 4 values have a number".
pub fn headline(numbers: u64, count: u64) -> String {
    let is_one = numbers == 1 || count == 1;
    let verb = if is_one { "has" } else { "have" };
    let values = counted(count, "value");
    match count {
        0 => values,
        _ => format!("{} of {values} {verb} a number", grouped(numbers)),
    }
}

pub fn headline_of(values: &[Value]) -> String {
    headline(numbers(values) as u64, values.len() as u64)
}

/// What the order of a plan means.
pub fn meaning(order: Order) -> &'static str {
    match order {
        Order::Whole => "whole plan: the values of every Group stand together",
        Order::Mixed => "mixed plan: no order keeps the values of every Group together",
    }
}

/// The tie rule as one word, for programs.
pub fn ties_word(ties: Ties) -> &'static str {
    match ties {
        Ties::Away => "away",
        Ties::Even => "even",
    }
}

/// The cells of a state: the number, and the words.
pub fn state_cells(state: State) -> [Cell; 2] {
    match state {
        State::Number(number) => [Cell::from(number), Cell::from("a number")],
        failure => [Cell::default(), Cell::bad(failure)],
    }
}

const COLUMNS: [Column; 7] = [
    figures("position"),
    figures("label"),
    words("name"),
    figures("number"),
    figures("steps"),
    words("state"),
    words("formula"),
];

/// All values, with their positions from 1.
pub fn table(sheet: &Sheet, values: &[Value], paint: Paint) -> String {
    let row = |(position, value): (usize, &Value)| {
        let [number, state] = state_cells(value.outcome.state);
        [
            Cell::from(position),
            Cell::from(value.label),
            Cell::from(&value.name),
            number,
            Cell::from(value.outcome.steps),
            state,
            Cell::from(formulas::shown(sheet, value.label)),
        ]
    };
    let rows: Vec<_> = (1..).zip(values).map(row).collect();
    table::aligned(COLUMNS, &rows, paint)
}

/// The fields of a name.
pub fn name_object(label: Label, name: &str) -> Object {
    Object::new()
        .with("label", label)
        .with("name", name)
        .with("line", label + 1)
}

/// The fields of an outcome.
pub fn outcome_object(outcome: Outcome) -> Object {
    state_object(outcome.state).with("steps", outcome.steps)
}

/// The fields of a state.
pub fn state_object(state: State) -> Object {
    let failure = match state {
        State::Number(_) => None,
        failure => Some(failure.to_string()),
    };
    Object::new()
        .with("state", state.code())
        .with_some("number", state.number())
        .with_some("failure", failure)
}

pub fn json(values: &[Value]) -> Json {
    let object =
        |value: &Value| name_object(value.label, &value.name).and(outcome_object(value.outcome));
    values.iter().map(object).collect()
}

/// The order of a plan.
pub fn order_object(order: Order) -> Object {
    Object::new().with("order", order.to_string())
}

/// The order of a plan, and the tie rule that its values were evaluated by.
pub fn run_object(sheet: &Sheet, run: &Run) -> Object {
    order_object(run.plan.order).and(ties_object(sheet))
}

pub fn ties_object(sheet: &Sheet) -> Object {
    Object::new().with("ties", ties_word(sheet.ties()))
}

/// How many of the values are numbers.
pub fn numbers(values: &[Value]) -> usize {
    let states = values.iter().map(|value| value.outcome.state);
    states.filter_map(State::number).count()
}
