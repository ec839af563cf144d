//! What a sheet comes to: the plan and the results, in plain types.

use std::fmt;

use crate::Label;

/// Whether a plan keeps the values of every Group together.
#[derive(Debug, Clone, Copy, PartialEq, Eq, Hash)]
pub enum Order {
    /// For every Group the values in it, at any depth, stand together.
    Whole,
    /// No order that lists each value after those it reaches can do that.
    Mixed,
}

impl fmt::Display for Order {
    fn fmt(&self, f: &mut fmt::Formatter) -> fmt::Result {
        f.write_str(match self {
            Order::Whole => "whole",
            Order::Mixed => "mixed",
        })
    }
}

/// The order in which the values of a sheet are evaluated.
#[derive(Debug, Clone, PartialEq, Eq, Hash)]
pub struct Plan {
    /// All values, each after every value that it reaches.
    pub labels: Vec<Label>,
    pub order: Order,
}

impl Plan {
    /// The cells that the plan takes.
    pub(crate) fn of_cells(cells: &[i64], order: Order) -> Self {
        let labels = cells.iter().map(|&label| label as Label).collect();
        Plan { labels, order }
    }
}

/// What evaluating a value ends in. The number of a state is the paper's.
#[derive(Debug, Clone, Copy, PartialEq, Eq, Hash)]
pub enum State {
    /// State 1; from -1,000,000,000 to 1,000,000,000.
    Number(i64),
    /// State 2.
    OutOfRange,
    /// State 3.
    ZeroDivisor,
    /// State 4.
    OutOfSteps,
    /// State 5.
    TooDeep,
}

impl State {
    /// The paper's number of the state, 1 to 5.
    pub fn code(self) -> i64 {
        match self {
            State::Number(_) => 1,
            State::OutOfRange => 2,
            State::ZeroDivisor => 3,
            State::OutOfSteps => 4,
            State::TooDeep => 5,
        }
    }

    /// The number, where the value has one.
    pub fn number(self) -> Option<i64> {
        match self {
            State::Number(number) => Some(number),
            _ => None,
        }
    }

    /// What the three cells of a label say; `None` for a line that is no value.
    fn of_cells(code: i64, number: i64) -> Option<State> {
        match code {
            1 => Some(State::Number(number)),
            2 => Some(State::OutOfRange),
            3 => Some(State::ZeroDivisor),
            4 => Some(State::OutOfSteps),
            5 => Some(State::TooDeep),
            _ => None,
        }
    }
}

/// The number itself, or in words why there is none.
impl fmt::Display for State {
    fn fmt(&self, f: &mut fmt::Formatter) -> fmt::Result {
        match self {
            State::Number(number) => return number.fmt(f),
            State::OutOfRange => "out of the number range",
            State::ZeroDivisor => "divided by zero",
            State::OutOfSteps => "no step left of 20,000",
            State::TooDeep => "a call at depth 64",
        }
        .fmt(f)
    }
}

/// How evaluating a value went.
#[derive(Debug, Clone, Copy, PartialEq, Eq, Hash)]
pub struct Outcome {
    pub state: State,
    /// Steps taken, 1 to 20,000.
    pub steps: u32,
}

/// The outcome of every value of a sheet.
#[derive(Debug, Clone, PartialEq, Eq, Hash)]
pub struct Results {
    outcomes: Vec<Option<Outcome>>,
}

impl Results {
    /// Three cells for each label: state, number and steps.
    pub(crate) fn of_cells(cells: &[i64]) -> Self {
        let outcome = |cells: &[i64]| {
            let state = State::of_cells(cells[0], cells[1])?;
            let steps = cells[2] as u32;
            Some(Outcome { state, steps })
        };
        let outcomes = cells.chunks_exact(3).map(outcome).collect();
        Results { outcomes }
    }

    /// The outcome of a value; `None` where the label is none of a value.
    pub fn of(&self, label: Label) -> Option<Outcome> {
        *self.outcomes.get(label.checked_sub(1)?)?
    }

    /// Every value with its outcome, upward through the labels.
    pub fn iter(&self) -> impl Iterator<Item = (Label, Outcome)> + '_ {
        let label = |(label, outcome): (Label, &Option<Outcome>)| Some((label, (*outcome)?));
        (1..).zip(&self.outcomes).filter_map(label)
    }
}

/// A plan and what the values come to.
#[derive(Debug, Clone, PartialEq, Eq, Hash)]
pub struct Run {
    pub plan: Plan,
    pub results: Results,
}

/// What one pair of a list brought about, as it stood before the next.
#[derive(Debug, Clone, Copy, PartialEq, Eq, Hash)]
pub struct Change {
    /// Values that were evaluated again.
    pub redone: usize,
    /// Values of the sheet that then have no number.
    pub failing: usize,
    /// The sum of the steps of all values then.
    pub steps: u64,
}

impl Change {
    /// Three cells for each pair: redone, failing and steps.
    pub(crate) fn of_cells(cells: &[i64]) -> Vec<Self> {
        let change = |cells: &[i64]| Change {
            redone: cells[0] as usize,
            failing: cells[1] as usize,
            steps: cells[2] as u64,
        };
        cells.chunks_exact(3).map(change).collect()
    }
}

/// What comes of new numbers: the sheet run with all of them put in, and what
/// each pair brought about.
#[derive(Debug, Clone, PartialEq, Eq, Hash)]
pub struct Retouched {
    /// The plan, which numbers do not change, and what the values come to.
    pub run: Run,
    /// One for each pair, in the sequence of the list.
    pub changes: Vec<Change>,
}

impl Run {
    /// Every value with its outcome, in the order of the plan.
    pub fn values(&self) -> impl Iterator<Item = (Label, Outcome)> + '_ {
        let outcome = |&label: &Label| Some((label, self.results.of(label)?));
        self.plan.labels.iter().filter_map(outcome)
    }
}
