//! What one file comes to.

use lindypo::{Label, Order, Outcome, Refusal, Sheet};

use super::files::Item;
use crate::sheets;
use crate::status::Status;
use crate::values::{self, Value, FAILURES};

#[derive(Debug, Clone, PartialEq, Eq)]
pub enum Verdict {
    Answered(Figures),
    /// The refusal; where they are asked for, all faults, of which it is the
    /// first.
    Refused(Refusal, Option<Vec<Refusal>>),
    /// Why the file cannot be read.
    Unreadable(String),
    /// Why the file is not taken.
    Skipped(&'static str),
}

/// A count for each state, by its number from 1: a number first, then the
/// failures.
pub type States = [u64; 1 + FAILURES.len()];

/// What the values of a sheet come to.
#[derive(Debug, Clone, PartialEq, Eq)]
pub struct Figures {
    pub order: Order,
    /// How many values have each state, by its number from 1.
    pub states: States,
    pub steps: u64,
    /// The values without a number, in the order of the plan.
    pub failed: Vec<Failed>,
}

/// A value without a number, and where its name stands.
#[derive(Debug, Clone, PartialEq, Eq)]
pub struct Failed {
    pub label: Label,
    pub name: String,
    pub column: usize,
    pub outcome: Outcome,
}

impl Verdict {
    /// `all` asks for every fault.
    pub fn of(item: &Item, all: bool) -> Self {
        match item {
            Item::Checked(source) => match source.read() {
                Ok(text) => Verdict::of_text(&text, all),
                Err(reason) => Verdict::Unreadable(reason),
            },
            Item::Skipped(_, reason) => Verdict::Skipped(reason),
            Item::Wrong(_, reason) => Verdict::Unreadable(reason.clone()),
        }
    }

    pub fn of_text(text: &[u8], all: bool) -> Self {
        match sheets::ran(text) {
            Ok((sheet, run)) => {
                let values = values::of_run(&sheet, &run);
                Verdict::Answered(Figures::new(&sheet, run.plan.order, values))
            }
            Err(refusal) => Verdict::Refused(refusal, all.then(|| lindypo::faults(text))),
        }
    }

    pub fn status(&self) -> Status {
        match self {
            Verdict::Answered(figures) if figures.failed.is_empty() => Status::Answered,
            Verdict::Answered(_) | Verdict::Refused(..) => Status::Failed,
            Verdict::Unreadable(_) => Status::Unreadable,
            Verdict::Skipped(_) => Status::Answered,
        }
    }
}

impl Figures {
    fn new(sheet: &Sheet, order: Order, values: Vec<Value>) -> Self {
        let (mut states, mut steps, mut failed) = (States::default(), 0, vec![]);
        for value in values {
            states[value.outcome.state.code() as usize - 1] += 1;
            steps += u64::from(value.outcome.steps);
            if value.outcome.state.number().is_none() {
                failed.push(Failed::new(sheet, value));
            }
        }
        Figures {
            order,
            states,
            steps,
            failed,
        }
    }

    pub fn count(&self) -> u64 {
        self.states.iter().sum()
    }
}

impl Failed {
    fn new(sheet: &Sheet, value: Value) -> Self {
        let mut lines = sheet.text().split(|&byte| byte == b'\n');
        let line = lines.nth(value.label).unwrap_or_default();
        let kind = line.iter().take_while(|&&byte| byte != b' ').count();
        Failed {
            label: value.label,
            name: value.name,
            // after the kind and a space
            column: kind + 2,
            outcome: value.outcome,
        }
    }
}
