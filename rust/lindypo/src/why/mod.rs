//! How a value came to what it is: evaluated once more, with a trace.
//!
//! The library proves the outcome of every value. What is said here of the way
//! to it is tested and not proved: tests hold the state, number and steps of
//! this evaluation to the library's.

mod evaluation;
mod names;

use crate::{Label, Outcome, Results, Sheet, State};
use evaluation::{Evaluation, Stop};

pub use evaluation::Cause;
pub use names::meant;

/// The most calls that a trace has, in the sequence in which they are entered.
pub const CALLS: usize = 32;

/// How a value came to its outcome.
#[derive(Debug, Clone, PartialEq, Eq)]
pub struct Why {
    pub label: Label,
    pub outcome: Outcome,
    /// What it read, each R line once, in the sequence in which they were
    /// entered first.
    pub reads: Vec<Read>,
    /// The first of the calls that it entered.
    pub calls: Vec<Call>,
    /// How many more it entered.
    pub more_calls: usize,
    /// The quotients that were a half, which the sheet's tie rule settled: each D
    /// line once, in the sequence in which they came up.
    pub halves: Vec<Half>,
    /// Where it has no number: where that began.
    pub failure: Option<Failure>,
}

/// An R line that was entered, in the value itself or in a function.
#[derive(Debug, Clone, Copy, PartialEq, Eq)]
pub struct Read {
    pub line: Label,
    /// The value that it reads, and what that came to.
    pub value: Label,
    pub state: State,
    /// How often it was entered.
    pub times: usize,
}

/// A call that was entered.
#[derive(Debug, Clone, Copy, PartialEq, Eq)]
pub struct Call {
    /// The C line.
    pub line: Label,
    pub function: Label,
    pub argument: i64,
    /// 1 for a call by the value itself.
    pub depth: u32,
    /// What it came to.
    pub state: State,
}

/// A D line whose quotient was a half, in the value itself or in a function.
#[derive(Debug, Clone, Copy, PartialEq, Eq)]
pub struct Half {
    pub line: Label,
    /// What was divided the first time, by what, and what that came to.
    pub a: i64,
    pub b: i64,
    pub result: i64,
    /// How often its quotient was a half.
    pub times: usize,
}

/// Where a failure began, and how it came to the value that is asked about.
#[derive(Debug, Clone, PartialEq, Eq)]
pub struct Failure {
    /// The value in which it began, and the line of the expression.
    pub value: Label,
    pub line: Label,
    pub cause: Cause,
    /// The calls around it in that value, outermost first.
    pub within: Vec<Call>,
    /// The reads that handed it on, that of the value asked about first.
    pub handed_on: Vec<Handed>,
}

/// A read by which a failure was handed on.
#[derive(Debug, Clone, Copy, PartialEq, Eq)]
pub struct Handed {
    /// The value that got it by an R line, be that in a function.
    pub by: Label,
    pub line: Label,
    /// The value that it comes from.
    pub from: Label,
}

/// How a value came to what it is; `None` where the label is no value's, or the
/// results are not those of the sheet.
///
/// ```
/// use lindypo::{why, Sheet, State};
///
/// let sheet = Sheet::read(
///     b"kind name a b c\nG - 0 - -\nV half 1 4 -\nV none 1 7 -\n\
///       D - 5 6 -\nN - 7 - -\nR none - - -\nN - 0 - -\nV more 1 9 -\nR half - - -\n",
/// )?;
/// let results = sheet.run()?.results;
/// let why = why::of(&sheet, &results, 8).unwrap();
/// assert_eq!(why.outcome, results.of(8).unwrap());
/// let failure = why.failure.unwrap();
/// // it began in `half`, at the quotient in line 5, and line 10 handed it on
/// assert_eq!((failure.value, failure.line), (2, 4));
/// assert_eq!(failure.cause, why::Cause::ZeroDivisor { a: 7 });
/// assert_eq!(failure.handed_on[0].line, 9);
///
/// // 5 / 2 is a half, which the rule of line one takes to the even neighbour
/// let sheet = Sheet::read(
///     b"kind2 name a b c\nG - 0 - -\nV x 1 3 -\nD - 4 5 -\nN - 5 - -\nN - 2 - -\n",
/// )?;
/// let why = why::of(&sheet, &sheet.run()?.results, 2).unwrap();
/// assert_eq!(why.outcome.state, State::Number(2));
/// assert_eq!(why.halves, [why::Half { line: 3, a: 5, b: 2, result: 2, times: 1 }]);
/// # Ok::<(), lindypo::Refusal>(())
/// ```
pub fn of(sheet: &Sheet, results: &Results, label: Label) -> Option<Why> {
    let mut evaluation = Evaluation::new(sheet, results)?;
    let outcome = evaluation.value(label)?;
    let stop = evaluation.stop.take();
    Some(Why {
        label,
        outcome,
        reads: std::mem::take(&mut evaluation.reads),
        calls: std::mem::take(&mut evaluation.calls),
        more_calls: evaluation.more_calls,
        halves: std::mem::take(&mut evaluation.halves),
        failure: stop.and_then(|stop| began(evaluation, label, stop)),
    })
}

/// Follows a failure down the reads to where it began.
fn began(mut evaluation: Evaluation, label: Label, first: Stop) -> Option<Failure> {
    let (mut value, mut stop, mut handed_on) = (label, first, vec![]);
    loop {
        match stop.cause {
            Ok(cause) => {
                return Some(Failure {
                    value,
                    line: stop.line,
                    cause,
                    within: stop.within,
                    handed_on,
                });
            }
            Err(from) => {
                let line = stop.line;
                handed_on.push(Handed {
                    by: value,
                    line,
                    from,
                });
                evaluation.value(from)?;
                (value, stop) = (from, evaluation.stop.take()?);
            }
        }
    }
}
