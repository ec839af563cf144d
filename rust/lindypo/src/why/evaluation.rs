//! The rules of evaluation ("Working out"), with a trace.

use std::cmp::Ordering;

use super::{Call, Half, Read, CALLS};
use crate::diagnosis::forms::NUMBER;
use crate::{Kind, Label, Line, Outcome, Results, Sheet, State, Ties};

/// What a value may take, and how deep its calls may go.
const STEPS: u32 = 20_000;
const DEPTH: u32 = 64;

/// Why there is no number, at the line where that began.
#[derive(Debug, Clone, Copy, PartialEq, Eq)]
pub enum Cause {
    /// The result of an operation on a and b.
    OutOfRange { a: i64, b: i64, result: i64 },
    /// a was to be divided by 0.
    ZeroDivisor { a: i64 },
    /// The line was to be entered.
    OutOfSteps,
    /// The function was to be called.
    TooDeep { function: Label, argument: i64 },
}

impl Cause {
    fn state(self) -> State {
        match self {
            Cause::OutOfRange { .. } => State::OutOfRange,
            Cause::ZeroDivisor { .. } => State::ZeroDivisor,
            Cause::OutOfSteps => State::OutOfSteps,
            Cause::TooDeep { .. } => State::TooDeep,
        }
    }
}

/// Where an evaluation failed.
pub struct Stop {
    pub line: Label,
    /// Its own cause, or the value that it read without a number.
    pub cause: Result<Cause, Label>,
    /// The calls around it, outermost first.
    pub within: Vec<Call>,
}

/// A number, else the state without one.
type Answer = Result<i64, State>;

/// What one call carries: its argument and its depth.
#[derive(Clone, Copy)]
struct Frame {
    argument: i64,
    depth: u32,
}

pub struct Evaluation<'sheet> {
    lines: Vec<Line<'sheet>>,
    ties: Ties,
    results: &'sheet Results,
    steps_left: u32,
    pub reads: Vec<Read>,
    pub calls: Vec<Call>,
    pub more_calls: usize,
    pub halves: Vec<Half>,
    /// The calls that are entered and not left.
    within: Vec<Call>,
    pub stop: Option<Stop>,
}

impl<'sheet> Evaluation<'sheet> {
    /// `None` where a value has no result.
    pub fn new(sheet: &'sheet Sheet, results: &'sheet Results) -> Option<Self> {
        let lines: Vec<Line> = sheet.lines().collect();
        let is_known = |line: &Line| line.kind != Kind::Value || results.of(line.label).is_some();
        lines.iter().all(is_known).then(|| Evaluation {
            lines,
            ties: sheet.ties(),
            results,
            steps_left: STEPS,
            reads: vec![],
            calls: vec![],
            more_calls: 0,
            halves: vec![],
            within: vec![],
            stop: None,
        })
    }

    /// Evaluates a value; `None` where the label is of none.
    pub fn value(&mut self, label: Label) -> Option<Outcome> {
        let line = *self.lines.get(label.checked_sub(1)?)?;
        if line.kind != Kind::Value {
            return None;
        }
        self.steps_left = STEPS;
        self.within.clear();
        // a value has no argument, so it is never asked for
        let frame = Frame {
            argument: 0,
            depth: 0,
        };
        let answer = self.expression(line.b as Label, frame);
        let steps = STEPS - self.steps_left;
        let state = answer.map_or_else(|failure| failure, State::Number);
        Some(Outcome { state, steps })
    }

    fn expression(&mut self, label: Label, frame: Frame) -> Answer {
        if self.steps_left == 0 {
            return self.fail(label, Cause::OutOfSteps);
        }
        self.steps_left -= 1;
        let line = self.lines[label - 1];
        match line.kind {
            Kind::Number => Ok(line.a),
            Kind::Argument => Ok(frame.argument),
            Kind::Read => self.read(line),
            Kind::Call => self.call(line, frame),
            Kind::Choice => {
                let test = self.expression(line.a as Label, frame)?;
                let branch = if test != 0 { line.b } else { line.c };
                self.expression(branch as Label, frame)
            }
            _ => {
                let a = self.expression(line.a as Label, frame)?;
                let b = self.expression(line.b as Label, frame)?;
                let result = self.operate(line, a, b);
                result.or_else(|cause| self.fail(label, cause))
            }
        }
    }

    /// The stored answer of a value, failures too.
    fn read(&mut self, line: Line) -> Answer {
        let value = line.target.unwrap_or(0);
        let state = self
            .results
            .of(value)
            .map_or(State::OutOfSteps, |it| it.state);
        let label = line.label;
        match self.reads.iter_mut().find(|read| read.line == label) {
            Some(read) => read.times += 1,
            None => self.reads.push(Read {
                line: label,
                value,
                state,
                times: 1,
            }),
        }
        state
            .number()
            .ok_or_else(|| self.stop(label, Err(value), state))
    }

    fn call(&mut self, line: Line, frame: Frame) -> Answer {
        let function = line.target.unwrap_or(0);
        let argument = self.expression(line.a as Label, frame)?;
        if frame.depth == DEPTH {
            return self.fail(line.label, Cause::TooDeep { function, argument });
        }
        let depth = frame.depth + 1;
        let place = self.enter(Call {
            line: line.label,
            function,
            argument,
            depth,
            // until it is left
            state: State::Number(0),
        });
        let body = self.lines[function - 1].b;
        let answer = self.expression(body as Label, Frame { argument, depth });
        self.within.pop();
        if let Some(call) = self.calls.get_mut(place) {
            call.state = answer.map_or_else(|failure| failure, State::Number);
        }
        answer
    }

    /// Notes a call; the place that it has among them.
    fn enter(&mut self, call: Call) -> usize {
        self.within.push(call);
        let place = self.calls.len() + self.more_calls;
        match place < CALLS {
            true => self.calls.push(call),
            false => self.more_calls += 1,
        }
        place
    }

    /// The result of a sum, difference, product or quotient.
    fn operate(&mut self, line: Line, a: i64, b: i64) -> Result<i64, Cause> {
        let result = match line.kind {
            Kind::Sum => a + b,
            Kind::Difference => a - b,
            Kind::Product => a * b,
            _ if b == 0 => return Err(Cause::ZeroDivisor { a }),
            _ => self.quotient(line.label, a, b),
        };
        match (-NUMBER..=NUMBER).contains(&result) {
            true => Ok(result),
            false => Err(Cause::OutOfRange { a, b, result }),
        }
    }

    /// Notes a quotient that is a half.
    fn quotient(&mut self, label: Label, a: i64, b: i64) -> i64 {
        let (result, is_half) = nearest(self.ties, a, b);
        if !is_half {
            return result;
        }
        match self.halves.iter_mut().find(|half| half.line == label) {
            Some(half) => half.times += 1,
            None => self.halves.push(Half {
                line: label,
                a,
                b,
                result,
                times: 1,
            }),
        }
        result
    }

    fn fail(&mut self, line: Label, cause: Cause) -> Answer {
        Err(self.stop(line, Ok(cause), cause.state()))
    }

    /// Notes where the evaluation failed; the calls around it failed by that.
    fn stop(&mut self, line: Label, cause: Result<Cause, Label>, state: State) -> State {
        let within = self.within.iter().map(|&call| Call { state, ..call });
        self.stop = Some(Stop {
            line,
            cause,
            within: within.collect(),
        });
        state
    }
}

/// The nearest whole number to a / b, a half by the tie rule; and whether it is a
/// half.
fn nearest(ties: Ties, a: i64, b: i64) -> (i64, bool) {
    let toward_zero = a / b;
    let away = toward_zero + a.signum() * b.signum();
    match (2 * (a % b).abs()).cmp(&b.abs()) {
        Ordering::Less => (toward_zero, false),
        Ordering::Greater => (away, false),
        Ordering::Equal if ties == Ties::Even && toward_zero % 2 == 0 => (toward_zero, true),
        Ordering::Equal => (away, true),
    }
}
