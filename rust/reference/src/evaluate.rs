//! Evaluation ("Working out").

use crate::lines::in_range;
use crate::sheet::{Kind, Label, Sheet, Ties};

/// Why a value has no number; the codes are the paper's states.
#[derive(Debug, Clone, Copy, PartialEq, Eq)]
enum Failure {
    Range = 2,
    ZeroDivisor = 3,
    OutOfSteps = 4,
    TooDeep = 5,
}

type Answer = Result<i64, Failure>;

/// What a value came to and the steps it took.
#[derive(Debug, Clone, Copy)]
pub struct Outcome {
    answer: Answer,
    steps: u32,
}

impl Outcome {
    /// State, number ("0 on failure") and steps.
    pub fn cells(&self) -> [i64; 3] {
        let (state, number) = match self.answer {
            Ok(number) => (1, number),
            Err(failure) => (failure as i64, 0),
        };
        [state, number, self.steps()]
    }

    pub fn steps(&self) -> i64 {
        i64::from(self.steps)
    }

    /// 1 where the value failed: what it adds to the count of those that do.
    pub fn failures(&self) -> i64 {
        i64::from(self.answer.is_err())
    }
}

/// The steps that one value may take; how deep its calls may go.
#[derive(Debug, Clone, Copy)]
struct Allowance {
    left: u32,
}

impl Allowance {
    const STEPS: u32 = 20_000;
    const DEPTH: u32 = 64;

    fn fresh() -> Self {
        Allowance { left: Self::STEPS }
    }

    /// Takes one step, if one is left.
    fn step(self) -> Option<Self> {
        let left = self.left.checked_sub(1)?;
        Some(Allowance { left })
    }

    fn taken(self) -> u32 {
        Self::STEPS - self.left
    }
}

/// What one call carries: its argument and its depth.
#[derive(Debug, Clone, Copy)]
struct Frame {
    argument: i64,
    depth: u32,
}

/// Evaluates the values of a proper order in turn; outcomes by label from 1,
/// none for lines that are no value.
pub fn evaluate(sheet: &Sheet, order: &[Label]) -> Vec<Option<Outcome>> {
    let mut outcomes = vec![None; sheet.count()];
    for &value in order {
        outcomes[value - 1] = Some(evaluate_value(sheet, &outcomes, value));
    }
    outcomes
}

/// Evaluates one value; those that it reaches have their outcomes.
pub fn evaluate_value(sheet: &Sheet, outcomes: &[Option<Outcome>], value: Label) -> Outcome {
    let mut evaluation = Evaluation {
        sheet,
        outcomes,
        allowance: Allowance::fresh(),
    };
    // A value has no P (row 10), so its argument is never asked for.
    let frame = Frame {
        argument: 0,
        depth: 0,
    };
    let answer = evaluation.expression(sheet.line(value).link(1), frame);
    let steps = evaluation.allowance.taken();
    Outcome { answer, steps }
}

/// The evaluation of one value.
struct Evaluation<'e> {
    sheet: &'e Sheet<'e>,
    outcomes: &'e [Option<Outcome>],
    allowance: Allowance,
}

impl Evaluation<'_> {
    /// "Entering an expression takes one step; with none left the state is 4."
    fn expression(&mut self, label: Label, frame: Frame) -> Answer {
        self.allowance = self.allowance.step().ok_or(Failure::OutOfSteps)?;
        let line = self.sheet.line(label);
        match line.kind {
            Kind::Number => Ok(line.fields[0]),
            Kind::Argument => Ok(frame.argument),
            Kind::Read => self.stored(line.target as Label),
            Kind::Call => self.call(line.target as Label, line.link(0), frame),
            Kind::Choice => {
                let test = self.expression(line.link(0), frame)?;
                let branch = if test != 0 { 1 } else { 2 };
                self.expression(line.link(branch), frame)
            }
            operation => {
                let a = self.expression(line.link(0), frame)?;
                let b = self.expression(line.link(1), frame)?;
                operate(operation, self.sheet.ties, a, b)
            }
        }
    }

    /// "The target's stored answer, failures too."
    fn stored(&self, value: Label) -> Answer {
        let outcome = self.outcomes[value - 1].expect("a proper order lists it earlier");
        outcome.answer
    }

    /// "C works out its argument; at depth 64 the state is then 5, else the
    /// target's body is worked out one deeper."
    fn call(&mut self, function: Label, argument: Label, frame: Frame) -> Answer {
        let argument = self.expression(argument, frame)?;
        if frame.depth == Allowance::DEPTH {
            return Err(Failure::TooDeep);
        }
        let depth = frame.depth + 1;
        let body = self.sheet.line(function).link(1);
        self.expression(body, Frame { argument, depth })
    }
}

fn operate(operation: Kind, ties: Ties, a: i64, b: i64) -> Answer {
    let result = match operation {
        Kind::Sum => a + b,
        Kind::Difference => a - b,
        Kind::Product => a * b,
        Kind::Quotient if b == 0 => return Err(Failure::ZeroDivisor),
        Kind::Quotient => nearest(ties, a, b),
        other => unreachable!("{other:?} is no operation"),
    };
    if in_range(result) {
        Ok(result)
    } else {
        Err(Failure::Range)
    }
}

/// The nearest whole number to a / b, a half by the tie rule. It is a / b cut
/// toward zero or its neighbour farther out; of a half, the latter under `Away`
/// and where the former is odd.
fn nearest(ties: Ties, a: i64, b: i64) -> i64 {
    let toward_zero = a / b;
    let half_goes_out = i64::from(ties == Ties::Away) | (toward_zero & 1);
    let goes_out = 2 * (a % b).abs() + half_goes_out > b.abs();
    // -1 where the signs of a and b differ, else 1, with no branch to foresee
    let outward = ((a ^ b) >> 63) | 1;
    toward_zero + i64::from(goes_out) * outward
}

#[cfg(test)]
mod tests {
    use super::{nearest, Ties};

    const RULES: [Ties; 2] = [Ties::Away, Ties::Even];

    /// The nearest number q has |a - q b| at most |b| / 2; a half goes away from
    /// zero or to the even one.
    #[test]
    fn nearest_number_for_every_sign() {
        for a in -60i64..=60 {
            for b in (-25i64..=25).filter(|&b| b != 0) {
                let [away, even] = RULES.map(|ties| nearest(ties, a, b));
                for q in [away, even] {
                    assert!(2 * (a - q * b).abs() <= b.abs(), "{a} / {b} gave {q}");
                }
                if 2 * (a - away * b).abs() == b.abs() {
                    assert!((away * b).abs() > a.abs(), "{a} / {b} gave {away}");
                    assert!(even % 2 == 0, "{a} / {b} gave {even}");
                } else {
                    assert_eq!(away, even, "{a} / {b}");
                }
            }
        }
    }

    #[test]
    fn nearest_number_at_the_ends_of_the_range() {
        let billion = 1_000_000_000;
        for ties in RULES {
            assert_eq!(nearest(ties, billion, 1), billion);
            assert_eq!(nearest(ties, billion, -1), -billion);
            assert_eq!(nearest(ties, 1, billion), 0);
            assert_eq!(nearest(ties, billion / 2 - 1, billion), 0);
            assert_eq!(nearest(ties, billion / 2 + 1, -billion), -1);
        }
        let halves = |a, b| RULES.map(|ties| nearest(ties, a, b));
        assert_eq!(halves(-billion / 2, billion), [-1, 0]);
        assert_eq!(halves(billion / 2, -billion), [-1, 0]);
        assert_eq!(halves(billion - 1, 2), [500_000_000, 500_000_000]);
        assert_eq!(halves(3 - billion, 2), [-499_999_999, -499_999_998]);
    }
}
