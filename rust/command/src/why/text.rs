//! How a value came to what it is, for people.

use lindypo::why::{Call, Cause, Failure, Handed, Why};
use lindypo::{formula, Kind, Label, Sheet, State};

use crate::numerals::counted;
use crate::output::Paint;
use crate::table::{self, figures, words, Cell, Column};
use crate::values;

/// The most calls around a failure that are named: the outermost and the
/// innermost.
const AROUND: usize = 6;

const READS: [Column; 5] = [
    figures("line"),
    words("read"),
    figures("number"),
    words("state"),
    figures("times"),
];

const CALLS: [Column; 5] = [
    figures("line"),
    figures("depth"),
    words("call"),
    figures("number"),
    words("state"),
];

const HALVES: [Column; 4] = [
    figures("line"),
    words("first half"),
    figures("number"),
    figures("times"),
];

pub fn of(sheet: &Sheet, why: &Why, paint: Paint) -> String {
    let mut parts = vec![headline(sheet, why, paint)];
    if !why.reads.is_empty() {
        parts.push(reads(sheet, why, paint));
    }
    if !why.calls.is_empty() {
        parts.push(calls(sheet, why, paint));
    }
    if !why.halves.is_empty() {
        parts.push(halves(sheet, why, paint));
    }
    if let Some(failure) = &why.failure {
        parts.push(began(sheet, failure, paint));
    }
    parts.join("\n")
}

/// The formula, and what it comes to.
fn headline(sheet: &Sheet, why: &Why, paint: Paint) -> String {
    let (label, line) = (why.label, why.label + 1);
    let name = paint.strong(&sheet.full_name(label));
    let formula = formula::of(sheet, label).unwrap_or_default();
    let steps = counted(why.outcome.steps.into(), "step");
    let outcome = match why.outcome.state {
        State::Number(number) => format!("{number} in {steps}"),
        failure => format!(
            "no number after {steps}: {}",
            paint.bad(&failure.to_string())
        ),
    };
    format!("{name} = {formula}\n{outcome}; line {line}, label {label}\n")
}

fn reads(sheet: &Sheet, why: &Why, paint: Paint) -> String {
    let rows = why.reads.iter().map(|read| {
        let [number, state] = values::state_cells(read.state);
        [
            Cell::from(read.line + 1),
            Cell::from(sheet.full_name(read.value)),
            number,
            state,
            Cell::from(read.times),
        ]
    });
    table::aligned(READS, &rows.collect::<Vec<_>>(), paint)
}

fn calls(sheet: &Sheet, why: &Why, paint: Paint) -> String {
    let rows = why.calls.iter().map(|call| {
        let [number, state] = values::state_cells(call.state);
        [
            Cell::from(call.line + 1),
            Cell::from(call.depth),
            Cell::from(called(sheet, call.function, call.argument)),
            number,
            state,
        ]
    });
    let calls = table::aligned(CALLS, &rows.collect::<Vec<_>>(), paint);
    match why.more_calls as u64 {
        0 => calls,
        more => format!("{calls}and {}\n", counted(more, "more call")),
    }
}

/// Which quotients were a half, and the line that settles them.
fn halves(sheet: &Sheet, why: &Why, paint: Paint) -> String {
    let rows = why.halves.iter().map(|half| {
        [
            Cell::from(half.line + 1),
            Cell::from(format!("{} / {}", half.a, half.b)),
            Cell::from(half.result),
            Cell::from(half.times),
        ]
    });
    let (rows, ties) = (rows.collect::<Vec<_>>(), sheet.ties());
    format!(
        "{}line one is `{}`: {ties}\n",
        table::aligned(HALVES, &rows, paint),
        ties.first_line()
    )
}

/// `lib.abs(-325)`.
fn called(sheet: &Sheet, function: Label, argument: i64) -> String {
    format!("{}({argument})", sheet.full_name(function))
}

/// Where a failure began, in which calls, and by whom it was handed on.
fn began(sheet: &Sheet, failure: &Failure, paint: Paint) -> String {
    let (value, line) = (sheet.full_name(failure.value), failure.line + 1);
    let cause = paint.bad(&cause(sheet, failure));
    let shown = line_of(sheet, failure.line);
    let within = match &failure.within[..] {
        [] => String::new(),
        calls => format!("within {}\n", around(sheet, calls)),
    };
    let handed = failure.handed_on.iter().rev();
    let handed: String = handed.map(|handed| handed_on(sheet, handed)).collect();
    format!("it began in {value}, at line {line}: {cause}\n{line} | {shown}\n{within}{handed}")
}

/// What a line could not do.
pub fn cause(sheet: &Sheet, failure: &Failure) -> String {
    match failure.cause {
        Cause::OutOfRange { a, b, result } => {
            let sign = match sheet.line(failure.line).map(|line| line.kind) {
                Some(Kind::Sum) => '+',
                Some(Kind::Difference) => '-',
                _ => '*',
            };
            format!("{a} {sign} {b} is {result}, {}", State::OutOfRange)
        }
        Cause::ZeroDivisor { a } => format!("{a} / 0, {}", State::ZeroDivisor),
        Cause::OutOfSteps => format!("{} to enter it", State::OutOfSteps),
        Cause::TooDeep { function, argument } => {
            let call = called(sheet, function, argument);
            format!("{call}, {}", State::TooDeep)
        }
    }
}

/// A line of the sheet as it stands.
fn line_of(sheet: &Sheet, label: Label) -> String {
    let mut lines = sheet.text().split(|&byte| byte == b'\n');
    String::from_utf8_lossy(lines.nth(label).unwrap_or_default()).into_owned()
}

/// Calls, the outermost first; the middle of many is left out.
fn around(sheet: &Sheet, calls: &[Call]) -> String {
    let name = |call: &Call| called(sheet, call.function, call.argument);
    let mut names: Vec<String> = calls.iter().map(name).collect();
    if names.len() > AROUND {
        let end = names.len() - AROUND / 2;
        names.splice(AROUND / 2..end, ["...".to_string()]);
    }
    let count = counted(calls.len() as u64, "call");
    format!("{count}: {}", names.join(" -> "))
}

fn handed_on(sheet: &Sheet, handed: &Handed) -> String {
    let [by, from] = [handed.by, handed.from].map(|label| sheet.full_name(label));
    let owner = sheet.line(handed.line).and_then(|line| line.owner);
    let function = owner.filter(|&owner| owner != handed.by);
    let function = function.map_or(String::new(), |function| {
        format!(" in the function {}", sheet.full_name(function))
    });
    format!(
        "handed on by line {}: {by} reads {from}{function}\n",
        handed.line + 1
    )
}
