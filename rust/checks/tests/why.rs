//! How values came to what they are: the trace agrees with the library.

use generator::Rng;
use lindypo::why::{self, Call, Cause, Failure, Half, Handed, Read, Why};
use lindypo::{Kind, Label, Results, Sheet, State, Ties};

const CASES: u64 = 3_000;

fn state(cause: Cause) -> i64 {
    match cause {
        Cause::OutOfRange { .. } => 2,
        Cause::ZeroDivisor { .. } => 3,
        Cause::OutOfSteps => 4,
        Cause::TooDeep { .. } => 5,
    }
}

/// All that is said of a value fits the sheet and the results.
fn is_so(sheet: &Sheet, results: &Results, why: &Why) {
    let outcome = results.of(why.label).expect("a value");
    assert_eq!(why.outcome, outcome);
    for read in &why.reads {
        let line = sheet.line(read.line).expect("a line");
        assert_eq!((line.kind, line.target), (Kind::Read, Some(read.value)));
        assert_eq!(results.of(read.value).map(|it| it.state), Some(read.state));
        assert!(read.times > 0);
    }
    for call in &why.calls {
        let line = sheet.line(call.line).expect("a line");
        assert_eq!((line.kind, line.target), (Kind::Call, Some(call.function)));
        assert!((1..=64).contains(&call.depth));
    }
    assert!(why.calls.len() == why::CALLS || why.more_calls == 0);
    for half in &why.halves {
        is_half(sheet, half);
    }
    assert_eq!(why.failure.is_some(), outcome.state.number().is_none());
    if let Some(failure) = &why.failure {
        began(sheet, results, why.label, failure);
    }
}

/// A quotient that is a half, and the one of its neighbours that the rule names.
fn is_half(sheet: &Sheet, half: &Half) {
    let line = sheet.line(half.line).expect("a line");
    assert_eq!(line.kind, Kind::Quotient);
    let Half { a, b, result, .. } = *half;
    assert_eq!((2 * a - 2 * b * result).abs(), b.abs());
    match sheet.ties() {
        Ties::Away => assert!((b * result).abs() > a.abs(), "{half:?}"),
        Ties::Even => assert_eq!(result % 2, 0, "{half:?}"),
    }
    assert!(half.times > 0);
}

/// A failure is handed on from read to read, and the same one all along.
fn began(sheet: &Sheet, results: &Results, label: Label, failure: &Failure) {
    let mut at = label;
    for handed in &failure.handed_on {
        let line = sheet.line(handed.line).expect("a line");
        assert_eq!(handed.by, at);
        assert_eq!((line.kind, line.target), (Kind::Read, Some(handed.from)));
        at = handed.from;
    }
    assert_eq!(at, failure.value);
    for value in [label, failure.value] {
        let found = results.of(value).map(|it| it.state.code());
        assert_eq!(found, Some(state(failure.cause)));
    }
    let depths: Vec<u32> = failure.within.iter().map(|call| call.depth).collect();
    let wanted: Vec<u32> = (1..=failure.within.len() as u32).collect();
    assert_eq!(depths, wanted);
    let owner = sheet.line(failure.line).expect("a line").owner;
    let around = failure
        .within
        .last()
        .map_or(failure.value, |call| call.function);
    assert_eq!(owner, Some(around));
}

/// What came up, so that each case is known to be met.
#[derive(Default)]
struct Met {
    values: usize,
    states: [usize; 6],
    handed_on: usize,
    cut: usize,
    halves: usize,
}

impl Met {
    /// A sheet under either rule.
    fn sheet(&mut self, text: &[u8]) {
        let Ok(sheet) = Sheet::read(text) else {
            return;
        };
        for ties in Ties::ALL {
            self.under_rule(&sheet.with_ties(ties));
        }
    }

    fn under_rule(&mut self, text: &[u8]) {
        // the line with the 2 may be a byte too long
        let Ok(sheet) = Sheet::read(text) else {
            return;
        };
        let Ok(run) = sheet.run() else {
            return;
        };
        for label in 0..=sheet.labels() + 1 {
            let Some(why) = why::of(&sheet, &run.results, label) else {
                assert_eq!(run.results.of(label), None);
                continue;
            };
            is_so(&sheet, &run.results, &why);
            self.values += 1;
            self.states[why.outcome.state.code() as usize] += 1;
            self.cut += usize::from(why.more_calls > 0);
            self.halves += usize::from(!why.halves.is_empty());
            let handed_on = why.failure.map_or(0, |failure| failure.handed_on.len());
            self.handed_on += usize::from(handed_on > 1);
        }
    }
}

#[test]
fn random_sheets() {
    let mut met = Met::default();
    for seed in 0..CASES {
        met.sheet(&generator::sheet(&mut Rng::new(seed)));
    }
    println!("{} values in states {:?}", met.values, met.states);
    assert!(met.states[1..].iter().all(|&count| count > 50));
    assert!(met.handed_on > 50 && met.cut > 50 && met.halves > 50);
}

/// The longest and the deepest evaluations, in a thread's usual stack.
#[test]
fn edges() {
    let mut met = Met::default();
    for shape in generator::shapes() {
        // one value of many alike is enough
        if !shape.name.starts_with("339 values") {
            met.sheet(&shape.text);
        }
    }
    assert!(met.states[4] > 0 && met.states[5] > 0 && met.cut > 0);
}

/// What is said of one value of a sheet.
#[track_caller]
fn said(lines: &str, name: &str) -> Why {
    said_under(Ties::Away, lines, name)
}

#[track_caller]
fn said_under(ties: Ties, lines: &str, name: &str) -> Why {
    let text = format!("{}\nG - 0 - -\n{lines}\n", ties.first_line()).into_bytes();
    let sheet = Sheet::read(&text).expect("a sheet that reads");
    let results = sheet.run().expect("a sheet that runs").results;
    let label = sheet.find(name).expect("a value");
    why::of(&sheet, &results, label).expect("a value")
}

/// total is negated(sphere) + sphere.
#[test]
fn reads_and_calls() {
    let why = said(
        "V total 1 5 -\nF negated 1 8 -\nV sphere 1 11 -\nA - 6 7 -\nC negated 12 - -\n\
         R sphere - - -\nS - 9 10 -\nN - 0 - -\nP - - - -\nN - -325 - -\nR sphere - - -",
        "total",
    );
    assert_eq!(
        (why.outcome.state, why.outcome.steps),
        (State::Number(0), 7)
    );
    let read = |line| Read {
        line,
        value: 4,
        state: State::Number(-325),
        times: 1,
    };
    assert_eq!(why.reads, [read(12), read(7)]);
    let call = Call {
        line: 6,
        function: 3,
        argument: -325,
        depth: 1,
        state: State::Number(325),
    };
    assert_eq!((why.calls, why.more_calls), (vec![call], 0));
    assert_eq!(why.failure, None);
}

/// f calls itself for ever; only the first calls are noted, and the failure
/// stands within all of them.
#[test]
fn calls_without_end() {
    let why = said(
        "F f 1 4 -\nV endless 1 6 -\nC f 5 - -\nP - - - -\nC f 7 - -\nN - 1 - -",
        "endless",
    );
    assert_eq!(
        (why.outcome.state, why.outcome.steps),
        (State::TooDeep, 130)
    );
    assert_eq!(
        (why.calls.len(), why.more_calls),
        (why::CALLS, 64 - why::CALLS)
    );
    let failure = why.failure.expect("a failure");
    assert_eq!(
        (failure.value, failure.line, failure.within.len()),
        (3, 4, 64)
    );
    let cause = Cause::TooDeep {
        function: 2,
        argument: 1,
    };
    assert_eq!(failure.cause, cause);
    assert!(why.calls.iter().all(|call| call.state == State::TooDeep));
}

/// A range is left in a function that a value calls which another reads.
#[test]
fn a_failure_in_a_function() {
    let lines = "V first 1 3 -\nR second - - -\nV second 1 5 -\nC twice 6 - -\nN - 600000000 - -\n\
                 F twice 1 8 -\nA - 9 10 -\nP - - - -\nP - - - -";
    let failure = said(lines, "first").failure.expect("a failure");
    assert_eq!((failure.value, failure.line), (4, 8));
    let cause = Cause::OutOfRange {
        a: 600_000_000,
        b: 600_000_000,
        result: 1_200_000_000,
    };
    assert_eq!(failure.cause, cause);
    assert_eq!(failure.within.len(), 1);
    let handed = Handed {
        by: 2,
        line: 3,
        from: 4,
    };
    assert_eq!(failure.handed_on, [handed]);
    assert_eq!(said(lines, "second").failure.expect("one").handed_on, []);
}

/// The figures of the order, and their like: a, b, and a / b under either rule.
/// What is no half is one number under both.
#[test]
fn quotients() {
    for (a, b, away, even) in [
        (-3250, 100, -33, -32),
        (3250, 100, 33, 32),
        (50, 100, 1, 0),
        (150, 100, 2, 2),
        (-50, 100, -1, 0),
        (-150, 100, -2, -2),
        (350, -100, -4, -4),
        (250, -100, -3, -2),
        (-250, -100, 3, 2),
        (999_999_999, 2, 500_000_000, 500_000_000),
        (-999_999_997, 2, -499_999_999, -499_999_998),
        (3249, 100, 32, 32),
        (-3251, 100, -33, -33),
        (0, -100, 0, 0),
        (300, 100, 3, 3),
    ] {
        let lines = format!("V x 1 3 -\nD - 4 5 -\nN - {a} - -\nN - {b} - -");
        let is_half = 2 * (a % b) == b || 2 * (a % b) == -b;
        for (ties, result) in [(Ties::Away, away), (Ties::Even, even)] {
            let why = said_under(ties, &lines, "x");
            assert_eq!(why.outcome.state, State::Number(result), "{a} / {b}");
            let half = Half {
                line: 3,
                a,
                b,
                result,
                times: 1,
            };
            assert_eq!(why.halves, vec![half; usize::from(is_half)], "{a} / {b}");
        }
    }
}

/// Each D line once, with the figures of its first half; halves of a value that is
/// read are its own.
#[test]
fn halves_of_a_function() {
    let lines = "V x 1 5 -\nV y 1 9 -\nF half 1 11 -\nA - 6 7 -\nC half 8 - -\nC half 14 - -\n\
                 N - 5 - -\nR x - - -\nV z 1 15 -\nD - 12 13 -\nP - - - -\nN - 2 - -\nN - 7 - -\n\
                 C half 16 - -\nN - 4 - -";
    let why = said_under(Ties::Even, lines, "x");
    let half = Half {
        line: 11,
        a: 5,
        b: 2,
        result: 2,
        times: 2,
    };
    assert_eq!(why.halves, [half]);
    assert_eq!(why.outcome.state, State::Number(2 + 4));
    assert_eq!(said_under(Ties::Even, lines, "y").halves, []);
    assert_eq!(said_under(Ties::Even, lines, "z").halves, []);
}

/// Only the branch that is taken is entered.
#[test]
fn one_branch() {
    let why = said(
        "V x 1 3 -\nI - 4 5 6\nN - 0 - -\nR y - - -\nR z - - -\nV y 1 9 -\nV z 1 10 -\n\
         N - 1 - -\nN - 2 - -",
        "x",
    );
    let read: Vec<Label> = why.reads.iter().map(|read| read.value).collect();
    assert_eq!(read, [8]);
}

#[test]
fn names_that_are_none() {
    let text = b"kind name a b c\nG - 0 - -\nG right 1 - -\nG left 1 - -\nV centre 2 7 -\n\
                 V centre 3 8 -\nV size 1 9 -\nN - 1 - -\nN - 2 - -\nN - 3 - -\n";
    let sheet = Sheet::read(text).expect("a sheet that reads");
    for (name, labels) in [
        ("centre", &[4, 5][..]),
        ("Right.Centre", &[4]),
        ("right.center", &[4]),
        ("sise", &[6]),
        ("frame.siz", &[]),
        ("bridge", &[]),
        ("right", &[4]),
        ("", &[]),
        ("..", &[]),
    ] {
        assert_eq!(why::meant(&sheet, name), labels, "{name}");
    }
}
