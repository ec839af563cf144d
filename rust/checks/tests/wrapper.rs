//! Random sheets: the wrapper says what the library's own calls say, and marks
//! what is in the text.

mod common;

use common::is_in_text;
use generator::{recased, recased_name, Case, Rng};
use lindypo::{raw, same_name, Kind, Label, Line, Order, Refusal, Results, Run, Sheet, Ties};

const CASES: u64 = 6_000;

/// The buffers that a text needs.
struct Buffers {
    table: Vec<i64>,
    plan: Vec<i64>,
    results: Vec<i64>,
}

impl Buffers {
    fn new(text: &[u8]) -> Self {
        let labels = generator::line_count(text).min(1_024);
        Buffers {
            table: vec![0; 8 * labels],
            plan: vec![0; labels],
            results: vec![0; 3 * labels],
        }
    }
}

/// What the random sheets came to, so that each case is known to be met.
#[derive(Default)]
struct Met {
    refusals: [usize; 19],
    runs: usize,
    followed: usize,
}

impl Met {
    fn case(&mut self, case: &Case) {
        let text = &case.text;
        let mut buffers = Buffers::new(text);
        match (Sheet::read(text), raw::read(text, &mut buffers.table)) {
            (Ok(sheet), Ok(labels)) => {
                assert_eq!(sheet.labels(), labels);
                lines_are_cells(&sheet, &buffers.table);
                self.run(&sheet);
                self.follow(&sheet, &case.order);
            }
            (Err(refusal), Err(wanted)) => self.refused(text, &refusal, wanted),
            (read, wanted) => panic!("{read:?}, wanted {wanted:?}"),
        }
    }

    fn run(&mut self, sheet: &Sheet) {
        let Buffers {
            mut table,
            mut plan,
            mut results,
        } = Buffers::new(sheet.text());
        match (
            sheet.run(),
            raw::run(sheet.text(), &mut table, &mut plan, &mut results),
        ) {
            (Ok(run), Ok((length, order))) => {
                run_is_cells(&run, &plan[..length], order, &results);
                assert_eq!(sheet.plan().as_ref(), Ok(&run.plan));
                assert_eq!(sheet.follow(&run.plan.labels), Ok(run.results));
                self.runs += 1;
            }
            (Err(refusal), Err(wanted)) => {
                assert_eq!(sheet.plan(), Err(refusal.clone()));
                self.refused(sheet.text(), &refusal, wanted);
            }
            (run, wanted) => panic!("{run:?}, wanted {wanted:?}"),
        }
    }

    /// An order that may be anything; labels below 0 are not the wrapper's.
    fn follow(&mut self, sheet: &Sheet, order: &[i64]) {
        let labels: Vec<Label> = order.iter().map(|&label| label.max(0) as Label).collect();
        let Buffers {
            mut table,
            mut results,
            ..
        } = Buffers::new(sheet.text());
        let wanted = raw::follow(sheet.text(), order, &mut table, &mut results);
        match (sheet.follow(&labels), wanted) {
            (Ok(followed), Ok(_)) => {
                results_are_cells(&followed, &results);
                self.followed += 1;
            }
            (Err(refusal), Err(wanted)) => self.refused(sheet.text(), &refusal, wanted),
            (followed, wanted) => panic!("{followed:?}, wanted {wanted:?}"),
        }
    }

    fn refused(&mut self, text: &[u8], refusal: &Refusal, wanted: raw::Refusal) {
        assert_eq!(
            (refusal.number(), refusal.place()),
            (wanted.number, wanted.place)
        );
        assert!(refusal.to_string().ends_with(refusal.sentence()));
        match refusal.number() {
            5..=16 => assert_eq!(
                refusal.line(),
                Some(refusal.place() as usize + 1),
                "{refusal}"
            ),
            17.. => assert_eq!(refusal.mark(), None),
            _ => {}
        }
        is_in_text(text, refusal);
        self.refusals[refusal.number() as usize] += 1;
    }
}

fn lines_are_cells(sheet: &Sheet, table: &[i64]) {
    for (line, cells) in sheet.lines().zip(table.chunks_exact(8)) {
        let label = |label: Option<Label>| label.map_or(0, |label| label as i64);
        let name = line.name.map_or(0, |name| name.len() as i64);
        let given = [
            line.kind.code(),
            name,
            line.a,
            line.b,
            line.c,
            label(line.owner),
            label(line.target),
        ];
        let wanted = [
            cells[0], cells[2], cells[3], cells[4], cells[5], cells[6], cells[7],
        ];
        assert_eq!(given, wanted, "label {}", line.label);
    }
}

fn run_is_cells(run: &Run, plan: &[i64], order: Order, results: &[i64]) {
    let labels: Vec<i64> = run.plan.labels.iter().map(|&label| label as i64).collect();
    assert_eq!((&labels[..], run.plan.order), (plan, order));
    results_are_cells(&run.results, results);
    let values: Vec<Label> = run.values().map(|(label, _)| label).collect();
    assert_eq!(values, run.plan.labels);
}

fn results_are_cells(results: &Results, cells: &[i64]) {
    for (label, cells) in (1..).zip(cells.chunks_exact(3)) {
        let outcome = results.of(label).map_or([0; 3], |outcome| {
            let number = outcome.state.number().unwrap_or(0);
            [outcome.state.code(), number, i64::from(outcome.steps)]
        });
        assert_eq!(outcome, cells, "label {label}");
    }
}

#[test]
fn random_sheets() {
    let mut met = Met::default();
    for seed in 0..CASES {
        met.case(&generator::case(seed));
    }
    println!(
        "{} runs, {} followed, refused by number {:?}",
        met.runs, met.followed, met.refusals
    );
    assert!(met.runs > 1_000 && met.followed > 500);
    let numbers = (1..=18).filter(|&number| number != 4);
    for number in numbers {
        assert!(met.refusals[number] > 0, "refusal {number} was not met");
    }
}

/// A sheet under the rule that its line one names: retouched it is the run of the
/// text with the new numbers, which keeps that line.
fn keeps_its_rule(sheet: &Sheet, run: &Run, rng: &mut Rng) {
    assert_eq!(sheet.follow(&run.plan.labels).as_ref(), Ok(&run.results));
    let is_number = |line: &Line| line.kind == Kind::Number;
    let mut pairs: Vec<(Label, i64)> = vec![];
    for line in sheet.lines().filter(is_number) {
        if rng.chance(30) {
            pairs.push((line.label, rng.below(200) as i64 - 100));
        }
    }
    let text = sheet.with_numbers(&pairs);
    let again = Sheet::read(&text).expect("a sheet that reads");
    assert_eq!(again.ties(), sheet.ties());
    let retouched = sheet.retouch(&pairs).expect("pairs of N lines");
    assert_eq!(again.run().expect("a plan"), retouched.run);
}

/// The same sheet under either rule: lines and plan are the same, the text of each
/// name stands a byte further on, and only results may be others.
#[test]
fn either_tie_rule() {
    let mut differing = 0;
    for seed in 0..CASES {
        let rng = &mut Rng::new(seed);
        let text = generator::sheet_within(rng, 60);
        let sheet = Sheet::read(&text).expect("a sheet that reads");
        let texts = Ties::ALL.map(|ties| sheet.with_ties(ties));
        let [away, even] = [&texts[0], &texts[1]].map(|text| Sheet::read(text).expect("a sheet"));
        assert_eq!([away.ties(), even.ties()], Ties::ALL);
        assert!(away.lines().eq(even.lines()), "seed {seed}");
        let start = |sheet: &Sheet| {
            let name = sheet.lines().find_map(|line| line.name)?;
            Some(name.as_ptr() as usize - sheet.text().as_ptr() as usize)
        };
        assert_eq!(start(&away).map(|at| at + 1), start(&even));
        match (away.run(), even.run()) {
            (Ok(run), Ok(other)) => {
                assert_eq!(run.plan, other.plan, "seed {seed}");
                keeps_its_rule(&away, &run, rng);
                keeps_its_rule(&even, &other, rng);
                differing += usize::from(run.results != other.results);
            }
            (Err(refusal), Err(other)) => is_same_refusal(&refusal, &other),
            (run, other) => panic!("seed {seed}: {run:?}, then {other:?}"),
        }
    }
    println!("{differing} sheets have other values under the other rule");
    assert!(differing > 50);
}

/// Two sheets that differ in the case of names alone: every cell is the same,
/// and a name is as its own text has it.
fn is_same_but_case(sheet: &Sheet, other: &Sheet) {
    let start = |sheet: &Sheet, name: &str| name.as_ptr() as usize - sheet.text().as_ptr() as usize;
    for (line, again) in sheet.lines().zip(other.lines()) {
        let names = line.name.zip(again.name);
        assert_eq!(line.name.is_some(), again.name.is_some());
        if let Some((name, again)) = names {
            assert!(same_name(name, again), "{name} {again}");
            assert_eq!(start(sheet, name), start(other, again));
        }
        let name = None;
        assert_eq!(Line { name, ..line }, Line { name, ..again });
    }
    match (sheet.run(), other.run()) {
        (Ok(run), Ok(again)) => {
            assert_eq!((run.plan, run.results), (again.plan, again.results));
        }
        (Err(refusal), Err(again)) => is_same_refusal(&refusal, &again),
        (run, again) => panic!("{run:?}, then {again:?}"),
    }
}

fn is_same_refusal(refusal: &Refusal, again: &Refusal) {
    let [refusal, again] = [refusal, again].map(|it| (it.number(), it.place()));
    assert_eq!(refusal, again);
}

/// Whatever the case of names and paths, the library answers the same, and
/// definitions are found by any case of their full names.
#[test]
fn names_in_any_case() {
    let (mut found, mut refused) = (0, [0; 19]);
    for seed in 0..CASES {
        let (text, rng) = (generator::case(seed).text, &mut Rng::new(seed));
        let recased = recased(rng, &text);
        match (Sheet::read(&text), Sheet::read(&recased)) {
            (Ok(sheet), Ok(other)) => {
                is_same_but_case(&sheet, &other);
                for line in sheet.members(1) {
                    let name = recased_name(rng, &sheet.full_name(line.label));
                    assert_eq!(other.find(&name), Some(line.label), "{name}");
                    found += 1;
                }
            }
            (Err(refusal), Err(other)) => {
                is_same_refusal(&refusal, &other);
                refused[refusal.number() as usize] += 1;
            }
            (read, other) => panic!("seed {seed}: {read:?}, then {other:?}"),
        }
    }
    println!("{found} found, refused by number {refused:?}");
    assert!(found > 5_000);
    assert!(refused[12..=15].iter().all(|&count| count > 20));
}
