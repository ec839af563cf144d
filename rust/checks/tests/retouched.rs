//! Random lists of pairs: the wrapper says what the library's own call says, and
//! what it gives is what Run gives of the sheet with the numbers put in.

mod common;

use common::is_in_text;
use generator::Rng;
use lindypo::{raw, Change, Kind, Label, Refusal, Sheet, MOST_BYTES};

const CASES: u64 = 6_000;

/// Largest and smallest numbers, those just beyond, and others.
fn number(rng: &mut Rng) -> i64 {
    let most = 1_000_000_000;
    let edges = [0, 1, most, -most, most + 1, -most - 1, i64::MAX, i64::MIN];
    match rng.below(8) {
        0 => *rng.pick(&edges),
        1 => *rng.pick(&edges[..4]),
        _ => rng.below(2_000) as i64 - 1_000,
    }
}

/// Pairs of a sheet's labels, most of them of N lines; now and then too many.
fn pairs(rng: &mut Rng, sheet: &Sheet) -> Vec<(Label, i64)> {
    let lines = sheet.lines().filter(|line| line.kind == Kind::Number);
    let numbers: Vec<Label> = lines.map(|line| line.label).collect();
    let count = match rng.below(40) {
        0 => *rng.pick(&[1_024, 1_025, 2_000]),
        _ => rng.below(6),
    };
    let label = |rng: &mut Rng| match numbers.is_empty() || rng.chance(4) {
        true if rng.chance(5) => Label::MAX,
        true => rng.below(sheet.labels() + 3),
        false => *rng.pick(&numbers),
    };
    (0..count).map(|_| (label(rng), number(rng))).collect()
}

#[derive(Default)]
struct Met {
    refusals: [usize; 22],
    answers: usize,
    put: usize,
}

impl Met {
    fn case(&mut self, sheet: &Sheet, pairs: &[(Label, i64)]) {
        let (text, labels) = (sheet.text(), sheet.labels());
        let cell = |label: Label| i64::try_from(label).unwrap_or(-1);
        let list: Vec<i64> = pairs
            .iter()
            .flat_map(|&(label, number)| [cell(label), number])
            .collect();
        let (mut table, mut plan) = (vec![0; 8 * labels], vec![0; labels]);
        let (mut results, mut changes) = (vec![0; 3 * labels], vec![0; 3 * pairs.len()]);
        let wanted = raw::retouch(
            text,
            &list,
            &mut table,
            &mut plan,
            &mut results,
            &mut changes,
        );
        match (sheet.retouch(pairs), wanted) {
            (Ok(retouched), Ok((length, order))) => {
                let plan: Vec<Label> = plan[..length].iter().map(|&it| it as Label).collect();
                assert_eq!(retouched.run.plan.labels, plan);
                assert_eq!(retouched.run.plan.order, order);
                for (label, cells) in (1..).zip(results.chunks_exact(3)) {
                    let outcome = retouched.run.results.of(label).map_or([0; 3], |outcome| {
                        let number = outcome.state.number().unwrap_or(0);
                        [outcome.state.code(), number, i64::from(outcome.steps)]
                    });
                    assert_eq!(outcome, cells, "label {label}");
                }
                let cells = |change: &Change| {
                    let steps = change.steps as i64;
                    [change.redone as i64, change.failing as i64, steps]
                };
                let given: Vec<i64> = retouched.changes.iter().flat_map(cells).collect();
                assert_eq!(given, changes);
                self.answers += 1;
                let put = sheet.with_numbers(pairs);
                if put.len() <= MOST_BYTES {
                    let put = Sheet::read(&put).expect("a sheet");
                    assert_eq!(put.run(), Ok(retouched.run));
                    let numbers = put.lines().map(|line| line.a);
                    assert!(numbers.eq(table.chunks_exact(8).map(|cells| cells[3])));
                    self.put += 1;
                }
            }
            (Err(refusal), Err(wanted)) => self.refused(sheet, pairs, &refusal, wanted),
            (given, wanted) => panic!("{given:?}, wanted {wanted:?}"),
        }
    }

    fn refused(
        &mut self,
        sheet: &Sheet,
        pairs: &[(Label, i64)],
        refusal: &Refusal,
        wanted: raw::Refusal,
    ) {
        let given = (refusal.number(), refusal.place());
        assert_eq!(given, (wanted.number, wanted.place));
        assert!(refusal.to_string().ends_with(refusal.sentence()));
        assert!(!refusal.help().is_empty(), "{refusal}");
        match refusal {
            Refusal::Pairs(_) => assert_eq!(refusal.mark(), None),
            Refusal::PairLabel(_) | Refusal::PairNumber(_) => {
                let (label, _) = pairs[refusal.place() as usize - 1];
                let is_there = sheet.line(label).is_some();
                assert_eq!(refusal.mark().is_some(), is_there, "{refusal}");
            }
            _ => assert_eq!(Some(refusal), sheet.run().as_ref().err()),
        }
        is_in_text(sheet.text(), refusal);
        self.refusals[refusal.number() as usize] += 1;
    }
}

#[test]
fn random_lists() {
    let mut met = Met::default();
    for seed in 0..CASES {
        let text = generator::case(seed).text;
        if let Ok(sheet) = Sheet::read(&text) {
            let pairs = pairs(&mut Rng::new(seed), &sheet);
            met.case(&sheet, &pairs);
        }
    }
    println!(
        "{} answered, {} of them run again, refused by number {:?}",
        met.answers, met.put, met.refusals
    );
    assert!(met.answers > 1_000 && met.put > 1_000);
    for number in [16, 19, 20, 21] {
        assert!(met.refusals[number] > 20, "refusal {number}");
    }
}
