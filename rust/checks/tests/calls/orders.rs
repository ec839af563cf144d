//! Follow with orders of all sorts.

use checks::Trial;
use generator::{planned, Rng};
use lindypo::raw::Refusal;

use crate::{sheets, Buffers, RUBBISH};

/// What Follow leaves in the results, or its refusal.
fn followed(text: &[u8], order: &[i64]) -> Result<Vec<i64>, Refusal> {
    let Buffers {
        mut table,
        mut results,
        ..
    } = Buffers::new(text);
    lindypo::raw::follow(text, order, &mut table, &mut results).map(|length| {
        assert_eq!(length, order.len());
        results
    })
}

/// What Run leaves in the results, for a sheet that it accepts.
fn run(text: &[u8]) -> Vec<i64> {
    let Buffers {
        mut table,
        mut plan,
        mut results,
    } = Buffers::new(text);
    let answer = lindypo::raw::run(text, &mut table, &mut plan, &mut results);
    answer.expect("a sheet that runs");
    results
}

/// Number and place of Follow's refusal, on which both agree; 0, 0 where it
/// answers, and then its results are Run's.
fn check(text: &[u8], order: &[i64]) -> (u64, u64) {
    let reply = Trial::new(text, order).expect().follow;
    if reply.refusal == 0 {
        assert_eq!(followed(text, order), Ok(run(text)));
    }
    (reply.refusal, reply.place)
}

/// Random sheets that have a plan.
fn planned_sheets(count: usize) -> impl Iterator<Item = (Vec<u8>, Vec<i64>)> {
    let rng = &mut Rng::new(5);
    let mut sheets = Vec::new();
    while sheets.len() < count {
        let text = generator::sheet(rng);
        let plan = planned(&text);
        if plan.len() > 1 {
            sheets.push((text, plan));
        }
    }
    sheets.into_iter()
}

/// All sequences of these labels, by exchanges.
fn permutations(labels: &mut [i64], fixed: usize, visit: &mut dyn FnMut(&[i64])) {
    if fixed == labels.len() {
        return visit(labels);
    }
    for other in fixed..labels.len() {
        labels.swap(fixed, other);
        permutations(labels, fixed + 1, visit);
        labels.swap(fixed, other);
    }
}

/// All lists of so many of these numbers.
fn lists(numbers: &[i64], length: usize, list: &mut Vec<i64>, visit: &mut dyn FnMut(&[i64])) {
    if list.len() == length {
        return visit(list);
    }
    for &number in numbers {
        list.push(number);
        lists(numbers, length, list, visit);
        list.pop();
    }
}

#[test]
fn the_plan_of_run() {
    for shape in generator::shapes() {
        let plan = planned(&shape.text);
        let refused = shape.name.starts_with("refusal");
        assert_eq!(check(&shape.text, &plan) == (0, 0), !refused);
    }
    for (text, plan) in planned_sheets(300) {
        assert_eq!(check(&text, &plan), (0, 0));
    }
}

/// Sample 3: 4 reads 6, and 7 reads 5, so a quarter of the sequences is proper.
#[test]
fn every_sequence_of_a_sample() {
    let text = &sheets()[2];
    let mut proper = 0;
    permutations(&mut [4, 5, 6, 7], 0, &mut |order| {
        let place = |label| order.iter().position(|&other| other == label);
        let is_proper = place(6) < place(4) && place(5) < place(7);
        let early = [(4, 6), (7, 5)].map(|(value, read)| {
            let early = place(value) < place(read);
            early.then_some(place(value)).flatten()
        });
        let wanted = early.into_iter().flatten().min();
        let wanted = wanted.map_or((0, 0), |at| (18, at as u64 + 1));
        assert_eq!(check(text, order), wanted, "{order:?}");
        proper += usize::from(is_proper);
    });
    assert_eq!(proper, 6);
}

/// Sample 3 with every list of up to four numbers, its values, other labels and
/// what is no label.
#[test]
fn every_short_list() {
    let text = &sheets()[2];
    let numbers = [-1, 0, 1, 4, 5, 6, 7, 8, 12];
    let mut proper = 0;
    for length in 0..=4 {
        lists(&numbers, length, &mut Vec::new(), &mut |order| {
            proper += usize::from(check(text, order) == (0, 0));
        });
    }
    assert_eq!(proper, 6);
}

#[test]
fn reversed() {
    let mut early = 0;
    for (text, mut plan) in planned_sheets(200) {
        plan.reverse();
        let (refusal, _) = check(&text, &plan);
        assert!(refusal == 0 || refusal == 18);
        early += usize::from(refusal == 18);
    }
    assert!(early > 50);
}

#[test]
fn shuffled() {
    let rng = &mut Rng::new(6);
    let (mut early, mut proper) = (0, 0);
    for (text, mut plan) in planned_sheets(300) {
        rng.shuffle(&mut plan);
        match check(&text, &plan).0 {
            0 => proper += 1,
            18 => early += 1,
            other => panic!("refusal {other}"),
        }
    }
    assert!(early > 50 && proper > 50);
}

/// One value left out: refused behind the end, wherever it was.
#[test]
fn short() {
    let rng = &mut Rng::new(7);
    for (text, mut plan) in planned_sheets(200) {
        let length = plan.len() as u64;
        plan.remove(rng.below(plan.len()));
        assert_eq!(check(&text, &plan), (17, length));
        plan.clear();
        assert_eq!(check(&text, &plan), (17, 1));
    }
}

/// One number more at the end, of a value or not; and very many.
#[test]
fn long() {
    let rng = &mut Rng::new(8);
    for (text, plan) in planned_sheets(200) {
        let wanted = (17, plan.len() as u64 + 1);
        let lines = generator::line_count(&text) as i64;
        let value = *rng.pick(&plan);
        for more in [value, 0, 1, lines + 1, -value, i64::MIN, i64::MAX] {
            let longer = [&plan[..], &[more]].concat();
            assert_eq!(check(&text, &longer), wanted);
        }
        assert_eq!(check(&text, &plan.repeat(2 + 3_000 / plan.len())), wanted);
    }
}

/// A value listed again in place of another: refused where it stands.
#[test]
fn repeated() {
    let rng = &mut Rng::new(9);
    for (text, mut plan) in planned_sheets(200) {
        let at = 1 + rng.below(plan.len() - 1);
        plan[at] = plan[rng.below(at)];
        assert_eq!(check(&text, &plan), (17, at as u64 + 1));
    }
}

/// A number that is no label of a value, among them some that are one in their
/// lowest bits.
#[test]
fn wild() {
    let rng = &mut Rng::new(10);
    for (text, plan) in planned_sheets(200) {
        let at = rng.below(plan.len());
        let label = plan[at];
        let lines = generator::line_count(&text) as i64;
        for bits in [8, 16, 32, 63] {
            let mut order = plan.clone();
            order[at] = label | 1 << bits;
            if order[at] > lines || order[at] < 0 {
                assert_eq!(check(&text, &order), (17, at as u64 + 1));
            }
        }
        for number in [0, 1, -label, lines + 1, RUBBISH, i64::MIN, i64::MAX] {
            let mut order = plan.clone();
            order[at] = number;
            assert_eq!(check(&text, &order), (17, at as u64 + 1));
        }
    }
}

/// Row 17 is found before row 18, wherever they stand.
#[test]
fn not_listed_goes_before_early() {
    let text = &sheets()[0];
    assert_eq!(check(text, &[2, 4, 5]), (18, 1));
    assert_eq!(check(text, &[2, 4]), (17, 3));
    assert_eq!(check(text, &[2, 4, 4]), (17, 3));
    assert_eq!(check(text, &[2, 4, 5, 5]), (17, 4));
    assert_eq!(check(text, &[2, 4, 5, 0]), (17, 4));
    assert_eq!(check(text, &[5, 2, 4]), (18, 2));
}

/// Whichever proper order: the results are Run's.
#[test]
fn proper_orders_give_the_results_of_run() {
    let rng = &mut Rng::new(11);
    let mut others = 0;
    for (text, plan) in planned_sheets(400) {
        for _ in 0..3 {
            let order = generator::proper_order(rng, &text);
            assert_eq!(check(&text, &order), (0, 0));
            others += usize::from(order != plan);
        }
    }
    assert!(others > 300);
}
