//! The random trials meet every refusal, every state, both orders, names in other
//! letters than their definitions and names that are nearly the same, and a seed always
//! gives the same trial.

use generator::{
    any_sheet, capital_paths, case, everyday_on_one, recased, sheet, tangled_blocks, Case,
    NearNames, OtherLetters, Rng, Tangles,
};
use reference::{Order, Refusal};

const CASES: u64 = 20_000;

#[derive(Default)]
struct Counts {
    /// Refusals of Run, of Follow alone (17, 18) and of Retouch alone (19 to 21),
    /// by number.
    refusals: [usize; 22],
    /// Changes that are too short for Retouch, and its answers.
    short_changes: usize,
    retouched: usize,
    states: [usize; 6],
    whole: usize,
    mixed: usize,
    /// Follow's answers, and those for another order than the plan.
    followed: usize,
    other_orders: usize,
    all_steps: usize,
    lines: usize,
    longest: usize,
    names: usize,
}

struct Buffers {
    table: Vec<i64>,
    plan: Vec<i64>,
    results: Vec<i64>,
}

impl Buffers {
    fn new(case: &Case) -> Self {
        Buffers {
            table: vec![case.rubbish; case.table],
            plan: vec![case.rubbish; case.plan],
            results: vec![case.rubbish; case.results],
        }
    }
}

impl Counts {
    fn run(&mut self, case: &Case) {
        let Buffers {
            mut table,
            mut plan,
            mut results,
        } = Buffers::new(case);
        let lines = generator::line_count(&case.text);
        self.lines += lines;
        match reference::run(&case.text, &mut table, &mut plan, &mut results) {
            Ok((length, order)) => {
                match order {
                    Order::Whole => self.whole += 1,
                    Order::Mixed => self.mixed += 1,
                }
                for label in &plan[..length] {
                    let at = 3 * (*label as usize - 1);
                    self.states[results[at] as usize] += 1;
                    self.all_steps += usize::from(results[at + 2] == 20_000);
                }
                self.longest = self.longest.max(lines);
                self.follow(case, &plan[..length], &results);
                self.retouch(case);
            }
            Err(refusal) => {
                self.refusals[refusal.number as usize] += 1;
                let mut cells = table.iter().chain(&plan).chain(&results);
                assert!(cells.all(|&cell| cell == 0));
            }
        }
    }

    /// Follow on a sheet that Run accepts: a proper order gives Run's results.
    fn follow(&mut self, case: &Case, plan: &[i64], wanted: &[i64]) {
        let Buffers {
            mut table,
            mut results,
            ..
        } = Buffers::new(case);
        match reference::follow(&case.text, &case.order, &mut table, &mut results) {
            Ok(length) => {
                assert_eq!(length, case.order.len());
                assert_eq!(results, wanted);
                self.followed += 1;
                self.other_orders += usize::from(case.order != plan);
            }
            Err(refusal) => self.refusals[refusal.number as usize] += 1,
        }
    }

    /// Retouch on a sheet that Run accepts.
    fn retouch(&mut self, case: &Case) {
        let Buffers {
            mut table,
            mut plan,
            mut results,
        } = Buffers::new(case);
        let mut changes = vec![case.rubbish; case.changes];
        let (text, pairs) = (&case.text, &case.pairs);
        let answer = reference::retouch(
            text,
            pairs,
            &mut table,
            &mut plan,
            &mut results,
            &mut changes,
        );
        match answer {
            Ok(_) => self.retouched += 1,
            Err(Refusal { number: 4, place }) => {
                assert_eq!(place, 4, "the other buffers are long enough");
                self.short_changes += 1;
            }
            Err(refusal) => self.refusals[refusal.number as usize] += 1,
        }
    }

    fn name(&mut self, case: &Case) {
        let mut table = Buffers::new(case).table;
        let part = reference::name(&case.text, &mut table, case.label);
        self.names += usize::from(!part.is_empty());
    }
}

#[test]
fn every_rule_is_met() {
    let mut counts = Counts::default();
    for seed in 0..CASES {
        let case = case(seed);
        counts.run(&case);
        counts.name(&case);
    }
    println!(
        "lines in all {}, longest accepted {}",
        counts.lines, counts.longest
    );
    println!("whole {}, mixed {}", counts.whole, counts.mixed);
    for (number, count) in counts.refusals.iter().enumerate().skip(1) {
        println!("refusal {number}: {count}");
        assert!(*count >= 50, "refusal {number}: {count}");
    }
    for (state, count) in counts.states.iter().enumerate().skip(1) {
        println!("state {state}: {count}");
        assert!(*count >= 300, "state {state}: {count}");
    }
    println!("all 20,000 steps {}", counts.all_steps);
    println!(
        "followed {}, not the plan {}",
        counts.followed, counts.other_orders
    );
    println!("names {}", counts.names);
    println!(
        "retouched {}, changes too short {}",
        counts.retouched, counts.short_changes
    );
    assert!(counts.retouched > 3_000 && counts.short_changes > 100);
    assert!(counts.whole > 2_000 && counts.mixed > 1_000);
    assert!(counts.other_orders > 500 && counts.names > 2_000);
    assert!(counts.longest > 900);
}

/// The names in other letters of a sheet that reads, and how many paths and names
/// in paths it has.
fn other_letters(text: &[u8]) -> (OtherLetters, usize, usize) {
    let mut table = vec![0; 8 * generator::line_count(text)];
    reference::read(text, &mut table).expect("a sheet that reads");
    let paths = table.chunks(8).filter(|row| row[7] != 0);
    let names = paths.clone().map(|row| {
        let path = &text[row[1] as usize..][..row[2] as usize];
        path.split(|&byte| byte == b'.').count()
    });
    let (paths, names) = (paths.clone().count(), names.sum());
    (OtherLetters::of(text, &table), paths, names)
}

/// Most sheets have plain paths; in some, heads or later names or most heads are
/// in other letters.
#[test]
fn paths_in_other_letters() {
    let (mut plain, mut heads, mut later, mut most) = (0, 0, 0, 0);
    for seed in 0..4_000 {
        let (others, paths, _) = other_letters(&sheet(&mut Rng::new(seed)));
        plain += usize::from(others == OtherLetters::default());
        heads += usize::from(others.heads > 0);
        later += usize::from(others.later_names > 0);
        most += usize::from(others.heads > 3 && 2 * others.heads > paths);
    }
    println!("plain {plain}, heads {heads}, later names {later}, most paths {most}");
    assert!(plain > 2_000 && heads > 600 && later > 300 && most > 200);
}

/// Members and paths whose names differ in one byte alone from another member's, in
/// the first eight bytes and after them, are in many sheets.
#[test]
fn near_names_in_sheets() {
    let mut met = [[0; NearNames::COUNT]; 2];
    for seed in 0..4_000 {
        let text = sheet(&mut Rng::new(seed));
        let mut table = vec![0; 8 * generator::line_count(&text)];
        reference::read(&text, &mut table).expect("a sheet that reads");
        let counts = NearNames::of(&text, &table).counts();
        for (met, more) in met.iter_mut().zip(counts) {
            met.iter_mut()
                .zip(more)
                .for_each(|(met, more)| *met += more);
        }
    }
    for [members, paths, missed, recased] in met {
        println!("members {members}, paths {paths}, in other letters {recased}");
        assert!(members > 300 && paths > 300 && recased > 150);
        assert_eq!(missed, 0);
    }
}

/// What is near what, by hand.
#[test]
fn near_names_are_told() {
    let text = b"kind name a b c
G - 0 - -
V abcdefghi 1 3 -
R Zbcdefghi - - -
V zbcdefghi 1 5 -
N - 1 - -
V zbcdefghj 1 7 -
R zbcdefghI - - -
";
    let mut table = vec![0; 8 * 7];
    reference::read(text, &mut table).expect("a sheet that reads");
    let met = NearNames {
        members: [true, true],
        paths: [true, true],
        missed: [false, false],
        recased: [true, true],
    };
    assert_eq!(NearNames::of(text, &table), met);
    let lost = String::from_utf8_lossy(text).replace("R Zbcdefghi", "R abcdefghk");
    let met = NearNames {
        missed: [false, true],
        ..NearNames::default()
    };
    assert_eq!(NearNames::of_missed(lost.as_bytes(), 3), met);
}

#[test]
fn names_made_near_are_other_names() {
    let rng = &mut Rng::new(6);
    for _ in 0..10_000 {
        let name = generator::long_name(rng);
        let mut near = name.clone();
        generator::make_near(rng, &mut near);
        let differ = |(a, b): &(&u8, &u8)| !a.eq_ignore_ascii_case(b);
        assert_eq!(name.iter().zip(&near).filter(differ).count(), 1);
        assert!((8..=16).contains(&near.len()) && near[0].is_ascii_alphabetic());
        assert!(near.iter().all(u8::is_ascii_alphanumeric));
    }
}

/// A text in other letters differs where names and paths stand, and nowhere
/// else.
#[test]
fn recased_texts_differ_in_names_alone() {
    let mut changed = 0;
    for seed in 0..4_000 {
        let rng = &mut Rng::new(seed);
        let text = any_sheet(rng);
        let other = recased(rng, &text);
        assert!(text.eq_ignore_ascii_case(&other));
        changed += usize::from(text != other);
        let outside = |text: &[u8]| -> Vec<Vec<u8>> {
            let lines = text.split(|&byte| byte == b'\n').enumerate();
            let fields = lines.map(|(at, line)| {
                let fields = line.split(|&byte| byte == b' ').enumerate();
                let kept = fields.filter(|&(field, _)| at == 0 || field != 1);
                kept.flat_map(|(_, field)| field.to_vec()).collect()
            });
            fields.collect()
        };
        assert_eq!(outside(&text), outside(&other));
    }
    assert!(changed > 3_000, "{changed} changed");
}

#[test]
fn capital_paths_are_in_capitals_and_lead_where_they_did() {
    for text in [generator::everyday(250, 3), generator::flat(50)] {
        let capitals = capital_paths(&text);
        let (others, paths, names) = other_letters(&capitals);
        assert!(paths > 40);
        assert_eq!((others.heads, others.later_names), (paths, names - paths));
        assert_eq!(run(&capitals), run(&text));
    }
}

/// Every refusal from 5 to 16 also has its sheet of 1,024 lines.
#[test]
fn late_refusals() {
    let (mut table, mut plan) = (vec![0; 8 * 1024], vec![0; 1024]);
    for number in 5..=16 {
        let text = generator::late_refusal(number);
        assert_eq!(generator::line_count(&text), 1_024);
        let place = if matches!(number, 11 | 16) {
            1_023
        } else {
            1_024
        };
        let refusal = reference::plan(&text, &mut table, &mut plan);
        assert_eq!(refusal, Err(Refusal { number, place }));
    }
}

#[test]
fn shapes_run() {
    for shape in generator::shapes() {
        let lines = generator::line_count(&shape.text);
        let refused = shape.name.starts_with("refusal");
        assert_eq!(
            reference::print(&shape.text).starts_with(b"refusal"),
            refused,
            "{}",
            shape.name
        );
        assert!(
            lines > 900 || shape.name.starts_with("one value"),
            "{} {lines}",
            shape.name
        );
    }
}

/// Run's plan, order and results of a sheet, long enough buffers lent.
fn run(text: &[u8]) -> (Vec<i64>, Order, Vec<i64>) {
    let lines = generator::line_count(text);
    let (mut table, mut plan) = (vec![0; 8 * lines], vec![0; lines]);
    let mut results = vec![0; 3 * lines];
    let answer = reference::run(text, &mut table, &mut plan, &mut results);
    let (length, order) = answer.expect("a sheet that runs");
    plan.truncate(length);
    (plan, order, results)
}

/// Whether all values of a sheet come to this state.
fn all_in_state(text: &[u8], state: i64) -> bool {
    let (plan, _, results) = run(text);
    let mut states = plan.iter().map(|&label| results[3 * label as usize - 3]);
    states.all(|other| other == state)
}

#[test]
fn shapes_are_what_they_are_called() {
    let (plan, _, _) = run(&generator::forward(500));
    assert!(plan.len() == 500 && plan.is_sorted());
    let (mut plan, _, _) = run(&generator::backward(500));
    plan.reverse();
    assert!(plan.len() == 500 && plan.is_sorted());
    let text = generator::nested_values(341);
    assert_eq!(generator::line_count(&text), 1_024);
    let (mut plan, order, _) = run(&text);
    plan.reverse();
    assert!(order == Order::Whole && plan.len() == 341 && plan.is_sorted());
    let text = generator::dense(171);
    assert_eq!(generator::line_count(&text), 1_022);
    assert_eq!(run(&text).0.len(), 171);
    assert!(all_in_state(&generator::spent(339), 4));
    assert!(all_in_state(&generator::deepest_calls(), 1));
    for shape in generator::shapes() {
        if shape.name.starts_with("endless") {
            assert!(all_in_state(&shape.text, 5), "{}", shape.name);
        }
    }
}

/// The sizes of the blocks of several in a sheet, by their smallest labels; and
/// what is so of it by these.
fn tangles(text: &[u8]) -> (Vec<usize>, Tangles) {
    let lines = generator::line_count(text);
    assert!(lines <= 1_024);
    let mut table = vec![0; 8 * lines];
    let answer = reference::plan(text, &mut table, &mut vec![0; lines]);
    assert!(matches!(answer, Ok((_, Order::Mixed))), "{answer:?}");
    let blocks = tangled_blocks(&table);
    (blocks.iter().map(Vec::len).collect(), Tangles::of(&table))
}

#[test]
fn tangled_shapes_are_what_they_are_called() {
    let none = Tangles::default();
    let below = Tangles {
        below: true,
        ..none
    };
    let beside = Tangles {
        beside_whole_group: true,
        ..below
    };
    let two = Tangles {
        two_in_group: true,
        ..none
    };
    assert_eq!(tangles(&generator::tangled(500)), (vec![2], none));
    assert_eq!(tangles(&generator::ring_among(300)), (vec![2], none));
    assert_eq!(tangles(&generator::ring(340)), (vec![340], none));
    assert_eq!(tangles(&generator::rings(127)), (vec![2; 127], two));
    let text = generator::every_second_in_ring(340);
    assert_eq!(tangles(&text), (vec![170], none));
    let text = generator::rings_in_every_second(170);
    assert_eq!(tangles(&text), (vec![2; 85], beside));
    assert_eq!(tangles(&generator::nested_tangle(300)), (vec![2], beside));
}

/// A value between two of a Group; and a tangle in a Group that is opened by one
/// around it.
#[test]
fn tangles_with_a_value_and_inside_an_opened_group() {
    let with_value = "G - 0 - -
G g 1 - -
V a 2 5 -
V x 1 6 -
R x - - -
R g.b - - -
V b 2 8 -
N - 1 - -
";
    let mut wanted = Tangles {
        with_value: true,
        ..Tangles::default()
    };
    let head = "kind name a b c\n";
    let text = [head, with_value].concat();
    assert_eq!(tangles(text.as_bytes()), (vec![2], wanted));
    // c and h of the Group in turn
    let inside = "G h 2 - -
V c 9 12 -
V y 2 13 -
R y - - -
R h.d - - -
V d 9 15 -
N - 1 - -
";
    let text = [head, with_value, inside].concat();
    wanted.below = true;
    wanted.inside_opened = true;
    assert_eq!(tangles(text.as_bytes()), (vec![2, 2], wanted));
}

#[test]
fn everyday_orders_have_their_lines_and_a_whole_plan() {
    for lines in (1..=80).chain([250, 500, 1_000, 1_023, 1_024]) {
        let text = generator::everyday(lines, 7);
        let (mut table, mut plan) = (vec![0; 8 * lines], vec![0; lines]);
        let planned = reference::plan(&text, &mut table, &mut plan);
        assert!(
            matches!(planned, Ok((_, Order::Whole))),
            "{lines} {planned:?}"
        );
        assert_eq!(generator::line_count(&text), lines);
    }
}

/// Every value reaches the number of the last line: a pair of it redoes all.
#[test]
fn everyday_orders_on_one_number() {
    for lines in [9, 60, 250, 1_024] {
        let text = everyday_on_one(lines, 1);
        assert_eq!(generator::line_count(&text), lines);
        let mut buffers = [8 * lines, lines, 3 * lines, 3].map(|length| vec![0; length]);
        let [table, plan, results, changes] = &mut buffers;
        let pairs = [lines as i64, 7];
        let answer = reference::retouch(&text, &pairs, table, plan, results, changes);
        let (values, order) = answer.expect("a sheet that runs");
        assert_eq!((changes[0], order), (values as i64, Order::Whole));
        assert!(values > lines / 8);
    }
}

#[test]
fn a_seed_gives_the_same_trial() {
    for seed in 0..200 {
        assert_eq!(case(seed), case(seed));
    }
    // Known beforehand, so another machine or a later change is noticed.
    let mut rng = generator::Rng::new(1);
    assert_eq!(rng.word(), 0x910A_2DEC_8902_5CC1);
}
