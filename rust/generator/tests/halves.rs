//! Order 5 in random sheets: both first lines, lines that are nearly one of them,
//! and quotients on which the two tie rules part.

use generator::{
    any_sheet, case, damaged, first_line, halves, halves_in_calls, is_one_byte_off, line_count,
    sheet, under, under_other, Case, Rng, AWAY, EVEN, FIRST_LINES,
};

/// Run's results, none where it refuses.
fn run(text: &[u8]) -> Option<Vec<i64>> {
    let lines = line_count(text);
    let mut buffers = [8 * lines, lines, 3 * lines].map(|length| vec![0; length]);
    let [table, plan, results] = &mut buffers;
    reference::run(text, table, plan, results).ok()?;
    let [_, _, results] = buffers;
    Some(results)
}

fn follow(text: &[u8], order: &[i64]) -> Option<Vec<i64>> {
    let lines = line_count(text);
    let (mut table, mut results) = (vec![0; 8 * lines], vec![0; 3 * lines]);
    reference::follow(text, order, &mut table, &mut results).ok()?;
    Some(results)
}

fn retouch(text: &[u8], pairs: &[i64]) -> Option<Vec<i64>> {
    let lines = line_count(text);
    let lengths = [8 * lines, lines, 3 * lines, 3 * (pairs.len() / 2)];
    let mut buffers = lengths.map(|length| vec![0; length]);
    let [table, plan, results, changes] = &mut buffers;
    reference::retouch(text, pairs, table, plan, results, changes).ok()?;
    let [_, _, results, _] = buffers;
    Some(results)
}

#[test]
fn half_of_the_sheets_under_each_line() {
    let count = |make: fn(&mut Rng) -> Vec<u8>| {
        let texts = (0..4_000).map(|seed| make(&mut Rng::new(seed)));
        let lines: Vec<Vec<u8>> = texts.map(|text| first_line(&text).to_vec()).collect();
        FIRST_LINES.map(|line| lines.iter().filter(|&other| other == line).count())
    };
    let [away, even] = count(sheet);
    assert_eq!(away + even, 4_000);
    assert!((1_900..2_100).contains(&away), "{away}");
    let [away, even] = count(any_sheet);
    assert!(away > 1_800 && even > 1_800, "{away}, {even}");
}

/// Whether the two rules part on a case in Run, in Follow, and in what Retouch does
/// after its Run.
fn parts(case: &Case, other: &[u8]) -> [bool; 3] {
    let text = &case.text;
    let is_parted = |ours: Option<Vec<i64>>, theirs| {
        let both = ours.zip(theirs);
        both.is_some_and(|(ours, theirs)| ours != theirs)
    };
    let runs = is_parted(run(text), run(other));
    let follows = is_parted(follow(text, &case.order), follow(other, &case.order));
    let retouches = is_parted(retouch(text, &case.pairs), retouch(other, &case.pairs));
    [runs, follows, retouches && !runs]
}

/// Quotients that the other rule would round otherwise are met often.
#[test]
fn halves_are_met() {
    let mut met = [[0; 3]; 2];
    for seed in 0..10_000 {
        let case = case(seed);
        let Some(other) = under_other(&case.text) else {
            continue;
        };
        let rule = usize::from(first_line(&case.text) == EVEN);
        for (count, parted) in met[rule].iter_mut().zip(parts(&case, &other)) {
            *count += usize::from(parted);
        }
    }
    println!("Run, Follow, Retouch under each rule: {met:?}");
    for [runs, follows, retouches] in met {
        assert!(runs > 300 && follows > 150 && retouches > 8, "{met:?}");
    }
}

/// What line one is mistaken for.
#[derive(Default, Debug)]
struct Mistaken {
    /// One byte off one of the two and not the other, by line; off both.
    near: [usize; 2],
    near_both: usize,
    /// Cut short, by line; nothing but a line end of Windows too many; both lines.
    cut: [usize; 2],
    windows: usize,
    both: usize,
}

impl Mistaken {
    fn add(&mut self, text: &[u8]) {
        let line = first_line(text);
        if FIRST_LINES.contains(&line) {
            let rest = text.get(line.len() + 1..).unwrap_or(b"");
            self.both += usize::from(FIRST_LINES.contains(&first_line(rest)));
            return;
        }
        match FIRST_LINES.map(|known| is_one_byte_off(line, known)) {
            [true, true] => self.near_both += 1,
            near => add(&mut self.near, near),
        }
        // the others begin as both do
        let is_cut = |known: &[u8]| line.len() > 4 && known.starts_with(line);
        add(&mut self.cut, FIRST_LINES.map(is_cut));
        let is_windows = |known: &&[u8]| [known, &b"\r"[..]].concat() == line;
        self.windows += usize::from(FIRST_LINES.iter().any(is_windows));
    }
}

fn add(counts: &mut [usize; 2], more: [bool; 2]) {
    for (count, more) in counts.iter_mut().zip(more) {
        *count += usize::from(more);
    }
}

#[test]
fn near_misses_of_both_lines_are_met() {
    let mut mistaken = Mistaken::default();
    let mut lines = std::collections::BTreeSet::new();
    for seed in 0..20_000 {
        let text = damaged(&mut Rng::new(seed));
        mistaken.add(&text);
        lines.insert(first_line(&text).to_vec());
    }
    println!("{mistaken:?}");
    let Mistaken {
        near,
        near_both,
        cut,
        windows,
        both,
    } = mistaken;
    let counts = [near[0], near[1], near_both, cut[0], cut[1], windows, both];
    assert!(counts.iter().all(|&count| count >= 20), "{counts:?}");
    for line in [
        "Kind2 name a b c",
        "kind3 name a b c",
        "kind02 name a b c",
        "kind 2 name a b c",
        "kind2  name a b c",
        "kind2 name a b c ",
        "kind2,name,a,b,c",
        "kind2",
    ] {
        assert!(lines.contains(line.as_bytes()), "{line}");
    }
}

/// Fields are spoilt, and numbers put in, under the line that is there.
#[test]
fn changes_keep_the_line() {
    for line in FIRST_LINES {
        let text = under(line, &generator::everyday(60, 1));
        let put = generator::put_numbers(&text, &[]);
        assert_eq!(put, text);
        assert_eq!(first_line(&generator::capital_paths(&text)), line);
        let rng = &mut Rng::new(7);
        let kept = (0..1_000).filter(|_| {
            let spoilt = generator::damage(rng, text.clone());
            first_line(&spoilt) == line
        });
        assert!(kept.count() > 850);
    }
}

/// The number of every value of a sheet, which are all in state 1.
fn numbers(text: &[u8]) -> Vec<i64> {
    let results = run(text).expect("a sheet that runs");
    let values = results.chunks(3).filter(|cells| cells[0] != 0);
    values
        .map(|cells| {
            assert_eq!(cells[0], 1);
            cells[1]
        })
        .collect()
}

/// Every quotient of the shapes for speed is a half: away from zero it is half a
/// unit more than a / b, to even that or half a unit less.
#[test]
fn shapes_of_halves_are_what_they_are_called() {
    let text = halves(676);
    assert!(line_count(&text) > 1_000);
    let [away, even] = FIRST_LINES.map(|line| numbers(&under(line, &text)));
    assert_eq!(away.len(), 338);
    let odds = (0..338i64).map(|value| 2 * (value * 7_919 % 1_009) - 1_007);
    for (odd, (away, even)) in odds.zip(away.iter().zip(&even)) {
        assert_eq!(*away, odd + odd.signum());
        assert_eq!((even - odd).abs(), 1);
        assert_eq!(even % 4, 0);
    }
    let parted = away.iter().zip(&even).filter(|(away, even)| away != even);
    assert!((150..190).contains(&parted.count()));
}

#[test]
fn halves_in_calls_are_what_they_are_called() {
    let text = halves_in_calls(324);
    assert!((1_000..=1_024).contains(&line_count(&text)));
    let odds = || (1..=127).step_by(2);
    let away: i64 = odds().map(|odd| 10 * (odd + 1) / 2).sum();
    let even: i64 = odds().map(|odd| 10 * ((odd + 1) / 4 * 2)).sum();
    assert_eq!(numbers(&under(AWAY, &text)), vec![away; 324]);
    assert_eq!(numbers(&under(EVEN, &text)), vec![even; 324]);
}
