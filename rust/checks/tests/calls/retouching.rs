//! Order 4: Retouch against what Run gives on the sheet with the numbers put in,
//! pair by pair, and every label, number and length of a list.

use checks::{Call, Lent, Trial};
use generator::{line_count, put_numbers, Rng};
use lindypo::raw::Reply;

use crate::{example, setting, sheets, RUBBISH};

/// The limit of a number, and the most pairs.
const MOST: i64 = 1_000_000_000;
const MOST_PAIRS: usize = 1_024;

/// Row 1's limit, which is "left aside".
const MOST_BYTES: usize = 65_536;

/// How a call is made: both of them have to keep what is promised.
type Make = fn(Call, Lent) -> Reply;
const MAKERS: [Make; 2] = [Call::library, Call::reference];

/// What a call leaves in table, plan, results and changes.
#[derive(PartialEq)]
struct Left {
    reply: Reply,
    buffers: [Vec<i64>; 4],
}

impl Left {
    fn by(make: Make, call: Call, text: &[u8], pairs: &[i64]) -> Self {
        let lines = line_count(text);
        let lengths = [8 * lines, lines, 3 * lines, 3 * (pairs.len() / 2)];
        let mut buffers = lengths.map(|length| vec![RUBBISH; length]);
        let [table, plan, results, changes] = &mut buffers;
        let lent = Lent {
            text,
            order: &[],
            pairs,
            table,
            plan,
            results,
            changes,
        };
        let reply = make(call, lent);
        Left { reply, buffers }
    }

    /// The values that fail, and all steps: sums over the results.
    fn sums(&self) -> [i64; 2] {
        let results = self.buffers[2].chunks_exact(3);
        results.fold([0, 0], |[failing, steps], cells| {
            [failing + i64::from(cells[0] > 1), steps + cells[2]]
        })
    }
}

/// Random sheets that run, each with a list of pairs that is answered.
fn retouched_sheets(count: usize) -> Vec<(Vec<u8>, Vec<i64>)> {
    let first = setting("LINDYPO_SEED", 0);
    let cases = (first..).map(|seed| {
        let rng = &mut Rng::new(seed);
        let text = generator::sheet_within(rng, 60);
        let pairs = generator::pairs(rng, &text);
        (text, pairs)
    });
    let is_answered = |(text, pairs): &(Vec<u8>, Vec<i64>)| {
        let left = Left::by(Call::reference, Call::Retouch, text, pairs);
        left.reply.refusal == 0 && (2..200).contains(&pairs.len())
    };
    cases.filter(is_answered).take(count).collect()
}

/// "The final results are those of Run on the sheet with the numbers put in";
/// "table and plan are Run's, but cell a shows each new number": where a name
/// starts in the text is as sent.
#[test]
fn final_results_are_those_of_run() {
    let mut others = 0;
    for (text, pairs) in retouched_sheets(3_000) {
        let put = put_numbers(&text, &pairs);
        if put.len() > MOST_BYTES {
            continue;
        }
        for make in MAKERS {
            let before = Left::by(make, Call::Run, &text, &[]);
            let after = Left::by(make, Call::Run, &put, &[]);
            let given = Left::by(make, Call::Retouch, &text, &pairs);
            let shown = String::from_utf8_lossy(&text);
            assert_eq!(given.reply, before.reply, "{shown} {pairs:?}");
            assert_eq!(given.reply, after.reply, "{shown} {pairs:?}");
            assert_eq!(given.buffers[1], after.buffers[1], "{shown} {pairs:?}");
            assert_eq!(given.buffers[2], after.buffers[2], "{shown} {pairs:?}");
            let mut table = after.buffers[0].clone();
            let starts = before.buffers[0].iter().skip(1).step_by(8);
            for (cells, start) in table.chunks_exact_mut(8).zip(starts) {
                cells[1] = *start;
            }
            assert_eq!(given.buffers[0], table, "{shown} {pairs:?}");
            others += usize::from(after.buffers[2] != before.buffers[2]);
        }
    }
    assert!(others > 3_000, "{others} with other results");
}

/// The values that mention a definition by any chain, or are it: by going from
/// mention to mention, backward.
fn dependents(table: &[i64], owner: i64) -> i64 {
    let lines: Vec<&[i64]> = table.chunks_exact(8).collect();
    let mut is_met = vec![false; lines.len() + 1];
    let mut open = vec![owner];
    is_met[owner as usize] = true;
    while let Some(target) = open.pop() {
        for line in lines.iter().filter(|line| line[7] == target) {
            if !std::mem::replace(&mut is_met[line[6] as usize], true) {
                open.push(line[6]);
            }
        }
    }
    let met = lines.iter().zip(&is_met[1..]);
    met.filter(|(line, is_met)| line[0] == 2 && **is_met)
        .count() as i64
}

/// "After each pair all values that mention that number's owner by any chain, or
/// are its owner, and no others"; "the stored figures equal sums over the results",
/// after every pair: those of Run on the sheet with the numbers so far put in.
#[test]
fn figures_are_sums_over_the_results() {
    let (mut more, mut fewer, mut redone) = (0, 0, [0; 3]);
    for (text, pairs) in retouched_sheets(1_200) {
        for make in MAKERS {
            let given = Left::by(make, Call::Retouch, &text, &pairs);
            let [table, _, _, changes] = &given.buffers;
            let mut before = Left::by(make, Call::Run, &text, &[]).sums();
            for (at, cells) in changes.chunks_exact(3).enumerate() {
                let put = put_numbers(&text, &pairs[..2 * at + 2]);
                if put.len() > MOST_BYTES {
                    break;
                }
                let sums = Left::by(make, Call::Run, &put, &[]).sums();
                let owner = table[8 * (pairs[2 * at] as usize - 1) + 6];
                let wanted = [dependents(table, owner), sums[0], sums[1]];
                let shown = String::from_utf8_lossy(&text);
                assert_eq!(cells, wanted, "pair {} of {pairs:?}\n{shown}", at + 1);
                more += usize::from(sums[0] > before[0]);
                fewer += usize::from(sums[0] < before[0]);
                redone[cells[0].min(2) as usize] += 1;
                before = sums;
            }
        }
    }
    let met = [more, fewer, redone[0], redone[1], redone[2]];
    assert!(met.iter().all(|&count| count > 200), "{met:?}");
}

/// The refusal that the paper gives a pair.
fn row_of(table: &[i64], label: i64, number: i64) -> u64 {
    let lines = (table.len() / 8) as i64;
    let is_number = (1..=lines).contains(&label) && table[8 * (label as usize - 1)] == 4;
    match (is_number, number.abs_diff(0) <= MOST as u64) {
        (false, _) => 20,
        (true, false) => 21,
        (true, true) => 0,
    }
}

/// Every label of every sheet, and those beside them, with numbers in and out of
/// range: by itself and as the last of three pairs.
#[test]
fn every_label_and_number() {
    let numbers = [
        0,
        MOST,
        -MOST,
        MOST + 1,
        -MOST - 1,
        1 << 32,
        i64::MIN,
        i64::MAX,
    ];
    let mut rows = [0; 22];
    for text in sheets() {
        let lines = line_count(&text) as i64;
        let mut table = vec![0; 8 * lines as usize];
        if reference::read(&text, &mut table).is_err() || lines > 60 {
            continue;
        }
        let runs = Trial::new(&text, &[]).expect().run.refusal == 0;
        let labels = generator::number_labels(&table);
        let Some(&good) = labels.first().filter(|_| runs) else {
            continue;
        };
        let edges = [i64::MIN, i64::MAX, (1 << 32) + 1, i64::MIN + lines];
        for label in (-1..=lines + 1).chain(edges) {
            for number in numbers {
                let row = row_of(&table, label, number);
                for place in [1, 3] {
                    let mut pairs = [good, 1].repeat(place - 1);
                    pairs.extend([label, number]);
                    let reply = Trial::new(&text, &[]).retouching(&pairs).expect().retouch;
                    let wanted = (row, if row == 0 { 0 } else { place as u64 });
                    assert_eq!((reply.refusal, reply.place), wanted, "{pairs:?}");
                    rows[row as usize] += 1;
                }
            }
        }
    }
    let met = [0, 20, 21].map(|row| rows[row]);
    assert!(met.iter().all(|&count| count > 200), "{met:?}");
}

/// Lists around the most pairs, even and odd, whatever they hold.
#[test]
fn lengths_of_lists() {
    let text = example();
    let around = [0, 1, 2, 3, 2 * MOST_PAIRS - 1, 2 * MOST_PAIRS];
    let above = [2 * MOST_PAIRS + 1, 2 * MOST_PAIRS + 2, 5 * MOST_PAIRS];
    for cells in [[14, 3], [0, MOST + 1]] {
        for length in around.into_iter().chain(above) {
            let pairs: Vec<i64> = cells.into_iter().cycle().take(length).collect();
            let reply = Trial::new(&text, &[]).retouching(&pairs).expect().retouch;
            let wanted = match length % 2 == 1 || length > 2 * MOST_PAIRS {
                true => (19, 0),
                false if length == 0 || cells[0] == 14 => (0, 0),
                false => (20, 1),
            };
            assert_eq!((reply.refusal, reply.place), wanted, "{length} cells");
        }
    }
}

/// As many pairs as there may be of shapes that cost most, in a trial each.
#[test]
fn long_lists_of_shapes() {
    let rng = &mut Rng::new(5);
    for text in [
        generator::everyday(1_024, 1),
        generator::flat(500),
        generator::dense(171),
        generator::tangled(500),
    ] {
        let mut table = vec![0; 8 * line_count(&text)];
        reference::read(&text, &mut table).expect("a sheet that reads");
        let labels = generator::number_labels(&table);
        let number = |rng: &mut Rng| rng.below(41) as i64 - 20;
        let pairs: Vec<i64> = (0..MOST_PAIRS)
            .flat_map(|_| [*rng.pick(&labels), number(rng)])
            .collect();
        let trial = Trial::new(&text, &[]).retouching(&pairs);
        assert_eq!(trial.expect().retouch.refusal, 0);
    }
}
