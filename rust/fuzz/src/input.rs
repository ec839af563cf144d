//! What an input stands for: settings, then the text as it is.

use generator::{line_count, number_labels, planned, Case, Rng};

use crate::settings::{Settings, MOST_CELLS, MOST_PRINT};

/// Longer than a sheet may be, so that longer ones are met too.
const MOST_BYTES: usize = 66_000;

/// The most pairs of a list that is answered, and the limit of a number.
const MOST_PAIRS: usize = 1_024;
const MOST_NUMBER: i64 = 1_000_000_000;

/// Pairs of any sheet, and the lines of one that may have more: each pair may
/// redo all values at 20,000 steps each.
const FEW_PAIRS: usize = 8;
const FEW_LINES: usize = 24;

/// The trial that an input stands for; every input stands for one.
pub fn decode(input: &[u8]) -> Case {
    let (settings, text) = Settings::split(input);
    let text = &text[..text.len().min(MOST_BYTES)];
    let lines = line_count(text);
    let pairs = pairs(&settings, text);
    let needed = [8 * lines, lines, 3 * lines, 3 * (pairs.len() / 2)];
    let [table, plan, results, changes] = std::array::from_fn(|at| {
        let (way, amount) = (settings.ways[at], settings.amounts[at]);
        length(way, usize::from(amount), needed[at]).min(MOST_CELLS)
    });
    Case {
        table,
        plan,
        results,
        rubbish: settings.seed as i64,
        label: label(&settings, lines),
        order: order(&settings, text),
        print: print(&settings, text),
        pairs,
        changes,
        text: text.to_vec(),
    }
}

/// Seldom too short: all that a call then comes to is row 4.
fn length(way: u8, amount: usize, needed: usize) -> usize {
    match way % 32 {
        0..=23 => needed,
        24..=26 => needed + 1,
        27..=29 => needed + 1 + amount % 64,
        30 => needed.saturating_sub(1),
        _ => amount,
    }
}

/// Most often as many bytes as the print has.
fn print(settings: &Settings, text: &[u8]) -> usize {
    let needed = reference::print(text).len();
    let amount = usize::from(settings.print_amount);
    length(settings.print_way, amount, needed).min(MOST_PRINT)
}

/// Most often a label of a line, the one before or the one after them. Label 1
/// has no name, so a word that is 0 stands for 2.
fn label(settings: &Settings, lines: usize) -> i64 {
    let near = settings.word.wrapping_add(2).rem_euclid(lines as i64 + 2);
    match settings.label % 8 {
        0..=4 => near,
        5 => -near,
        6 => near + (1 << 32),
        _ => settings.word,
    }
}

/// The plan, the plan with a fault or over and over, a list of the generator's,
/// or the settings' own.
fn order(settings: &Settings, text: &[u8]) -> Vec<i64> {
    let mut order = match settings.order % 8 {
        0..=4 => planned(text),
        5 => generator::order(&mut Rng::new(settings.seed), text),
        6 => own_list(settings),
        _ => over_and_over(&planned(text), usize::from(settings.at)),
    };
    if settings.order % 8 >= 2 {
        put_fault(settings, &mut order);
    }
    order.truncate(MOST_CELLS);
    order
}

fn own_list(settings: &Settings) -> Vec<i64> {
    let length = usize::from(settings.at) % (settings.list.len() + 1);
    settings.list[..length]
        .iter()
        .copied()
        .map(i64::from)
        .collect()
}

/// So many cells of a plan and, after its end, of the plan again.
fn over_and_over(plan: &[i64], length: usize) -> Vec<i64> {
    let length = length.min(MOST_CELLS);
    plan.iter().copied().cycle().take(length).collect()
}

/// A swap, a label twice, one left out, one changed or put in, or none.
fn put_fault(settings: &Settings, order: &mut Vec<i64>) {
    if order.is_empty() {
        return;
    }
    let at = usize::from(settings.at) % order.len();
    let other = usize::from(settings.other) % order.len();
    match settings.fault % 8 {
        0 | 1 => order.swap(at, other),
        2 => order.insert(other, order[at]),
        3 => {
            order.remove(at);
        }
        4 => order[at] = settings.word,
        5 => order.insert(at, settings.word),
        6 => order.reverse(),
        _ => {}
    }
}

/// The settings' own pairs, with a fault or without, over and over up to about as
/// many as there may be, a list of the generator's, or none.
fn pairs(settings: &Settings, text: &[u8]) -> Vec<i64> {
    let mut pairs = match settings.pairs % 8 {
        0..=4 => own_pairs(settings, text),
        5 => generator::pairs(&mut Rng::new(settings.seed), text),
        6 => {
            let length = 2 * MOST_PAIRS - 4 + usize::from(settings.pair_at) % 8;
            over_and_over(&own_pairs(settings, text), length)
        }
        _ => Vec::new(),
    };
    if matches!(settings.pairs % 8, 3 | 4) {
        put_pair_fault(settings, &mut pairs, line_count(text));
    }
    // many pairs cost nothing where they are too many
    let is_long = (FEW_PAIRS + 1..=MOST_PAIRS).contains(&(pairs.len() / 2));
    if is_long && line_count(text) > FEW_LINES {
        pairs.truncate(2 * FEW_PAIRS);
    }
    pairs
}

/// Pairs of N lines one after another, or as the bytes choose; of any labels where
/// there are no N lines.
fn own_pairs(settings: &Settings, text: &[u8]) -> Vec<i64> {
    let mut table = vec![0; 8 * line_count(text)];
    // a refusal leaves zeros, which are no N lines
    let _ = reference::read(text, &mut table);
    let labels = number_labels(&table);
    let count = 2 + usize::from(settings.pair_count) % (FEW_PAIRS - 1);
    let touches = settings.touches.chunks_exact(2).take(count).enumerate();
    touches
        .flat_map(|(at, touch)| {
            let place = at + usize::from(touch[0]);
            let (label, now) = match labels.len() {
                0 => (place as i64, 0),
                count => {
                    let label = labels[place % count];
                    (label, table[8 * (label as usize - 1) + 3])
                }
            };
            [label, number(settings, touch[1], now)]
        })
        .collect()
}

/// A number that is allowed.
fn number(settings: &Settings, byte: u8, now: i64) -> i64 {
    let high = i64::from(byte / 16);
    match byte % 16 {
        0 => 0,
        1 | 2 => now,
        3 => MOST_NUMBER,
        4 => -MOST_NUMBER,
        5 => settings.word % (MOST_NUMBER + 1),
        6 | 7 => -high,
        8 => high * 1_000_000,
        _ => high,
    }
}

/// A label that is none, a number out of range, both, in one pair or in two, a cell
/// too many or too few, or a label of any kind.
fn put_pair_fault(settings: &Settings, pairs: &mut Vec<i64>, lines: usize) {
    let pair = 2 * (usize::from(settings.pair_at) % (pairs.len() / 2));
    let near = if settings.word < 0 { -1 } else { 1 } * (MOST_NUMBER + 1);
    match settings.pair_fault % 8 {
        0 => pairs[pair] = settings.word,
        1 => pairs[pair + 1] = settings.word,
        2 => pairs[pair + 1] = near,
        3 => pairs.truncate(pairs.len() - 1),
        4 => pairs.push(settings.word),
        5 => pairs[pair] = i64::from(settings.pair_at) % (lines as i64 + 2),
        6 => {
            pairs[pair] = i64::from(settings.pair_at) % (lines as i64 + 2);
            pairs[pair + 1] = near;
        }
        _ => {
            let last = pairs.len() - 2;
            pairs[1] = near;
            pairs[last] = settings.word;
        }
    }
}

#[cfg(test)]
mod tests {
    use super::*;

    const SHEET: &[u8] = b"kind name a b c\n\
        G - 0 - -\n\
        V total 1 3 -\n\
        R part - - -\n\
        V part 1 5 -\n\
        N - 7 - -\n";

    fn decoded(settings: Settings) -> Case {
        decode(&[&settings.to_bytes(), SHEET].concat())
    }

    #[test]
    fn without_settings_what_is_needed_and_the_plan() {
        let case = decoded(Settings::default());
        assert_eq!(case.text, SHEET);
        assert_eq!([case.table, case.plan, case.results], [40, 5, 15]);
        assert_eq!((case.order, case.label), (vec![4, 2], 2));
        assert_eq!(case.print, reference::print(SHEET).len());
        assert_eq!((case.pairs, case.changes), (vec![5, 0, 5, 0], 6));
    }

    #[test]
    fn pairs_as_the_bytes_choose() {
        let mut settings = Settings {
            pair_count: 3,
            ..Settings::default()
        };
        settings.touches[..10].copy_from_slice(&[7, 1, 0, 3, 1, 4, 0, 0x96, 0, 0x99]);
        let most = MOST_NUMBER;
        let wanted = [5, 7, 5, most, 5, -most, 5, -9, 5, 9];
        assert_eq!(decoded(settings).pairs, wanted);
        let none = Settings {
            pairs: 7,
            ..settings
        };
        assert_eq!(decoded(none).pairs, []);
    }

    #[test]
    fn faults_in_the_pairs() {
        let wanted: [&[i64]; 8] = [
            &[5, 0, -9, 0],
            &[5, 0, 5, -9],
            &[5, 0, 5, -1_000_000_001],
            &[5, 0, 5],
            &[5, 0, 5, 0, -9],
            &[5, 0, 3, 0],
            &[5, 0, 3, -1_000_000_001],
            &[5, -1_000_000_001, -9, 0],
        ];
        for (pair_fault, wanted) in (0..).zip(wanted) {
            let case = decoded(Settings {
                pairs: 3,
                pair_fault,
                pair_at: 3,
                word: -9,
                ..Settings::default()
            });
            assert_eq!(case.pairs, wanted, "fault {pair_fault}");
        }
    }

    #[test]
    fn as_many_pairs_as_there_may_be() {
        let length = |pair_at, text: &[u8]| {
            let settings = Settings {
                pairs: 6,
                pair_at,
                ..Settings::default()
            };
            decode(&[&settings.to_bytes(), text].concat()).pairs.len()
        };
        for pair_at in 0..8 {
            assert_eq!(length(pair_at, SHEET), 2_044 + usize::from(pair_at));
        }
        let long = generator::everyday(60, 1);
        assert_eq!([0, 5, 6].map(|at| length(at, &long)), [16, 16, 2_050]);
    }

    #[test]
    fn lengths_one_short_one_more_any_and_none() {
        let settings = Settings {
            ways: [30, 24, 31, 30],
            amounts: [0, 0, 9, 0],
            ..Settings::default()
        };
        let lengths = |case: Case| [case.table, case.plan, case.results, case.changes];
        assert_eq!(lengths(decoded(settings)), [39, 6, 9, 5]);
        let none = Settings {
            ways: [31; 4],
            amounts: [0; 4],
            ..settings
        };
        assert_eq!(lengths(decoded(none)), [0; 4]);
    }

    #[test]
    fn a_print_that_has_no_room() {
        let settings = Settings {
            print_way: 31,
            print_amount: 7,
            ..Settings::default()
        };
        assert_eq!(decoded(settings).print, 7);
    }

    #[test]
    fn faults_in_the_plan() {
        let wanted: [&[i64]; 8] = [
            &[2, 4],
            &[2, 4],
            &[4, 4, 2],
            &[2],
            &[-9, 2],
            &[-9, 4, 2],
            &[2, 4],
            &[4, 2],
        ];
        for (fault, wanted) in (0..).zip(wanted) {
            let case = decoded(Settings {
                order: 2,
                fault,
                other: if fault < 2 { 1 } else { 0 },
                word: -9,
                ..Settings::default()
            });
            assert_eq!(case.order, wanted, "fault {fault}");
        }
    }

    #[test]
    fn lists_that_are_no_plan() {
        let settings = Settings {
            order: 7,
            fault: 7,
            at: 5,
            list: std::array::from_fn(|at| at as u8),
            ..Settings::default()
        };
        assert_eq!(decoded(settings).order, [4, 2, 4, 2, 4]);
        let own = decoded(Settings {
            order: 6,
            ..settings
        });
        assert_eq!(own.order, [0, 1, 2, 3, 4]);
    }

    #[test]
    fn every_input_stands_for_a_trial() {
        let rng = &mut Rng::new(2);
        for length in 0..500 {
            let input: Vec<u8> = (0..length).map(|_| rng.word() as u8).collect();
            let case = decode(&input);
            assert!(case.order.len() <= MOST_CELLS);
            assert_eq!(case.text, input[length.min(Settings::BYTES)..]);
        }
    }
}
