//! Order 5: what the library does under each of the two first lines, beside the
//! reference and beside the order's own words.

use generator::{line_count, planned, rows, sheet, under, Rng, AWAY, EVEN, FIRST_LINES};
use lindypo::raw::Reply;
use lindypo::Order;

use crate::{agree, refusal, Buffers};

/// The number limit.
const MOST: i64 = 1_000_000_000;

/// Values of 4 lines each that a sheet has room for.
const VALUES: usize = 255;

/// A sheet with a value for each of these quotients, its label 4k + 2.
fn quotients(line: &[u8], pairs: &[(i64, i64)]) -> Vec<u8> {
    let mut text = String::from_utf8(line.to_vec()).expect("ASCII") + "\nG - 0 - -\n";
    for (value, (a, b)) in pairs.iter().enumerate() {
        let label = 4 * value + 2;
        let (body, first, second) = (label + 1, label + 2, label + 3);
        text +=
            &format!("V v{label} 1 {body} -\nD - {first} {second} -\nN - {a} - -\nN - {b} - -\n");
    }
    text.into_bytes()
}

/// Whether q is the nearest whole number to a / b, a half to even or away from zero:
/// it is no farther off than a half, and of two such the one that the rule wants.
fn is_nearest(is_even: bool, a: i64, b: i64, q: i64) -> bool {
    let twice = 2 * (q * b - a).abs();
    let is_wanted = if is_even {
        q % 2 == 0
    } else {
        (q * b).abs() > a.abs()
    };
    twice < b.abs() || twice == b.abs() && is_wanted
}

/// The numbers that the library gives for these quotients, in Run and in Follow, are
/// those of the plain definition and of the reference.
fn check_quotients(line: &[u8], pairs: &[(i64, i64)]) {
    let text = quotients(line, pairs);
    agree(&text);
    let [run, follow] = results_of(&text);
    for (value, &(a, b)) in pairs.iter().enumerate() {
        let at = 3 * (4 * value + 1);
        let [state, q, steps] = [0, 1, 2].map(|cell| run[at + cell]);
        assert_eq!((state, steps), (1, 3), "{a} / {b}");
        let is_right = is_nearest(line == EVEN, a, b, q);
        assert!(is_right, "{a} / {b} gave {q} under {line:?}");
    }
    assert_eq!(run, follow);
}

/// The results of Run and of Follow, which is lent the plan.
fn results_of(text: &[u8]) -> [Vec<i64>; 2] {
    let order = planned(text);
    let mut buffers = Buffers::new(text);
    let Buffers {
        table,
        plan,
        results,
    } = &mut buffers;
    let answer = lindypo::raw::run(text, table, plan, results);
    assert!(answer.is_ok(), "{answer:?}");
    let run = results.clone();
    let answer = lindypo::raw::follow(text, &order, table, results);
    assert_eq!(answer, Ok(order.len()));
    [run, buffers.results]
}

#[test]
fn every_small_quotient() {
    let divisors = (-12..=12).filter(|&b| b != 0);
    let pairs: Vec<(i64, i64)> = divisors
        .flat_map(|b| (-40..=40).map(move |a| (a, b)))
        .collect();
    for line in FIRST_LINES {
        pairs
            .chunks(VALUES)
            .for_each(|pairs| check_quotients(line, pairs));
    }
}

/// At the ends of the number range; and numbers of any size, most of them halves.
#[test]
fn large_quotients() {
    let ends = [MOST, MOST - 1, MOST - 2, MOST / 2, MOST / 2 + 1, 1, 2, 3];
    let signed: Vec<i64> = ends.into_iter().flat_map(|end| [end, -end]).collect();
    let mut pairs: Vec<(i64, i64)> = signed
        .iter()
        .flat_map(|&a| signed.iter().map(move |&b| (a, b)))
        .collect();
    let rng = &mut Rng::new(1);
    while pairs.len() < 5_000 {
        let size = *rng.pick(&[30, 1_000, 50_000, 400_000_000]);
        let half = (1 + rng.below(size) as i64) * *rng.pick(&[1, -1]);
        let most = MOST / half.abs();
        let odd = 2 * (rng.below(most as usize + 1) as i64 - most / 2) + 1;
        let a = half * odd + *rng.pick(&[0, 0, 1, -1]);
        if a.abs() <= MOST {
            pairs.push((a, 2 * half));
        }
    }
    for line in FIRST_LINES {
        pairs
            .chunks(VALUES)
            .for_each(|pairs| check_quotients(line, pairs));
    }
}

/// "-3250 / 100 is -32 under the new rule", and -33 under the old one.
#[test]
fn the_papers_halves() {
    let pairs = [
        (-3250, 100),
        (3250, 100),
        (3249, 100),
        (50, 100),
        (150, 100),
        (-50, 100),
        (-150, 100),
        (350, -100),
        (250, -100),
    ];
    let numbers = |line| {
        let [run, _] = results_of(&quotients(line, &pairs));
        let values = run.chunks(3).filter(|cells| cells[0] != 0);
        values.map(|cells| cells[1]).collect::<Vec<_>>()
    };
    assert_eq!(numbers(AWAY), [-33, 33, 32, 1, 2, -1, -2, -4, -3]);
    assert_eq!(numbers(EVEN), [-32, 32, 32, 0, 2, 0, -2, -4, -2]);
}

/// What Plan of the library replies and leaves.
fn plan(text: &[u8]) -> (Reply, Vec<i64>, Vec<i64>) {
    let Buffers {
        mut table,
        mut plan,
        ..
    } = Buffers::new(text);
    let reply = lindypo::raw::plan_reply(text, &mut table, &mut plan);
    (reply, table, plan)
}

/// The table with every byte start so much higher.
fn moved(table: &[i64], by: i64) -> Vec<i64> {
    let mut table = table.to_vec();
    for cells in table.chunks_mut(8).filter(|cells| cells[2] > 0) {
        cells[1] += by;
    }
    table
}

/// The same sheet under both lines: tables are the same but for byte starts, which
/// are one higher, and plans are the same. Results are the same but for halves.
#[test]
fn the_same_sheet_under_both_lines() {
    let (mut answered, mut parted) = (0, 0);
    for seed in 0..4_000 {
        let text = sheet(&mut Rng::new(seed));
        let [away, even] = FIRST_LINES.map(|line| under(line, &text));
        let [(reply, table, order), (even_reply, even_table, even_order)] =
            [&away, &even].map(|text| plan(text));
        assert_eq!((reply, order), (even_reply, even_order), "seed {seed}");
        assert_eq!(moved(&table, 1), even_table, "seed {seed}");
        if reply.refusal != 0 {
            continue;
        }
        answered += 1;
        let [results, _] = results_of(&away);
        let [even_results, _] = results_of(&even);
        parted += usize::from(results != even_results);
        // the values are the same lines
        let states = |results: &[i64]| -> Vec<bool> {
            results.iter().step_by(3).map(|&state| state != 0).collect()
        };
        assert_eq!(states(&results), states(&even_results), "seed {seed}");
    }
    assert!(answered > 3_000 && parted > 200, "{answered}, {parted}");
}

/// The sheet with no quotient that can be a half: each is by an odd number, or a
/// difference in its place.
fn without_halves(rng: &mut Rng, text: &[u8]) -> Vec<u8> {
    let mut rows = rows::split(text).expect("a sheet");
    for at in 0..rows.len() {
        if rows[at][0] != b"D" {
            continue;
        }
        let word = std::str::from_utf8(&rows[at][3]).expect("a label");
        let divisor = word.parse::<usize>().expect("a label") - 1;
        match rows[divisor][0][..] {
            [b'N' | b'P' | b'R'] => {
                let odd = 2 * rng.below(12) as i64 - 11;
                let row = ["N", "-", &odd.to_string(), "-", "-"];
                rows[divisor] = row.map(|field| field.as_bytes().to_vec());
            }
            _ => rows[at][0] = b"S".to_vec(),
        }
    }
    rows::join(&rows)
}

/// "All other sheets keep halves away from zero" and only halves go by the rule:
/// without one, everything but byte starts is the same, in every call.
#[test]
fn without_halves_the_rules_agree() {
    let mut quotients = 0;
    for seed in 0..4_000 {
        let rng = &mut Rng::new(seed);
        let text = sheet(rng);
        let text = without_halves(rng, &text);
        let pairs = with_odd_numbers(&generator::pairs(rng, &text));
        let even = under(EVEN, &text);
        let [ours, others] = [&text, &even].map(|text| retouched(text, &pairs));
        assert_eq!(ours.0, others.0, "seed {seed}");
        assert_eq!(moved(&ours.1[0], 1), others.1[0], "seed {seed}");
        assert_eq!(ours.1[1..], others.1[1..], "seed {seed}");
        if ours.0.refusal == 0 {
            assert_eq!(results_of(&text), results_of(&even), "seed {seed}");
            let is_quotient = |row: &rows::Row| row[0] == b"D";
            let rows = rows::split(&text).expect("a sheet");
            quotients += rows.iter().filter(|row| is_quotient(row)).count();
        }
    }
    assert!(quotients > 1_000, "{quotients}");
}

/// The list of pairs with every number made odd, so that a divisor stays odd.
fn with_odd_numbers(pairs: &[i64]) -> Vec<i64> {
    let cells = pairs.iter().enumerate();
    cells
        .map(|(at, &cell)| if at % 2 == 1 { cell | 1 } else { cell })
        .collect()
}

/// What Retouch of the library replies and leaves: table, plan, results, changes.
fn retouched(text: &[u8], pairs: &[i64]) -> (Reply, [Vec<i64>; 4]) {
    let lines = line_count(text);
    let lengths = [8 * lines, lines, 3 * lines, 3 * (pairs.len() / 2)];
    let mut buffers = lengths.map(|length| vec![crate::RUBBISH; length]);
    let [table, plan, results, changes] = &mut buffers;
    let reply = lindypo::raw::retouch_reply(text, pairs, table, plan, results, changes);
    (reply, buffers)
}

/// Retouch goes by the sheet's own line in its Run and after each pair, and the table
/// keeps that line's byte starts.
#[test]
fn retouch_goes_by_the_line() {
    let numbers = |line, pairs: &[i64]| {
        let text = quotients(line, &[(50, 100), (7, 2)]);
        let (reply, [table, _, results, _]) = retouched(&text, pairs);
        assert_eq!(reply.order, 1);
        assert_eq!(table[9], line.len() as i64 + 13);
        [results[4], results[16]]
    };
    for (pairs, away, even) in [
        (&[][..], [1, 4], [0, 4]),
        (&[8, 5][..], [1, 3], [0, 2]),
        (&[8, 5, 9, -2][..], [1, -3], [0, -2]),
        (&[4, -3250, 8, 9, 9, 2][..], [-33, 5], [-32, 4]),
    ] {
        assert_eq!(numbers(AWAY, pairs), away, "{pairs:?}");
        assert_eq!(numbers(EVEN, pairs), even, "{pairs:?}");
    }
}

/// Line one with a byte put in, left out or replaced is refused with 2, but where
/// that makes it the other line.
#[test]
fn every_line_one_byte_from_either() {
    for line in FIRST_LINES {
        for at in 0..=line.len() {
            let (before, after) = line.split_at(at);
            let without = &after[after.len().min(1)..];
            for byte in 32..=126 {
                check_line(&[before, &[byte], after].concat());
                check_line(&[before, &[byte], without].concat());
            }
            check_line(&[before, without].concat());
            check_line(before);
        }
    }
    for line in ["kind02", "kind 2", "KIND2", "kinde", "2kind"] {
        check_line(format!("{line} name a b c").as_bytes());
    }
}

fn check_line(line: &[u8]) {
    let text = [line, b"\nG - 0 - -\nV v 1 3 -\nN - 1 - -\n"].concat();
    let wanted = (!FIRST_LINES.contains(&line)).then_some((2, 0));
    assert_eq!(
        refusal(&text),
        wanted,
        "{:?}",
        String::from_utf8_lossy(line)
    );
}

/// Row 1 comes first; both lines one after the other are a line with an unknown kind.
#[test]
fn what_is_not_row_2() {
    let lines = FIRST_LINES.map(|line| String::from_utf8_lossy(line).to_string());
    for first in &lines {
        let mut texts = vec![
            (first.clone(), (1, 0)),
            (format!("{first}\n"), (3, 0)),
            (format!("{first}\r\nG - 0 - -\r\n"), (1, 0)),
        ];
        texts.extend(
            lines
                .iter()
                .map(|second| (format!("{first}\n{second}\nG - 0 - -\n"), (6, 1))),
        );
        for (text, wanted) in texts {
            assert_eq!(refusal(text.as_bytes()), Some(wanted), "{text:?}");
        }
    }
}

/// The print goes by the line, too.
#[test]
fn the_print_goes_by_the_line() {
    let print = |line| {
        let mut out = vec![1; 200];
        let text = quotients(line, &[(-3250, 100)]);
        let printed = lindypo::raw::print(&text, &mut out);
        out.truncate(printed.length as usize);
        String::from_utf8(out).expect("ASCII")
    };
    let wanted = |number| format!("label name order state number steps\n2 v2 whole 1 {number} 3\n");
    assert_eq!(print(AWAY), wanted(-33));
    assert_eq!(print(EVEN), wanted(-32));
    assert_eq!(print(b"kind3 name a b c"), "refusal place\n2 0\n");
}

/// A value that reads another whose number goes by the rule, and a test that does:
/// there the steps differ, too.
#[test]
fn what_follows_from_a_half() {
    let lines = "\nG - 0 - -\nV a 1 3 -\nD - 4 5 -\nN - 1 - -\nN - 2 - -\n\
                 V b 1 7 -\nI - 8 9 10\nR a - - -\nN - 7 - -\nA - 11 12 -\nR a - - -\nN - 9 - -\n";
    let results = |line: &[u8]| {
        let text = [line, lines.as_bytes()].concat();
        agree(&text);
        let mut buffers = Buffers::new(&text);
        let Buffers {
            table,
            plan,
            results,
        } = &mut buffers;
        let answer = lindypo::raw::run(&text, table, plan, results);
        assert_eq!(answer, Ok((2, Order::Whole)));
        [results[3..6].to_vec(), results[15..18].to_vec()]
    };
    assert_eq!(results(AWAY), [[1, 1, 3], [1, 7, 3]]);
    assert_eq!(results(EVEN), [[1, 0, 3], [1, 9, 5]]);
}
