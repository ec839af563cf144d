//! Lent buffers: row 4, unused cells, and Name's part of the text.

use reference::{Order, Refusal};

use crate::{pair, rubbish, sheet, used, Builder};

const LINES: usize = 5;

fn text() -> Vec<u8> {
    sheet("G - 0 - -\nV v 1 3 -\nA - 4 5 -\nN - 20 - -\nN - 22 - -")
}

fn four(place: u64) -> Option<(u64, u64)> {
    Some((4, place))
}

fn zero(cells: &[i64]) -> bool {
    cells.iter().all(|&cell| cell == 0)
}

/// Lengths around `cells`: too short (true) and long enough (false).
fn lengths(cells: usize) -> [(usize, bool); 6] {
    [
        (0, true),
        (1, true),
        (cells - 1, true),
        (cells, false),
        (cells + 1, false),
        (3 * cells + 7, false),
    ]
}

#[test]
fn read() {
    for (length, short) in lengths(8 * LINES) {
        let mut table = rubbish(length);
        let answer = reference::read(&text(), &mut table);
        assert_eq!(answer.is_err(), short);
        assert_eq!(answer.err().map(pair).is_some_and(|r| r == (4, 1)), short);
        assert_eq!(zero(&table), short);
        assert!(short || zero(&table[8 * LINES..]));
    }
}

#[test]
fn plan() {
    for (table_length, no_table) in lengths(8 * LINES) {
        for (plan_length, no_plan) in lengths(LINES) {
            let mut table = rubbish(table_length);
            let mut plan = rubbish(plan_length);
            let answer = reference::plan(&text(), &mut table, &mut plan);
            let refusal = answer.err().map(pair);
            if no_table || no_plan {
                assert_eq!(refusal, four(if no_table { 1 } else { 2 }));
                assert!(zero(&table) && zero(&plan));
            } else {
                assert_eq!(answer, Ok((1, Order::Whole)));
                assert_eq!(used(&plan), [2]);
                assert!(zero(&table[8 * LINES..]));
            }
        }
    }
}

#[test]
fn run() {
    for (table_length, no_table) in lengths(8 * LINES) {
        for (plan_length, no_plan) in lengths(LINES) {
            for (results_length, no_results) in lengths(3 * LINES) {
                let mut table = rubbish(table_length);
                let mut plan = rubbish(plan_length);
                let mut results = rubbish(results_length);
                let answer = reference::run(&text(), &mut table, &mut plan, &mut results);
                let short = [no_table, no_plan, no_results];
                if let Some(place) = short.iter().position(|&short| short) {
                    assert_eq!(answer.err().map(pair), four(place as u64 + 1));
                    assert!(zero(&table) && zero(&plan) && zero(&results));
                } else {
                    assert_eq!(answer, Ok((1, Order::Whole)));
                    assert_eq!(used(&results), [0, 0, 0, 1, 42, 3]);
                    assert_eq!(used(&plan), [2]);
                    assert!(zero(&table[8 * LINES..]));
                }
            }
        }
    }
}

#[test]
fn follow() {
    for (table_length, no_table) in lengths(8 * LINES) {
        for (results_length, no_results) in lengths(3 * LINES) {
            let mut table = rubbish(table_length);
            let mut results = rubbish(results_length);
            let answer = reference::follow(&text(), &[2], &mut table, &mut results);
            if no_table || no_results {
                assert_eq!(answer.err().map(pair), four(if no_table { 1 } else { 3 }));
                assert!(zero(&table) && zero(&results));
            } else {
                assert_eq!(answer, Ok(1));
                assert_eq!(used(&results), [0, 0, 0, 1, 42, 3]);
                assert!(zero(&table[8 * LINES..]));
            }
        }
    }
}

/// Every later refusal leaves zeros too, in buffers of any length.
#[test]
fn a_refusal_leaves_zeros() {
    let twice = sheet("G - 0 - -\nV v 1 3 -\nA - 4 4 -\nN - 20 - -");
    let cycle = sheet("G - 0 - -\nV v 1 3 -\nR v - - -");
    for text in [&twice[..], &cycle[..], b"", b"kind name a b c\n"] {
        for length in [0, 3, 40, 100] {
            let mut table = rubbish(length);
            let mut plan = rubbish(length);
            let mut results = rubbish(length);
            assert!(reference::plan(text, &mut table, &mut plan).is_err());
            assert!(zero(&table) && zero(&plan));
            table.fill(9);
            plan.fill(9);
            assert!(reference::run(text, &mut table, &mut plan, &mut results).is_err());
            assert!(zero(&table) && zero(&plan) && zero(&results));
            table.fill(9);
            results.fill(9);
            assert!(reference::follow(text, &[2], &mut table, &mut results).is_err());
            assert!(zero(&table) && zero(&results));
        }
    }
}

/// Read does not look for cycles: it answers where Plan refuses.
#[test]
fn read_answers_on_a_cycle() {
    let text = sheet("G - 0 - -\nV v 1 3 -\nR v - - -");
    let (mut table, mut plan) = (rubbish(24), rubbish(3));
    assert_eq!(reference::read(&text, &mut table), Ok(3));
    let refusal = Refusal {
        number: 16,
        place: 2,
    };
    assert_eq!(reference::plan(&text, &mut table, &mut plan), Err(refusal));
    assert_eq!(reference::name(&text, &mut table, 3), b"v");
}

#[test]
fn name_is_that_part_of_the_text() {
    let mut builder = Builder::new();
    let g = builder.group("Right", 1);
    builder.define("V", "sphere", g, "1");
    builder.define("V", "prism", 1, "R:Right.sphere");
    let text = builder.text();
    let mut wanted = rubbish(8 * 6);
    assert_eq!(reference::read(&text, &mut wanted), Ok(6));
    let names: [&[u8]; 6] = [b"", b"Right", b"sphere", b"", b"prism", b"Right.sphere"];
    for (label, name) in (1..).zip(names) {
        let mut table = rubbish(8 * 6);
        let part = reference::name(&text, &mut table, label);
        assert_eq!(part, name);
        assert_eq!(table, wanted);
        if !name.is_empty() {
            let start = table[8 * (label as usize - 1) + 1] as usize;
            assert!(std::ptr::eq(part, &text[start..start + name.len()]));
        }
    }
    for label in [0, -1, 7, i64::MIN, i64::MAX, (1 << 32) + 2] {
        let mut table = rubbish(8 * 6 + 3);
        assert_eq!(reference::name(&text, &mut table, label), b"");
        assert_eq!(table[..8 * 6], wanted);
        assert!(zero(&table[8 * 6..]));
    }
}

#[test]
fn name_where_read_refuses() {
    let text = text();
    for (length, short) in lengths(8 * LINES) {
        let mut table = rubbish(length);
        let part = reference::name(&text, &mut table, 2);
        assert_eq!(part.is_empty(), short);
        assert_eq!(zero(&table), short);
    }
    for text in [&b""[..], b"\n", b"kind name a b c\nG - 0 - -\nV v 1 1 -\n"] {
        let mut table = rubbish(30);
        assert_eq!(reference::name(text, &mut table, 2), b"");
        assert!(zero(&table));
    }
}
