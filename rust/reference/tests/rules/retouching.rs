//! Order 4: what a pair redoes, the figures beside it, and rows 19 to 21.

use reference::Order::{self, Whole};
use reference::Refusal;

use crate::{pair, result_of, rubbish, sheet, used, Builder};

/// The number limit.
const MOST: i64 = 1_000_000_000;

/// What Retouch leaves: table, plan, results and changes.
type Buffers = [Vec<i64>; 4];

/// Retouch of a text with buffers long enough for anything.
fn retouch(text: &[u8], pairs: &[i64]) -> (Result<(usize, Order), Refusal>, Buffers) {
    let mut buffers = [8 * 1024, 1024, 3 * 1024, 3 * 1026].map(rubbish);
    let [table, plan, results, changes] = &mut buffers;
    let answer = reference::retouch(text, pairs, table, plan, results, changes);
    (answer, buffers)
}

/// The changes of a list that is answered, three cells a pair.
#[track_caller]
fn changes(text: &[u8], pairs: &[i64]) -> Vec<[i64; 3]> {
    let (answer, [.., changes]) = retouch(text, pairs);
    assert!(answer.is_ok(), "{answer:?}");
    let (own, rest) = changes.split_at(3 * (pairs.len() / 2));
    assert_eq!(used(rest), []);
    own.chunks(3)
        .map(|cells| [cells[0], cells[1], cells[2]])
        .collect()
}

/// The refusal of a list, which leaves zeros in all four buffers.
#[track_caller]
fn refusal(text: &[u8], pairs: &[i64]) -> (u64, u64) {
    let (answer, buffers) = retouch(text, pairs);
    assert!(buffers.iter().flatten().all(|&cell| cell == 0));
    pair(answer.expect_err("a refusal"))
}

/// 2 a = 10 (3), 4 b = a / 5 (7), 8 c = half b, 11 half = the argument / 2 (14),
/// 15 d = 7 (16); in brackets the labels of the numbers.
fn chain() -> Vec<u8> {
    let mut builder = Builder::new();
    builder.define("V", "a", 1, "10");
    builder.define("V", "b", 1, "D R:a 5");
    builder.define("V", "c", 1, "C:half R:b");
    builder.define("F", "half", 1, "D P 2");
    builder.define("V", "d", 1, "7");
    let text = builder.text();
    assert_eq!(numbers(&text), [3, 7, 14, 16]);
    text
}

/// The labels of the N lines.
fn numbers(text: &[u8]) -> Vec<i64> {
    let lines = text.split(|&byte| byte == b'\n').zip(0..);
    let numbers = lines.filter(|(line, _)| line.starts_with(b"N "));
    numbers.map(|(_, label)| label).collect()
}

/// "An empty list is Run with nothing changed."
#[test]
fn an_empty_list_is_run() {
    let text = chain();
    let mut wanted = [8 * 1024, 1024, 3 * 1024].map(rubbish);
    let [table, plan, results] = &mut wanted;
    let run = reference::run(&text, table, plan, results);
    let (answer, [table, plan, results, changes]) = retouch(&text, &[]);
    assert_eq!(answer, run);
    assert_eq!([table, plan, results], wanted);
    assert_eq!(used(&changes), []);
}

/// "All values that mention that number's owner by any chain, or are its owner,
/// and no others", by functions too.
#[test]
fn what_a_pair_redoes() {
    let text = chain();
    // a 1, b 3, c 5, d 1
    let steps = 10;
    assert_eq!(changes(&text, &[3, 20]), [[3, 0, steps]]);
    assert_eq!(changes(&text, &[7, 1]), [[2, 0, steps]]);
    assert_eq!(
        changes(&text, &[14, 1]),
        [[1, 0, steps]],
        "a function's number"
    );
    assert_eq!(changes(&text, &[16, 8]), [[1, 0, steps]]);
}

/// "Even where the number stays as it was."
#[test]
fn a_number_that_stays() {
    assert_eq!(changes(&chain(), &[3, 10, 3, 10]), [[3, 0, 10]; 2]);
}

/// A function that no value calls: nothing is redone.
#[test]
fn a_number_that_nobody_asks_for() {
    let mut builder = Builder::new();
    builder.define("V", "a", 1, "1");
    builder.define("F", "f", 1, "A P 2");
    let text = builder.text();
    assert_eq!(changes(&text, &[7, 5]), [[0, 0, 1]]);
    let (_, [table, ..]) = retouch(&text, &[7, 5]);
    assert_eq!(table[8 * 6 + 3], 5);
}

/// Both figures go up and down again: b fails with a zero divisor, c with b.
#[test]
fn failing_and_recovering() {
    let text = chain();
    let figures = changes(&text, &[7, 0, 16, 1, 7, 5, 3, MOST, 7, 1]);
    // c, which reads b, ends at its argument: 2 steps in place of 5
    let wanted = [[2, 2, 7], [1, 2, 7], [2, 0, 10], [3, 0, 10], [2, 0, 10]];
    assert_eq!(figures, wanted);
}

/// Table, plan and results after the last pair of a label.
#[test]
fn the_last_number_of_a_label_stands() {
    let text = chain();
    let (answer, [table, plan, results, _]) = retouch(&text, &[3, 100, 7, 10, 3, 40]);
    assert_eq!(answer, Ok((4, Whole)));
    assert_eq!(used(&plan), [2, 4, 8, 15]);
    let number = |label: usize| results[3 * (label - 1) + 1];
    assert_eq!([2, 4, 8, 15].map(number), [40, 4, 2, 7]);
    let mut wanted = rubbish(8 * 1024);
    reference::read(&text, &mut wanted).expect("a sheet that reads");
    wanted[8 * 2 + 3] = 40;
    wanted[8 * 6 + 3] = 10;
    assert_eq!(table, wanted);
}

/// A value has its own line's number where it branches on it: the branch that is
/// not taken counts as a mention.
#[test]
fn mentions_of_both_branches() {
    let mut builder = Builder::new();
    builder.define("V", "a", 1, "1");
    builder.define("V", "b", 1, "I 1 2 R:a");
    let text = builder.text();
    assert_eq!(result_of(&text, 4), [1, 2, 3]);
    assert_eq!(changes(&text, &[3, 9]), [[2, 0, 4]]);
    assert_eq!(changes(&text, &[6, 0, 3, 9]), [[1, 0, 4], [2, 0, 4]]);
}

/// Functions that call each other: the number of either is everybody's who calls
/// one of them.
#[test]
fn functions_that_call_each_other() {
    let mut builder = Builder::new();
    builder.define("F", "even", 1, "I P C:odd S P 1 1");
    builder.define("F", "odd", 1, "I P C:even S P 1 0");
    builder.define("V", "a", 1, "C:even 0");
    builder.define("V", "b", 1, "C:odd 1");
    builder.define("V", "c", 1, "3");
    let text = builder.text();
    let redone = |label: i64| changes(&text, &[label, 1])[0][0];
    let wanted = [2, 2, 2, 2, 1, 1, 1];
    assert_eq!(
        numbers(&text).into_iter().map(redone).collect::<Vec<_>>(),
        wanted
    );
}

/// Row 19: "an odd list or above 1,024 pairs", whatever it holds.
#[test]
fn nineteen() {
    let text = chain();
    assert_eq!(refusal(&text, &[3]), (19, 0));
    assert_eq!(refusal(&text, &[3, 1, 3]), (19, 0));
    assert_eq!(refusal(&text, &[-1, i64::MAX, 3]), (19, 0));
    assert_eq!(changes(&text, &[3, 5].repeat(1_024)), [[3, 0, 10]; 1_024]);
    assert_eq!(refusal(&text, &[3, 5].repeat(1_025)), (19, 0));
    assert_eq!(refusal(&text, &[0, MOST + 1].repeat(1_025)), (19, 0));
}

/// Row 20: every label that is no N line's, of any size.
#[test]
fn twenty() {
    let text = chain();
    let others = [1, 2, 4, 5, 6, 8, 9, 10, 11, 12, 13, 15];
    let outside = [0, -1, -3, 17, 3 + (1 << 32), i64::MIN, i64::MAX];
    for label in others.into_iter().chain(outside) {
        assert_eq!(refusal(&text, &[label, 1]), (20, 1), "{label}");
        assert_eq!(refusal(&text, &[3, 1, 7, 1, label, 1]), (20, 3), "{label}");
    }
}

/// Row 21, and that it comes after 20 in a pair, but not in a later pair.
#[test]
fn twenty_one() {
    let text = chain();
    for number in [MOST, -MOST] {
        assert_eq!(changes(&text, &[16, number]), [[1, 0, 10]]);
    }
    for number in [MOST + 1, -MOST - 1, 1 << 32, i64::MIN, i64::MAX] {
        assert_eq!(refusal(&text, &[3, number]), (21, 1));
        assert_eq!(refusal(&text, &[3, 0, 3, number]), (21, 2));
        assert_eq!(refusal(&text, &[2, number]), (20, 1));
        assert_eq!(refusal(&text, &[3, number, 2, 0]), (21, 1));
        assert_eq!(refusal(&text, &[2, 0, 3, number]), (20, 1));
    }
}

/// "Refusals besides Run's: 19 after 16."
#[test]
fn runs_refusals_come_first() {
    let circle = sheet("G - 0 - -\nV v 1 3 -\nA - 4 5 -\nR v - - -\nN - 20 - -");
    for pairs in [&[][..], &[5, 1], &[5], &[1, MOST + 1]] {
        assert_eq!(refusal(&circle, pairs), (16, 2));
        assert_eq!(refusal(b"", pairs), (1, 0));
    }
}

/// Row 4, place 4: three cells for each whole pair, after the places of Run and
/// before all that is about lines and the list.
#[test]
fn short_changes() {
    let text = chain();
    let bad = sheet("G - 0 - -\nX - - - -");
    let make = |text: &[u8], pairs: &[i64], lengths: [usize; 4]| {
        let mut buffers = lengths.map(rubbish);
        let [table, plan, results, changes] = &mut buffers;
        let answer = reference::retouch(text, pairs, table, plan, results, changes);
        let is_zero = buffers.iter().flatten().all(|&cell| cell == 0);
        assert!(answer.is_ok() || is_zero);
        answer.map_err(pair)
    };
    let lent = |changes: usize| [8 * 16, 16, 3 * 16, changes];
    let wanted = Ok((4, Whole));
    for (pairs, cells) in [(&[3, 1][..], 3), (&[3, 1, 3, 2], 6), (&[], 0)] {
        for length in 0..cells {
            assert_eq!(make(&text, pairs, lent(length)), Err((4, 4)));
        }
        assert_eq!(make(&text, pairs, lent(cells)), wanted);
        assert_eq!(make(&text, pairs, lent(cells + 5)), wanted);
    }
    // an odd last cell is not counted
    assert_eq!(make(&text, &[3, 1, 3], lent(2)), Err((4, 4)));
    assert_eq!(make(&text, &[3, 1, 3], lent(3)), Err((19, 0)));
    assert_eq!(make(&text, &[3], lent(0)), Err((19, 0)));
    // before 5 and all of the list, after the places of Run
    assert_eq!(make(&bad, &[3, 1], lent(2)), Err((4, 4)));
    assert_eq!(make(&bad, &[3, 1], lent(3)), Err((6, 2)));
    assert_eq!(
        make(&text, &[3, 1].repeat(1_025), lent(3 * 1_025 - 1)),
        Err((4, 4))
    );
    assert_eq!(make(&text, &[0, MOST + 1], lent(2)), Err((4, 4)));
    for (place, short) in [[8 * 16 - 1, 16, 48, 0], [128, 15, 48, 0], [128, 16, 47, 0]]
        .into_iter()
        .enumerate()
    {
        assert_eq!(make(&text, &[3, 1], short), Err((4, place as u64 + 1)));
    }
    assert_eq!(make(b"kind name a b c\n", &[3, 1], lent(0)), Err((3, 0)));
}
