//! The figures that the paper gives for its ten sample sheets.

use reference::Order::{Mixed, Whole};

use crate::{planned, read_refusal, result_of, rubbish, sheet, used, Builder};

const EXAMPLE: &str = "
    G - 0 - -
    V total 1 6 -
    G right 1 - -
    V prism 3 9 -
    V sphere 3 14 -
    A - 7 8 -
    R right.prism - - -
    N - 5 - -
    D - 10 13 -
    M - 11 12 -
    R sphere - - -
    N - 10 - -
    N - 100 - -
    N - -325 - -";

#[test]
fn sample_1_whole() {
    let text = sheet(EXAMPLE);
    assert_eq!(planned(&text), Ok((vec![5, 4, 2], Whole)));
    assert_eq!(result_of(&text, 5), [1, -325, 1]);
    assert_eq!(result_of(&text, 4), [1, -33, 5]);
    assert_eq!(result_of(&text, 2), [1, -28, 3]);
    assert_eq!(result_of(&text, 1), [0, 0, 0]);
    let print = "label name order state number steps\n\
                 5 sphere whole 1 -325 1\n\
                 4 prism whole 1 -33 5\n\
                 2 total whole 1 -28 3\n";
    assert_eq!(reference::print(&text), print.as_bytes());
}

#[test]
fn sample_1_table() {
    let text = sheet(EXAMPLE);
    let mut table = rubbish(8 * 14 + 5);
    assert_eq!(reference::read(&text, &mut table), Ok(14));
    let rows: [[i64; 8]; 14] = [
        [1, 0, 0, 0, 0, 0, 0, 0],
        [2, 28, 5, 1, 6, 0, 1, 0],
        [1, 42, 5, 1, 0, 0, 1, 0],
        [2, 56, 5, 3, 9, 0, 3, 0],
        [2, 70, 6, 3, 14, 0, 3, 0],
        [8, 0, 0, 7, 8, 0, 2, 0],
        [6, 96, 11, 0, 0, 0, 2, 4],
        [4, 0, 0, 5, 0, 0, 2, 0],
        [11, 0, 0, 10, 13, 0, 4, 0],
        [10, 0, 0, 11, 12, 0, 4, 0],
        [6, 150, 6, 0, 0, 0, 4, 5],
        [4, 0, 0, 10, 0, 0, 4, 0],
        [4, 0, 0, 100, 0, 0, 4, 0],
        [4, 0, 0, -325, 0, 0, 5, 0],
    ];
    assert_eq!(table[..8 * 14], rows.concat());
    assert_eq!(table[8 * 14..], [0; 5]);
    assert_eq!(reference::name(&text, &mut table, 7), b"right.prism");
}

#[test]
fn sample_2_empty_whole_plan() {
    let text = sheet("G - 0 - -");
    assert_eq!(planned(&text), Ok((vec![], Whole)));
    let mut table = rubbish(8);
    assert_eq!(reference::read(&text, &mut table), Ok(1));
    assert_eq!(used(&table), [1]);
    let print = b"label name order state number steps\n";
    assert_eq!(reference::print(&text), print);
}

#[test]
fn sample_3_mixed() {
    let text = sheet(
        "G - 0 - -
         G l 1 - -
         G r 1 - -
         V a 2 8 -
         V b 2 9 -
         V c 3 10 -
         V d 3 11 -
         R r.c - - -
         N - 1 - -
         N - 2 - -
         R l.b - - -",
    );
    assert_eq!(planned(&text), Ok((vec![5, 6, 4, 7], Mixed)));
}

fn even_of(argument: i64) -> Vec<u8> {
    sheet(&format!(
        "G - 0 - -
         G x 1 - -
         G y 1 - -
         F even 2 6 -
         F odd 3 13 -
         I - 7 8 9
         P - - - -
         C y.odd 10 - -
         N - 1 - -
         S - 11 12 -
         P - - - -
         N - 1 - -
         I - 14 15 16
         P - - - -
         C x.even 17 - -
         N - 0 - -
         S - 18 19 -
         P - - - -
         N - 1 - -
         V v 1 21 -
         C x.even 22 - -
         N - {argument} - -"
    ))
}

#[test]
fn samples_4_and_5_even() {
    assert_eq!(result_of(&even_of(0), 20), [1, 1, 5]);
    assert_eq!(result_of(&even_of(1), 20), [1, 0, 11]);
    assert_eq!(result_of(&even_of(62), 20), [1, 1, 377]);
    assert_eq!(result_of(&even_of(63), 20), [1, 0, 383]);
    assert_eq!(result_of(&even_of(64), 20), [5, 0, 386]);
    assert_eq!(result_of(&even_of(65), 20), [5, 0, 386]);
}

#[test]
fn sample_6_endless_calls() {
    let text = sheet(
        "G - 0 - -
         F f 1 3 -
         C f 4 - -
         P - - - -
         V v 1 6 -
         C f 7 - -
         N - 9 - -",
    );
    assert_eq!(result_of(&text, 5), [5, 0, 130]);
}

#[test]
fn sample_7_nearest() {
    let quotient = |a: i64, b: i64| {
        let text = sheet(&format!(
            "G - 0 - -\nV v 1 3 -\nD - 4 5 -\nN - {a} - -\nN - {b} - -"
        ));
        result_of(&text, 2)
    };
    assert_eq!(quotient(-3250, 100), [1, -33, 3]);
    assert_eq!(quotient(3249, 100), [1, 32, 3]);
    assert_eq!(quotient(3250, 100), [1, 33, 3]);
    assert_eq!(quotient(3250, -100), [1, -33, 3]);
    assert_eq!(quotient(-3250, -100), [1, 33, 3]);
    assert_eq!(quotient(-3249, 100), [1, -32, 3]);
    assert_eq!(quotient(1, 2), [1, 1, 3]);
    assert_eq!(quotient(-1, 2), [1, -1, 3]);
    assert_eq!(quotient(0, -7), [1, 0, 3]);
    assert_eq!(quotient(7, 0), [3, 0, 3]);
    assert_eq!(quotient(0, 0), [3, 0, 3]);
}

#[test]
fn sample_8_reads_itself() {
    let text = sheet("G - 0 - -\nV v 1 3 -\nR v - - -");
    assert_eq!(read_refusal(&text), None);
    assert_eq!(planned(&text), Err((16, 2)));
    assert_eq!(reference::print(&text), b"refusal place\n16 2\n");
}

#[test]
fn sample_9_used_twice() {
    let text = sheet("G - 0 - -\nV v 1 3 -\nA - 4 4 -\nN - 1 - -");
    assert_eq!(read_refusal(&text), Some((9, 4)));
    assert_eq!(reference::print(&text), b"refusal place\n9 4\n");
}

/// Functions d0, d1, ... each of which takes about twice the steps of the one
/// before (the sheets folder explains the counting), and one value. `plus`
/// tells which ones add their argument once more.
fn doubling(plus: [bool; 11], value: &str) -> [i64; 3] {
    let mut builder = Builder::new();
    builder.define("F", "d0", 1, "A P P");
    for (before, plus) in plus.into_iter().enumerate() {
        let more = if plus { "A P " } else { "" };
        let body = format!("{more}A C:d{before} P C:d{before} P");
        builder.define("F", &format!("d{}", before + 1), 1, &body);
    }
    builder.define("F", "f", 1, "C:f P");
    let label = builder.define("V", "v", 1, value);
    result_of(&builder.text(), label)
}

#[test]
fn sample_10_steps() {
    let (y, n) = (true, false);
    // Bodies of 3, 13, 33, 73, 151, 307, 619, 1245, 2495, 4995, 9995, 19997 steps.
    let most = [y, y, y, n, n, n, y, n, n, n, y];
    assert_eq!(doubling(most, "C:d11 1"), [1, 5905, 19_999]);
    assert_eq!(doubling(most, "A C:d11 1 0"), [4, 0, 20_000]);
    assert_eq!(doubling(most, "A 0 C:d11 1"), [4, 0, 20_000]);
    // Bodies of 3, 13, 33, 71, 149, 305, 615, 1237, 2479, 4963, 9931, 19867 steps.
    let deep = [y, y, n, y, y, n, y, n, n, n, n];
    assert_eq!(doubling(deep, "C:d11 1"), [1, 5840, 19_869]);
    assert_eq!(doubling(deep, "A C:d11 1 C:f 1"), [5, 0, 20_000]);
    assert_eq!(doubling(deep, "A A C:d11 1 C:f 1 0"), [4, 0, 20_000]);
    assert_eq!(doubling(deep, "A 0 A C:d11 1 C:f 1"), [4, 0, 20_000]);
}
