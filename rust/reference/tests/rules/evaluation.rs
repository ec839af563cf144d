//! Evaluation: states, numbers and steps.

use crate::{result_of, Builder};

/// The result of one value with this body; f calls itself, g gives its
/// argument back, `far` is a value in state 2.
#[track_caller]
fn value(body: &str, wanted: [i64; 3]) {
    let mut builder = Builder::new();
    builder.define("F", "f", 1, "C:f P");
    builder.define("F", "g", 1, "P");
    builder.define("V", "far", 1, "A 1000000000 1");
    builder.define("V", "near", 1, "41");
    let label = builder.define("V", "v", 1, body);
    assert_eq!(result_of(&builder.text(), label), wanted, "{body}");
}

#[test]
fn operations() {
    value("7", [1, 7, 1]);
    value("A 2 3", [1, 5, 3]);
    value("S 2 3", [1, -1, 3]);
    value("M -2 3", [1, -6, 3]);
    value("D 7 2", [1, 4, 3]);
    value("S S 10 4 3", [1, 3, 5]);
    value("S 10 S 4 3", [1, 9, 5]);
    value("R:near", [1, 41, 1]);
    value("C:g -9", [1, -9, 3]);
    value("C:g C:g A 1 2", [1, 3, 7]);
}

#[test]
fn range() {
    value("A 999999999 1", [1, 1_000_000_000, 3]);
    value("A 1000000000 1", [2, 0, 3]);
    value("S -999999999 1", [1, -1_000_000_000, 3]);
    value("S -1000000000 1", [2, 0, 3]);
    value("M 31622 31622", [1, 999_950_884, 3]);
    value("M 31623 31623", [2, 0, 3]);
    value("M -100000 10000", [1, -1_000_000_000, 3]);
    value("M 1000000000 1000000000", [2, 0, 3]);
    value("D -1000000000 -1", [1, 1_000_000_000, 3]);
    value("S A 1000000000 1 1", [2, 0, 4]);
}

#[test]
fn failures_end_the_value() {
    value("D 1 0", [3, 0, 3]);
    value("D A 1000000000 1 0", [2, 0, 4]);
    value("A 1 D 1 0", [3, 0, 5]);
    value("A D 1 0 R:far", [3, 0, 4]);
    value("R:far", [2, 0, 1]);
    value("A R:far 1", [2, 0, 2]);
    value("A 1 R:far", [2, 0, 3]);
    value("I R:far 1 2", [2, 0, 2]);
    value("C:g R:far", [2, 0, 2]);
}

#[test]
fn one_branch_only() {
    value("I 1 2 3", [1, 2, 3]);
    value("I 0 2 3", [1, 3, 3]);
    value("I -5 2 D 1 0", [1, 2, 3]);
    value("I 0 C:f 1 6", [1, 6, 3]);
    value("I S 1 1 2 A 4 4", [1, 8, 7]);
}

#[test]
fn calls_go_64_deep() {
    value("C:f 1", [5, 0, 130]);
    value("C:f C:f 1", [5, 0, 131]);
    let count_down = |depth: i64| {
        let mut builder = Builder::new();
        builder.define("F", "down", 1, "I P C:down S P 1 77");
        let label = builder.define("V", "v", 1, &format!("C:down {depth}"));
        result_of(&builder.text(), label)
    };
    assert_eq!(count_down(0), [1, 77, 5]);
    assert_eq!(count_down(63), [1, 77, 5 + 6 * 63]);
    assert_eq!(count_down(64), [5, 0, 2 + 6 * 64]);
    assert_eq!(count_down(-1), [5, 0, 2 + 6 * 64]);
}

/// "C works out its argument; at depth 64 the state is then 5": a failing
/// argument comes first.
#[test]
fn the_argument_fails_before_the_depth() {
    let mut builder = Builder::new();
    // At depth 64 its argument is 0 and 1 / 0 fails.
    builder.define("F", "h", 1, "C:h I S P 1 S P 1 D 1 0");
    let label = builder.define("V", "v", 1, "C:h 64");
    // Rounds 1 to 63 take C, I, three for the test, three for the branch.
    assert_eq!(result_of(&builder.text(), label), [3, 0, 2 + 63 * 8 + 8]);
}

/// Depth counts the calls around an expression, not those before it.
#[test]
fn depth_falls_again() {
    let mut builder = Builder::new();
    builder.define("F", "down", 1, "I P C:down S P 1 0");
    let label = builder.define("V", "v", 1, "A C:down 63 C:down 63");
    let one = 5 + 6 * 63;
    assert_eq!(result_of(&builder.text(), label), [1, 0, 1 + 2 * one]);
    // The argument of a call is evaluated at the caller's depth.
    let mut builder = Builder::new();
    builder.define("F", "down", 1, "I P C:down S P 1 0");
    let label = builder.define("V", "v", 1, "C:down C:down 63");
    assert_eq!(result_of(&builder.text(), label), [1, 0, 1 + one + 3]);
}

#[test]
fn spent() {
    let mut builder = Builder::new();
    builder.define("F", "twice", 1, "A C:twice P C:twice P");
    builder.define("F", "tree", 1, "I P A C:tree S P 1 C:tree S P 1 1");
    let deep = builder.define("V", "deep", 1, "C:twice 1");
    let spent = builder.define("V", "spent", 1, "C:tree 40");
    let reader = builder.define("V", "reader", 1, "A 1 R:spent");
    let text = builder.text();
    // twice goes straight down its first operand: state 5 at depth 64.
    assert_eq!(result_of(&text, deep), [5, 0, 2 + 3 * 64]);
    assert_eq!(result_of(&text, spent), [4, 0, 20_000]);
    assert_eq!(result_of(&text, reader), [4, 0, 3]);
}

/// The allowance is fresh for each value.
#[test]
fn every_value_has_its_own_steps() {
    let mut builder = Builder::new();
    builder.define("F", "tree", 1, "I P A C:tree S P 1 C:tree S P 1 1");
    // Steps of a call on k: t(k) = 2 (C, N) + b(k); b(0) = 3 and
    // b(k) = 3 + 2 (4 + b(k - 1)), so b(k) + 11 doubles: 14, 28, ...
    let body = |k: u32| 14 * 2_i64.pow(k) - 11;
    let a = builder.define("V", "a", 1, "C:tree 10");
    let b = builder.define("V", "b", 1, "A R:a C:tree 10");
    let c = builder.define("V", "c", 1, "C:tree 11");
    let text = builder.text();
    assert_eq!(result_of(&text, a), [1, 1024, 2 + body(10)]);
    assert_eq!(result_of(&text, b), [1, 2048, 4 + body(10)]);
    assert_eq!(result_of(&text, c), [4, 0, 20_000]);
}

/// The deepest evaluation there is: 65 depths of 32 levels each.
#[test]
fn deepest_evaluation() {
    let mut builder = Builder::new();
    let down = "A 0 ".repeat(28) + "I P C:f S P 1 0";
    builder.define("F", "f", 1, &down);
    let body = "A 0 ".repeat(30) + "C:f 63";
    let label = builder.define("V", "v", 1, &body);
    let round = 2 * 28 + 6;
    let wanted = [1, 0, 2 * 30 + 2 + 63 * round + 2 * 28 + 3];
    assert_eq!(result_of(&builder.text(), label), wanted);
}
