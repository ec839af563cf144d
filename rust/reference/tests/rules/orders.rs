//! Plans, whole and mixed, and rows 17 and 18 of Follow.

use reference::Order::{Mixed, Whole};

use crate::{followed, planned, rubbish, Builder};

/// "Ordering Groups by label when the later one is needed first."
#[test]
fn a_later_group_needed_first() {
    let mut builder = Builder::new();
    let first = builder.group("first", 1);
    let second = builder.group("second", 1);
    let a = builder.define("V", "a", first, "R:second.b") as i64;
    let c = builder.define("V", "c", first, "1") as i64;
    let b = builder.define("V", "b", second, "R:d") as i64;
    let d = builder.define("V", "d", second, "1") as i64;
    assert_eq!(planned(&builder.text()), Ok((vec![d, b, a, c], Whole)));
}

/// "Following only direct mentions, so that a value read inside a function
/// comes late."
#[test]
fn values_reached_through_functions() {
    let mut builder = Builder::new();
    let a = builder.define("V", "a", 1, "C:f 1") as i64;
    let b = builder.define("V", "b", 1, "2") as i64;
    builder.define("F", "f", 1, "C:g P");
    builder.define("F", "g", 1, "I 0 R:b C:f P");
    let text = builder.text();
    assert_eq!(planned(&text), Ok((vec![b, a], Whole)));
    assert_eq!(followed(&text, &[a, b]), Err((18, 1)));
    assert!(followed(&text, &[b, a]).is_ok());
}

/// A Group that is reached only through a function elsewhere; functions are
/// members that need nothing.
#[test]
fn needs_of_groups_and_functions() {
    let mut builder = Builder::new();
    let left = builder.group("left", 1);
    let right = builder.group("right", 1);
    let v = builder.define("V", "v", left, "C:right.f 1") as i64;
    let w = builder.define("V", "w", right, "C:left.f 1") as i64;
    builder.define("F", "f", left, "P");
    builder.define("F", "f", right, "P");
    assert_eq!(planned(&builder.text()), Ok((vec![v, w], Whole)));
}

/// A nested Group that is stuck makes the plan mixed.
#[test]
fn a_nested_group_gets_stuck() {
    let mut builder = Builder::new();
    let g = builder.group("g", 1);
    let left = builder.group("left", g);
    let right = builder.group("right", g);
    let a = builder.define("V", "a", left, "R:right.b") as i64;
    let c = builder.define("V", "c", left, "1") as i64;
    let b = builder.define("V", "b", right, "1") as i64;
    let d = builder.define("V", "d", right, "R:left.c") as i64;
    let z = builder.define("V", "z", 1, "1") as i64;
    assert_eq!(planned(&builder.text()), Ok((vec![c, b, a, d, z], Mixed)));
}

/// A value between two values of another Group: no whole order.
#[test]
fn a_group_split_by_an_outer_value() {
    let mut builder = Builder::new();
    let g = builder.group("g", 1);
    let a = builder.define("V", "a", g, "R:x") as i64;
    let b = builder.define("V", "b", g, "1") as i64;
    let x = builder.define("V", "x", 1, "R:g.b") as i64;
    assert_eq!(planned(&builder.text()), Ok((vec![b, x, a], Mixed)));
}

fn chain() -> (Vec<u8>, [i64; 3]) {
    let mut builder = Builder::new();
    let a = builder.define("V", "a", 1, "R:b") as i64;
    let b = builder.define("V", "b", 1, "R:c") as i64;
    let c = builder.define("V", "c", 1, "7") as i64;
    builder.define("F", "f", 1, "P");
    (builder.text(), [a, b, c])
}

#[test]
fn row_17_listed_once() {
    let (text, [a, b, c]) = chain();
    let wide = 1_i64 << 32;
    for other in [
        0,
        1,
        -1,
        3,
        8,
        9,
        10,
        11,
        i64::MIN,
        i64::MAX,
        c + wide,
        c - wide,
    ] {
        assert_eq!(followed(&text, &[other]), Err((17, 1)), "{other}");
        assert_eq!(followed(&text, &[c, other, a]), Err((17, 2)), "{other}");
        assert_eq!(followed(&text, &[c, b, a, other]), Err((17, 4)), "{other}");
    }
    assert_eq!(followed(&text, &[c, c, a]), Err((17, 2)));
    assert_eq!(followed(&text, &[c, b, a, b, a]), Err((17, 4)));
    assert_eq!(followed(&text, &[]), Err((17, 1)));
    assert_eq!(followed(&text, &[c, b]), Err((17, 3)));
    assert_eq!(followed(&text, &[c]), Err((17, 2)));
    // Row 17 wins over row 18 at an earlier position.
    assert_eq!(followed(&text, &[a, b, c, c]), Err((17, 4)));
    assert_eq!(followed(&text, &[a, b]), Err((17, 3)));
}

#[test]
fn row_18_reached_earlier() {
    let (text, [a, b, c]) = chain();
    assert_eq!(followed(&text, &[a, b, c]), Err((18, 1)));
    assert_eq!(followed(&text, &[c, a, b]), Err((18, 2)));
    assert_eq!(followed(&text, &[b, c, a]), Err((18, 1)));
    let results = followed(&text, &[c, b, a]).expect("a proper order");
    assert_eq!(results[3..6], [1, 7, 1]);
}

/// Any proper order gives Run's results.
#[test]
fn a_proper_order_other_than_the_plan() {
    let mut builder = Builder::new();
    let a = builder.define("V", "a", 1, "A R:c 1") as i64;
    let b = builder.define("V", "b", 1, "D 1 0") as i64;
    let c = builder.define("V", "c", 1, "5") as i64;
    let d = builder.define("V", "d", 1, "R:b") as i64;
    let text = builder.text();
    assert_eq!(planned(&text), Ok((vec![b, c, a, d], Whole)));
    let run = {
        let mut buffers = [rubbish(8 * 1024), rubbish(1024), rubbish(3 * 1024)];
        let [table, plan, results] = &mut buffers;
        assert!(reference::run(&text, table, plan, results).is_ok());
        results.clone()
    };
    for order in [[b, c, a, d], [c, a, b, d], [b, d, c, a], [c, b, d, a]] {
        assert_eq!(followed(&text, &order).as_ref(), Ok(&run), "{order:?}");
    }
}

#[test]
fn follow_on_an_empty_plan() {
    let text = Builder::new().text();
    assert_eq!(followed(&text, &[]), Ok(vec![0; 3 * 1024]));
    assert_eq!(followed(&text, &[1]), Err((17, 1)));
}

#[test]
fn follow_refuses_cycles_before_its_order() {
    let mut builder = Builder::new();
    builder.define("V", "a", 1, "R:a");
    assert_eq!(followed(&builder.text(), &[99]), Err((16, 2)));
}

/// As many Groups in each other as a sheet can hold, and a value inside.
#[test]
fn deepest_groups() {
    let mut builder = Builder::new();
    let mut group = 1;
    for _ in 0..1_021 {
        group = builder.group("g", group);
    }
    let value = builder.define("V", "v", group, "5") as i64;
    let text = builder.text();
    assert_eq!(planned(&text), Ok((vec![value], Whole)));
    assert_eq!(crate::result_of(&text, value as usize), [1, 5, 1]);
}
