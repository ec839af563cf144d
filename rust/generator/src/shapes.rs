//! Fixed sheets for speed figures and for small stacks: the worst shapes.

use crate::builder::{Builder, MAX_LINES};
use crate::first_lines::{under, EVEN};
use crate::letters::capital_paths;
use crate::long_names::{near_names, near_paths, one_hash, one_slot};
use crate::tangled::{
    every_second_in_ring, nested_tangle, ring, ring_among, rings, rings_in_every_second, tangled,
};

/// A sheet with a name to print beside its figures.
pub struct Shape {
    pub name: &'static str,
    pub text: Vec<u8>,
}

/// The worst shapes, most of them near 1,024 lines.
pub fn shapes() -> Vec<Shape> {
    let shape = |name, text| Shape { name, text };
    let mut shapes = vec![
        shape("flat Group of 500 values", flat(500)),
        shape("flat Group, paths in capitals", capital_paths(&flat(500))),
        shape("names that differ at their end", near_names(19)),
        shape("paths of eight such names", near_paths(360)),
        shape("names in one slot", one_slot(511)),
        shape("names of one hash", one_hash()),
        shape("chain of 500, forward", forward(500)),
        shape("chain of 500, backward", backward(500)),
        shape("500 nested Groups", nested(500)),
        shape("341 Groups with a value each", nested_values(341)),
        shape("1,023 nested Groups", empty_groups()),
        shape("dense through functions", dense(171)),
        shape("dense mentions", dense_mentions()),
        shape("many through one function", hub()),
        shape("two tangled Groups", tangled(500)),
        shape("two tangled among 300 others", ring_among(300)),
        shape("340 Groups in one ring", ring(340)),
        shape("127 rings of two", rings(127)),
        shape("tangle under 300 Groups", nested_tangle(300)),
        shape("every second Group in a ring", every_second_in_ring(340)),
        shape("rings in every second Group", rings_in_every_second(170)),
        shape("one value of 20,000 steps", spent(1)),
        shape("339 values of 20,000 steps", spent(339)),
        shape("deepest calls", deepest_calls()),
        shape("deepest nesting", deepest_nesting()),
        shape("500 short values", short_values(500)),
        shape("refusal 9 at label 1,024", late_refusal(9)),
        shape("refusal 15 at label 1,024", late_refusal(15)),
        shape("refusal 16 at label 1,023", late_refusal(16)),
    ];
    shapes.extend(endless_calls());
    shapes.extend(shapes_of_halves());
    shapes
}

/// Names of 16 bytes that differ only at their end.
pub fn long_name(number: usize) -> String {
    format!("decentration{number:04}")
}

/// One Group of values with long names, each reading the next, so the last
/// comes first.
pub fn flat(values: usize) -> Vec<u8> {
    chain(values, long_name, |value| value + 1)
}

/// Values that each read the one before: the plan is in label order.
pub fn forward(values: usize) -> Vec<u8> {
    chain(values, short_name, |value| value.wrapping_sub(1))
}

/// Values that each read the next: the plan is in label order from the end.
pub fn backward(values: usize) -> Vec<u8> {
    chain(values, short_name, |value| value + 1)
}

fn short_name(number: usize) -> String {
    format!("v{number}")
}

/// Values that each read another one, where there is one.
pub fn chain(values: usize, name: impl Fn(usize) -> String, other: fn(usize) -> usize) -> Vec<u8> {
    let mut builder = Builder::new();
    for value in 0..values {
        let body = match other(value) {
            other if other < values => format!("R:{}", name(other)),
            _ => "1".to_string(),
        };
        builder.value(&name(value), 1, &body);
    }
    builder.text()
}

/// Groups in each other; the innermost has values, about half as many, that
/// read the outermost one's.
pub fn nested(groups: usize) -> Vec<u8> {
    let mut builder = Builder::new();
    builder.value("far", 1, "7");
    let mut group = 1;
    for _ in 0..groups {
        group = builder.group("inner", group);
    }
    for value in 0..groups * 52 / 100 {
        builder.value(&short_name(value), group, "R:far");
    }
    builder.text()
}

/// Groups in each other with one value each, which reads that of the Group
/// inside it: every Group is needed before an earlier label. 341 fill a sheet.
pub fn nested_values(groups: usize) -> Vec<u8> {
    let mut builder = Builder::new();
    let mut group = 1;
    for place in 1..=groups {
        group = builder.group("inner", group);
        let body = if place < groups { "R:inner.v" } else { "1" };
        builder.value("v", group, body);
    }
    builder.text()
}

/// As many Groups in each other as a sheet can have.
fn empty_groups() -> Vec<u8> {
    let mut builder = Builder::new();
    for group in 1..MAX_LINES {
        builder.group("inner", group);
    }
    builder.text()
}

/// Values that each reach every earlier one through functions: a function for
/// each value reads it and calls the function before. 171 fill a sheet.
pub fn dense(values: usize) -> Vec<u8> {
    let mut builder = Builder::new();
    builder.value("v0", 1, "1");
    builder.function("f0", 1, "R:v0");
    for value in 1..values {
        let before = value - 1;
        builder.value(&short_name(value), 1, &format!("C:f{before} 1"));
        if value + 1 < values {
            let body = format!("C:f{before} R:v{value}");
            builder.function(&format!("f{value}"), 1, &body);
        }
    }
    builder.text()
}

/// Every value reads four of those after it.
fn dense_mentions() -> Vec<u8> {
    const VALUES: usize = 127;
    let mut builder = Builder::new();
    for value in 0..VALUES {
        let read = |step: usize| match value + step {
            other if other < VALUES => format!("R:{}", long_name(other)),
            _ => "1".to_string(),
        };
        let body = format!("S A {} {} A {} {}", read(1), read(2), read(7), read(31));
        builder.value(&long_name(value), 1, &body);
    }
    builder.text()
}

/// 200 values that call one function that reads 150 others.
fn hub() -> Vec<u8> {
    let mut builder = Builder::new();
    for value in 0..200 {
        builder.value(&format!("caller{value}"), 1, "C:hub 1");
    }
    builder.function("hub", 1, &reads(0, 150));
    for value in 0..60 {
        builder.value(&format!("read{value}"), 1, "2");
    }
    builder.text()
}

/// A balanced sum of reads; 60 different names.
fn reads(from: usize, to: usize) -> String {
    if to - from == 1 {
        return format!("R:read{}", from % 60);
    }
    let middle = (from + to) / 2;
    format!("A {} {}", reads(from, middle), reads(middle, to))
}

/// This many values, 339 at most, that spend all their steps.
pub fn spent(values: usize) -> Vec<u8> {
    let mut builder = Builder::new();
    builder.function("tree", 1, "I P A C:tree S P 1 C:tree S P 1 1");
    while builder.count() + 3 <= MAX_LINES && (builder.count() - 13) / 3 < values {
        let name = format!("v{}", builder.count());
        builder.value(&name, 1, "C:tree 60");
    }
    builder.text()
}

/// Calls at all 64 depths, each body nested to level 32, by as many values as
/// there is room for.
pub fn deepest_calls() -> Vec<u8> {
    let mut builder = Builder::new();
    let body = "A 0 ".repeat(28) + "I P C:down S P 1 1";
    builder.function("down", 1, &body);
    fill_with(&mut builder, &("A 0 ".repeat(30) + "C:down 63"));
    builder.text()
}

/// Values nested to level 32, as many as there is room for.
fn deepest_nesting() -> Vec<u8> {
    let mut builder = Builder::new();
    fill_with(&mut builder, &("A 1 ".repeat(31) + "1"));
    builder.text()
}

/// Values with this body, as many as there is room for.
fn fill_with(builder: &mut Builder, body: &str) {
    let lines = 1 + body.split(' ').count();
    while builder.count() + lines <= MAX_LINES {
        let name = format!("v{}", builder.count());
        builder.value(&name, 1, body);
    }
}

/// A function that calls itself at level 31 of its body, endlessly, for every
/// field that an expression can be nested in: the most of each kind that can be
/// under way at a time.
fn endless_calls() -> Vec<Shape> {
    let shape = |name, before: &str, inside: &str, after: &str| {
        let mut builder = Builder::new();
        let body = before.repeat(30) + inside + &after.repeat(30);
        builder.function("f", 1, &body);
        fill_with(&mut builder, &body.replace('P', "1"));
        let text = builder.text();
        Shape { name, text }
    };
    vec![
        shape("endless calls under a", "A ", "C:f P", " 0"),
        shape("endless calls under b", "M 1 ", "C:f P", ""),
        shape("endless calls under a test", "I ", "C:f P", " 0 0"),
        shape("endless calls under a branch", "I 1 ", "C:f P", " 0"),
        shape("endless calls under arguments", "C:f ", "C:f P", ""),
    ]
}

pub fn short_values(values: usize) -> Vec<u8> {
    let mut builder = Builder::new();
    for value in 0..values {
        builder.value(&short_name(value), 1, "1");
    }
    builder.text()
}

fn shapes_of_halves() -> [Shape; 3] {
    let (halves, in_calls) = (halves(676), halves_in_calls(320));
    let even = |text: &[u8]| under(EVEN, text);
    [
        ("676 halves to even", even(&halves)),
        ("676 halves away from zero", halves),
        ("halves in the deepest calls", even(&in_calls)),
    ]
    .map(|(name, text)| Shape { name, text })
}

/// Values of two quotients each that are halves, by a function: of either sign,
/// with an even number toward zero or an odd one, in no sequence that a processor
/// can foresee. 676 fill a sheet.
pub fn halves(quotients: usize) -> Vec<u8> {
    let mut builder = Builder::new();
    builder.function("both", 1, "S D P 2 D P -2");
    for value in 0..quotients / 2 {
        let odd = 2 * (value * 7_919 % 1_009) as i64 - 1_007;
        builder.value(&short_name(value), 1, &format!("C:both {odd}"));
    }
    builder.text()
}

/// This many values, 324 at most, that each call down 64 deep, with ten quotients at
/// every depth that are halves.
pub fn halves_in_calls(values: usize) -> Vec<u8> {
    let mut builder = Builder::new();
    let body = "A D P 2 ".repeat(10) + "I S P 1 C:down S P 2 0";
    builder.function("down", 1, &body);
    for value in 0..values {
        builder.value(&short_name(value), 1, "C:down 127");
    }
    builder.text()
}

/// 1,024 lines with nothing to refuse but this number (5 to 16) at the end:
/// at label 1,024, or 1,023 for 11 (the first of two operands) and 16 (the
/// value whose body is the last line).
pub fn late_refusal(number: u64) -> Vec<u8> {
    let mut builder = Builder::new();
    let body = match number {
        10 => "P".to_string(),
        11 => "A 1 ".repeat(32) + "1",
        13 => "R:nobody".to_string(),
        14 => "R:v1.nobody".to_string(),
        15 => "R:spare".to_string(),
        16 => "R:last".to_string(),
        _ => {
            fill(&mut builder, MAX_LINES - 1);
            builder.line(faulty_line(number));
            return builder.text();
        }
    };
    fill(&mut builder, MAX_LINES - 1 - body.split(' ').count());
    builder.value("last", 1, &body);
    builder.text()
}

/// Short values v1, v3, ... up to this many lines, and a Group if one is left.
fn fill(builder: &mut Builder, lines: usize) {
    while builder.count() + 2 <= lines {
        let name = format!("v{}", builder.count());
        builder.value(&name, 1, "1");
    }
    if builder.count() < lines {
        builder.group("spare", 1);
    }
}

fn faulty_line(number: u64) -> &'static str {
    match number {
        5 => "N - 1 -",
        6 => "X - - - -",
        7 => "N - 00 - -",
        8 => "A - 1 1 -",
        9 => "N - 1 - -",
        _ => "G v1 1 - -",
    }
}
