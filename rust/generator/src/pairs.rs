//! Lists of pairs for Retouch (order 4): label, number, label, number.

use crate::first_lines::first_line;
use crate::rng::Rng;
use crate::rows;

/// The most pairs of a list that is answered, and the limit of a number.
const MOST_PAIRS: usize = 1_024;
const MOST_NUMBER: i64 = 1_000_000_000;

/// The kind of an N line.
const NUMBER: i64 = 4;

/// A list of pairs for a text: most often of its own N lines with numbers that
/// are allowed, so that values fail and recover; some with faults; and anything.
pub fn pairs(rng: &mut Rng, text: &[u8]) -> Vec<i64> {
    let lines = crate::line_count(text);
    let mut table = vec![0; 8 * lines];
    let reads = reference::read(text, &mut table).is_ok();
    let labels = number_labels(&table);
    if !reads || labels.is_empty() || rng.chance(4) {
        return wild(rng, lines);
    }
    let mut list = proper(rng, &mut table, &labels);
    while rng.chance(22) {
        spoil(rng, &mut list, lines);
    }
    list
}

/// The labels of the N lines of a table.
pub fn number_labels(table: &[i64]) -> Vec<i64> {
    let kinds = table.iter().step_by(8).zip(1..);
    let numbers = kinds.filter(|&(&kind, _)| kind == NUMBER);
    numbers.map(|(_, label)| label).collect()
}

/// The text with the numbers of a list of pairs put into their lines in turn, in
/// decimal; line one stays.
pub fn put_numbers(text: &[u8], pairs: &[i64]) -> Vec<u8> {
    let mut rows = rows::split(text).expect("lines of five fields");
    for pair in pairs.chunks_exact(2) {
        rows[pair[0] as usize - 1][2] = pair[1].to_string().into_bytes();
    }
    rows::join_under(first_line(text), &rows)
}

/// How many pairs: a few, none, as many as there may be and one more.
fn count(rng: &mut Rng) -> usize {
    match rng.below(200) {
        0 => MOST_PAIRS,
        1..=2 => MOST_PAIRS + 1,
        3 => MOST_PAIRS + 1 + rng.below(70),
        4..=9 => 0,
        10..=59 => 1,
        60..=69 => rng.range(10, 60),
        _ => rng.range(2, 10),
    }
}

/// Pairs that are allowed, of one N line over and over, of a few, or of any.
fn proper(rng: &mut Rng, table: &mut [i64], labels: &[i64]) -> Vec<i64> {
    let few: Vec<i64> = (0..rng.range(1, 3)).map(|_| *rng.pick(labels)).collect();
    let labels = if rng.chance(50) { &few[..] } else { labels };
    let mut list = Vec::new();
    for _ in 0..count(rng) {
        let label = *rng.pick(labels);
        let cell = &mut table[8 * (label as usize - 1) + 3];
        *cell = number(rng, *cell);
        list.extend([label, *cell]);
    }
    list
}

/// A number that is allowed: the one that is there, one that divides nothing, one
/// whose sums leave the range, the next to the one that is there, whose half is a
/// half where its is none, a small one, or any.
fn number(rng: &mut Rng, now: i64) -> i64 {
    let small = rng.below(41) as i64 - 20;
    let any = rng.below(2_000_000_001) as i64 - MOST_NUMBER;
    match rng.below(16) {
        0..=2 => now,
        3..=5 => 0,
        6..=7 => *rng.pick(&[MOST_NUMBER, -MOST_NUMBER, MOST_NUMBER - 1]),
        8 => -now,
        9 => any,
        10..=11 => (now + *rng.pick(&[1, -1])).clamp(-MOST_NUMBER, MOST_NUMBER),
        _ => small,
    }
}

/// One fault in a list, or two in one pair.
fn spoil(rng: &mut Rng, list: &mut Vec<i64>, lines: usize) {
    if list.is_empty() {
        list.push(label(rng, lines));
        return;
    }
    let pair = 2 * rng.below(list.len().div_ceil(2));
    let faults = rng.below(8);
    if faults == 0 {
        list.pop();
        return;
    }
    if faults == 1 {
        list.push(label(rng, lines));
        return;
    }
    if faults <= 5 {
        list[pair] = label(rng, lines);
    }
    if let Some(cell) = list.get_mut(pair + 1).filter(|_| faults >= 5) {
        *cell = wrong_number(rng);
    }
}

/// A label, most often of no N line.
fn label(rng: &mut Rng, lines: usize) -> i64 {
    let inside = rng.range(1, lines.max(1)) as i64;
    match rng.below(12) {
        0 => 0,
        1 => lines as i64 + 1,
        2 => -inside,
        3 => inside + (1 << 32),
        4 => inside.wrapping_add(i64::MIN),
        5 => *rng.pick(&[i64::MIN, i64::MAX, -1]),
        6 => rng.word() as i64,
        _ => inside,
    }
}

/// A number out of range, just so or by far.
fn wrong_number(rng: &mut Rng) -> i64 {
    let near = MOST_NUMBER + 1;
    let edges = [near, -near, i64::MIN, i64::MAX, 1 << 32, -(1 << 32)];
    match rng.below(8) {
        0 => i64::MIN + rng.below(1_000) as i64,
        1 => (1 << 32) + rng.below(1_000) as i64,
        _ => *rng.pick(&edges),
    }
}

/// Any list, with cells of any sort.
fn wild(rng: &mut Rng, lines: usize) -> Vec<i64> {
    let length = match rng.below(20) {
        0 => 2 * MOST_PAIRS + rng.below(4),
        _ => rng.below(8),
    };
    (0..length)
        .map(|at| match at % 2 {
            0 => label(rng, lines),
            _ if rng.chance(20) => wrong_number(rng),
            _ => number(rng, at as i64),
        })
        .collect()
}
