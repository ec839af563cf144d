//! What the calls are lent besides the text: buffer lengths, a label, orders.

use crate::rng::Rng;

/// No print has more bytes.
const MOST_PRINT: usize = 36 + 48 * 1_024;

/// A length for a buffer that needs this many cells: most often enough.
pub fn buffer_length(rng: &mut Rng, cells: usize) -> usize {
    match rng.below(100) {
        0 => 0,
        1..=2 => cells.saturating_sub(1),
        3 => rng.below(cells + 1),
        4..=9 => cells + 1,
        10..=19 => cells + rng.below(64),
        _ => cells,
    }
}

/// A length in bytes for the print of a text: none, a part of it, one byte less
/// and more than it needs, the most that any needs.
pub fn print_length(rng: &mut Rng, text: &[u8]) -> usize {
    let whole = reference::print(text).len();
    match rng.below(10) {
        0 => 0,
        1 => whole - 1,
        2..=4 => rng.below(whole),
        5 => whole + 1,
        6 => whole + rng.below(64),
        7 => MOST_PRINT,
        _ => whole,
    }
}

/// A label for Name, most often of a line.
pub fn label(rng: &mut Rng, lines: usize) -> i64 {
    let inside = rng.below(lines + 1) as i64;
    let wild = rng.word() as i64;
    match rng.below(20) {
        0 => wild,
        1 => 0,
        2 => lines as i64 + 1,
        3 => -inside,
        4 => inside + (1 << 32),
        5 => *rng.pick(&[i64::MIN, i64::MAX, -1]),
        _ => inside,
    }
}

/// A list for Follow: proper orders, nearly proper ones, and anything.
pub fn order(rng: &mut Rng, text: &[u8]) -> Vec<i64> {
    let lines = crate::line_count(text);
    let mut table = vec![0; 8 * lines];
    if reference::read(text, &mut table).is_err() {
        return wild(rng, lines);
    }
    let values = values(&table);
    match rng.below(20) {
        0..=6 => proper(rng, &table, &values),
        7..=9 => planned(text),
        10..=14 => {
            let mut order = proper(rng, &table, &values);
            spoil(rng, &mut order, lines);
            order
        }
        15 => values.iter().map(|&at| at as i64 + 1).collect(),
        16..=17 => {
            let mut order: Vec<i64> = values.iter().map(|&at| at as i64 + 1).collect();
            rng.shuffle(&mut order);
            order
        }
        _ => wild(rng, lines),
    }
}

/// A proper order of a sheet that has one, any of them.
pub fn proper_order(rng: &mut Rng, text: &[u8]) -> Vec<i64> {
    let lines = crate::line_count(text);
    let mut table = vec![0; 8 * lines];
    reference::read(text, &mut table).expect("a sheet that reads");
    proper(rng, &table, &values(&table))
}

/// The lines of the values; lines count from 0 here.
pub fn values(table: &[i64]) -> Vec<usize> {
    let lines = table.len() / 8;
    (0..lines).filter(|&at| table[8 * at] == 2).collect()
}

/// The labels of the reference's plan; none where it refuses.
pub fn planned(text: &[u8]) -> Vec<i64> {
    let lines = crate::line_count(text);
    let (mut table, mut plan) = (vec![0; 8 * lines], vec![0; lines]);
    let answer = reference::plan(text, &mut table, &mut plan);
    plan.truncate(answer.map_or(0, |(length, _)| length));
    plan
}

/// One fault in an order.
fn spoil(rng: &mut Rng, order: &mut Vec<i64>, lines: usize) {
    let extra = rng.range(0, lines + 1) as i64;
    if order.is_empty() {
        order.push(extra);
        return;
    }
    let at = rng.below(order.len());
    let other = rng.below(order.len());
    match rng.below(7) {
        0 => {
            order.remove(at);
        }
        1 => order.push(order[at]),
        2 => order.insert(at, extra),
        3 => order[at] = *rng.pick(&[0, -1, extra, i64::MIN, i64::MAX]),
        4 => order[at] += 1 << 32,
        _ => order.swap(at, other),
    }
}

fn wild(rng: &mut Rng, lines: usize) -> Vec<i64> {
    let length = rng.below(lines + 3);
    (0..length)
        .map(|_| match rng.below(10) {
            0 => rng.word() as i64,
            1 => *rng.pick(&[0, -1, i64::MIN, i64::MAX]),
            _ => rng.range(0, lines + 1) as i64,
        })
        .collect()
}

/// A proper order by random choice among the values that are ready; cut short
/// if values reach themselves.
fn proper(rng: &mut Rng, table: &[i64], values: &[usize]) -> Vec<i64> {
    let lines = table.len() / 8;
    let mentions = mentions(table);
    let mut unmet = vec![0; lines];
    let mut waiting = vec![Vec::new(); lines];
    for &value in values {
        for needed in next_values(table, &mentions, value) {
            unmet[value] += 1;
            waiting[needed].push(value);
        }
    }
    let mut ready: Vec<usize> = values.iter().copied().filter(|&v| unmet[v] == 0).collect();
    let mut order = Vec::with_capacity(values.len());
    while !ready.is_empty() {
        let value = ready.swap_remove(rng.below(ready.len()));
        order.push(value as i64 + 1);
        for &waits in &waiting[value] {
            unmet[waits] -= 1;
            if unmet[waits] == 0 {
                ready.push(waits);
            }
        }
    }
    order
}

/// What each definition mentions; lines count from 0 here, too.
pub fn mentions(table: &[i64]) -> Vec<Vec<usize>> {
    let mut mentions = vec![Vec::new(); table.len() / 8];
    for line in table.chunks_exact(8).filter(|line| line[7] != 0) {
        mentions[line[6] as usize - 1].push(line[7] as usize - 1);
    }
    mentions
}

/// The values that a value mentions itself or through functions alone.
fn next_values(table: &[i64], mentions: &[Vec<usize>], value: usize) -> Vec<usize> {
    let mut met = vec![false; mentions.len()];
    let mut open = vec![value];
    let mut found = Vec::new();
    while let Some(definition) = open.pop() {
        for &target in &mentions[definition] {
            if !std::mem::replace(&mut met[target], true) {
                let is_value = table[8 * target] == 2;
                if is_value { &mut found } else { &mut open }.push(target);
            }
        }
    }
    found
}
