//! The rules of documents 01 and 02, case by case.

mod buffers;
mod evaluation;
mod halves;
mod letters;
mod orders;
mod refusals;
mod retouching;
mod samples;
mod tangles;

use reference::{Order, Refusal};

/// A sheet from the lines after line one.
fn sheet(lines: &str) -> Vec<u8> {
    let mut text = b"kind name a b c\n".to_vec();
    for line in lines.trim_matches('\n').lines() {
        text.extend_from_slice(line.trim_start().as_bytes());
        text.push(b'\n');
    }
    text
}

/// A sheet put together line by line. Expressions are written operator first:
/// `A C:f 1 R:x.y` adds f of 1 and the value x.y.
struct Builder {
    lines: Vec<String>,
}

impl Builder {
    fn new() -> Self {
        Builder {
            lines: vec!["G - 0 - -".to_string()],
        }
    }

    /// Adds a line and gives its label.
    fn line(&mut self, line: &str) -> usize {
        self.lines.push(line.to_string());
        self.lines.len()
    }

    fn group(&mut self, name: &str, group: usize) -> usize {
        self.line(&format!("G {name} {group} - -"))
    }

    /// Adds a V or F and its body; gives its label.
    fn define(&mut self, kind: &str, name: &str, group: usize, body: &str) -> usize {
        let label = self.line("");
        let body = self.expression(&mut body.split(' '));
        self.lines[label - 1] = format!("{kind} {name} {group} {body} -");
        label
    }

    fn expression<'a>(&mut self, words: &mut impl Iterator<Item = &'a str>) -> usize {
        let word = words.next().expect("an operand");
        let label = self.line("");
        let (kind, path) = word.split_once(':').unwrap_or((word, "-"));
        let operands = match kind {
            "C" => 1,
            "A" | "S" | "M" | "D" => 2,
            "I" => 3,
            _ => 0,
        };
        let mut line = match kind.parse::<i64>() {
            Ok(number) => format!("N - {number}"),
            Err(_) => format!("{kind} {path}"),
        };
        for _ in 0..operands {
            line += &format!(" {}", self.expression(words));
        }
        while line.split(' ').count() < 5 {
            line += " -";
        }
        self.lines[label - 1] = line;
        label
    }

    fn text(&self) -> Vec<u8> {
        sheet(&self.lines.join("\n"))
    }
}

/// A buffer long enough for anything, full of rubbish.
fn rubbish(length: usize) -> Vec<i64> {
    (0..length as i64).map(|cell| cell * 7 - 3).collect()
}

/// What a call wrote, zeros at the end left out.
fn used(cells: &[i64]) -> &[i64] {
    let length = cells.iter().rposition(|&cell| cell != 0);
    &cells[..length.map_or(0, |last| last + 1)]
}

fn read_refusal(text: &[u8]) -> Option<(u64, u64)> {
    let mut table = rubbish(8 * 1024);
    let refusal = reference::read(text, &mut table).err();
    if refusal.is_some() {
        assert!(table.iter().all(|&cell| cell == 0));
    }
    refusal.map(pair)
}

#[track_caller]
fn refuses(lines: &str, number: u64, place: u64) {
    assert_eq!(read_refusal(&sheet(lines)), Some((number, place)));
}

#[track_caller]
fn reads(lines: &str) {
    assert_eq!(read_refusal(&sheet(lines)), None);
}

fn pair(refusal: Refusal) -> (u64, u64) {
    (refusal.number, refusal.place)
}

/// The plan and its order.
fn planned(text: &[u8]) -> Result<(Vec<i64>, Order), (u64, u64)> {
    let (mut table, mut plan) = (rubbish(8 * 1024), rubbish(1024));
    let (length, order) = reference::plan(text, &mut table, &mut plan).map_err(pair)?;
    assert!(plan[length..].iter().all(|&cell| cell == 0));
    Ok((plan[..length].to_vec(), order))
}

/// State, number and steps of one label after Run.
fn result_of(text: &[u8], label: usize) -> [i64; 3] {
    let mut buffers = [rubbish(8 * 1024), rubbish(1024), rubbish(3 * 1024)];
    let [table, plan, results] = &mut buffers;
    reference::run(text, table, plan, results).expect("a sheet that runs");
    let at = 3 * (label - 1);
    [results[at], results[at + 1], results[at + 2]]
}

/// Follow's results by label, or its refusal.
fn followed(text: &[u8], order: &[i64]) -> Result<Vec<i64>, (u64, u64)> {
    let (mut table, mut results) = (rubbish(8 * 1024), rubbish(3 * 1024));
    match reference::follow(text, order, &mut table, &mut results) {
        Ok(length) => {
            assert_eq!(length, order.len());
            Ok(results)
        }
        Err(refusal) => {
            assert!(table.iter().chain(&results).all(|&cell| cell == 0));
            Err(pair(refusal))
        }
    }
}
