//! Sheets put together line by line, for fixed shapes.

use crate::first_lines::AWAY;

pub const MAX_LINES: usize = 1_024;

/// Expressions are written operator first: `A C:f 1 R:x.y` adds f of 1 and the
/// value x.y.
pub struct Builder {
    lines: Vec<String>,
}

impl Builder {
    pub fn new() -> Self {
        Builder {
            lines: vec!["G - 0 - -".to_string()],
        }
    }

    /// The number of lines so far, which is the last label.
    pub fn count(&self) -> usize {
        self.lines.len()
    }

    /// Adds a line and gives its label.
    pub fn line(&mut self, line: impl Into<String>) -> usize {
        self.lines.push(line.into());
        self.count()
    }

    pub fn group(&mut self, name: &str, group: usize) -> usize {
        self.line(format!("G {name} {group} - -"))
    }

    pub fn value(&mut self, name: &str, group: usize, body: &str) -> usize {
        self.define('V', name, group, body)
    }

    pub fn function(&mut self, name: &str, group: usize, body: &str) -> usize {
        self.define('F', name, group, body)
    }

    fn define(&mut self, kind: char, name: &str, group: usize, body: &str) -> usize {
        let label = self.line("");
        let body = self.expression(&mut body.split(' '));
        self.lines[label - 1] = format!("{kind} {name} {group} {body} -");
        label
    }

    fn expression<'a>(&mut self, words: &mut impl Iterator<Item = &'a str>) -> usize {
        let word = words.next().expect("an operand");
        let label = self.line("");
        let (kind, path) = word.split_once(':').unwrap_or((word, "-"));
        let operands = match kind {
            "C" => 1,
            "A" | "S" | "M" | "D" => 2,
            "I" => 3,
            _ => 0,
        };
        let mut line = match kind.parse::<i64>() {
            Ok(number) => format!("N - {number} - -"),
            Err(_) => format!("{kind} {path}"),
        };
        for _ in 0..operands {
            line += &format!(" {}", self.expression(words));
        }
        if kind.parse::<i64>().is_err() {
            line += &" -".repeat(3 - operands);
        }
        self.lines[label - 1] = line;
        label
    }

    /// The sheet, halves away from zero.
    pub fn text(&self) -> Vec<u8> {
        let mut text = AWAY.to_vec();
        for line in &self.lines {
            text.push(b'\n');
            text.extend_from_slice(line.as_bytes());
        }
        text.push(b'\n');
        text
    }
}
