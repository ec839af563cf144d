//! Broken sheets, and all that is said of each: `mending.txt`.
//!
//! A case is a title after `# `, the sheet, and what is said. A line of the
//! sheet begins with `> `, or with `| ` where it has no line end; `\` escapes
//! bytes as in Rust. A fault is a line as it is printed, its hints are beneath
//! it, each after the place that it is about, if that is another.

mod common;

use lindypo::{faults, Refusal, Sheet};

const CASES: &str = include_str!("mending.txt");

struct Case<'a> {
    title: &'a str,
    text: Vec<u8>,
    said: String,
}

impl<'a> Case<'a> {
    fn new(block: &'a str) -> Self {
        let mut case = Case {
            title: "",
            text: vec![],
            said: String::new(),
        };
        for line in block.lines() {
            match line.get(..2).unwrap_or_default() {
                "# " => case.title = &line[2..],
                "> " => case.text.extend(bytes(&line[2..]).chain([b'\n'])),
                "| " => case.text.extend(bytes(&line[2..])),
                _ => case.said += &format!("{line}\n"),
            }
        }
        case
    }
}

/// A line with its escapes undone.
fn bytes(line: &str) -> impl Iterator<Item = u8> + '_ {
    let mut rest = line.bytes();
    std::iter::from_fn(move || match rest.next()? {
        b'\\' => Some(match rest.next().expect("an escape") {
            b'r' => b'\r',
            b't' => b'\t',
            b'0' => 0,
            b'x' => {
                let digits = [rest.next(), rest.next()].map(|digit| digit.expect("a digit"));
                let digits = std::str::from_utf8(&digits).expect("digits");
                u8::from_str_radix(digits, 16).expect("a byte")
            }
            other => other,
        }),
        byte => Some(byte),
    })
}

/// A fault and its hints.
fn shown(fault: &Refusal) -> String {
    let mut words = format!("{fault}\n");
    for help in fault.help() {
        let place = help.mark.map_or(String::new(), |mark| {
            format!("{}:{}+{}: ", mark.line, mark.column, mark.width)
        });
        words += &format!("    {place}{}\n", help.sentence);
    }
    words
}

#[test]
fn broken_sheets() {
    let cases: Vec<Case> = CASES.split("\n\n").map(Case::new).collect();
    assert!(cases.len() >= 140, "{} sheets", cases.len());
    for case in &cases {
        let run = Sheet::read(&case.text).and_then(|sheet| sheet.run());
        let (first, faults) = (run.expect_err(case.title), faults(&case.text));
        assert_eq!(faults.first(), Some(&first), "{}", case.title);
        for fault in &faults {
            common::is_in_text(&case.text, fault);
        }
        let said: String = faults.iter().map(shown).collect();
        assert_eq!(said, case.said, "{}", case.title);
    }
}

/// Every refusal that a sheet can have is among them.
#[test]
fn all_refusals() {
    let said: Vec<&str> = CASES
        .lines()
        .filter(|line| line.starts_with("refusal "))
        .collect();
    for number in (1..=16).filter(|&number| number != 4) {
        let starts = [format!("refusal {number},"), format!("refusal {number}:")];
        let is_said = |line: &&&str| starts.iter().any(|start| line.starts_with(start.as_str()));
        assert!(said.iter().any(|line| is_said(&line)), "refusal {number}");
    }
}
