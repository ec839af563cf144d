//! What is said of each file, and in the end of all.

use lindypo::Refusal;

use super::files::Item;
use super::summary::Summary;
use super::verdict::{Failed, Verdict};
use crate::input::Source;
use crate::json::{Json, Object};
use crate::output::{Output, Paint};
use crate::sheets;
use crate::status::Status;
use crate::values;
use crate::words::Field;

/// The JSON of a checked file, and of the summary, which is the last line.
pub const FIELDS: [Field; 22] = [
    (
        "faults",
        "with --all: every fault of the sheet, with the fields of a refusal",
    ),
    ("order", "whole or mixed"),
    ("count", "how many values the sheet has"),
    ("failed", "its values without a number:"),
    ("failed.label", "its label"),
    ("failed.name", "its full name"),
    ("failed.line", "the line that it stands in, from 1"),
    ("failed.column", "the column of its name, from 1"),
    (
        "failed.state",
        "2 out of range, 3 a zero divisor, 4 out of steps, 5 too deep",
    ),
    ("failed.failure", "the same in words"),
    ("failed.steps", "the steps that it took"),
    ("skipped", "why the file is not taken from its folder"),
    (
        "summary",
        "in the last line, without a file; its status is that of the command:",
    ),
    ("summary.sheets", "how many sheets were read"),
    ("summary.whole", "answered with a whole plan"),
    ("summary.mixed", "answered with a mixed plan"),
    ("summary.refused", "refused"),
    (
        "summary.unreadable",
        "files and folders that cannot be read",
    ),
    (
        "summary.skipped",
        "files that are not taken from their folder",
    ),
    ("summary.count", "how many values the answered sheets have"),
    ("summary.numbers", "how many of them have a number"),
    ("summary.steps", "the steps of all values"),
];

pub struct Report {
    is_json: bool,
    summary: Summary,
    status: Status,
    /// Lines about files that are not taken: they follow all that is wrong.
    skipped: String,
    /// Whether a line stands above the summary.
    has_lines: bool,
}

impl Report {
    pub fn new(is_json: bool) -> Self {
        Report {
            is_json,
            summary: Summary::default(),
            status: Status::Answered,
            skipped: String::new(),
            has_lines: false,
        }
    }

    /// One file more.
    pub fn add(&mut self, item: &Item, verdict: &Verdict, out: &mut Output) {
        let source = item.source();
        let file = source.title();
        self.summary.add(&file, verdict);
        self.status = self.status.max(verdict.status());
        match self.is_json {
            true => out.print(&format!("{}\n", object(&source, verdict))),
            false => self.add_lines(&file, verdict, out),
        }
        if let Verdict::Unreadable(reason) = verdict {
            out.complain(&format!("{file}: {reason}"));
        }
    }

    fn add_lines(&mut self, file: &str, verdict: &Verdict, out: &mut Output) {
        let lines = lines(file, verdict, out.paint);
        self.has_lines |= !lines.is_empty();
        match verdict {
            Verdict::Skipped(_) => self.skipped += &lines,
            _ => out.print(&lines),
        }
    }

    /// What is said of all.
    pub fn end(self, out: &mut Output) -> Status {
        if self.is_json {
            let object = Object::new()
                .with("status", u64::from(self.status.code()))
                .with("summary", self.summary.object());
            out.print(&format!("{object}\n"));
        } else {
            let gap = if self.has_lines { "\n" } else { "" };
            let skipped = out.paint.faint(&self.skipped);
            out.print(&format!("{skipped}{gap}{}", self.summary.text()));
        }
        self.status
    }
}

/// A line for all that is wrong with a file, or one that it is not taken.
fn lines(file: &str, verdict: &Verdict, paint: Paint) -> String {
    match verdict {
        Verdict::Answered(figures) => {
            let failed = figures.failed.iter();
            failed
                .map(|failed| failed_line(file, failed, paint))
                .collect()
        }
        Verdict::Refused(refusal, faults) => {
            let faults = faults.as_deref().unwrap_or(std::slice::from_ref(refusal));
            let faults = faults.iter();
            faults
                .map(|fault| refusal_line(file, fault, paint))
                .collect()
        }
        Verdict::Skipped(reason) => format!("{file}: not taken: {reason}\n"),
        Verdict::Unreadable(_) => String::new(),
    }
}

fn refusal_line(file: &str, refusal: &Refusal, paint: Paint) -> String {
    let place = refusal
        .mark()
        .map(|mark| format!(":{}:{}", mark.line, mark.column));
    let place = place.unwrap_or_default();
    let number = paint.bad(&format!("refusal {}", refusal.number()));
    format!("{file}{place}: {number}: {}\n", refusal.sentence())
}

fn failed_line(file: &str, failed: &Failed, paint: Paint) -> String {
    let (line, column) = (failed.label + 1, failed.column);
    let state = paint.bad(&failed.outcome.state.to_string());
    format!("{file}:{line}:{column}: value {}: {state}\n", failed.name)
}

fn object(source: &Source, verdict: &Verdict) -> Object {
    let object = sheets::object(source, verdict.status());
    match verdict {
        Verdict::Answered(figures) => object
            .with("order", figures.order.to_string())
            .with("count", figures.count())
            .with(
                "failed",
                figures.failed.iter().map(failed_object).collect::<Json>(),
            ),
        Verdict::Refused(refusal, faults) => {
            let all = |faults: &Vec<_>| faults.iter().map(sheets::refusal_object).collect::<Json>();
            object
                .with("refusal", sheets::refusal_object(refusal))
                .with_some("faults", faults.as_ref().map(all))
        }
        Verdict::Skipped(reason) => object.with("skipped", *reason),
        Verdict::Unreadable(reason) => object.with("error", reason.as_str()),
    }
}

fn failed_object(failed: &Failed) -> Object {
    values::name_object(failed.label, &failed.name)
        .with("column", failed.column)
        .and(values::outcome_object(failed.outcome))
}
