//! What many sheets come to.

use lindypo::Order;

use super::verdict::{Figures, States, Verdict};
use crate::json::Object;
use crate::numerals::{counted, grouped};
use crate::rules::{self, RULES};
use crate::values::{self, FAILURES};

#[derive(Debug, Default, Clone, PartialEq, Eq)]
pub struct Summary {
    pub whole: u64,
    pub mixed: u64,
    /// By refusal: how many sheets, and the first file among them.
    pub refused: [Refused; RULES.len()],
    /// Values in each state, and the steps of all.
    pub states: States,
    pub steps: u64,
    /// Files, and why they cannot be read.
    pub unreadable: Vec<(String, String)>,
    /// Files of a folder that are not taken.
    pub skipped: u64,
}

#[derive(Debug, Default, Clone, PartialEq, Eq)]
pub struct Refused {
    pub count: u64,
    pub example: Option<String>,
}

impl Summary {
    /// One file more; `file` is what to call it.
    pub fn add(&mut self, file: &str, verdict: &Verdict) {
        match verdict {
            Verdict::Answered(figures) => self.add_figures(figures),
            Verdict::Refused(refusal, _) => {
                let refused = &mut self.refused[refusal.number() as usize - 1];
                refused.count += 1;
                refused.example.get_or_insert(file.to_string());
            }
            Verdict::Unreadable(reason) => {
                self.unreadable.push((file.to_string(), reason.clone()));
            }
            Verdict::Skipped(_) => self.skipped += 1,
        }
    }

    fn add_figures(&mut self, figures: &Figures) {
        self.whole += u64::from(figures.order == Order::Whole);
        self.mixed += u64::from(figures.order == Order::Mixed);
        for (sum, count) in self.states.iter_mut().zip(figures.states) {
            *sum += count;
        }
        self.steps += figures.steps;
    }

    fn refusals(&self) -> u64 {
        self.refused.iter().map(|refused| refused.count).sum()
    }

    fn sheets(&self) -> u64 {
        self.whole + self.mixed + self.refusals()
    }

    fn values(&self) -> u64 {
        self.states.iter().sum()
    }

    /// "32 sheets, 18 of them refused; 15 of 20 values have a number".
    fn headline(&self) -> String {
        let sheets = counted(self.sheets(), "sheet");
        let values = values::headline(self.states[0], self.values());
        format!("{sheets}, {} refused; {values}", grouped(self.refusals()))
    }

    /// The summary in words.
    pub fn text(&self) -> String {
        let mut lines = Lines {
            text: format!("{}\n\n", self.headline()),
        };
        lines.add("answered, plan whole", self.whole, "");
        lines.add("answered, plan mixed", self.mixed, "");
        lines.add("refused", self.refusals(), "");
        for (number, refused) in (1..).zip(&self.refused) {
            if let Some(example) = &refused.example {
                let words = format!("{:<24} {example}", rules::of(number).name);
                lines.add(&format!("  refusal {number}"), refused.count, &words);
            }
        }
        lines.add("values", self.values(), "");
        for (state, count) in states().zip(self.states) {
            lines.add_some(&format!("  {state}"), count);
        }
        lines.add("steps", self.steps, "");
        lines.add_some("not taken", self.skipped);
        lines.add_some("cannot be read", self.unreadable.len() as u64);
        for (file, reason) in &self.unreadable {
            lines.text += &format!("  {file}: {reason}\n");
        }
        lines.text
    }

    /// The summary for programs.
    pub fn object(&self) -> Object {
        Object::new()
            .with("sheets", self.sheets())
            .with("whole", self.whole)
            .with("mixed", self.mixed)
            .with("refused", self.refusals())
            .with("unreadable", self.unreadable.len())
            .with("skipped", self.skipped)
            .with("count", self.values())
            .with("numbers", self.states[0])
            .with("steps", self.steps)
    }
}

/// The states in words.
fn states() -> impl Iterator<Item = String> {
    let failures = FAILURES.into_iter().map(|state| state.to_string());
    std::iter::once("a number".to_string()).chain(failures)
}

/// Lines of a name, a count and words.
struct Lines {
    text: String,
}

impl Lines {
    /// None where there is nothing to count.
    fn add_some(&mut self, name: &str, count: u64) {
        if count > 0 {
            self.add(name, count, "");
        }
    }

    fn add(&mut self, name: &str, count: u64, words: &str) {
        let line = format!("{name:<26}{:>12}  {words}", grouped(count));
        self.text += line.trim_end();
        self.text.push('\n');
    }
}
