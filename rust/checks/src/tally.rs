//! What a run of trials met.

use std::fmt;

use generator::{NearNames, Tangles};

use crate::calls::{MIXED, WHOLE};
use crate::letters::Letters;
use crate::{Call, Halves, Outcome, Retouches};

/// With at least this many random trials everything is met.
const ENOUGH: u64 = 5_000;

const STATES: [&str; 5] = ["number", "range", "zero divisor", "spent", "deep"];

/// What `Tangles` tells, in words.
const TANGLES: [&str; Tangles::COUNT] = [
    "beside a Group that stays whole",
    "below the outermost Group",
    "with a value",
    "twice in a Group",
    "inside an opened Group",
];

/// What `NearNames` tells, in words.
const NEAR: [&str; NearNames::COUNT] = [
    "in a Group",
    "in a path",
    "missed by a path",
    "in other letters",
];

/// How the calls replied, what Plan and Run came to, how many labels Name was
/// asked for and gave a part to, how many prints there was room for, how many
/// sheets had names in other letters than those that they are the same as, or names
/// that are nearly the same, where mixed plans were tangled, what lists of pairs
/// brought about, and what was met under each first line.
#[derive(Debug, Default, Clone, PartialEq, Eq)]
pub struct Tally {
    trials: u64,
    /// By call, in the sequence of `Call::ALL`: the answers, then the refusals
    /// by row.
    replies: [[u64; Call::LAST_ROW + 1]; Call::COUNT],
    whole: u64,
    mixed: u64,
    states: [u64; 5],
    asked: u64,
    named: u64,
    /// Prints that were whole.
    printed: u64,
    /// Sheets with names in other letters: heads of paths, later names, names
    /// that clash.
    letters: [u64; 3],
    /// Sheets by what is told in `NEAR`, of the first eight bytes and of those after.
    near: [[u64; NearNames::COUNT]; 2],
    /// Mixed plans by what is told in `TANGLES`.
    tangles: [u64; Tangles::COUNT],
    /// Lists of pairs by what is told in `Retouches::WORDS`.
    retouches: [u64; Retouches::COUNT],
    /// Under each first line, what is told in `Halves::WORDS`; first lines that are
    /// near misses of both.
    halves: [[u64; Halves::WORDS.len()]; 2],
    near_both: u64,
}

impl Tally {
    pub fn add(&mut self, outcome: Outcome) {
        self.trials += 1;
        for (counts, reply) in self.replies.iter_mut().zip(outcome.replies()) {
            counts[reply.refusal as usize] += 1;
        }
        self.whole += u64::from(outcome.plan.order == WHOLE);
        self.mixed += u64::from(outcome.plan.order == MIXED);
        add_all(&mut self.states, &outcome.states);
        self.asked += outcome.asked;
        self.named += outcome.named;
        self.printed += u64::from(outcome.is_print_whole);
        let Letters {
            heads,
            later_names,
            clash,
        } = outcome.letters;
        add_all(
            &mut self.letters,
            &[heads, later_names, clash].map(u64::from),
        );
        for (counts, more) in self.near.iter_mut().zip(outcome.near.counts()) {
            add_all(counts, &more);
        }
        add_all(&mut self.tangles, &outcome.tangles.counts());
        add_all(&mut self.retouches, &outcome.retouches.counts());
        for (counts, more) in self.halves.iter_mut().zip(outcome.halves.counts()) {
            add_all(counts, &more);
        }
        self.near_both += u64::from(outcome.halves.near_both);
    }

    pub fn merge(&mut self, other: &Tally) {
        self.trials += other.trials;
        for (counts, more) in self.replies.iter_mut().zip(&other.replies) {
            add_all(counts, more);
        }
        self.whole += other.whole;
        self.mixed += other.mixed;
        add_all(&mut self.states, &other.states);
        self.asked += other.asked;
        self.named += other.named;
        self.printed += other.printed;
        add_all(&mut self.letters, &other.letters);
        for (counts, more) in self.near.iter_mut().zip(&other.near) {
            add_all(counts, more);
        }
        add_all(&mut self.tangles, &other.tangles);
        add_all(&mut self.retouches, &other.retouches);
        for (counts, more) in self.halves.iter_mut().zip(&other.halves) {
            add_all(counts, more);
        }
        self.near_both += other.near_both;
    }

    /// Whether every call answered and refused by each of its rows, plans were
    /// whole and mixed, values came to every state, Name gave parts, empty ones
    /// too, prints had room and had not, names were in other letters and nearly the
    /// same wherever they are compared, sheets were tangled wherever they can be,
    /// lists of pairs brought about all that they can, and of both first lines there
    /// were sheets, near misses, and halves on which the tie rules part; a short run
    /// need not have met all of them.
    pub fn is_complete(&self) -> bool {
        let mut calls = Call::ALL.into_iter().zip(&self.replies);
        let replies = calls.all(|(call, counts)| call.has_met(counts));
        let orders = self.whole > 0 && self.mixed > 0;
        let names = self.named > 0 && self.named < self.asked;
        let prints = self.printed > 0 && self.printed < self.trials;
        let states = !self.states.contains(&0);
        let letters = !self.letters.contains(&0);
        let near = !self.near.as_flattened().contains(&0);
        let tangles = !self.tangles.contains(&0);
        let retouches = !self.retouches.contains(&0);
        let halves = !self.halves.as_flattened().contains(&0) && self.near_both > 0;
        let named = names && letters && near;
        let evaluated = prints && states && retouches && halves;
        let is_all = replies && orders && named && evaluated && tangles;
        self.trials < ENOUGH || is_all
    }

    pub fn total(&self) -> u64 {
        self.trials
    }
}

fn add_all(counts: &mut [u64], more: &[u64]) {
    for (count, more) in counts.iter_mut().zip(more) {
        *count += more;
    }
}

/// Each count with its name.
fn listed(names: &[&str], counts: &[u64]) -> String {
    let counts = counts.iter().zip(names);
    let words: Vec<String> = counts
        .map(|(count, name)| format!("{count} {name}"))
        .collect();
    words.join(", ")
}

impl fmt::Display for Tally {
    fn fmt(&self, f: &mut fmt::Formatter) -> fmt::Result {
        writeln!(f, "{} sheets agree", self.trials)?;
        write!(f, "{:<10}", "")?;
        for call in Call::ALL {
            write!(f, " {:>8}", format!("{call:?}"))?;
        }
        writeln!(f)?;
        for row in 0..=Call::LAST_ROW {
            match row {
                0 => write!(f, "{:<10}", "answered")?,
                _ => write!(f, "refused {row:>2}")?,
            }
            for counts in &self.replies {
                write!(f, " {:>8}", counts[row])?;
            }
            writeln!(f)?;
        }
        writeln!(f, "plans: {} whole, {} mixed", self.whole, self.mixed)?;
        writeln!(f, "tangled: {}", listed(&TANGLES, &self.tangles))?;
        writeln!(f, "values: {}", listed(&STATES, &self.states))?;
        let retouches = listed(&Retouches::WORDS, &self.retouches);
        writeln!(f, "lists of pairs: {retouches}")?;
        let [away, even] = &self.halves;
        writeln!(f, "halves away from zero: {}", listed(&Halves::WORDS, away))?;
        writeln!(f, "halves to even: {}", listed(&Halves::WORDS, even))?;
        writeln!(f, "near misses of either line one: {}", self.near_both)?;
        let cut = self.trials - self.printed;
        writeln!(f, "prints: {} whole, {cut} cut short", self.printed)?;
        let [heads, later, clashes] = self.letters;
        writeln!(
            f,
            "other letters: {heads} sheets in heads, {later} in later names, {clashes} in names that clash"
        )?;
        let [first, later] = &self.near;
        let in_words = |counts| listed(&NEAR, counts);
        writeln!(f, "near in the first eight bytes: {}", in_words(first))?;
        writeln!(f, "near after the eighth byte: {}", in_words(later))?;
        write!(f, "names: {} of {} asked for", self.named, self.asked)
    }
}
