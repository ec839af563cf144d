//! How far a check is.

use std::io::{self, IsTerminal, Write};
use std::time::{Duration, Instant};

use crate::numerals::grouped;

/// How long a line of progress stands at least.
const STANDS: Duration = Duration::from_millis(100);

/// A line on standard error that is written over, where somebody sees it.
pub struct Progress {
    total: usize,
    done: usize,
    began: Instant,
    shown: Option<Instant>,
    is_seen: bool,
}

impl Progress {
    pub fn new(total: usize) -> Self {
        Progress {
            total,
            done: 0,
            began: Instant::now(),
            shown: None,
            // on one terminal with the output it would stand between its lines
            is_seen: io::stderr().is_terminal() && !io::stdout().is_terminal(),
        }
    }

    /// One more is done.
    pub fn advance(&mut self) {
        self.done += 1;
        let is_due = self.shown.unwrap_or(self.began).elapsed() >= STANDS;
        if self.is_seen && is_due {
            let (done, total) = (grouped(self.done as u64), grouped(self.total as u64));
            say(&format!("\r{done} of {total}, {} \x1b[K", self.rate()));
            self.shown = Some(Instant::now());
        }
    }

    /// Takes the line away and says how long all took.
    pub fn end(self) {
        if self.is_seen {
            let seconds = self.began.elapsed().as_secs_f64();
            say(&format!("\r\x1b[K{seconds:.3} s, {}\n", self.rate()));
        }
    }

    fn rate(&self) -> String {
        let seconds = self.began.elapsed().as_secs_f64();
        let rate = (self.done as f64 / seconds.max(1e-9)) as u64;
        format!("{} files a second", grouped(rate))
    }
}

/// Standard error may be closed: there is nobody left to tell.
fn say(words: &str) {
    let _ = io::stderr().write_all(words.as_bytes());
}
