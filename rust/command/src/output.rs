//! Where the command writes to.
//!
//! Whoever reads the output may stop before its end: the rest is then left
//! unwritten, and the status is still that of the sheets. Every other failure to
//! write is a message and a status. Colours are for a terminal alone.

use std::env;
use std::io::{self, BufWriter, ErrorKind, IsTerminal, Stdout, Write};

use crate::input;
use crate::status::Status;

/// What the command is called in its messages.
pub const NAME: &str = "lindypo";

/// Standard output.
pub struct Output {
    writer: BufWriter<Stdout>,
    /// Why no more is written.
    ended: Option<io::Error>,
    pub paint: Paint,
    /// Whether a person sees both the output and the messages.
    is_seen: bool,
}

impl Output {
    pub fn new() -> Self {
        let stdout = io::stdout();
        let is_terminal = stdout.is_terminal();
        Output {
            paint: Paint::on(is_terminal && wants_colour(|name| env::var_os(name))),
            is_seen: is_terminal && io::stderr().is_terminal(),
            writer: BufWriter::new(stdout),
            ended: None,
        }
    }

    pub fn print(&mut self, text: &str) {
        self.write(text.as_bytes());
    }

    pub fn write(&mut self, bytes: &[u8]) {
        if self.ended.is_none() {
            self.ended = self.writer.write_all(bytes).err();
        }
    }

    /// What is written so far goes out before a message does.
    pub fn flush(&mut self) {
        if self.ended.is_none() {
            self.ended = self.writer.flush().err();
        }
    }

    /// A message about a file, or about the words.
    pub fn complain(&mut self, message: &str) {
        self.flush();
        complain(message);
    }

    /// A message for a person alone.
    pub fn hint(&mut self, message: &str) {
        if self.is_seen {
            self.complain(message);
        }
    }

    /// Whether everything could be written, as far as somebody read it.
    pub fn end(mut self) -> Status {
        self.flush();
        match self.ended {
            Some(error) if error.kind() != ErrorKind::BrokenPipe => {
                complain(&format!("standard output: {}", input::reason(&error)));
                Status::Unreadable
            }
            _ => Status::Answered,
        }
    }
}

impl Default for Output {
    fn default() -> Self {
        Output::new()
    }
}

/// Standard error may be closed or full: there is nobody left to tell.
pub fn complain(message: &str) {
    let _ = writeln!(io::stderr(), "{NAME}: {message}");
}

/// <https://no-color.org>: set and not empty, whatever to.
fn wants_colour(variable: impl Fn(&str) -> Option<std::ffi::OsString>) -> bool {
    let is_dumb = variable("TERM").is_none_or(|term| term == "dumb");
    let is_refused = variable("NO_COLOR").is_some_and(|value| !value.is_empty());
    !is_dumb && !is_refused
}

/// Colours, where they are on.
#[derive(Debug, Clone, Copy, Default)]
pub struct Paint {
    is_on: bool,
}

impl Paint {
    pub fn on(is_on: bool) -> Self {
        Paint { is_on }
    }

    /// What is wrong.
    pub fn bad(self, words: &str) -> String {
        self.escaped("1;31", words)
    }

    /// Headings.
    pub fn strong(self, words: &str) -> String {
        self.escaped("1", words)
    }

    /// What stands beside the words.
    pub fn faint(self, words: &str) -> String {
        self.escaped("2", words)
    }

    fn escaped(self, code: &str, words: &str) -> String {
        match self.is_on && !words.is_empty() {
            true => format!("\x1b[{code}m{words}\x1b[0m"),
            false => words.to_string(),
        }
    }
}

#[cfg(test)]
mod tests {
    use super::*;

    #[test]
    fn colours_are_marks_around_words() {
        assert_eq!(Paint::on(true).bad("14"), "\x1b[1;31m14\x1b[0m");
        assert_eq!(Paint::on(true).bad(""), "");
        assert_eq!(Paint::on(false).bad("14"), "14");
    }

    #[test]
    fn who_wants_colour() {
        let wants = |set: &'static [(&str, &str)]| {
            wants_colour(|name| {
                let (_, value) = set.iter().find(|(other, _)| *other == name)?;
                Some(value.into())
            })
        };
        assert!(wants(&[("TERM", "xterm")]));
        assert!(wants(&[("TERM", "xterm"), ("NO_COLOR", "")]));
        assert!(!wants(&[("TERM", "xterm"), ("NO_COLOR", "1")]));
        assert!(!wants(&[("TERM", "dumb")]));
        assert!(!wants(&[]));
    }
}
