//! What is the same for every word that takes sheets one by one: files or
//! standard input, a heading where there are several, refusals, JSON, statuses.

use std::ffi::OsString;

use lindypo::{Help, Mark, Refusal, Run, Sheet};

use crate::excerpt;
use crate::input::{self, Source};
use crate::json::{Json, Object};
use crate::options::Call;
use crate::output::{Output, Paint};
use crate::rules;
use crate::status::Status;
use crate::words::Field;

/// A sheet's text, and where it comes from.
pub struct Text {
    pub source: Source,
    pub bytes: Vec<u8>,
}

/// What a word has to say of a sheet.
pub trait Answer {
    fn status(&self) -> Status;
    /// For people, with a line end.
    fn text(&self, paint: Paint) -> String;
    /// For programs: the fields after `file` and `status`.
    fn fields(&self) -> Object;
}

/// Why there is no answer.
pub enum Stop {
    Refused(Refusal),
    /// What is wrong with the words, or with a file that is to be written.
    Wrong(String),
}

impl From<Refusal> for Stop {
    fn from(refusal: Refusal) -> Stop {
        Stop::Refused(refusal)
    }
}

/// What comes of asking a sheet.
pub type Asked<'a> = Result<Box<dyn Answer + 'a>, Stop>;

/// What a word does with one sheet.
pub type Ask<'f> = &'f dyn for<'a> Fn(&'a Text) -> Asked<'a>;

/// The JSON of every sheet.
pub const FIELDS: [Field; 16] = [
    (
        "file",
        "the file as the command line names it, - for standard input",
    ),
    ("status", "the status that this sheet alone would give"),
    (
        "error",
        "why the file cannot be read, or what is wrong with the words",
    ),
    ("refusal", "why the sheet is refused:"),
    ("refusal.number", "the number of the refusal, 1 to 21"),
    (
        "refusal.place",
        "a label, 0 for the whole, a position (17, 18) or a pair (20, 21)",
    ),
    ("refusal.line", "the line to look at, from 1"),
    (
        "refusal.column",
        "the column to look at, from 1; a column is a byte",
    ),
    ("refusal.width", "how many columns"),
    ("refusal.sentence", "what is wrong"),
    (
        "refusal.help",
        "how to mend it, and other places that it has to do with:",
    ),
    ("refusal.help.sentence", "a hint, or what is at that place"),
    ("refusal.help.line", "the place, as above"),
    ("refusal.help.column", ""),
    ("refusal.help.width", ""),
    ("refusal.rule", "the rule that it breaks"),
];

/// Asks each sheet that the words name.
pub fn each(words: &[OsString], call: &Call, out: &mut Output, ask: Ask) -> Result<Status, String> {
    let sources = input::sources(words, call.has_input)?;
    let has_headings = sources.len() > 1 && !call.wants_json();
    let mut status = Status::Answered;
    for source in sources {
        status = status.max(one(source, has_headings, call, out, ask));
    }
    Ok(status)
}

fn one(source: Source, has_heading: bool, call: &Call, out: &mut Output, ask: Ask) -> Status {
    let bytes = match source.read() {
        Ok(bytes) => bytes,
        Err(reason) => {
            let message = format!("{}: {reason}", source.title());
            return wrong(&source, &reason, &message, call, out);
        }
    };
    if has_heading {
        let heading = format!("file {}", source.title());
        out.print(&format!("{}\n", out.paint.strong(&heading)));
    }
    let text = Text { source, bytes };
    let asked = ask(&text);
    match asked {
        Ok(answer) => say(&text, answer.as_ref(), call, out),
        Err(Stop::Refused(refusal)) => say(&text, &Refused::new(&text, &refusal), call, out),
        Err(Stop::Wrong(message)) => wrong(&text.source, &message, &message, call, out),
    }
}

/// In JSON or in text.
fn say(text: &Text, answer: &dyn Answer, call: &Call, out: &mut Output) -> Status {
    let status = answer.status();
    if call.wants_json() {
        let object = object(&text.source, status).and(answer.fields());
        out.print(&format!("{object}\n"));
    } else {
        out.print(&answer.text(out.paint));
    }
    status
}

/// An error for whoever reads JSON; a message on standard error in any case.
pub fn wrong(source: &Source, error: &str, message: &str, call: &Call, out: &mut Output) -> Status {
    if call.wants_json() {
        let object = object(source, Status::Unreadable).with("error", error);
        out.print(&format!("{object}\n"));
    }
    out.complain(message);
    Status::Unreadable
}

/// The fields of every sheet.
pub fn object(source: &Source, status: Status) -> Object {
    Object::new()
        .with("file", source.word())
        .with("status", u64::from(status.code()))
}

/// The answer that a refusal is.
pub struct Refused<'a> {
    text: &'a Text,
    refusal: &'a Refusal,
}

impl<'a> Refused<'a> {
    pub fn new(text: &'a Text, refusal: &'a Refusal) -> Self {
        Refused { text, refusal }
    }
}

impl Answer for Refused<'_> {
    fn status(&self) -> Status {
        Status::Failed
    }

    fn text(&self, paint: Paint) -> String {
        let file = self.text.source.title();
        excerpt::refused(&self.text.bytes, &file, self.refusal, paint)
    }

    fn fields(&self) -> Object {
        Object::new().with("refusal", refusal_object(self.refusal))
    }
}

pub fn refusal_object(refusal: &Refusal) -> Object {
    Object::new()
        .with("number", refusal.number())
        .with("place", refusal.place())
        .and(mark_object(refusal.mark()))
        .with("sentence", refusal.sentence())
        .with(
            "help",
            refusal.help().iter().map(help_object).collect::<Json>(),
        )
        .with("rule", rules::of(refusal.number()).rule)
}

pub fn help_object(help: &Help) -> Object {
    mark_object(help.mark).with("sentence", help.sentence.as_str())
}

/// Nothing where no part of the text is marked.
pub fn mark_object(mark: Option<Mark>) -> Object {
    Object::new()
        .with_some("line", mark.map(|mark| mark.line))
        .with_some("column", mark.map(|mark| mark.column))
        .with_some("width", mark.map(|mark| mark.width))
}

/// A sheet, read and run.
pub fn ran(text: &[u8]) -> Result<(Sheet<'_>, Run), Refusal> {
    let sheet = Sheet::read(text)?;
    let run = sheet.run()?;
    Ok((sheet, run))
}
