//! The words of the command: one table.
//!
//! A word is a module with a `WORD`, which stands in the table below. What it
//! says of a sheet is an `Answer`, in text and in JSON; `sheets::each` does what
//! is the same for every word that takes sheets one by one.

use std::ffi::OsString;
use std::path::Path;

use crate::help;
use crate::input;
use crate::options::{Call, Opt};
use crate::output::{Output, NAME};
use crate::status::Status;
use crate::{check, explain, follow, plan, retouch, run, show, slip, why, write};

/// The words, as `lindypo --help` lists them.
pub const WORDS: &[&Word] = &[
    &run::WORD,
    &plan::WORD,
    &follow::WORD,
    &retouch::WORD,
    &explain::WORD,
    &why::WORD,
    &check::WORD,
    &slip::WORD,
    &show::WORD,
    &write::WORD,
];

pub struct Word {
    pub name: &'static str,
    /// What it does, in less than a line.
    pub summary: &'static str,
    /// What it takes besides options.
    pub operands: &'static str,
    /// What it does, in full.
    pub about: &'static str,
    /// Its options besides those of every word.
    pub options: &'static [Opt],
    /// Tests run them at the top of the repository.
    pub examples: &'static [Example],
    /// What its JSON holds; tests see that no field is left out here.
    pub fields: &'static [&'static [Field]],
    /// What it does; an error is a mistake in the words.
    pub call: fn(&Call, &mut Output) -> Result<Status, String>,
}

/// What is typed after `lindypo`, and what that prints.
pub struct Example {
    pub words: &'static str,
    pub print: &'static str,
}

/// A field of JSON and what it holds. The fields of an object in a field have
/// its name and a dot before their own.
pub type Field = (&'static str, &'static str);

/// Does what the words ask for.
pub fn call(words: impl IntoIterator<Item = OsString>, has_input: bool) -> Status {
    let mut out = Output::new();
    let mut words = words.into_iter();
    let first = words.next().unwrap_or_default();
    let status = match first.to_str() {
        Some("-h" | "--help" | "help") => say_help(words.next(), &mut out),
        Some("-V" | "--version") => {
            out.print(&format!("{NAME} {}\n", env!("CARGO_PKG_VERSION")));
            Ok(Status::Answered)
        }
        _ => match word_of(&first) {
            Some(word) => do_word(word, words, has_input, &mut out),
            None => Err(no_word(&first)),
        },
    };
    let status = status.unwrap_or_else(|message| {
        out.complain(&message);
        Status::Unreadable
    });
    status.max(out.end())
}

fn word_of(name: &OsString) -> Option<&'static Word> {
    WORDS.iter().copied().find(|word| name == word.name)
}

fn do_word(
    word: &Word,
    words: impl Iterator<Item = OsString>,
    has_input: bool,
    out: &mut Output,
) -> Result<Status, String> {
    let more = |message| {
        let name = word.name;
        format!("{name}: {message}\n`{NAME} {name} --help` says how it is used")
    };
    let call = Call::parse(words, word.options, has_input).map_err(more)?;
    if call.is_set("--help") {
        out.print(&help::of(word));
        return Ok(Status::Answered);
    }
    (word.call)(&call, out).map_err(more)
}

/// What to do about a first word that is none.
fn no_word(first: &OsString) -> String {
    let shown = input::shown(Path::new(first));
    let names: Vec<&str> = WORDS.iter().map(|word| word.name).collect();
    let names = format!(
        "the words are {}; `{NAME} --help` says more",
        names.join(", ")
    );
    match () {
        _ if first.is_empty() => names,
        _ if Path::new(first).is_file() => {
            format!("there is no word `{shown}`; did you mean `{NAME} run {shown}`?\n{names}")
        }
        _ => format!("there is no word `{shown}`\n{names}"),
    }
}

/// Help on a word, or on all.
fn say_help(name: Option<OsString>, out: &mut Output) -> Result<Status, String> {
    let text = match name {
        None => help::usage(),
        Some(name) => help::of(word_of(&name).ok_or_else(|| no_word(&name))?),
    };
    out.print(&text);
    Ok(Status::Answered)
}
