//! What is the same for the words that make a text of one file: it goes to
//! standard output or to a file of its own, and why there is none to standard
//! error.

use std::ffi::OsStr;

use lindypo::Refusal;

use crate::excerpt;
use crate::files::{self, Over, Sort};
use crate::input::{self, Source};
use crate::json::Object;
use crate::options::{Call, Opt};
use crate::output::{Output, Paint};
use crate::sheets;
use crate::status::Status;

const FILE: &str = "-o";
const FORCE: &str = "--force";

pub const OPTIONS: [Opt; 2] = [FILED, FORCED];

pub const FORCED: Opt = Opt {
    name: FORCE,
    value: None,
    meaning: "write over a file that is there already",
};

pub const FILED: Opt = Opt {
    name: FILE,
    value: Some("FILE"),
    meaning: "write to the file FILE; - is standard output, and so is none",
};

/// What comes of a file.
pub struct Document {
    pub text: Vec<u8>,
    pub status: Status,
    /// For programs: the fields after `file` and `status`.
    pub fields: Object,
}

/// Why nothing does.
pub struct Failure {
    pub message: String,
    pub status: Status,
    pub fields: Object,
}

pub type Made = Result<Document, Failure>;

/// What a word does with its one file.
pub struct Maker<'f> {
    pub read: fn(&Source) -> Result<Vec<u8>, String>,
    /// From what is read, and from where.
    pub make: &'f dyn Fn(&[u8], &Source) -> Made,
    /// Of what sort it is, where that can be told by its beginning: a document
    /// of this sort is written over, and no other file. Else `--force` does it.
    pub sort: Option<Sort>,
}

/// A refused sheet makes nothing.
pub fn refused(text: &[u8], source: &Source, refusal: &Refusal) -> Failure {
    let message = excerpt::refused(text, &source.title(), refusal, Paint::default());
    Failure {
        message: message.trim_end().to_string(),
        status: Status::Failed,
        fields: Object::new().with("refusal", sheets::refusal_object(refusal)),
    }
}

/// Words that the sheet does not know, or a text that cannot be made of it.
pub fn wrong(message: String) -> Failure {
    Failure {
        fields: Object::new().with("error", message.as_str()),
        message,
        status: Status::Unreadable,
    }
}

/// Makes a text of the one file that the words name; it goes where they say.
pub fn one(call: &Call, out: &mut Output, maker: Maker) -> Result<Status, String> {
    one_to(file(call), call, out, maker)
}

/// Where a document goes to; `-` is standard output.
pub fn file(call: &Call) -> &OsStr {
    call.value(FILE).unwrap_or(OsStr::new("-"))
}

/// As `one`, to this file; `-` is standard output.
pub fn one_to(file: &OsStr, call: &Call, out: &mut Output, maker: Maker) -> Result<Status, String> {
    let sources = input::sources(&call.operands, call.has_input)?;
    let [source] = &sources[..] else {
        return Err("one file at a time".to_string());
    };
    let made = match (maker.read)(source) {
        Ok(bytes) => (maker.make)(&bytes, source),
        Err(reason) => {
            let message = format!("{}: {reason}", source.title());
            return Ok(sheets::wrong(source, &reason, &message, call, out));
        }
    };
    Ok(match made {
        Ok(document) => match put(&document.text, file, maker.sort, call, out) {
            Ok(()) => told(source, document.status, document.fields, call, out),
            Err(message) => sheets::wrong(source, &message, &message, call, out),
        },
        Err(failure) => failed(source, failure, call, out),
    })
}

/// Why nothing came of a file. One that cannot be read is a message in any case.
pub fn failed(source: &Source, failure: Failure, call: &Call, out: &mut Output) -> Status {
    if !call.wants_json() || failure.status == Status::Unreadable {
        out.complain(&failure.message);
    }
    told(source, failure.status, failure.fields, call, out)
}

/// What came of the file, for whoever reads JSON.
pub fn told(
    source: &Source,
    status: Status,
    fields: Object,
    call: &Call,
    out: &mut Output,
) -> Status {
    if call.wants_json() {
        let object = sheets::object(source, status).and(fields);
        out.print(&format!("{object}\n"));
    }
    status
}

/// Into its file, else on standard output, which JSON has to itself.
pub fn put(
    text: &[u8],
    file: &OsStr,
    sort: Option<Sort>,
    call: &Call,
    out: &mut Output,
) -> Result<(), String> {
    let over = match sort {
        Some(sort) => Over::Like(sort),
        None if call.is_set(FORCE) => Over::Anything,
        None => Over::Nothing,
    };
    match Source::of(file) {
        Source::File(path) => files::write(&path, text, over),
        Source::Input if call.wants_json() => Ok(()),
        Source::Input => {
            out.write(text);
            Ok(())
        }
    }
}
