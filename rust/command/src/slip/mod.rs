//! `lindypo slip`: a page to print that goes with the tray.

mod loads;
mod page;
mod sha256;

use lindypo::{formula, Label, Refusal, Run, Sheet};

use crate::document::{self, Failure};
use crate::files::Sort;
use crate::input::{self, Source};
use crate::json::{Json, Object};
use crate::options::Call;
use crate::output::Output;
use crate::sheets;
use crate::status::Status;
use crate::values::{self, Value};
use crate::words::{Field, Word};
use loads::{Load, Turn};

pub const WORD: Word = Word {
    name: "slip",
    summary: "makes a page to print that goes with the tray",
    operands: "[FILE...]",
    about: "\
Makes a page to print on A4, as HTML that needs nothing else: the values of each sheet in the order
of the plan, with full names, numbers and formulas, under the Groups as they are loaded. A Group
that was left and is loaded again says AGAIN, a value without a number NOT TO BE CUT. Every page
has the name of the sheet, WHOLE or MIXED, the tie rule (halves away from zero, or to even) and
the digest: SHA-256 of the sheet's bytes, the one that `sha256sum FILE` prints. The same sheet
makes the same page. A refused sheet has no slip: the refusal is on standard error. With -o, a
file that is there already is written over only where it is a slip.

    lindypo slip -o slip.html order.sheet

Any browser prints it; those that know page margins of CSS (Chromium does) number the pages.
",
    options: &[document::FILED],
    // a page is too long to be shown in a help
    examples: &[],
    fields: &[
        &sheets::FIELDS,
        &values::ORDER_FIELDS,
        &values::TIES_FIELDS,
        &LOAD_FIELDS,
        &values::NAME_FIELDS,
        &values::OUTCOME_FIELDS,
        &FORMULA_FIELDS,
    ],
    call,
};

const LOAD_FIELDS: [Field; 8] = [
    ("digest", "SHA-256 of the sheet's bytes, in hexadecimal"),
    ("loads", "the Groups as they are loaded:"),
    ("loads.group", "the label of the Group"),
    ("loads.name", "its full name; empty for the outermost Group"),
    ("loads.first", "the first position of its values, from 1"),
    ("loads.last", "the last position"),
    (
        "loads.turn",
        "first, continued (after Groups in it) or again",
    ),
    (
        "loads.again",
        "the full name of the Group that was left: this one or one around it",
    ),
];

const FORMULA_FIELDS: [Field; 1] = [("values.formula", "its formula")];

/// How every page begins: so an earlier one is known.
const SORT: Sort = Sort {
    name: "slip of lindypo",
    start: page::START,
};

/// What stands on the slip of a sheet.
struct Slip<'a> {
    /// What the sheet is called.
    name: String,
    digest: String,
    sheet: Sheet<'a>,
    run: Run,
    /// In the order of the plan.
    values: Vec<Value>,
    loads: Vec<Load>,
}

fn call(call: &Call, out: &mut Output) -> Result<Status, String> {
    let sources = input::sources(&call.operands, call.has_input)?;
    let texts: Vec<Result<Vec<u8>, String>> = sources.iter().map(Source::read).collect();
    let made: Vec<Result<Slip, Failure>> = sources
        .iter()
        .zip(&texts)
        .map(|(source, text)| make(source, text))
        .collect();
    let slips: Vec<&Slip> = made.iter().flatten().collect();
    let written = match slips.is_empty() {
        true => Ok(()),
        false => {
            let page = page::html(&slips);
            document::put(page.as_bytes(), document::file(call), Some(SORT), call, out)
        }
    };
    if let Err(message) = &written {
        out.complain(message);
    }
    let sheets = sources.iter().zip(made);
    let statuses = sheets.map(|(source, made)| match (made, &written) {
        (Ok(slip), Ok(())) => document::told(source, slip.status(), slip.fields(), call, out),
        (Ok(_), Err(message)) => {
            let fields = Object::new().with("error", message.as_str());
            document::told(source, Status::Unreadable, fields, call, out)
        }
        (Err(failure), _) => document::failed(source, failure, call, out),
    });
    Ok(statuses.max().unwrap_or(Status::Answered))
}

fn make<'a>(source: &Source, text: &'a Result<Vec<u8>, String>) -> Result<Slip<'a>, Failure> {
    let text = text.as_ref().map_err(|reason| unreadable(source, reason))?;
    let name = match source {
        Source::Input => source.title(),
        Source::File(_) => source.file_name(),
    };
    let slip = Slip::new(text, name);
    slip.map_err(|refusal| document::refused(text, source, &refusal))
}

fn unreadable(source: &Source, reason: &str) -> Failure {
    Failure {
        message: format!("{}: {reason}", source.title()),
        status: Status::Unreadable,
        fields: Object::new().with("error", reason),
    }
}

/// The page of a text that runs.
pub fn page(text: &[u8], name: &str) -> Result<(String, Status), Refusal> {
    let slip = Slip::new(text, name.to_string())?;
    Ok((page::html(&[&slip]), slip.status()))
}

impl<'a> Slip<'a> {
    fn new(text: &'a [u8], name: String) -> Result<Self, Refusal> {
        let (sheet, run) = sheets::ran(text)?;
        Ok(Slip {
            name,
            digest: sha256::digest(text),
            values: values::of_run(&sheet, &run),
            loads: loads::of(&sheet, &run.plan.labels),
            sheet,
            run,
        })
    }

    fn status(&self) -> Status {
        values::status(&self.values)
    }

    fn formula(&self, label: Label) -> String {
        formula::of(&self.sheet, label).unwrap_or_default()
    }

    fn fields(&self) -> Object {
        let load = |load: &Load| self.load(load);
        values::run_object(&self.sheet, &self.run)
            .with("digest", self.digest.as_str())
            .with("loads", self.loads.iter().map(load).collect::<Json>())
            .with(
                "values",
                self.values
                    .iter()
                    .map(|value| self.value(value))
                    .collect::<Json>(),
            )
    }

    fn load(&self, load: &Load) -> Object {
        let (turn, again) = match load.turn {
            Turn::First => ("first", None),
            Turn::Continued => ("continued", None),
            Turn::Again(group) => ("again", Some(self.sheet.full_name(group))),
        };
        Object::new()
            .with("group", load.group)
            .with("name", self.sheet.full_name(load.group))
            .with("first", load.first)
            .with("last", load.last)
            .with("turn", turn)
            .with_some("again", again)
    }

    fn value(&self, value: &Value) -> Object {
        values::name_object(value.label, &value.name)
            .and(values::outcome_object(value.outcome))
            .with("formula", self.formula(value.label))
    }
}
