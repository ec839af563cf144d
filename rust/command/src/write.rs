//! `lindypo write`: formulas as a sheet.

use lindypo::formula::{self, Mistake};

use crate::document::{self, Document, Failure, Made, Maker};
use crate::excerpt;
use crate::input::Source;
use crate::json::{Json, Object};
use crate::options::Call;
use crate::output::{Output, Paint};
use crate::rules;
use crate::sheets;
use crate::status::Status;
use crate::words::{Example, Field, Word};

/// The most bytes of a text of formulas: many times those of the longest sheet.
const MOST_BYTES: u64 = 1 << 20;

pub const WORD: Word = Word {
    name: "write",
    summary: "writes formulas as a sheet",
    operands: "[FILE]",
    about: "\
Makes a sheet of a text of formulas; docs/LANGUAGE.md has their grammar. Labels are numbered down
the text: label 1, then all definitions, each Group followed by its members, then their bodies.
What is written is a sheet that reads and plans. Where the formulas give none, nothing is written:
the place to mend is shown on standard error. Formulas that begin with `halves to even` make a
sheet with that tie rule, `kind2` in line one; else halves go away from zero. `lindypo show` gives
the formulas of a sheet.
",
    options: &document::OPTIONS,
    examples: &[Example {
        words: "write examples/order.formulas",
        print: "\
kind name a b c
G - 0 - -
V total 1 10 -
F percent 1 13 -
G right 1 - -
V sphere 4 18 -
V prism 4 19 -
G left 1 - -
V sphere 7 21 -
V prism 7 22 -
A - 11 12 -
R right.prism - - -
R left.prism - - -
D - 14 17 -
M - 15 16 -
P - - - -
N - 10 - -
N - 100 - -
N - -325 - -
C percent 20 - -
R sphere - - -
N - -250 - -
I - 23 24 26
R sphere - - -
C percent 25 - -
R sphere - - -
N - 0 - -
",
    }],
    fields: &[&FIELDS],
    call,
};

const FIELDS: [Field; 16] = [
    (
        "file",
        "the file as the command line names it, - for standard input",
    ),
    ("status", "the status of the command"),
    (
        "error",
        "why the file cannot be read, or the sheet not be written",
    ),
    ("sheet", "the text of the sheet"),
    ("mistake", "why the formulas give no sheet:"),
    ("mistake.line", "the line to look at, from 1"),
    (
        "mistake.column",
        "the column to look at, from 1; a column is a byte",
    ),
    ("mistake.width", "how many columns"),
    ("mistake.sentence", "what is wrong"),
    (
        "mistake.help",
        "how to mend it, and other places that it has to do with:",
    ),
    ("mistake.help.sentence", "a hint, or what is at that place"),
    ("mistake.help.line", "the place, as above"),
    ("mistake.help.column", ""),
    ("mistake.help.width", ""),
    (
        "mistake.refusal",
        "the number of the refusal that a sheet of them would have",
    ),
    ("mistake.rule", "the rule of sheets that it breaks"),
];

fn call(call: &Call, out: &mut Output) -> Result<Status, String> {
    let maker = Maker {
        read: |source: &Source| source.read_whole(MOST_BYTES),
        make: &make,
        sort: None,
    };
    document::one(call, out, maker)
}

fn make(text: &[u8], source: &Source) -> Made {
    match formula::write(text) {
        Ok(sheet) => Ok(Document {
            fields: Object::new().with("sheet", String::from_utf8_lossy(&sheet).as_ref()),
            text: sheet,
            status: Status::Answered,
        }),
        Err(mistake) => Err(Failure {
            message: message(text, &source.title(), &mistake),
            status: Status::Failed,
            fields: Object::new().with("mistake", object(&mistake)),
        }),
    }
}

/// `file:line:column: sentence`, the lines with the places marked, hints and the
/// rule.
fn message(text: &[u8], file: &str, mistake: &Mistake) -> String {
    let Mistake { mark, sentence, .. } = mistake;
    let place = mark.map_or(String::new(), |mark| {
        format!(":{}:{}", mark.line, mark.column)
    });
    let rule = mistake.row.map(|row| rules::of(row).rule);
    let (_, places) = excerpt::places(text, *mark, &mistake.help, rule, Paint::default());
    format!("{file}{place}: {sentence}\n{}", places.trim_end())
}

fn object(mistake: &Mistake) -> Object {
    let help = mistake.help.iter().map(sheets::help_object);
    sheets::mark_object(mistake.mark)
        .with("sentence", mistake.sentence.as_str())
        .with("help", help.collect::<Json>())
        .with_some("refusal", mistake.row)
        .with_some("rule", mistake.row.map(|row| rules::of(row).rule))
}
