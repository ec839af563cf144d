//! `lindypo retouch`: new numbers in a sheet, and what they change.

mod json;
mod pairs;
mod picture;
pub mod stages;
mod text;

use std::ffi::OsString;
use std::path::Path;

use lindypo::{Sheet, MOST_BYTES};

use crate::document::{self, Document, Failure, Made, Maker};
use crate::input::{self, Source};
use crate::json::Object;
use crate::numerals::grouped;
use crate::options::{Call, Opt};
use crate::output::{Output, Paint};
use crate::picture::{FOCUS, FOLD, SVG};
use crate::sheets::{self, Answer, Asked, Text};
use crate::status::Status;
use crate::values;
use crate::words::{Example, Word};
use pairs::Pair;
use stages::Stages;

pub const WORD: Word = Word {
    name: "retouch",
    summary: "puts new numbers into a sheet and says what they change",
    operands: "FILE NAME=NUMBER...",
    about: "\
Evaluates a sheet, then puts new numbers into it, one after the other, and says for each which
values it changed. NAME is the full name of a value that is a number, in capitals or small letters,
or the label of an N line, for a number in a formula. Only values that depend on the number are
evaluated again, and in the end all are what `lindypo run` gives of the sheet with the new numbers.
FILE stays as it is: -o writes the new sheet.

A picture, as `lindypo explain --svg` draws it, is of the sheet with the new numbers; values that
have changed are marked, and say what they were before. PICTURE is written over only where it is a
picture that was drawn so.
",
    options: &[
        Opt {
            name: SHEET,
            value: Some("SHEET"),
            meaning: "the sheet with the new numbers in the file SHEET; - is standard output",
        },
        document::FORCED,
        SVG,
        FOCUS,
        FOLD,
    ],
    examples: &[
        Example {
            words: "retouch sheets/01-example.sheet right.sphere=-400 8=7",
            print: "\
3 of 3 values have a number; whole plan: the values of every Group stand together

pair 1: right.sphere (label 14), -325 becomes -400
3 values redone, 3 changed; no value fails; 9 steps in all

label  name          before  after  steps
    5  right.sphere    -325   -400      1
    4  right.prism      -33    -40      5
    2  total            -28    -35      3

pair 2: label 8 in total, 5 becomes 7
1 value redone, 1 changed; no value fails; 9 steps in all

label  name   before  after  steps
    2  total     -35    -33      3

in the end: 3 of 3 values changed

label  name          before  after  steps
    5  right.sphere    -325   -400      1
    4  right.prism      -33    -40      5
    2  total            -28    -33      3
",
        },
        Example {
            words: "retouch sheets/01-example.sheet right.prism=-40",
            print: "\
refusal 20: the body of `right.prism` is not a number: line 10 is a quotient (D)
  --> sheets/01-example.sheet:10:1 (label 9), pair 1 of the list
   |
10 | D - 10 13 -
   | ^^^^^^^^^^^
13 | N - 10 - -
   |     -- label 12 is here
14 | N - 100 - -
   |     --- label 13 is here
   = help: name an N line; those in it are labels 12 and 13
   = rule: a pair of the list puts its number into an N line
",
        },
    ],
    fields: &[
        &sheets::FIELDS,
        &values::ORDER_FIELDS,
        &values::TIES_FIELDS,
        &json::FIELDS,
        &values::NAME_FIELDS,
        &values::OUTCOME_FIELDS,
    ],
    call,
};

const SHEET: &str = "-o";

fn call(call: &Call, out: &mut Output) -> Result<Status, String> {
    let (file, pairs) = operands(&call.operands)?;
    let call = &call.with_operands(vec![file]);
    let has_options = |options: [Opt; 2]| options.iter().any(|option| call.is_set(option.name));
    match (call.value(SHEET), call.value(SVG.name)) {
        (Some(_), Some(_)) => Err(format!(
            "{SHEET} writes a sheet and {} draws one: one at a time",
            SVG.name
        )),
        (_, None) if has_options([FOCUS, FOLD]) => Err(format!(
            "{} and {} are for pictures: {} draws one",
            FOCUS.name, FOLD.name, SVG.name
        )),
        (None, Some(_)) if call.wants_json() => {
            Err(format!("{} draws, and writes no words", SVG.name))
        }
        (None, _) if call.is_set(document::FORCED.name) => Err(format!(
            "{} is for a sheet that {SHEET} writes",
            document::FORCED.name
        )),
        (None, Some(file)) => picture::draw(file, call, out, &pairs),
        (Some(file), None) => {
            let maker = Maker {
                read: Source::read,
                make: &|text: &[u8], source: &Source| make(text, source, &pairs),
                sort: None,
            };
            document::one_to(file, call, out, maker)
        }
        (None, None) => sheets::each(&call.operands, call, out, &|text| ask(text, &pairs)),
    }
}

/// The file, and the pairs after it.
fn operands(words: &[OsString]) -> Result<(OsString, Vec<Pair>), String> {
    let Some((file, words)) = words.split_first() else {
        return Err("which sheet, and which numbers? FILE NAME=NUMBER".to_string());
    };
    let is_pair = file.to_string_lossy().contains('=') && !Path::new(file).exists();
    match words {
        _ if is_pair => Err(format!(
            "which sheet? Its file stands before `{}`",
            input::shown(file.as_ref())
        )),
        [] => Err("which numbers? NAME=NUMBER stands after the file".to_string()),
        words => {
            let pairs = words.iter().map(|word| Pair::of(&word.to_string_lossy()));
            Ok((file.clone(), pairs.collect::<Result<_, _>>()?))
        }
    }
}

fn ask<'a>(text: &'a Text, pairs: &[Pair]) -> Asked<'a> {
    let sheet = Sheet::read(&text.bytes)?;
    let stages = pairs::staged(&sheet, pairs)?;
    Ok(Box::new(Answered { sheet, stages }))
}

struct Answered<'a> {
    sheet: Sheet<'a>,
    stages: Stages,
}

impl Answer for Answered<'_> {
    fn status(&self) -> Status {
        values::status(&values::of_run(&self.sheet, &self.stages.run))
    }

    fn text(&self, paint: Paint) -> String {
        text::of(&self.sheet, &self.stages, paint)
    }

    fn fields(&self) -> Object {
        json::of(&self.sheet, &self.stages)
    }
}

/// The sheet with the new numbers.
fn make(text: &[u8], source: &Source, pairs: &[Pair]) -> Made {
    let refused = |refusal| document::refused(text, source, &refusal);
    let sheet = Sheet::read(text).map_err(refused)?;
    let stages = pairs::staged(&sheet, pairs).map_err(refused)?;
    let answered = Answered { sheet, stages };
    Ok(Document {
        text: with_numbers(&answered.sheet, &answered.stages)?,
        status: answered.status(),
        fields: answered.fields(),
    })
}

/// The text with the new numbers, where that is not too long for a sheet.
fn with_numbers(sheet: &Sheet, stages: &Stages) -> Result<Vec<u8>, Failure> {
    let text = sheet.with_numbers(&stages.pairs());
    match text.len() > MOST_BYTES {
        true => Err(document::wrong(format!(
            "with these numbers the sheet has {} bytes, and no sheet has more than {}",
            grouped(text.len() as u64),
            grouped(MOST_BYTES as u64)
        ))),
        false => Ok(text),
    }
}
