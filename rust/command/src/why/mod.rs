//! `lindypo why`: how a value came to what it is.

mod json;
mod names;
mod text;

use lindypo::why::{self, Why};
use lindypo::Sheet;

use crate::input;
use crate::json::Object;
use crate::options::Call;
use crate::output::{Output, Paint};
use crate::sheets::{self, Answer, Asked, Stop, Text};
use crate::status::Status;
use crate::values;
use crate::words::{Example, Word};

pub const WORD: Word = Word {
    name: "why",
    summary: "says how a value came to what it is, or where its failure began",
    operands: "FILE NAME",
    about: "\
Evaluates one value once more and shows its formula, what it read with the values, and the calls
that it entered with their arguments. Of a value without a number it says at which line that
began, in which calls, and by which reads it was handed on. NAME is the value's full name, as
`lindypo plan` lists it, in capitals or small letters, or its label. Of many calls the first are
shown, and the number of the others. Where a quotient was a half, it shows what that came to by
the tie rule of line one.
",
    options: &[],
    examples: &[Example {
        words: "why sheets/01-example.sheet right.prism",
        print: "\
right.prism = sphere * 10 / 100
-33 in 5 steps; line 5, label 4

line  read          number  state     times
  12  right.sphere    -325  a number      1

line  first half   number  times
  10  -3250 / 100     -33      1
line one is `kind name a b c`: halves away from zero
",
    }],
    fields: &[&sheets::FIELDS, &values::TIES_FIELDS, &json::FIELDS],
    call,
};

fn call(call: &Call, out: &mut Output) -> Result<Status, String> {
    match &call.operands[..] {
        [file, name] => {
            let (files, name) = (std::slice::from_ref(file), input::shown(name.as_ref()));
            sheets::each(files, call, out, &|text| ask(text, &name))
        }
        [] => Err("which sheet, and which of its values?".to_string()),
        [_] => Err("which value? Its full name or label stands after the file".to_string()),
        _ => Err("one sheet and one value at a time".to_string()),
    }
}

pub fn ask<'a>(text: &'a Text, name: &str) -> Asked<'a> {
    let (sheet, run) = sheets::ran(&text.bytes)?;
    let why = names::label_of(&sheet, name)
        .and_then(|label| why::of(&sheet, &run.results, label))
        .ok_or_else(|| Stop::Wrong(names::unknown(&sheet, name)))?;
    Ok(Box::new(Traced { sheet, why }))
}

struct Traced<'a> {
    sheet: Sheet<'a>,
    why: Why,
}

impl Answer for Traced<'_> {
    fn status(&self) -> Status {
        match self.why.failure {
            Some(_) => Status::Failed,
            None => Status::Answered,
        }
    }

    fn text(&self, paint: Paint) -> String {
        text::of(&self.sheet, &self.why, paint)
    }

    fn fields(&self) -> Object {
        json::of(&self.sheet, &self.why)
    }
}
