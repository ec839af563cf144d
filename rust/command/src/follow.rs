//! `lindypo follow`: evaluation down an order of the caller's.

use std::ffi::OsStr;
use std::path::Path;

use lindypo::{Label, Refusal, Sheet};

use crate::input::{self, Source};
use crate::json::Object;
use crate::labels;
use crate::options::{Call, Opt};
use crate::output::{Output, Paint};
use crate::sheets::{self, Answer, Asked, Text};
use crate::status::Status;
use crate::values::{self, Value};
use crate::words::{Example, Word};

pub const WORD: Word = Word {
    name: "follow",
    summary: "evaluates values down an order that you give",
    operands: "[FILE...]",
    about: "\
Evaluates the values of each sheet down the list that --order gives: labels or full names, in
capitals or small letters, with commas between, or @FILE for a file with one a line. The list has
to name every value once, each after all that it reaches, else refusals 17 and 18 say at which
position it does not; the results are then those of `lindypo run`, whichever such list it is.
",
    options: &[Opt {
        name: ORDER,
        value: Some("LIST"),
        meaning: "the order: LIST is as in 5,4,2 or right.sphere,right.prism,total or @FILE",
    }],
    examples: &[
        Example {
            words: "follow --order right.sphere,right.prism,total sheets/01-example.sheet",
            print: "\
3 of 3 values have a number

position  label  name          number  steps  state     formula
       1      5  right.sphere    -325      1  a number  = -325
       2      4  right.prism      -33      5  a number  = sphere * 10 / 100
       3      2  total            -28      3  a number  = right.prism + 5
",
        },
        Example {
            words: "follow --order 4,5,2 sheets/01-example.sheet",
            print: "\
refusal 18: `right.prism` reaches `right.sphere`, which is not listed earlier
  --> sheets/01-example.sheet, position 1 of the order
   |
12 | R sphere - - -
   |   ------ `right.prism` reads `right.sphere`
   = help: put `right.sphere` (label 5), now at position 2, before position 1
   = rule: an order lists a value after all that it reaches
",
        },
    ],
    fields: &[
        &sheets::FIELDS,
        &values::TIES_FIELDS,
        &values::NAME_FIELDS,
        &values::OUTCOME_FIELDS,
    ],
    call,
};

const ORDER: &str = "--order";

/// The most bytes of a list: more than the longest names of all values of a
/// sheet take.
const MOST_BYTES: u64 = 1 << 24;

/// The most letters of an entry that a sentence repeats.
const QUOTED: usize = 40;

fn call(call: &Call, out: &mut Output) -> Result<Status, String> {
    let word = call.value(ORDER).ok_or("--order is missing")?;
    let list = entries(word)?;
    sheets::each(&call.operands, call, out, &|text| ask(text, &list))
}

/// What the list names, in its order.
fn entries(word: &OsStr) -> Result<Vec<String>, String> {
    let word = word.to_string_lossy();
    let trimmed = |entry: &str| entry.trim().to_string();
    match word.strip_prefix('@') {
        Some(file) => {
            let source = Source::of(file.as_ref());
            let list = source.read_whole(MOST_BYTES);
            let list = list.map_err(|reason| format!("{ORDER}: {}: {reason}", source.title()))?;
            let lines = String::from_utf8_lossy(&list);
            Ok(lines
                .lines()
                .map(trimmed)
                .filter(|line| !line.is_empty())
                .collect())
        }
        None if word.trim().is_empty() => Ok(vec![]),
        None => Ok(word.split(',').map(trimmed).collect()),
    }
}

fn ask<'a>(text: &'a Text, list: &[String]) -> Asked<'a> {
    let sheet = Sheet::read(&text.bytes)?;
    // 0 is no label: the library then refuses the list at this position
    let labels = list
        .iter()
        .map(|entry| labels::of(&sheet, entry).unwrap_or(0));
    let labels: Vec<Label> = labels.collect();
    let results = sheet
        .follow(&labels)
        .map_err(|refusal| named(refusal, list, &labels))?;
    let values = values::listed(&sheet, &labels, &results);
    Ok(Box::new(Followed { sheet, values }))
}

/// The refusal of a list; an entry that names nothing is said as it was given.
fn named(refusal: Refusal, list: &[String], labels: &[Label]) -> Refusal {
    let at = (refusal.place() as usize).wrapping_sub(1);
    match (&refusal, list.get(at), labels.get(at)) {
        (Refusal::Listed(fault), Some(entry), Some(0)) => {
            let mut fault = fault.clone();
            let start: String = entry.chars().take(QUOTED).collect();
            let rest = if start.len() < entry.len() { "..." } else { "" };
            let entry = format!("`{}{rest}`", input::shown(Path::new(&start)));
            fault.sentence = format!("{entry} is no label and no full name of the sheet");
            Refusal::Listed(fault)
        }
        _ => refusal,
    }
}

struct Followed<'a> {
    sheet: Sheet<'a>,
    values: Vec<Value>,
}

impl Answer for Followed<'_> {
    fn status(&self) -> Status {
        values::status(&self.values)
    }

    fn text(&self, paint: Paint) -> String {
        let table = values::table(&self.sheet, &self.values, paint);
        format!("{}\n\n{table}", values::headline_of(&self.values))
    }

    fn fields(&self) -> Object {
        values::ties_object(&self.sheet).with("values", values::json(&self.values))
    }
}
