//! `lindypo check`: many sheets, a line for all that is wrong with each, and a
//! summary.

mod cores;
mod files;
mod progress;
mod report;
mod summary;
mod verdict;

use crate::options::{Call, Opt};
use crate::output::Output;
use crate::sheets;
use crate::status::Status;
use crate::words::{Example, Word};
use progress::Progress;
use report::Report;

pub use files::{items, Item};
pub use summary::Summary;
pub use verdict::{Failed, Figures, Verdict};

pub const WORD: Word = Word {
    name: "check",
    summary: "checks sheets and whole folders: a line for all that is wrong, and a summary",
    operands: "[FILE or FOLDER...]",
    about: "\
Runs every sheet, on all cores. A refused sheet is a line FILE:LINE:COLUMN: refusal NUMBER: what
is wrong; a value without a number is a line FILE:LINE:COLUMN: value NAME: why. A summary follows.
A folder stands for its files that end in .sheet; its other files are named as not taken, and a
folder without a sheet is an error.
",
    options: &[Opt {
        name: ALL,
        value: None,
        meaning: "a line for every fault of a refused sheet, not for the first alone",
    }],
    examples: &[Example {
        words:
            "check sheets/01-example.sheet sheets/06-endless-calls.sheet sheets/09-used-twice.sheet",
        print: "\
sheets/06-endless-calls.sheet:4:3: value endless: a call at depth 64
sheets/09-used-twice.sheet:5:1: refusal 9: this expression is used twice, by label 3

3 sheets, 1 refused; 3 of 4 values have a number

answered, plan whole                 2
answered, plan mixed                 0
refused                              1
  refusal 9                          1  use of an expression     sheets/09-used-twice.sheet
values                               4
  a number                           3
  a call at depth 64                 1
steps                              139
",
    }],
    fields: &[&sheets::FIELDS, &report::FIELDS],
    call,
};

const ALL: &str = "--all";

fn call(call: &Call, out: &mut Output) -> Result<Status, String> {
    let items = files::items(&call.operands, call.has_input)?;
    let mut progress = Progress::new(items.len());
    let mut report = Report::new(call.wants_json());
    let all = call.is_set(ALL);
    let judge = |item: &Item| Verdict::of(item, all);
    cores::in_sequence(&items, judge, |item, verdict| {
        report.add(item, &verdict, out);
        progress.advance();
    });
    progress.end();
    Ok(report.end(out))
}
