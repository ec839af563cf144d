//! `lindypo run`: the print of document 01's program.

use lindypo::{raw, Refusal, Run, Sheet};

use crate::json::Object;
use crate::options::Call;
use crate::output::{Output, Paint};
use crate::sheets::{self, Answer, Asked, Refused, Text};
use crate::status::Status;
use crate::values;
use crate::words::{Example, Word};

pub const WORD: Word = Word {
    name: "run",
    summary: "evaluates sheets and prints their values",
    operands: "[FILE...]",
    about: "\
Evaluates each sheet and prints its values in the order of the plan, in numbers alone: label,
name, whole or mixed, state (1 a number, 2 out of range, 3 a zero divisor, 4 out of steps, 5 too
deep), number, steps. A refused sheet prints the number and place of its refusal. Each print is
the proved library's; of several sheets, each stands under a line `file FILE`.
",
    options: &[],
    examples: &[
        Example {
            words: "run sheets/01-example.sheet",
            print: "\
label name order state number steps
5 sphere whole 1 -325 1
4 prism whole 1 -33 5
2 total whole 1 -28 3
",
        },
        Example {
            words: "run sheets/09-used-twice.sheet",
            print: "\
refusal place
9 4
",
        },
    ],
    fields: &[
        &sheets::FIELDS,
        &values::ORDER_FIELDS,
        &values::TIES_FIELDS,
        &values::NAME_FIELDS,
        &values::OUTCOME_FIELDS,
    ],
    call,
};

fn call(call: &Call, out: &mut Output) -> Result<Status, String> {
    let status = sheets::each(&call.operands, call, out, &ask)?;
    if status == Status::Failed && !call.wants_json() {
        out.hint("`lindypo explain` says in words what is wrong, and where");
    }
    Ok(status)
}

fn ask(text: &Text) -> Asked<'_> {
    let ran = sheets::ran(&text.bytes);
    Ok(Box::new(Printed { text, ran }))
}

/// A sheet with what it comes to. A refusal is part of the print.
struct Printed<'a> {
    text: &'a Text,
    ran: Result<(Sheet<'a>, Run), Refusal>,
}

impl Answer for Printed<'_> {
    fn status(&self) -> Status {
        match &self.ran {
            Ok((sheet, run)) => values::status(&values::of_run(sheet, run)),
            Err(_) => Status::Failed,
        }
    }

    fn text(&self, _: Paint) -> String {
        print(&self.text.bytes)
    }

    fn fields(&self) -> Object {
        match &self.ran {
            Ok((sheet, run)) => {
                let values = values::json(&values::of_run(sheet, run));
                values::run_object(sheet, run).with("values", values)
            }
            Err(refusal) => Refused::new(self.text, refusal).fields(),
        }
    }
}

/// The print as the library gives it, which is ASCII.
fn print(text: &[u8]) -> String {
    let mut print = vec![0; raw::PRINT_MOST];
    let printed = raw::print(text, &mut print);
    print.truncate(printed.length as usize);
    String::from_utf8_lossy(&print).into_owned()
}
