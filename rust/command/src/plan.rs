//! `lindypo plan`: the order of evaluation.

use lindypo::{Label, Plan, Sheet};

use crate::json::{Json, Object};
use crate::numerals::counted;
use crate::options::{Call, Opt};
use crate::output::{Output, Paint};
use crate::sheets::{self, Answer, Asked, Text};
use crate::status::Status;
use crate::table::{self, figures, words, Cell, Column};
use crate::values;
use crate::words::{Example, Word};

pub const WORD: Word = Word {
    name: "plan",
    summary: "lists values in the order in which they are evaluated",
    operands: "[FILE...]",
    about: "\
Settles the order in which the values of each sheet are evaluated, and lists them. The plan is
whole where the values of every Group stand together, mixed where no order keeps them so: then
members of a Group that need each other are opened, and the others are not. `lindypo explain` says
which, and why.
",
    options: &[Opt {
        name: NAMES,
        value: None,
        meaning: "full names alone, one a line, as `lindypo follow --order @FILE` takes them",
    }],
    examples: &[Example {
        words: "plan sheets/01-example.sheet",
        print: "\
3 values, whole plan: the values of every Group stand together

position  label  name
       1      5  right.sphere
       2      4  right.prism
       3      2  total
",
    }],
    fields: &[&sheets::FIELDS, &values::ORDER_FIELDS, &values::NAME_FIELDS],
    call,
};

const NAMES: &str = "--names";

const COLUMNS: [Column; 3] = [figures("position"), figures("label"), words("name")];

fn call(call: &Call, out: &mut Output) -> Result<Status, String> {
    let are_alone = call.is_set(NAMES);
    sheets::each(&call.operands, call, out, &|text| ask(text, are_alone))
}

fn ask(text: &Text, are_alone: bool) -> Asked<'_> {
    let sheet = Sheet::read(&text.bytes)?;
    let plan = sheet.plan()?;
    let names = plan.labels.iter().map(|&label| sheet.full_name(label));
    Ok(Box::new(Planned {
        names: names.collect(),
        plan,
        are_alone,
    }))
}

struct Planned {
    plan: Plan,
    /// Of the plan's labels, in its order.
    names: Vec<String>,
    /// Whether only names are wanted.
    are_alone: bool,
}

impl Planned {
    fn named(&self) -> impl Iterator<Item = (Label, &String)> {
        self.plan.labels.iter().copied().zip(&self.names)
    }
}

impl Answer for Planned {
    fn status(&self) -> Status {
        Status::Answered
    }

    fn text(&self, paint: Paint) -> String {
        if self.are_alone {
            return self.names.iter().map(|name| format!("{name}\n")).collect();
        }
        let count = counted(self.names.len() as u64, "value");
        let meaning = values::meaning(self.plan.order);
        let row = |(position, (label, name)): (usize, (Label, &String))| {
            [Cell::from(position), Cell::from(label), Cell::from(name)]
        };
        let rows: Vec<_> = (1..).zip(self.named()).map(row).collect();
        format!(
            "{count}, {meaning}\n\n{}",
            table::aligned(COLUMNS, &rows, paint)
        )
    }

    fn fields(&self) -> Object {
        let names = self
            .named()
            .map(|(label, name)| values::name_object(label, name));
        values::order_object(self.plan.order).with("values", names.collect::<Json>())
    }
}
