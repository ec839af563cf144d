//! `lindypo show`: a sheet as formulas.

use lindypo::{formula, Sheet};

use crate::document::{self, Document, Made, Maker};
use crate::input::Source;
use crate::options::Call;
use crate::output::Output;
use crate::sheets;
use crate::status::Status;
use crate::values;
use crate::words::{Example, Field, Word};

pub const WORD: Word = Word {
    name: "show",
    summary: "shows a sheet as formulas",
    operands: "[FILE]",
    about: "\
Shows what a sheet defines as formulas: values, functions and Groups, the members of each Group in
the sequence of their labels. docs/LANGUAGE.md has the grammar. `lindypo write` makes a sheet of
them again, the same but for its labels. A sheet that has halves go to the even neighbour is shown
with the words `halves to even` first. A refused sheet is explained on standard error.
",
    options: &document::OPTIONS,
    examples: &[
        Example {
            words: "show sheets/04b-even-of-1.sheet",
            print: "\
first {
    even(x) = if x then second.odd(x - 1) else 1
}
second {
    odd(x) = if x then first.even(x - 1) else 0
}
answer = first.even(1)
",
        },
        Example {
            words: "show sheets/order-5-even.sheet",
            print: "\
halves to even
sphere = -3250 / 100
thin = 50 / 100
base = 250 / -100
edge = 150 / 100
prism = percent(sphere * 100 + 50)
percent(x) = x / 100
",
        },
    ],
    fields: &[&sheets::FIELDS, &values::TIES_FIELDS, &FIELDS],
    call,
};

const FIELDS: [Field; 1] = [("formulas", "all formulas, as text")];

fn call(call: &Call, out: &mut Output) -> Result<Status, String> {
    let maker = Maker {
        read: Source::read,
        make: &make,
        sort: None,
    };
    document::one(call, out, maker)
}

fn make(text: &[u8], source: &Source) -> Made {
    let read = Sheet::read(text);
    let sheet = read.map_err(|refusal| document::refused(text, source, &refusal))?;
    let formulas = formula::show(&sheet);
    Ok(Document {
        fields: values::ties_object(&sheet).with("formulas", formulas.as_str()),
        text: formulas.into_bytes(),
        status: Status::Answered,
    })
}
