//! `lindypo explain`: a sheet in words, or as a picture.

use lindypo::{Run, Sheet};

use crate::blocks::{self, Tangle};
use crate::json::Object;
use crate::options::{Call, Opt};
use crate::outline;
use crate::output::{Output, Paint};
use crate::picture;
use crate::sheets::{self, Answer, Asked, Text};
use crate::status::Status;
use crate::tangles;
use crate::tree::Node;
use crate::values;
use crate::words::{Example, Word};

pub const WORD: Word = Word {
    name: "explain",
    summary: "says why a sheet is refused, or shows its values with their formulas",
    operands: "[FILE...]",
    about: "\
Says in words what `lindypo run` says in numbers. A refused sheet is shown with the place to mend
marked. One that runs is shown as the tree of its Groups: members stand in the order in which the
plan evaluates them, functions and Groups without values after them. Long formulas are cut; --json
has them whole. `lindypo why` says where the failure of a value began. The first line ends with the
tie rule that line one of the sheet names: halves away from zero, or to even.

Where the plan is mixed, some members of a Group need each other around a cycle. They are named
after the tree, with the lines by which each needs the next, and a value whose move undoes it.

A picture has a card for each value and function, in boxes for the Groups, an arrow for each
mention, and an outline around members that need each other; where the pointer rests, it says
more. With more than 60 cards, Groups are folded into one card each, the innermost first, as far
as it takes. PICTURE is written over only where it is a picture that was drawn so.
",
    options: &[
        Opt {
            name: LIST,
            value: None,
            meaning: "a flat list in the order of the plan, with full names, in place of the tree",
        },
        picture::SVG,
        picture::FOCUS,
        picture::FOLD,
    ],
    examples: &[
        Example {
            words: "explain sheets/order-5-even.sheet",
            print: "\
5 of 5 values have a number; whole plan: the values of every Group stand together; halves to even

definition       label  position  number  steps  state     formula
outermost Group      1       1-5                 Group
├─ sphere            2         1     -32      3  a number  = -3250 / 100
├─ thin              3         2       0      3  a number  = 50 / 100
├─ base              4         3      -2      3  a number  = 250 / -100
├─ edge              5         4       2      3  a number  = 150 / 100
├─ prism             6         5     -32      9  a number  = percent(sphere * 100 + 50)
└─ percent           7                           function  (x) = x / 100
",
        },
        Example {
            words: "explain sheets/refusal-14-later-name-not-found.sheet",
            print: "\
refusal 14: the Group `right` has no member `prism`
 --> sheets/refusal-14-later-name-not-found.sheet:7:9 (label 6)
  |
4 | V prism 1 5 -
  |   ----- `prism` is in the outermost Group: write `prism`
7 | R right.prism - - -
  |         ^^^^^
  = help: the Group `right` has no members
  = rule: each later name of a path is a member of the Group that the names before it lead to
",
        },
    ],
    fields: &[
        &sheets::FIELDS,
        &values::ORDER_FIELDS,
        &values::TIES_FIELDS,
        &outline::FIELDS,
        &tangles::FIELDS,
    ],
    call,
};

const LIST: &str = "--list";
fn call(call: &Call, out: &mut Output) -> Result<Status, String> {
    let is_list = call.is_set(LIST);
    let [svg, focus, fold] = [picture::SVG, picture::FOCUS, picture::FOLD].map(|opt| opt.name);
    match call.value(svg) {
        Some(_) if is_list || call.wants_json() => Err(format!("{svg} draws, and writes no words")),
        Some(file) => picture::draw_sheet(file, call, out),
        None if call.is_set(focus) || call.is_set(fold) => Err(format!(
            "{focus} and {fold} are for pictures: {svg} draws one"
        )),
        None => sheets::each(&call.operands, call, out, &|text| ask(text, is_list)),
    }
}

pub fn ask(text: &Text, is_list: bool) -> Asked<'_> {
    let (sheet, run) = sheets::ran(&text.bytes)?;
    Ok(Box::new(Explained {
        tangles: blocks::of_run(&sheet, &run),
        sheet,
        run,
        is_list,
    }))
}

struct Explained<'a> {
    sheet: Sheet<'a>,
    run: Run,
    tangles: Vec<Tangle>,
    /// Whether a flat list is wanted.
    is_list: bool,
}

impl Answer for Explained<'_> {
    fn status(&self) -> Status {
        values::status(&values::of_run(&self.sheet, &self.run))
    }

    fn text(&self, paint: Paint) -> String {
        let values = values::of_run(&self.sheet, &self.run);
        let outermost = Node::outermost(&self.sheet, &self.run);
        let (headline, meaning, ties) = (
            values::headline_of(&values),
            values::meaning(self.run.plan.order),
            self.sheet.ties(),
        );
        let rows = match self.is_list {
            true => values::table(&self.sheet, &values, paint),
            false => outline::table(&self.sheet, &outermost, paint),
        };
        let tangles = tangles::text(&self.sheet, &outermost, &self.tangles, paint);
        format!("{headline}; {meaning}; {ties}\n\n{rows}{tangles}")
    }

    fn fields(&self) -> Object {
        let outermost = Node::outermost(&self.sheet, &self.run);
        let definitions = outline::json(&self.sheet, &outermost);
        let tangles = tangles::json(&self.sheet, &outermost, &self.tangles);
        values::run_object(&self.sheet, &self.run)
            .with("definitions", definitions)
            .with("tangles", tangles)
    }
}
