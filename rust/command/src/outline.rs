//! The tree of Groups as text, and its definitions as JSON.

use lindypo::{formula, Kind, Sheet};

use crate::formulas;
use crate::json::{Json, Object};
use crate::output::Paint;
use crate::table::{self, figures, words, Cell, Column};
use crate::tree::{Node, Span};
use crate::values;
use crate::words::Field;

const COLUMNS: [Column; 7] = [
    words("definition"),
    figures("label"),
    figures("position"),
    figures("number"),
    figures("steps"),
    words("state"),
    words("formula"),
];

type Row = [Cell; COLUMNS.len()];

/// The JSON of definitions.
pub const FIELDS: [Field; 15] = [
    (
        "definitions",
        "the definitions as the tree has them, a Group before its members:",
    ),
    ("definitions.label", "its label"),
    (
        "definitions.name",
        "its full name; empty for the outermost Group",
    ),
    ("definitions.line", "the line that it stands in, from 1"),
    ("definitions.kind", "Group, value or function"),
    (
        "definitions.group",
        "the label of its Group; the outermost has none",
    ),
    (
        "definitions.first",
        "the first position in the plan of a value under it, from 1",
    ),
    ("definitions.last", "the last such position"),
    (
        "definitions.mixed",
        "of a Group: whether values of others stand between its own",
    ),
    ("definitions.formula", "of a value or function: its formula"),
    (
        "definitions.argument",
        "of a function: what its formula calls the argument",
    ),
    ("definitions.state", "of a value: 1 a number, 2 to 5 none"),
    ("definitions.number", "the number, in state 1"),
    (
        "definitions.failure",
        "why there is no number, in every other state",
    ),
    ("definitions.steps", "the steps that it took"),
];

/// All definitions, each in a line.
pub fn table(sheet: &Sheet, outermost: &Node, paint: Paint) -> String {
    let mut rows = vec![];
    add(&mut rows, sheet, outermost, "", "");
    table::aligned(COLUMNS, &rows, paint)
}

/// The row of a node and those of all under it. `branch` leads to the node
/// itself, `beneath` to what is under it.
fn add(rows: &mut Vec<Row>, sheet: &Sheet, node: &Node, branch: &str, beneath: &str) {
    rows.push(row(sheet, node, branch));
    let last = node.members.len().saturating_sub(1);
    for (at, member) in node.members.iter().enumerate() {
        let (branch, under) = match at == last {
            true => ("└─ ", "   "),
            false => ("├─ ", "│  "),
        };
        let (branch, under) = (format!("{beneath}{branch}"), format!("{beneath}{under}"));
        add(rows, sheet, member, &branch, &under);
    }
}

fn row(sheet: &Sheet, node: &Node, branch: &str) -> Row {
    let outcome = node.outcome;
    let [number, state] = match outcome {
        Some(outcome) => values::state_cells(outcome.state),
        None => [Cell::default(), Cell::from(kind(node))],
    };
    [
        Cell::from(format!("{branch}{}", node.title())),
        Cell::from(node.line.label),
        Cell::from(node.span.map_or(String::new(), positions)),
        number,
        outcome.map_or(Cell::default(), |outcome| Cell::from(outcome.steps)),
        state,
        Cell::from(formulas::shown(sheet, node.line.label)),
    ]
}

pub fn positions(span: Span) -> String {
    match span.first == span.last {
        true => span.first.to_string(),
        false => format!("{}-{}", span.first, span.last),
    }
}

/// What a definition is that is no value.
fn kind(node: &Node) -> &'static str {
    match node.line.kind {
        Kind::Group if node.is_mixed() => "Group, mixed",
        Kind::Group => "Group",
        _ => "function",
    }
}

/// The definitions, each Group before what is under it.
pub fn json(sheet: &Sheet, outermost: &Node) -> Json {
    let mut objects = vec![];
    add_objects(&mut objects, sheet, outermost);
    objects.into_iter().collect()
}

fn add_objects(objects: &mut Vec<Object>, sheet: &Sheet, node: &Node) {
    objects.push(object(sheet, node));
    for member in &node.members {
        add_objects(objects, sheet, member);
    }
}

fn object(sheet: &Sheet, node: &Node) -> Object {
    let label = node.line.label;
    let mixed = (node.line.kind == Kind::Group).then(|| node.is_mixed());
    let object = values::name_object(label, &sheet.full_name(label))
        .with("kind", node.line.kind.to_string())
        .with_some("group", node.line.owner)
        .with_some("first", node.span.map(|span| span.first))
        .with_some("last", node.span.map(|span| span.last))
        .with_some("mixed", mixed)
        .with_some("formula", formula::of(sheet, label))
        .with_some("argument", formula::argument(sheet, label));
    match node.outcome {
        Some(outcome) => object.and(values::outcome_object(outcome)),
        None => object,
    }
}
