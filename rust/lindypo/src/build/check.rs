//! What of a sheet's rules a program can break: rows 1, 3, 7, 10 and 11. The
//! others up to row 11 hold however the definitions are made.

use super::mistake::Place;
use super::{Content, Definition, Expression, Mistake, Node};
use crate::diagnosis::forms::Form;
use crate::diagnosis::words::quoted;

pub(crate) const MOST_LINES: usize = 1_024;
const MOST_BYTES: usize = 65_536;
const MOST_LEVELS: usize = 32;

/// Row, node where it is in one, and sentence.
type Finding = (u64, Option<usize>, String);

/// Row 1.
pub fn bytes(text: &[u8]) -> Result<(), Mistake> {
    within(text.len(), MOST_BYTES, "bytes", 1)
}

/// Row 3: the lines of all definitions and bodies, and that of label 1.
pub fn lines(lines: usize) -> Result<(), Mistake> {
    within(lines.saturating_add(1), MOST_LINES, "lines", 3)
}

fn within(count: usize, most: usize, what: &str, row: u64) -> Result<(), Mistake> {
    match count <= most {
        true => Ok(()),
        false => Err(Mistake {
            row,
            definition: None,
            sentence: format!("the sheet would have {count} {what}; at most {most} are allowed"),
            place: Place::Sheet,
        }),
    }
}

/// Rows 7, 10 and 11, down the definitions.
pub fn definitions(definitions: &[Definition]) -> Result<(), Mistake> {
    for (at, definition) in definitions.iter().enumerate() {
        if let Some((row, node, sentence)) = definition_alone(definition) {
            return Err(Mistake {
                row,
                definition: Some(title(definitions, at)),
                sentence,
                place: node.map_or(Place::Definition(at), |node| Place::Node(at, node)),
            });
        }
    }
    Ok(())
}

fn definition_alone(definition: &Definition) -> Option<Finding> {
    let name = &definition.name;
    if let Some(sentence) = form(Form::Name, name) {
        return Some((7, None, sentence));
    }
    let body = definition.content.body()?;
    let has_argument = matches!(definition.content, Content::Function(_));
    let levels = levels(body);
    let nodes = body.nodes().iter().zip(levels).enumerate();
    let mut findings = nodes.filter_map(|(at, (node, level))| {
        let (row, sentence) = node_alone(node, level, has_argument)?;
        Some((row, Some(at), sentence))
    });
    findings.next()
}

fn node_alone(node: &Node, level: usize, has_argument: bool) -> Option<(u64, String)> {
    let wrong_form = match node {
        Node::Read(path) | Node::Call(path) => form(Form::Path, path),
        Node::Number(number) => form(Form::Number, &number.to_string()),
        _ => None,
    };
    if let Some(sentence) = wrong_form {
        return Some((7, sentence));
    }
    if *node == Node::Argument && !has_argument {
        let sentence = "the argument stands in it; only a function has one";
        return Some((10, sentence.to_string()));
    }
    let sentence =
        || format!("an expression is at level {level}; at most {MOST_LEVELS} levels are allowed");
    (level > MOST_LEVELS).then(|| (11, sentence()))
}

/// Row 7.
fn form(form: Form, field: &str) -> Option<String> {
    let wanted = form.words(0);
    let sentence = || format!("{} is not {wanted}", quoted(field));
    (!form.fits(field, 0)).then(sentence)
}

/// The level of each node: a body has level 1, its operands level 2, and so on.
fn levels(body: &Expression) -> impl Iterator<Item = usize> + '_ {
    // of the nodes around, how many operands are still to come
    let mut around: Vec<usize> = vec![];
    body.nodes().iter().map(move |node| {
        if let Some(left) = around.last_mut() {
            *left -= 1;
        }
        let level = around.len() + 1;
        around.push(node.operands());
        while around.last() == Some(&0) {
            around.pop();
        }
        level
    })
}

/// A definition's kind and full name: "the value `right.prism`".
fn title(definitions: &[Definition], at: usize) -> String {
    let mut names = vec![];
    let mut depth = definitions[at].depth + 1;
    for definition in definitions[..=at].iter().rev() {
        if definition.depth < depth {
            depth = definition.depth;
            names.push(definition.name.as_str());
        }
    }
    names.reverse();
    let kind = definitions[at].content.kind();
    format!("the {kind} {}", quoted(&names.join(".")))
}
