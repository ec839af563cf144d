//! Definitions and expressions as text, with no more parentheses than it takes
//! to keep the tree.

use super::names;
use super::signs::{self, Strength};
use crate::build::{Content, Expression, Group, Node};
use crate::Ties;

/// One more Group around, up to a depth from which on it is not shown.
const INDENT: &str = "    ";
const DEEPEST: usize = 20;

/// The tie rule, where it is not the one that goes without saying, then all
/// definitions, each on a line of its own.
pub fn definitions(group: &Group) -> String {
    let mut text = match group.tie_rule() {
        Ties::Away => String::new(),
        ties => format!("{ties}\n"),
    };
    let mut depth = 0;
    for definition in group.definitions() {
        close(&mut text, depth, definition.depth);
        depth = definition.depth;
        let name = names::written(&definition.name);
        let line = match &definition.content {
            Content::Group => format!("{name} {{"),
            Content::Value(body) => format!("{name} = {}", formula(body, "")),
            Content::Function(body) => {
                let argument = names::argument(body);
                format!("{name}({argument}) = {}", formula(body, &argument))
            }
        };
        add(&mut text, depth, &line);
        depth += usize::from(definition.content == Content::Group);
    }
    close(&mut text, depth, 0);
    text
}

/// Closes the Groups from one depth out to another.
fn close(text: &mut String, from: usize, to: usize) {
    for depth in (to..from).rev() {
        add(text, depth, "}");
    }
}

fn add(text: &mut String, depth: usize, line: &str) {
    *text += &INDENT.repeat(depth.min(DEEPEST));
    *text += line;
    text.push('\n');
}

/// The formula of an expression already passed.
struct Piece {
    text: String,
    strength: Strength,
}

impl Piece {
    /// The text, in parentheses where it would fall apart.
    fn within(self, least: Strength) -> String {
        match self.strength < least {
            true => format!("({})", self.text),
            false => self.text,
        }
    }
}

/// The formula, with a name for the argument.
pub fn formula(expression: &Expression, argument: &str) -> String {
    // backward, so that the operands of a node are the last pieces, a on top
    let mut pieces = vec![];
    for node in expression.nodes().iter().rev() {
        let piece = piece(node, argument, &mut pieces);
        pieces.push(piece);
    }
    pieces.pop().map_or(String::new(), |piece| piece.text)
}

fn piece(node: &Node, argument: &str, operands: &mut Vec<Piece>) -> Piece {
    let mut operand = |least| operands.pop().map_or(String::new(), |it| it.within(least));
    let mut strength = Strength::Operand;
    let text = match node {
        Node::Number(number) => number.to_string(),
        Node::Argument => argument.to_string(),
        Node::Read(path) => names::written_path(path),
        Node::Call(path) => {
            let argument = operand(Strength::Choice);
            format!("{}({argument})", names::written_path(path))
        }
        Node::Sum | Node::Difference | Node::Product | Node::Quotient => {
            let (sign, own) = signs::of_node(node).unwrap_or((' ', strength));
            strength = own;
            let (a, b) = (operand(own), operand(own.next()));
            format!("{a} {sign} {b}")
        }
        Node::Choice => {
            strength = Strength::Choice;
            let (test, then) = (operand(Strength::Sum), operand(Strength::Sum));
            let otherwise = operand(Strength::Choice);
            format!("if {test} then {then} else {otherwise}")
        }
    };
    Piece { text, strength }
}
