//! The signs between operands, and how firmly each holds.

use crate::build::Node;

/// How firmly a formula holds together.
#[derive(Debug, Clone, Copy, PartialEq, Eq, PartialOrd, Ord)]
pub enum Strength {
    Choice,
    Sum,
    Product,
    Operand,
}

impl Strength {
    /// What the operand on the right of a sign has to have at least: signs of
    /// one strength go from the left.
    pub fn next(self) -> Strength {
        match self {
            Strength::Choice => Strength::Sum,
            Strength::Sum => Strength::Product,
            Strength::Product | Strength::Operand => Strength::Operand,
        }
    }
}

const SIGNS: [(char, Node, Strength); 4] = [
    ('+', Node::Sum, Strength::Sum),
    ('-', Node::Difference, Strength::Sum),
    ('*', Node::Product, Strength::Product),
    ('/', Node::Quotient, Strength::Product),
];

/// What a sign stands for.
pub fn of_char(sign: char) -> Option<(Node, Strength)> {
    let found = SIGNS.into_iter().find(|(of, ..)| *of == sign);
    found.map(|(_, node, strength)| (node, strength))
}

/// The sign that stands for a node.
pub fn of_node(node: &Node) -> Option<(char, Strength)> {
    let found = SIGNS.into_iter().find(|(_, of, _)| of == node);
    found.map(|(sign, _, strength)| (sign, strength))
}
