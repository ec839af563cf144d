//! Expressions as flat lists, so that none is too deep to copy, drop or number.

use std::ops;

use super::MOST_LINES;
use crate::{Kind, Label, Sheet};

/// One line of an expression.
#[derive(Debug, Clone, PartialEq, Eq, Hash)]
pub(crate) enum Node {
    Number(i64),
    Argument,
    Read(String),
    Call(String),
    Sum,
    Difference,
    Product,
    Quotient,
    Choice,
}

impl Node {
    pub fn kind(&self) -> Kind {
        match self {
            Node::Number(_) => Kind::Number,
            Node::Argument => Kind::Argument,
            Node::Read(_) => Kind::Read,
            Node::Call(_) => Kind::Call,
            Node::Sum => Kind::Sum,
            Node::Difference => Kind::Difference,
            Node::Product => Kind::Product,
            Node::Quotient => Kind::Quotient,
            Node::Choice => Kind::Choice,
        }
    }

    /// How many operands it has.
    pub fn operands(&self) -> usize {
        match self {
            Node::Number(_) | Node::Argument | Node::Read(_) => 0,
            Node::Call(_) => 1,
            Node::Sum | Node::Difference | Node::Product | Node::Quotient => 2,
            Node::Choice => 3,
        }
    }

    /// The path of a read or call.
    pub fn path(&self) -> Option<&str> {
        match self {
            Node::Read(path) | Node::Call(path) => Some(path),
            _ => None,
        }
    }

    /// The line of a label, and the labels of its operands; `None` where it is
    /// no expression.
    fn of_line(sheet: &Sheet, label: Label) -> Option<(Node, [i64; 3])> {
        let line = sheet.line(label)?;
        let path = || line.name.unwrap_or_default().to_string();
        let node = match line.kind {
            Kind::Group | Kind::Value | Kind::Function => return None,
            Kind::Number => Node::Number(line.a),
            Kind::Argument => Node::Argument,
            Kind::Read => Node::Read(path()),
            Kind::Call => Node::Call(path()),
            Kind::Sum => Node::Sum,
            Kind::Difference => Node::Difference,
            Kind::Product => Node::Product,
            Kind::Quotient => Node::Quotient,
            Kind::Choice => Node::Choice,
        };
        Some((node, [line.a, line.b, line.c]))
    }
}

/// The body of a value or function.
#[derive(Debug, Clone, PartialEq, Eq, Hash)]
pub struct Expression {
    /// Each followed by all of operand a, then of b, then of c. Of more than a
    /// sheet can have none is kept.
    nodes: Vec<Node>,
    /// How many there are.
    count: usize,
}

impl Expression {
    /// Nodes that are each followed by all of their operands.
    pub(crate) fn of_nodes(nodes: Vec<Node>) -> Self {
        let count = nodes.len();
        Expression { nodes, count }
    }

    pub(crate) fn nodes(&self) -> &[Node] {
        &self.nodes
    }

    /// How many lines it takes.
    pub(crate) fn lines(&self) -> usize {
        self.count
    }

    fn leaf(node: Node) -> Self {
        Expression::of_nodes(vec![node])
    }

    /// A node before its operands.
    fn over<const COUNT: usize>(node: Node, operands: [Expression; COUNT]) -> Self {
        let mut nodes = vec![node];
        let mut count: usize = 1;
        for operand in operands {
            count = count.saturating_add(operand.count);
            nodes.extend(operand.nodes);
        }
        if count > MOST_LINES {
            nodes.clear();
        }
        Expression { nodes, count }
    }

    /// What stands at a label of a sheet that reads; `None` where that is no
    /// expression.
    pub(crate) fn of_sheet(sheet: &Sheet, label: Label) -> Option<Self> {
        let mut nodes = vec![];
        let mut waiting = vec![label];
        while let Some(label) = waiting.pop() {
            let (node, fields) = Node::of_line(sheet, label)?;
            let operands = fields.iter().take(node.operands()).rev();
            waiting.extend(operands.map(|&operand| operand as Label));
            nodes.push(node);
        }
        Some(Expression::of_nodes(nodes))
    }
}

/// N: a number, from -1,000,000,000 to 1,000,000,000.
pub fn number(number: i64) -> Expression {
    Expression::leaf(Node::Number(number))
}

/// P: the argument of the function.
pub fn argument() -> Expression {
    Expression::leaf(Node::Argument)
}

/// R: reads the value that a path leads to.
pub fn read(path: impl Into<String>) -> Expression {
    Expression::leaf(Node::Read(path.into()))
}

/// C: calls the function that a path leads to.
pub fn call(path: impl Into<String>, argument: impl Into<Expression>) -> Expression {
    Expression::over(Node::Call(path.into()), [argument.into()])
}

/// I: the second where the first is not 0, else the third.
pub fn choice(
    test: impl Into<Expression>,
    then: impl Into<Expression>,
    otherwise: impl Into<Expression>,
) -> Expression {
    let operands = [test.into(), then.into(), otherwise.into()];
    Expression::over(Node::Choice, operands)
}

impl From<i64> for Expression {
    fn from(it: i64) -> Self {
        number(it)
    }
}

/// A sign between two expressions, or between an expression and a number.
macro_rules! operation {
    ($operation:ident, $method:ident, $node:ident) => {
        impl<T: Into<Expression>> ops::$operation<T> for Expression {
            type Output = Expression;
            fn $method(self, other: T) -> Expression {
                Expression::over(Node::$node, [self, other.into()])
            }
        }

        impl ops::$operation<Expression> for i64 {
            type Output = Expression;
            fn $method(self, other: Expression) -> Expression {
                number(self).$method(other)
            }
        }
    };
}

operation!(Add, add, Sum);
operation!(Sub, sub, Difference);
operation!(Mul, mul, Product);
operation!(Div, div, Quotient);
