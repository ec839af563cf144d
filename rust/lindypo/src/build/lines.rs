//! Labels for all, and the text.

use super::{Content, Definition, Expression, Node};
use crate::{Kind, Label, Ties};

const OUTERMOST: Label = 1;
const MISSING: &str = "-";

/// The sheet of these definitions: line one, label 1, they, then their bodies.
pub fn text(ties: Ties, definitions: &[Definition]) -> Vec<u8> {
    let mut lines = format!("{}\n", ties.first_line());
    line(&mut lines, Kind::Group, MISSING, &[0]);
    let mut groups = vec![OUTERMOST];
    let mut body = definitions.len() + 2;
    for (label, definition) in (OUTERMOST + 1..).zip(definitions) {
        let Definition { depth, name, .. } = definition;
        groups.truncate(depth + 1);
        let fields = [groups[*depth] as i64, body as i64];
        let used = match &definition.content {
            Content::Group => 1,
            Content::Value(_) | Content::Function(_) => 2,
        };
        line(&mut lines, definition.content.kind(), name, &fields[..used]);
        groups.push(label);
        body += definition.content.body().map_or(0, |it| it.nodes().len());
    }
    let mut first = definitions.len() + 2;
    for body in definitions.iter().filter_map(|it| it.content.body()) {
        expression(&mut lines, body, first);
        first += body.nodes().len();
    }
    lines.into_bytes()
}

/// The lines of a body, the first with this label.
fn expression(lines: &mut String, body: &Expression, first: Label) {
    for (node, operands) in body.nodes().iter().zip(operands(body)) {
        let labels: Vec<i64> = operands.iter().map(|&at| (first + at) as i64).collect();
        let name = node.path().unwrap_or(MISSING);
        match node {
            Node::Number(number) => line(lines, node.kind(), name, &[*number]),
            _ => line(lines, node.kind(), name, &labels),
        }
    }
}

/// The operands of each node, by their places in the list.
fn operands(body: &Expression) -> Vec<Vec<usize>> {
    let mut found = vec![];
    // backward, so that the operands of a node are the last ones passed
    let mut passed: Vec<usize> = vec![];
    for (at, node) in body.nodes().iter().enumerate().rev() {
        let mut own = passed.split_off(passed.len() - node.operands());
        own.reverse();
        found.push(own);
        passed.push(at);
    }
    found.reverse();
    found
}

fn line(lines: &mut String, kind: Kind, name: &str, fields: &[i64]) {
    lines.push(kind.letter());
    *lines += &format!(" {name}");
    for at in 0..3 {
        match fields.get(at) {
            Some(field) => *lines += &format!(" {field}"),
            None => *lines += &format!(" {MISSING}"),
        }
    }
    lines.push('\n');
}
