//! What is said where the pointer rests: the lines of a `<title>`.

use std::collections::BTreeMap;

use lindypo::{formula, Label, Outcome, Sheet, State};

use super::cards::contents;
use super::view::View;
use crate::markup::escaped;
use crate::mentions::Mention;
use crate::numerals::counted;
use crate::outline::positions;
use crate::tree::Node;

/// The most sentences of an arrow between folded Groups.
const SENTENCES: usize = 12;

/// The element, before what it is about.
pub fn element(lines: &[String]) -> String {
    let lines: Vec<String> = lines.iter().map(|line| escaped(line)).collect();
    match lines.is_empty() {
        true => String::new(),
        false => format!("<title>{}</title>", lines.join("\n")),
    }
}

/// A value or function: what it is, its formula, and what it comes to.
pub fn definition(sheet: &Sheet, node: &Node) -> Vec<String> {
    let label = node.line.label;
    let argument = formula::argument(sheet, label);
    let argument = argument.map_or(String::new(), |name| format!("({name}) "));
    let formula = formula::of(sheet, label).unwrap_or_default();
    let mut lines = vec![place(sheet, node), format!("{argument}= {formula}")];
    if let (Some(outcome), Some(span)) = (node.outcome, node.span) {
        lines.push(format!("{}, position {}", came_to(outcome), span.first));
    }
    lines
}

/// A Group: what it is, what is in it and where that stands in the plan.
pub fn group(sheet: &Sheet, view: &View) -> Vec<String> {
    let node = view.node;
    let at = match node.span {
        Some(span) if span.count > 1 => format!(", positions {}", positions(span)),
        Some(span) => format!(", position {}", span.first),
        None => String::new(),
    };
    let mut lines = vec![place(sheet, node), format!("{}{at}", contents(view))];
    if node.is_mixed() {
        lines.push("mixed: values of others stand between its own".to_string());
    }
    lines
}

/// "value right.prism, label 4, line 5".
fn place(sheet: &Sheet, node: &Node) -> String {
    let (kind, label) = (node.line.kind, node.line.label);
    let name = match sheet.full_name(label) {
        name if name.is_empty() => node.title().to_string(),
        name => format!("{kind} {name}"),
    };
    format!("{name}, label {label}, line {}", label + 1)
}

fn came_to(outcome: Outcome) -> String {
    let steps = counted(u64::from(outcome.steps), "step");
    match outcome.state {
        State::Number(number) => format!("{number} in {steps}"),
        failure => format!("no number: {failure}, after {steps}"),
    }
}

/// An arrow: who mentions whom, and by which lines of the sheet.
pub fn arrow(sheet: &Sheet, mentions: &[Mention]) -> Vec<String> {
    let mut lines: BTreeMap<(Label, Label), Vec<String>> = BTreeMap::new();
    for mention in mentions {
        let lines = lines.entry((mention.from, mention.to)).or_default();
        lines.push((mention.line + 1).to_string());
    }
    let verb = mentions.first().map_or("", Mention::verb);
    let name = |label: Label| format!("{} (label {label})", sheet.full_name(label));
    let sentence = |(&(from, to), lines): (&(Label, Label), &Vec<String>)| {
        let by = if lines.len() > 1 { "lines" } else { "line" };
        format!(
            "{} {verb} {} by {by} {}",
            name(from),
            name(to),
            lines.join(", ")
        )
    };
    let mut sentences: Vec<String> = lines.iter().take(SENTENCES).map(sentence).collect();
    if lines.len() > SENTENCES {
        let more = (lines.len() - SENTENCES) as u64;
        sentences.push(format!("and {}", counted(more, "more pair")));
    }
    sentences
}
