//! The map of the rules: `docs/RULES.md` leads from each sentence of the paper to
//! its definitions.

use crate::documents::{cells, quoted, Line};
use crate::graph::Graph;

pub struct Section {
    pub title: String,
    pub rows: Vec<Row>,
}

pub struct Row {
    pub sentence: String,
    /// The definitions that state it, in the order in which they are named.
    pub definitions: Vec<usize>,
}

/// The sections of the map, with those of their rows that name a definition of
/// those asked for.
pub fn sections(graph: &Graph, lines: &[Line], asked: impl Fn(usize) -> bool) -> Vec<Section> {
    let mut sections: Vec<Section> = vec![];
    for line in lines {
        if let Some(title) = line.text.strip_prefix("## ") {
            sections.push(Section {
                title: title.to_string(),
                rows: vec![],
            });
        }
        let row = cells(&line.text).unwrap_or_default();
        let [sentence, cell, ..] = row[..] else {
            continue;
        };
        let definitions = named(graph, cell, &asked);
        if let (Some(section), false) = (sections.last_mut(), definitions.is_empty()) {
            section.rows.push(Row {
                sentence: sentence.to_string(),
                definitions,
            });
        }
    }
    sections
}

/// The definitions that a cell names: of the file named last before, else of another
/// file of the cell, else the only one of that name, if it names no variant of a type.
fn named(graph: &Graph, cell: &str, asked: impl Fn(usize) -> bool) -> Vec<usize> {
    let quotes = quoted(cell);
    let is_path = |text: &&&str| text.starts_with("crates/");
    let paths: Vec<&str> = quotes.iter().filter(is_path).copied().collect();
    let mut last = "";
    let mut found = vec![];
    for text in quotes {
        if text.starts_with("crates/") {
            last = text;
            continue;
        }
        let all = graph.named(text).iter().filter(|node| asked(**node));
        let all: Vec<usize> = all.copied().collect();
        let here = all.iter().find(|node| graph.path(**node) == last);
        let near = all.iter().find(|node| paths.contains(&graph.path(**node)));
        let is_only = all.len() == 1 && !graph.is_variant(text);
        let only = all.first().filter(|_| is_only);
        found.extend(here.or(near).or(only));
    }
    found.dedup();
    found
}
