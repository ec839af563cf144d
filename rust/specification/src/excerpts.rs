//! Declarations and items as they stand in their files, links to them, and the
//! files named.

use std::collections::HashSet;

use crate::files::File;
use crate::graph::Graph;

/// How much of a declaration or an item is shown.
#[derive(Clone, Copy, Debug, PartialEq, Eq)]
pub enum Extent {
    Whole,
    /// Without its clauses or its body.
    Statement,
}

/// What leads to a definition: its crate, file and name.
pub fn anchor(graph: &Graph, node: usize) -> String {
    let of = &graph.nodes[node];
    let File { package, name, .. } = &graph.files[of.file];
    let letters = of
        .name
        .chars()
        .map(|c| match c.is_ascii_alphanumeric() || "-_".contains(c) {
            true => c.to_string(),
            false => format!("u{:x}", c as u32),
        });
    format!("{package}.{name}.{}", letters.collect::<String>())
}

pub fn links(graph: &Graph, nodes: &[usize]) -> Vec<String> {
    let link = |node: &usize| {
        let name = &graph.nodes[*node].name;
        format!("[`{name}`](#{})", anchor(graph, *node))
    };
    nodes.iter().map(link).collect()
}

/// Nodes in one fence, those of a file together, under a line that names them and
/// their files.
pub fn excerpt(graph: &Graph, nodes: &[usize], extent: Extent) -> String {
    let mut named = vec![];
    let mut sources = vec![];
    for (file, nodes) in by_file(graph, nodes) {
        let path = &graph.files[file].path;
        let names: Vec<String> = nodes
            .iter()
            .map(|node| name(graph, *node, extent))
            .collect();
        named.push(format!("{} of [{path}](../{path})", names.join(", ")));
        sources.push(source(graph, &nodes, extent));
    }
    let named = named.join("; ");
    format!("{named}:\n\n```\n{}\n```\n\n", sources.join("\n\n"))
}

/// A name, and where it is defined the place that links lead to.
fn name(graph: &Graph, node: usize, extent: Extent) -> String {
    let name = &graph.nodes[node].name;
    match extent {
        Extent::Whole => format!("<a id=\"{}\"></a>`{name}`", anchor(graph, node)),
        Extent::Statement => format!("`{name}`"),
    }
}

/// The nodes of each file, in the order of the file; files in the order in which they
/// are met.
fn by_file(graph: &Graph, nodes: &[usize]) -> Vec<(usize, Vec<usize>)> {
    let mut files: Vec<(usize, Vec<usize>)> = vec![];
    for node in nodes {
        let file = graph.nodes[*node].file;
        match files.iter_mut().find(|(of, _)| *of == file) {
            Some((_, nodes)) => nodes.push(*node),
            None => files.push((file, vec![*node])),
        }
    }
    for (_, nodes) in &mut files {
        nodes.sort_by_key(|node| graph.line(*node));
    }
    files
}

/// The text of nodes of one file, with their comments, under the heads of the
/// sections that they stand in.
fn source(graph: &Graph, nodes: &[usize], extent: Extent) -> String {
    let lines: Vec<&str> = match nodes.first() {
        Some(node) => graph.files[graph.nodes[*node].file].text.lines().collect(),
        None => vec![],
    };
    let text = |(first, last): &(usize, usize)| lines[first - 1..*last].join("\n");
    let mut open = HashSet::new();
    let mut parts = vec![];
    for node in nodes {
        let heads = graph.heads(*node);
        let new = heads.iter().filter(|head| !open.contains(*head));
        let mut part: Vec<String> = new.map(text).collect();
        part.push(text(&range(graph, *node, extent)));
        open = heads.into_iter().collect();
        parts.push(part.join("\n"));
    }
    parts.join("\n\n")
}

/// The first and the last line, with the comment.
fn range(graph: &Graph, node: usize, extent: Extent) -> (usize, usize) {
    let whole = extent == Extent::Whole;
    if let Some(of) = graph.declaration(node) {
        let last = if whole { of.last } else { of.signed };
        return (of.first - of.comment.len(), last);
    }
    match graph.item(node) {
        Some(of) => {
            let last = if whole { of.last } else { of.headed };
            (of.first - of.comment.len(), last)
        }
        None => (1, 1),
    }
}
