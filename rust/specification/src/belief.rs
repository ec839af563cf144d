//! What a reader has to believe: the definitions and declared types that the public
//! contracts and the quoted theorems rest on.

use std::collections::HashSet;

use crate::documents::{self, Line, Quote};
use crate::files::Folder;
use crate::graph::Graph;

pub struct Belief {
    /// The public calls that have a contract, in the order of their files.
    pub calls: Vec<usize>,
    /// The quoted theorems, in the order of the documents, each with the line that
    /// says what it says; where there is none, with the line that quotes it first.
    pub theorems: Vec<Quote>,
    /// All that these rest on.
    pub definitions: HashSet<usize>,
}

/// By documents in this order: what they quote comes first that comes first there.
pub fn belief(graph: &Graph, lines: &[Line]) -> Belief {
    let has_contract = |node: &usize| {
        let item = graph.item(*node);
        item.is_some_and(|item| !item.contracts.is_empty())
    };
    let calls = documents::calls(graph, lines).into_iter();
    let calls: Vec<usize> = calls.filter(has_contract).collect();
    let quotes = documents::quotes(graph, lines).0.into_iter();
    let quotes = quotes.filter(|quote| !quote.is_test);
    let is_said = |quote: &Quote| said(graph, lines, quote).is_some();
    let (first, others): (Vec<Quote>, Vec<Quote>) = quotes.partition(is_said);
    let mut theorems: Vec<Quote> = vec![];
    for quote in first.into_iter().chain(others) {
        if theorems.iter().all(|other| other.law != quote.law) {
            theorems.push(quote);
        }
    }
    theorems.sort_by_key(|quote| quote.line);
    let laws = theorems.iter().map(|quote| quote.law);
    let stated = calls.iter().copied().chain(laws);
    let from: Vec<usize> = stated
        .flat_map(|node| graph.nodes[node].stated.nodes.clone())
        .collect();
    let definitions = graph.reached(&from);
    Belief {
        calls,
        theorems,
        definitions,
    }
}

/// What the line that quotes a theorem says that it says.
pub fn said<'a>(graph: &Graph, lines: &'a [Line], quote: &Quote) -> Option<&'a str> {
    lines[quote.line].says(&graph.nodes[quote.law].name)
}

/// What readers cannot be asked to believe: definitions that stand in `proofs/`, and
/// theorems of which no document says in words what they say.
pub fn unfit(graph: &Graph, lines: &[Line], belief: &Belief) -> Vec<String> {
    let mut found = vec![];
    for node in 0..graph.nodes.len() {
        let is_law = [Folder::Proofs, Folder::FunctionProof].contains(&graph.folder(node));
        if is_law && belief.definitions.contains(&node) {
            let (path, line) = (graph.path(node), graph.line(node));
            let name = &graph.nodes[node].name;
            found.push(format!("{path}:{line}: readers believe `{name}`"));
        }
    }
    for quote in &belief.theorems {
        if said(graph, lines, quote).is_none() {
            let place = &lines[quote.line].place;
            let name = &graph.nodes[quote.law].name;
            found.push(format!("{place}: no table says what `{name}` says"));
        }
    }
    found
}

/// The files of `specs/` that hold what readers believe and what they need not,
/// each with the names of both.
pub fn mixed(graph: &Graph, belief: &Belief) -> Vec<String> {
    let mut found = vec![];
    for (file, of) in graph.files.iter().enumerate() {
        if of.folder != Folder::Specs {
            continue;
        }
        let nodes = (0..graph.nodes.len()).filter(|node| graph.nodes[*node].file == file);
        let (believed, others): (Vec<usize>, Vec<usize>) =
            nodes.partition(|node| belief.definitions.contains(node));
        if !believed.is_empty() && !others.is_empty() {
            let path = &of.path;
            let [believed, others] = [believed, others].map(|nodes| names(graph, &nodes));
            found.push(format!("{path}: readers believe {believed}; not {others}"));
        }
    }
    found
}

fn names(graph: &Graph, nodes: &[usize]) -> String {
    let names = nodes
        .iter()
        .map(|node| format!("`{}`", graph.nodes[*node].name));
    names.collect::<Vec<String>>().join(", ")
}
