//! What nothing cites.
//!
//! The roots are the public calls and the theorems that the documents quote. What
//! is reached from them is needed: the functions that a call calls, their contracts
//! and proofs, the definitions and laws that these name. A name on a line
//! `unfolding` cites nothing: it only asks to see through what is there already.

use crate::documents::{self, Line};
use crate::files::Folder;
use crate::graph::Graph;

/// What `crates/` has and nothing needs, a line each; what documents leave unclear.
pub fn uncited(graph: &Graph, documents: &[Line]) -> Vec<String> {
    let (quotes, mut found) = documents::quotes(graph, documents);
    let mut roots = documents::calls(graph, documents);
    roots.extend(quotes.iter().map(|quote| quote.law));
    let reached = graph.reached(&roots);
    for node in (0..graph.nodes.len()).filter(|node| !reached.contains(node)) {
        let (path, line) = (graph.path(node), graph.line(node));
        let name = &graph.nodes[node].name;
        let what = match graph.folder(node) {
            Folder::Specs => "definition",
            Folder::Proofs | Folder::FunctionProof => "law",
            Folder::Src => "item",
        };
        found.push(format!("{path}:{line}: {what} `{name}`: nothing cites it"));
    }
    for unused in &graph.unused {
        let path = &graph.files[unused.file].path;
        let (line, name) = (unused.line, &unused.name);
        found.push(format!("{path}:{line}: `{name}`: brought in and not used"));
    }
    found
}
