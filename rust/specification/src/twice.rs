//! Words that stand for two things.

use std::collections::{BTreeMap, HashSet};

use crate::code::Form;
use crate::files::Folder;
use crate::graph::Graph;

/// What `kinds` asks of a code, and `cells` of the line that has it; and the types
/// that code and definitions have under one name, by an alias each.
const SHARED: [&str; 7] = [
    "has_body",
    "has_path",
    "is_definition",
    "is_expression",
    "PlanReply",
    "Reply",
    "Verdict",
];

/// A type beside the definition that has its words with small letters: what that
/// gives, the relation that it computes, or what is told of it.
const PAIRED: [&str; 18] = [
    "answer",
    "early",
    "evaluated",
    "first_position",
    "given",
    "has_body",
    "has_path",
    "line",
    "mentions",
    "missing",
    "not_new",
    "number_put",
    "outcome",
    "plan",
    "plan_reply",
    "print_line",
    "reaches",
    "within",
];

/// The names that two definitions or types have, a line each: of those that readers
/// believe, wherever they stand, of `specs/` and of the types of the code; of those
/// that readers believe, names too that differ in case and underscores alone. The
/// files of `specs/` with one name. What is allowed here and not met.
pub fn twice(graph: &Graph, believed: &HashSet<usize>) -> Vec<String> {
    let is_asked = |node: &usize| believed.contains(node) || is_word(graph, *node);
    let asked = (0..graph.nodes.len()).filter(is_asked).collect();
    let mut believed: Vec<usize> = believed.iter().copied().collect();
    believed.sort_unstable();
    let same = groups(graph, asked, str::to_string).into_iter();
    let same = same.filter(|nodes| nodes.len() > 1).collect();
    let cases = groups(graph, believed, letters).into_iter();
    let cases = cases.filter(|nodes| differ(graph, nodes)).collect();
    let mut found = others(graph, same, &SHARED);
    found.extend(others(graph, cases, &PAIRED));
    found.extend(files(graph));
    found
}

/// The letters of a name, small and in one word.
fn letters(name: &str) -> String {
    name.to_lowercase().replace('_', "")
}

/// Nodes by what is made of their names.
fn groups(graph: &Graph, nodes: Vec<usize>, key: impl Fn(&str) -> String) -> Vec<Vec<usize>> {
    let mut names: BTreeMap<String, Vec<usize>> = BTreeMap::new();
    for node in nodes {
        let name = key(&graph.nodes[node].name);
        names.entry(name).or_default().push(node);
    }
    names.into_values().collect()
}

/// Whether they have different names.
fn differ(graph: &Graph, nodes: &[usize]) -> bool {
    let name = |node: &usize| &graph.nodes[*node].name;
    nodes.iter().any(|node| name(node) != name(&nodes[0]))
}

/// The groups that are not allowed by a name, and what is allowed and is no group.
fn others(graph: &Graph, groups: Vec<Vec<usize>>, allowed: &[&str]) -> Vec<String> {
    let has = |group: &[usize], name: &str| group.iter().any(|of| graph.nodes[*of].name == name);
    let is_idle = |name: &&&str| !groups.iter().any(|group| has(group, name));
    let idle = allowed.iter().filter(is_idle);
    let idle = idle.map(|name| format!("`{name}`: allowed, and stands for one thing alone"));
    let is_other = |group: &&Vec<usize>| !allowed.iter().any(|name| has(group, name));
    let found = groups.iter().filter(is_other);
    let line = |group: &Vec<usize>| format!("{}: {}", names(graph, group), places(graph, group));
    found.map(line).chain(idle).collect()
}

/// Whether it is a definition of `specs/` or a type of the code.
fn is_word(graph: &Graph, node: usize) -> bool {
    let is_type = |form: Form| form == Form::Type;
    graph.folder(node) == Folder::Specs || graph.item(node).is_some_and(|it| is_type(it.form))
}

fn names(graph: &Graph, nodes: &[usize]) -> String {
    let mut names: Vec<String> = vec![];
    for node in nodes {
        let name = format!("`{}`", graph.nodes[*node].name);
        if !names.contains(&name) {
            names.push(name);
        }
    }
    names.join(", ")
}

fn places(graph: &Graph, nodes: &[usize]) -> String {
    let place = |node: &usize| format!("{}:{}", graph.path(*node), graph.line(*node));
    nodes.iter().map(place).collect::<Vec<_>>().join(", ")
}

/// The files of `specs/` with one name; every crate has a `Lib`, which lists them.
fn files(graph: &Graph) -> Vec<String> {
    let mut names: BTreeMap<&str, Vec<&str>> = BTreeMap::new();
    for file in &graph.files {
        if file.folder == Folder::Specs && file.name != "Lib" {
            names.entry(&file.name).or_default().push(&file.path);
        }
    }
    let paths = names.into_values().filter(|paths| paths.len() > 1);
    paths.map(|paths| paths.join(", ")).collect()
}
