//! Who uses whom.

use std::collections::{HashMap, HashSet};

use crate::blocks::{Declaration, Source};
use crate::code::{Code, Form, Item};
use crate::files::{Content, File, Folder};
use crate::index::Index;
use crate::names::{self, Meant, Names};
use crate::scope;
use crate::words::Words;

/// A declaration of `specs/` or `proofs/`, or an item of `src/`.
#[derive(Clone, Debug, Default)]
pub struct Node {
    pub file: usize,
    /// Its place among the declarations or the items of the file.
    pub at: usize,
    pub name: String,
    /// What its statement names; what it is made of besides.
    pub stated: Meant,
    pub made: Meant,
}

/// A name that a line of a file brings in and that the file does not use.
#[derive(Clone, Debug, PartialEq, Eq)]
pub struct Unused {
    pub file: usize,
    pub line: usize,
    pub name: String,
}

pub struct Graph {
    pub files: Vec<File>,
    pub nodes: Vec<Node>,
    pub unused: Vec<Unused>,
    /// The nodes of a name.
    named: HashMap<String, Vec<usize>>,
    /// The first node of each file.
    firsts: Vec<usize>,
}

/// What a node states and what it is made of.
type Edges = Vec<(usize, Meant, Meant)>;

impl Graph {
    pub fn new(files: Vec<File>) -> Graph {
        let mut graph = Graph {
            files,
            nodes: vec![],
            unused: vec![],
            named: HashMap::new(),
            firsts: vec![],
        };
        let mut index = Index::default();
        for file in 0..graph.files.len() {
            index.add(&graph.files, file, graph.nodes.len());
            graph.declare(file);
        }
        for file in 0..graph.files.len() {
            let (edges, unused) = match &graph.files[file].content {
                Content::Antt(source) => graph.link(&index, file, source),
                Content::Rattle(code) => graph.link_code(&index, file, code),
            };
            graph.set(edges);
            let unused = unused.into_iter();
            graph
                .unused
                .extend(unused.map(|(line, name)| Unused { file, line, name }));
        }
        let taken = index.taken.borrow();
        let is_taken = |unused: &Unused| taken.contains(&(unused.file, unused.name.clone()));
        graph.unused.retain(|unused| !is_taken(unused));
        graph
            .unused
            .sort_by_key(|unused| (unused.file, unused.line));
        graph
    }

    fn declare(&mut self, file: usize) {
        let names: Vec<&String> = match &self.files[file].content {
            Content::Antt(source) => source.declarations.iter().map(|it| &it.name).collect(),
            Content::Rattle(code) => code.items.iter().map(|it| &it.name).collect(),
        };
        self.firsts.push(self.nodes.len());
        for (at, name) in names.into_iter().enumerate() {
            let same = self.named.entry(name.clone()).or_default();
            same.push(self.nodes.len());
            self.nodes.push(Node {
                file,
                at,
                name: name.clone(),
                ..Node::default()
            });
        }
    }

    fn link(&self, index: &Index, file: usize, source: &Source) -> (Edges, Vec<(usize, String)>) {
        let names = Names::new(&self.files, index, file, &source.uses);
        let mut used = HashSet::new();
        let mut edges = vec![];
        for (node, declaration) in (self.firsts[file]..).zip(&source.declarations) {
            let found = scope::references(&names, &source.sections, declaration);
            let stated = names.meant(&found.statement, &mut used);
            let made = names.meant(&found.body, &mut used);
            names.meant(&found.unfolding, &mut used);
            edges.push((node, stated, made));
        }
        (edges, names::unused(&source.uses, &used))
    }

    fn link_code(&self, index: &Index, file: usize, code: &Code) -> (Edges, Vec<(usize, String)>) {
        let package = &self.files[file].package;
        let names = Names::new(&self.files, index, file, &code.ghosts);
        let words = Words::new(index, package, &code.uses);
        let mut used = HashSet::new();
        let mut spoken = HashSet::new();
        let mut edges = vec![];
        for (node, item) in (self.firsts[file]..).zip(&code.items) {
            let parameters = [&item.parameters[..], &["self".to_string()]].concat();
            let contracts = item.contracts.iter();
            let paths = contracts.flat_map(|of| scope::contract(&names, &parameters, &of.tokens));
            let paths: Vec<scope::Path> = paths.collect();
            let mut stated = names.meant(&paths, &mut used);
            for path in &paths {
                stated.nodes.extend(words.path(path, &mut spoken));
            }
            stated.nodes.extend(words.targets(&item.head, &mut spoken));
            stated.nodes.extend(words.owner(item));
            let mut made = Meant {
                nodes: words.targets(&item.body, &mut spoken),
                ..Meant::default()
            };
            made.nodes.extend(index.proofs(package, item));
            made.nodes.extend(index.cited(package, item));
            edges.push((node, stated, made));
        }
        let members = code.members.iter();
        let paths = members.flat_map(|of| scope::contract(&names, &[], &of.tokens));
        let paths: Vec<scope::Path> = paths.collect();
        let told = names.meant(&paths, &mut used);
        if let Some((_, _, made)) = edges.last_mut() {
            made.nodes.extend(told.nodes);
        }
        let unused = names::unused(&code.ghosts, &used);
        (edges, [unused, words.unused(&spoken)].concat())
    }

    fn set(&mut self, edges: Edges) {
        for (node, stated, made) in edges {
            let of = &mut self.nodes[node];
            (of.stated, of.made) = (stated, made);
        }
    }

    /// The nodes of a name.
    pub fn named(&self, name: &str) -> &[usize] {
        self.named.get(name).map_or(&[], |nodes| nodes)
    }

    pub fn declaration(&self, node: usize) -> Option<&Declaration> {
        let node = &self.nodes[node];
        match &self.files[node.file].content {
            Content::Antt(source) => source.declarations.get(node.at),
            Content::Rattle(_) => None,
        }
    }

    pub fn item(&self, node: usize) -> Option<&Item> {
        let node = &self.nodes[node];
        match &self.files[node.file].content {
            Content::Rattle(code) => code.items.get(node.at),
            Content::Antt(_) => None,
        }
    }

    /// The heads of the sections around a declaration: first and last lines.
    pub fn heads(&self, node: usize) -> Vec<(usize, usize)> {
        let Content::Antt(source) = &self.files[self.nodes[node].file].content else {
            return vec![];
        };
        let sections = &source.declarations[self.nodes[node].at].sections;
        let heads = sections.iter().map(|section| &source.sections[*section]);
        heads
            .map(|section| (section.first, section.headed))
            .collect()
    }

    /// Whether a type has a variant of that name.
    pub fn is_variant(&self, name: &str) -> bool {
        let items = (0..self.nodes.len()).filter_map(|node| self.item(node));
        let mut variants = items.flat_map(|item| &item.variants);
        variants.any(|variant| variant == name)
    }

    pub fn is_crate(&self, name: &str) -> bool {
        self.files.iter().any(|file| file.package == name)
    }

    pub fn path(&self, node: usize) -> &str {
        &self.files[self.nodes[node].file].path
    }

    pub fn folder(&self, node: usize) -> Folder {
        self.files[self.nodes[node].file].folder
    }

    /// The line on which it begins.
    pub fn line(&self, node: usize) -> usize {
        let declared = self.declaration(node).map(|it| it.first);
        declared.or(self.item(node).map(|it| it.first)).unwrap_or(1)
    }

    /// What it states and what it is made of.
    pub fn parts(&self, node: usize) -> Vec<usize> {
        let of = &self.nodes[node];
        [&of.stated.nodes[..], &of.made.nodes[..]].concat()
    }

    /// All that these rest on, themselves among them.
    pub fn reached(&self, from: &[usize]) -> HashSet<usize> {
        let mut reached = HashSet::new();
        let mut waiting = from.to_vec();
        while let Some(node) = waiting.pop() {
            if reached.insert(node) {
                waiting.extend(self.parts(node));
            }
        }
        reached
    }
}

/// Whether a function is one that nobody has to call: C can, or it is a program.
pub fn is_entry(item: &Item) -> bool {
    item.form == Form::Function && (item.exported || item.name == "main")
}
