//! What words mean in the code of a crate.

use std::collections::HashSet;

use crate::code::Item;
use crate::index::Index;
use crate::lexemes::Word;

pub struct Words<'a> {
    index: &'a Index,
    package: &'a str,
    /// What the file brings in: the path and the line.
    uses: &'a [(Vec<String>, usize)],
}

impl<'a> Words<'a> {
    pub fn new(index: &'a Index, package: &'a str, uses: &'a [(Vec<String>, usize)]) -> Words<'a> {
        Words {
            index,
            package,
            uses,
        }
    }

    /// The items that a path means: of this crate, of one that it names, or brought
    /// in; the line that brings it in is marked as used.
    pub fn path(&self, path: &[String], used: &mut HashSet<usize>) -> Vec<usize> {
        let Some(first) = path.first() else {
            return vec![];
        };
        let brought = |(of, _): &(Vec<String>, usize)| of.last() == Some(first);
        if let Some(at) = self.uses.iter().position(brought) {
            used.insert(at);
            return self.index.items(&self.uses[at].0[0], first).to_vec();
        }
        let here = self.index.items(self.package, first);
        match path.get(1) {
            Some(name) if here.is_empty() => self.index.items(first, name).to_vec(),
            _ => here.to_vec(),
        }
    }

    /// The items that words name.
    pub fn targets(&self, words: &[Word], used: &mut HashSet<usize>) -> Vec<usize> {
        let mut nodes: Vec<usize> = vec![];
        for word in words {
            nodes.extend(self.methods(word));
            if !word.member {
                let items = self.path(&word.path, used).into_iter();
                let is_meant = |node: &usize| word.called || !self.index.functions.contains(node);
                nodes.extend(items.filter(is_meant));
            }
        }
        nodes
    }

    /// The type that an `impl` gives an item to.
    pub fn owner(&self, item: &Item) -> &[usize] {
        let of = item.of.as_ref();
        of.map_or(&[], |of| self.index.items(self.package, of))
    }

    /// What of an `impl` a word may mean: all of that name.
    fn methods(&self, word: &Word) -> &[usize] {
        let is_method = word.path.len() > 1 || word.member && word.called;
        let last = word.path.last().filter(|_| is_method);
        let nodes = last.and_then(|name| self.index.methods.get(name));
        nodes.map_or(&[], |nodes| nodes)
    }

    /// The lines that bring in what is not used; of the toolchain's library a trait is
    /// used by its methods, and the checker looks.
    pub fn unused(&self, used: &HashSet<usize>) -> Vec<(usize, String)> {
        let lines = self.uses.iter().enumerate();
        let is_ours = |path: &[String]| path.first().is_some_and(|first| first != "std");
        let lines = lines.filter(|(at, (path, _))| !used.contains(at) && is_ours(path));
        let unused = lines.map(|(_, (path, line))| (*line, path.join("::")));
        unused.collect()
    }
}
