//! The page of what a reader has to believe.

use std::collections::{BTreeMap, HashSet};

use crate::belief::{self, Belief};
use crate::documents::{Line, Quote};
use crate::excerpts::{excerpt, links, Extent};
use crate::files::Folder;
use crate::graph::Graph;
use crate::rules::{Row, Section};

/// Where the page stands; its links lead from there.
pub const PLACE: &str = "docs/SPECIFICATION.md";

const OPENING: &str = "\
# What a reader has to believe

Every definition and declared type that the public contracts and the quoted theorems rest on, and none other: whoever has read them against the papers need read nothing else. They stand in the order of document 01, each under the sentence that it states, as [RULES.md](RULES.md) leads from the one to the other; what no sentence names stands where it is first used. Then come the theorems that [CONTRACTS.md](CONTRACTS.md) quotes, without their proofs, and the contracts themselves. What a definition names of the toolchain's library is listed at the end.

`rust/specification` makes this page from `crates/`; the gate makes it again and compares.
";

const ASIDE: &str = "\
## Files to leave aside

These files of `specs/` hold what functions promise each other. No public contract and no quoted theorem rests on them.

";

const LIBRARY: &str = "\
## The toolchain's library

What all of this names of it, by module. `Prim`, which every file has, is left out.

| module | names |
|---|---|
";

/// All that is needed to write the page.
pub struct Page<'a> {
    pub graph: &'a Graph,
    pub belief: &'a Belief,
    /// The lines that quote the theorems.
    pub lines: &'a [Line],
    pub sections: &'a [Section],
}

impl Page<'_> {
    /// The page, whole.
    pub fn text(&self) -> String {
        let mut shown = HashSet::new();
        let rules = self.rules(&mut shown);
        let theorems = self.theorems(&mut shown);
        let contracts = self.contracts(&mut shown);
        let parts = [
            OPENING.to_string(),
            self.contents(),
            rules,
            theorems,
            contracts,
            self.library(),
            self.aside(),
            self.index(),
        ];
        parts.join("\n")
    }

    fn contents(&self) -> String {
        let sections = self
            .sections
            .iter()
            .filter(|section| !section.rows.is_empty());
        let titles = sections.map(|section| &section.title[..]);
        let last = [
            "Theorems",
            "Contracts",
            "The toolchain's library",
            "Files to leave aside",
            "Index",
        ];
        let line = |title: &str| format!("- [{title}](#{})\n", heading(title));
        titles.chain(last).map(line).collect()
    }

    /// The definitions under the sentences that they state.
    fn rules(&self, shown: &mut HashSet<usize>) -> String {
        let rows = self.sections.iter().flat_map(|section| &section.rows);
        let named: HashSet<usize> = rows.flat_map(|row| row.definitions.clone()).collect();
        let mut text = String::new();
        for section in self
            .sections
            .iter()
            .filter(|section| !section.rows.is_empty())
        {
            text.push_str(&format!("## {}\n\n", section.title));
            for row in &section.rows {
                text.push_str(&self.row(row, &named, shown));
            }
        }
        text
    }

    /// A sentence, what states it, and what no sentence names of what that is made of.
    fn row(&self, row: &Row, named: &HashSet<usize>, shown: &mut HashSet<usize>) -> String {
        let is_new = |node: &&usize| !shown.contains(node);
        let (new, old): (Vec<usize>, Vec<usize>) = row.definitions.iter().partition(is_new);
        shown.extend(new.iter().copied());
        let is_out = |node: usize| shown.contains(&node) || named.contains(&node);
        let made = self.beneath(&new, is_out);
        shown.extend(made.iter().copied());
        let mut text = format!("> {}\n\n", row.sentence);
        if !old.is_empty() {
            text.push_str(&format!("See {}.\n\n", self.links(&old)));
        }
        if !new.is_empty() {
            text.push_str(&excerpt(self.graph, &new, Extent::Whole));
        }
        if !made.is_empty() {
            text.push_str("What these are made of: ");
            text.push_str(&excerpt(self.graph, &made, Extent::Whole));
        }
        text.push_str(&self.parts(&[new, made].concat()));
        text
    }

    /// What definitions are made of, step by step, up to those that are left out.
    fn beneath(&self, nodes: &[usize], is_out: impl Fn(usize) -> bool) -> Vec<usize> {
        let next = |node: usize| {
            let parts = self.graph.parts(node).into_iter();
            parts.filter(|part| !is_out(*part)).collect::<Vec<usize>>()
        };
        let mut found = HashSet::new();
        let mut waiting: Vec<usize> = nodes.iter().flat_map(|node| next(*node)).collect();
        while let Some(node) = waiting.pop() {
            if found.insert(node) {
                waiting.extend(next(node));
            }
        }
        sorted(found)
    }

    fn links(&self, nodes: &[usize]) -> String {
        links(self.graph, nodes).join(", ")
    }

    /// Which other definitions of the page these are made of.
    fn parts(&self, nodes: &[usize]) -> String {
        let parts = nodes.iter().flat_map(|node| self.graph.parts(*node));
        let is_asked = |part: &usize| self.belief.definitions.contains(part);
        let is_other = |part: &usize| !nodes.contains(part);
        let parts: HashSet<usize> = parts.filter(is_asked).filter(is_other).collect();
        let mut text = match parts.is_empty() {
            true => String::new(),
            false => format!("Made of {}. ", self.links(&sorted(parts))),
        };
        text.push_str(&self.aliases(nodes, Extent::Whole));
        match text.is_empty() {
            true => text,
            false => format!("{}\n\n", text.trim_end()),
        }
    }

    /// What these call by another name than its own.
    fn aliases(&self, nodes: &[usize], extent: Extent) -> String {
        let aliases = nodes.iter().flat_map(|node| {
            let of = &self.graph.nodes[*node];
            let made = of.made.aliases.iter().filter(|_| extent == Extent::Whole);
            of.stated.aliases.iter().chain(made)
        });
        let mut said: Vec<String> = vec![];
        for (node, alias) in aliases {
            let alias = format!("`{alias}` leads to {}", self.links(&[*node]));
            if !said.contains(&alias) {
                said.push(alias);
            }
        }
        match said.is_empty() {
            true => String::new(),
            false => format!("Here {}.", said.join(", ")),
        }
    }

    /// The theorems, those that one line quotes together.
    fn theorems(&self, shown: &mut HashSet<usize>) -> String {
        let mut text = String::from("## Theorems\n\n");
        let mut rest = &self.belief.theorems[..];
        while let Some(first) = rest.first() {
            let is_here = |quote: &&Quote| quote.line == first.line;
            let (here, after) = rest.split_at(rest.iter().take_while(is_here).count());
            text.push_str(&self.theorem(here, shown));
            rest = after;
        }
        text
    }

    /// Theorems, after the definitions that they need and nothing has brought yet.
    fn theorem(&self, quotes: &[Quote], shown: &mut HashSet<usize>) -> String {
        let laws: Vec<usize> = quotes.iter().map(|quote| quote.law).collect();
        let names = laws
            .iter()
            .map(|law| format!("`{}`", self.graph.nodes[*law].name));
        let names = names.collect::<Vec<String>>().join(", ");
        let said = |quote| belief::said(self.graph, self.lines, quote);
        let says = quotes.iter().find_map(said).unwrap_or_default();
        let mut text = format!("> {names}: {says}\n\n");
        text.push_str(&self.needed(&laws, shown));
        text.push_str(&self.statements(&laws));
        text
    }

    /// The definitions that laws or functions need and nothing has brought yet.
    fn needed(&self, nodes: &[usize], shown: &mut HashSet<usize>) -> String {
        let stated = self.stated(nodes).into_iter();
        let stated: Vec<usize> = stated.filter(|node| !shown.contains(node)).collect();
        let beneath = self.beneath(&stated, |node| shown.contains(&node));
        let new = sorted(stated.into_iter().chain(beneath).collect());
        shown.extend(new.iter().copied());
        match new.is_empty() {
            true => String::new(),
            false => excerpt(self.graph, &new, Extent::Whole) + &self.parts(&new),
        }
    }

    /// What the statements of laws or functions name.
    fn stated(&self, nodes: &[usize]) -> Vec<usize> {
        let stated = nodes
            .iter()
            .flat_map(|node| &self.graph.nodes[*node].stated.nodes);
        sorted(stated.copied().collect())
    }

    /// What laws or functions state.
    fn statements(&self, nodes: &[usize]) -> String {
        let stated = self.links(&self.stated(nodes));
        let text = excerpt(self.graph, nodes, Extent::Statement);
        let aliases = self.aliases(nodes, Extent::Statement);
        let over = format!("Over {stated}. {aliases}");
        format!("{text}{}\n\n", over.trim_end())
    }

    fn contracts(&self, shown: &mut HashSet<usize>) -> String {
        let mut text = String::from("## Contracts\n\n");
        let mut rest = &self.belief.calls[..];
        while let Some(first) = rest.first() {
            let file = self.graph.nodes[*first].file;
            let is_here = |node: &&usize| self.graph.nodes[**node].file == file;
            let (here, after) = rest.split_at(rest.iter().take_while(is_here).count());
            text.push_str(&self.needed(here, shown));
            text.push_str(&self.statements(here));
            rest = after;
        }
        text
    }

    /// What all of this names of the toolchain's libraries, by module.
    fn library(&self) -> String {
        let definitions = self.belief.definitions.iter();
        let definitions = definitions.map(|node| &self.graph.nodes[*node]);
        let laws = self.belief.theorems.iter().map(|quote| &quote.law);
        let stated = laws
            .chain(&self.belief.calls)
            .map(|node| &self.graph.nodes[*node]);
        let whole = definitions.flat_map(|of| of.stated.library.iter().chain(&of.made.library));
        let mut modules: BTreeMap<&str, Vec<String>> = BTreeMap::new();
        for name in whole.chain(stated.flat_map(|of| &of.stated.library)) {
            let (module, name) = name.rsplit_once('.').unwrap_or(("", name));
            let name = format!("`{}`", name.replace('|', "\\|"));
            modules.entry(module).or_default().push(name);
        }
        let mut text = LIBRARY.to_string();
        for (module, mut names) in modules {
            names.sort_unstable();
            names.dedup();
            text.push_str(&format!("| `{module}` | {} |\n", names.join(", ")));
        }
        text
    }

    /// The files of `specs/` that nothing of this stands in.
    fn aside(&self) -> String {
        let definitions = self.belief.definitions.iter();
        let files: HashSet<usize> = definitions
            .map(|node| self.graph.nodes[*node].file)
            .collect();
        let mut text = ASIDE.to_string();
        for (at, file) in self.graph.files.iter().enumerate() {
            let is_root = file.name == "Lib";
            if file.folder == Folder::Specs && !is_root && !files.contains(&at) {
                let path = &file.path;
                text.push_str(&format!("- [{path}](../{path})\n"));
            }
        }
        text
    }

    fn index(&self) -> String {
        let mut nodes: Vec<usize> = self.belief.definitions.iter().copied().collect();
        let name = |node: &usize| self.graph.nodes[*node].name.clone();
        nodes.sort_by_key(|node| (name(node).to_lowercase(), name(node), *node));
        let (count, links) = (nodes.len(), links(self.graph, &nodes).join(" · "));
        format!("## Index\n\n{count} definitions and declared types.\n\n{links}\n")
    }
}

fn sorted(nodes: HashSet<usize>) -> Vec<usize> {
    let mut nodes: Vec<usize> = nodes.into_iter().collect();
    nodes.sort_unstable();
    nodes
}

/// Where a heading's own link leads.
fn heading(title: &str) -> String {
    let is_kept = |c: &char| c.is_alphanumeric() || *c == ' ' || *c == '-';
    let kept: String = title.chars().filter(is_kept).collect();
    kept.to_lowercase().replace(' ', "-")
}

#[cfg(test)]
mod tests {
    use super::*;

    #[test]
    fn a_heading_leads_to_itself() {
        assert_eq!(heading("The owner's demands"), "the-owners-demands");
    }
}
