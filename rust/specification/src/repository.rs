//! A repository: its crates and the documents that quote them.

use std::fs;
use std::path::Path;

use crate::belief;
use crate::documents::{self, Line};
use crate::files;
use crate::graph::Graph;
use crate::page::Page;
use crate::rules;
use crate::tidy;
use crate::twice;
use crate::uncited;

/// The documents whose quotes are roots, and the one of them that is the map.
const QUOTING: [&str; 2] = ["docs/CONTRACTS.md", RULES];
const RULES: &str = "docs/RULES.md";

pub struct Repository {
    graph: Graph,
    lines: Vec<Line>,
}

impl Repository {
    /// Reads the repository at a folder; says what cannot be read.
    pub fn read(root: &Path) -> Result<Repository, String> {
        let failed = |error| format!("{}: {error}", root.display());
        let graph = files::read(root).map_err(failed).map(Graph::new)?;
        let mut lines = vec![];
        for name in QUOTING {
            let failed = |error| format!("{name}: {error}");
            let text = fs::read_to_string(root.join(name)).map_err(failed)?;
            lines.extend(documents::lines(name, &text));
        }
        Ok(Repository { graph, lines })
    }

    /// What nothing cites, a line each.
    pub fn uncited(&self) -> Vec<String> {
        uncited::uncited(&self.graph, &self.lines)
    }

    /// The files that bring in what they do not use, each with its text without that.
    pub fn tidied(&self) -> Vec<(&str, String)> {
        tidy::tidied(&self.graph)
    }

    /// The files of `specs/` that are mixed, a line each.
    pub fn mixed(&self) -> Vec<String> {
        belief::mixed(&self.graph, &belief::belief(&self.graph, &self.lines))
    }

    /// The names that stand for two things, a line each.
    pub fn twice(&self) -> Vec<String> {
        let belief = belief::belief(&self.graph, &self.lines);
        twice::twice(&self.graph, &belief.definitions)
    }

    /// What keeps the page from being made, a line each.
    pub fn unfit(&self) -> Vec<String> {
        let belief = belief::belief(&self.graph, &self.lines);
        belief::unfit(&self.graph, &self.lines, &belief)
    }

    /// The page of what a reader has to believe.
    pub fn page(&self) -> String {
        let belief = belief::belief(&self.graph, &self.lines);
        let is_rule = |line: &&Line| line.place.starts_with(RULES);
        let rules: Vec<Line> = self.lines.iter().filter(is_rule).cloned().collect();
        let is_believed = |node| belief.definitions.contains(&node);
        let sections = rules::sections(&self.graph, &rules, is_believed);
        let page = Page {
            graph: &self.graph,
            belief: &belief,
            lines: &self.lines,
            sections: &sections,
        };
        page.text()
    }
}
