//! What the documents quote: names between backquotes, and the files that stand
//! with them on a line.

use std::collections::HashSet;

use crate::code::Form;
use crate::files::Folder;
use crate::graph::{is_entry, Graph};

/// A line of a document.
#[derive(Clone, Debug)]
pub struct Line {
    /// Where it stands, as `docs/RULES.md:12`.
    pub place: String,
    /// The line; a row of a table without its columns `code` and `test`.
    pub text: String,
    /// What stands in the column `test`.
    pub tests: String,
    /// What stands in the column `says`, in a table of theorems.
    pub says: Option<String>,
}

impl Line {
    /// What a row of a table of theorems says that the one of that name says.
    pub fn says(&self, name: &str) -> Option<&str> {
        let names = *cells(&self.text)?.first()?;
        let is_there = quoted(names).contains(&name);
        self.says.as_deref().filter(|_| is_there)
    }
}

/// The lines of a document, those that show code left out.
pub fn lines(name: &str, text: &str) -> Vec<Line> {
    let mut shows_code = false;
    let mut columns = vec![];
    let mut lines = vec![];
    for (number, line) in (1..).zip(text.lines()) {
        let fence = line.trim_start().starts_with("```");
        shows_code ^= fence;
        if fence || shows_code {
            continue;
        }
        let row = cells(line).unwrap_or_default();
        if columns.is_empty() || row.is_empty() {
            columns = row.iter().map(|cell| cell.to_string()).collect();
        }
        let (text, tests) = parted(line, &row, &columns);
        let says = columns.iter().position(|column| column == "says");
        let says = says.and_then(|at| row.get(at));
        lines.push(Line {
            place: format!("{name}:{number}"),
            text,
            tests,
            says: says.map(|cell| cell.to_string()),
        });
    }
    lines
}

/// A row of a table with these columns, its tests apart and its code left out.
fn parted(line: &str, row: &[&str], columns: &[String]) -> (String, String) {
    let at = |name: &str| columns.iter().position(|column| column == name);
    let [code, test] = ["code", "test"].map(at);
    if code.is_none() && test.is_none() {
        return (line.to_string(), String::new());
    }
    let tests = test.and_then(|at| row.get(at)).copied().unwrap_or_default();
    let kept = (0..row.len()).filter(|at| Some(*at) != code && Some(*at) != test);
    let kept: Vec<&str> = kept.map(|at| row[at]).collect();
    (format!("| {} |", kept.join(" | ")), tests.to_string())
}

/// What stands between backquotes.
pub fn quoted(text: &str) -> Vec<&str> {
    text.split('`').skip(1).step_by(2).collect()
}

/// The cells of a row of a table.
pub fn cells(line: &str) -> Option<Vec<&str>> {
    let inner = line.trim().strip_prefix('|')?.strip_suffix('|')?;
    Some(inner.split('|').map(str::trim).collect())
}

/// Whether a row is about a must-fail edit, `crate/edit`: it says which law fails,
/// and quotes none.
fn is_about_edit(graph: &Graph, line: &str) -> bool {
    let is_word = |name: &str| {
        name.chars()
            .all(|c| c.is_ascii_lowercase() || "_0123456789".contains(c))
    };
    let is_edit = |name: &str| {
        let parts = name.split_once('/');
        parts.is_some_and(|(of, edit)| graph.is_crate(of) && is_word(edit))
    };
    cells(line).is_some() && quoted(line).into_iter().any(is_edit)
}

/// A law that a line of a document quotes.
#[derive(Clone, Copy, Debug, PartialEq, Eq)]
pub struct Quote {
    pub law: usize,
    /// The place of the line among the lines.
    pub line: usize,
    /// Whether it stands in a column of tests.
    pub is_test: bool,
}

/// The laws that documents quote, and the names that could be several.
pub fn quotes(graph: &Graph, lines: &[Line]) -> (Vec<Quote>, Vec<String>) {
    let mut quotes = vec![];
    let mut unclear = vec![];
    for (at, line) in lines.iter().enumerate() {
        if is_about_edit(graph, &line.text) {
            continue;
        }
        for (text, is_test) in [(&line.text, false), (&line.tests, true)] {
            match laws(graph, text) {
                Ok(found) => quotes.extend(found.into_iter().map(|law| Quote {
                    law,
                    line: at,
                    is_test,
                })),
                Err(which) => unclear.push(format!("{}: {which}", line.place)),
            }
        }
    }
    (quotes, unclear)
}

/// The laws that a text quotes.
fn laws(graph: &Graph, text: &str) -> Result<Vec<usize>, String> {
    let names = quoted(text);
    let is_path = |name: &&&str| name.starts_with("crates/");
    let paths: Vec<&str> = names.iter().filter(is_path).copied().collect();
    let mut laws = vec![];
    for name in names.iter().filter(|name| !is_path(name)) {
        laws.extend(law(graph, name, &paths)?);
    }
    Ok(laws)
}

/// The laws of that name: those in a file or folder that stands on the line; else
/// the one that there is. A name that `specs/` or `src/` has too is then no law's,
/// and neither is a crate's.
fn law(graph: &Graph, name: &str, paths: &[&str]) -> Result<Vec<usize>, String> {
    let is_asked = |node: &usize| graph.folder(*node) != Folder::FunctionProof;
    let named = graph.named(name).iter().copied().filter(is_asked);
    let named: Vec<usize> = named.collect();
    let stands = |node: &usize| paths.iter().any(|at| graph.path(*node).starts_with(at));
    let is_law = |node: &usize| graph.folder(*node) == Folder::Proofs;
    let here: Vec<usize> = named.iter().copied().filter(stands).collect();
    if !here.is_empty() {
        return Ok(here.into_iter().filter(is_law).collect());
    }
    if graph.is_crate(name) || !named.iter().all(is_law) {
        return Ok(vec![]);
    }
    match named.len() {
        0 | 1 => Ok(named),
        _ => {
            let files: Vec<&str> = named.iter().map(|node| graph.path(*node)).collect();
            let files = files.join(" or of ");
            Err(format!("which `{name}` is meant, of {files}?"))
        }
    }
}

/// The public calls: functions that a document names with their crate,
/// `crate::function`, and that ask nothing, in the order in which they are named;
/// then exported functions and programs.
pub fn calls(graph: &Graph, lines: &[Line]) -> Vec<usize> {
    let mut calls = vec![];
    for text in lines.iter().flat_map(|line| quoted(&line.text)) {
        let name = text.split('(').next().unwrap_or(text);
        if let Some((of, name)) = name.split_once("::") {
            let of = |node: &&usize| graph.files[graph.nodes[**node].file].package == of;
            calls.extend(
                graph
                    .named(name)
                    .iter()
                    .filter(of)
                    .filter(|node| asks_nothing(graph, **node)),
            );
        }
    }
    let is_entry = |node: &usize| graph.item(*node).is_some_and(is_entry);
    calls.extend((0..graph.nodes.len()).filter(is_entry));
    let mut seen = HashSet::new();
    calls.retain(|node| seen.insert(*node));
    calls
}

/// Whether it is a function without a `requires`.
fn asks_nothing(graph: &Graph, node: usize) -> bool {
    graph.item(node).is_some_and(|item| {
        let asks = item.contracts.iter().any(|of| of.keyword == "requires");
        item.form == Form::Function && !asks
    })
}

#[cfg(test)]
mod tests {
    use super::*;

    #[test]
    fn code_is_no_text() {
        let text = "a `b` c\n```\n`d`\n```\ne\n";
        let lines = lines("x.md", text);
        let places: Vec<&str> = lines.iter().map(|line| &line.place[..]).collect();
        assert_eq!(places, ["x.md:1", "x.md:5"]);
        assert_eq!(quoted(&lines[0].text), ["b"]);
    }

    #[test]
    fn tests_stand_apart() {
        let text =
            "| sentence | test | code |\n|---|---|---|\n| a | `b` | c |\n\n| d | e |\n| f | g |\n";
        let lines = lines("x.md", text);
        let texts: Vec<(&str, &str)> = lines.iter().map(|l| (&l.text[..], &l.tests[..])).collect();
        assert_eq!(texts[2], ("| a |", "`b`"));
        assert_eq!(texts[4], ("| d | e |", ""));
    }

    #[test]
    fn a_theorem_is_said_by_its_row() {
        let text = "| law | says | file |\n|---|---|---|\n| `a`, `b` | as `c` | d |\n`a`\n";
        let lines = lines("x.md", text);
        let says = |line: usize, name: &str| lines[line].says(name);
        assert_eq!((says(2, "b"), says(2, "c")), (Some("as `c`"), None));
        assert_eq!(says(3, "a"), None);
    }

    #[test]
    fn rows_have_cells() {
        assert_eq!(cells("| a | `b` |"), Some(vec!["a", "`b`"]));
        assert_eq!(cells("a | b"), None);
    }
}
