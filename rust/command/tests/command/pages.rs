//! The pages that people read: every sheet in them is a file, and every command
//! in them is run and writes what the page says.
//!
//! A block that begins with ```` ```sheet NAME ```` or ```` ```formulas NAME ```` is a
//! file of that name; in a block that begins with ```` ```console ```` a line after
//! `$ ` is a command, and the lines below it are all that it writes; a block
//! that begins with ```` ```c FILE ```` or ```` ```rust FILE ```` is that file of the
//! repository, and one that begins with ```` ```part FILE ```` is a part of it. All blocks of a page share a folder in which `lindypo`, `run`
//! and the folders that commands speak of stand.

use std::cell::RefCell;
use std::collections::{HashMap, HashSet};
use std::env;
use std::fs;
use std::os::unix::fs::{symlink, PermissionsExt};
use std::path::{Path, PathBuf};
use std::process::Command;

use crate::{read_text, sheets, top};

/// Where this is set, the tests write into the pages what their commands give,
/// for somebody to read and commit.
const REWRITE: &str = "LINDYPO_REWRITE_PAGES";

/// The folders of the repository that commands speak of.
const FOLDERS: [&str; 4] = ["sheets", "include", "examples", "target"];

/// A block of a page between two fences, and the line on which it begins.
#[derive(Debug, PartialEq)]
struct Block<'a> {
    line: usize,
    /// What stands behind the first fence.
    kind: &'a str,
    lines: Vec<&'a str>,
}

impl Block<'_> {
    fn text(&self) -> String {
        self.lines.iter().flat_map(|line| [line, "\n"]).collect()
    }
}

fn blocks(page: &str) -> Vec<Block<'_>> {
    let (mut blocks, mut open): (Vec<Block>, Option<Block>) = (vec![], None);
    for (line, text) in (1..).zip(page.lines()) {
        match (text.strip_prefix("```"), &mut open) {
            (Some(_), Some(_)) => blocks.extend(open.take()),
            (Some(kind), None) => {
                let lines = vec![];
                open = Some(Block { line, kind, lines });
            }
            (None, Some(block)) => block.lines.push(text),
            (None, None) => (),
        }
    }
    assert!(open.is_none(), "a block that does not end");
    blocks
}

/// A new folder for the blocks of a page; gone in the end.
struct Folder(PathBuf);

impl Folder {
    fn new(name: &str) -> Self {
        let folder = PathBuf::from(env!("CARGO_TARGET_TMPDIR")).join(name);
        let _ = fs::remove_dir_all(&folder);
        fs::create_dir_all(&folder).expect("a new folder");
        for name in FOLDERS {
            symlink(top().join(name), folder.join(name)).expect("a link");
        }
        for (name, words) in [("lindypo", ""), ("run", " run")] {
            let program = env!("CARGO_BIN_EXE_lindypo");
            let script = format!("#!/bin/sh\nexec '{program}'{words} \"$@\"\n");
            let path = folder.join(name);
            fs::write(&path, script).expect("a script");
            fs::set_permissions(&path, fs::Permissions::from_mode(0o755)).expect("its mode");
        }
        Folder(folder)
    }

    /// What a command writes to its output and its error output.
    fn run(&self, command: &str) -> String {
        let shell = Command::new("bash")
            .args(["-c", &format!("{{ {command}\n}} 2>&1 </dev/null")])
            .current_dir(&self.0)
            .env("PATH", path_with(&self.0))
            .output()
            .expect("a shell");
        String::from_utf8_lossy(&shell.stdout).into_owned()
    }
}

impl Drop for Folder {
    fn drop(&mut self) {
        let _ = fs::remove_dir_all(&self.0);
    }
}

fn path_with(folder: &Path) -> String {
    let path = env::var("PATH").unwrap_or_default();
    format!("{}:{path}", folder.display())
}

/// A command of a page, by its line, what it must write and what it writes.
struct Ran<'a> {
    line: usize,
    command: &'a str,
    wanted: Vec<&'a str>,
    given: String,
}

/// Runs the commands of a block.
fn run<'a>(folder: &Folder, page: &str, block: &Block<'a>) -> Vec<Ran<'a>> {
    let mut ran = vec![];
    let mut lines = (block.line + 1..).zip(&block.lines).peekable();
    while let Some((line, text)) = lines.next() {
        let command = text.strip_prefix("$ ");
        let command = command.unwrap_or_else(|| panic!("{page}:{line}: no command"));
        let mut wanted = vec![];
        while let Some((_, text)) = lines.next_if(|(_, text)| !text.starts_with("$ ")) {
            wanted.push(*text);
        }
        let given = folder.run(command);
        ran.push(Ran {
            line,
            command,
            wanted,
            given,
        });
    }
    ran
}

/// The page with what its commands write.
fn rewritten(page: &str, ran: &[Ran]) -> String {
    let mut lines: Vec<&str> = page.lines().collect();
    for Ran {
        line,
        wanted,
        given,
        ..
    } in ran.iter().rev()
    {
        lines.splice(*line..line + wanted.len(), given.lines());
    }
    lines.iter().flat_map(|line| [line, "\n"]).collect()
}

/// Writes the files of a page, runs its commands, at least so many, and compares.
#[track_caller]
fn is_true(page: &str, least: usize) {
    let text = read_text(page);
    let folder = Folder::new(&page.replace('/', "-"));
    let mut ran = vec![];
    for block in blocks(&text) {
        match block.kind.split_whitespace().collect::<Vec<_>>()[..] {
            ["sheet" | "formulas", name] => {
                fs::write(folder.0.join(name), block.text()).expect("a file");
            }
            ["console"] => ran.extend(run(&folder, page, &block)),
            ["c" | "rust", file] => {
                assert_eq!(block.text(), read_text(file), "{page}:{}", block.line);
            }
            ["part", file] => {
                let is_part = read_text(file).contains(&block.text());
                assert!(is_part, "{page}:{}: no part of {file}", block.line);
            }
            _ => (),
        }
    }
    assert!(ran.len() >= least, "{page}: {} commands", ran.len());
    if env::var_os(REWRITE).is_some() {
        fs::write(top().join(page), rewritten(&text, &ran)).expect("a page");
        return;
    }
    for ran in &ran {
        let (line, command) = (ran.line, ran.command);
        let given: Vec<&str> = ran.given.lines().collect();
        let hint = format!("{REWRITE}=1 writes into the pages what commands give");
        assert_eq!(given, ran.wanted, "{page}:{line}: {command}\n{hint}");
    }
}

#[test]
fn the_front_page() {
    is_true("README.md", 2);
}

#[test]
fn the_language() {
    is_true("docs/LANGUAGE.md", 50);
}

#[test]
fn the_bindings() {
    is_true("docs/BINDINGS.md", 2);
}

#[test]
fn how_to_change_it() {
    is_true("CONTRIBUTING.md", 0);
}

#[test]
fn blocks_of_a_page() {
    let page = "a\n```sheet x\nb\n```\n$ c\n```\n$ d\ne\n```\n";
    let block = |line, kind, lines: &[&'static str]| Block {
        line,
        kind,
        lines: lines.to_vec(),
    };
    let wanted = [block(2, "sheet x", &["b"]), block(6, "", &["$ d", "e"])];
    assert_eq!(blocks(page), wanted);
}

#[test]
fn a_page_rewritten() {
    let page = "```console\n$ a\nb\n$ c\n```\nd\n";
    let ran = |line, command, wanted: &[&'static str], given: &str| Ran {
        line,
        command,
        wanted: wanted.to_vec(),
        given: given.to_string(),
    };
    let ran = [ran(2, "a", &["b"], "x\ny\n"), ran(4, "c", &[], "z\n")];
    let wanted = "```console\n$ a\nx\ny\n$ c\nz\n```\nd\n";
    assert_eq!(rewritten(page, &ran), wanted);
}

/// The refusals that have a heading in a page, by the number that it begins
/// with.
fn refusals_with_a_heading(page: &str) -> Vec<u32> {
    let headings = page.lines().filter_map(|line| line.strip_prefix("### "));
    let words = headings.flat_map(|heading| {
        let (numbers, _) = heading.split_once(':').unwrap_or_default();
        numbers.split(" and ").collect::<Vec<_>>()
    });
    words.filter_map(|word| word.parse().ok()).collect()
}

#[test]
fn every_refusal_is_in_the_language() {
    let numbers = refusals_with_a_heading(&read_text("docs/LANGUAGE.md"));
    assert_eq!(numbers, (1..=21).collect::<Vec<_>>());
}

#[test]
fn every_sheet_is_in_the_list() {
    let list = read_text("sheets/README.md");
    let rows: Vec<Vec<&str>> = list
        .lines()
        .map(|line| line.split(" | ").collect())
        .collect();
    for sheet in sheets() {
        let name = sheet.file_stem().expect("a name").to_string_lossy();
        let first = format!("| {name}");
        let rows: Vec<_> = rows.iter().filter(|row| row[0] == first).collect();
        assert_eq!(rows.len(), 1, "sheets/README.md: rows of {name}");
        if name.starts_with("refusal") {
            let print = read_text(sheet.with_extension("print"));
            assert_eq!(print, format!("refusal place\n{}\n", rows[0][1]), "{name}");
        }
    }
}

/// The pages: those at the top, in `docs` and in `sheets`.
fn pages() -> Vec<PathBuf> {
    let files = ["", "docs", "sheets"].into_iter().flat_map(|folder| {
        let files = fs::read_dir(top().join(folder)).expect("a folder");
        files.map(move |file| Path::new(folder).join(file.expect("a file").file_name()))
    });
    let is_page = |file: &PathBuf| file.extension().is_some_and(|end| end == "md");
    files.filter(is_page).collect()
}

/// The anchors of a page: those of its headings, in small letters and digits with a
/// hyphen for each space, and those that are written into it.
fn anchors(page: &str) -> Vec<String> {
    let written = page.split("<a id=\"").skip(1);
    let written = written.filter_map(|rest| Some(rest.split_once('"')?.0.to_string()));
    let headings = page.lines().filter(|line| line.starts_with('#'));
    let anchor = |heading: &str| {
        let words = heading.trim_start_matches('#').trim().to_lowercase();
        let is_kept = |c: &char| c.is_alphanumeric() || "-_ ".contains(*c);
        words.replace(' ', "-").chars().filter(is_kept).collect()
    };
    headings.map(anchor).chain(written).collect()
}

/// What the links of a page lead to, but for those that leave the repository.
fn links(page: &str) -> Vec<&str> {
    let ends = page.split("](").skip(1);
    let links = ends.filter_map(|rest| Some(rest.split_once(')')?.0));
    links.filter(|link| !link.contains("://")).collect()
}

/// Whether a link in a page leads to a file, and to a heading of it.
fn leads(page: &Path, link: &str) -> bool {
    let (file, anchor) = link.split_once('#').unwrap_or((link, ""));
    let target = match (file, page.parent()) {
        ("", _) => page.to_path_buf(),
        (file, folder) => folder.unwrap_or(Path::new("")).join(file),
    };
    top().join(&target).exists() && (anchor.is_empty() || has_anchor(target, anchor))
}

/// Whether a page has an anchor. One page has thousands of links to itself, so each
/// is read once.
fn has_anchor(page: PathBuf, anchor: &str) -> bool {
    thread_local!(static KNOWN: RefCell<HashMap<PathBuf, HashSet<String>>> = RefCell::default());
    KNOWN.with_borrow_mut(|known| {
        let read = |page: &PathBuf| anchors(&read_text(page)).into_iter().collect();
        let anchors = known.entry(page.clone()).or_insert_with(|| read(&page));
        anchors.contains(anchor)
    })
}

#[test]
fn links_lead_somewhere() {
    let pages = pages();
    assert!(pages.len() > 10, "{pages:?}");
    for page in pages {
        for link in links(&read_text(&page)) {
            assert!(leads(&page, link), "{}: {link}", page.display());
        }
    }
}

#[test]
fn a_link_that_leads_nowhere() {
    let page = Path::new("docs/LANGUAGE.md");
    assert!(leads(page, "../README.md#two-commands") && leads(page, "#paths"));
    assert!(
        !leads(page, "README.md") && !leads(page, "#path") && !leads(page, "../README.md#path")
    );
    assert_eq!(links("a [b](c) ![d](e#f) [g](https://h)"), ["c", "e#f"]);
    assert_eq!(anchors("# A b\ntext\n## 1: the c"), ["a-b", "1-the-c"]);
    assert_eq!(anchors("text <a id=\"d.E\"></a>`f`"), ["d.E"]);
}
