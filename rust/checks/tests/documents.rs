//! The documents name what is there: every file of `crates/`, every name that
//! is said to stand in it, every must-fail edit, function, sheet and test.

use std::fs;
use std::path::{Path, PathBuf};

const DOCUMENTS: [&str; 6] = [
    "docs/RULES.md",
    "docs/CONTRACTS.md",
    "docs/ARCHITECTURE.md",
    "docs/DECISIONS.md",
    "docs/PROVED.md",
    "CONTRIBUTING.md",
];

fn root() -> PathBuf {
    Path::new(env!("CARGO_MANIFEST_DIR")).join("../..")
}

/// What stands between backticks in a line, each with the text after it up to
/// the next.
fn quoted(line: &str) -> Vec<(&str, &str)> {
    let parts: Vec<&str> = line.split('`').collect();
    let names = parts.iter().skip(1).step_by(2).copied();
    let after = parts.iter().skip(2).step_by(2).copied();
    names.zip(after.chain([""])).collect()
}

/// Whether a name stands in a text as a whole word; hyphens are part of words.
fn has_word(text: &str, name: &str) -> bool {
    let is_part = |c: char| c.is_alphanumeric() || c == '_' || c == '-';
    text.match_indices(name).any(|(at, _)| {
        let before = text[..at].chars().next_back();
        let after = text[at + name.len()..].chars().next();
        !before.is_some_and(is_part) && !after.is_some_and(is_part)
    })
}

/// Whether a file of definitions or proofs says what a name is: a name that it
/// brings in stands elsewhere.
fn declares(text: &str, name: &str) -> bool {
    let modifiers = ["pub", "abbrev", "unfoldable", "record", "data"];
    let is_declared = |line: &str| {
        let mut words = line.split_whitespace();
        let first = words.find(|word| !modifiers.contains(word));
        first == Some(name) && (line.contains(" : ") || line.ends_with(" :"))
    };
    text.lines().any(is_declared)
}

/// What is wrong with a file of `crates/` and the names listed after it.
fn check_file(path: &str, names: &[&str]) -> Vec<String> {
    let file = root().join(path);
    if !file.exists() {
        return vec![format!("there is no {path}")];
    }
    let text = fs::read_to_string(file).unwrap_or_default();
    let last = |name: &str| name.rsplit("::").next().unwrap_or(name).to_string();
    let is_there = |name: &str| match path.ends_with(".antt") {
        true => declares(&text, name),
        false => has_word(&text, name),
    };
    let is_missing = |name: &&&str| !is_there(&last(name));
    let missing = names.iter().filter(is_missing);
    missing
        .map(|name| format!("{path} has no {name}"))
        .collect()
}

/// A file is followed by `: ` and names, which go on after commas.
fn check_line(line: &str) -> Vec<String> {
    let quoted = quoted(line);
    let mut wrong = Vec::new();
    for (at, (path, after)) in quoted.iter().enumerate() {
        if path.starts_with("crates/") {
            let is_list = after.starts_with(": ") && after.len() == 2;
            let goes_on = |after: &str| [", ", " and "].contains(&after);
            let more = quoted[at + 1..].iter();
            let count = 1 + more.take_while(|(_, after)| goes_on(after)).count();
            let names: Vec<&str> = quoted[at + 1..].iter().map(|(name, _)| *name).collect();
            let names = &names[..if is_list { count.min(names.len()) } else { 0 }];
            wrong.extend(check_file(path, names));
        }
    }
    wrong
}

/// `crate/edit`, where the crate has must-fail edits; `sheets/file` and
/// `rust/file`.
fn check_edits(line: &str) -> Vec<String> {
    let edit = |(name, _): &(&str, &str)| {
        let (of, edit) = name.split_once('/')?;
        let folder = root().join("crates").join(of).join("must-fail");
        let is_file = root().join(name).exists();
        let is_edit = folder.join(format!("{edit}.edit")).exists();
        let is_asked = folder.is_dir() || ["sheets", "rust"].contains(&of);
        (is_asked && !is_file && !is_edit).then(|| format!("there is no {name}"))
    };
    quoted(line).iter().filter_map(edit).collect()
}

/// Whether a file has a function or a module of that name.
fn has_function(path: &Path, name: &str) -> bool {
    let text = fs::read_to_string(path).unwrap_or_default();
    let forms = [
        format!("fn {name}("),
        format!("fn {name}<"),
        format!("mod {name};"),
    ];
    forms.iter().any(|form| text.contains(form))
}

/// Whether a crate has a function of that name, in Rattle or in Rust; a name in
/// capitals is a type's.
fn has_item(of: &str, name: &str) -> bool {
    let folders = [format!("crates/{of}/src"), format!("rust/{of}/src")];
    let folders = folders.map(|folder| root().join(folder));
    let mut files = folders
        .iter()
        .filter_map(|folder| fs::read_dir(folder).ok())
        .flatten();
    let is_word = name.starts_with(|c: char| c.is_lowercase());
    let is_crate = folders.iter().any(|folder| folder.is_dir());
    !is_word || !is_crate || files.any(|file| file.is_ok_and(|f| has_function(&f.path(), name)))
}

/// `crate::function`, and `rules::file::test` and `calls::file::test`, the tests of
/// the reference and of the library.
fn check_functions(line: &str) -> Vec<String> {
    let function = |(name, _): &(&str, &str)| {
        let name = name.split('(').next().unwrap_or(name);
        let parts: Vec<&str> = name.split("::").collect();
        let is_there = match parts[..] {
            ["rules", file, test] => {
                let file = format!("rust/reference/tests/rules/{file}.rs");
                has_function(&root().join(file), test)
            }
            ["calls", file, test] => {
                let file = format!("rust/checks/tests/calls/{file}.rs");
                has_function(&root().join(file), test)
            }
            [of, function] => has_item(of, function),
            _ => true,
        };
        (!is_there).then(|| format!("there is no {name}"))
    };
    quoted(line).iter().filter_map(function).collect()
}

/// The cells of a row of a table.
fn cells(line: &str) -> Vec<&str> {
    let inner = line
        .strip_prefix("| ")
        .and_then(|row| row.strip_suffix(" |"));
    inner.map_or(vec![], |row| row.split(" | ").collect())
}

/// Rows that have not as many cells as the first row of their table, or an empty one.
fn check_rows(text: &str) -> Vec<String> {
    let mut wrong = Vec::new();
    let mut columns = 0;
    for (number, line) in (1..).zip(text.lines()) {
        let row = cells(line);
        if row.is_empty() {
            columns = if line.starts_with('|') { columns } else { 0 };
            continue;
        }
        columns = if columns == 0 { row.len() } else { columns };
        let is_empty = row.iter().any(|cell| cell.trim().is_empty());
        if row.len() != columns || is_empty {
            wrong.push(format!("{number}: {} cells of {columns}", row.len()));
        }
    }
    wrong
}

#[test]
fn documents_name_what_is_there() {
    let mut wrong = Vec::new();
    for document in DOCUMENTS {
        let text = fs::read_to_string(root().join(document)).expect("a document");
        for (number, line) in (1..).zip(text.lines()) {
            let found = [check_line(line), check_edits(line), check_functions(line)].concat();
            let place = |what| format!("{document}:{number}: {what}");
            wrong.extend(found.into_iter().map(place));
        }
    }
    assert!(wrong.is_empty(), "{}", wrong.join("\n"));
}

/// A sentence has its definition, its code and its test.
#[test]
fn every_sentence_has_all_columns() {
    let text = fs::read_to_string(root().join("docs/RULES.md")).expect("a document");
    let wrong = check_rows(&text);
    assert!(wrong.is_empty(), "docs/RULES.md:{}", wrong.join("\n"));
    let has_all = |line: &str| cells(line)[1..] == ["definition", "code", "test"];
    let is_head = |line: &&str| cells(line).len() > 1 && cells(line)[1] == "definition";
    let mut heads = text.lines().filter(is_head);
    assert!(heads.all(has_all));
}

#[test]
fn a_wrong_name_is_found() {
    let file = "crates/order/specs/Order.antt";
    assert!(check_line(&format!("`{file}`: `plan`, `needs`")).is_empty());
    assert_eq!(check_line(&format!("`{file}`: `plan`, `noPlan`")).len(), 1);
    // brought in there, and said elsewhere
    assert_eq!(check_line(&format!("`{file}`: `is_definition`")).len(), 1);
    assert_eq!(check_line("`crates/order/specs/Orders.antt`").len(), 1);
    assert!(check_edits("`order/groups_by_label`").is_empty());
    assert_eq!(check_edits("`order/groups_by_name`").len(), 1);
    assert!(check_edits("`sheets/01-example.sheet`").is_empty());
    assert_eq!(check_edits("`sheets/01-example.shed`").len(), 1);
    assert!(check_functions("`reading::read`, `calls::texts::text_lengths`").is_empty());
    assert_eq!(check_functions("`reading::write`").len(), 1);
    assert_eq!(check_functions("`rules::orders::no_such_test`").len(), 1);
    assert_eq!(
        check_rows("| a | b |\n|---|---|\n| c |  |\n| d |\n").len(),
        2
    );
}

/// The must-fail edits of all crates, as `crate/edit`.
fn edits() -> Vec<String> {
    let entries = |folder: &Path| fs::read_dir(folder).into_iter().flatten().flatten();
    let names = |entry: fs::DirEntry| {
        let of = entry.file_name().to_string_lossy().into_owned();
        let edits = entries(&entry.path().join("must-fail"));
        edits.filter_map(move |edit| {
            let name = edit.file_name().to_string_lossy().into_owned();
            let edit = name.strip_suffix(".edit")?;
            Some(format!("{of}/{edit}"))
        })
    };
    entries(&root().join("crates")).flat_map(names).collect()
}

/// CONTRACTS.md lists every edit, and each once.
#[test]
fn every_edit_is_listed_once() {
    let page = fs::read_to_string(root().join("docs/CONTRACTS.md")).expect("a page");
    let rows: Vec<&str> = page.lines().filter(|line| line.starts_with('|')).collect();
    let edits = edits();
    assert!(!edits.is_empty(), "edits are found");
    for edit in edits {
        let name = format!("`{edit}`");
        let count: usize = rows.iter().map(|row| row.matches(&name).count()).sum();
        assert_eq!(count, 1, "{edit} in the tables of docs/CONTRACTS.md");
    }
}

/// All texts of a folder and of those in it, one behind the other.
fn all_texts(folder: &Path) -> String {
    let mut texts = String::new();
    for entry in fs::read_dir(folder).into_iter().flatten() {
        let path = entry.expect("a file").path();
        texts += &match path.is_dir() {
            true => all_texts(&path),
            false => fs::read_to_string(path).unwrap_or_default() + "\n\n",
        };
    }
    texts
}

/// Those of this folder of every crate.
fn texts(folder: &str) -> String {
    let crates = fs::read_dir(root().join("crates")).expect("crates");
    crates
        .map(|of| all_texts(&of.expect("a crate").path().join(folder)))
        .collect()
}

/// Where an edit fails is a function or a law that is there.
#[test]
fn what_edits_fail_at_is_there() {
    let (code, proofs) = (texts("src"), texts("proofs"));
    let page = fs::read_to_string(root().join("docs/CONTRACTS.md")).expect("a page");
    let is_edit = |row: &Vec<&str>| row.len() == 4 && row[1].contains('/');
    let rows: Vec<Vec<&str>> = page.lines().map(cells).filter(is_edit).collect();
    assert_eq!(rows.len(), edits().len());
    for row in rows {
        for (name, _) in quoted(row[3]) {
            let heads = [format!("fn {name}("), format!("fn {name}<")];
            let is_function = heads.iter().any(|head| code.contains(head));
            assert!(is_function || declares(&proofs, name), "{name}: {}", row[1]);
        }
    }
}

/// Where a page quotes a record of `specs/`, it stands there so.
#[test]
fn records_are_quoted_as_they_stand() {
    let definitions = texts("specs");
    let page = fs::read_to_string(root().join("docs/CONTRACTS.md")).expect("a page");
    let blocks = page.split("\n```").skip(1).step_by(2);
    let records: Vec<&str> = blocks
        .flat_map(|block| block.trim().split("\n\n"))
        .filter(|part| part.starts_with("pub record "))
        .collect();
    assert!(records.len() > 10, "{records:?}");
    for record in records {
        assert!(definitions.contains(&format!("{record}\n\n")), "{record}");
    }
}
