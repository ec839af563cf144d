//! The checks on a copy of this repository: each finds what is planted there.

use std::fs;
use std::io;
use std::path::{Path, PathBuf};

use specification::files;
use specification::graph::Graph;
use specification::repository::Repository;

/// A copy of the crates and the documents, removed at the end.
struct Copy {
    root: PathBuf,
}

impl Copy {
    fn new(name: &str) -> Copy {
        let name = format!("specification-{name}-{}", std::process::id());
        let root = std::env::temp_dir().join(name);
        let from = Path::new(env!("CARGO_MANIFEST_DIR")).join("../..");
        for folder in ["crates", "docs"] {
            copy(&from.join(folder), &root.join(folder)).expect("a copy");
        }
        Copy { root }
    }

    /// Puts a text at the end of a file.
    fn plant(&self, path: &str, text: &str) {
        let path = self.root.join(path);
        let there = fs::read_to_string(&path).expect("a file");
        fs::write(path, there + text).expect("a file written");
    }

    /// Puts a line at the head of a file.
    fn head(&self, path: &str, line: &str) {
        let path = self.root.join(path);
        let there = fs::read_to_string(&path).expect("a file");
        fs::write(path, format!("{line}\n{there}")).expect("a file written");
    }

    fn read(&self) -> Repository {
        Repository::read(&self.root).expect("a repository")
    }
}

impl Drop for Copy {
    fn drop(&mut self) {
        let _ = fs::remove_dir_all(&self.root);
    }
}

fn copy(from: &Path, to: &Path) -> io::Result<()> {
    fs::create_dir_all(to)?;
    for entry in fs::read_dir(from)? {
        let entry = entry?;
        let target = to.join(entry.file_name());
        match entry.file_type()?.is_dir() {
            // what rt leaves beside the sources
            true if entry.file_name() == "out" => {}
            true => copy(&entry.path(), &target)?,
            false => fs::copy(entry.path(), target).map(|_| ())?,
        }
    }
    Ok(())
}

/// What is found after and was not before, without its place in the file.
fn new(before: Vec<String>, after: Vec<String>) -> Vec<String> {
    let bare = |line: &String| {
        let parts: Vec<&str> = line.splitn(3, ':').collect();
        format!("{}:{}", parts[0], parts[2])
    };
    let before: Vec<String> = before.iter().map(bare).collect();
    let after = after.iter().map(bare);
    after.filter(|line| !before.contains(line)).collect()
}

#[test]
fn what_is_planted_is_uncited() {
    let copy = Copy::new("uncited");
    let before = copy.read().uncited();
    let law = "\npub planted-law : (n : ℕ) → n ≡ n\nplanted-law n = refl\n";
    copy.plant("crates/order/proofs/Lists.antt", law);
    let definition = "\nabbrev pub planted : ℕ → ℕ\nplanted n = n\n";
    copy.plant("crates/order/specs/Order.antt", definition);
    copy.head("crates/order/specs/Order.antt", "use lib.Planted.{brought}");
    copy.plant(
        "crates/marks/src/lib.rt",
        "\nfn planted() -> usize {\n    1\n}\n",
    );
    let found = new(before, copy.read().uncited());
    assert_eq!(
        found,
        [
            "crates/marks/src/lib.rt: item `planted`: nothing cites it",
            "crates/order/proofs/Lists.antt: law `planted-law`: nothing cites it",
            "crates/order/specs/Order.antt: definition `planted`: nothing cites it",
            "crates/order/specs/Order.antt: `brought`: brought in and not used",
        ]
    );
}

#[test]
fn a_law_that_is_quoted_is_cited() {
    let copy = Copy::new("quoted");
    let before = copy.read().uncited();
    let law = "\npub planted-law : (n : ℕ) → n ≡ n\nplanted-law n = refl\n";
    copy.plant("crates/order/proofs/Lists.antt", law);
    copy.plant("docs/CONTRACTS.md", "\nThe law `planted-law`.\n");
    assert!(new(before, copy.read().uncited()).is_empty());
}

#[test]
fn a_quote_of_two_laws_is_unclear() {
    let copy = Copy::new("unclear");
    let before = copy.read().uncited();
    let law = "\npub planted-law : (n : ℕ) → n ≡ n\nplanted-law n = refl\n";
    copy.plant("crates/order/proofs/Lists.antt", law);
    copy.plant("crates/text/proofs/Bytes.antt", law);
    copy.plant("docs/CONTRACTS.md", "\nThe law `planted-law`.\n");
    let found = new(before, copy.read().uncited());
    assert!(
        found[0].contains("which `planted-law` is meant"),
        "{found:?}"
    );
}

#[test]
fn a_file_with_both_is_mixed() {
    let copy = Copy::new("mixed");
    let before = copy.read().mixed();
    let definition = "\nabbrev pub planted : ℕ → ℕ\nplanted n = n\n";
    copy.plant("crates/order/specs/Order.antt", definition);
    let after = copy.read().mixed();
    let found: Vec<&String> = after.iter().filter(|line| !before.contains(line)).collect();
    assert_eq!(found.len(), 1);
    assert!(found[0].starts_with("crates/order/specs/Order.antt: readers believe"));
    assert!(found[0].ends_with("not `planted`"));
}

/// A definition, and a theorem about it that a table of CONTRACTS.md quotes.
fn definition(name: &str) -> String {
    format!("\nabbrev pub {name} : ℕ → ℕ\n{name} n = n\n")
}

fn theorem(name: &str, of: &str) -> String {
    format!("\npub {name} : (n : ℕ) → {of} n ≡ n\n{name} n = refl\n")
}

fn said(name: &str) -> String {
    format!("\n| theorem | says | file |\n|---|---|---|\n| `{name}` | it stays | `crates` |\n")
}

#[test]
fn a_word_for_two_things_is_found() {
    let copy = Copy::new("twice");
    assert_eq!(copy.read().twice(), [""; 0]);
    let text = definition;
    copy.plant("crates/order/specs/Order.antt", &text("planted"));
    copy.plant("crates/text/specs/Bytes.antt", &text("planted"));
    // a type of the code counts, and a file
    copy.plant("crates/text/specs/Bytes.antt", &text("Completed"));
    fs::write(copy.root.join("crates/text/specs/Order.antt"), "").expect("a file");
    let found = copy.read().twice();
    assert!(found[0].starts_with("`Completed`: crates/redoing/src/lib.rt:"));
    assert!(found[1].starts_with("`planted`: crates/order/specs/Order.antt:"));
    let files = "crates/order/specs/Order.antt, crates/text/specs/Order.antt";
    assert_eq!(found[2..], [files]);
}

#[test]
fn what_is_believed_has_a_word_of_its_own_wherever_it_stands() {
    let copy = Copy::new("believed");
    for (file, name) in [("Lists", "planted"), ("Proper", "Planted")] {
        let path = format!("crates/order/proofs/{file}.antt");
        let law = format!("{name}-law");
        copy.plant(&path, &(definition(name) + &theorem(&law, name)));
        copy.plant("docs/CONTRACTS.md", &said(&law));
    }
    let found = copy.read().twice();
    assert_eq!(found.len(), 1, "{found:?}");
    let cases = "`planted`, `Planted`: crates/order/proofs/Lists.antt:";
    assert!(found[0].starts_with(cases), "{found:?}");
    // one that is believed and one of `specs/`
    copy.plant("crates/text/specs/Bytes.antt", &definition("planted"));
    let found = copy.read().twice();
    let same = "`planted`: crates/order/proofs/Lists.antt:";
    assert!(found[0].starts_with(same), "{found:?}");
}

/// A name that is allowed twice is taken off the list when it stands for one thing.
#[test]
fn what_is_allowed_twice_is_there_twice() {
    let copy = Copy::new("idle");
    let path = copy.root.join("crates/samples/specs/Sample.antt");
    let text = fs::read_to_string(&path).expect("a file");
    fs::write(&path, text.replace("PrintLine", "Printed0")).expect("a file written");
    let found = copy.read().twice();
    let idle = "`print_line`: allowed, and stands for one thing alone";
    assert_eq!(found, [idle]);
}

#[test]
fn what_readers_believe_stands_in_specs() {
    let copy = Copy::new("unfit");
    assert_eq!(copy.read().unfit(), [""; 0]);
    let law = theorem("planted-law", "planted");
    let path = "crates/order/proofs/Lists.antt";
    copy.plant(path, &(definition("planted") + &law));
    copy.plant("docs/CONTRACTS.md", &said("planted-law"));
    let found = copy.read().unfit();
    assert_eq!(found.len(), 1, "{found:?}");
    assert!(found[0].starts_with(&format!("{path}:")));
    assert!(found[0].ends_with(": readers believe `planted`"));
}

#[test]
fn a_theorem_has_a_sentence() {
    let copy = Copy::new("unsaid");
    let law = "\npub planted-law : (n : ℕ) → n ≡ n\nplanted-law n = refl\n";
    copy.plant("crates/order/proofs/Lists.antt", law);
    copy.plant("docs/CONTRACTS.md", "\nThe law `planted-law`.\n");
    let found = copy.read().unfit();
    assert_eq!(found.len(), 1, "{found:?}");
    assert!(found[0].ends_with(": no table says what `planted-law` says"));
    // a table further down says it
    copy.plant("docs/CONTRACTS.md", &said("planted-law"));
    let read = copy.read();
    assert_eq!(read.unfit(), [""; 0]);
    assert!(read.page().contains("> `planted-law`: it stays\n"));
}

/// The theorems that CONTRACTS.md lists as those behind demand 3.
#[test]
fn demand_3_rests_on_what_is_listed_behind_it() {
    let root = Path::new(env!("CARGO_MANIFEST_DIR")).join("../..");
    let graph = Graph::new(files::read(&root).expect("crates"));
    let behind = graph.reached(graph.named("demand_3"));
    let page = fs::read_to_string(root.join("docs/CONTRACTS.md")).expect("a page");
    let table = page.split("\nThe theorems about orders behind it").nth(1);
    let rows = table.expect("a table").lines().skip(4);
    let cells = rows.map_while(|row| row.strip_prefix("| ")?.split(" | ").next());
    let names: Vec<&str> = cells
        .flat_map(|cell| cell.split('`').skip(1).step_by(2))
        .collect();
    assert!(names.contains(&"follow_exactly"), "{names:?}");
    for name in names {
        let mut laws = graph.named(name).iter();
        assert!(laws.any(|law| behind.contains(law)), "{name}");
    }
    let beside = graph.named("same_cells");
    assert!(beside.iter().all(|law| !behind.contains(law)));
}

#[test]
fn the_page_follows_the_definitions() {
    let copy = Copy::new("page");
    let before = copy.read().page();
    assert_eq!(before, copy.read().page());
    copy.plant(
        "crates/order/specs/Order.antt",
        "-- planted\nplace16 t n = 17\n",
    );
    let after = copy.read().page();
    assert_ne!(before, after);
    assert!(after.contains("-- planted\nplace16 t n = 17\n"));
}

/// Every link of the page leads somewhere on it, and every file of a link is there.
#[test]
fn links_lead_somewhere() {
    let root = Path::new(env!("CARGO_MANIFEST_DIR")).join("../..");
    let page = Repository::read(&root).expect("a repository").page();
    let heads: Vec<String> = page
        .lines()
        .filter_map(|line| line.strip_prefix("## "))
        .map(heading)
        .collect();
    for target in page
        .split("](")
        .skip(1)
        .filter_map(|rest| rest.split(')').next())
    {
        let is_there = match target.strip_prefix('#') {
            Some(id) => {
                page.contains(&format!("<a id=\"{id}\">")) || heads.contains(&id.to_string())
            }
            None => root.join("docs").join(target).exists(),
        };
        assert!(is_there, "no {target}");
    }
}

fn heading(title: &str) -> String {
    title
        .to_lowercase()
        .replace(' ', "-")
        .replace(['\'', '.'], "")
}
