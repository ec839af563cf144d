//! include/lindypo.h has the constants of the crates' own tables, the wrapper's
//! and the version; the words in C are the wrapper's. What the library does at
//! each of them is tested in c/tests.

use std::collections::BTreeMap;
use std::fs;
use std::path::{Path, PathBuf};

use lindypo::{Kind, State, Ties};

fn root() -> PathBuf {
    Path::new(env!("CARGO_MANIFEST_DIR")).join("../..")
}

fn read(path: &str) -> String {
    fs::read_to_string(root().join(path)).unwrap_or_else(|error| panic!("{path}: {error}"))
}

/// The header's constants that are numbers, without LINDYPO_.
fn header() -> BTreeMap<String, i64> {
    let text = read("include/lindypo.h");
    let constant = |line: &str| {
        let line = line.trim().trim_start_matches("#define ");
        let (name, rest) = line.strip_prefix("LINDYPO_")?.split_once(' ')?;
        let number = rest.trim_start_matches("= ").split([',', ' ']).next()?;
        Some((name.to_string(), number.parse().ok()?))
    };
    text.lines().filter_map(constant).collect()
}

/// Those that begin so, without that.
fn header_of(prefix: &str) -> BTreeMap<String, i64> {
    let named = |(name, number): (String, i64)| Some((name.strip_prefix(prefix)?.into(), number));
    header().into_iter().filter_map(named).collect()
}

/// The numbers that a crate's code gives a name, of one type.
fn code(of: &str, kind: &str) -> BTreeMap<String, i64> {
    let constant = |line: &str| {
        let line = line.trim().trim_start_matches("pub ");
        let (name, rest) = line.strip_prefix("const ")?.split_once(": ")?;
        let number = rest.strip_prefix(kind)?.strip_prefix(" = ")?;
        Some((name.to_string(), number.trim_end_matches(';').parse().ok()?))
    };
    let text = read(&format!("crates/{of}/src/lib.rt"));
    text.lines().filter_map(constant).collect()
}

/// The equations of a definition in a crate's specs: the lines from its name up
/// to an empty one.
fn definition(of: &str, name: &str) -> String {
    let folder = root().join("crates").join(of).join("specs");
    let mut files: Vec<PathBuf> = fs::read_dir(folder)
        .expect("specs")
        .map(|file| file.expect("a file").path())
        .collect();
    files.sort();
    let texts = files
        .iter()
        .map(|file| fs::read_to_string(file).expect("a text"));
    let is_name = |line: &&str| line.split(' ').next() == Some(name) && !line.contains(" : ");
    let equations = |text: String| {
        let lines = text.lines().skip_while(|line| !is_name(line));
        lines
            .take_while(|line| !line.is_empty())
            .collect::<Vec<_>>()
            .join("\n")
    };
    let found: Vec<String> = texts.map(equations).filter(|it| !it.is_empty()).collect();
    assert_eq!(
        found.len(),
        1,
        "{name} has one definition in the specs of {of}"
    );
    found.into_iter().collect()
}

fn has_number(text: &str, number: i64) -> bool {
    let digits = |c: char| !c.is_ascii_digit();
    text.split(digits).any(|word| word == number.to_string())
}

/// The letters of the one table of kinds, in its sequence.
fn letters() -> String {
    let crates = fs::read_dir(root().join("crates")).expect("crates");
    let code = |of: std::io::Result<fs::DirEntry>| {
        fs::read_to_string(of.expect("a crate").path().join("src/lib.rt")).ok()
    };
    let letters = |text: String| {
        let parts = text.split("letter: b'").skip(1);
        parts.filter_map(|part| part.chars().next()).collect()
    };
    let tables: Vec<String> = crates.filter_map(code).map(letters).collect();
    let mut tables = tables.into_iter().filter(|table| !table.is_empty());
    let table = tables.next().expect("a table of kinds");
    assert_eq!(tables.next(), None, "there is one table of kinds");
    table
}

#[test]
fn version() {
    let manifest = read("rust/Cargo.toml");
    let version = manifest
        .lines()
        .find_map(|line| line.strip_prefix("version = \"")?.strip_suffix('"'))
        .expect("a version");
    let header = read("include/lindypo.h");
    assert!(header.contains(&format!("#define LINDYPO_VERSION \"{version}\"\n")));
    let numbers = header_of("VERSION_");
    let [major, minor, patch] = ["MAJOR", "MINOR", "PATCH"].map(|name| numbers[name]);
    assert_eq!(format!("{major}.{minor}.{patch}"), version);
    let own = read("rust/lindypo/Cargo.toml");
    assert!(own.contains(&format!("\nversion = \"{version}\"\n")));
}

/// A variant's name as the header has it.
fn upper(variant: &str) -> String {
    let word = |(at, c): (usize, char)| match c.is_ascii_uppercase() && at > 0 {
        true => format!("_{c}"),
        false => c.to_ascii_uppercase().to_string(),
    };
    variant.char_indices().map(word).collect()
}

/// A definition in a crate's specs that gives each variant a number: `name Variant = 1`.
fn numbered(of: &str, name: &str) -> BTreeMap<String, i64> {
    let equation = |line: &str| {
        let (variant, number) = line.strip_prefix(name)?.split_once(" = ")?;
        Some((upper(variant.trim()), number.parse().ok()?))
    };
    definition(of, name).lines().filter_map(equation).collect()
}

#[test]
fn refusals() {
    let rows = numbered("refusals", "row_number");
    assert_eq!(header_of("REFUSAL_"), rows);
    let mut numbers: Vec<i64> = rows.into_values().collect();
    numbers.sort_unstable();
    assert_eq!(numbers, (1..=21).collect::<Vec<i64>>());
}

#[test]
fn states() {
    let mut named = code("evaluation", "u32");
    let limits = header();
    assert_eq!(named.remove("STEPS"), Some(limits["STEPS_MOST"]));
    assert_eq!(header_of("STATE_"), named);
    let depth = code("evaluation", "u16");
    assert_eq!(depth.get("DEPTH"), Some(&limits["DEPTH_MOST"]));
}

#[test]
fn columns() {
    let named = code("cells", "usize");
    let columns = header_of("COLUMN_");
    assert_eq!(columns.len() as i64, header()["TABLE_CELLS"]);
    for (name, number) in columns {
        assert_eq!(named.get(&name), Some(&number), "{name}");
    }
    for prefix in ["RESULT_", "CHANGE_"] {
        let cells = header_of(prefix);
        assert_eq!(cells["CELLS"], cells.len() as i64 - 1, "{prefix}");
    }
}

/// Each kind has its letter beside it.
#[test]
fn kinds() {
    let (text, numbers) = (read("include/lindypo.h"), header_of("KIND_"));
    let wrapper: String = Kind::ALL.into_iter().map(Kind::letter).collect();
    assert_eq!(letters(), wrapper);
    assert_eq!(numbers.len(), Kind::ALL.len());
    for kind in Kind::ALL {
        let name = format!("{kind:?}").to_uppercase();
        assert_eq!(numbers[&name], kind.code());
        let line = text
            .lines()
            .find(|line| line.contains(&format!("KIND_{name} =")));
        let letter = format!("/* {} */", kind.letter());
        assert!(line.is_some_and(|line| line.ends_with(&letter)), "{name}");
    }
}

/// The tie rules, and in C the lines that name them.
#[test]
fn ties() {
    let (words, numbers) = (read("c/lindypo_words.c"), header_of("TIES_"));
    assert_eq!(numbers.len(), Ties::ALL.len());
    for (number, ties) in (1..).zip(Ties::ALL) {
        let name = format!("{ties:?}").to_uppercase();
        assert_eq!(numbers[&name], number);
        let line = format!("{{LINDYPO_TIES_{name}, \"{}\\n\"}}", ties.first_line());
        assert!(words.contains(&line), "{line}");
    }
}

/// Each limit stands in the definition that says it.
#[test]
fn limits() {
    let header = header();
    let places = [
        ("TEXT_MOST", "cells", "size_limit"),
        ("LABELS_MOST", "cells", "label_limit"),
        ("NAME_MOST", "cells", "name_limit"),
        ("PATH_MOST", "cells", "path_limit"),
        ("NUMBER_MOST", "cells", "number_limit"),
        ("LEVELS_MOST", "cells", "level_limit"),
        ("PAIRS_MOST", "cells", "pair_limit"),
        ("STEPS_MOST", "evaluation", "step_limit"),
        ("DEPTH_MOST", "evaluation", "depth_limit"),
        ("TABLE_CELLS", "cells", "cell"),
        ("RESULT_CELLS", "evaluation", "state_at"),
    ];
    for (name, of, definition_name) in places {
        let definition = definition(of, definition_name);
        assert!(
            has_number(&definition, header[name]),
            "{name}: {definition}"
        );
        assert!(!has_number(&definition, header[name] + 1), "{name}");
    }
}

/// The print's bound is a sum: a line of column names, and one for each label.
#[test]
fn print() {
    let header = header();
    let bound = "print_bound = 36 + 48 * label_limit";
    assert_eq!(definition("printing", "print_bound"), bound);
    assert_eq!(header["PRINT_MOST"], 36 + 48 * header["LABELS_MOST"]);
}

/// What c/tests/words.print has after `refusal 3: `, by the number.
fn words(of: &str) -> BTreeMap<i64, String> {
    let text = read("c/tests/words.print");
    let word = |line: &str| {
        let (number, words) = line.strip_prefix(of)?.trim_start().split_once(": ")?;
        Some((number.parse().ok()?, words.to_string()))
    };
    text.lines().filter_map(word).collect()
}

/// The words in C for a refusal are those beside the wrapper's cases.
#[test]
fn words_of_refusals() {
    let text = read("rust/lindypo/src/refusal.rs");
    let cases = text.split("pub enum Refusal {").nth(1).unwrap();
    let cases = cases.split("\n}").next().unwrap();
    let comments = cases
        .lines()
        .filter_map(|line| line.trim().strip_prefix("///"));
    let comment: String = comments.collect();
    let said = words("refusal");
    for number in (1..=21).filter(|&number| number != 4) {
        let sentence = format!(" {number}: {}.", said[&number]);
        assert!(comment.contains(&sentence), "{sentence}");
    }
}

#[test]
fn words_of_states() {
    let said = words("state");
    let states = [
        State::OutOfRange,
        State::ZeroDivisor,
        State::OutOfSteps,
        State::TooDeep,
    ];
    for state in states {
        assert_eq!(said[&state.code()], state.to_string());
    }
}
