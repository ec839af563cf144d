//! Which files are checked.

use std::ffi::OsString;
use std::fs;
use std::io;
use std::path::{Path, PathBuf};

use crate::input::{self, Source};

/// What a folder's sheets end in.
const ENDING: &str = "sheet";

/// What becomes of a file.
#[derive(Debug, Clone, PartialEq, Eq)]
pub enum Item {
    Checked(Source),
    /// Not taken from its folder, and why.
    Skipped(PathBuf, &'static str),
    /// It stands for no sheet, and why.
    Wrong(PathBuf, String),
}

impl Item {
    pub fn source(&self) -> Source {
        match self {
            Item::Checked(source) => source.clone(),
            Item::Skipped(path, _) | Item::Wrong(path, _) => Source::File(path.clone()),
        }
    }
}

/// What the words stand for: a folder for its sheets, sorted by name, all else
/// for itself.
pub fn items(words: &[OsString], has_input: bool) -> Result<Vec<Item>, String> {
    let sources = input::sources(words, has_input)?;
    Ok(sources.into_iter().flat_map(items_of).collect())
}

fn items_of(source: Source) -> Vec<Item> {
    match source {
        Source::File(path) if path.is_dir() => folder(&path).unwrap_or_else(|error| {
            let reason = input::reason(&error);
            vec![Item::Wrong(path, reason)]
        }),
        source => vec![Item::Checked(source)],
    }
}

/// All that a folder has. One without a sheet is wrong: it may be the wrong one.
fn folder(folder: &Path) -> io::Result<Vec<Item>> {
    let mut paths = vec![];
    for entry in fs::read_dir(folder)? {
        paths.push(entry?.path());
    }
    paths.sort();
    let mut items: Vec<Item> = paths.into_iter().map(item).collect();
    if !items.iter().any(|item| matches!(item, Item::Checked(_))) {
        let reason = format!("has no sheet: no file in it ends in .{ENDING}");
        items.push(Item::Wrong(folder.to_path_buf(), reason));
    }
    Ok(items)
}

/// A link that leads nowhere is a file that cannot be read.
fn item(path: PathBuf) -> Item {
    let is_sheet = path.extension().is_some_and(|end| end == ENDING);
    match fs::metadata(&path) {
        Ok(data) if data.is_dir() => Item::Skipped(path, "a folder; name it to check it"),
        _ if !is_sheet => Item::Skipped(path, "its name does not end in .sheet"),
        Ok(data) if !data.is_file() => Item::Skipped(path, "no plain file; name it to check it"),
        _ => Item::Checked(Source::File(path)),
    }
}
