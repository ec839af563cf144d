//! The program and its parts on the sample sheets and on random ones.

mod checks;
mod helps;
mod json;
mod markup;
mod pages;
mod pictures;
mod random;
mod retouch;
mod slips;
mod tangles;
mod transcripts;
mod trees;

use std::fs;
use std::path::{Path, PathBuf};
use std::process::{Command, Output, Stdio};

use command::explain;
use command::input::Source;
use command::output::Paint;
use command::sheets::{Answer, Refused, Stop, Text};

/// The top of the repository.
fn top() -> PathBuf {
    Path::new(env!("CARGO_MANIFEST_DIR")).join("../..")
}

/// The sample sheets, sorted by name, as the top of the repository has them.
fn sheets() -> Vec<PathBuf> {
    let folder = fs::read_dir(top().join("sheets")).expect("the folder of sheets");
    let names = folder.map(|entry| PathBuf::from(entry.expect("a file").file_name()));
    let is_sheet = |name: &PathBuf| name.extension().is_some_and(|end| end == "sheet");
    let mut sheets: Vec<PathBuf> = names.filter(is_sheet).collect();
    sheets.sort();
    assert_eq!(sheets.len(), 39, "all sample sheets are there");
    sheets
        .iter()
        .map(|name| Path::new("sheets").join(name))
        .collect()
}

fn read(path: impl AsRef<Path>) -> Vec<u8> {
    let path = top().join(path);
    fs::read(&path).unwrap_or_else(|error| panic!("{}: {error}", path.display()))
}

fn read_text(path: impl AsRef<Path>) -> String {
    String::from_utf8(read(path)).expect("text")
}

/// The program with these words, at the top of the repository.
fn output(words: &[&str]) -> Output {
    Command::new(env!("CARGO_BIN_EXE_lindypo"))
        .args(words)
        .current_dir(top())
        .stdin(Stdio::null())
        .output()
        .expect("the program")
}

fn stdout(output: &Output) -> String {
    String::from_utf8(output.stdout.clone()).expect("text")
}

/// A text as it is explained, else why it is refused.
fn explained(bytes: &[u8]) -> Result<String, String> {
    let text = Text {
        source: Source::File("x".into()),
        bytes: bytes.to_vec(),
    };
    let paint = Paint::default();
    let asked = explain::ask(&text, false);
    match asked {
        Ok(answer) => Ok(answer.text(paint)),
        Err(Stop::Refused(refusal)) => Err(Refused::new(&text, &refusal).text(paint)),
        Err(Stop::Wrong(message)) => panic!("{message}"),
    }
}
