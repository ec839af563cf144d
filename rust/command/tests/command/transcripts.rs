//! The program as it is called: transcripts on file. The gate replays them too.

use std::process::Command;

use crate::{read_text, top};

/// What the commands of a transcript write, as they are on file.
#[track_caller]
fn is_replayed(name: &str) {
    let tests = top().join("rust/command/tests");
    let file = format!("rust/command/tests/transcripts/{name}");
    let replayed = Command::new("bash")
        .arg(tests.join("replay"))
        .arg(top().join(&file))
        .env("LINDYPO", env!("CARGO_BIN_EXE_lindypo"))
        .output()
        .expect("a shell");
    let (given, wanted) = (String::from_utf8_lossy(&replayed.stdout), read_text(&file));
    for (number, (given, wanted)) in (1..).zip(given.lines().zip(wanted.lines())) {
        assert_eq!(given, wanted, "{file}:{number}");
    }
    assert_eq!(given.len(), wanted.len(), "{file}: all of it");
}

#[test]
fn every_sheet_explained() {
    is_replayed("explain.txt");
}

#[test]
fn plans_lists_and_orders() {
    is_replayed("lists.txt");
}

#[test]
fn numbers_retouched() {
    is_replayed("retouch.txt");
}

#[test]
fn files_and_folders_checked() {
    is_replayed("check.txt");
}

#[test]
fn names_in_any_case() {
    is_replayed("capitals.txt");
}

#[test]
fn sheets_in_json() {
    is_replayed("json.txt");
}

#[test]
fn halves_away_and_to_even() {
    is_replayed("ties.txt");
}

#[test]
fn values_and_why() {
    is_replayed("why.txt");
}

#[test]
fn every_word_on_bad_input() {
    is_replayed("every.txt");
}

#[test]
fn pictures_of_sheets() {
    is_replayed("pictures.txt");
}

#[test]
fn slips_to_print() {
    is_replayed("slips.txt");
}

#[test]
fn wrong_words_files_and_outputs() {
    is_replayed("wrong.txt");
}

#[test]
fn sheets_shown_and_formulas_written() {
    is_replayed("formulas.txt");
}
