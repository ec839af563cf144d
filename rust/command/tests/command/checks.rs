//! Checks, held to the prints of the sample sheets.

use std::path::{Path, PathBuf};

use command::check::{self, Item, Summary, Verdict};
use command::input::Source;

use crate::{read, read_text, sheets, top};

/// What a print says of a sheet: how many values have each state, 1 to 5, and
/// the number of its refusal.
fn printed(sheet: &Path) -> ([u64; 5], Option<u64>) {
    let print = read_text(sheet.with_extension("print"));
    let mut lines = print.lines();
    let heading = lines.next();
    let mut states = [0; 5];
    for line in lines {
        let words: Vec<&str> = line.split(' ').collect();
        if heading == Some("refusal place") {
            return (states, words[0].parse().ok());
        }
        states[words[3].parse::<usize>().expect("a state") - 1] += 1;
    }
    (states, None)
}

#[test]
fn the_sheets_come_to_their_prints() {
    let mut summary = Summary::default();
    let mut wanted = [0; 5];
    for sheet in sheets() {
        let verdict = Verdict::of_text(&read(&sheet), false);
        let (states, refusal) = printed(&sheet);
        match &verdict {
            Verdict::Answered(figures) => assert_eq!((figures.states, None), (states, refusal)),
            Verdict::Refused(found, _) => assert_eq!(Some(found.number()), refusal),
            _ => panic!("{}", sheet.display()),
        }
        summary.add("x", &verdict);
        (0..5).for_each(|state| wanted[state] += states[state]);
    }
    assert_eq!(summary.states, wanted);
    assert_eq!((summary.whole, summary.mixed), (16, 4));
    assert_eq!(summary.refused.iter().map(|row| row.count).sum::<u64>(), 19);
}

/// The sheets of a folder are checked, and no other file is forgotten.
#[test]
fn a_folder_stands_for_its_sheets() {
    let folder = top().join("sheets");
    let items = check::items(&[folder.clone().into_os_string()], false).expect("items");
    let is_checked = |item: &&Item| matches!(item, Item::Checked(_));
    let checked: Vec<Item> = items.iter().filter(is_checked).cloned().collect();
    let wanted = sheets().into_iter().map(|sheet| top().join(sheet));
    let wanted: Vec<Item> = wanted
        .map(|path| Item::Checked(Source::File(path)))
        .collect();
    assert_eq!(checked, wanted);
    let files = std::fs::read_dir(folder).expect("a folder").count();
    assert_eq!(items.len(), files);
}

/// A failed value is named where it stands.
#[test]
fn failed_values_have_a_place() {
    let text: PathBuf = "sheets/06-endless-calls.sheet".into();
    let Verdict::Answered(figures) = Verdict::of_text(&read(text), false) else {
        panic!("an answer");
    };
    let [failed] = &figures.failed[..] else {
        panic!("one value");
    };
    assert_eq!(
        (failed.label, failed.name.as_str(), failed.column),
        (3, "endless", 3)
    );
}
