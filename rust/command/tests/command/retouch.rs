//! New numbers in random sheets, and in the longest one.

use std::fs;

use command::retouch::stages;
use generator::Rng;
use lindypo::{Kind, Label, Sheet, MOST_BYTES};

use crate::{output, stdout};

const CASES: u64 = 1_500;

/// Up to six pairs for N lines of a sheet.
fn pairs(sheet: &Sheet, rng: &mut Rng) -> Vec<(Label, i64)> {
    let lines = sheet.lines().filter(|line| line.kind == Kind::Number);
    let labels: Vec<Label> = lines.map(|line| line.label).collect();
    let number = |rng: &mut Rng| match rng.below(4) {
        0 => 0,
        1 => rng.below(20) as i64 - 10,
        2 => 1_000_000_000 - rng.below(3) as i64,
        _ => rng.below(100_000) as i64 - 50_000,
    };
    let count = if labels.is_empty() { 0 } else { rng.below(7) };
    (0..count)
        .map(|_| (labels[rng.below(labels.len())], number(rng)))
        .collect()
}

/// The values that are said to be redone are as many as the library says; no
/// other changes; each stage begins with what the one before it ended with, and
/// ends with what Retouch gives of the pairs up to there, and Run of the sheet with
/// their numbers put in.
#[test]
fn stages_are_the_librarys() {
    let (mut redone, mut changed) = (0, 0);
    for seed in 0..CASES {
        let rng = &mut Rng::new(seed);
        let text = generator::sheet(rng);
        let Ok(sheet) = Sheet::read(&text) else {
            continue;
        };
        let Ok(first) = sheet.run() else { continue };
        let pairs = pairs(&sheet, rng);
        let stages = stages::of(&sheet, &pairs).expect("stages");
        assert_eq!(stages.pairs(), pairs);
        let mut results = first.results;
        for (count, stage) in (1..).zip(&stages.list) {
            let put = sheet.with_numbers(&pairs[..count]);
            let put = Sheet::read(&put).expect("a sheet");
            let after = sheet.retouch(&pairs[..count]).expect("an answer").run;
            assert_eq!(put.run().as_ref(), Ok(&after));
            let after = after.results;
            assert_eq!(stage.redone.len(), stage.change.redone);
            for value in &stage.redone {
                assert_eq!(results.of(value.label), Some(value.before));
                assert_eq!(after.of(value.label), Some(value.after));
                changed += usize::from(value.is_changed());
            }
            let is_redone = |label| stage.redone.iter().any(|value| value.label == label);
            for (label, outcome) in after.iter() {
                assert!(is_redone(label) || results.of(label) == Some(outcome));
            }
            let failing = after.iter().filter(|(_, it)| it.state.number().is_none());
            let steps: u64 = after.iter().map(|(_, it)| u64::from(it.steps)).sum();
            assert_eq!(failing.count(), stage.change.failing);
            assert_eq!(steps, stage.change.steps);
            redone += stage.redone.len();
            results = after;
        }
        assert_eq!(stages.run.results, results);
    }
    assert!(
        redone > 2_000 && changed > 500,
        "{redone} redone, {changed} changed"
    );
}

/// A sheet of the most bytes: a value in seven Groups with the longest names,
/// read by its full path again and again. The names of the readers take up what
/// is left. Answers the text and the label of the one N line.
fn longest() -> (String, Label) {
    let group = |depth: usize| format!("g{depth:015}");
    let path: Vec<String> = (1..=7).map(group).collect();
    let path = format!("{}.v000000000000008", path.join("."));
    let written = |readers: usize, spare: usize| {
        let mut text = "kind name a b c\nG - 0 - -\n".to_string();
        for depth in 1..=7 {
            text += &format!("G {} {depth} - -\n", group(depth));
        }
        text += &format!("V v000000000000008 8 {} -\n", 10 + readers);
        for reader in 0..readers {
            // four letters, and up to twelve more
            let width = 3 + spare.saturating_sub(12 * reader).min(12);
            text += &format!("V r{reader:0width$} 1 {} -\n", 11 + readers + reader);
        }
        text += "N - 1 - -\n";
        text + &format!("R {path} - - -\n").repeat(readers)
    };
    let fits = |readers: &usize| written(*readers, 0).len() <= MOST_BYTES;
    let readers = (0..500).take_while(fits).last().expect("a sheet");
    let spare = MOST_BYTES - written(readers, 0).len();
    (written(readers, spare), 10 + readers)
}

/// The limit of a text is left aside where numbers are put in, and kept where
/// the sheet is to be written or drawn.
#[test]
fn the_longest_sheet() {
    let (text, label) = longest();
    assert_eq!(text.len(), MOST_BYTES);
    let folder = std::env::temp_dir().join(format!("lindypo-retouch-{}", std::process::id()));
    fs::create_dir(&folder).expect("a new folder");
    let [file, made] = ["x.sheet", "y"].map(|name| folder.join(name).display().to_string());
    fs::write(&file, text).expect("a file");
    let call = |options: &[&str], number: &str| {
        let pair = format!("{label}={number}");
        output(&[&["retouch"], options, &[file.as_str(), pair.as_str()]].concat())
    };
    let said = call(&[], "-1000000000");
    assert_eq!(said.status.code(), Some(0));
    assert!(stdout(&said).contains("r000"), "{}", stdout(&said));
    for option in ["-o", "--svg"] {
        let refused = call(&[option, &made], "-1000000000");
        assert_eq!(refused.status.code(), Some(2));
        let message = String::from_utf8_lossy(&refused.stderr).into_owned();
        let words =
            "with these numbers the sheet has 65,546 bytes, and no sheet has more than 65,536";
        assert!(message.contains(words), "{message}");
        assert!(fs::metadata(&made).is_err());
        assert_eq!(call(&[option, &made], "9").status.code(), Some(0));
        fs::remove_file(&made).expect("what was made");
    }
    fs::remove_dir_all(folder).expect("a folder");
}
