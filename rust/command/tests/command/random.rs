//! Every word on random sheets, damaged ones and bytes that are none.

use std::fs;
use std::path::{Path, PathBuf};

use generator::Rng;
use lindypo::{formula, Sheet};

use crate::json::Reader;
use crate::{output, stdout};

const CASES: u64 = 400;

/// A folder that is taken away in the end.
struct Folder(PathBuf);

impl Folder {
    fn new(name: &str) -> Self {
        let folder = std::env::temp_dir().join(format!("{name}-{}", std::process::id()));
        fs::create_dir(&folder).expect("a new folder");
        Folder(folder)
    }
}

impl Drop for Folder {
    fn drop(&mut self) {
        let _ = fs::remove_dir_all(&self.0);
    }
}

/// Bytes of every sort.
fn noise(seed: u64) -> Vec<u8> {
    let mut rng = Rng::new(seed);
    let length = rng.below(300);
    (0..length).map(|_| rng.below(256) as u8).collect()
}

fn text(seed: u64) -> Vec<u8> {
    let mut rng = Rng::new(seed);
    match seed % 4 {
        0 => noise(seed),
        1 => generator::damaged(&mut rng),
        _ => generator::sheet(&mut rng),
    }
}

/// The status that the library's answer has: of the plan, and of the values.
fn statuses(text: &[u8]) -> (u8, u8) {
    let Ok(run) = Sheet::read(text).and_then(|sheet| sheet.run()) else {
        return (1, 1);
    };
    let is_failed = |(_, outcome): (usize, lindypo::Outcome)| outcome.state.number().is_none();
    let has_failed = run.values().any(is_failed);
    (0, u8::from(has_failed))
}

fn files(folder: &Path) -> Vec<(String, Vec<u8>)> {
    let file = |seed: u64| {
        let (path, text) = (folder.join(format!("{seed:03}.sheet")), text(seed));
        fs::write(&path, &text).expect("a file");
        (path.display().to_string(), text)
    };
    (0..CASES).map(file).collect()
}

/// One line of JSON for each file, with its status.
#[test]
fn every_word_answers() {
    let folder = Folder::new("lindypo-random");
    let files = files(&folder.0);
    let paths: Vec<&str> = files.iter().map(|(path, _)| path.as_str()).collect();
    for words in [
        &["run"][..],
        &["plan"],
        &["explain"],
        &["slip"],
        &["check"],
        &["check", "--all"],
    ] {
        let output = output(&[words, &["--json"], &paths].concat());
        assert!(output.stderr.is_empty(), "{words:?}");
        assert_eq!(output.status.code(), Some(1), "{words:?}");
        let said = stdout(&output);
        let lines: Vec<&str> = said.lines().collect();
        assert_eq!(
            lines.len(),
            files.len() + usize::from(words[0] == "check"),
            "{words:?}"
        );
        for ((path, text), line) in files.iter().zip(lines) {
            Reader::names(line);
            let (plan, values) = statuses(text);
            let status = if words[0] == "plan" { plan } else { values };
            assert!(
                line.contains(&format!("\"status\":{status}")),
                "{words:?}: {path}"
            );
        }
    }
}

/// In words, no file is left out, and no byte of it moves a terminal's cursor.
#[test]
fn every_word_speaks() {
    let folder = Folder::new("lindypo-words");
    let files = files(&folder.0);
    let paths: Vec<&str> = files.iter().map(|(path, _)| path.as_str()).collect();
    for words in [
        &["run"][..],
        &["plan"],
        &["explain"],
        &["explain", "--list"],
    ] {
        let said = stdout(&output(&[words, &paths].concat()));
        let headings = said.lines().filter(|line| line.starts_with("file "));
        assert_eq!(headings.count(), files.len(), "{words:?}");
        assert!(
            said.chars()
                .all(|letter| letter == '\n' || !letter.is_control()),
            "{words:?}"
        );
    }
}

/// A call's status, where nothing that it says moves a terminal's cursor.
fn status(words: &[&str]) -> Option<i32> {
    let output = output(words);
    let said = [&output.stdout[..], &output.stderr].concat();
    let is_quiet = |&byte: &u8| byte == b'\n' || !byte.is_ascii_control();
    assert!(said.iter().all(is_quiet), "{words:?}");
    output.status.code()
}

/// New numbers in lines that may be anything: what the library refuses is refused,
/// and JSON says so too.
#[test]
fn sheets_retouched() {
    let folder = Folder::new("lindypo-retouched");
    let mut statuses = [0; 2];
    for (path, text) in files(&folder.0).into_iter().take(CASES as usize / 4) {
        let reads = Sheet::read(&text);
        let count = reads.as_ref().map_or(3, Sheet::labels);
        let pairs: Vec<(usize, i64)> = [(count, 0), (count.saturating_sub(2), 7)].into();
        let retouched = reads.and_then(|sheet| sheet.retouch(&pairs));
        let has_failed = |(_, outcome): (usize, lindypo::Outcome)| outcome.state.number().is_none();
        let wanted = retouched.map_or(1, |it| i32::from(it.run.values().any(has_failed)));
        let words: Vec<String> = pairs
            .iter()
            .map(|(label, n)| format!("{label}={n}"))
            .collect();
        let words = ["retouch", &path, &words[0], &words[1]];
        assert_eq!(status(&words), Some(wanted), "{path}");
        let json = stdout(&output(&[&words[..], &["--json"]].concat()));
        Reader::names(json.trim_end());
        assert!(json.contains(&format!("\"status\":{wanted}")), "{path}");
        statuses[wanted as usize] += 1;
    }
    assert!(statuses.iter().all(|&count| count > 5), "{statuses:?}");
}

/// A sheet that reads is shown in a file of its own; that or else the text that
/// is no sheet is written where it gives one.
#[test]
fn sheets_shown_and_formulas_written() {
    let folder = Folder::new("lindypo-formulas");
    for (path, text) in files(&folder.0).into_iter().take(CASES as usize / 4) {
        let file = format!("{path}.formulas");
        let reads = Sheet::read(&text).is_ok();
        let shown = status(&["show", "-o", &file, &path]);
        assert_eq!(shown, Some(i32::from(!reads)), "{path}");
        assert_eq!(Path::new(&file).exists(), reads, "{path}");
        let formulas = fs::read(&file).unwrap_or(text);
        let written = status(&["write", if reads { &file } else { &path }]);
        let is_wrong = formula::write(&formulas).is_err();
        assert_eq!(written, Some(i32::from(is_wrong)), "{path}");
    }
}
