//! The library's calls against the reference, and against what the paper says.

mod buffers;
mod halves;
mod letters;
mod names;
mod orders;
mod random;
mod retouching;
mod sheets;
mod sizes;
mod stack;
mod texts;

use std::fs;
use std::path::{Path, PathBuf};

use checks::{Outcome, Trial};
use generator::{line_count, number_labels, planned};

const RUBBISH: i64 = -77;

/// A number from the environment, or the one given.
fn setting(name: &str, otherwise: u64) -> u64 {
    match std::env::var(name) {
        Ok(word) => word
            .parse()
            .unwrap_or_else(|_| panic!("{name} is {word:?}, no number")),
        Err(_) => otherwise,
    }
}

/// The files of ../../sheets, in sequence.
fn sheet_files() -> Vec<PathBuf> {
    let folder = Path::new(env!("CARGO_MANIFEST_DIR")).join("../../sheets");
    let entries = fs::read_dir(folder).expect("the folder of sheets");
    let mut paths: Vec<PathBuf> = entries.map(|entry| entry.expect("a file").path()).collect();
    paths.sort();
    paths
}

fn is_sheet(path: &Path) -> bool {
    path.extension().is_some_and(|word| word == "sheet")
}

fn sheets() -> Vec<Vec<u8>> {
    let files = sheet_files().into_iter().filter(|path| is_sheet(path));
    files.map(|path| fs::read(path).expect("a sheet")).collect()
}

fn example() -> Vec<u8> {
    sheets().swap_remove(0)
}

/// The buffers of one sheet, full of rubbish.
struct Buffers {
    table: Vec<i64>,
    plan: Vec<i64>,
    results: Vec<i64>,
}

impl Buffers {
    fn new(text: &[u8]) -> Self {
        let lines = line_count(text);
        Buffers {
            table: vec![RUBBISH; 8 * lines],
            plan: vec![RUBBISH; lines],
            results: vec![RUBBISH; 3 * lines],
        }
    }
}

/// A trial of this text with buffers that are long enough for it; Follow is
/// lent the plan, Retouch some pairs.
fn agree(text: &[u8]) -> Outcome {
    let (order, pairs) = (planned(text), some_pairs(text));
    Trial::new(text, &order).retouching(&pairs).expect()
}

/// The first N line and the last with a number that may divide and one whose sums
/// leave the range; none where the text does not read.
fn some_pairs(text: &[u8]) -> Vec<i64> {
    let mut table = vec![0; 8 * line_count(text)];
    // a refusal leaves zeros, which are no N lines
    let _ = reference::read(text, &mut table);
    let labels = number_labels(&table);
    let ends = [labels.first(), labels.last()].into_iter().flatten();
    ends.flat_map(|&label| [label, 0, label, 1_000_000_000])
        .collect()
}

/// Number and place of Read's refusal of a text.
fn refusal(text: &[u8]) -> Option<(u64, u64)> {
    let reply = agree(text).read;
    (reply.refusal != 0).then_some((reply.refusal, reply.place))
}
