//! Pairs as they are typed: `right.sphere=-400`, `14=-400`.

use std::path::Path;

use lindypo::{typed_number, why, Help, Kind, Label, Refusal, Sheet};

use super::stages::{self, Stages};
use crate::input;
use crate::labels;
use crate::numerals::counted;

/// The most letters of a word that a sentence repeats, and the most names.
const QUOTED: usize = 40;
const NAMED: usize = 8;

/// A word of the command line: what is named, and its new number.
pub struct Pair {
    name: String,
    /// The number as it was typed, which may be one that no cell can hold.
    typed: String,
    number: i64,
}

impl Pair {
    pub fn of(word: &str) -> Result<Pair, String> {
        let shown = quoted(word);
        let Some((name, typed)) = word.split_once('=') else {
            return Err(format!(
                "{shown} is no pair: write NAME=NUMBER, as in {}",
                {
                    let name = if word.is_empty() {
                        "right.sphere"
                    } else {
                        word
                    };
                    quoted(&format!("{name}=-400"))
                }
            ));
        };
        if name.is_empty() {
            return Err(format!(
                "{shown}: a full name or a label stands before the ="
            ));
        }
        if typed.is_empty() {
            return Err(format!("{shown}: a number stands after the ="));
        }
        let number = typed_number(typed)
            .map_err(|hint| format!("{shown}: {} is no number; {hint}", quoted(typed)))?;
        Ok(Pair {
            name: name.to_string(),
            typed: typed.to_string(),
            number,
        })
    }

    /// The N line that is meant. What is none is for the library to refuse, by
    /// the label of what the name leads to; 0 is no label.
    fn label(&self, sheet: &Sheet) -> Label {
        let number = match labels::is_label(&self.name) {
            true => None,
            false => sheet.find_number(&self.name),
        };
        number
            .or_else(|| labels::of(sheet, &self.name))
            .unwrap_or(0)
    }
}

/// The pairs applied one after the other.
pub fn staged(sheet: &Sheet, pairs: &[Pair]) -> Result<Stages, Refusal> {
    let list: Vec<(Label, i64)> = pairs
        .iter()
        .map(|pair| (pair.label(sheet), pair.number))
        .collect();
    stages::of(sheet, &list).map_err(|refusal| named(refusal, sheet, pairs, &list))
}

/// The refusal of a list; a name that leads nowhere and a number that no cell can
/// hold are said as they were typed.
fn named(refusal: Refusal, sheet: &Sheet, pairs: &[Pair], list: &[(Label, i64)]) -> Refusal {
    let at = (refusal.place() as usize).wrapping_sub(1);
    match (refusal, pairs.get(at), list.get(at)) {
        (Refusal::PairLabel(mut fault), Some(pair), Some((0, _))) => {
            let name = quoted(&pair.name);
            let sentence = format!("{name} is no label and no full name of the sheet");
            fault.sentence = sentence + &meant(sheet, &pair.name);
            fault.help = vec![Help {
                sentence: numbers(sheet),
                mark: None,
            }];
            Refusal::PairLabel(fault)
        }
        (Refusal::PairNumber(mut fault), Some(pair), Some((_, number))) => {
            let sentence = fault
                .sentence
                .replace(&number.to_string(), &cut(&pair.typed));
            fault.sentence = sentence;
            Refusal::PairNumber(fault)
        }
        (refusal, ..) => refusal,
    }
}

/// Which values the name may mean.
fn meant(sheet: &Sheet, name: &str) -> String {
    let labels = why::meant(sheet, name);
    let names = labels.iter().map(|&label| sheet.full_name(label));
    let names: Vec<String> = names.map(|name| format!("`{name}`")).collect();
    match names.is_empty() {
        true => String::new(),
        false => format!("; is {} meant?", names.join(" or ")),
    }
}

/// Which values are a number.
fn numbers(sheet: &Sheet) -> String {
    let values = sheet.lines().filter(|line| line.kind == Kind::Value);
    let names = values.map(|line| sheet.full_name(line.label));
    let names: Vec<String> = names
        .filter(|name| sheet.find_number(name).is_some())
        .collect();
    match names.is_empty() {
        true => "no value is a number: name the label of an N line".to_string(),
        false => format!(
            "the values that are a number: {}; any other N line is named by its label",
            listed(names.iter().map(|name| format!("`{name}`")))
        ),
    }
}

/// Words with commas between; of many the first, and how many more.
pub fn listed(words: impl ExactSizeIterator<Item = String>) -> String {
    let more = words.len().saturating_sub(NAMED) as u64;
    let mut words: Vec<String> = words.take(NAMED).collect();
    let last = words.pop().unwrap_or_default();
    match (words.is_empty(), more) {
        (true, 0) => last,
        (false, 0) => format!("{} and {last}", words.join(", ")),
        (_, more) => format!(
            "{}, {last} and {}",
            words.join(", "),
            counted(more, "other")
        ),
    }
}

/// A word as a sentence repeats it.
fn quoted(word: &str) -> String {
    format!("`{}`", input::shown(Path::new(&cut(word))))
}

fn cut(word: &str) -> String {
    let start: String = word.chars().take(QUOTED).collect();
    let rest = if start.len() < word.len() { "..." } else { "" };
    start + rest
}
