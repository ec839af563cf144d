//! Fixed sheets whose names are 16 letters long and hard to tell apart.

use crate::builder::{Builder, MAX_LINES};
use crate::shapes::chain;
use crate::slots::{name_of_one_hash, names_in_one_slot};

/// What most names begin with: all but the last letter.
const STEM: &str = "decentrationnum";

/// Names that differ in their last letter alone, one for each letter.
fn names(stem: &str) -> impl Iterator<Item = String> + '_ {
    ('a'..='z').map(move |letter| format!("{stem}{letter}"))
}

/// Groups whose names differ in their last letter alone, each with as many values as
/// there are letters, which read the one before. 19 nearly fill a sheet.
pub fn near_names(groups: usize) -> Vec<u8> {
    let mut builder = Builder::new();
    for name in names("prescriptionfor").take(groups) {
        let group = builder.group(&name, 1);
        let mut body = "1".to_string();
        for name in names(STEM) {
            builder.value(&name, group, &body);
            body = format!("R:{name}");
        }
    }
    builder.text()
}

/// Groups nested seven deep, each among others whose names differ in the last
/// letter alone, and so many values that read those of the innermost one by paths
/// of eight names. 360 nearly fill the 65,536 bytes of a sheet.
pub fn near_paths(readers: usize) -> Vec<u8> {
    let mut builder = Builder::new();
    let (mut group, mut path) = (1, String::new());
    for level in 0..7 {
        let side_by_side: Vec<(String, usize)> = names(STEM)
            .map(|name| (name.clone(), builder.group(&name, group)))
            .collect();
        let (name, label) = &side_by_side[3 * level];
        path += &format!("{name}.");
        group = *label;
    }
    let values: Vec<String> = names(STEM).collect();
    for name in &values {
        builder.value(name, group, "1");
    }
    for (reader, value) in values.iter().cycle().take(readers).enumerate() {
        builder.value(&format!("v{reader}"), 1, &format!("R:{path}{value}"));
    }
    builder.text()
}

/// One Group of values, 511 at most, whose names all fall into one slot of the
/// library's hash; each reads the next.
pub fn one_slot(values: usize) -> Vec<u8> {
    let names = names_in_one_slot(values);
    chain(values, |value| names[value].clone(), |value| value + 1)
}

/// One Group of as many values as a sheet holds with two reads each, whose names have
/// one hash where it is made of the low five bits of bytes: each reads the two
/// before.
pub fn one_hash() -> Vec<u8> {
    let mut builder = Builder::new();
    for value in 0..(MAX_LINES - 1) / 4 {
        let read = |step: usize| match value.checked_sub(step) {
            Some(other) => format!("R:{}", name_of_one_hash(other)),
            None => "1".to_string(),
        };
        let body = format!("A {} {}", read(1), read(2));
        builder.value(&name_of_one_hash(value), 1, &body);
    }
    builder.text()
}
