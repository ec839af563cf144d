//! The generator's hash, by which it finds names for the worst of lookups, has the
//! constants of the library's.

use std::fs;
use std::path::Path;

use generator::slots::{HIGH_FACTOR, LOW_FACTOR};

/// The number that the crate `paths` gives a name.
fn constant(name: &str) -> Option<u64> {
    let file = Path::new(env!("CARGO_MANIFEST_DIR")).join("../../crates/paths/src/lib.rt");
    let text = fs::read_to_string(file).expect("the crate's code");
    let number = |line: &str| {
        let line = line.trim_start_matches("pub ").strip_prefix("const ")?;
        let rest = line.strip_prefix(name)?.strip_prefix(": usize = ")?;
        rest.trim_end_matches(';').parse().ok()
    };
    text.lines().find_map(number)
}

#[test]
fn factors_are_those_of_the_crate() {
    assert_eq!(constant("LOW_FACTOR"), Some(LOW_FACTOR));
    assert_eq!(constant("HIGH_FACTOR"), Some(HIGH_FACTOR));
}
