//! docs/crates.svg is the picture of crates.txt.

use std::fs;
use std::path::Path;

use checks::Crates;

#[test]
fn the_picture_is_of_these_crates() {
    let top = Path::new(env!("CARGO_MANIFEST_DIR")).join("../..");
    let read = |file: &str| fs::read_to_string(top.join(file)).unwrap_or_default();
    let drawn = Crates::parse(&read("crates.txt")).picture();
    let again = "cd rust && cargo run --offline -p checks --example crates";
    assert!(
        drawn == read("docs/crates.svg"),
        "docs/crates.svg is stale; draw it again: {again}"
    );
}
