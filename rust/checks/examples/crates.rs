//! `cargo run --offline -p checks --example crates`, in `rust/`: draws the crates
//! of `crates.txt` anew, as `docs/crates.svg`.

use std::fs;
use std::path::Path;

use checks::Crates;

fn main() -> std::io::Result<()> {
    let top = Path::new(env!("CARGO_MANIFEST_DIR")).join("../..");
    let list = fs::read_to_string(top.join("crates.txt"))?;
    fs::write(top.join("docs/crates.svg"), Crates::parse(&list).picture())
}
