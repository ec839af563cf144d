//! The examples of docs/LANGUAGE.md are so.

use std::fs;
use std::path::Path;

use lindypo::{formula, Sheet};

/// The blocks of a page, each with what is said of it after its three marks.
fn blocks(page: &str) -> Vec<(String, String)> {
    let mut blocks: Vec<(String, String)> = vec![];
    let mut is_open = false;
    for line in page.lines() {
        match line.strip_prefix("```") {
            Some(sort) if !is_open => blocks.push((sort.to_string(), String::new())),
            Some(_) => {}
            None if is_open => {
                let (_, text) = blocks.last_mut().expect("a block that is open");
                *text += &format!("{line}\n");
            }
            None => continue,
        }
        is_open ^= line.starts_with("```");
    }
    blocks
}

/// What formulas give, in the way that the block after them wants.
fn given(formulas: &str, sort: &str) -> String {
    let written = formula::write(formulas.as_bytes());
    match (sort, written) {
        ("mistake", Err(mistake)) => format!("{mistake}\n"),
        ("sheet", Ok(text)) => String::from_utf8(text).expect("ASCII"),
        ("shown", Ok(text)) => formula::show(&Sheet::read(&text).expect("a sheet that reads")),
        (_, Ok(_)) => String::new(),
        (_, Err(mistake)) => panic!("{mistake}\n{formulas}"),
    }
}

#[test]
fn examples() {
    let page = Path::new(env!("CARGO_MANIFEST_DIR")).join("../../docs/LANGUAGE.md");
    let page = fs::read_to_string(page).expect("the page");
    let blocks = blocks(&page);
    let mut sorts = vec![];
    for (at, (sort, formulas)) in blocks.iter().enumerate() {
        if sort != "formulas" {
            continue;
        }
        let (next, wanted) = blocks.get(at + 1).expect("a block after it");
        let given = given(formulas, next);
        if ["sheet", "shown", "mistake"].contains(&next.as_str()) {
            assert_eq!(given, *wanted, "{formulas}");
        }
        sorts.push(next.as_str());
    }
    for sort in ["sheet", "shown", "mistake", "formulas"] {
        assert!(sorts.contains(&sort), "{sort}");
    }
}
