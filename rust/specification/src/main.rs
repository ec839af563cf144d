//! `specification`: see `specification --help`.

#![forbid(unsafe_code)]

use std::env;
use std::fs;
use std::path::Path;
use std::process::ExitCode;

use specification::page::PLACE;
use specification::repository::Repository;

const USAGE: &str = "\
Usage: specification uncited [ROOT]
       specification tidy [ROOT]
       specification mixed [ROOT]
       specification twice [ROOT]
       specification page [--check] [ROOT]

Reads the Rattle crates of the repository at ROOT, or here.

  uncited   lists the definitions, laws, functions and imports that nothing cites
  tidy      takes the imports that are not used out of the files
  mixed     lists the files of specs/ that hold both what readers believe and what
            functions promise each other
  twice     lists the names that two definitions, types or files of specs/ have, and
            of what readers believe those that differ in case and underscores alone
  page      writes docs/SPECIFICATION.md, what a reader has to believe;
            with --check it only says whether the page there is that one;
            lists the definitions that stand in proofs/ and the theorems that no
            table says in words, where there are any, and writes nothing

Status: 0 where nothing is found, 1 where something is, 2 where it cannot be read.
";

const FOUND: u8 = 1;
const FAILED: u8 = 2;

fn main() -> ExitCode {
    let words: Vec<String> = env::args().skip(1).collect();
    let words: Vec<&str> = words.iter().map(String::as_str).collect();
    let done = match words[..] {
        ["--help"] => {
            print!("{USAGE}");
            Ok(0)
        }
        ["page", "--check"] => check(Path::new(".")),
        ["page", "--check", root] => check(Path::new(root)),
        [word] => run(word, Path::new(".")),
        [word, root] => run(word, Path::new(root)),
        _ => Err(USAGE.trim_end().to_string()),
    };
    match done {
        Ok(status) => ExitCode::from(status),
        Err(message) => {
            eprintln!("specification: {message}");
            ExitCode::from(FAILED)
        }
    }
}

fn run(word: &str, root: &Path) -> Result<u8, String> {
    match word {
        "uncited" => Ok(list(&Repository::read(root)?.uncited())),
        "tidy" => tidy(root),
        "mixed" => Ok(list(&Repository::read(root)?.mixed())),
        "twice" => Ok(list(&Repository::read(root)?.twice())),
        "page" => write(root),
        _ => Err(format!("there is no word {word}\n{}", USAGE.trim_end())),
    }
}

/// Prints what is found, and how much that is.
fn list(found: &[String]) -> u8 {
    for line in found {
        println!("{line}");
    }
    println!("{} found", found.len());
    if found.is_empty() {
        0
    } else {
        FOUND
    }
}

fn tidy(root: &Path) -> Result<u8, String> {
    for (path, text) in Repository::read(root)?.tidied() {
        let failed = |error| format!("{path}: {error}");
        fs::write(root.join(path), text).map_err(failed)?;
        println!("{path}");
    }
    Ok(0)
}

/// The page; where it cannot be made, that is what is found.
fn page(root: &Path) -> Result<Result<String, u8>, String> {
    let repository = Repository::read(root)?;
    let unfit = repository.unfit();
    Ok(match unfit.is_empty() {
        true => Ok(repository.page()),
        false => Err(list(&unfit)),
    })
}

fn write(root: &Path) -> Result<u8, String> {
    let page = match page(root)? {
        Ok(page) => page,
        Err(status) => return Ok(status),
    };
    let failed = |error| format!("{PLACE}: {error}");
    fs::write(root.join(PLACE), page).map_err(failed)?;
    Ok(0)
}

fn check(root: &Path) -> Result<u8, String> {
    let wanted = match page(root)? {
        Ok(page) => page,
        Err(status) => return Ok(status),
    };
    let failed = |error| format!("{PLACE}: {error}");
    let there = fs::read_to_string(root.join(PLACE)).map_err(failed)?;
    if there == wanted {
        println!("{PLACE} is as the crates have it");
        return Ok(0);
    }
    let lines = there.lines().zip(wanted.lines());
    let line = 1 + lines.take_while(|(is, wanted)| is == wanted).count();
    println!("{PLACE}:{line}: not as the crates have it; `specification page` writes it anew");
    Ok(FOUND)
}
