//! The files of `crates/`.

use std::fs;
use std::io;
use std::path::Path;

use crate::blocks::{self, Source};
use crate::code::{self, Code};

/// What a file of a crate is for.
#[derive(Clone, Copy, Debug, PartialEq, Eq, Hash)]
pub enum Folder {
    Specs,
    Proofs,
    /// A part of the proof of a function, in a folder of the function's name.
    FunctionProof,
    Src,
}

#[derive(Clone, Debug)]
pub enum Content {
    Antt(Source),
    Rattle(Code),
}

#[derive(Clone, Debug)]
pub struct File {
    /// From the root of the repository, as `crates/order/specs/Order.antt`.
    pub path: String,
    /// The crate.
    pub package: String,
    pub folder: Folder,
    /// The name of the file, with those of the folders that it stands in between
    /// dots; of a function's proof the name of its folder.
    pub name: String,
    pub text: String,
    pub content: Content,
}

/// All files of all crates, in the order of their paths.
pub fn read(root: &Path) -> io::Result<Vec<File>> {
    let mut paths = vec![];
    list(&root.join("crates"), &mut paths)?;
    paths.sort();
    let mut files = vec![];
    for path in paths {
        let relative = path.strip_prefix(root).unwrap_or(&path);
        let relative = relative.to_string_lossy().into_owned();
        let parts: Vec<&str> = relative.split('/').collect();
        let Some(folder) = folder(&parts) else {
            continue;
        };
        let text = fs::read_to_string(&path)?;
        let content = match folder {
            Folder::Src => Content::Rattle(code::code(&text)),
            _ => Content::Antt(blocks::source(&text)),
        };
        files.push(File {
            package: parts[1].to_string(),
            folder,
            name: name(&parts, folder),
            text,
            content,
            path: relative,
        });
    }
    Ok(files)
}

fn list(folder: &Path, paths: &mut Vec<std::path::PathBuf>) -> io::Result<()> {
    for entry in fs::read_dir(folder)? {
        let path = entry?.path();
        if path.is_dir() {
            list(&path, paths)?;
        } else {
            paths.push(path);
        }
    }
    Ok(())
}

/// What a file is for, by the parts of its path; nothing where it is no source.
fn folder(parts: &[&str]) -> Option<Folder> {
    let [_, _, folder, .., file] = parts else {
        return None;
    };
    match (*folder, file.rsplit_once('.')?) {
        ("specs", (_, "antt")) => Some(Folder::Specs),
        ("proofs", ("Answers" | "Invariants" | "Proof", "antt")) if parts.len() > 4 => {
            Some(Folder::FunctionProof)
        }
        ("proofs", (_, "antt")) => Some(Folder::Proofs),
        ("src", (_, "rt")) => Some(Folder::Src),
        _ => None,
    }
}

fn name(parts: &[&str], folder: Folder) -> String {
    match folder {
        Folder::FunctionProof => parts[parts.len() - 2].to_string(),
        _ => {
            let path = parts[3..].join(".");
            let name = path.rsplit_once('.').map_or(&path[..], |(name, _)| name);
            name.to_string()
        }
    }
}
