//! Files that the command writes, and what it never writes over.

use std::fs::{self, File, Metadata, OpenOptions};
use std::io::{self, ErrorKind, Read, Write};
use std::path::{Path, PathBuf};
use std::process;

use crate::input::{self, reason};

/// A sort of document that is known by how it begins.
#[derive(Debug, Clone, Copy)]
pub struct Sort {
    /// "slip of lindypo".
    pub name: &'static str,
    pub start: &'static str,
}

/// Which of the files that are there already may be written over.
#[derive(Debug, Clone, Copy)]
pub enum Over {
    Nothing,
    Anything,
    /// Documents of this sort, made earlier.
    Like(Sort),
}

/// Writes a file, or leaves everything as it was and says why.
pub fn write(path: &Path, bytes: &[u8], over: Over) -> Result<(), String> {
    let written = match over {
        Over::Nothing => add(path, bytes, "is there already; --force writes over it"),
        Over::Anything => fs::write(path, bytes).map_err(|error| reason(&error)),
        Over::Like(sort) => like(path, bytes, sort),
    };
    written.map_err(|reason| format!("{}: {reason}", input::shown(path)))
}

/// A new file. One that cannot be written whole is taken away again.
fn add(path: &Path, bytes: &[u8], taken: &str) -> Result<(), String> {
    let wrong = |error: io::Error| match error.kind() {
        ErrorKind::AlreadyExists if path.is_dir() => reason(&ErrorKind::IsADirectory.into()),
        ErrorKind::AlreadyExists => taken.to_string(),
        _ => reason(&error),
    };
    let mut file = new_file(path).map_err(wrong)?;
    file.write_all(bytes).map_err(|error| {
        let _ = fs::remove_file(path);
        reason(&error)
    })
}

fn new_file(path: &Path) -> io::Result<File> {
    OpenOptions::new().write(true).create_new(true).open(path)
}

/// A new file, or one in place of another of its sort.
fn like(path: &Path, bytes: &[u8], sort: Sort) -> Result<(), String> {
    let taken = format!(
        "is there already and is no {}: name another file, or move it away",
        sort.name
    );
    match fs::metadata(path) {
        Err(error) if error.kind() == ErrorKind::NotFound => add(path, bytes, &taken),
        Err(error) => Err(reason(&error)),
        Ok(there) if there.is_dir() => Err(reason(&ErrorKind::IsADirectory.into())),
        // reading from a pipe would wait, and a device is no file to replace
        Ok(there) if !there.is_file() => Err("is no plain file; - is standard output".to_string()),
        Ok(there) if there.permissions().readonly() => {
            Err("is read-only: name another file".to_string())
        }
        Ok(there) => match begins(path, sort.start) {
            Ok(true) => replace(path, bytes, &there).map_err(|error| reason(&error)),
            Ok(false) => Err(taken),
            Err(error) => Err(reason(&error)),
        },
    }
}

fn begins(path: &Path, start: &str) -> io::Result<bool> {
    let mut bytes = vec![];
    let length = start.len() as u64;
    File::open(path)?.take(length).read_to_end(&mut bytes)?;
    Ok(bytes == start.as_bytes())
}

/// The file that is there stays until all of the new one is written beside it.
fn replace(path: &Path, bytes: &[u8], there: &Metadata) -> io::Result<()> {
    let path = fs::canonicalize(path)?;
    let beside = beside(&path);
    let mut file = new_file(&beside)?;
    let written = file
        .write_all(bytes)
        .and_then(|()| file.set_permissions(there.permissions()))
        .and_then(|()| fs::rename(&beside, &path));
    if written.is_err() {
        let _ = fs::remove_file(&beside);
    }
    written
}

/// A name in the same folder.
fn beside(path: &Path) -> PathBuf {
    path.with_file_name(format!(".lindypo-{}", process::id()))
}

#[cfg(test)]
mod tests {
    use super::*;

    const SORT: Sort = Sort {
        name: "page",
        start: "<page>",
    };

    fn folder(name: &str) -> PathBuf {
        let folder = std::env::temp_dir().join(format!("lindypo-{name}-{}", process::id()));
        fs::create_dir(&folder).expect("a new folder");
        folder
    }

    fn names(folder: &Path) -> Vec<String> {
        let files = fs::read_dir(folder).expect("a folder");
        let name = |entry: io::Result<fs::DirEntry>| entry.expect("a file").file_name();
        let mut names: Vec<String> = files
            .map(|entry| name(entry).to_string_lossy().into())
            .collect();
        names.sort();
        names
    }

    #[test]
    fn only_its_like_is_written_over() {
        let folder = folder("like");
        for (there, is_replaced) in [
            (None, true),
            (Some("<page>old"), true),
            (Some("<page>"), true),
            (Some("<pag"), false),
            (Some(""), false),
            (Some("kind name a b c\n"), false),
            (Some("kind2 name a b c\n"), false),
            (Some(" <page>"), false),
        ] {
            let path = folder.join("x");
            if let Some(text) = there {
                fs::write(&path, text).expect("a file");
            }
            let written = write(&path, b"<page>new", Over::Like(SORT));
            assert_eq!(written.is_ok(), is_replaced, "{there:?}: {written:?}");
            let wanted = if is_replaced {
                Some("<page>new")
            } else {
                there
            };
            assert_eq!(fs::read_to_string(&path).ok().as_deref(), wanted);
            assert_eq!(names(&folder), ["x"]);
            fs::remove_file(&path).expect("a file");
        }
        fs::remove_dir_all(folder).expect("a folder");
    }

    /// A link stays one, and what it leads to is replaced.
    #[test]
    fn links_are_followed() {
        let folder = folder("links");
        let (link, file) = (folder.join("link"), folder.join("file"));
        std::os::unix::fs::symlink("file", &link).expect("a link");
        let written = write(&link, b"<page>", Over::Like(SORT));
        assert!(written.is_err() && names(&folder) == ["link"]);
        fs::write(&file, "<page>old").expect("a file");
        assert_eq!(write(&link, b"<page>new", Over::Like(SORT)), Ok(()));
        assert_eq!(fs::read(&file).expect("a file"), b"<page>new");
        assert!(fs::symlink_metadata(&link).expect("a link").is_symlink());
        fs::remove_dir_all(folder).expect("a folder");
    }

    #[test]
    fn what_is_no_plain_file_stays() {
        let folder = folder("plain");
        for (path, reason) in [
            (folder.as_path(), "is a folder"),
            (Path::new("/dev/null"), "is no plain file"),
            (&folder.join("no/x"), "there is no such file or folder"),
        ] {
            let message = write(path, b"<page>", Over::Like(SORT)).expect_err("a message");
            assert!(message.contains(reason), "{message}");
        }
        let path = folder.join("x");
        fs::write(&path, "<page>old").expect("a file");
        let mut locked = fs::metadata(&path).expect("a file").permissions();
        locked.set_readonly(true);
        fs::set_permissions(&path, locked).expect("a file");
        assert!(write(&path, b"<page>", Over::Like(SORT)).is_err());
        assert_eq!(fs::read(&path).expect("a file"), b"<page>old");
        fs::remove_dir_all(folder).expect("a folder");
    }
}
