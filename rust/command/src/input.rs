//! Where sheets come from.

use std::ffi::{OsStr, OsString};
use std::fs::File;
use std::io::{self, ErrorKind, Read};
use std::path::{Path, PathBuf};

use crate::numerals::grouped;

/// One byte more than a sheet may have: of a longer one no more is read, which
/// is enough to refuse it.
const ENOUGH_BYTES: u64 = lindypo::MOST_BYTES as u64 + 1;

/// What stands for standard input on the command line.
const INPUT: &str = "-";

/// A file, or standard input.
#[derive(Debug, Clone, PartialEq, Eq)]
pub enum Source {
    Input,
    File(PathBuf),
}

impl Source {
    pub fn of(word: &OsStr) -> Self {
        match word.to_str() {
            Some(INPUT) => Source::Input,
            _ => Source::File(word.into()),
        }
    }

    /// What to call it.
    pub fn title(&self) -> String {
        match self {
            Source::Input => "standard input".to_string(),
            Source::File(path) => shown(path),
        }
    }

    /// As the command line has it.
    pub fn word(&self) -> String {
        match self {
            Source::Input => INPUT.to_string(),
            Source::File(path) => path.to_string_lossy().into_owned(),
        }
    }

    /// The last part of its path.
    pub fn file_name(&self) -> String {
        match self {
            Source::Input => String::new(),
            Source::File(path) => path
                .file_name()
                .unwrap_or_default()
                .to_string_lossy()
                .into(),
        }
    }

    /// The text of a sheet, else why it cannot be read.
    pub fn read(&self) -> Result<Vec<u8>, String> {
        self.bytes(ENOUGH_BYTES)
            .map_err(|error| match error.kind() {
                ErrorKind::IsADirectory => "is a folder; `lindypo check` takes folders".to_string(),
                _ => reason(&error),
            })
    }

    /// All of a file that has at most so many bytes.
    pub fn read_whole(&self, most: u64) -> Result<Vec<u8>, String> {
        let bytes = self.bytes(most + 1).map_err(|error| reason(&error))?;
        match bytes.len() as u64 > most {
            true => Err(format!("has more than {} bytes", grouped(most))),
            false => Ok(bytes),
        }
    }

    fn bytes(&self, most: u64) -> io::Result<Vec<u8>> {
        let mut bytes = vec![];
        match self {
            Source::Input => io::stdin().lock().take(most).read_to_end(&mut bytes)?,
            Source::File(path) => File::open(path)?.take(most).read_to_end(&mut bytes)?,
        };
        Ok(bytes)
    }
}

/// The sources that the words name. Without any it is standard input, where
/// `has_input` says that a sheet comes from there.
pub fn sources(words: &[OsString], has_input: bool) -> Result<Vec<Source>, String> {
    let sources: Vec<Source> = words.iter().map(|word| Source::of(word)).collect();
    let inputs = sources.iter().filter(|&source| *source == Source::Input);
    match sources.len() {
        0 if has_input => Ok(vec![Source::Input]),
        0 => Err("which sheet? Name a file, or - for standard input".to_string()),
        _ if inputs.count() > 1 => Err("standard input (-) can be read once only".to_string()),
        _ => Ok(sources),
    }
}

/// A path in a message. Nothing in it ends a line or moves a terminal's cursor.
pub fn shown(path: &Path) -> String {
    let show = |letter: char| match letter.is_control() {
        true => letter.escape_default().to_string(),
        false => letter.to_string(),
    };
    path.to_string_lossy().chars().map(show).collect()
}

/// Why a file cannot be read or written.
pub fn reason(error: &io::Error) -> String {
    match error.kind() {
        ErrorKind::NotFound => "there is no such file or folder".to_string(),
        ErrorKind::IsADirectory => "is a folder".to_string(),
        _ => error.to_string(),
    }
}

#[cfg(test)]
mod tests {
    use super::*;
    use std::os::unix::ffi::OsStrExt;

    fn words(words: &[&str]) -> Vec<OsString> {
        words.iter().map(OsString::from).collect()
    }

    #[test]
    fn no_file_is_standard_input() {
        assert_eq!(sources(&[], true), Ok(vec![Source::Input]));
        assert!(sources(&[], false).is_err());
        assert_eq!(sources(&words(&["-"]), false), Ok(vec![Source::Input]));
    }

    #[test]
    fn standard_input_is_read_once() {
        assert_eq!(
            sources(&words(&["-", "a"]), true).map(|all| all.len()),
            Ok(2)
        );
        assert!(sources(&words(&["-", "a", "-"]), true).is_err());
    }

    #[test]
    fn a_path_stays_in_its_line() {
        let path = Path::new(OsStr::from_bytes(b"a\n\x1b[2J\xff\xc3\xa9"));
        assert_eq!(shown(path), "a\\n\\u{1b}[2J\u{fffd}\u{e9}");
    }
}
