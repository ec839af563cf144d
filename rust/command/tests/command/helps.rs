//! What `--help` says is so.

use command::help;
use command::words::{Word, WORDS};

use crate::{output, stdout};

/// The output of a call that is no mistake.
fn said(words: &[&str]) -> String {
    let output = output(words);
    assert_eq!(output.status.code(), Some(0), "{words:?}");
    assert!(output.stderr.is_empty(), "{words:?}");
    stdout(&output)
}

#[test]
fn help_lists_all_words() {
    let usage = said(&["--help"]);
    assert_eq!(
        [said(&["-h"]), said(&["help"])],
        [usage.clone(), usage.clone()]
    );
    for word in WORDS {
        let line = format!("\n  {:<7}  {}\n", word.name, word.summary);
        assert!(usage.contains(&line), "{}", word.name);
    }
}

#[test]
fn the_version_is_the_crates() {
    let version = concat!("lindypo ", env!("CARGO_PKG_VERSION"), "\n");
    assert_eq!([said(&["--version"]), said(&["-V"])], [version, version]);
}

#[test]
fn every_word_has_help() {
    for word in WORDS {
        let help = said(&[word.name, "--help"]);
        assert_eq!(help, help::of(word));
        assert_eq!(help, said(&["help", word.name]));
        assert_eq!(help, said(&[word.name, "nosuch", "-h"]));
        for option in word.options {
            assert!(
                help.contains(&format!("\n  {}", option.name)),
                "{}",
                option.name
            );
        }
    }
}

/// Nothing is too wide for a terminal.
#[test]
fn lines_are_short() {
    let helps = WORDS.iter().map(|word| help::of(word));
    let helps: String = helps.chain([help::usage()]).collect();
    for line in helps.lines() {
        assert!(!line.ends_with(' '), "{line}");
        assert!(line.chars().count() <= 100, "{line}");
    }
}

/// The examples of `--help` print what it says.
#[test]
fn examples_are_true() {
    for word in WORDS {
        // a page to print is too long for a help
        assert_eq!(word.examples.is_empty(), word.name == "slip");
        for example in word.examples {
            let words: Vec<&str> = example.words.split(' ').collect();
            assert_eq!(stdout(&output(&words)), example.print, "{}", example.words);
        }
        has_its_name(word);
    }
}

/// An example is one of its word.
fn has_its_name(word: &Word) {
    let name = |words: &'static str| words.split(' ').next();
    let mut examples = word.examples.iter();
    assert!(examples.all(|example| name(example.words) == Some(word.name)));
}
