//! The words after a word of the command: options, and all else.

use std::ffi::{OsStr, OsString};

/// An option: `--json`, or with a value `--order LIST`.
#[derive(Debug, Clone, Copy)]
pub struct Opt {
    pub name: &'static str,
    /// What its value is called, where it has one; `NAME...` may be given more
    /// than once.
    pub value: Option<&'static str>,
    pub meaning: &'static str,
}

/// What the name of a value ends in that may be given more than once.
const MORE: &str = "...";

/// Every word has these.
pub const COMMON: [Opt; 2] = [
    Opt {
        name: "--json",
        value: None,
        meaning: "JSON, one object a line for each sheet",
    },
    Opt {
        name: "--help",
        value: None,
        meaning: "this text",
    },
];

/// A word with what is given to it.
#[derive(Debug, Clone, Default, PartialEq, Eq)]
pub struct Call {
    options: Vec<(&'static str, OsString)>,
    /// What is no option: files, names.
    pub operands: Vec<OsString>,
    /// Whether standard input is no terminal.
    pub has_input: bool,
}

impl Call {
    /// Sorts the words by the options that there are. `--` ends them; `-` is
    /// none, and neither is a number below 0.
    pub fn parse(
        words: impl IntoIterator<Item = OsString>,
        options: &[Opt],
        has_input: bool,
    ) -> Result<Call, String> {
        let mut call = Call {
            has_input,
            ..Call::default()
        };
        let mut words = words.into_iter();
        while let Some(word) = words.next() {
            match word.to_str() {
                Some("--") => call.operands.extend(words.by_ref()),
                Some(text) if is_option(text) => {
                    call.add_option(text, options, &mut words)?;
                }
                _ => call.operands.push(word),
            }
        }
        Ok(call)
    }

    /// An option with its value: `--order LIST` or `--order=LIST`.
    fn add_option(
        &mut self,
        text: &str,
        options: &[Opt],
        words: &mut dyn Iterator<Item = OsString>,
    ) -> Result<(), String> {
        let (name, attached) = match text.split_once('=') {
            Some((name, value)) => (name, Some(OsString::from(value))),
            None => (if text == "-h" { "--help" } else { text }, None),
        };
        let is_meant = |option: &&Opt| option.name == name;
        let mut known = options.iter().chain(&COMMON);
        let option = known.find(is_meant).ok_or(format!("there is no {name}"))?;
        let value = match (option.value, attached) {
            (None, None) => OsString::new(),
            (None, Some(_)) => return Err(format!("{name} takes no value")),
            (Some(what), _) if self.is_set(name) && !what.ends_with(MORE) => {
                return Err(format!("{name} is given twice"));
            }
            (Some(what), attached) => attached
                .or_else(|| words.next())
                .ok_or_else(|| format!("{name} wants a value: {}", what.trim_end_matches(MORE)))?,
        };
        self.options.push((option.name, value));
        Ok(())
    }

    /// The same options with other operands.
    pub fn with_operands(&self, operands: Vec<OsString>) -> Call {
        Call {
            operands,
            ..self.clone()
        }
    }

    pub fn is_set(&self, name: &str) -> bool {
        self.value(name).is_some()
    }

    /// The value of an option that is set.
    pub fn value(&self, name: &str) -> Option<&OsStr> {
        self.values(name).next()
    }

    /// The values of an option that may be given more than once.
    pub fn values<'a: 'n, 'n>(&'a self, name: &'n str) -> impl Iterator<Item = &'a OsStr> + 'n {
        let options = self.options.iter();
        let set = options.filter(move |(other, _)| *other == name);
        set.map(|(_, value)| value.as_os_str())
    }

    pub fn wants_json(&self) -> bool {
        self.is_set("--json")
    }
}

fn is_option(word: &str) -> bool {
    let name = word.strip_prefix('-').unwrap_or("");
    !name.is_empty() && !name.bytes().all(|byte| byte.is_ascii_digit())
}

#[cfg(test)]
mod tests {
    use super::*;

    const OPTIONS: [Opt; 3] = [
        Opt {
            name: "--list",
            value: None,
            meaning: "",
        },
        Opt {
            name: "--order",
            value: Some("LIST"),
            meaning: "",
        },
        Opt {
            name: "--fold",
            value: Some("NAME..."),
            meaning: "",
        },
    ];

    fn parsed(words: &str) -> Result<Call, String> {
        let words = words.split_whitespace().map(OsString::from);
        Call::parse(words, &OPTIONS, true)
    }

    #[test]
    fn options_stand_anywhere() {
        let call = parsed("a --list b --order 5,4 - --json").expect("a call");
        assert!(call.is_set("--list") && call.wants_json() && !call.is_set("--help"));
        assert_eq!(call.value("--order"), Some(OsStr::new("5,4")));
        assert_eq!(call.operands, ["a", "b", "-"]);
        assert_eq!(parsed("--order=5,4 a"), parsed("a --order 5,4"));
        assert_eq!(parsed("-h"), parsed("--help"));
    }

    #[test]
    fn some_options_are_given_more_than_once() {
        let call = parsed("--fold a x --fold=b").expect("a call");
        assert!(call.values("--fold").eq(["a", "b"]));
        assert_eq!(call.values("--order").count(), 0);
    }

    #[test]
    fn numbers_are_no_options() {
        let call = parsed("a -400 --list -").expect("a call");
        assert!(call.is_set("--list"));
        assert_eq!(call.operands, ["a", "-400", "-"]);
    }

    #[test]
    fn two_dashes_end_the_options() {
        let call = parsed("--list -- --json -- -x").expect("a call");
        assert_eq!(call.operands, ["--json", "--", "-x"]);
        assert!(!call.wants_json());
    }

    #[test]
    fn wrong_words() {
        for (words, message) in [
            ("--tree a", "there is no --tree"),
            ("-x", "there is no -x"),
            ("a --order", "--order wants a value: LIST"),
            ("a --fold", "--fold wants a value: NAME"),
            ("--order 1 --order=2", "--order is given twice"),
            ("--list=1", "--list takes no value"),
        ] {
            assert_eq!(parsed(words), Err(message.to_string()), "{words}");
        }
    }
}
