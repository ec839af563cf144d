//! The JSON is JSON, and has the fields that `--help` says.

use std::collections::BTreeSet;

use command::words::{Word, WORDS};

use crate::{output, sheets, stdout};

/// A reader of one line of JSON that collects the names of its fields, those in
/// an object in a field with its name and a dot before their own.
pub struct Reader<'a> {
    rest: &'a [u8],
    within: Vec<String>,
    names: BTreeSet<String>,
}

impl Reader<'_> {
    /// The names of the fields of a line; it has to be an object.
    pub fn names(line: &str) -> BTreeSet<String> {
        let mut reader = Reader {
            rest: line.as_bytes(),
            within: vec![],
            names: BTreeSet::new(),
        };
        assert_eq!(reader.rest.first(), Some(&b'{'));
        reader.value();
        assert!(reader.rest.is_empty(), "{line}");
        reader.names
    }

    fn take(&mut self) -> u8 {
        let (&first, rest) = self.rest.split_first().expect("more");
        self.rest = rest;
        first
    }

    fn value(&mut self) {
        match self.rest.first() {
            Some(b'{') => self.items(b'}', |reader| {
                let name = reader.text();
                assert_eq!(reader.take(), b':');
                reader.within.push(name);
                assert!(reader.names.insert(reader.within.join(".")) || reader.within.len() > 1);
                reader.value();
                reader.within.pop();
            }),
            Some(b'[') => self.items(b']', Self::value),
            Some(b'"') => drop(self.text()),
            _ => self.scalar(),
        }
    }

    /// Items with commas between, up to the end of an object or list.
    fn items(&mut self, end: u8, item: impl Fn(&mut Self)) {
        self.take();
        if self.rest.first() == Some(&end) {
            self.take();
            return;
        }
        loop {
            item(self);
            match self.take() {
                b',' => (),
                last => return assert_eq!(last, end),
            }
        }
    }

    /// A number, true or false.
    fn scalar(&mut self) {
        let is_part = |byte: &&u8| byte.is_ascii_alphanumeric() || **byte == b'-';
        let length = self.rest.iter().take_while(is_part).count();
        let (scalar, rest) = self.rest.split_at(length);
        self.rest = rest;
        let scalar = std::str::from_utf8(scalar).expect("ASCII");
        assert!(
            ["true", "false"].contains(&scalar) || scalar.parse::<i64>().is_ok(),
            "{scalar}"
        );
    }

    fn text(&mut self) -> String {
        assert_eq!(self.take(), b'"');
        let mut text = String::new();
        loop {
            match self.take() {
                b'"' => return text,
                b'\\' => self.escape(),
                byte => {
                    assert!((b' '..=b'~').contains(&byte));
                    text.push(byte.into());
                }
            }
        }
    }

    fn escape(&mut self) {
        match self.take() {
            b'u' => (0..4).for_each(|_| assert!(self.take().is_ascii_hexdigit())),
            other => assert!([b'"', b'\\'].contains(&other)),
        }
    }
}

/// A sheet whose values fail in several ways.
const FAILURES: &str = "rust/command/tests/sheets/failures.sheet";

/// What to call a word with, so that every field comes up; `*` is every sample
/// sheet, one with failures and one that is not there.
fn calls(word: &Word) -> &'static [&'static str] {
    match word.name {
        "follow" => &["--order 5,4,2 *", "--order endless *"],
        "retouch" => &[
            "no.sheet x=1",
            "sheets/09-used-twice.sheet 4=1",
            "sheets/01-example.sheet right=1",
            "sheets/01-example.sheet right.sphere=-400 13=0 13=100",
            "sheets/01-example.sheet 13=0",
        ],
        "check" => &["sheets *", "--all *"],
        "why" => &[
            "no.sheet x",
            "sheets/09-used-twice.sheet total",
            "sheets/01-example.sheet right.prism",
            "sheets/03-mixed.sheet right",
            "sheets/04b-even-of-1.sheet answer",
            "sheets/05b-even-of-64.sheet answer",
            "rust/command/tests/sheets/failures.sheet right.centre",
            "rust/command/tests/sheets/failures.sheet rim",
        ],
        "show" => &[
            "no.sheet",
            "sheets/01-example.sheet",
            "sheets/refusal-12-same-name.sheet",
        ],
        "write" => &[
            "no.formulas",
            "examples/order.formulas",
            "rust/command/tests/formulas/refused.formulas",
            "sheets/01-example.sheet",
        ],
        _ => &["*"],
    }
}

/// The words of a call.
fn spelled(word: &Word, call: &str) -> Vec<String> {
    let sheets = sheets()
        .into_iter()
        .map(|sheet| sheet.display().to_string());
    let sheets: Vec<String> = sheets
        .chain([FAILURES, "no \"such\" sheet\n"].map(str::to_string))
        .collect();
    let mut words = vec![word.name.to_string(), "--json".to_string()];
    for part in call.split(' ') {
        match part {
            "*" => words.extend(sheets.clone()),
            part => words.push(part.to_string()),
        }
    }
    words
}

#[test]
fn every_field_is_said() {
    for word in WORDS {
        let mut names = BTreeSet::new();
        for call in calls(word) {
            let words = spelled(word, call);
            let words: Vec<&str> = words.iter().map(String::as_str).collect();
            let said = stdout(&output(&words));
            names.extend(said.lines().flat_map(Reader::names));
        }
        // a fault has the fields of a refusal
        let names = names
            .into_iter()
            .map(|name| name.replace("faults.", "refusal."));
        let names: BTreeSet<String> = names.collect();
        let fields = word.fields.concat();
        let fields = fields.iter().map(|(name, _)| name.to_string());
        assert_eq!(names, fields.collect(), "{}", word.name);
    }
}
