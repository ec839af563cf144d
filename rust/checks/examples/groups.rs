//! `cargo run --release -p checks --example groups -- COUNT`: so many random
//! Groups for tests of builders in other languages, each a line of JSON.
//! `members` says what to build: `["value", NAME, BODY]`, `["function", NAME,
//! BODY]`, `["group", NAME, MEMBERS]`. A body is a number or a list of the name
//! of its kind and what it is made of. `text` is the sheet that it gives; where
//! it gives none, `row` and `words` are the mistake.

use std::process::ExitCode;

use generator::Rng;
use lindypo::build::{argument, call, choice, number, read, Expression, Group};

/// Names and paths, wrong ones among them.
const NAMES: [&str; 12] = [
    "a",
    "b",
    "c",
    "right",
    "abcdefghijklmnop",
    "x1",
    "",
    "1x",
    "abcdefghijklmnopq",
    "a b",
    "a\n",
    "\u{e9}t\u{e9}",
];
const PATHS: [&str; 10] = [
    "a",
    "b.a",
    "right.a.b",
    "a.a.a.a.a.a.a.a",
    "",
    "a.",
    ".a",
    "a..b",
    "a.b.c.d.e.f.g.h.i",
    "`a`",
];
const NUMBERS: [i64; 7] = [
    0,
    7,
    -325,
    1_000_000_000,
    -1_000_000_000,
    1_000_000_001,
    i64::MIN,
];

/// How deep Groups are nested.
const DEEPEST: usize = 2;

/// How many of each list are as they should be.
const GOOD_NAMES: usize = 6;
const GOOD_PATHS: usize = 4;
const GOOD_NUMBERS: usize = 5;

fn main() -> ExitCode {
    let count = std::env::args().nth(1).and_then(|word| word.parse().ok());
    let Some(count) = count else {
        eprintln!("a count, please");
        return ExitCode::from(2);
    };
    for seed in 0..count {
        println!("{}", case(seed));
    }
    ExitCode::SUCCESS
}

fn case(seed: u64) -> String {
    let mut rng = Rng::new(seed);
    let mistakes = *rng.pick(&[0, 0, 1, 5]);
    let mut grower = Grower { rng, mistakes };
    let (group, members) = grower.group(DEEPEST);
    let outcome = match group.text() {
        Ok(text) => format!("\"text\":{}", quoted(&String::from_utf8_lossy(&text))),
        Err(mistake) => {
            let words = quoted(&mistake.to_string());
            format!("\"row\":{},\"words\":{words}", mistake.row)
        }
    };
    format!("{{\"members\":{members},{outcome}}}")
}

struct Grower {
    rng: Rng,
    /// How many of a hundred names, paths and numbers are wrong, and sheets large.
    mistakes: usize,
}

impl Grower {
    fn pick<T: Copy>(&mut self, list: &[T], good: usize) -> T {
        match self.rng.chance(self.mistakes) {
            true => *self.rng.pick(&list[good..]),
            false => *self.rng.pick(&list[..good]),
        }
    }

    fn group(&mut self, deeper: usize) -> (Group, String) {
        let mut group = Group::new();
        let mut members = vec![];
        let is_large = deeper == DEEPEST && self.rng.chance(self.mistakes);
        let count = if is_large { 200 } else { self.rng.below(6) };
        for _ in 0..count {
            let name = self.pick(&NAMES, GOOD_NAMES);
            let (kind, content) = match self.rng.below(4) {
                0 if deeper > 0 => {
                    let (inner, json) = self.group(deeper - 1);
                    group.group(name, inner);
                    ("group", json)
                }
                1 => {
                    let (body, json) = self.body(true);
                    group.function(name, body);
                    ("function", json)
                }
                _ => {
                    let (body, json) = self.body(false);
                    group.value(name, body);
                    ("value", json)
                }
            };
            members.push(format!("[\"{kind}\",{},{content}]", quoted(name)));
        }
        (group, format!("[{}]", members.join(",")))
    }

    /// A body; some are as deep as allowed, or deeper.
    fn body(&mut self, is_function: bool) -> (Expression, String) {
        if !self.rng.chance(5) {
            return self.expression(is_function, 6);
        }
        let deepest = if self.mistakes > 0 { 34 } else { 32 };
        let levels = self.rng.range(30, deepest);
        let start = (number(1), "1".to_string());
        (1..levels).fold(start, |(inner, json), _| {
            (2 + inner, format!("[\"sum\",2,{json}]"))
        })
    }

    fn leaf(&mut self, is_function: bool) -> (Expression, String) {
        let is_argument = is_function || self.rng.chance(self.mistakes);
        match self.rng.below(3) {
            0 if is_argument => (argument(), "[\"argument\"]".to_string()),
            1 => {
                let path = self.pick(&PATHS, GOOD_PATHS);
                (read(path), format!("[\"read\",{}]", quoted(path)))
            }
            _ => {
                let it = self.pick(&NUMBERS, GOOD_NUMBERS);
                (number(it), it.to_string())
            }
        }
    }

    fn expression(&mut self, is_function: bool, deeper: usize) -> (Expression, String) {
        if deeper == 0 || self.rng.chance(40) {
            return self.leaf(is_function);
        }
        let mut operand = || self.expression(is_function, deeper - 1);
        let [(a, a_json), (b, b_json)] = [operand(), operand()];
        let binary = |kind: &str| format!("[\"{kind}\",{a_json},{b_json}]");
        match self.rng.below(6) {
            0 => (a + b, binary("sum")),
            1 => (a - b, binary("difference")),
            2 => (a * b, binary("product")),
            3 => (a / b, binary("quotient")),
            4 => {
                let path = self.pick(&PATHS, GOOD_PATHS);
                (
                    call(path, a),
                    format!("[\"call\",{},{a_json}]", quoted(path)),
                )
            }
            _ => {
                let (c, c_json) = self.expression(is_function, deeper - 1);
                let json = format!("[\"choice\",{a_json},{b_json},{c_json}]");
                (choice(a, b, c), json)
            }
        }
    }
}

/// A text in JSON.
fn quoted(text: &str) -> String {
    let letter = |letter: char| match letter {
        '"' | '\\' => format!("\\{letter}"),
        ' '..='~' => letter.to_string(),
        _ => format!("\\u{:04x}", u32::from(letter)),
    };
    format!("\"{}\"", text.chars().map(letter).collect::<String>())
}
