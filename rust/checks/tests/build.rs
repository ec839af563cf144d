//! Sheets built by programs: what is built reads up to row 11, and what cannot
//! be built is said.

use generator::Rng;
use lindypo::build::{argument, call, choice, number, read, Expression, Group};
use lindypo::{Sheet, State, Ties};

const TRIALS: u64 = 10_000;

#[track_caller]
fn is_built(group: &Group, lines: &str) {
    let text = group.text().expect("a sheet that can be built");
    let wanted = format!("kind name a b c\nG - 0 - -\n{lines}");
    assert_eq!(String::from_utf8_lossy(&text), wanted);
}

#[track_caller]
fn says(group: &Group, row: u64, words: &str) {
    let mistake = group.text().expect_err("a mistake");
    assert_eq!((mistake.row, mistake.to_string().as_str()), (row, words));
}

/// A Group of one value.
fn value(name: &str, body: impl Into<Expression>) -> Group {
    let mut group = Group::new();
    group.value(name, body);
    group
}

#[test]
fn every_kind() {
    let sum = read("a.b") + 1;
    let mut inner = Group::new();
    inner
        .value("b", sum - 2)
        .function("f", argument() * 3 / number(-4));
    let mut outermost = Group::new();
    outermost
        .group("a", inner)
        .value("c", choice(call("a.f", 5), 6, 7 - read("a.b")))
        .group("empty", Group::new());
    is_built(
        &outermost,
        "G a 1 - -\nV b 2 7 -\nF f 2 12 -\nV c 1 17 -\nG empty 1 - -\n\
         S - 8 11 -\nA - 9 10 -\nR a.b - - -\nN - 1 - -\nN - 2 - -\n\
         D - 13 16 -\nM - 14 15 -\nP - - - -\nN - 3 - -\nN - -4 - -\n\
         I - 18 20 21\nC a.f 19 - -\nN - 5 - -\nN - 6 - -\nS - 22 23 -\nN - 7 - -\nR a.b - - -\n",
    );
    is_built(&Group::new(), "");
}

/// A sheet comes back as it was built.
#[test]
fn of_a_sheet() {
    let mut inner = Group::new();
    inner.value("b", 1).group("c", value("d", read("b")));
    let mut outermost = Group::new();
    outermost
        .function("f", argument())
        .group("a", inner)
        .value("e", call("f", read("a.c.d")));
    let text = outermost.text().expect("a sheet that can be built");
    let sheet = Sheet::read(&text).expect("a sheet that reads");
    assert_eq!(Group::of_sheet(&sheet), outermost);
}

/// The outermost Group's rule is the sheet's, and comes back from it.
#[test]
fn tie_rules() {
    let mut inner = value("b", number(50) / 100);
    inner.ties(Ties::Even);
    let mut outermost = Group::new();
    outermost.group("a", inner.clone());
    is_built(
        &outermost,
        "G a 1 - -\nV b 2 4 -\nD - 5 6 -\nN - 50 - -\nN - 100 - -\n",
    );
    for (ties, number) in [(Ties::Even, 0), (Ties::Away, 1)] {
        let text = outermost.ties(ties).text().expect("a sheet");
        assert!(text.starts_with(format!("{}\nG - 0 - -\n", ties.first_line()).as_bytes()));
        let sheet = Sheet::read(&text).expect("a sheet that reads");
        assert_eq!(Group::of_sheet(&sheet), outermost);
        let results = sheet.run().expect("a plan").results;
        let outcome = results.of(3).expect("a value");
        assert_eq!(outcome.state, State::Number(number));
    }
}

/// A Group whose sheet has all the bytes that are allowed.
fn longest() -> Group {
    let left = |group: &Group| 65_536 - group.text().expect("a sheet").len();
    let path = ["abcdefghijklmnop"; 8].join(".");
    let (mut group, mut count) = (Group::new(), 0);
    for (body, least) in [(read(path), 400), (number(0), 50)] {
        while left(&group) > least {
            group.value(format!("v{count}"), body.clone());
            count += 1;
        }
    }
    // the last value takes what is left, by its name and by its number
    let last = |more: usize| {
        let (name, digits) = ("n".repeat(1 + more.min(15)), more.saturating_sub(15));
        let mut group = group.clone();
        group.value(name, 10_i64.pow(digits as u32));
        group
    };
    last(left(&last(0)))
}

/// Line one of halves to even has one byte more, which counts.
#[test]
fn bytes_of_line_one() {
    let mut longest = longest();
    assert_eq!(longest.text().map(|text| text.len()), Ok(65_536));
    says(
        longest.ties(Ties::Even),
        1,
        "the sheet would have 65537 bytes; at most 65536 are allowed",
    );
}

#[test]
fn names_and_paths() {
    let form = "a name: 1 to 16 letters or digits, a letter first";
    for name in [
        "",
        "1a",
        "a b",
        "a.b",
        "-",
        "\u{e9}",
        "a\n",
        "abcdefghijklmnopq",
    ] {
        let words = format!("the value `{name}`: `{name}` is not {form}");
        says(&value(name, 1), 7, &words);
        let mut outermost = Group::new();
        outermost.group("right", value(name, 1));
        let words = format!("the value `right.{name}`: `{name}` is not {form}");
        says(&outermost, 7, &words);
    }
    let form =
        "a path: 1 to 8 names joined by dots, each of 1 to 16 letters or digits, a letter first";
    for path in ["", ".", "a.", "a..b", "a.b.c.d.e.f.g.h.i", "a b", "`a`"] {
        let words = format!("the value `v`: `{path}` is not {form}");
        says(&value("v", 1 + read(path)), 7, &words);
        says(&value("v", 1 + call(path, 2)), 7, &words);
    }
}

/// Names and paths stay as they are given. Whether names are there once and paths
/// lead somewhere is for Read to judge, the case of letters aside.
#[test]
fn names_in_any_case() {
    let mut twice = value("right", 1);
    twice.value("Right", 2);
    is_built(
        &twice,
        "V right 1 4 -\nV Right 1 5 -\nN - 1 - -\nN - 2 - -\n",
    );
    let text = twice.text().expect("a sheet that can be built");
    let refusal = Sheet::read(&text).expect_err("one name twice");
    assert_eq!((refusal.number(), refusal.place()), (12, 3));

    let mut outermost = Group::new();
    outermost
        .group("Right", value("Sphere", -325))
        .value("total", read("RIGHT.sphere") + 5);
    let text = outermost.text().expect("a sheet that can be built");
    let sheet = Sheet::read(&text).expect("a sheet that reads");
    assert_eq!(Group::of_sheet(&sheet), outermost);
    let results = sheet.run().expect("a plan").results;
    let total = sheet.find("TOTAL").and_then(|label| results.of(label));
    assert_eq!(total.and_then(|outcome| outcome.state.number()), Some(-320));
}

#[test]
fn numbers() {
    let form = "a whole number: -1000000000 to 1000000000, with no leading zero, plus sign or `-0`";
    for number in [1_000_000_001, -1_000_000_001, i64::MIN, i64::MAX] {
        says(
            &value("v", number),
            7,
            &format!("the value `v`: `{number}` is not {form}"),
        );
    }
    is_built(
        &value("v", -1_000_000_000),
        "V v 1 3 -\nN - -1000000000 - -\n",
    );
}

#[test]
fn arguments() {
    let words = "the value `v`: the argument stands in it; only a function has one";
    says(&value("v", 1 + argument()), 10, words);
}

/// One more operand around an expression.
fn deeper(levels: usize) -> Expression {
    (1..levels).fold(number(0), |inner, _| 1 + inner)
}

#[test]
fn levels() {
    assert!(value("v", deeper(32)).text().is_ok());
    let words = "the value `v`: an expression is at level 33; at most 32 levels are allowed";
    says(&value("v", deeper(33)), 11, words);
}

#[test]
fn lines_and_bytes() {
    let mut group = Group::new();
    for at in 0..511 {
        group.value(format!("v{at}"), at);
    }
    assert!(group.text().is_ok());
    group.value("last", 5);
    says(
        &group,
        3,
        "the sheet would have 1025 lines; at most 1024 are allowed",
    );
    let path = ["abcdefghijklmnop"; 8].join(".");
    let mut group = Group::new();
    for at in 0..500 {
        group.value(format!("v{at}"), read(&path));
    }
    let bytes: usize = (0..500)
        .map(|at| 144 + format!("V v{at} 1 {} -\n", at + 502).len())
        .sum();
    let words = format!(
        "the sheet would have {} bytes; at most 65536 are allowed",
        bytes + 26
    );
    says(&group, 1, &words);
}

/// Nothing is too large to be built, copied, judged and dropped.
#[test]
fn large_trees() {
    let lines = |group: &Group| {
        let words = group.clone().text().expect_err("a mistake").to_string();
        let count = words.split(' ').nth(4).map(str::to_string);
        count.expect("how many lines the sheet would have")
    };
    assert_eq!(lines(&value("v", deeper(500_000))), "1000001");
    let nested = (0..500_000).fold(Group::new(), |inner, _| {
        let mut outer = Group::new();
        outer.group("g", inner);
        outer
    });
    assert_eq!(lines(&nested), "500001");
    let mut flat = Group::new();
    for _ in 0..500_000 {
        flat.function("f", argument());
    }
    assert_eq!(lines(&flat), "1000001");
}

/// Random trees with at most one fault, which is of a known row.
struct Grower<'rng> {
    rng: &'rng mut Rng,
    /// The row whose fault is still to be planted.
    fault: Option<u64>,
    planted: bool,
}

impl Grower<'_> {
    /// Whether this is the place for a fault of the row.
    fn plants(&mut self, row: u64) -> bool {
        let is_it = self.fault == Some(row) && !self.planted && self.rng.chance(30);
        self.planted |= is_it;
        is_it
    }

    fn name(&mut self, count: usize) -> String {
        match self.plants(7) {
            true => self
                .rng
                .pick(&["", "9", "a-b", "abcdefghijklmnopq", "\u{e9}t\u{e9}"])
                .to_string(),
            false => format!("n{count}"),
        }
    }

    fn path(&mut self) -> String {
        match self.plants(7) {
            true => self
                .rng
                .pick(&["", "a.", ".a", "a..b", "a.b.c.d.e.f.g.h.i", "a b"])
                .to_string(),
            false => vec!["abc"; self.rng.range(1, 8)].join("."),
        }
    }

    fn leaf(&mut self, is_function: bool) -> Expression {
        if is_function && self.rng.chance(30) || !is_function && self.plants(10) {
            return argument();
        }
        match self.rng.below(2) {
            0 if self.plants(7) => number(*self.rng.pick(&[i64::MIN, 1_000_000_001])),
            0 => number(self.rng.below(2_000_000_001) as i64 - 1_000_000_000),
            _ => read(self.path()),
        }
    }

    fn expression(&mut self, is_function: bool, level: usize) -> Expression {
        if level >= 32 || self.rng.chance(50) {
            return self.leaf(is_function);
        }
        let kind = self.rng.below(6);
        let path = if kind == 0 {
            self.path()
        } else {
            String::new()
        };
        let mut operand = || self.expression(is_function, level + 1);
        match kind {
            0 => call(path, operand()),
            1 => operand() + operand(),
            2 => operand() - operand(),
            3 => operand() * operand(),
            4 => operand() / operand(),
            _ => choice(operand(), operand(), operand()),
        }
    }

    fn body(&mut self, is_function: bool) -> Expression {
        if self.plants(11) {
            return deeper(33 + self.rng.below(3));
        }
        match self.rng.chance(10) {
            true => deeper(32),
            false => self.expression(is_function, 1),
        }
    }

    fn group(&mut self, depth: usize) -> Group {
        let mut group = Group::new();
        for count in 0..self.rng.below(6) {
            let name = self.name(count);
            match self.rng.below(5) {
                0 | 1 if depth < 4 => group.group(name, self.group(depth + 1)),
                2 => group.function(name, self.body(true)),
                _ => group.value(name, self.body(false)),
            };
        }
        group
    }
}

#[test]
fn random_trees() {
    let mut met = [0; 16];
    for seed in 0..TRIALS {
        let rng = &mut Rng::new(seed);
        let fault = *rng.pick(&[None, Some(7), Some(10), Some(11)]);
        let mut grower = Grower {
            rng,
            fault,
            planted: false,
        };
        let group = grower.group(0);
        let fault = fault.filter(|_| grower.planted);
        match group.text() {
            Ok(text) => {
                assert_eq!(fault, None, "{seed}");
                let refusal = Sheet::read(&text).err();
                let row = refusal.map_or(0, |refusal| refusal.number());
                assert!(row == 0 || row >= 12, "{seed}: row {row}");
                met[row as usize] += 1;
            }
            Err(mistake) if matches!(mistake.row, 1 | 3) => met[mistake.row as usize] += 1,
            Err(mistake) => {
                assert_eq!(fault, Some(mistake.row), "{seed}: {mistake}");
                met[mistake.row as usize] += 1;
            }
        }
    }
    println!("by row: {met:?}");
    for row in [0, 3, 7, 10, 11, 13] {
        assert!(met[row] > 50, "row {row}: {met:?}");
    }
}
