//! Random sheets both ways, and texts of any bytes.

use std::collections::BTreeMap;

use generator::{recased, recased_name, rows, Rng};
use lindypo::{
    build::Group, formula, same_name, Kind, Label, Mark, Order, Outcome, Refusal, Sheet, Ties,
};

const SHEETS: u64 = 4_000;
const TEXTS: u64 = 20_000;

/// Names that formulas have to take care with, in place of the generator's; no
/// two names of one sheet become one, whatever their case.
const CLOSE_NAMES: [(&str, &str); 20] = [
    ("a", "x"),
    ("b", "halves"),
    ("c", "if"),
    ("sphere", "x"),
    ("prism", "then"),
    ("right", "y"),
    ("left", "else"),
    ("frame", "x1"),
    ("axis", "if"),
    ("total", "halves"),
    ("abcdefghijklmnop", "x"),
    ("v0", "x"),
    ("v1", "y"),
    ("v2", "z"),
    ("v3", "x1"),
    ("v4", "x2"),
    ("v5", "if"),
    ("v6", "halves"),
    ("v7", "then"),
    ("v8", "else"),
];

fn close_name(name: &str) -> &str {
    let found = CLOSE_NAMES.iter().find(|(from, _)| same_name(from, name));
    found.map_or(name, |(_, to)| to)
}

/// A random sheet that reads, under either tie rule; every second one has close
/// names, in any case.
fn random_sheet(seed: u64) -> Vec<u8> {
    let text = close_sheet(seed);
    let sheet = Sheet::read(&text).expect("a sheet that reads");
    let ties = Ties::ALL[seed as usize / 2 % 2];
    let under = sheet.with_ties(ties);
    match Sheet::read(&under) {
        Ok(_) => under,
        // a byte too long
        Err(_) => text,
    }
}

fn close_sheet(seed: u64) -> Vec<u8> {
    let rng = &mut Rng::new(seed);
    let text = generator::sheet(rng);
    if seed.is_multiple_of(2) {
        return text;
    }
    let mut rows = rows::split(&text).expect("rows of five fields");
    for row in &mut rows {
        let names = String::from_utf8_lossy(&row[1]).into_owned();
        let names: Vec<&str> = names.split('.').map(close_name).collect();
        row[1] = names.join(".").into_bytes();
    }
    recased(rng, &rows::join(&rows))
}

/// A sheet without its labels: the definitions of each Group in sequence, with
/// kinds, names and whole bodies.
fn unlabelled(sheet: &Sheet) -> BTreeMap<String, Vec<String>> {
    let mut groups = BTreeMap::new();
    for line in sheet.lines().filter(|line| line.kind.is_definition()) {
        let group = line
            .owner
            .map_or("-".to_string(), |group| sheet.full_name(group));
        let (kind, name) = (line.kind.letter(), sheet.full_name(line.label));
        let body = tree(sheet, line.b as Label);
        let members: &mut Vec<String> = groups.entry(group).or_default();
        members.push(format!("{kind} {name} {body}"));
    }
    groups
}

/// An expression with all of its operands; nothing for a Group's missing body.
fn tree(sheet: &Sheet, label: Label) -> String {
    let Some(line) = sheet.line(label) else {
        return String::new();
    };
    let (kind, name) = (line.kind.letter(), line.name.unwrap_or("-"));
    if line.kind == Kind::Number {
        return format!("({kind} {})", line.a);
    }
    let operands = [line.a, line.b, line.c].map(|field| tree(sheet, field as Label));
    format!("({kind} {name}{})", operands.concat())
}

/// Every value by its full name with its outcome, in the order of the plan.
type Values = Vec<(String, Outcome)>;

fn values(sheet: &Sheet) -> Result<(Order, Values), Refusal> {
    let run = sheet.run()?;
    let named = |(label, outcome)| (sheet.full_name(label), outcome);
    Ok((run.plan.order, run.values().map(named).collect()))
}

/// What has to be the same of two sheets' values, numbering aside: all of a
/// whole plan; of a mixed one all but its sequence.
fn is_same_run(first: &Sheet, second: &Sheet) -> bool {
    match (values(first), values(second)) {
        (Ok((order, mut values)), Ok((other_order, mut others))) => {
            if order == Order::Mixed {
                values.sort_by(|a, b| a.0.cmp(&b.0));
                others.sort_by(|a, b| a.0.cmp(&b.0));
            }
            (order, values) == (other_order, others)
        }
        (Err(refusal), Err(other)) => refusal.number() == 16 && other.number() == 16,
        _ => false,
    }
}

/// `show` then `write`: the same sheet but for its labels.
#[test]
fn shown_then_written() {
    let (mut runs, mut mixed, mut cycles) = (0, 0, 0);
    for seed in 0..SHEETS {
        let text = random_sheet(seed);
        let sheet = Sheet::read(&text).expect("a sheet that reads");
        let shown = formula::show(&sheet);
        let group = formula::parse(shown.as_bytes()).expect("formulas");
        assert_eq!(group, Group::of_sheet(&sheet), "{seed}");
        let built = group.text().expect("a sheet that can be built");
        let again = Sheet::read(&built).expect("a sheet that reads");
        assert_eq!(unlabelled(&again), unlabelled(&sheet), "{seed}");
        assert_eq!(again.ties(), sheet.ties(), "{seed}");
        assert_eq!(formula::show(&again), shown, "{seed}");
        assert!(is_same_run(&again, &sheet), "{seed}");
        match (sheet.plan(), formula::write(shown.as_bytes())) {
            (Ok(plan), Ok(written)) => {
                assert_eq!(written, built);
                runs += 1;
                mixed += u64::from(plan.order == Order::Mixed);
            }
            (Err(_), Err(mistake)) => {
                assert_eq!(mistake.row, Some(16), "{seed}");
                cycles += 1;
            }
            (plan, written) => panic!("{seed}: {plan:?}, {written:?}"),
        }
    }
    println!("{runs} run, {mixed} of them mixed; {cycles} have a cycle");
    assert!(runs > 3_000 && mixed > 100 && cycles > 50);
}

/// A sheet as formulas in disorderly layout: more parentheses, spaces, line
/// ends, comments and marks than needed, and other names for arguments.
struct Scribbler<'sheet, 'text> {
    sheet: &'sheet Sheet<'text>,
    rng: &'sheet mut Rng,
    text: String,
}

impl Scribbler<'_, '_> {
    fn blank(&mut self) {
        let blanks = [
            "",
            "",
            " ",
            "  ",
            "\n",
            "\r\n",
            "\t",
            " # (if\n",
            "#\u{e9}=\n",
        ];
        self.text += self.rng.pick::<&str>(&blanks);
    }

    fn put(&mut self, token: &str) {
        self.text += token;
        self.blank();
    }

    /// A word, apart from what follows.
    fn word(&mut self, word: &str) {
        self.text += word;
        self.text.push(' ');
        self.blank();
    }

    fn name(&mut self, name: &str, must_mark: bool) -> String {
        let is_word = ["if", "then", "else"]
            .iter()
            .any(|word| same_name(word, name));
        match must_mark || is_word || self.rng.chance(10) {
            true => format!("`{name}`"),
            false => name.to_string(),
        }
    }

    /// The path of an R or C; `argument` is what it must not be taken for.
    fn path(&mut self, path: &str, argument: &str) {
        let mut names: Vec<String> = vec![];
        for (at, name) in path.split('.').enumerate() {
            let is_hidden = at == 0 && same_name(name, argument);
            names.push(self.name(name, is_hidden));
        }
        self.put(&names.join("."));
    }

    /// Halves to even have to be said, halves away from zero may be.
    fn tie_rule(&mut self) {
        let ties = self.sheet.ties();
        if ties == Ties::Even || self.rng.chance(30) {
            for word in ties.to_string().split(' ') {
                let word = recased_name(self.rng, word);
                self.word(&word);
            }
        }
    }

    fn group(&mut self, group: Label) {
        let members: Vec<Label> = self.sheet.members(group).map(|line| line.label).collect();
        for member in members {
            self.definition(member);
        }
    }

    fn definition(&mut self, label: Label) {
        let line = self.sheet.line(label).expect("a definition");
        let name = self.name(line.name.unwrap_or_default(), false);
        self.put(&name);
        let argument = *self.rng.pick(&["x", "a", "sphere", "v1", "Argument"]);
        match line.kind {
            Kind::Group => {
                self.put("{");
                self.group(label);
                self.put("}");
                return;
            }
            Kind::Function => {
                self.put("(");
                self.put(argument);
                self.put(")");
            }
            _ => {}
        }
        self.put("=");
        self.expression(line.b as Label, argument);
        self.text.push(' ');
    }

    /// In parentheses, unless it is a leaf.
    fn operand(&mut self, label: i64, argument: &str) {
        let line = self.sheet.line(label as Label).expect("an expression");
        let is_leaf = matches!(line.kind, Kind::Number | Kind::Argument | Kind::Read);
        if is_leaf && self.rng.chance(80) {
            return self.expression(line.label, argument);
        }
        self.put("(");
        self.expression(line.label, argument);
        self.put(")");
    }

    fn expression(&mut self, label: Label, argument: &str) {
        let line = self.sheet.line(label).expect("an expression");
        let sign = match line.kind {
            Kind::Number => return self.put(&line.a.to_string()),
            Kind::Argument => {
                let argument = recased_name(self.rng, argument);
                return self.put(&argument);
            }
            Kind::Read => return self.path(line.name.unwrap_or_default(), argument),
            Kind::Call => {
                self.path(line.name.unwrap_or_default(), argument);
                self.put("(");
                self.operand(line.a, argument);
                return self.put(")");
            }
            Kind::Choice => return self.choice([line.a, line.b, line.c], argument),
            Kind::Sum => "+",
            Kind::Difference => "-",
            Kind::Product => "*",
            _ => "/",
        };
        self.operand(line.a, argument);
        self.put(sign);
        self.operand(line.b, argument);
    }

    fn choice(&mut self, operands: [i64; 3], argument: &str) {
        let words = *self
            .rng
            .pick(&[["if", "then", "else"], ["If", "THEN", "elsE"]]);
        for (word, operand) in words.into_iter().zip(operands) {
            self.word(word);
            self.operand(operand, argument);
            self.text.push(' ');
        }
    }
}

fn scribbled(sheet: &Sheet, rng: &mut Rng) -> String {
    let mut scribbler = Scribbler {
        sheet,
        rng,
        text: String::new(),
    };
    scribbler.blank();
    scribbler.tie_rule();
    scribbler.group(1);
    scribbler.text
}

/// `write` then `show`: the same formulas but for layout and the names of
/// arguments.
#[test]
fn written_then_shown() {
    for seed in 0..SHEETS {
        let text = random_sheet(seed);
        let sheet = Sheet::read(&text).expect("a sheet that reads");
        let scribbled = scribbled(&sheet, &mut Rng::new(seed));
        let group = formula::parse(scribbled.as_bytes());
        let group = group.unwrap_or_else(|mistake| panic!("{seed}: {mistake}\n{scribbled}"));
        let built = group.text().expect("a sheet that can be built");
        let again = Sheet::read(&built).expect("a sheet that reads");
        assert_eq!(formula::show(&again), formula::show(&sheet), "{seed}");
        assert_eq!(unlabelled(&again), unlabelled(&sheet), "{seed}");
        assert_eq!(again.ties(), sheet.ties(), "{seed}");
        assert!(is_same_run(&again, &sheet), "{seed}");
    }
}

/// Some bytes of a text exchanged, left out, doubled or put in.
fn damaged(text: &mut Vec<u8>, rng: &mut Rng) {
    const TOKENS: [&str; 21] = [
        "(",
        ")",
        "{",
        "}",
        "=",
        "+",
        "-",
        "*",
        "/",
        ",",
        ".",
        "`",
        "#",
        "\n",
        "if ",
        "then ",
        "0",
        "x",
        " halves ",
        " to ",
        "halves to even\n",
    ];
    for _ in 0..rng.range(1, 3) {
        let at = rng.below(text.len() + 1);
        let end = (at + rng.range(0, 4)).min(text.len());
        let put = match rng.below(4) {
            0 => vec![],
            1 => vec![rng.below(256) as u8],
            2 => text[at..end].repeat(2),
            _ => rng.pick(&TOKENS).as_bytes().to_vec(),
        };
        text.splice(at..end, put);
    }
}

fn any_text(seed: u64) -> Vec<u8> {
    let rng = &mut Rng::new(seed);
    if rng.chance(5) {
        return (0..rng.below(200)).map(|_| rng.below(256) as u8).collect();
    }
    let sheet = random_sheet(seed);
    let sheet = Sheet::read(&sheet).expect("a sheet that reads");
    let mut text = match rng.chance(50) {
        true => formula::show(&sheet).into_bytes(),
        false => scribbled(&sheet, rng).into_bytes(),
    };
    damaged(&mut text, rng);
    text
}

fn is_in_text(text: &[u8], mark: Mark) -> bool {
    let mut lines = text.split(|&byte| byte == b'\n');
    let Some(line) = lines.nth(mark.line - 1) else {
        return false;
    };
    let is_past = (mark.column, mark.width) == (line.len() + 1, 1);
    is_past || mark.width >= 1 && mark.column - 1 + mark.width <= line.len()
}

/// Texts of any bytes: a sheet that plans, or a mistake in the text.
#[test]
fn any_bytes() {
    let (mut sheets, mut wrong, mut refused) = (0, 0, 0);
    for seed in 0..TEXTS {
        let text = any_text(seed);
        match formula::write(&text) {
            Ok(written) => {
                let sheet = Sheet::read(&written).expect("a sheet that reads");
                sheet.plan().expect("a plan");
                let shown = formula::show(&sheet);
                assert_eq!(formula::write(shown.as_bytes()), Ok(written), "{seed}");
                sheets += 1;
            }
            Err(mistake) => {
                let hints = mistake.help.iter().filter_map(|help| help.mark);
                let mut marks: Vec<Mark> = hints.collect();
                marks.push(mistake.mark.expect("a place"));
                let are_there = marks.iter().all(|&mark| is_in_text(&text, mark));
                assert!(are_there, "{seed}: {mistake:?}");
                wrong += u64::from(mistake.row.is_none());
                refused += u64::from(mistake.row.is_some());
            }
        }
    }
    println!("{sheets} sheets, {wrong} against the grammar, {refused} refused");
    assert!(sheets > 1_000 && wrong > 5_000 && refused > 500);
}
