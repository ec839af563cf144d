//! Everyday orders.

use crate::builder::{Builder, MAX_LINES};
use crate::rng::Rng;
use crate::rows;

/// An everyday order of exactly this many lines, 1 to 1,024: Groups right,
/// left and frame, short names, dotted paths, some functions. It reads and has
/// a whole plan.
pub fn everyday(lines: usize, seed: u64) -> Vec<u8> {
    let rng = &mut Rng::new(seed);
    let mut day = Everyday::new(lines.clamp(1, MAX_LINES));
    day.start();
    while day.left() > 0 {
        day.value(rng);
    }
    day.builder.text()
}

/// An everyday order of exactly this many lines, 9 to 1,024, in which every value
/// reaches one: the number of its last line stands for all that values had.
pub fn everyday_on_one(lines: usize, seed: u64) -> Vec<u8> {
    let text = everyday(lines - 2, seed);
    let mut table = vec![0; 8 * (lines - 2)];
    reference::read(&text, &mut table).expect("a sheet that reads");
    let mut rows = rows::split(&text).expect("lines of five fields");
    let row = |fields: [&str; 5]| fields.map(|field| field.as_bytes().to_vec());
    for label in crate::number_labels(&table) {
        let at = label as usize - 1;
        let owner = table[8 * at + 6] as usize - 1;
        if rows[owner][0] == b"V" {
            rows[at] = row(["R", "origin", "-", "-", "-"]);
        }
    }
    rows.push(row(["V", "origin", "1", &lines.to_string(), "-"]));
    rows.push(row(["N", "-", "250", "-", "-"]));
    rows::join(&rows)
}

const GROUPS: [&str; 3] = ["frame", "right", "left"];
const NAMES: [&str; 10] = [
    "sphere", "cyl", "axis", "prism", "base", "add", "dec", "pd", "height", "thick",
];

struct Everyday {
    builder: Builder,
    lines: usize,
    /// Labels of frame, right and left; shorter in a very short sheet.
    groups: Vec<usize>,
    functions: usize,
    /// How many values each Group has, and the outermost one.
    counts: [usize; 4],
}

impl Everyday {
    fn new(lines: usize) -> Self {
        Everyday {
            builder: Builder::new(),
            lines,
            groups: Vec::new(),
            functions: 0,
            counts: [0; 4],
        }
    }

    fn left(&self) -> usize {
        self.lines - self.builder.count()
    }

    /// Groups and functions, as far as the lines go.
    fn start(&mut self) {
        for name in GROUPS {
            if self.left() > 0 {
                self.groups.push(self.builder.group(name, 1));
            }
        }
        let bodies = ["D P 2", "M P P", "I P D 1000 P 0"];
        for (name, body) in ["half", "square", "per"].into_iter().zip(bodies) {
            if self.left() > 30 {
                self.builder.function(name, 1, body);
                self.functions += 1;
            }
        }
    }

    /// One value more; an empty Group if one line is left.
    fn value(&mut self, rng: &mut Rng) {
        if self.left() == 1 {
            self.builder.group("spare", 1);
            return;
        }
        let place = match rng.below(10) {
            9 => 3,
            roll => roll % 3,
        };
        let group = self.groups.get(place).copied().unwrap_or(1);
        let place = if group == 1 { 3 } else { place };
        let mut body = self.body(rng, place);
        if body.split(' ').count() >= self.left() {
            body = rng.range(1, 900).to_string();
        }
        let name = Self::name(place, self.counts[place]);
        self.builder.value(&name, group, &body);
        self.counts[place] += 1;
    }

    fn name(place: usize, count: usize) -> String {
        let name = if place == 3 {
            "total"
        } else {
            NAMES[count % NAMES.len()]
        };
        let round = if place == 3 {
            count
        } else {
            count / NAMES.len()
        };
        match round {
            0 => name.to_string(),
            _ => format!("{name}{round}"),
        }
    }

    fn body(&self, rng: &mut Rng, place: usize) -> String {
        let number = rng.range(1, 900) as i64 - 300;
        let a = self.read(rng, place);
        let b = self.read(rng, place);
        match rng.below(9) {
            0..=1 => number.to_string(),
            2 => format!("A {a} {number}"),
            3 => format!("D M {a} {b} 100"),
            4 => format!("S {a} {b}"),
            5 => format!("I S {a} {number} {b} 0"),
            6 if self.functions > 0 => format!("C:half {a}"),
            7 if self.functions > 2 => format!("A C:per {a} D {b} 10"),
            _ => a,
        }
    }

    /// A read of an earlier value: of its own Group, of frame from anywhere,
    /// of right from left, of any from outside. So the plan is whole.
    fn read(&self, rng: &mut Rng, place: usize) -> String {
        let other = match place {
            0 => 0,
            1 => rng.below(2),
            2 => rng.below(3),
            _ => rng.below(4),
        };
        if self.counts[other] == 0 {
            return rng.range(1, 90).to_string();
        }
        let name = Self::name(other, rng.below(self.counts[other]));
        if other == place {
            format!("R:{name}")
        } else {
            format!("R:{}.{name}", GROUPS[other])
        }
    }
}
