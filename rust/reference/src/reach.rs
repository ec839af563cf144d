//! Mentions, reaching, and row 16.

use crate::adjacency::Adjacency;
use crate::bits::{ones, BitMatrix};
use crate::sheet::{Kind, Label, Sheet};
use crate::Refusal;

/// The definitions numbered from 0 in label order (a smaller number is a
/// smaller label), and which of them each one reaches.
pub struct Reach {
    /// Label of each definition.
    pub labels: Vec<Label>,
    /// Number of each definition, by label.
    numbers: Vec<u32>,
    /// Number of the Group of each definition; the outermost one's is its own.
    pub groups: Vec<u32>,
    /// Row d holds what d "reaches by one or more mentions", and the Groups
    /// around the values among them.
    pub reached: BitMatrix,
    /// One row: the definitions that are values.
    pub values: BitMatrix,
}

impl Reach {
    pub fn number(&self, label: Label) -> usize {
        self.numbers[label] as usize
    }

    /// The numbers of the values, smallest first.
    pub fn values(&self) -> impl Iterator<Item = usize> + '_ {
        self.values.members(0)
    }

    /// Those of a set that a definition's row has.
    pub fn reached_among<'a>(
        &'a self,
        definition: usize,
        set: &'a [u64],
    ) -> impl Iterator<Item = usize> + 'a {
        let words = self.reached.row(definition).iter().zip(set);
        ones(words.map(|(reached, set)| reached & set))
    }
}

/// What every definition reaches; row 16 if a value reaches itself.
pub fn reach(sheet: &Sheet) -> Result<Reach, Refusal> {
    let is_definition = |&label: &Label| sheet.kind(label).is_definition();
    let labels: Vec<Label> = sheet.labels().filter(is_definition).collect();
    let mut numbers = vec![0; sheet.count() + 1];
    let mut values = BitMatrix::new(1, labels.len());
    for (number, &label) in labels.iter().enumerate() {
        numbers[label] = number as u32;
        if sheet.kind(label) == Kind::Value {
            values.insert(0, number);
        }
    }
    let group = |&label: &Label| numbers[sheet.owner(label)];
    let groups: Vec<u32> = labels.iter().map(group).collect();
    let reached = Closure::new(&mentions(sheet, &numbers), &groups, &values).finish();
    let reach = Reach {
        labels,
        numbers,
        groups,
        reached,
        values,
    };
    let cycle = reach.values().find(|&v| reach.reached.contains(v, v));
    match cycle {
        Some(value) => Err(Refusal::new(16, reach.labels[value])),
        None => Ok(reach),
    }
}

/// "d mentions e when an R or C owned by d has target e."
fn mentions(sheet: &Sheet, numbers: &[u32]) -> Adjacency {
    let lines = sheet.lines.iter().filter(|line| line.target != 0);
    let number = |label: u32| numbers[label as usize] as usize;
    let pairs = lines.map(|line| (number(line.owner), number(line.target)));
    Adjacency::new(numbers.len(), pairs)
}

/// Tarjan's walk: definitions that reach each other form a component, and a
/// component is closed after every other one that it reaches.
struct Closure<'m> {
    mentions: &'m Adjacency,
    groups: &'m [u32],
    values: &'m BitMatrix,
    reached: BitMatrix,
    /// When each definition was first met, from 1; 0 if not yet.
    met: Vec<u32>,
    meetings: u32,
    /// Met, and its component not yet closed.
    open: Vec<usize>,
    is_open: Vec<bool>,
}

impl<'m> Closure<'m> {
    fn new(mentions: &'m Adjacency, groups: &'m [u32], values: &'m BitMatrix) -> Self {
        let count = groups.len();
        Closure {
            mentions,
            groups,
            values,
            reached: BitMatrix::new(count, count),
            met: vec![0; count],
            meetings: 0,
            open: Vec::new(),
            is_open: vec![false; count],
        }
    }

    fn finish(mut self) -> BitMatrix {
        for definition in 0..self.met.len() {
            if self.met[definition] == 0 {
                self.visit(definition);
            }
        }
        self.reached
    }

    /// Visits a definition and all it reaches; gives the earliest meeting
    /// among the open definitions that it was seen to reach.
    fn visit(&mut self, definition: usize) -> u32 {
        self.meetings += 1;
        let own = self.meetings;
        self.met[definition] = own;
        self.is_open[definition] = true;
        let from = self.open.len();
        self.open.push(definition);
        let mut earliest = own;
        for &target in self.mentions.of(definition) {
            let target = target as usize;
            if self.met[target] == 0 {
                earliest = earliest.min(self.visit(target));
            } else if self.is_open[target] {
                earliest = earliest.min(self.met[target]);
            }
        }
        if earliest == own {
            self.close(from);
        }
        earliest
    }

    /// Closes the component that the last open definitions form, those from
    /// `from` on: it reaches every target of its mentions and all they reach.
    fn close(&mut self, from: usize) {
        let root = self.open[from];
        for at in from..self.open.len() {
            for &target in self.mentions.of(self.open[at]) {
                let target = target as usize;
                if !self.is_open[target] {
                    self.reached.merge(root, target);
                }
                self.mark(root, target);
            }
        }
        for definition in self.open.drain(from..) {
            self.is_open[definition] = false;
            self.reached.merge(definition, root);
        }
    }

    /// Puts a target into a row, and the Groups around it if it is a value.
    /// Those around one that is there are there, too.
    fn mark(&mut self, row: usize, target: usize) {
        let is_value = self.values.contains(0, target);
        let mut next = target;
        while self.reached.insert(row, next) && is_value {
            next = self.groups[next] as usize;
        }
    }
}
