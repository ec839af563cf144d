//! Random sheets that read.
//!
//! A sheet is one tree under label 1: a definition hangs under its Group, an
//! expression under the line that uses it, and labels rise along every branch.
//! So the tree is grown first and labels are dealt out afterwards, in any
//! sequence that takes a line before those under it.

use std::io::Write;

use crate::first_lines::{under, AWAY, FIRST_LINES};
use crate::letters::{is_same_name, recase};
use crate::near::{long_name, make_near};
use crate::rng::Rng;

const OUTERMOST: usize = 0;
const MAX_LINES: usize = 1_024;
const MAX_LEVEL: usize = 32;
const MAX_PATH: usize = 8;

/// One line of the tree; links are other nodes.
struct Node {
    kind: u8,
    /// Name or path; empty for `-`.
    name: Vec<u8>,
    /// The Group of a definition.
    group: usize,
    /// Body or operands.
    operands: Vec<usize>,
    /// The number of an N.
    number: i64,
}

/// A definition's standing: it may mention definitions of a lower rank, a
/// function also functions of its own rank. Ranks of values differ, so no
/// value reaches itself.
type Rank = usize;

/// What sort of sheet to grow; shares are percents.
struct Manner {
    /// Lines wanted at least.
    lines: usize,
    /// Groups put in before anything else.
    first_groups: usize,
    /// Groups among the definitions, functions among the rest.
    groups: usize,
    functions: usize,
    /// Lines of a body, about.
    body: usize,
    /// Groups mostly in each other.
    deep: bool,
    /// Leaves that mention a value; calls among the other expressions;
    /// functions that call themselves round.
    reading: usize,
    calling: usize,
    recursion: usize,
    /// Ranks of values without regard to Groups.
    shuffled: bool,
    /// In how many Groups members are tied into rings.
    tied_groups: usize,
    /// How many ranks functions have, or all that there are, so that functions
    /// lead on to functions and then to values.
    function_ranks: usize,
    spread: bool,
    /// Mentions as they come, so that values may reach themselves.
    wild: bool,
    /// Quotients by an even number, many of them halves, among the operations.
    halving: usize,
    /// How long names are and how often they repeat.
    naming: usize,
    /// Names and paths in other letters than their lists and definitions have.
    recasing: usize,
}

impl Manner {
    fn new(rng: &mut Rng) -> Self {
        let manner = Manner {
            lines: 1,
            first_groups: 0,
            groups: *rng.pick(&[0, 10, 20, 30, 50]),
            functions: *rng.pick(&[0, 15, 30, 50]),
            body: rng.range(2, 9),
            deep: rng.chance(20),
            reading: rng.range(10, 80),
            calling: 25,
            recursion: 50,
            shuffled: rng.chance(30),
            tied_groups: 0,
            function_ranks: 3,
            spread: false,
            wild: rng.chance(6),
            halving: *rng.pick(&[0, 0, 30, 80]),
            naming: rng.below(5),
            recasing: *rng.pick(&[0, 0, 0, 0, 10, 50, 100]),
        };
        match rng.below(100) {
            // Values of several Groups that read each other crosswise.
            0..=31 => Manner {
                lines: rng.range(16, 60),
                first_groups: rng.range(2, 4),
                groups: rng.range(0, 15),
                functions: rng.range(0, 15),
                body: rng.range(2, 3),
                reading: rng.range(85, 100),
                shuffled: true,
                ..manner
            },
            // Values in many Groups, some of which are tangled.
            32..=45 => Manner {
                lines: rng.range(30, 90),
                first_groups: rng.range(4, 8),
                groups: rng.range(0, 10),
                functions: rng.range(0, 10),
                body: rng.range(1, 2),
                reading: rng.range(0, 50),
                shuffled: false,
                tied_groups: rng.range(1, 3),
                naming: *rng.pick(&[0, 1, 3, 3, 3, 4]),
                ..manner
            },
            // Functions that call each other and take many steps.
            46..=60 => Manner {
                lines: rng.range(12, 30),
                groups: rng.range(0, 15),
                functions: rng.range(30, 70),
                calling: 70,
                recursion: rng.range(60, 100),
                function_ranks: rng.range(1, 3),
                ..manner
            },
            // Values of several Groups that read each other through functions
            // that call functions.
            61..=76 => Manner {
                lines: rng.range(40, 100),
                first_groups: rng.range(0, 4),
                groups: rng.range(0, 15),
                functions: rng.range(50, 80),
                body: rng.range(2, 4),
                reading: rng.range(60, 95),
                calling: rng.range(60, 95),
                recursion: rng.range(0, 25),
                spread: true,
                ..manner
            },
            _ => manner,
        }
    }
}

struct Grower<'r> {
    rng: &'r mut Rng,
    manner: Manner,
    nodes: Vec<Node>,
    groups: Vec<usize>,
    values: Vec<usize>,
    functions: Vec<usize>,
    /// Members of each Group, by node.
    members: Vec<Vec<usize>>,
    ranks: Vec<Rank>,
    /// What a value is to read in any case, by node.
    ties: Vec<Option<usize>>,
    /// How many lines the sheet may come to, those still to come included.
    limit: usize,
    /// Values and functions still without a body.
    waiting: usize,
}

/// A random sheet that reads; a few have a value that reaches itself.
pub fn sheet(rng: &mut Rng) -> Vec<u8> {
    let lines = size(rng);
    sheet_of(rng, lines)
}

/// Small sheets above all.
fn size(rng: &mut Rng) -> usize {
    match rng.below(1_000) {
        0..=19 => rng.range(1, 3),
        20..=499 => rng.range(4, 24),
        500..=919 => rng.range(16, 60),
        920..=987 => rng.range(60, 160),
        988..=996 => rng.range(160, 500),
        _ => rng.range(500, MAX_LINES),
    }
}

/// A random sheet of this many lines or somewhat fewer, from 40 on.
pub fn sheet_within(rng: &mut Rng, lines: usize) -> Vec<u8> {
    loop {
        let text = sheet_of(rng, 3 * lines / 4);
        if (lines / 2..=lines).contains(&crate::line_count(&text)) {
            return text;
        }
    }
}

/// A random sheet of about this many lines, at most 1,024.
pub fn sheet_of(rng: &mut Rng, lines: usize) -> Vec<u8> {
    let manner = Manner::new(rng);
    let lines = if lines < 4 {
        lines
    } else {
        lines.max(manner.lines)
    };
    let mut grower = Grower {
        manner,
        limit: MAX_LINES.min(2 * lines + 12),
        waiting: 0,
        nodes: Vec::new(),
        groups: vec![OUTERMOST],
        values: Vec::new(),
        functions: Vec::new(),
        members: vec![Vec::new()],
        ranks: Vec::new(),
        ties: Vec::new(),
        rng,
    };
    grower.add(b'G', OUTERMOST);
    grower.grow_definitions(lines);
    grower.deal_ranks();
    grower.grow_bodies(lines);
    let text = grower.render();
    let line = *rng.pick(&FIRST_LINES);
    under(line, &text)
}

impl Grower<'_> {
    fn add(&mut self, kind: u8, group: usize) -> usize {
        self.nodes.push(Node {
            kind,
            name: Vec::new(),
            group,
            operands: Vec::new(),
            number: 0,
        });
        self.nodes.len() - 1
    }

    /// Definitions without bodies, for a sheet of `lines` lines.
    fn grow_definitions(&mut self, lines: usize) {
        let mut left = lines - 1;
        for _ in 0..self.manner.first_groups.min(left) {
            // side by side, there are more to tie
            let is_outermost = self.manner.tied_groups > 0 && self.rng.chance(60);
            let group = if is_outermost {
                OUTERMOST
            } else {
                self.choose_group()
            };
            self.define(b'G', group);
            left -= 1;
        }
        while left > 0 {
            let group = self.choose_group();
            if left == 1 && self.rng.chance(70) {
                break;
            }
            if left == 1 || self.rng.chance(self.manner.groups) {
                self.define(b'G', group);
                left -= 1;
            } else {
                let function = self.rng.chance(self.manner.functions);
                self.define(if function { b'F' } else { b'V' }, group);
                left = left.saturating_sub(1 + self.manner.body);
            }
        }
    }

    fn choose_group(&mut self) -> usize {
        match self.groups.last() {
            Some(&last) if self.manner.deep && self.rng.chance(70) => last,
            _ => *self.rng.pick(&self.groups),
        }
    }

    fn define(&mut self, kind: u8, group: usize) {
        let name = self.new_name(group);
        let node = self.add(kind, group);
        self.nodes[node].name = name;
        self.members.resize_with(node + 1, Vec::new);
        self.members[group].push(node);
        match kind {
            b'G' => self.groups.push(node),
            b'V' => self.values.push(node),
            _ => self.functions.push(node),
        }
    }

    /// A name that no member of the Group has yet.
    fn new_name(&mut self, group: usize) -> Vec<u8> {
        for _ in 0..4 {
            let mut name = self.random_name(group);
            self.recase(&mut name);
            if self.find(group, &name).is_none() {
                return name;
            }
        }
        format!("n{}", self.nodes.len()).into_bytes()
    }

    fn random_name(&mut self, group: usize) -> Vec<u8> {
        const SHORT: [&str; 6] = ["a", "b", "c", "A", "B", "x1"];
        const WORDS: [&str; 8] = [
            "sphere", "prism", "Right", "right", "left", "frame", "axis", "total",
        ];
        const LONG: [&str; 4] = [
            "abcdefghijklmnop",
            "abcdefghijklmnoq",
            "Abcdefghijklmnop",
            "abcdefgh",
        ];
        let name = match self.manner.naming {
            0 => self.rng.pick(&SHORT).to_string(),
            1 => self.rng.pick(&WORDS).to_string(),
            2 => self.rng.pick(&LONG).to_string(),
            3 => format!("v{}", self.rng.below(40)),
            _ => return self.near_name(group),
        };
        name.into_bytes()
    }

    /// A name that differs in one byte from that of another definition, most often of
    /// the same Group; now and then a new one.
    fn near_name(&mut self, group: usize) -> Vec<u8> {
        let beside = &self.members[group];
        let others = match self.rng.chance(70) {
            true => beside.get(self.rng.below(beside.len().max(1))),
            false => self.values.get(self.rng.below(self.values.len().max(1))),
        };
        match others.filter(|_| self.rng.chance(85)) {
            Some(&other) => {
                let mut name = self.nodes[other].name.clone();
                make_near(self.rng, &mut name);
                name
            }
            None => long_name(self.rng),
        }
    }

    fn find(&self, group: usize, name: &[u8]) -> Option<usize> {
        let members = &self.members[group];
        members
            .iter()
            .copied()
            .find(|&m| is_same_name(&self.nodes[m].name, name))
    }

    /// The name in other letters, as often as the manner has it.
    fn recase(&mut self, name: &mut [u8]) {
        if self.rng.chance(self.manner.recasing) {
            recase(self.rng, name);
        }
    }

    /// Values get odd ranks, all different, functions even ones, few of them or
    /// any. In sequence of Groups the sheet has a whole order; shuffled, most
    /// often none.
    fn deal_ranks(&mut self) {
        self.ranks = vec![0; self.nodes.len()];
        self.ties = vec![None; self.nodes.len()];
        let mut values = Vec::new();
        self.values_by_group(OUTERMOST, &mut values);
        if self.manner.shuffled {
            self.rng.shuffle(&mut values);
        }
        self.tie_rings(&mut values);
        for (place, &value) in values.iter().enumerate() {
            self.ranks[value] = 2 * place + 1;
        }
        let count = self.manner.function_ranks;
        let any = |_| 2 * self.rng.below(values.len() + 1);
        let steps: Vec<Rank> = match self.manner.spread {
            true => (0..=values.len()).map(|step| 2 * step).collect(),
            false => (0..count).map(any).collect(),
        };
        for at in 0..self.functions.len() {
            self.ranks[self.functions[at]] = *self.rng.pick(&steps);
        }
    }

    fn values_by_group(&mut self, group: usize, values: &mut Vec<usize>) {
        let mut members = self.members[group].clone();
        self.rng.shuffle(&mut members);
        for member in members {
            match self.nodes[member].kind {
                b'G' => self.values_by_group(member, values),
                b'V' => values.push(member),
                _ => {}
            }
        }
    }

    /// Ties members into rings in some Groups, neighbours in the sequence given:
    /// often several rings in one Group.
    fn tie_rings(&mut self, values: &mut Vec<usize>) {
        for _ in 0..self.manner.tied_groups {
            let group = match self.rng.chance(40) {
                true => OUTERMOST,
                false => *self.rng.pick(&self.groups),
            };
            let parts = self.values_by_member(group, values);
            let mut rest = &parts[..];
            while let [first, others @ ..] = rest {
                rest = others;
                if first.len() > 1 && !others.is_empty() && self.rng.chance(60) {
                    let (ring, after) = others.split_at(self.rng.range(1, 3).min(others.len()));
                    self.tie_ring(first, ring, values);
                    rest = after;
                }
            }
        }
    }

    /// A value of each of the others is to read one of the member before it, and
    /// another one of the first, which goes behind them, one of the last. No value
    /// comes to reach itself by it.
    fn tie_ring(&mut self, first: &[usize], others: &[Vec<usize>], values: &mut Vec<usize>) {
        let mut before = first[0];
        for part in others {
            let reader = *self.rng.pick(part);
            self.ties[reader] = Some(before);
            before = reader;
        }
        let last = first[first.len() - 1];
        self.ties[last] = Some(before);
        values.retain(|&value| value != last);
        let behind = values.iter().position(|&value| value == before);
        values.insert(behind.map_or(0, |at| at + 1), last);
    }

    /// The values under each member of a Group that has any, all in the sequence
    /// given.
    fn values_by_member(&self, group: usize, values: &[usize]) -> Vec<Vec<usize>> {
        let mut members = Vec::new();
        let mut parts: Vec<Vec<usize>> = Vec::new();
        for &value in values {
            let mut member = value;
            while member != OUTERMOST && self.nodes[member].group != group {
                member = self.nodes[member].group;
            }
            match members.iter().position(|&other| other == member) {
                _ if member == OUTERMOST => {}
                Some(at) => parts[at].push(value),
                None => {
                    members.push(member);
                    parts.push(vec![value]);
                }
            }
        }
        parts
    }

    fn grow_bodies(&mut self, lines: usize) {
        let mut owners = [&self.values[..], &self.functions[..]].concat();
        self.rng.shuffle(&mut owners);
        self.waiting = owners.len();
        for owner in owners {
            let spare = lines.saturating_sub(self.nodes.len() + self.waiting);
            let twice_fair = 2 * spare / self.waiting;
            let budget = 1 + self.rng.below(twice_fair + 1).min(spare);
            self.waiting -= 1;
            let body = self.body(owner, budget);
            self.nodes[owner].operands.push(body);
        }
    }

    fn body(&mut self, owner: usize, budget: usize) -> usize {
        if self.nodes[owner].kind == b'F' && self.rng.chance(self.manner.recursion) {
            if let Some(body) = self.recursion(owner) {
                return body;
            }
        }
        if budget >= 20 && self.rng.chance(15) {
            return self.chain(owner, 1, budget);
        }
        self.expression(owner, 1, budget)
    }

    /// A function that calls itself or another one round: endlessly, counting
    /// down, or counting down twice over, which takes twelve lines.
    fn recursion(&mut self, owner: usize) -> Option<usize> {
        if self.nodes.len() + self.waiting + 12 > self.limit {
            return None;
        }
        let again = self.function_path(owner)?;
        match self.rng.below(10) {
            0 => {
                let argument = self.add(b'P', 0);
                Some(self.call(again, argument))
            }
            1..=5 => {
                let call = self.call_with_less(&again);
                Some(self.until_zero(owner, call))
            }
            _ => {
                let sum = self.add(b'A', 0);
                for _ in 0..2 {
                    let call = self.call_with_less(&again);
                    self.nodes[sum].operands.push(call);
                }
                Some(self.until_zero(owner, sum))
            }
        }
    }

    /// If the argument is not 0 then `rest`, else a leaf.
    fn until_zero(&mut self, owner: usize, rest: usize) -> usize {
        let test = self.add(b'P', 0);
        let last = self.leaf(owner);
        let choice = self.add(b'I', 0);
        self.nodes[choice].operands = vec![test, rest, last];
        choice
    }

    fn call(&mut self, path: Vec<u8>, argument: usize) -> usize {
        let call = self.add(b'C', 0);
        self.nodes[call].name = path;
        self.nodes[call].operands.push(argument);
        call
    }

    /// A call on the argument less 1.
    fn call_with_less(&mut self, path: &[u8]) -> usize {
        let argument = self.add(b'P', 0);
        let one = self.add(b'N', 0);
        self.nodes[one].number = 1;
        let less = self.add(b'S', 0);
        self.nodes[less].operands = vec![argument, one];
        self.call(path.to_vec(), less)
    }

    /// Operations nested as deep as allowed, or nearly.
    fn chain(&mut self, owner: usize, level: usize, budget: usize) -> usize {
        if budget < 3 || level == MAX_LEVEL {
            return self.leaf(owner);
        }
        let node = self.operation();
        let other = self.leaf(owner);
        let rest = self.chain(owner, level + 1, budget - 2);
        self.nodes[node].operands = vec![other, rest];
        if self.rng.chance(50) {
            self.nodes[node].operands.swap(0, 1);
        }
        node
    }

    fn operation(&mut self) -> usize {
        let kind = *self.rng.pick(b"AASSMD");
        self.add(kind, 0)
    }

    /// An expression of at most `budget` lines.
    fn expression(&mut self, owner: usize, level: usize, budget: usize) -> usize {
        if budget < 2 || level == MAX_LEVEL || self.rng.chance(8) {
            return self.leaf(owner);
        }
        if budget == 2 || self.rng.chance(self.manner.calling) {
            return match self.function_path(owner) {
                Some(path) => {
                    let argument = self.argument(owner, level + 1, budget - 1);
                    self.call(path, argument)
                }
                None => self.leaf(owner),
            };
        }
        if self.rng.chance(self.manner.halving) {
            return self.quotient(owner, level, budget);
        }
        let choice = budget >= 4 && self.rng.chance(25);
        let node = if choice {
            self.add(b'I', 0)
        } else {
            self.operation()
        };
        let mut left = budget - 1;
        for later in (0..if choice { 3 } else { 2 }).rev() {
            let share = if later == 0 {
                left
            } else {
                self.rng.range(1, left - later)
            };
            let operand = self.expression(owner, level + 1, share);
            self.nodes[node].operands.push(operand);
            left -= share;
        }
        node
    }

    /// A quotient by an even number, most often 2: of an expression, or of a number
    /// that makes it a half.
    fn quotient(&mut self, owner: usize, level: usize, budget: usize) -> usize {
        let [node, divisor] = [b'D', b'N'].map(|kind| self.add(kind, 0));
        let even = *self.rng.pick(&[2, 2, 2, -2, -2, 4, -6, 10, 100]);
        self.nodes[divisor].number = even;
        let dividend = match self.rng.below(3) {
            0 => {
                let odd = 2 * self.rng.below(40) as i64 - 39;
                let dividend = self.add(b'N', 0);
                self.nodes[dividend].number = odd * even / 2;
                dividend
            }
            1 => self.leaf(owner),
            _ => self.expression(owner, level + 1, budget - 2),
        };
        self.nodes[node].operands = vec![dividend, divisor];
        node
    }

    /// The argument of a call: often a number of rounds near the depth limit,
    /// but where functions only lead on to values.
    fn argument(&mut self, owner: usize, level: usize, budget: usize) -> usize {
        if self.manner.spread || self.rng.chance(40) {
            return self.expression(owner, level, budget);
        }
        let node = self.add(b'N', 0);
        let few = self.rng.range(0, 14);
        let many = self.rng.range(60, 66);
        self.nodes[node].number = *self.rng.pick(&[few, many]) as i64;
        node
    }

    fn leaf(&mut self, owner: usize) -> usize {
        let tied = self.ties[owner].take();
        let path = match tied.and_then(|target| self.path(owner, target)) {
            None if self.rng.chance(self.manner.reading) => self.value_path(owner),
            path => path,
        };
        if let Some(path) = path {
            let node = self.add(b'R', 0);
            self.nodes[node].name = path;
            return node;
        }
        if self.nodes[owner].kind == b'F' && self.rng.chance(60) {
            return self.add(b'P', 0);
        }
        let node = self.add(b'N', 0);
        self.nodes[node].number = self.number();
        node
    }

    fn number(&mut self) -> i64 {
        let small = self.rng.range(0, 12) as i64 - 4;
        match self.rng.below(20) {
            0..=11 => small,
            12..=13 => 0,
            14 => 1_000_000_000,
            15 => -1_000_000_000,
            16 => *self
                .rng
                .pick(&[999_999_999, -999_999_999, 31_623, 500_000_000]),
            _ => self.rng.below(2_000_000_001) as i64 - 1_000_000_000,
        }
    }

    fn value_path(&mut self, owner: usize) -> Option<Vec<u8>> {
        (0..4).find_map(|_| {
            let target = *self.values.get(self.rng.below(self.values.len().max(1)))?;
            self.path(owner, target)
        })
    }

    /// A function to call: in a spread sheet one of the next lower rank, so that
    /// chains of calls grow long.
    fn function_path(&mut self, owner: usize) -> Option<Vec<u8>> {
        let own = self.ranks[owner];
        (0..4).find_map(|_| {
            let count = self.functions.len().max(1);
            let tries = if self.manner.spread { 6 } else { 1 };
            let picks: Vec<usize> = (0..tries).map(|_| self.rng.below(count)).collect();
            let picked = picks.iter().filter_map(|&at| self.functions.get(at));
            let lower = |&&target: &&usize| (self.ranks[target] < own, self.ranks[target]);
            let target = *picked.max_by_key(lower)?;
            self.path(owner, target)
        })
    }

    /// A path from the owner to the target, if it may mention it and one of
    /// the Groups around both has it in sight.
    fn path(&mut self, owner: usize, target: usize) -> Option<Vec<u8>> {
        let both_functions = self.nodes[owner].kind == b'F' && self.nodes[target].kind == b'F';
        let [own, other] = [self.ranks[owner], self.ranks[target]];
        if !(self.manner.wild || other < own || both_functions && other == own) {
            return None;
        }
        let from = self.nodes[owner].group;
        let longest = self.rng.chance(25);
        let mut names = vec![target];
        let mut found = None;
        loop {
            let head = names[names.len() - 1];
            if self.settles(from, head) {
                found = Some(names.len());
                if !longest || self.rng.chance(50) {
                    break;
                }
            }
            let group = self.nodes[head].group;
            if group == OUTERMOST || names.len() == MAX_PATH {
                break;
            }
            names.push(group);
        }
        names.truncate(found?);
        Some(self.written(&names))
    }

    /// The path of these nodes, the target first, each name in letters of its
    /// own.
    fn written(&mut self, names: &[usize]) -> Vec<u8> {
        let parts = names.iter().rev().map(|&node| {
            let mut name = self.nodes[node].name.clone();
            self.recase(&mut name);
            name
        });
        parts.collect::<Vec<_>>().join(&b'.')
    }

    /// Whether a search from the Group `from` outward finds this very head.
    fn settles(&self, from: usize, head: usize) -> bool {
        let mut group = from;
        loop {
            if let Some(member) = self.find(group, &self.nodes[head].name) {
                return member == head;
            }
            if group == OUTERMOST {
                return false;
            }
            group = self.nodes[group].group;
        }
    }

    /// Deals out labels and writes the text.
    fn render(&mut self) -> Vec<u8> {
        let sequence = self.sequence();
        let mut labels = vec![0; self.nodes.len()];
        for (label, &node) in (1..).zip(&sequence) {
            labels[node] = label;
        }
        let mut text = [AWAY, b"\n"].concat();
        for &node in &sequence {
            self.render_line(&labels, node, &mut text);
        }
        text
    }

    /// The nodes, each after the one it hangs under.
    fn sequence(&mut self) -> Vec<usize> {
        let manner = self.rng.below(4);
        let mut ready = vec![OUTERMOST];
        let mut sequence = Vec::with_capacity(self.nodes.len());
        while !ready.is_empty() {
            let last = ready.len() - 1;
            let at = match manner {
                0 => last,
                1 if self.rng.chance(70) => last,
                2 => ready
                    .iter()
                    .position(|&n| is_definition(&self.nodes[n]))
                    .unwrap_or(last),
                _ => self.rng.below(ready.len()),
            };
            let node = ready.swap_remove(at);
            sequence.push(node);
            ready.extend_from_slice(&self.nodes[node].operands);
            ready.extend_from_slice(self.members.get(node).map_or(&[], |members| members));
        }
        sequence
    }

    fn render_line(&self, labels: &[usize], node: usize, text: &mut Vec<u8>) {
        let Node {
            kind,
            name,
            group,
            operands,
            number,
        } = &self.nodes[node];
        text.extend_from_slice(&[*kind, b' ']);
        text.extend_from_slice(if name.is_empty() { b"-" } else { name });
        let mut fields = 0;
        let mut field = |number: i64| {
            fields += 1;
            write!(text, " {number}").expect("writing to a Vec does not fail");
        };
        match kind {
            b'G' | b'V' | b'F' if node == OUTERMOST => field(0),
            b'G' | b'V' | b'F' => field(labels[*group] as i64),
            b'N' => field(*number),
            _ => {}
        }
        operands
            .iter()
            .for_each(|&operand| field(labels[operand] as i64));
        for _ in fields..3 {
            text.extend_from_slice(b" -");
        }
        text.push(b'\n');
    }
}

fn is_definition(node: &Node) -> bool {
    matches!(node.kind, b'G' | b'V' | b'F')
}
