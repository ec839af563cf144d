//! The reference against the papers' definitions, taken word for word with no
//! care for speed: reaching and needs as tables closed over every label between,
//! blocks and plans by looking at every pair, evaluation as a function of what is
//! left.

use generator::{any_sheet, line_count, rows, sheet, Rng, EVEN};
use reference::{Order, Refusal};

/// A name as it is compared: "without regard to the case of ASCII letters".
fn compared(name: &[u8]) -> Vec<u8> {
    let small = |&byte: &u8| match byte {
        65..=90 => byte + 32,
        _ => byte,
    };
    name.iter().map(small).collect()
}

/// A sheet that reads: its text and its table. Labels count from 1.
struct Facts {
    text: Vec<u8>,
    table: Vec<i64>,
    count: usize,
    reaches: Vec<Vec<bool>>,
}

impl Facts {
    fn new(text: Vec<u8>) -> Option<Self> {
        let count = line_count(&text);
        let mut table = vec![0; 8 * count];
        reference::read(&text, &mut table).ok()?;
        let mut facts = Facts {
            text,
            table,
            count,
            reaches: vec![vec![false; count + 1]; count + 1],
        };
        facts.fill_reaches();
        Some(facts)
    }

    fn cell(&self, label: usize, cell: usize) -> usize {
        self.table[8 * (label - 1) + cell] as usize
    }

    fn kind(&self, label: usize) -> usize {
        self.cell(label, 0)
    }

    fn is_definition(&self, label: usize) -> bool {
        self.kind(label) <= 3
    }

    fn name(&self, label: usize) -> &[u8] {
        &self.text[self.cell(label, 1)..][..self.cell(label, 2)]
    }

    fn values(&self) -> Vec<usize> {
        (1..=self.count)
            .filter(|&label| self.kind(label) == 2)
            .collect()
    }

    fn members(&self, group: usize) -> Vec<usize> {
        let is_member = |&label: &usize| self.is_definition(label) && self.cell(label, 3) == group;
        (2..=self.count).filter(is_member).collect()
    }

    fn fill_reaches(&mut self) {
        for label in 1..=self.count {
            if let target @ 1.. = self.cell(label, 7) {
                let owner = self.cell(label, 6);
                self.reaches[owner][target] = true;
            }
        }
        close(&mut self.reaches);
    }

    /// Whether a definition is this member or under it.
    fn is_under(&self, definition: usize, member: usize) -> bool {
        definition == member || definition != 0 && self.is_under(self.cell(definition, 6), member)
    }

    fn needs(&self, p: usize, q: usize) -> bool {
        let values = self.values();
        let under = |member| values.iter().filter(move |&&v| self.is_under(v, member));
        p != q && under(p).any(|&v| under(q).any(|&w| self.reaches[v][w]))
    }

    /// "Members that need each other round a circle now form one block": blocks
    /// by their smallest labels.
    fn blocks(&self, group: usize) -> Vec<Vec<usize>> {
        let mut needs = vec![vec![false; self.count + 1]; self.count + 1];
        let members = self.members(group);
        for &p in &members {
            for &q in &members {
                needs[p][q] = self.needs(p, q);
            }
        }
        close(&mut needs);
        let is_one = |p: usize, q: usize| p == q || needs[p][q] && needs[q][p];
        let block = |&p: &usize| members.iter().copied().filter(|&q| is_one(p, q)).collect();
        let mut blocks: Vec<Vec<usize>> = members.iter().map(block).collect();
        blocks.sort();
        blocks.dedup();
        blocks
    }

    /// "Blocks are placed by the smallest label they hold, as soon as every block
    /// they need is placed."
    fn list(&self, group: usize) -> Vec<usize> {
        let mut left = self.blocks(group);
        let mut listed = Vec::new();
        while !left.is_empty() {
            let needs = |block: &[usize], other: &[usize]| {
                block != other
                    && block
                        .iter()
                        .any(|&p| other.iter().any(|&q| self.needs(p, q)))
            };
            let is_ready = |block: &Vec<usize>| !left.iter().any(|other| needs(block, other));
            let next = left.iter().position(is_ready).expect("a block to place");
            match left.remove(next)[..] {
                [member] if self.kind(member) == 1 => listed.extend(self.list(member)),
                [member] if self.kind(member) == 2 => listed.push(member),
                [_] => {}
                ref block => listed.extend(self.list_opened(block)),
            }
        }
        listed
    }

    /// "All values under its members, smallest label first, once those it reaches
    /// in the block are listed."
    fn list_opened(&self, block: &[usize]) -> Vec<usize> {
        let mut left = self.values();
        left.retain(|&v| block.iter().any(|&member| self.is_under(v, member)));
        let mut listed = Vec::new();
        while !left.is_empty() {
            let ready = |&v: &usize| !left.iter().any(|&w| self.reaches[v][w]);
            let next = left.iter().copied().find(ready).expect("no cycle");
            left.retain(|&v| v != next);
            listed.push(next);
        }
        listed
    }

    fn groups(&self) -> impl Iterator<Item = usize> + '_ {
        (1..=self.count).filter(|&label| self.kind(label) == 1)
    }

    /// The members of blocks of several, of every Group.
    fn tangled(&self) -> Vec<usize> {
        let blocks = self.groups().flat_map(|group| self.blocks(group));
        blocks.filter(|block| block.len() > 1).flatten().collect()
    }

    fn is_proper(&self, order: &[usize]) -> bool {
        let late = |at: usize| order[at..].iter().any(|&w| self.reaches[order[at]][w]);
        !(0..order.len()).any(late)
    }

    /// Whether the values of a Group stand side by side.
    fn is_together(&self, order: &[usize], group: usize) -> bool {
        let inside = |&v: &usize| self.is_under(v, group);
        match (
            order.iter().position(inside),
            order.iter().rposition(inside),
        ) {
            (Some(first), Some(last)) => order[first..=last].iter().all(inside),
            _ => true,
        }
    }

    fn is_whole(&self, order: &[usize]) -> bool {
        self.groups().all(|group| self.is_together(order, group))
    }

    /// The target of an R or C by the search of the paper.
    fn target(&self, label: usize) -> usize {
        let member = |group: usize, name: &[u8]| {
            let mut members = self.members(group).into_iter();
            members.find(|&m| compared(self.name(m)) == compared(name))
        };
        let mut names = self.name(label).split(|&byte| byte == b'.');
        let head = names.next().expect("a head");
        let mut group = self.cell(self.cell(label, 6), 6);
        let mut found = loop {
            match member(group, head) {
                Some(found) => break found,
                None => group = self.cell(group, 6),
            }
        };
        for name in names {
            found = member(found, name).expect("a later name");
        }
        found
    }

    /// The reply of an expression inside a call (argument, depth).
    fn reply(&self, label: usize, call: (i64, u32), left: u32, results: &[i64]) -> Reply {
        if left == 0 {
            return (Err(4), 0);
        }
        let left = left - 1;
        let operand = |cell, left| self.reply(self.cell(label, cell), call, left, results);
        let target = self.cell(label, 7);
        match self.kind(label) {
            4 => (Ok(self.table[8 * (label - 1) + 3]), left),
            5 => (Ok(call.0), left),
            6 => match results[3 * (target - 1)] {
                1 => (Ok(results[3 * (target - 1) + 1]), left),
                state => (Err(state), left),
            },
            7 => then(operand(3, left), |argument, left| match call.1 {
                64 => (Err(5), left),
                depth => {
                    let body = self.cell(target, 4);
                    self.reply(body, (argument, depth + 1), left, results)
                }
            }),
            12 => then(operand(3, left), |test, left| {
                operand(if test == 0 { 5 } else { 4 }, left)
            }),
            kind => then(operand(3, left), |a, left| {
                let even = self.text.starts_with(EVEN);
                then(operand(4, left), |b, left| {
                    (operate(kind, even, a, b), left)
                })
            }),
        }
    }
}

/// A relation closed: what leads to something leads to all that it leads to.
fn close(rows: &mut [Vec<bool>]) {
    for middle in 0..rows.len() {
        let onward = rows[middle].clone();
        for row in rows.iter_mut().filter(|row| row[middle]) {
            row.iter_mut()
                .zip(&onward)
                .for_each(|(cell, more)| *cell |= more);
        }
    }
}

/// A number or the state of a failure, and the steps left.
type Reply = (Result<i64, i64>, u32);

/// "The first failure ends the value."
fn then((answer, left): Reply, next: impl FnOnce(i64, u32) -> Reply) -> Reply {
    match answer {
        Ok(number) => next(number, left),
        Err(state) => (Err(state), left),
    }
}

/// An operation, halves to even or away from zero.
fn operate(kind: usize, even: bool, a: i64, b: i64) -> Result<i64, i64> {
    let result = match kind {
        8 => a + b,
        9 => a - b,
        10 => a * b,
        _ if b == 0 => return Err(3),
        _ => a.signum() * b.signum() * nearest(even, a.abs(), b.abs()),
    };
    let limit = 1_000_000_000;
    Some(result)
        .filter(|result| (-limit..=limit).contains(result))
        .ok_or(2)
}

/// The nearest whole number to a / b, neither below 0: a / b + 1/2 rounded down; of
/// a half the one before that where it is odd and "the even neighbour" is wanted.
fn nearest(even: bool, a: i64, b: i64) -> i64 {
    let up = (2 * a + b) / (2 * b);
    let is_half = (2 * a + b) % (2 * b) == 0;
    if even && is_half && up % 2 == 1 {
        up - 1
    } else {
        up
    }
}

/// Run's plan, order and results, or the place of its refusal 16.
fn run(facts: &Facts) -> Result<(Vec<usize>, Order, Vec<i64>), u64> {
    let (mut table, mut plan) = (vec![0; 8 * facts.count], vec![0; facts.count]);
    let mut results = vec![0; 3 * facts.count];
    let answer = reference::run(&facts.text, &mut table, &mut plan, &mut results);
    let (length, order) = answer.map_err(|refusal| {
        assert_eq!(refusal.number, 16);
        refusal.place
    })?;
    assert_eq!(table, facts.table);
    let plan = plan[..length].iter().map(|&label| label as usize).collect();
    Ok((plan, order, results))
}

#[test]
fn reference_keeps_to_the_definitions() {
    let mut checked = [0; 3];
    for seed in 0..12_000 {
        let rng = &mut Rng::new(1_000_000 + seed);
        let text = if seed % 3 == 0 {
            any_sheet(rng)
        } else {
            sheet(rng)
        };
        if line_count(&text) > 90 {
            continue;
        }
        let Some(facts) = Facts::new(text) else {
            continue;
        };
        for label in (1..=facts.count).filter(|&label| facts.cell(label, 7) != 0) {
            assert_eq!(facts.target(label), facts.cell(label, 7), "seed {seed}");
        }
        let cycle = facts.values().into_iter().find(|&v| facts.reaches[v][v]);
        match (run(&facts), cycle) {
            (Err(place), Some(value)) => {
                assert_eq!(place, value as u64, "seed {seed}");
                checked[0] += 1;
            }
            (Ok((plan, order, results)), None) => {
                check_plan(&facts, &plan, order);
                check_results(&facts, &plan, &results);
                checked[1 + order as usize] += 1;
            }
            (run, cycle) => panic!("seed {seed}: {run:?}, {cycle:?}"),
        }
    }
    println!("cycles, whole, mixed: {checked:?}");
    assert!(checked.iter().all(|&count| count > 100));
}

fn check_plan(facts: &Facts, plan: &[usize], order: Order) {
    let tangled = facts.tangled();
    assert_eq!(order == Order::Whole, tangled.is_empty());
    assert_eq!(plan, facts.list(1));
    assert!(facts.is_proper(plan));
    // "The values of a Group are side by side if neither it nor a Group around it
    // is in a block of several."
    let is_opened = |group| tangled.iter().any(|&member| facts.is_under(group, member));
    let mut clear = facts.groups().filter(|&group| !is_opened(group));
    assert!(clear.all(|group| facts.is_together(plan, group)));
    if plan.len() <= 6 && order == Order::Mixed {
        let mut values = facts.values();
        assert!(!some_order(&mut values, 0, &|order| {
            facts.is_proper(order) && facts.is_whole(order)
        }));
    }
}

/// Whether some sequence of the values, the first `fixed` kept, is wanted.
fn some_order(values: &mut [usize], fixed: usize, wanted: &dyn Fn(&[usize]) -> bool) -> bool {
    if fixed == values.len() {
        return wanted(values);
    }
    (fixed..values.len()).any(|other| {
        values.swap(fixed, other);
        let found = some_order(values, fixed + 1, wanted);
        values.swap(fixed, other);
        found
    })
}

fn check_results(facts: &Facts, plan: &[usize], results: &[i64]) {
    let mut wanted = vec![0; 3 * facts.count];
    for &value in plan {
        let (answer, left) = facts.reply(facts.cell(value, 4), (0, 0), 20_000, &wanted);
        let (state, number) = answer.map_or_else(|state| (state, 0), |number| (1, number));
        let steps = i64::from(20_000 - left);
        wanted[3 * (value - 1)..][..3].copy_from_slice(&[state, number, steps]);
    }
    assert_eq!(results, wanted);
}

/// Row 12, "a smaller label in its Group has that name", by a look at every pair
/// of lines; and whether the two names are written in the same letters.
fn first_clash(rows: &[rows::Row]) -> Option<(Refusal, bool)> {
    let is_definition = |row: &rows::Row| matches!(row[0][..], [b'G' | b'V' | b'F']);
    let clash = |later: usize| {
        let [_, name, group, ..] = &rows[later];
        let is_same = |row: &&rows::Row| {
            is_definition(row) && row[2] == *group && compared(&row[1]) == compared(name)
        };
        let smaller = rows[..later].iter().find(is_same)?;
        let place = later as u64 + 1;
        Some((Refusal { number: 12, place }, smaller[1] == *name))
    };
    let mut definitions = (1..rows.len()).filter(|&at| is_definition(&rows[at]));
    definitions.find_map(clash)
}

#[test]
fn row_12_is_the_first_name_met_again() {
    let (mut same_letters, mut other_letters, mut none) = (0, 0, 0);
    for seed in 0..20_000 {
        let text = any_sheet(&mut Rng::new(2_000_000 + seed));
        let refusal = reference::read(&text, &mut vec![0; 8 * line_count(&text)]).err();
        if refusal.is_some_and(|refusal| refusal.number < 12) {
            continue;
        }
        let rows = rows::split(&text).expect("lines of five fields");
        let wanted = first_clash(&rows);
        let given = refusal.filter(|refusal| refusal.number == 12);
        assert_eq!(given, wanted.map(|(refusal, _)| refusal), "seed {seed}");
        match wanted {
            Some((_, true)) => same_letters += 1,
            Some((_, false)) => other_letters += 1,
            None => none += 1,
        }
    }
    println!("same letters {same_letters}, other letters {other_letters}, none {none}");
    assert!(same_letters > 50 && other_letters > 50 && none > 5_000);
}
