//! The random sheets have what planning can go wrong on: Groups that are tangled
//! and Groups beside them that are not, Groups needed before an earlier label,
//! values that reach others through chains of functions, and functions in cycles.

use std::collections::VecDeque;

use generator::{case, line_count, tangled_blocks, Tangles};
use reference::Order;

const CASES: u64 = 10_000;

const GROUP: usize = 1;
const VALUE: usize = 2;
const FUNCTION: usize = 3;

/// A sheet that has a plan; labels count from 1.
struct Planned {
    table: Vec<i64>,
    plan: Vec<usize>,
    order: Order,
    /// What each definition mentions, by label.
    mentions: Vec<Vec<usize>>,
}

impl Planned {
    fn new(text: &[u8]) -> Option<Self> {
        let lines = line_count(text);
        let (mut table, mut plan) = (vec![0; 8 * lines], vec![0; lines]);
        let (length, order) = reference::plan(text, &mut table, &mut plan).ok()?;
        let mut mentions = vec![Vec::new(); lines + 1];
        for line in table.chunks_exact(8).filter(|line| line[7] != 0) {
            mentions[line[6] as usize].push(line[7] as usize);
        }
        Some(Planned {
            table,
            plan: plan[..length].iter().map(|&label| label as usize).collect(),
            order,
            mentions,
        })
    }

    fn kind(&self, label: usize) -> usize {
        self.table[8 * (label - 1)] as usize
    }

    /// The Group of a definition; 0 for the outermost one.
    fn group(&self, label: usize) -> usize {
        self.table[8 * (label - 1) + 6] as usize
    }

    fn of_kind(&self, kind: usize) -> impl Iterator<Item = usize> + '_ {
        (1..self.mentions.len()).filter(move |&label| self.kind(label) == kind)
    }

    /// Whether a plan that opened every Group would be another.
    fn is_other_than_opened(&self) -> bool {
        let mut left = self.plan.clone();
        left.sort_unstable();
        let reached: Vec<Vec<bool>> = (0..self.mentions.len()).map(|v| self.reached(v)).collect();
        self.plan.iter().any(|&value| {
            let is_ready = |&&v: &&usize| !left.iter().any(|&w| reached[v][w]);
            let next = *left.iter().find(is_ready).expect("no cycle");
            left.retain(|&v| v != next);
            next != value
        })
    }

    /// What a definition reaches.
    fn reached(&self, definition: usize) -> Vec<bool> {
        let mut reached = vec![false; self.mentions.len()];
        let mut open = vec![definition];
        while let Some(next) = open.pop() {
            for &target in &self.mentions[next] {
                if !std::mem::replace(&mut reached[target], true) {
                    open.push(target);
                }
            }
        }
        reached
    }

    /// Whether some Group lists two of its Groups the later label first.
    fn has_later_group_first(&self) -> bool {
        let mut first = vec![None; self.mentions.len()];
        for (at, &value) in self.plan.iter().enumerate() {
            let mut group = self.group(value);
            while group != 0 && first[group].is_none() {
                first[group] = Some(at);
                group = self.group(group);
            }
        }
        // The latest that a Group of each Group starts, of those met so far.
        let mut latest = vec![None; self.mentions.len()];
        self.of_kind(GROUP).any(|label| {
            let around = &mut latest[self.group(label)];
            let earlier = first[label].is_some() && first[label] < *around;
            *around = first[label].max(*around);
            earlier
        })
    }

    /// How many functions lie at least between a definition and each other one
    /// that it reaches with nothing but functions between.
    fn between(&self, from: usize) -> Vec<Option<usize>> {
        let mut between = vec![None; self.mentions.len()];
        let mut open = VecDeque::from([(from, 0)]);
        while let Some((definition, functions)) = open.pop_front() {
            for &target in &self.mentions[definition] {
                if between[target].is_none() {
                    between[target] = Some(functions);
                    if self.kind(target) == FUNCTION {
                        open.push_back((target, functions + 1));
                    }
                }
            }
        }
        between
    }

    /// The most functions that lie between a value and another one.
    fn farthest(&self, value: usize) -> usize {
        let between = self.between(value);
        let functions = self.of_kind(VALUE).filter_map(|other| between[other]);
        functions.max().unwrap_or(0)
    }
}

#[derive(Debug, Default)]
struct Counts {
    mixed: usize,
    /// Mixed plans that differ from one with every Group opened.
    not_all_opened: usize,
    /// What `Tangles` tells of mixed plans.
    tangles: [u64; Tangles::COUNT],
    /// Blocks of two members, of three, of more.
    sizes: [usize; 3],
    /// Whole plans that list Groups the later label first.
    later_first: usize,
    /// Values that read another through one function at least, two, three.
    through: [usize; 3],
    /// Sheets with a function that calls itself; with several in a circle.
    own_cycles: usize,
    shared_cycles: usize,
}

impl Counts {
    fn add(&mut self, planned: &Planned) {
        let whole = planned.order == Order::Whole;
        if !whole {
            self.add_mixed(planned);
        }
        self.later_first += usize::from(whole && planned.has_later_group_first());
        for &value in &planned.plan {
            for count in self.through.iter_mut().take(planned.farthest(value)) {
                *count += 1;
            }
        }
        let back = |function| planned.between(function)[function];
        let cycles: Vec<usize> = planned.of_kind(FUNCTION).filter_map(back).collect();
        self.own_cycles += usize::from(cycles.contains(&0));
        self.shared_cycles += usize::from(cycles.iter().any(|&others| others > 0));
    }

    fn add_mixed(&mut self, planned: &Planned) {
        self.mixed += 1;
        self.not_all_opened += usize::from(planned.is_other_than_opened());
        let tangles = Tangles::of(&planned.table).counts();
        for (count, more) in self.tangles.iter_mut().zip(tangles) {
            *count += more;
        }
        for block in tangled_blocks(&planned.table) {
            self.sizes[block.len().min(4) - 2] += 1;
        }
    }
}

/// Shapes with Groups beside a tangle tell a plan that opens these too.
#[test]
fn shapes_that_are_not_all_opened() {
    let texts = [
        generator::ring_among(300),
        generator::rings(127),
        generator::nested_tangle(300),
        generator::every_second_in_ring(340),
        generator::rings_in_every_second(170),
    ];
    for text in texts {
        let planned = Planned::new(&text).expect("a sheet that plans");
        assert!(planned.is_other_than_opened());
    }
}

#[test]
fn what_planning_can_go_wrong_on() {
    let mut counts = Counts::default();
    for seed in 0..CASES {
        if let Some(planned) = Planned::new(&case(seed).text) {
            counts.add(&planned);
        }
    }
    println!("{counts:?}");
    assert!(counts.mixed > 600 && counts.later_first > 400);
    assert!(counts.not_all_opened > 200);
    assert!(counts.tangles.iter().all(|&count| count > 50));
    assert!(counts.sizes.iter().all(|&count| count > 100));
    let [one, two, three] = counts.through;
    assert!(one > 2_000 && two > 500 && three > 100);
    assert!(counts.own_cycles > 1_500 && counts.shared_cycles > 200);
}
