//! Trees of random sheets.

use command::{blocks, Node};
use lindypo::{Kind, Label, Order, Run, Sheet};

use crate::explained;

const CASES: u64 = 3_000;

/// The most blocks that are explained.
const SHOWN: usize = 8;

/// A sheet with its plan by position.
struct Planned<'a> {
    sheet: &'a Sheet<'a>,
    run: &'a Run,
}

impl Planned<'_> {
    /// The positions of the values under a definition, in order; its own where
    /// it is one.
    fn positions(&self, label: Label) -> Vec<usize> {
        let is_under = |value: &Label| {
            let around = |&at: &Label| self.sheet.line(at).and_then(|line| line.owner);
            std::iter::successors(Some(*value), around).any(|at| at == label)
        };
        let plan = (1..).zip(&self.run.plan.labels);
        plan.filter(|(_, value)| is_under(value))
            .map(|(position, _)| position)
            .collect()
    }

    /// Whether nodes say what the plan does; answers how many there are, and
    /// how many are mixed.
    fn check(&self, node: &Node) -> (usize, usize) {
        let positions = self.positions(node.line.label);
        let span = node.span.map(|span| (span.first, span.last, span.count));
        let ends = positions.first().zip(positions.last());
        assert_eq!(
            span,
            ends.map(|(&first, &last)| (first, last, positions.len()))
        );
        let is_mixed = positions.windows(2).any(|pair| pair[1] != pair[0] + 1);
        assert_eq!(node.is_mixed(), is_mixed);
        assert_eq!(node.outcome.is_some(), node.line.kind == Kind::Value);
        let places: Vec<(usize, Label)> = node.members.iter().map(place).collect();
        assert!(places.is_sorted(), "{places:?}");
        let (mut count, mut mixed) = (1, usize::from(is_mixed));
        for member in &node.members {
            assert_eq!(member.line.owner, Some(node.line.label));
            let (more, more_mixed) = self.check(member);
            (count, mixed) = (count + more, mixed + more_mixed);
        }
        (count, mixed)
    }
}

/// What members are sorted by: those without values come last.
fn place(node: &Node) -> (usize, Label) {
    let first = node.span.map_or(usize::MAX, |span| span.first);
    (first, node.line.label)
}

/// A plan is whole where no Group is mixed, and only there.
#[test]
fn random_trees() {
    let mut orders = [0; 2];
    for seed in 0..CASES {
        let text = generator::sheet(&mut generator::Rng::new(seed));
        let sheet = Sheet::read(&text).expect("a sheet that reads");
        let Ok(run) = sheet.run() else { continue };
        let planned = Planned {
            sheet: &sheet,
            run: &run,
        };
        let (count, mixed) = planned.check(&Node::outermost(&sheet, &run));
        let definitions = sheet.lines().filter(|line| line.kind.is_definition());
        assert_eq!(count, definitions.count(), "seed {seed}");
        assert_eq!(run.plan.order == Order::Mixed, mixed > 0, "seed {seed}");
        orders[usize::from(mixed > 0)] += 1;
        let explained = explained(&text).expect("a tree");
        let parts: Vec<&str> = explained.split("\n\n").collect();
        assert_eq!(parts[1].lines().count(), count + 1, "seed {seed}");
        let tangles = blocks::tangles(&sheet).len().min(SHOWN);
        let tangled = parts.iter().filter(|part| part.starts_with("tangled"));
        assert_eq!(tangled.count(), tangles, "seed {seed}");
    }
    assert!(orders.iter().all(|&count| count > 100), "{orders:?}");
}

/// The worst shapes, among them 1,023 Groups one in another.
#[test]
fn deep_trees() {
    for shape in generator::shapes() {
        if let Ok(tree) = explained(&shape.text) {
            assert!(tree.lines().count() > 3, "{}", shape.name);
        }
    }
}

/// Texts that are refused, whatever is wrong with them.
#[test]
fn random_refusals() {
    let mut refused = 0;
    for seed in 0..CASES {
        let text = generator::damaged(&mut generator::Rng::new(seed));
        if let Err(words) = explained(&text) {
            assert!(
                words.starts_with("refusal ") && words.ends_with('\n'),
                "{words}"
            );
            let is_seen = |letter: char| letter == '\n' || !letter.is_control();
            assert!(words.chars().all(is_seen), "seed {seed}: {words:?}");
            refused += 1;
        }
    }
    assert!(refused > CASES / 2);
}
