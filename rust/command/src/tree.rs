//! The definitions of a sheet as a tree of Groups, in the order of the plan.

use lindypo::{Kind, Label, Line, Outcome, Run, Sheet};

/// A definition with what stands under it.
#[derive(Debug, Clone)]
pub struct Node<'text> {
    pub line: Line<'text>,
    /// Where its values stand in the plan: a value itself, a Group's at any
    /// depth. None where there are none.
    pub span: Option<Span>,
    /// What a value comes to.
    pub outcome: Option<Outcome>,
    /// A Group's members. Those with values stand as their first value does in
    /// the plan; functions and Groups without values after them, by label.
    pub members: Vec<Node<'text>>,
}

/// Positions in the plan, from 1.
#[derive(Debug, Clone, Copy, PartialEq, Eq)]
pub struct Span {
    pub first: usize,
    pub last: usize,
    /// How many of the positions from first to last.
    pub count: usize,
}

impl Span {
    fn join(self, other: Span) -> Span {
        Span {
            first: self.first.min(other.first),
            last: self.last.max(other.last),
            count: self.count + other.count,
        }
    }
}

impl<'text> Node<'text> {
    /// The outermost Group of a sheet.
    pub fn outermost(sheet: &Sheet<'text>, run: &Run) -> Self {
        Grower::new(sheet, run).node(sheet.line(1).expect("label 1"))
    }

    /// Its name; label 1 has none.
    pub fn title(&self) -> &'text str {
        self.line.name.unwrap_or("outermost Group")
    }

    /// Where the values of these definitions stand, as far as they are under it.
    pub fn span_of(&self, labels: &[Label]) -> Option<Span> {
        if labels.contains(&self.line.label) {
            return self.span;
        }
        let members = self.members.iter();
        let spans = members.filter_map(|member| member.span_of(labels));
        spans.reduce(Span::join)
    }

    /// Whether values of others stand between its own in the plan.
    pub fn is_mixed(&self) -> bool {
        let has_gaps = |span: Span| span.count <= span.last - span.first;
        self.span.is_some_and(has_gaps)
    }
}

/// What the nodes are made from, by label.
struct Grower<'text, 'run> {
    members: Vec<Vec<Line<'text>>>,
    positions: Vec<Option<usize>>,
    run: &'run Run,
}

impl<'text, 'run> Grower<'text, 'run> {
    fn new(sheet: &Sheet<'text>, run: &'run Run) -> Self {
        let mut members = vec![vec![]; sheet.labels() + 1];
        for line in sheet.lines().filter(|line| line.kind.is_definition()) {
            members[line.owner.unwrap_or(0)].push(line);
        }
        let mut positions = vec![None; sheet.labels() + 1];
        for (position, &label) in (1..).zip(&run.plan.labels) {
            positions[label] = Some(position);
        }
        Grower {
            members,
            positions,
            run,
        }
    }

    fn node(&self, line: Line<'text>) -> Node<'text> {
        let members = match line.kind {
            Kind::Group => self.group(line.label),
            _ => vec![],
        };
        let own = self.positions[line.label].map(|position| Span {
            first: position,
            last: position,
            count: 1,
        });
        let spans = members.iter().filter_map(|member| member.span);
        Node {
            line,
            span: spans.chain(own).reduce(Span::join),
            outcome: self.run.results.of(line.label),
            members,
        }
    }

    fn group(&self, label: Label) -> Vec<Node<'text>> {
        let mut members: Vec<Node> = self.members[label]
            .iter()
            .map(|&line| self.node(line))
            .collect();
        let place = |node: &Node| node.span.map_or(usize::MAX, |span| span.first);
        members.sort_by_key(|node| (place(node), node.line.label));
        members
    }
}
