//! What is drawn of a sheet: all of it, or what has to do with one definition;
//! Groups open or folded.

use std::collections::BTreeSet;

use lindypo::{Kind, Label};

use crate::tree::Node;

/// A definition that is drawn, with those under it that are.
pub struct View<'a> {
    pub node: &'a Node<'a>,
    pub members: Vec<View<'a>>,
    /// A folded Group is one card.
    pub is_folded: bool,
}

/// How many values and functions there are.
#[derive(Clone, Copy, Default, PartialEq, Eq)]
pub struct Counts {
    pub values: usize,
    pub functions: usize,
}

impl Counts {
    fn of(kind: Kind) -> Self {
        Counts {
            values: usize::from(kind == Kind::Value),
            functions: usize::from(kind == Kind::Function),
        }
    }

    fn and(self, other: Counts) -> Self {
        Counts {
            values: self.values + other.values,
            functions: self.functions + other.functions,
        }
    }

    pub fn all(self) -> usize {
        self.values + self.functions
    }
}

impl<'a> View<'a> {
    /// The definitions that `keep` has, and the Groups around them.
    pub fn new(outermost: &'a Node, keep: &dyn Fn(Label) -> bool) -> Self {
        let members = outermost.members.iter();
        let kept = members.map(|member| View::new(member, keep));
        let is_kept = |view: &View| !view.members.is_empty() || keep(view.label());
        View {
            node: outermost,
            members: kept.filter(is_kept).collect(),
            is_folded: false,
        }
    }

    pub fn label(&self) -> Label {
        self.node.line.label
    }

    pub fn is_group(&self) -> bool {
        self.node.line.kind == Kind::Group
    }

    /// Whether it is drawn as one card.
    pub fn is_card(&self) -> bool {
        self.is_folded || !self.is_group()
    }

    pub fn fold(&mut self, groups: &BTreeSet<Label>) {
        self.is_folded = groups.contains(&self.label());
        for member in &mut self.members {
            member.fold(groups);
        }
    }

    /// Those that are drawn, at any depth.
    pub fn counts(&self) -> Counts {
        let own = Counts::of(self.node.line.kind);
        let members = self.members.iter().map(View::counts);
        members.fold(own, Counts::and)
    }

    /// Those that there are.
    pub fn counts_of_all(&self) -> Counts {
        counts(self.node)
    }

    /// All definitions that are drawn, itself first.
    pub fn labels(&self) -> Vec<Label> {
        let mut labels = vec![self.label()];
        for member in &self.members {
            labels.extend(member.labels());
        }
        labels
    }
}

fn counts(node: &Node) -> Counts {
    let own = Counts::of(node.line.kind);
    node.members.iter().map(counts).fold(own, Counts::and)
}
