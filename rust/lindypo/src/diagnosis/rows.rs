//! The lines of a text as their fields, before there is a table.

use super::words;
use crate::{same_name, Kind, Label, Mark};

/// The fields of a line.
pub const KIND: usize = 0;
pub const NAME: usize = 1;
pub const A: usize = 2;
pub const B: usize = 3;
pub const FIELDS: [&str; 5] = ["kind", "name", "a", "b", "c"];

/// The lines of any text, line one first, without their line ends. A carriage
/// return before a line end is left out too, and the last line may have none.
pub fn lines_of(text: &[u8]) -> impl Iterator<Item = &[u8]> {
    let text = text.strip_suffix(b"\n").unwrap_or(text);
    let lines = text.split(|&byte| byte == b'\n');
    lines.map(|line| line.strip_suffix(b"\r").unwrap_or(line))
}

/// A field that names an expression as a body or operand.
#[derive(Clone, Copy)]
pub struct Use {
    pub user: Label,
    pub field: usize,
}

/// A line cut into fields, up to a byte that is not text.
struct Row<'text> {
    fields: Vec<&'text str>,
    kind: Option<Kind>,
}

impl<'text> Row<'text> {
    fn new(line: &'text [u8]) -> Self {
        let text = line.utf8_chunks().next().map_or("", |chunk| chunk.valid());
        let fields: Vec<&str> = text.split(' ').collect();
        let kind = Kind::of_field(fields[0]);
        Row { fields, kind }
    }
}

/// A text's lines after line one, each cut into fields; label k is the k-th.
pub struct Rows<'text> {
    lines: Vec<Row<'text>>,
    /// By label, from 0: who uses it, upward through the labels.
    uses: Vec<Vec<Use>>,
    /// By label, from 0: the definitions whose field a names it, upward.
    members: Vec<Vec<Label>>,
    is_whole: bool,
}

impl<'text> Rows<'text> {
    pub fn new(text: &'text [u8]) -> Self {
        let lines: Vec<Row> = lines_of(text).skip(1).map(Row::new).collect();
        let lists = lines.len() + 1;
        let mut rows = Rows {
            lines,
            uses: vec![vec![]; lists],
            members: vec![vec![]; lists],
            is_whole: true,
        };
        for label in rows.labels() {
            rows.note(label);
        }
        rows
    }

    /// Notes whom a line uses, and whose member it is.
    fn note(&mut self, user: Label) {
        for field in self.part_fields(user) {
            let part = self.link(user, field);
            if let Some(uses) = self.uses.get_mut(part) {
                uses.push(Use { user, field });
            }
        }
        let group = self.link(user, A);
        if user > 1 && self.is_definition(user) && group < self.members.len() {
            self.members[group].push(user);
        }
    }

    /// Takes out a line of which nothing is known: it has no kind, uses nobody
    /// and is no member.
    pub fn unform(&mut self, label: Label) {
        for field in self.part_fields(label).chain([A]) {
            self.unlink(label, field);
        }
        self.lines[label - 1].kind = None;
        self.is_whole = false;
    }

    /// Takes out a field that leads to nothing it may.
    pub fn unlink(&mut self, label: Label, field: usize) {
        let to = self.link(label, field);
        if let (Some(uses), Some(members)) = (self.uses.get_mut(to), self.members.get_mut(to)) {
            uses.retain(|at| (at.user, at.field) != (label, field));
            members.retain(|&member| member != label || field != A);
        }
        self.is_whole = false;
    }

    /// Whether nothing was taken out.
    pub fn is_whole(&self) -> bool {
        self.is_whole
    }

    pub fn count(&self) -> usize {
        self.lines.len()
    }

    pub fn labels(&self) -> std::ops::RangeInclusive<Label> {
        1..=self.count()
    }

    fn row(&self, label: Label) -> Option<&Row<'text>> {
        self.lines.get(label.checked_sub(1)?)
    }

    pub fn fields(&self, label: Label) -> &[&'text str] {
        self.row(label).map_or(&[], |row| &row.fields)
    }

    pub fn field(&self, label: Label, field: usize) -> &'text str {
        self.fields(label).get(field).copied().unwrap_or("")
    }

    /// A definition's name, or a path.
    pub fn name(&self, label: Label) -> &'text str {
        self.field(label, NAME)
    }

    pub fn kind(&self, label: Label) -> Option<Kind> {
        self.row(label)?.kind
    }

    pub fn is_definition(&self, label: Label) -> bool {
        self.kind(label).is_some_and(Kind::is_definition)
    }

    pub fn is_expression(&self, label: Label) -> bool {
        self.kind(label).is_some_and(|kind| !kind.is_definition())
    }

    /// A field read as a label, 0 where it is none.
    pub fn link(&self, label: Label, field: usize) -> Label {
        self.field(label, field).parse().unwrap_or(0)
    }

    /// The fields of a line that name a body or an operand.
    pub fn part_fields(&self, label: Label) -> std::ops::Range<usize> {
        match self.kind(label) {
            Some(Kind::Value | Kind::Function) => B..B + 1,
            Some(Kind::Call) => A..A + 1,
            Some(Kind::Sum | Kind::Difference | Kind::Product | Kind::Quotient) => A..A + 2,
            Some(Kind::Choice) => A..A + 3,
            _ => A..A,
        }
    }

    /// The fields that name an expression as body or operand, upward through
    /// their labels.
    pub fn uses(&self, part: Label) -> &[Use] {
        self.uses.get(part).map_or(&[], Vec::as_slice)
    }

    /// From an expression outward: the lines that it stands in, its owner last.
    pub fn outward(&self, label: Label) -> impl Iterator<Item = Label> + '_ {
        let user = |&part: &Label| {
            let users = self.uses(part).iter().map(|at| at.user);
            let mut above = users.filter(|&user| user < part);
            above.next().filter(|_| self.is_expression(part))
        };
        std::iter::successors(user(&label), user)
    }

    /// The definition whose body an expression is or stands in.
    pub fn owner(&self, label: Label) -> Label {
        self.outward(label).last().unwrap_or(0)
    }

    /// The members of a Group, upward through the labels.
    pub fn members(&self, group: Label) -> &[Label] {
        self.members.get(group).map_or(&[], Vec::as_slice)
    }

    /// The smallest member of a Group with this name.
    pub fn member(&self, group: Label, name: &str) -> Option<Label> {
        let is_meant = |&&label: &&Label| same_name(self.name(label), name);
        self.members(group).iter().find(is_meant).copied()
    }

    /// The Group around a definition; none around the outermost.
    pub fn around(&self, label: Label) -> Option<Label> {
        Some(self.link(label, A)).filter(|&group| group > 0 && group < label)
    }

    /// A definition's name with those of the Groups around it, outermost first.
    pub fn full_name(&self, label: Label) -> String {
        let around = |&label: &Label| self.around(label);
        let path = std::iter::successors(Some(label), around).take_while(|&label| label > 1);
        let mut names: Vec<&str> = path.map(|label| self.name(label)).collect();
        names.reverse();
        names.join(".")
    }

    /// The full name as a sentence has it.
    pub fn shown_name(&self, label: Label) -> String {
        words::shortened(&self.full_name(label))
    }

    /// A definition with its name: "the value `right.prism`".
    pub fn title(&self, label: Label) -> String {
        match self.kind(label) {
            _ if label == 1 => "the outermost Group".to_string(),
            Some(kind) => format!("the {kind} `{}`", self.shown_name(label)),
            None => format!("label {label}"),
        }
    }

    /// A field, or what stands where it should be.
    pub fn mark(&self, label: Label, field: usize) -> Mark {
        let before = self.fields(label).iter().take(field);
        Mark {
            line: label + 1,
            column: 1 + before.map(|field| field.len() + 1).sum::<usize>(),
            width: self.field(label, field).len().max(1),
        }
    }

    /// The fields from this one on; where there are none, the place after the
    /// last.
    pub fn mark_from(&self, label: Label, field: usize) -> Mark {
        let end: usize = self.fields(label).iter().map(|field| field.len() + 1).sum();
        let column = self.mark(label, field).column.min(end);
        Mark {
            line: label + 1,
            column,
            width: (end - column).max(1),
        }
    }

    pub fn mark_line(&self, label: Label) -> Mark {
        self.mark_from(label, 0)
    }
}
