//! Definitions as a flat list, so that no nest of Groups is too deep.

use std::mem;

use super::{check, lines, Expression, Mistake, MOST_LINES};
use crate::{Kind, Label, Line, Sheet, Ties};

/// The members of a Group, in sequence; the outermost Group is a sheet.
#[derive(Debug, Clone, Default, PartialEq, Eq, Hash)]
pub struct Group {
    /// As the outermost Group: of the sheet.
    ties: Ties,
    /// Each Group followed by all under it. Of more than a sheet can have none
    /// is kept.
    definitions: Vec<Definition>,
    /// How many lines they take with their bodies.
    lines: usize,
}

#[derive(Debug, Clone, PartialEq, Eq, Hash)]
pub(crate) struct Definition {
    /// How many Groups it stands in, the one that holds the list aside.
    pub depth: usize,
    pub name: String,
    pub content: Content,
}

#[derive(Debug, Clone, PartialEq, Eq, Hash)]
pub(crate) enum Content {
    Group,
    Value(Expression),
    Function(Expression),
}

impl Content {
    pub fn kind(&self) -> Kind {
        match self {
            Content::Group => Kind::Group,
            Content::Value(_) => Kind::Value,
            Content::Function(_) => Kind::Function,
        }
    }

    pub fn body(&self) -> Option<&Expression> {
        match self {
            Content::Group => None,
            Content::Value(body) | Content::Function(body) => Some(body),
        }
    }
}

impl Group {
    /// A Group without members.
    pub fn new() -> Self {
        Group::default()
    }

    /// The tie rule of the sheet whose outermost Group this is: `text` writes the
    /// line that names it. A sheet has one rule, so that of a Group in another does
    /// not count. Where nothing is said, halves go away from zero.
    ///
    /// ```
    /// use lindypo::build::{number, Group};
    /// use lindypo::{Sheet, State, Ties};
    ///
    /// let mut outermost = Group::new();
    /// outermost.ties(Ties::Even).value("prism", number(-3250) / 100);
    /// let text = outermost.text()?;
    /// assert!(text.starts_with(b"kind2 name a b c\nG - 0 - -\n"));
    /// let run = Sheet::read(&text)?.run()?;
    /// assert_eq!(run.results.of(2).unwrap().state, State::Number(-32));
    /// # Ok::<(), Box<dyn std::error::Error>>(())
    /// ```
    pub fn ties(&mut self, ties: Ties) -> &mut Self {
        self.ties = ties;
        self
    }

    /// Adds a value after the members that are there.
    pub fn value(&mut self, name: impl Into<String>, body: impl Into<Expression>) -> &mut Self {
        self.add(0, name.into(), Content::Value(body.into()))
    }

    /// Adds a function of one argument after the members that are there.
    pub fn function(&mut self, name: impl Into<String>, body: impl Into<Expression>) -> &mut Self {
        self.add(0, name.into(), Content::Function(body.into()))
    }

    /// Adds a Group after the members that are there. Its tie rule does not count.
    pub fn group(&mut self, name: impl Into<String>, members: Group) -> &mut Self {
        self.add(0, name.into(), Content::Group);
        let deeper = members.definitions.into_iter().map(|mut definition| {
            definition.depth += 1;
            definition
        });
        self.extend(members.lines, deeper)
    }

    /// The text of the sheet whose outermost Group this is, else the first
    /// mistake that is found in it.
    ///
    /// Labels are numbered so: label 1, then all definitions in the sequence in
    /// which they were added, each Group followed by its members, then the
    /// bodies in that sequence, each expression followed by its operands.
    ///
    /// ```
    /// use lindypo::build::{argument, number, Group};
    ///
    /// let mut outermost = Group::new();
    /// outermost.function("half", argument() / 2);
    /// assert_eq!(
    ///     outermost.text().unwrap(),
    ///     b"kind name a b c\nG - 0 - -\nF half 1 3 -\nD - 4 5 -\nP - - - -\nN - 2 - -\n"
    /// );
    /// let mistake = outermost.value("two", argument()).text().unwrap_err();
    /// assert_eq!(
    ///     mistake.to_string(),
    ///     "the value `two`: the argument stands in it; only a function has one"
    /// );
    /// ```
    pub fn text(&self) -> Result<Vec<u8>, Mistake> {
        check::lines(self.lines)?;
        check::definitions(&self.definitions)?;
        let text = lines::text(self.ties, &self.definitions);
        check::bytes(&text)?;
        Ok(text)
    }

    /// What a sheet holds, and its tie rule. The members of each Group keep their
    /// sequence; how those of different Groups stand among each other is not kept.
    pub fn of_sheet(sheet: &Sheet) -> Self {
        // the members of each Group, the first one last
        let mut members: Vec<Vec<Line>> = vec![vec![]; sheet.labels() + 1];
        let lines: Vec<Line> = sheet.lines().collect();
        for line in lines.iter().rev().filter(|line| line.kind.is_definition()) {
            members[line.owner.unwrap_or(0)].push(*line);
        }
        let mut group = Group::new();
        group.ties(sheet.ties());
        // the Groups entered, by what is still to come of them
        let mut entered = vec![mem::take(&mut members[1])];
        while let Some(left) = entered.last_mut() {
            let Some(line) = left.pop() else {
                entered.pop();
                continue;
            };
            let name = line.name.unwrap_or_default().to_string();
            group.add(entered.len() - 1, name, content(sheet, &line));
            entered.push(mem::take(&mut members[line.label]));
        }
        group
    }

    pub(crate) fn tie_rule(&self) -> Ties {
        self.ties
    }

    pub(crate) fn definitions(&self) -> &[Definition] {
        &self.definitions
    }

    pub(crate) fn add(&mut self, depth: usize, name: String, content: Content) -> &mut Self {
        let lines = 1 + content.body().map_or(0, Expression::lines);
        let definition = Definition {
            depth,
            name,
            content,
        };
        self.extend(lines, [definition])
    }

    fn extend(&mut self, lines: usize, more: impl IntoIterator<Item = Definition>) -> &mut Self {
        self.lines = self.lines.saturating_add(lines);
        self.definitions.extend(more);
        if self.lines > MOST_LINES {
            self.definitions.clear();
        }
        self
    }
}

fn content(sheet: &Sheet, line: &Line) -> Content {
    match (line.kind, Expression::of_sheet(sheet, line.b as Label)) {
        (Kind::Value, Some(body)) => Content::Value(body),
        (Kind::Function, Some(body)) => Content::Function(body),
        _ => Content::Group,
    }
}
