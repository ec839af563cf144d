//! Refusals 5 to 12 at every place, as far as each can be judged.

use std::collections::HashSet;

use super::loose;
use super::ways;
use crate::diagnosis::rows::{Rows, Use, A, FIELDS};
use crate::diagnosis::{bytes, form, lines, named, rows, tree, Finding};
use crate::names::lowercase;
use crate::{Kind, Label, Refusal};

/// What is known of a sheet. A line that refusals 1 and 5 to 7 are about is
/// taken out of the rows, so that whatever rests on it is not judged.
pub struct Judge<'text> {
    pub rows: Rows<'text>,
    found: Vec<Refusal>,
    /// By label, from 0: nothing is found in the line itself.
    formed: Vec<bool>,
    /// By label, from 0: a definition whose Group is known to be one.
    placed: Vec<bool>,
    /// By label, from 0: the definition that an expression stands in, where it
    /// and all around it are used once.
    pub owners: Vec<Option<Label>>,
    levels: Vec<usize>,
    /// Lines of which it is not known what they define.
    loose: Vec<Label>,
    /// The first line of which it is not known what it uses.
    loose_user: Label,
    /// By label, from 0: a field names it that may not.
    named: Vec<bool>,
    /// The Groups and names, in small letters, that more than one member has.
    doubled: HashSet<(Label, String)>,
}

impl<'text> Judge<'text> {
    pub fn new(text: &'text [u8], rows: Rows<'text>) -> Self {
        let lists = rows.count() + 1;
        let lines = rows::lines_of(text).skip(1).map(bytes::is_clean);
        Judge {
            found: vec![],
            formed: std::iter::once(false).chain(lines).collect(),
            placed: vec![false; lists],
            owners: vec![None; lists],
            levels: vec![0; lists],
            loose: vec![],
            loose_user: lists,
            named: vec![false; lists],
            doubled: HashSet::new(),
            rows,
        }
    }

    /// All that is found. A line that is none counts: which labels those after
    /// it have is not known then, and nothing that goes by labels is judged.
    pub fn all(mut self) -> Vec<Refusal> {
        let is_line = |&label: &Label| !lines::is_no_line(&self.rows, label);
        let last = self.rows.labels().rev().find(is_line).unwrap_or(1);
        let is_counted = (1..=last).all(|label| is_line(&label));
        for label in self.rows.labels() {
            self.judge_line(label);
        }
        if is_counted {
            self.take_out();
            self.judge_links();
            self.judge_uses();
            self.judge_tree();
            self.judge_names();
            ways::judge(&mut self);
        }
        self.found
    }

    pub fn find(&mut self, number: u64, label: Label, finding: Finding) {
        self.found.push(finding.refusal(number, label as u64));
    }

    /// Refusals 5 to 7 of one line: the lowest number.
    fn judge_line(&mut self, label: Label) {
        if !self.formed[label] {
            return;
        }
        let (before, fields) = (self.found.len(), self.rows.fields(label));
        if fields.len() != FIELDS.len() || fields.contains(&"") {
            self.find(5, label, lines::fields(&self.rows, label));
        } else if self.rows.kind(label).is_none() {
            self.find(6, label, lines::kind(&self.rows, label));
        } else {
            for at in form::separate_misfits(&self.rows, label) {
                self.find(7, label, form::form(&self.rows, label, at));
            }
        }
        self.formed[label] = self.found.len() == before;
    }

    /// The lines that something is found in; what they may be is noted first.
    /// Those that are none stand at the end, and are nothing.
    fn take_out(&mut self) {
        for label in self.rows.labels().filter(|&label| !self.formed[label]) {
            let is_line = !lines::is_no_line(&self.rows, label);
            if is_line && loose::may_use(&self.rows, label) {
                self.loose_user = self.loose_user.min(label);
            }
            self.loose.extend(is_line.then_some(label));
            self.rows.unform(label);
        }
    }

    /// Refusal 8, field by field.
    fn judge_links(&mut self) {
        let is_formed = |&label: &Label| self.formed[label];
        let formed: Vec<Label> = self.rows.labels().filter(is_formed).collect();
        for label in formed {
            let wrong = tree::wrong_links(&self.rows, label);
            for &field in &wrong {
                self.find(8, label, tree::link(&self.rows, label, field));
                self.rows.unlink(label, field);
            }
            self.place(label, &wrong);
        }
    }

    /// Notes whether a line's Group and what it uses are known.
    fn place(&mut self, label: Label, wrong: &[usize]) {
        for &field in wrong {
            if self.rows.part_fields(label).contains(&field) {
                self.loose_user = self.loose_user.min(label);
                self.named[self.rows.link(label, field)] = true;
            }
        }
        if self.rows.is_definition(label) {
            let group = self.rows.link(label, A);
            self.placed[label] = label == 1 || !wrong.contains(&A) && self.formed[group];
            self.loose.extend((!self.placed[label]).then_some(label));
        }
    }

    /// Refusal 9. That nobody uses an expression is known where it is known
    /// what all lines before it use.
    fn judge_uses(&mut self) {
        for label in self.rows.labels() {
            let uses = self.rows.uses(label);
            let is_wrong = match uses.len() {
                0 => label < self.loose_user && !self.named[label],
                count => count > 1,
            };
            if self.rows.is_expression(label) && is_wrong {
                self.find(9, label, tree::uses(&self.rows, label));
            } else if let [Use { user, .. }] = *uses {
                let is_body = self.rows.is_definition(user);
                self.owners[label] = if is_body {
                    Some(user)
                } else {
                    self.owners[user]
                };
                self.levels[label] = self.levels[user] + 1;
            }
        }
    }

    /// Refusals 10 and 11. What stands in an expression that is too deep is too
    /// deep because of that.
    fn judge_tree(&mut self) {
        let is_value = |owner: Option<Label>| {
            owner.is_some_and(|owner| self.rows.kind(owner) == Some(Kind::Value))
        };
        let is_argument = |&label: &Label| self.rows.kind(label) == Some(Kind::Argument);
        let arguments = self.rows.labels().filter(is_argument);
        let wrong: Vec<Label> = arguments.filter(|&at| is_value(self.owners[at])).collect();
        for label in wrong {
            self.find(10, label, tree::argument(&self.rows, label));
        }
        for label in self.rows.labels() {
            if self.owners[label].is_some() && self.levels[label] == tree::LEVELS + 1 {
                self.find(11, label, tree::level(&self.rows, label));
            }
        }
    }

    /// Refusal 12.
    fn judge_names(&mut self) {
        let mut names = HashSet::new();
        let is_named = |&label: &Label| label > 1 && self.placed[label];
        let definitions: Vec<Label> = self.rows.labels().filter(is_named).collect();
        for label in definitions {
            let named = (self.rows.link(label, A), lowercase(self.rows.name(label)));
            if !names.insert(named.clone()) {
                self.doubled.insert(named);
                self.find(12, label, named::name(&self.rows, label));
            }
        }
    }

    /// Whether what stands around a definition is known.
    pub fn is_placed(&self, definition: Label) -> bool {
        self.placed[definition]
    }

    /// Whether a line that is not known may define a name.
    pub fn may_define(&self, name: &str) -> bool {
        let mut lines = self.loose.iter();
        lines.any(|&label| loose::may_define(&self.rows, label, name))
    }

    /// Whether two members of a Group have a name.
    pub fn is_doubled(&self, group: Label, name: &str) -> bool {
        self.doubled.contains(&(group, lowercase(name)))
    }
}
