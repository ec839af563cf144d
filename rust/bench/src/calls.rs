//! The calls, each from the library and from what it is measured by.

use lindypo::raw;

use crate::{earlier, floor};

#[derive(Debug, Clone, Copy, PartialEq, Eq)]
pub enum Call {
    Read,
    Name,
    Plan,
    Run,
    Follow,
    Retouch,
}

/// Whose calls.
#[derive(Debug, Clone, Copy, PartialEq, Eq)]
pub enum Side {
    Library,
    Reference,
    /// An earlier library, where one is linked.
    Earlier,
    /// The same for every call.
    Floor,
}

/// All that a call is lent; it takes what is its own.
pub struct Lent<'a> {
    pub text: &'a [u8],
    pub order: &'a [i64],
    pub pairs: &'a [i64],
    pub label: i64,
    pub table: &'a mut [i64],
    pub plan: &'a mut [i64],
    pub results: &'a mut [i64],
    pub changes: &'a mut [i64],
}

/// A call of one of the two: its count, or 0 where it refuses; the length of a
/// name.
pub type Function = fn(Lent) -> usize;

impl Side {
    pub const COUNT: usize = 4;

    /// The two that are always there.
    pub const BOTH: [Side; 2] = [Side::Library, Side::Reference];

    /// Those whose calls do all of the work.
    pub const WORKING: [Side; 3] = [Side::Library, Side::Reference, Side::Earlier];

    /// These and the floor.
    pub const ALL: [Side; Side::COUNT] =
        [Side::Library, Side::Reference, Side::Earlier, Side::Floor];

    pub fn name(self) -> &'static str {
        match self {
            Side::Library => "library",
            Side::Reference => "reference",
            Side::Earlier => "earlier",
            Side::Floor => "floor",
        }
    }
}

impl Call {
    pub const ALL: [Call; 6] = [
        Call::Read,
        Call::Name,
        Call::Plan,
        Call::Run,
        Call::Follow,
        Call::Retouch,
    ];

    /// Those that are measured on sheets as they are, with no list of pairs.
    pub const UNTOUCHED: [Call; 5] = [Call::Read, Call::Name, Call::Plan, Call::Run, Call::Follow];

    /// Of these, those that plan or go by a plan, and those that evaluate.
    pub const PLANNED: [Call; 3] = [Call::Plan, Call::Run, Call::Follow];
    pub const EVALUATED: [Call; 2] = [Call::Run, Call::Follow];

    /// Those that show what line one costs: the shortest call and a whole one.
    pub const READ_AND_RUN: [Call; 2] = [Call::Read, Call::Run];

    pub fn name(self) -> String {
        format!("{self:?}")
    }

    /// The call of this name, in capitals or not.
    pub fn named(word: &str) -> Option<Call> {
        let is_meant = |call: &Call| call.name().eq_ignore_ascii_case(word);
        Call::ALL.into_iter().find(is_meant)
    }

    /// The call of that side; none of an earlier library that is not there.
    pub fn function(self, side: Side) -> Option<Function> {
        match side {
            Side::Library => Some(self.library()),
            Side::Reference => Some(self.reference()),
            Side::Earlier => earlier::function(self),
            Side::Floor => Some(|lent| floor::floor(lent.text, lent.table)),
        }
    }

    fn library(self) -> Function {
        match self {
            Call::Read => |lent| raw::read(lent.text, lent.table).unwrap_or(0),
            Call::Name => |lent| raw::name(lent.text, lent.table, lent.label).len(),
            Call::Plan => |lent| {
                let answer = raw::plan(lent.text, lent.table, lent.plan);
                answer.map_or(0, |(length, _)| length)
            },
            Call::Run => |lent| {
                let answer = raw::run(lent.text, lent.table, lent.plan, lent.results);
                answer.map_or(0, |(length, _)| length)
            },
            Call::Follow => {
                |lent| raw::follow(lent.text, lent.order, lent.table, lent.results).unwrap_or(0)
            }
            Call::Retouch => |lent| {
                let (text, pairs) = (lent.text, lent.pairs);
                let (table, plan, results) = (lent.table, lent.plan, lent.results);
                let answer = raw::retouch(text, pairs, table, plan, results, lent.changes);
                answer.map_or(0, |(length, _)| length)
            },
        }
    }

    fn reference(self) -> Function {
        match self {
            Call::Read => |lent| reference::read(lent.text, lent.table).unwrap_or(0),
            Call::Name => |lent| reference::name(lent.text, lent.table, lent.label).len(),
            Call::Plan => |lent| {
                let answer = reference::plan(lent.text, lent.table, lent.plan);
                answer.map_or(0, |(length, _)| length)
            },
            Call::Run => |lent| {
                let answer = reference::run(lent.text, lent.table, lent.plan, lent.results);
                answer.map_or(0, |(length, _)| length)
            },
            Call::Follow => |lent| {
                reference::follow(lent.text, lent.order, lent.table, lent.results).unwrap_or(0)
            },
            Call::Retouch => |lent| {
                let (text, pairs) = (lent.text, lent.pairs);
                let (table, plan, results) = (lent.table, lent.plan, lent.results);
                let answer = reference::retouch(text, pairs, table, plan, results, lent.changes);
                answer.map_or(0, |(length, _)| length)
            },
        }
    }
}
