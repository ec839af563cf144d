//! The calls that reply, each from the library and from the reference.

use lindypo::raw::Reply;
use reference::{Order, Refusal};

/// The orders of a reply in the C interface.
pub const WHOLE: u64 = 1;
pub const MIXED: u64 = 2;

#[derive(Debug, Clone, Copy, PartialEq, Eq)]
pub enum Call {
    Read,
    Plan,
    Run,
    Follow,
    Retouch,
}

/// All that any call is lent. One that is not lent a buffer must leave it.
pub struct Lent<'a> {
    pub text: &'a [u8],
    pub order: &'a [i64],
    pub pairs: &'a [i64],
    pub table: &'a mut [i64],
    pub plan: &'a mut [i64],
    pub results: &'a mut [i64],
    pub changes: &'a mut [i64],
}

impl Call {
    pub const COUNT: usize = 5;

    pub const ALL: [Call; Call::COUNT] = [
        Call::Read,
        Call::Plan,
        Call::Run,
        Call::Follow,
        Call::Retouch,
    ];

    /// The last row of the table of refusals.
    pub const LAST_ROW: usize = 21;

    /// Whether the call may refuse with this row.
    pub fn has_row(self, row: usize) -> bool {
        match self {
            Call::Read => row <= 15,
            Call::Plan | Call::Run => row <= 16,
            Call::Follow => row <= 18,
            Call::Retouch => row <= 16 || row >= 19,
        }
    }

    /// Whether none of these counts is 0: of the answers, then of the refusals by
    /// each row that the call has.
    pub fn has_met(self, counts: &[u64]) -> bool {
        let mut rows = counts.iter().enumerate();
        rows.all(|(row, &count)| count > 0 || !self.has_row(row))
    }

    pub fn library(self, lent: Lent) -> Reply {
        let Lent {
            text,
            order,
            pairs,
            table,
            plan,
            results,
            changes,
        } = lent;
        match self {
            Call::Read => lindypo::raw::read_reply(text, table),
            Call::Plan => lindypo::raw::plan_reply(text, table, plan),
            Call::Run => lindypo::raw::run_reply(text, table, plan, results),
            Call::Follow => lindypo::raw::follow_reply(text, order, table, results),
            Call::Retouch => {
                lindypo::raw::retouch_reply(text, pairs, table, plan, results, changes)
            }
        }
    }

    pub fn reference(self, lent: Lent) -> Reply {
        let Lent {
            text,
            order,
            pairs,
            table,
            plan,
            results,
            changes,
        } = lent;
        match self {
            Call::Read => counted(reference::read(text, table)),
            Call::Plan => planned(reference::plan(text, table, plan)),
            Call::Run => planned(reference::run(text, table, plan, results)),
            Call::Follow => counted(reference::follow(text, order, table, results)),
            Call::Retouch => planned(reference::retouch(
                text, pairs, table, plan, results, changes,
            )),
        }
    }
}

/// The reference's answer in the form of the C interface.
fn counted(answer: Result<usize, Refusal>) -> Reply {
    match answer {
        Ok(count) => answered(count, 0),
        Err(refusal) => refused(refusal),
    }
}

fn planned(answer: Result<(usize, Order), Refusal>) -> Reply {
    match answer {
        Ok((length, Order::Whole)) => answered(length, WHOLE),
        Ok((length, Order::Mixed)) => answered(length, MIXED),
        Err(refusal) => refused(refusal),
    }
}

fn answered(count: usize, order: u64) -> Reply {
    Reply {
        refusal: 0,
        place: 0,
        count: count as u64,
        order,
    }
}

fn refused(Refusal { number, place }: Refusal) -> Reply {
    Reply {
        refusal: number,
        place,
        count: 0,
        order: 0,
    }
}
