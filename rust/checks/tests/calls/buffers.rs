//! Every length of every buffer.

use checks::{Call, Trial};
use generator::line_count;

use crate::example;

/// Pairs for Retouch: two of the example's N lines, and one once more.
const PAIRS: [i64; 6] = [14, 0, 12, 5, 14, -325];

/// The places of the buffers that a call is lent for writing: 1 the table, 2
/// the plan, 3 the results, 4 the changes.
fn places(call: Call) -> &'static [usize] {
    match call {
        Call::Read => &[1],
        Call::Plan => &[1, 2],
        Call::Run => &[1, 2, 3],
        Call::Follow => &[1, 3],
        Call::Retouch => &[1, 2, 3, 4],
    }
}

/// Cells that a sheet of so many lines and three pairs need in each buffer.
fn needed(lines: usize) -> [usize; 4] {
    [8 * lines, lines, 3 * lines, 9]
}

/// The example with buffers of these lengths: each call refuses for the lowest
/// of its places that is too short, and answers where none is.
fn check(text: &[u8], lengths: [usize; 4]) {
    let [table, plan, results, changes] = lengths;
    let outcome = Trial {
        pairs: &PAIRS,
        table,
        plan,
        results,
        changes,
        ..Trial::new(text, &[5, 4, 2])
    }
    .expect();
    let needed = needed(line_count(text));
    let is_short = |&&place: &&usize| lengths[place - 1] < needed[place - 1];
    for (call, reply) in Call::ALL.into_iter().zip(outcome.replies()) {
        let place = places(call).iter().find(is_short).copied();
        let wanted = place.map_or((0, 0), |place| (4, place as u64));
        let given = (reply.refusal, reply.place);
        assert_eq!(given, wanted, "{call:?} with {lengths:?} cells");
    }
}

#[test]
fn every_length_of_one_buffer() {
    let text = example();
    let needed = needed(line_count(&text));
    for buffer in 0..4 {
        for length in 0..=needed[buffer] + 2 {
            let mut lengths = needed;
            lengths[buffer] = length;
            check(&text, lengths);
        }
    }
}

#[test]
fn every_choice_of_short_buffers() {
    let text = example();
    let choices = needed(line_count(&text)).map(|cells| [0, 1, cells - 1, cells, cells + 1]);
    let [tables, plans, results, changes] = choices;
    for table in tables {
        for plan in plans {
            for results in results {
                for changes in changes {
                    check(&text, [table, plan, results, changes]);
                }
            }
        }
    }
}
