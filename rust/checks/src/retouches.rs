//! What lists of pairs bring about: what order 4 is about.

use crate::{Call, Wanted};

/// The codes of a value and of a function in the table.
const VALUE: i64 = 2;
const FUNCTION: i64 = 3;

/// The most pairs of a list.
const MOST_PAIRS: usize = 1_024;

/// What is so of a list of pairs: `short_changes` where they are too short for it,
/// all else of a list that is answered.
#[derive(Debug, Default, Clone, Copy, PartialEq, Eq)]
pub struct Retouches {
    pub short_changes: bool,
    /// A pair has a function for the owner of its number.
    pub owner_is_function: bool,
    /// A pair redoes no value, the owner and no other, several.
    pub redoes_none: bool,
    pub redoes_owner_alone: bool,
    pub redoes_several: bool,
    /// A pair has the number that is there.
    pub leaves_number: bool,
    pub label_twice: bool,
    pub most_pairs: bool,
    /// After a pair, more values fail than before it, or fewer.
    pub more_fail: bool,
    pub fewer_fail: bool,
}

impl Retouches {
    pub const COUNT: usize = 10;

    /// What `counts` are of, in words.
    pub const WORDS: [&'static str; Retouches::COUNT] = [
        "changes too short",
        "owned by a function",
        "redoing nothing",
        "redoing the owner alone",
        "redoing several",
        "leaving the number",
        "with a label twice",
        "of 1,024 pairs",
        "failing more",
        "failing less",
    ];

    /// Those of a list, of which the calls have to give this.
    pub fn of(pairs: &[i64], calls: &[Wanted; Call::COUNT]) -> Self {
        let [_, _, run, _, retouch] = calls;
        let reply = retouch.reply;
        match reply.refusal {
            0 => Retouches::of_answer(pairs, run, retouch),
            _ => Retouches {
                short_changes: (reply.refusal, reply.place) == (4, 4),
                ..Retouches::default()
            },
        }
    }

    fn of_answer(pairs: &[i64], run: &Wanted, retouch: &Wanted) -> Self {
        let [table, _, results, _] = &run.buffers;
        let changes = &retouch.buffers[3];
        let mut retouches = Retouches {
            most_pairs: pairs.len() == 2 * MOST_PAIRS,
            ..Retouches::default()
        };
        let mut numbers: Vec<i64> = table.iter().skip(3).step_by(8).copied().collect();
        let mut is_met = vec![false; numbers.len()];
        let mut failing_before = count_failing(results);
        for (pair, cells) in pairs.chunks_exact(2).zip(changes.chunks_exact(3)) {
            let (at, number) = (pair[0] as usize - 1, pair[1]);
            let (redone, failing) = (cells[0], cells[1]);
            let owner = table[8 * at + 6] as usize - 1;
            let owner_kind = table[8 * owner];
            retouches.owner_is_function |= owner_kind == FUNCTION;
            retouches.redoes_none |= redone == 0;
            retouches.redoes_owner_alone |= redone == 1 && owner_kind == VALUE;
            retouches.redoes_several |= redone > 1;
            retouches.leaves_number |= number == numbers[at];
            retouches.label_twice |= is_met[at];
            retouches.more_fail |= failing > failing_before;
            retouches.fewer_fail |= failing < failing_before;
            (numbers[at], is_met[at], failing_before) = (number, true, failing);
        }
        retouches
    }

    /// 1 for each thing that is so.
    pub fn counts(&self) -> [u64; Retouches::COUNT] {
        [
            self.short_changes,
            self.owner_is_function,
            self.redoes_none,
            self.redoes_owner_alone,
            self.redoes_several,
            self.leaves_number,
            self.label_twice,
            self.most_pairs,
            self.more_fail,
            self.fewer_fail,
        ]
        .map(u64::from)
    }
}

/// How many values fail by these results.
fn count_failing(results: &[i64]) -> i64 {
    let states = results.iter().step_by(3);
    states.filter(|&&state| state > 1).count() as i64
}
