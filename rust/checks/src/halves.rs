//! The two first lines and the tie rules that they name: what order 5 brings.

use generator::{first_line, is_one_byte_off, FIRST_LINES};

use crate::{Call, Wanted};

/// The row for line one.
const LINE_ONE: u64 = 2;

/// What is so of a trial under each of the two first lines, `kind` and then `kind2`.
#[derive(Debug, Default, Clone, Copy, PartialEq, Eq)]
pub struct Halves {
    /// The sheet reads.
    pub reads: [bool; 2],
    /// Run or Follow gives a value something else than under the other line: a
    /// quotient was a half, and the rules part on it.
    pub run: [bool; 2],
    pub follow: [bool; 2],
    /// Retouch does, and its Run did not.
    pub retouch: [bool; 2],
    /// Refused with 2: line one is this line but for one byte, and not the other
    /// but for one.
    pub near: [bool; 2],
    /// Or it is so of both.
    pub near_both: bool,
}

impl Halves {
    /// What `counts` are of, for each line, in words.
    pub const WORDS: [&'static str; 5] = [
        "sheets",
        "rounded otherwise in Run",
        "in Follow",
        "in Retouch alone",
        "near misses of line one",
    ];

    /// Those of a text, of which the calls have to give this, and this under the
    /// other line, if it has one.
    pub fn of(text: &[u8], calls: &[Wanted; Call::COUNT], other: Option<&[Wanted]>) -> Self {
        let [read, _, run, follow, retouch] = calls;
        let is_under = FIRST_LINES.map(|line| first_line(text) == line);
        let under = |so: bool| is_under.map(|is_under| is_under && so);
        let mut halves = Halves {
            reads: under(read.reply.refusal == 0),
            ..Halves::default()
        };
        if let Some([other_run, other_follow, other_retouch]) = other {
            let is_run = parts(run, other_run);
            halves.run = under(is_run);
            halves.follow = under(parts(follow, other_follow));
            halves.retouch = under(!is_run && parts(retouch, other_retouch));
        }
        if read.reply.refusal == LINE_ONE {
            halves.miss(first_line(text));
        }
        halves
    }

    fn miss(&mut self, line: &[u8]) {
        match FIRST_LINES.map(|known| is_one_byte_off(line, known)) {
            [true, true] => self.near_both = true,
            near => self.near = near,
        }
    }

    /// For each line, 1 for each thing that is so.
    pub fn counts(&self) -> [[u64; Halves::WORDS.len()]; 2] {
        let all = [self.reads, self.run, self.follow, self.retouch, self.near];
        [0, 1].map(|line| all.map(|so| u64::from(so[line])))
    }
}

/// Whether two answers of a call have other results.
fn parts(ours: &Wanted, others: &Wanted) -> bool {
    let are_answers = [ours, others]
        .iter()
        .all(|wanted| wanted.reply.refusal == 0);
    are_answers && ours.buffers[2] != others.buffers[2]
}
