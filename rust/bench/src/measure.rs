//! Times of the library and of what it is measured by.

use std::hint::black_box;
use std::time::Instant;

use crate::calls::{Call, Function, Lent, Side};
use crate::workloads::{Sheet, Workload};

/// The rounds of a pass that count, and those before.
pub const ROUNDS: usize = 50;
const WARM_UP: usize = 3;

/// About this many seconds for each round.
const ROUND: f64 = 0.0007;

/// Seconds a call, by side; endless for a side that is not measured, for an earlier
/// library that is not linked and for one that answers otherwise.
#[derive(Clone)]
pub struct Times([f64; Side::COUNT]);

impl Times {
    /// Slower than any, to start from.
    const MAX: Times = Times([f64::INFINITY; Side::COUNT]);

    pub fn of(&self, side: Side) -> f64 {
        self.0[side as usize]
    }

    /// One side's time to another's; none where either is not there.
    pub fn ratio(&self, side: Side, to: Side) -> Option<f64> {
        let is_there = self.of(side).is_finite() && self.of(to).is_finite();
        is_there.then_some(self.of(side) / self.of(to))
    }

    fn keep_shorter(&mut self, side: Side, seconds: f64) {
        let time = &mut self.0[side as usize];
        *time = time.min(seconds);
    }
}

/// The shortest times of each workload, in several passes through all of them, in
/// rounds that these sides take in turn.
pub fn measure(call: Call, workloads: &[&Workload], sides: &[Side], passes: usize) -> Vec<Times> {
    let mut jobs: Vec<Job> = workloads
        .iter()
        .map(|work| Job::timed(call, work))
        .collect();
    let mut shortest = vec![Times::MAX; jobs.len()];
    let mut ignored = Times::MAX;
    for _ in 0..passes {
        for (job, shortest) in jobs.iter_mut().zip(&mut shortest) {
            for _ in 0..WARM_UP {
                job.round(sides, &mut ignored);
            }
            for _ in 0..ROUNDS {
                job.round(sides, shortest);
            }
        }
    }
    shortest
}

/// A call on a workload, with the buffers that every side is lent.
pub struct Job<'a> {
    call: Call,
    sheets: &'a [Sheet],
    table: Vec<i64>,
    plan: Vec<i64>,
    results: Vec<i64>,
    changes: Vec<i64>,
    /// How often a round goes through the sheets.
    turns: usize,
    /// Whether an earlier library knows the rules that the sheets go by.
    is_known_earlier: bool,
}

impl<'a> Job<'a> {
    pub fn new(call: Call, workload: &'a Workload) -> Self {
        let lines = workload.lines();
        Job {
            call,
            sheets: &workload.sheets,
            table: vec![0; 8 * lines],
            plan: vec![0; lines],
            results: vec![0; 3 * lines],
            changes: vec![0; 3 * workload.pairs()],
            turns: 1,
            is_known_earlier: false,
        }
    }

    /// One whose rounds take long enough for a clock.
    fn timed(call: Call, workload: &'a Workload) -> Self {
        let mut job = Job::new(call, workload);
        let once = job.seconds(Side::Reference) * job.sheets.len() as f64;
        job.turns = (ROUND / once).ceil() as usize;
        job.is_known_earlier = job.answers(Side::Earlier) == job.answers(Side::Library);
        job
    }

    /// A round of each side; of its times, those that are shorter are kept.
    fn round(&mut self, sides: &[Side], shortest: &mut Times) {
        for &side in sides {
            let seconds = self.seconds(side);
            shortest.keep_shorter(side, seconds);
        }
    }

    /// Seconds a call of that side, endless where it is not there.
    fn seconds(&mut self, side: Side) -> f64 {
        let is_comparable = side != Side::Earlier || self.is_known_earlier;
        let function = self.call.function(side).filter(|_| is_comparable);
        function.map_or(f64::INFINITY, |function| self.time(function))
    }

    /// Seconds a call.
    fn time(&mut self, function: Function) -> f64 {
        let start = Instant::now();
        for _ in 0..self.turns {
            self.go_through(function);
        }
        start.elapsed().as_secs_f64() / (self.turns * self.sheets.len()) as f64
    }

    /// The call on each sheet.
    pub fn go_through(&mut self, function: Function) {
        for sheet in self.sheets {
            black_box(self.answer(function, sheet));
        }
    }

    /// What that side answers on each sheet; none where it is not there.
    fn answers(&mut self, side: Side) -> Option<Vec<usize>> {
        let function = self.call.function(side)?;
        let sheets = self.sheets.iter();
        Some(sheets.map(|sheet| self.answer(function, sheet)).collect())
    }

    fn answer(&mut self, function: Function, sheet: &Sheet) -> usize {
        function(black_box(Lent {
            text: &sheet.text,
            order: &sheet.order,
            pairs: &sheet.pairs,
            label: sheet.label,
            table: &mut self.table,
            plan: &mut self.plan,
            results: &mut self.results,
            changes: &mut self.changes,
        }))
    }
}
