//! Retouch (order 4): numbers put into N lines after a Run, each followed by
//! the evaluation of what it can change; and rows 19 to 21 on the list of pairs.

use crate::evaluate::{evaluate_value, Outcome};
use crate::lines::in_range;
use crate::reach::Reach;
use crate::sheet::{Kind, Label, Sheet};
use crate::{Planned, Refusal};

const MAX_PAIRS: usize = 1_024;

/// Cells for each pair: the values redone, those that fail now, all steps now.
pub const CHANGE_CELLS: usize = 3;

/// "(label of an N line, new number)".
pub struct Pair {
    label: Label,
    number: i64,
}

/// The pairs of a list, "an odd last cell not counted".
pub fn count_pairs(list: &[i64]) -> usize {
    list.len() / 2
}

/// Rows 19 to 21. All pairs are judged before the first is applied.
pub fn check(sheet: &Sheet, list: &[i64]) -> Result<Vec<Pair>, Refusal> {
    if list.len() % 2 == 1 || count_pairs(list) > MAX_PAIRS {
        return Err(Refusal::new(19, 0));
    }
    let pairs = list.chunks_exact(2).zip(1..);
    pairs
        .map(|(cells, place)| {
            let refuse = |number| Refusal::new(number, place);
            check_pair(sheet, cells[0], cells[1]).map_err(refuse)
        })
        .collect()
}

/// Row 20, "a label that is no N line", before row 21, "a number out of range".
fn check_pair(sheet: &Sheet, label: i64, number: i64) -> Result<Pair, u64> {
    let is_number =
        |label: &Label| sheet.labels().contains(label) && sheet.kind(*label) == Kind::Number;
    let label = usize::try_from(label).ok().filter(is_number).ok_or(20u64)?;
    match in_range(number) {
        true => Ok(Pair { label, number }),
        false => Err(21),
    }
}

/// Applies the pairs in turn to a sheet that was run and writes the cells of
/// each; the sheet then has the numbers, the outcomes are those of its values.
pub fn apply(
    planned: &mut Planned,
    outcomes: &mut [Option<Outcome>],
    pairs: &[Pair],
    changes: &mut [i64],
) {
    let mut sums = Sums::new(outcomes);
    let mut dependents = Dependents::new(planned.sheet.count());
    for (pair, cells) in pairs.iter().zip(changes.chunks_exact_mut(CHANGE_CELLS)) {
        planned.sheet.lines[pair.label - 1].fields[0] = pair.number;
        let owner = planned.sheet.owner(pair.label);
        let redone = dependents.of(owner, &planned.plan, &planned.reach);
        for &value in redone {
            let outcome = evaluate_value(&planned.sheet, outcomes, value as Label);
            let before = outcomes[value as usize - 1].replace(outcome);
            sums.replace(&before.expect("the plan lists every value"), &outcome);
        }
        cells.copy_from_slice(&[redone.len() as i64, sums.failing, sums.steps]);
    }
}

/// "The last two are stored and kept up to date": sums over all values, to
/// which a value that is redone adds no more than its own difference.
struct Sums {
    failing: i64,
    steps: i64,
}

impl Sums {
    fn new(outcomes: &[Option<Outcome>]) -> Self {
        let mut sums = Sums {
            failing: 0,
            steps: 0,
        };
        for outcome in outcomes.iter().flatten() {
            sums.failing += outcome.failures();
            sums.steps += outcome.steps();
        }
        sums
    }

    fn replace(&mut self, before: &Outcome, after: &Outcome) {
        self.failing += after.failures() - before.failures();
        self.steps += after.steps() - before.steps();
    }
}

/// "All values that mention that number's owner by any chain, or are its owner",
/// in plan order. They are the same whatever the numbers are, so that they are
/// looked for once for each owner.
struct Dependents {
    /// By the owner's label: where its values stand among those found.
    parts: Vec<Option<(usize, usize)>>,
    found: Vec<u32>,
}

impl Dependents {
    fn new(count: usize) -> Self {
        Dependents {
            parts: vec![None; count + 1],
            found: Vec::new(),
        }
    }

    fn of(&mut self, owner: Label, plan: &[Label], reach: &Reach) -> &[u32] {
        let (start, end) = match self.parts[owner] {
            Some(part) => part,
            None => self.find(owner, plan, reach),
        };
        &self.found[start..end]
    }

    /// One pass down the plan.
    fn find(&mut self, owner: Label, plan: &[Label], reach: &Reach) -> (usize, usize) {
        let start = self.found.len();
        let number = reach.number(owner);
        let depends = |&&value: &&Label| {
            value == owner || reach.reached.contains(reach.number(value), number)
        };
        let values = plan.iter().filter(depends);
        self.found.extend(values.map(|&value| value as u32));
        let part = (start, self.found.len());
        self.parts[owner] = Some(part);
        part
    }
}
