//! What each pair of a list brings about. The library gives the results after
//! the last one and three figures for each. The results in between are those of
//! the pairs up to there.

use std::collections::BTreeMap;

use lindypo::{Change, Label, Outcome, Refusal, Results, Run, Sheet, State, MOST_BYTES};

/// A pair that has been applied.
pub struct Stage {
    /// The N line, and the definition that owns it.
    pub label: Label,
    pub owner: Label,
    /// Its number before this pair and after it.
    pub old: i64,
    pub number: i64,
    pub change: Change,
    /// The values that were evaluated again, in the order of the plan.
    pub redone: Vec<Redone>,
}

/// A value that was evaluated again.
pub struct Redone {
    pub label: Label,
    pub before: Outcome,
    pub after: Outcome,
}

impl Redone {
    /// Whether it came to something else; steps aside.
    pub fn is_changed(&self) -> bool {
        self.before.state != self.after.state
    }
}

/// A list that has been applied, pair by pair.
pub struct Stages {
    pub list: Vec<Stage>,
    /// The sheet with all numbers put in.
    pub run: Run,
    /// What the values were before the first pair.
    first: Results,
}

impl Stages {
    pub fn pairs(&self) -> Vec<(Label, i64)> {
        let pair = |stage: &Stage| (stage.label, stage.number);
        self.list.iter().map(pair).collect()
    }

    /// The values that are something else in the end, in the order of the plan.
    pub fn changed(&self) -> Vec<Redone> {
        let redone = |(label, after): (Label, Outcome)| {
            let before = self.first.of(label)?;
            Some(Redone {
                label,
                before,
                after,
            })
        };
        let values = self.run.values().filter_map(redone);
        values.filter(Redone::is_changed).collect()
    }

    /// What those were.
    pub fn before(&self) -> BTreeMap<Label, State> {
        let state = |redone: &Redone| (redone.label, redone.before.state);
        self.changed().iter().map(state).collect()
    }
}

/// Applies the pairs, one after the other.
pub fn of(sheet: &Sheet, pairs: &[(Label, i64)]) -> Result<Stages, Refusal> {
    let whole = sheet.retouch(pairs)?;
    let first = sheet.run()?.results;
    let dependents = Dependents::new(sheet);
    let mut numbers: BTreeMap<Label, i64> = BTreeMap::new();
    let (mut list, mut before) = (vec![], first.clone());
    for (count, (&(label, number), &change)) in (1..).zip(pairs.iter().zip(&whole.changes)) {
        let after = results(sheet, &pairs[..count])?;
        let line = sheet.line(label);
        let owner = line.and_then(|line| line.owner).unwrap_or(0);
        let sent = line.map_or(0, |line| line.a);
        let is_redone = dependents.of(owner);
        let redone = |&label: &Label| {
            let (before, after) = (before.of(label)?, after.of(label)?);
            is_redone[label].then_some(Redone {
                label,
                before,
                after,
            })
        };
        list.push(Stage {
            label,
            owner,
            old: numbers.insert(label, number).unwrap_or(sent),
            number,
            change,
            redone: whole.run.plan.labels.iter().filter_map(redone).collect(),
        });
        before = after;
    }
    Ok(Stages {
        list,
        run: whole.run,
        first,
    })
}

/// The results after some pairs: by Retouch's promise those of Run on the sheet
/// with their numbers, which takes as long for many pairs as for few. Where that
/// text is too long for a sheet, Retouch's own.
fn results(sheet: &Sheet, pairs: &[(Label, i64)]) -> Result<Results, Refusal> {
    let text = sheet.with_numbers(pairs);
    match text.len() > MOST_BYTES {
        true => Ok(sheet.retouch(pairs)?.run.results),
        false => Ok(Sheet::read(&text)?.run()?.results),
    }
}

/// By label, from 0: the definitions that mention it.
struct Dependents {
    mentioned_by: Vec<Vec<Label>>,
}

impl Dependents {
    fn new(sheet: &Sheet) -> Self {
        let mut mentioned_by = vec![vec![]; sheet.labels() + 1];
        for (from, to) in sheet.mentions() {
            mentioned_by[to].push(from);
        }
        Dependents { mentioned_by }
    }

    /// By label, from 0: whether it is this definition or mentions it by any
    /// chain.
    fn of(&self, definition: Label) -> Vec<bool> {
        let mut found = vec![false; self.mentioned_by.len()];
        let mut open = vec![definition];
        while let Some(at) = open.pop() {
            if !std::mem::replace(&mut found[at], true) {
                open.extend(&self.mentioned_by[at]);
            }
        }
        found
    }
}
