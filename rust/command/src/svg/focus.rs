//! What has to do with a definition.

use std::collections::BTreeSet;

use lindypo::{Kind, Label, Sheet};

/// A definition, what it reaches and what reaches it; of a Group, all that is
/// under it and what that reaches and is reached by.
pub fn around(sheet: &Sheet, label: Label) -> BTreeSet<Label> {
    let under = under(sheet, label);
    let mentions: Vec<(Label, Label)> = sheet.mentions().collect();
    let turned: Vec<(Label, Label)> = mentions.iter().map(|&(from, to)| (to, from)).collect();
    let mut around = followed(&under, &mentions);
    around.append(&mut followed(&under, &turned));
    around
}

/// The definition itself, and those in it. A Group has a smaller label than its
/// members.
fn under(sheet: &Sheet, label: Label) -> BTreeSet<Label> {
    let mut under = BTreeSet::from([label]);
    for line in sheet.lines().filter(|line| line.kind.is_definition()) {
        if line.owner.is_some_and(|group| under.contains(&group)) {
            under.insert(line.label);
        }
    }
    let is_group = |label: &Label| {
        let line = sheet.line(*label);
        line.is_some_and(|line| line.kind == Kind::Group)
    };
    under.retain(|other| *other == label || !is_group(other));
    under
}

/// All that links lead to from these, in any number of steps.
fn followed(from: &BTreeSet<Label>, links: &[(Label, Label)]) -> BTreeSet<Label> {
    let mut found = from.clone();
    let mut open: Vec<Label> = from.iter().copied().collect();
    while let Some(at) = open.pop() {
        let next = links.iter().filter(|&&(from, _)| from == at);
        open.extend(next.map(|&(_, to)| to).filter(|&to| found.insert(to)));
    }
    found
}

#[cfg(test)]
mod tests {
    use super::*;

    /// 2 reads 4 of Group 3, which reads 5, which nobody else does; 6 reads 2,
    /// 7 stands by itself.
    const SHEET: &[u8] = b"kind name a b c\nG - 0 - -\nV a 1 8 -\nG g 1 - -\nV b 3 9 -\n\
        V c 1 10 -\nV d 1 11 -\nV e 1 12 -\nR g.b - - -\nR c - - -\nN - 1 - -\nR a - - -\n\
        N - 1 - -\n";

    #[test]
    fn what_is_reached_and_what_reaches() {
        let sheet = Sheet::read(SHEET).expect("a sheet");
        for (label, wanted) in [
            (2, &[2, 4, 5, 6][..]),
            (3, &[2, 3, 4, 5, 6]),
            (5, &[2, 4, 5, 6]),
            (6, &[2, 4, 5, 6]),
            (7, &[7]),
            (1, &[1, 2, 4, 5, 6, 7]),
        ] {
            let around = around(&sheet, label);
            assert!(around.iter().eq(wanted), "{label}: {around:?}");
        }
    }
}
