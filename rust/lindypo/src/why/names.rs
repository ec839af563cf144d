//! Which value a name may mean that is none.

use crate::diagnosis::near;
use crate::{names, Kind, Label, Sheet};

/// The most values that are offered.
const OFFERED: usize = 3;

/// The values that a name may mean which no value has: those with this name in
/// any Group; else the one that is nearest.
///
/// ```
/// let sheet = lindypo::Sheet::read(
///     b"kind name a b c\nG - 0 - -\nG right 1 - -\nV centre 2 4 -\nN - 5 - -\n",
/// )?;
/// assert_eq!(lindypo::why::meant(&sheet, "centre"), [3]);
/// assert_eq!(lindypo::why::meant(&sheet, "right.center"), [3]);
/// assert!(lindypo::why::meant(&sheet, "bridge").is_empty());
/// # Ok::<(), lindypo::Refusal>(())
/// ```
pub fn meant(sheet: &Sheet, name: &str) -> Vec<Label> {
    let values = || {
        let lines = sheet.lines().filter(|line| line.kind == Kind::Value);
        lines.map(|line| (line.label, sheet.full_name(line.label)))
    };
    let same = values().filter(|(_, full_name)| names::ends_with(full_name, name));
    let same: Vec<Label> = same.map(|(label, _)| label).take(OFFERED).collect();
    if !same.is_empty() {
        return same;
    }
    let last = |(label, full_name): (Label, String)| {
        let name = full_name.rsplit('.').next().unwrap_or("");
        (label, name.to_string())
    };
    let by_last = || near::nearest(name, values().map(last));
    near::nearest(name, values())
        .or_else(by_last)
        .into_iter()
        .collect()
}
