//! Formulas beside what they stand for.

use lindypo::{formula, Label, Sheet};

/// The most letters of a formula that are shown.
const SHOWN: usize = 80;

/// What stands for the rest of a longer one.
const CUT: &str = " ...";

/// `= sphere / 2` for a value, `(x) = x / 2` for a function, nothing for a
/// Group; a long one is cut.
pub fn shown(sheet: &Sheet, label: Label) -> String {
    let argument = formula::argument(sheet, label);
    let argument = argument.map_or(String::new(), |name| format!("({name}) "));
    let formula = formula::of(sheet, label).map(|formula| format!("{argument}= {formula}"));
    cut(formula.unwrap_or_default())
}

/// Formulas are ASCII.
fn cut(formula: String) -> String {
    match formula.get(..SHOWN) {
        Some(start) if start.len() < formula.len() => format!("{start}{CUT}"),
        _ => formula,
    }
}

#[cfg(test)]
mod tests {
    use super::*;

    #[test]
    fn a_long_formula_is_cut() {
        let formula = |count| format!("= {}", "1".repeat(count));
        assert_eq!(cut(formula(78)), formula(78));
        assert_eq!(cut(formula(79)), format!("{} ...", formula(78)));
    }
}
