//! Formulas as text: shown, written, wrong, and both ways on random sheets.

mod mistakes;
mod page;
mod random;
mod shown;
mod written;

/// The text of a sheet of these lines after label 1.
fn sheet(lines: &str) -> Vec<u8> {
    format!("kind name a b c\nG - 0 - -\n{lines}").into_bytes()
}
