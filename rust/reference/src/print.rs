//! What the program prints.

use std::io::Write;

use crate::evaluate::evaluate;
use crate::{plan_sheet, Lent, Order, Planned, Refusal};

/// What a print comes to: the refusal that it prints, if it is one, and how many
/// bytes the whole of it has.
#[derive(Debug, Clone, Copy, PartialEq, Eq)]
pub struct Printed {
    pub refusal: Option<Refusal>,
    pub length: usize,
}

/// The program's standard output for this standard input.
pub fn print(text: &[u8]) -> Vec<u8> {
    whole_print(text).0
}

/// As much of it as `out` has room for, then zeros.
pub fn print_into(text: &[u8], out: &mut [u8]) -> Printed {
    let (print, refusal) = whole_print(text);
    let length = print.len();
    let room = length.min(out.len());
    out[..room].copy_from_slice(&print[..room]);
    out[room..].fill(0);
    Printed { refusal, length }
}

/// The program lends itself buffers that are long enough, so there is no row 4.
fn whole_print(text: &[u8]) -> (Vec<u8>, Option<Refusal>) {
    let mut out = Vec::new();
    let (written, refusal) = match plan_sheet(text, &Lent::default()) {
        Ok(planned) => (print_values(&planned, &mut out), None),
        Err(refusal) => (print_refusal(refusal, &mut out), Some(refusal)),
    };
    written.expect("writing to a Vec does not fail");
    (out, refusal)
}

/// "One line of column names, then one line per value in plan order."
fn print_values(planned: &Planned, out: &mut Vec<u8>) -> std::io::Result<()> {
    let order = match planned.order {
        Order::Whole => "whole",
        Order::Mixed => "mixed",
    };
    let outcomes = evaluate(&planned.sheet, &planned.plan);
    writeln!(out, "label name order state number steps")?;
    for &label in &planned.plan {
        let Some(outcome) = &outcomes[label - 1] else {
            continue;
        };
        let [state, number, steps] = outcome.cells();
        write!(out, "{label} ")?;
        out.write_all(planned.sheet.name(label))?;
        writeln!(out, " {order} {state} {number} {steps}")?;
    }
    Ok(())
}

/// "`refusal place` and one line of the two numbers."
fn print_refusal(refusal: Refusal, out: &mut Vec<u8>) -> std::io::Result<()> {
    let Refusal { number, place } = refusal;
    writeln!(out, "refusal place\n{number} {place}")
}
