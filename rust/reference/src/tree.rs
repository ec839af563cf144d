//! Rows 8 to 11: what each line leads to, and the owner of each line.

use crate::lines::operands;
use crate::sheet::{Kind, Label, Sheet};
use crate::Refusal;

const MAX_LEVEL: u32 = 32;

/// Checks rows 8 to 11 and fills in every owner.
pub fn connect(sheet: &mut Sheet) -> Result<(), Refusal> {
    check_links(sheet)?;
    check_uses(sheet)?;
    let levels = fill_owners(sheet);
    check_arguments(sheet)?;
    check_levels(sheet, &levels)
}

/// Refuses the lowest label for which `faulty` holds.
fn refuse_if(
    sheet: &Sheet,
    number: u64,
    faulty: impl FnMut(&Label) -> bool,
) -> Result<(), Refusal> {
    match sheet.labels().find(faulty) {
        Some(label) => Err(Refusal::new(number, label)),
        None => Ok(()),
    }
}

/// Row 8: Groups lie below their members, operands above their line. Row 7
/// has seen to label 1.
fn check_links(sheet: &Sheet) -> Result<(), Refusal> {
    refuse_if(sheet, 8, |&label| {
        let line = sheet.line(label);
        let is_group = |group| group < label && sheet.kind(group) == Kind::Group;
        let is_operand = |other| other > label && !sheet.kind(other).is_definition();
        let is_member = label > 1 && line.kind.is_definition();
        is_member && !is_group(line.link(0)) || !operands(line).all(is_operand)
    })
}

/// Row 9: every expression is used by one field.
fn check_uses(sheet: &Sheet) -> Result<(), Refusal> {
    let mut uses = vec![0u32; sheet.count() + 1];
    for line in &sheet.lines {
        for operand in operands(line) {
            uses[operand] += 1;
        }
    }
    refuse_if(sheet, 9, |&label| {
        !sheet.kind(label).is_definition() && uses[label] != 1
    })
}

/// Fills in the owners and gives the level of every expression, by label.
/// Operands stand above their line, so one pass upward meets a line's owner
/// before its operands ask for it.
fn fill_owners(sheet: &mut Sheet) -> Vec<u32> {
    let mut levels = vec![0; sheet.count() + 1];
    for label in sheet.labels() {
        let (below, above) = sheet.lines.split_at_mut(label);
        let line = &mut below[label - 1];
        let is_definition = line.kind.is_definition();
        if is_definition {
            line.owner = line.link(0) as u32;
        }
        let owner = if is_definition {
            label as u32
        } else {
            line.owner
        };
        for operand in operands(line) {
            above[operand - label - 1].owner = owner;
            levels[operand] = levels[label] + 1;
        }
    }
    levels
}

/// Row 10: "P owned by a V".
fn check_arguments(sheet: &Sheet) -> Result<(), Refusal> {
    refuse_if(sheet, 10, |&label| {
        sheet.kind(label) == Kind::Argument && sheet.kind(sheet.owner(label)) == Kind::Value
    })
}

/// Row 11: "level above 32".
fn check_levels(sheet: &Sheet, levels: &[u32]) -> Result<(), Refusal> {
    refuse_if(sheet, 11, |&label| levels[label] > MAX_LEVEL)
}
