//! The forms of a field, and which form each kind wants.

use crate::Kind;

/// The most letters of a name, and the most names of a path.
pub const NAME_LETTERS: usize = 16;
pub const PATH_NAMES: usize = 8;

/// The largest number; the smallest is as far below zero.
pub const NUMBER: i64 = 1_000_000_000;

#[derive(Clone, Copy, PartialEq, Eq)]
pub enum Form {
    Missing,
    Name,
    Path,
    Label,
    Number,
}

impl Form {
    /// The forms of name, a, b and c.
    pub fn wanted(kind: Kind) -> [Form; 4] {
        use Form::{Label, Missing, Name, Number, Path};
        match kind {
            Kind::Group => [Name, Label, Missing, Missing],
            Kind::Value | Kind::Function => [Name, Label, Label, Missing],
            Kind::Number => [Missing, Number, Missing, Missing],
            Kind::Argument => [Missing; 4],
            Kind::Read => [Path, Missing, Missing, Missing],
            Kind::Call => [Path, Label, Missing, Missing],
            Kind::Choice => [Missing, Label, Label, Label],
            _ => [Missing, Label, Label, Missing],
        }
    }

    /// The fields of a line that have not the form that its kind wants.
    pub fn misfits(kind: Kind, fields: &[&str], count: usize) -> Vec<usize> {
        let wanted = Form::wanted(kind);
        let is_wrong = |&at: &usize| !wanted[at - 1].fits(fields[at], count);
        (1..=wanted.len()).filter(is_wrong).collect()
    }

    /// Whether a field of a sheet with `count` labels has the form.
    pub fn fits(self, field: &str, count: usize) -> bool {
        match self {
            Form::Missing => field == "-",
            Form::Name => is_name(field),
            Form::Path => is_path(field),
            Form::Label => is_written(field, 1, count as i64),
            Form::Number => is_written(field, -NUMBER, NUMBER),
        }
    }

    /// What the form is, after "it has to be".
    pub fn words(self, count: usize) -> String {
        match self {
            Form::Missing => "`-` (missing)".to_string(),
            Form::Name => "a name: 1 to 16 letters or digits, a letter first".to_string(),
            Form::Path => "a path: 1 to 8 names joined by dots, \
                           each of 1 to 16 letters or digits, a letter first"
                .to_string(),
            Form::Label => format!("a label: 1 to {count}, with no leading zero"),
            Form::Number => "a whole number: -1000000000 to 1000000000, \
                             with no leading zero, plus sign or `-0`"
                .to_string(),
        }
    }
}

pub fn is_path(field: &str) -> bool {
    field.split('.').count() <= PATH_NAMES && field.split('.').all(is_name)
}

pub fn is_name(field: &str) -> bool {
    field.len() <= NAME_LETTERS
        && field.starts_with(|first: char| first.is_ascii_alphabetic())
        && field.bytes().all(|byte| byte.is_ascii_alphanumeric())
}

/// Whether a field is a number in this range, written in the only way allowed.
fn is_written(field: &str, least: i64, most: i64) -> bool {
    let is_meant = |number: &i64| (least..=most).contains(number) && number.to_string() == field;
    field.parse().ok().filter(is_meant).is_some()
}
