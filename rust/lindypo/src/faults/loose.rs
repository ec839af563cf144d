//! What a line may be that has a fault in itself.

use crate::diagnosis::forms::{self, Form};
use crate::diagnosis::rows::{Rows, FIELDS, KIND, NAME};
use crate::{same_name, Kind, Label};

/// The kind that a line has by its letter, be it small.
fn kind(rows: &Rows, label: Label) -> Option<Kind> {
    Kind::of_field(&rows.field(label, KIND).to_ascii_uppercase())
}

/// Whether it may use an expression: a Group, number, argument or read whose
/// other fields are missing does not.
pub fn may_use(rows: &Rows, label: Label) -> bool {
    let fields = rows.fields(label);
    let is_leaf = |kind: Kind| {
        let forms = Form::wanted(kind);
        let is_missing = |at: usize| forms[at - 1] != Form::Missing || fields[at] == "-";
        let is_kind = matches!(
            kind,
            Kind::Group | Kind::Number | Kind::Argument | Kind::Read
        );
        is_kind && fields.len() == FIELDS.len() && (NAME..FIELDS.len()).all(is_missing)
    };
    !kind(rows, label).is_some_and(is_leaf)
}

/// Whether it may define this name: by its name if that is one, else by being
/// no expression.
pub fn may_define(rows: &Rows, label: Label, name: &str) -> bool {
    let fields = rows.fields(label);
    if fields.len() == FIELDS.len() && forms::is_name(fields[NAME]) {
        return same_name(fields[NAME], name);
    }
    kind(rows, label).is_none_or(Kind::is_definition)
}
