//! Rows 5 to 7: one pass down the lines.

use std::ops::Range;

use crate::sheet::{Kind, Label, Line, Span};
use crate::Refusal;

/// What a kind wants in a field. `Group` and `Expression` are both label
/// fields; row 8 asks what they lead to.
#[derive(Debug, Clone, Copy, PartialEq, Eq)]
enum Form {
    Missing,
    Name,
    Path,
    Group,
    Expression,
    Number,
}

struct KindRow {
    letter: u8,
    kind: Kind,
    name: Form,
    fields: [Form; 3],
    /// Where body or operands stand in `fields`: side by side.
    operands: Range<usize>,
}

const fn row(letter: u8, kind: Kind, name: Form, fields: [Form; 3]) -> KindRow {
    let mut operands = 0..0;
    let mut field = 0;
    while field < fields.len() {
        if matches!(fields[field], Form::Expression) {
            if operands.end == 0 {
                operands.start = field;
            }
            operands.end = field + 1;
        }
        field += 1;
    }
    KindRow {
        letter,
        kind,
        name,
        fields,
        operands,
    }
}

/// "Which fields a kind has is one fixed table of twelve rows."
const KINDS: [KindRow; 12] = {
    use Form::{Expression as Expr, Group, Missing, Name, Number, Path};
    [
        row(b'G', Kind::Group, Name, [Group, Missing, Missing]),
        row(b'V', Kind::Value, Name, [Group, Expr, Missing]),
        row(b'F', Kind::Function, Name, [Group, Expr, Missing]),
        row(b'N', Kind::Number, Missing, [Number, Missing, Missing]),
        row(b'P', Kind::Argument, Missing, [Missing; 3]),
        row(b'R', Kind::Read, Path, [Missing; 3]),
        row(b'C', Kind::Call, Path, [Expr, Missing, Missing]),
        row(b'A', Kind::Sum, Missing, [Expr, Expr, Missing]),
        row(b'S', Kind::Difference, Missing, [Expr, Expr, Missing]),
        row(b'M', Kind::Product, Missing, [Expr, Expr, Missing]),
        row(b'D', Kind::Quotient, Missing, [Expr, Expr, Missing]),
        row(b'I', Kind::Choice, Missing, [Expr; 3]),
    ]
};

/// The outermost Group's line, "always `G - 0 - -`".
const OUTERMOST: [&[u8]; 5] = [b"G", b"-", b"0", b"-", b"-"];

const FIELDS: usize = 5;
const MAX_NAME: usize = 16;
const MAX_PATH: usize = 8;
const MAX_NUMBER: i64 = 1_000_000_000;

/// The row of each letter.
const ROWS: [Option<&KindRow>; 256] = {
    let mut rows = [None; 256];
    let mut at = 0;
    while at < KINDS.len() {
        rows[KINDS[at].letter as usize] = Some(&KINDS[at]);
        at += 1;
    }
    rows
};

/// The row of a kind field.
fn row_of(part: &[u8]) -> Option<&'static KindRow> {
    match part {
        [letter] => ROWS[usize::from(*letter)],
        _ => None,
    }
}

/// The body or operands of a line, which are expressions.
pub fn operands(line: &Line) -> impl Iterator<Item = Label> + '_ {
    let fields = KINDS[line.kind as usize - 1].operands.clone();
    line.fields[fields].iter().map(|&label| label as Label)
}

/// The lines from `start` on, `count` of them.
pub fn split(text: &[u8], mut start: usize, count: usize) -> Result<Vec<Line>, Refusal> {
    let mut lines = Vec::with_capacity(count);
    for label in 1..=count {
        let refusal = |number| Refusal::new(number, label);
        let fields = Fields::cut(text, &mut start).ok_or(refusal(5))?;
        let row = row_of(fields.parts[0]).ok_or(refusal(6))?;
        let cells = fields.cells(row, label, count).ok_or(refusal(7))?;
        lines.push(Line {
            kind: row.kind,
            name: fields.name(),
            fields: cells,
            owner: 0,
            target: 0,
        });
    }
    Ok(lines)
}

/// The five fields of a line, and where in the text the second begins.
struct Fields<'a> {
    parts: [&'a [u8]; FIELDS],
    name_start: usize,
}

impl<'a> Fields<'a> {
    /// Those of the line at `start`, if they are five and none is empty; `start`
    /// moves to the next line. Of the bytes that row 1 allows, a space and a line
    /// end are the smallest.
    fn cut(text: &'a [u8], start: &mut usize) -> Option<Self> {
        let line = *start;
        let mut parts: [&[u8]; FIELDS] = [&[]; FIELDS];
        for (field, part) in parts.iter_mut().enumerate() {
            let rest = &text[*start..];
            let length = rest.iter().position(|&byte| byte <= b' ')?;
            let is_last = rest[length] == b'\n';
            if length == 0 || is_last != (field == FIELDS - 1) {
                return None;
            }
            *part = &rest[..length];
            *start += length + 1;
        }
        let name_start = line + parts[0].len() + 1;
        Some(Fields { parts, name_start })
    }

    /// The cells of fields a, b and c, if all fields have the forms of their kind.
    fn cells(&self, row: &KindRow, label: Label, count: usize) -> Option<[i64; 3]> {
        if label == 1 {
            return (self.parts == OUTERMOST).then_some([0; 3]);
        }
        let [_, name, fields @ ..] = self.parts;
        cell_of(row.name, name, count)?;
        let cell = |field: usize| cell_of(row.fields[field], fields[field], count);
        Some([cell(0)?, cell(1)?, cell(2)?])
    }

    /// Where the name or path stands; nowhere for `-`.
    fn name(&self) -> Span {
        match self.parts[1] {
            b"-" => Span::default(),
            name => Span {
                start: self.name_start as u32,
                length: name.len() as u32,
            },
        }
    }
}

/// The cell for a field of this form (0 for names, paths and `-`), or `None`
/// if the field has another form.
fn cell_of(form: Form, part: &[u8], count: usize) -> Option<i64> {
    match form {
        Form::Missing => (part == b"-").then_some(0),
        Form::Name => is_name(part).then_some(0),
        Form::Path => is_path(part).then_some(0),
        Form::Group | Form::Expression => label_field(part, count),
        Form::Number => number(part),
    }
}

/// "1 to 16 ASCII letters or digits, a letter first."
fn is_name(part: &[u8]) -> bool {
    part.len() <= MAX_NAME
        && part.first().is_some_and(u8::is_ascii_alphabetic)
        && part.iter().all(u8::is_ascii_alphanumeric)
}

/// "1 to 8 names joined by dots."
fn is_path(part: &[u8]) -> bool {
    let mut names = 0;
    part.split(|&byte| byte == b'.').all(|name| {
        names += 1;
        names <= MAX_PATH && is_name(name)
    })
}

/// "Decimal, 1 to n, no leading zero."
fn label_field(part: &[u8], count: usize) -> Option<i64> {
    decimal(part).filter(|label| (1..=count as i64).contains(label))
}

/// "Decimal, -1000000000 to 1000000000, no leading zero, no `-0`, no plus
/// sign."
fn number(part: &[u8]) -> Option<i64> {
    let number = match part.strip_prefix(b"-") {
        Some(digits) => -decimal(digits).filter(|&number| number > 0)?,
        None => decimal(part)?,
    };
    in_range(number).then_some(number)
}

pub fn in_range(number: i64) -> bool {
    (-MAX_NUMBER..=MAX_NUMBER).contains(&number)
}

/// Digits alone, no leading zero, no more of them than the number range has.
fn decimal(digits: &[u8]) -> Option<i64> {
    if !(1..=10).contains(&digits.len()) || (digits.len() > 1 && digits[0] == b'0') {
        return None;
    }
    digits.iter().try_fold(0, |number, digit| {
        digit
            .is_ascii_digit()
            .then(|| number * 10 + i64::from(digit - b'0'))
    })
}
