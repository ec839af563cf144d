//! Formulas as text: `lib.abs(sphere) + frame.minimum`.

mod expression;
mod halves;
mod mistake;
mod names;
mod parse;
mod print;
mod refused;
mod signs;
mod tokens;

use crate::build::{Expression, Group};
use crate::{Kind, Label, Sheet};
pub use mistake::Mistake;

/// The formula of a value or function, or of an expression by itself; `None`
/// where the label is a Group's or no line's.
///
/// The argument of a function is `x`, or `y` and so on where `x` would hide a
/// name that the function reads or calls.
///
/// ```
/// use lindypo::{formula, Sheet};
///
/// let sheet = Sheet::read(
///     b"kind name a b c\nG - 0 - -\nV total 1 4 -\nV part 1 7 -\n\
///       D - 5 6 -\nR part - - -\nN - 2 - -\nN - -7 - -\n",
/// )?;
/// assert_eq!(formula::of(&sheet, 2).as_deref(), Some("part / 2"));
/// assert_eq!(formula::of(&sheet, 7).as_deref(), Some("-7"));
/// assert_eq!(formula::of(&sheet, 1), None);
/// # Ok::<(), lindypo::Refusal>(())
/// ```
pub fn of(sheet: &Sheet, label: Label) -> Option<String> {
    let (definition, at) = owned(sheet, label)?;
    let argument = argument(sheet, definition).unwrap_or_default();
    let expression = Expression::of_sheet(sheet, at)?;
    Some(print::formula(&expression, &argument))
}

/// What [`of`] calls the argument of a function; `None` where the label is no
/// function's.
///
/// ```
/// use lindypo::{formula, Sheet};
///
/// let sheet = Sheet::read(
///     b"kind name a b c\nG - 0 - -\nV x 1 3 -\nN - 5 - -\n\
///       F add 1 5 -\nA - 6 7 -\nP - - - -\nR x - - -\n",
/// )?;
/// assert_eq!(formula::argument(&sheet, 4).as_deref(), Some("y"));
/// assert_eq!(formula::of(&sheet, 4).as_deref(), Some("y + x"));
/// # Ok::<(), lindypo::Refusal>(())
/// ```
pub fn argument(sheet: &Sheet, label: Label) -> Option<String> {
    let line = sheet.line(label)?;
    let body = Expression::of_sheet(sheet, line.b as Label)?;
    (line.kind == Kind::Function).then(|| names::argument(&body))
}

/// The definition that a label is or stands in, and the expression meant.
fn owned(sheet: &Sheet, label: Label) -> Option<(Label, Label)> {
    let line = sheet.line(label)?;
    match line.kind {
        Kind::Group => None,
        Kind::Value | Kind::Function => Some((label, line.b as Label)),
        _ => Some((line.owner?, label)),
    }
}

/// All definitions of a sheet as text, the members of each Group in the
/// sequence of their labels; before them `halves to even`, where that is the
/// sheet's tie rule.
///
/// [`write`] gives the same sheet again, but for its labels: definitions are
/// then numbered in the sequence of the text, each Group followed by its
/// members, and after them the bodies.
///
/// ```
/// use lindypo::{formula, Sheet};
///
/// let sheet = Sheet::read(
///     b"kind name a b c\nG - 0 - -\nG right 1 - -\nF half 2 4 -\nD - 5 6 -\n\
///       P - - - -\nN - 2 - -\nV total 1 8 -\nN - -7 - -\n",
/// )?;
/// assert_eq!(formula::show(&sheet), "right {\n    half(x) = x / 2\n}\ntotal = -7\n");
///
/// let even = Sheet::read(b"kind2 name a b c\nG - 0 - -\nV total 1 3 -\nN - -7 - -\n")?;
/// assert_eq!(formula::show(&even), "halves to even\ntotal = -7\n");
/// # Ok::<(), lindypo::Refusal>(())
/// ```
pub fn show(sheet: &Sheet) -> String {
    print::definitions(&Group::of_sheet(sheet))
}

/// The definitions of a text of formulas, with its tie rule, for a program to add
/// to.
pub fn parse(text: &[u8]) -> Result<Group, Mistake> {
    Ok(parse::parse(text)?.0)
}

/// The sheet of a text of formulas: one that reads and plans, else what is
/// wrong and where in the formulas that is.
///
/// ```
/// use lindypo::formula;
///
/// let text = b"right { prism = sphere * 10 / 100  sphere = -325 } # dioptres\n";
/// let sheet = formula::write(text)?;
/// assert!(sheet.starts_with(b"kind name a b c\nG - 0 - -\nG right 1 - -\nV prism 2 5 -\n"));
/// let sheet = formula::write(b"halves to even  prism = -3250 / 100\n")?;
/// assert!(sheet.starts_with(b"kind2 name a b c\nG - 0 - -\nV prism 1 3 -\n"));
///
/// let mistake = formula::write(b"prism = sphere * 10\n").unwrap_err();
/// assert_eq!(
///     mistake.to_string(),
///     "line 1, column 9: the outermost Group has no member `sphere`"
/// );
/// # Ok::<(), formula::Mistake>(())
/// ```
pub fn write(text: &[u8]) -> Result<Vec<u8>, Mistake> {
    let (group, marks) = parse::parse(text)?;
    let sheet = group.text().map_err(|mistake| Mistake {
        row: Some(mistake.row),
        mark: marks.of_place(mistake.place),
        sentence: mistake.to_string(),
        help: vec![],
    })?;
    let plan = Sheet::read(&sheet).and_then(|sheet| sheet.plan());
    plan.map_err(|refusal| refused::mistake(&sheet, &marks, &refusal))?;
    Ok(sheet)
}
