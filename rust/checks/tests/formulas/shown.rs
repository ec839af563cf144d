//! What a sheet's formulas look like.

use lindypo::{formula, Sheet};

use crate::sheet;

/// The formula at label 2 of a sheet of these lines after label 1.
#[track_caller]
fn is_shown(lines: &str, wanted: &str) {
    let text = sheet(&format!("{lines}\n"));
    let sheet = Sheet::read(&text).expect("a sheet that reads");
    assert_eq!(formula::of(&sheet, 2).as_deref(), Some(wanted));
}

/// Parentheses stand where the tree would else be another, and nowhere else.
#[test]
fn parentheses() {
    let leaves = "N - 1 - -\nN - -2 - -\nN - 3 - -";
    for (tree, wanted) in [
        ("A - 4 7 -\nA - 5 6 -", "1 + -2 + 3"),
        ("S - 4 7 -\nS - 5 6 -", "1 - -2 - 3"),
        ("S - 5 4 -\nS - 6 7 -", "1 - (-2 - 3)"),
        ("A - 5 4 -\nA - 6 7 -", "1 + (-2 + 3)"),
        ("A - 5 4 -\nM - 6 7 -", "1 + -2 * 3"),
        ("A - 4 7 -\nD - 5 6 -", "1 / -2 + 3"),
        ("M - 4 7 -\nS - 5 6 -", "(1 - -2) * 3"),
        ("D - 4 7 -\nM - 5 6 -", "1 * -2 / 3"),
        ("D - 5 4 -\nM - 6 7 -", "1 / (-2 * 3)"),
    ] {
        is_shown(&format!("V v 1 3 -\n{tree}\n{leaves}"), wanted);
    }
}

#[test]
fn choices() {
    let leaves = "N - 1 - -\nN - 2 - -\nN - 3 - -\nN - 4 - -\nN - 5 - -";
    for (tree, wanted) in [
        (
            "I - 5 6 4\nI - 7 8 9",
            "if 1 then 2 else if 3 then 4 else 5",
        ),
        (
            "I - 5 4 9\nI - 6 7 8",
            "if 1 then (if 2 then 3 else 4) else 5",
        ),
        (
            "I - 4 8 9\nI - 5 6 7",
            "if (if 1 then 2 else 3) then 4 else 5",
        ),
    ] {
        is_shown(&format!("V v 1 3 -\n{tree}\n{leaves}"), wanted);
    }
    let tree = "V v 1 3 -\nA - 4 7 -\nI - 5 6 8\n";
    is_shown(
        &format!("{tree}N - 1 - -\nN - 2 - -\nN - 4 - -\nN - 3 - -"),
        "(if 1 then 2 else 3) + 4",
    );
}

#[test]
fn calls_and_paths() {
    is_shown(
        "F f 1 3 -\nC lib.Then.f 4 - -\nA - 5 6 -\nP - - - -\nR if - - -\nV if 1 8 -\n\
         N - 7 - -\nG lib 1 - -\nG Then 9 - -\nF f 10 12 -\nP - - - -",
        "lib.`Then`.f(x + `if`)",
    );
}

/// The argument's name hides no name that is read or called, in any case.
#[test]
fn names_of_arguments() {
    is_shown(
        "F x 1 3 -\nA - 4 5 -\nP - - - -\nC x 6 - -\nA - 7 8 -\nR Y - - -\nR z.x - - -\n\
         V Y 1 10 -\nN - 0 - -\nG z 1 - -\nV x 11 13 -\nN - 0 - -",
        "x1 + x(Y + z.x)",
    );
}

/// Any expression of a sheet, with the argument's name of its function; nothing
/// for Groups and for labels that there are none of.
#[test]
fn one_expression() {
    let text = sheet("F f 1 3 -\nA - 4 5 -\nP - - - -\nR x - - -\nV x 1 7 -\nN - 8 - -\n");
    let sheet = Sheet::read(&text).expect("a sheet that reads");
    let shown: Vec<Option<String>> = (0..9).map(|label| formula::of(&sheet, label)).collect();
    let shown: Vec<&str> = shown
        .iter()
        .map(|it| it.as_deref().unwrap_or("none"))
        .collect();
    assert_eq!(
        shown,
        ["none", "none", "y + x", "y + x", "y", "x", "8", "8", "none"]
    );
    let arguments = [1, 2, 3, 6].map(|label| formula::argument(&sheet, label));
    assert_eq!(arguments, [None, Some("y".to_string()), None, None]);
}

/// Members in the sequence of their labels, whatever stands between them.
#[test]
fn definitions() {
    let text = sheet(
        "G else 1 - -\nV last 1 9 -\nG empty 2 - -\nF f 2 8 -\nV first 2 10 -\nG none 1 - -\n\
         P - - - -\nN - 1 - -\nN - 2 - -\n",
    );
    let sheet = Sheet::read(&text).expect("a sheet that reads");
    let wanted = "\
`else` {
    empty {
    }
    f(x) = x
    first = 2
}
last = 1
none {
}
";
    assert_eq!(formula::show(&sheet), wanted);
}

#[test]
fn no_definitions() {
    let text = sheet("");
    let sheet = Sheet::read(&text).expect("a sheet that reads");
    assert_eq!(formula::show(&sheet), "");
    assert_eq!(formula::write(b""), Ok(text.clone()));
}

/// The deepest nest of Groups; it is not indented all the way.
#[test]
fn deep_groups() {
    let lines: String = (1..1024)
        .map(|label| format!("G g {label} - -\n"))
        .collect();
    let text = sheet(&lines);
    let sheet = Sheet::read(&text).expect("a sheet that reads");
    let shown = formula::show(&sheet);
    assert_eq!(shown.lines().count(), 2 * 1023);
    assert_eq!(shown.lines().map(str::len).max(), Some(83));
    assert_eq!(formula::write(shown.as_bytes()), Ok(text.clone()));
}

/// The rule stands first, where it does not go without saying.
#[test]
fn tie_rules() {
    for (line, wanted) in [
        ("kind name a b c", "halves = 5\n"),
        ("kind2 name a b c", "halves to even\nhalves = 5\n"),
    ] {
        let text = format!("{line}\nG - 0 - -\nV halves 1 3 -\nN - 5 - -\n");
        let sheet = Sheet::read(text.as_bytes()).expect("a sheet that reads");
        assert_eq!(formula::show(&sheet), wanted);
        assert_eq!(
            formula::write(wanted.as_bytes()).ok(),
            Some(text.into_bytes())
        );
    }
}
