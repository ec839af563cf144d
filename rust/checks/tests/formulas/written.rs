//! What a text of formulas stands for.

use lindypo::{formula, Ties};

use crate::sheet;

#[track_caller]
fn is_written(formulas: &str, lines: &str) {
    let text = formula::write(formulas.as_bytes()).expect("a sheet");
    let wanted = sheet(lines);
    assert_eq!(
        String::from_utf8_lossy(&text),
        String::from_utf8_lossy(&wanted)
    );
}

/// Definitions first, each Group followed by its members, then the bodies.
#[test]
fn numbering() {
    is_written(
        "right { half(x) = x / 2  sphere = -325 }  total = right.half(right.sphere)",
        "G right 1 - -\nF half 2 6 -\nV sphere 2 9 -\nV total 1 10 -\n\
         D - 7 8 -\nP - - - -\nN - 2 - -\nN - -325 - -\nC right.half 11 - -\nR right.sphere - - -\n",
    );
}

/// A minus is a number's sign where an operand has to stand, else a difference.
#[test]
fn minus() {
    for formula in ["5 - 3", "5-3", "5 -3", "5- 3", "(5)-(3)"] {
        is_written(
            &format!("v = {formula}"),
            "V v 1 3 -\nS - 4 5 -\nN - 5 - -\nN - 3 - -\n",
        );
    }
    for formula in ["-5 - -3", "-5--3", "(-5)-(-3)"] {
        is_written(
            &format!("v = {formula}"),
            "V v 1 3 -\nS - 4 5 -\nN - -5 - -\nN - -3 - -\n",
        );
    }
}

/// Signs of one strength go from the left; a choice takes all that follows.
#[test]
fn strength() {
    for (short, full) in [
        ("1 - 2 - 3", "(1 - 2) - 3"),
        ("1 - 2 + 3", "(1 - 2) + 3"),
        ("1 * 2 / 3 * 4", "((1 * 2) / 3) * 4"),
        ("1 + 2 * 3 - 4 / 5", "(1 + (2 * 3)) - (4 / 5)"),
        (
            "if 1 + 2 then 3 + 4 else 5 + 6",
            "if (1 + 2) then (3 + 4) else (5 + 6)",
        ),
        (
            "if 1 then if 2 then 3 else 4 else 5",
            "if 1 then (if 2 then 3 else 4) else 5",
        ),
        (
            "if if 1 then 2 else 3 then 4 else 5",
            "if (if 1 then 2 else 3) then 4 else 5",
        ),
        (
            "if 1 then 2 else if 3 then 4 else 5",
            "if 1 then 2 else (if 3 then 4 else 5)",
        ),
    ] {
        let [short, full] = [short, full].map(|it| formula::write(format!("v = {it}").as_bytes()));
        assert_eq!(short, full);
    }
}

#[test]
fn layout() {
    let plain = "f(x) = x + 1\ng {\n    v = f(2) * (3 - 4)\n}\n";
    for noisy in [
        "f(x)=x+1 g{v=f(2)*(3-4)}",
        "# a comment\r\nf ( x ) =\r\n\tx + # another: \u{e9}\n\n1 g { v = f (2) * ((3 - (4))) } #",
        "f(other) = other + 1\ng {\nv\n=\nf\n(\n2\n)\n*\n(\n3\n-\n4\n)\n}",
        "`f`(x) = (x) + 1 `g` { `v` = ((`f`((2)))) * (3 - 4) }",
    ] {
        let [plain, noisy] = [plain, noisy].map(|it| formula::write(it.as_bytes()));
        assert_eq!(plain, noisy);
    }
}

/// Names in capitals or small letters are one, the argument's too; names and
/// paths stand in the sheet as they are written.
#[test]
fn capitals() {
    is_written(
        "Right { Half(Power) = power / 2 }  total = RIGHT.half(8)",
        "G Right 1 - -\nF Half 2 5 -\nV total 1 8 -\n\
         D - 6 7 -\nP - - - -\nN - 2 - -\nC RIGHT.half 9 - -\nN - 8 - -\n",
    );
    is_written(
        "X = 1  f(x) = X + `X`",
        "V X 1 4 -\nF f 1 5 -\nN - 1 - -\nA - 6 7 -\nP - - - -\nR X - - -\n",
    );
}

/// A marked name is a definition's; a name alone that is the argument's is the
/// argument.
#[test]
fn marks() {
    is_written(
        "x = 1  f(x) = x + `x`  `if` { `Then` = 2  z = `if`.`Then` }",
        "V x 1 7 -\nF f 1 8 -\nG if 1 - -\nV Then 4 11 -\nV z 4 12 -\n\
         N - 1 - -\nA - 9 10 -\nP - - - -\nR x - - -\nN - 2 - -\nR if.Then - - -\n",
    );
}

/// The rule is said first, in any case and layout, or goes without saying.
#[test]
fn tie_rules() {
    for (said, ties) in [
        ("", Ties::Away),
        ("halves away from zero\n", Ties::Away),
        ("halves to even\n", Ties::Even),
        ("HALVES To Even ", Ties::Even),
        (
            "# the next rule\nhalves # of a quotient\n to\r\n\teven\n\n",
            Ties::Even,
        ),
    ] {
        let text = formula::write(format!("{said}v = 5").as_bytes()).expect("a sheet");
        let wanted = format!("{}\nG - 0 - -\nV v 1 3 -\nN - 5 - -\n", ties.first_line());
        assert_eq!(String::from_utf8_lossy(&text), wanted);
    }
    let empty = formula::write(b"halves to even").expect("a sheet");
    assert_eq!(empty, b"kind2 name a b c\nG - 0 - -\n");
}

/// Its words are names too, with and without the rule before them.
#[test]
fn words_of_a_tie_rule_as_names() {
    let lines = "V halves 1 6 -\nG to 1 - -\nV even 3 7 -\nF away 1 8 -\n\
                 N - 5 - -\nR halves - - -\nA - 9 10 -\nR to.even - - -\nP - - - -\n";
    let formulas = "halves = 5 to { even = halves } away(from) = to.even + from";
    is_written(formulas, lines);
    let text = formula::write(format!("halves to even {formulas}").as_bytes());
    let text = String::from_utf8(text.expect("a sheet")).expect("ASCII");
    assert_eq!(text, format!("kind2 name a b c\nG - 0 - -\n{lines}"));
    is_written(
        "halves { to = 1 }",
        "G halves 1 - -\nV to 2 4 -\nN - 1 - -\n",
    );
    is_written("halves(to) = to", "F halves 1 3 -\nP - - - -\n");
}
