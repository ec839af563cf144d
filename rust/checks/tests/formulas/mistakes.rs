//! What is said of a text that gives no sheet: the very words, with line and
//! column.

use lindypo::{formula, Mark};

#[track_caller]
fn says(formulas: &str, words: &str) {
    let mistake = formula::write(formulas.as_bytes()).expect_err("a mistake");
    assert_eq!(mistake.to_string(), words, "{formulas}");
}

/// What is said of the value `v` of this formula, from column 5 on.
#[track_caller]
fn formula_says(formula: &str, column: usize, words: &str) {
    says(
        &format!("v = {formula}"),
        &format!("line 1, column {column}: {words}"),
    );
}

#[test]
fn bytes_and_characters() {
    let nothing = "means nothing in a formula; names are letters and digits, \
                   the signs are + - * / ( ) { } =";
    formula_says("a_b", 6, &format!("`_` {nothing}"));
    formula_says("1 % 2", 7, &format!("`%` {nothing}"));
    formula_says("1;", 6, "nothing stands between definitions");
    let test = "means nothing in a formula: a test is a number, and holds where it is not 0";
    formula_says("if a > 1 then 2 else 3", 10, &format!("`>` {test}"));
    let dot = "a dot stands between two names, with no space: `right.prism`";
    formula_says("right .prism", 11, dot);
    let ascii = "may stand in a comment, after `#`, and nowhere else: formulas are printable ASCII";
    formula_says("3 \u{d7} 4", 7, &format!("byte 195 {ascii}"));
    formula_says("3 \0", 7, &format!("byte 0 {ascii}"));
}

#[test]
fn numbers() {
    let form =
        "is not a whole number: -1000000000 to 1000000000, with no leading zero, plus sign or `-0`";
    for number in ["007", "-0", "00", "1000000001", "-1000000001", "-05"] {
        formula_says(number, 5, &format!("`{number}` {form}"));
    }
    let long = "9".repeat(60);
    formula_says(&long, 5, &format!("`{}...` {form}", &long[..40]));
    formula_says("2.5", 5, "numbers are whole: no point stands in one");
    formula_says("1 + 10x", 9, "a name begins with a letter");
    let minus = "a minus sign here stands directly before the digits of a number; \
                 the negative of anything else is written `0 - ...`";
    for formula in ["-x", "- 5", "-(5)", "--5", "-\n5"] {
        formula_says(formula, 5, minus);
    }
}

#[test]
fn names() {
    formula_says("a..b", 7, "a name has to stand here, with a letter first");
    formula_says("a.", 7, "a name has to stand here, with a letter first");
    formula_says("a.1", 7, "a name has to stand here, with a letter first");
    formula_says("`1`", 5, "a name has to stand here, with a letter first");
    formula_says("``", 5, "a name has to stand here, with a letter first");
    formula_says("`a", 5, "a backquote stands on both sides of a name: `if`");
    formula_says(
        "`a b`",
        5,
        "a backquote stands on both sides of a name: `if`",
    );
    let word = "is a word of the grammar; a definition of this name stands between backquotes:";
    formula_says("right.if", 5, &format!("`if` {word} `if`"));
    formula_says("Then.x", 5, &format!("`then` {word} `then`"));
    says("IF = 5", &format!("line 1, column 1: `if` {word} `if`"));
    says(
        "right.prism = 5",
        "line 1, column 1: a definition has one name; \
         one in a Group is written inside it: `right { prism = 5 }`",
    );
}

#[test]
fn operands() {
    let wanted = "a number, a name, `(` or `if` has to stand here, not";
    formula_says("", 4, &format!("{wanted} the end of the text"));
    formula_says(
        "1 + # no more\n\n",
        8,
        &format!("{wanted} the end of the text"),
    );
    formula_says("1 + * 2", 9, &format!("{wanted} `*`"));
    formula_says("+5", 5, &format!("{wanted} `+`"));
    formula_says("()", 6, &format!("{wanted} `)`"));
    formula_says("f()", 7, &format!("{wanted} `)`"));
    formula_says("if then 1 else 2", 8, &format!("{wanted} `then`"));
    formula_says("1 + else", 9, &format!("{wanted} `else`"));
    formula_says(
        "1 + if 2 then 3 else 4",
        9,
        "a choice stands in parentheses after a sign: `(if ... then ... else ...)`",
    );
}

#[test]
fn what_is_open() {
    formula_says(
        "(1 + 2",
        11,
        "`)` is missing: the `(` at line 1, column 5 is not closed",
    );
    says(
        "v = (1 +\n2\nw = 3",
        "line 3, column 1: `)` is missing: the `(` at line 1, column 5 is not closed",
    );
    formula_says(
        "f(1, 2)",
        8,
        "`)` is missing: the call at line 1, column 5 is not closed",
    );
    formula_says("1 + 2)", 10, "this `)` closes nothing");
}

#[test]
fn choices_that_are_open() {
    formula_says(
        "if 1",
        9,
        "`then` is missing: the `if` at line 1, column 5 has none",
    );
    formula_says(
        "if 1 else 2",
        10,
        "`then` is missing: the `if` at line 1, column 5 has none",
    );
    formula_says(
        "if 1 then 2",
        16,
        "`else` is missing: the `if` at line 1, column 5 has none",
    );
    formula_says(
        "(if 1 then 2)",
        17,
        "`else` is missing: the `if` at line 1, column 6 has none",
    );
    formula_says("1 then 2", 7, "this `then` belongs to no `if`");
    formula_says(
        "if (1 then 2 else 3",
        11,
        "`)` is missing: the `(` at line 1, column 8 is not closed",
    );
}

#[test]
fn groups() {
    says(
        "a {\n  b {\n  }\n",
        "line 1, column 1: this Group is not closed: `}` is missing",
    );
    says("a { }\n}\n", "line 2, column 1: this `}` closes no Group");
}

#[test]
fn definitions() {
    let wanted = "a definition has to begin here, with its name, not";
    let none = "its name is missing, or the formula before it ends with a sign too many \
                and took the name in";
    let none = |symbol| format!("no definition begins before this `{symbol}`: {none}");
    says("= 5", &format!("line 1, column 1: {}", none('=')));
    says(
        "a = 1 +\nb = 5",
        &format!("line 2, column 3: {}", none('=')),
    );
    says(
        "a = 1 -\nb {\n}",
        &format!("line 2, column 3: {}", none('{')),
    );
    formula_says("1 2", 7, &format!("{wanted} `2`"));
    formula_says("a (1) (2)", 11, &format!("{wanted} `(`"));
    formula_says(
        "a b",
        8,
        "after the name `b` of a definition comes `=`, `(` or `{`, not the end of the text; \
         if `b` belongs to the formula before it, a sign is missing between them",
    );
    let name = "the argument's name has to stand here, not";
    says("f(1) = 1", &format!("line 1, column 3: {name} `1`"));
    says("f() = 1", &format!("line 1, column 3: {name} `)`"));
    says("f(`x`) = 1", &format!("line 1, column 3: {name} `x`"));
    says("f(a.b) = 1", &format!("line 1, column 3: {name} `a.b`"));
    says("f(if) = 1", &format!("line 1, column 3: {name} `if`"));
    let form = "a function is written `name(x) = formula`";
    says(
        "f(x, y) = 1",
        &format!("line 1, column 4: `)` has to stand here, not `,`; {form}"),
    );
    says(
        "f(x) 1",
        &format!("line 1, column 6: `=` has to stand here, not `1`; {form}"),
    );
}

#[test]
fn a_sheet() {
    let sentence = "line 1, column 1: this is the first line of a sheet, not of formulas";
    says("kind name a b c\nG - 0 - -\n", sentence);
    says("kind2 name a b c\nG - 0 - -\n", sentence);
}

#[test]
fn arguments() {
    let text = |head: &str| {
        format!(
            "line 1, column 8: `x` is the argument here, a number; \
             a definition of this name stands between backquotes: `{head}`"
        )
    };
    says("f(x) = x.y", &text("x"));
    says("f(x) = x(1)", &text("x"));
    says("f(x) = X.y", &text("X"));
    says("f(x) = X(1)", &text("X"));
}

/// Rows that the sheet itself would be refused by, at their places in the
/// formulas: here 7 and 11.
#[test]
fn forms_and_levels() {
    let name = "a name: 1 to 16 letters or digits, a letter first";
    says(
        "right {\n  abcdefghijklmnopq = 1 }",
        &format!(
            "line 2, column 3: the value `right.abcdefghijklmnopq`: `abcdefghijklmnopq` is not {name}"
        ),
    );
    says(
        "f(abcdefghijklmnopq) = 1",
        &format!("line 1, column 3: `abcdefghijklmnopq` is not {name}"),
    );
    formula_says(
        "1 + a.a.a.a.a.a.a.a.a",
        9,
        "the value `v`: `a.a.a.a.a.a.a.a.a` is not a path: 1 to 8 names joined by dots, \
         each of 1 to 16 letters or digits, a letter first",
    );
    let deep = format!("{}1{}", "1 + (".repeat(32), ")".repeat(32));
    formula_says(
        &deep,
        5 + 5 * 31,
        "the value `v`: an expression is at level 33; at most 32 levels are allowed",
    );
}

/// Rows 12 to 16.
#[test]
fn names_and_paths_of_the_sheet() {
    says(
        "g { a = 1\nb = 2\na = 3 }",
        "line 3, column 1: the Group `g` has a member `a` already (line 1)",
    );
    says(
        "g { A = 1\nb = 2\na = 3 }",
        "line 3, column 1: the Group `g` has a member `A` already (line 1): \
         names are compared without regard to capitals",
    );
    says(
        "right {\nSphere = 1 }\nprism = RIGHT.shpere",
        "line 3, column 15: the Group `right` has no member `shpere`; is `Sphere` (line 2) meant?",
    );
    says(
        "a = 1 +\n b",
        "line 2, column 2: the outermost Group has no member `b`",
    );
    says(
        "a = b.c\nb = 1",
        "line 1, column 7: the value `b` is no Group, so it has no member `c`",
    );
    says(
        "a = 1 + b(2)\nb = 1",
        "line 1, column 9: a call (C) has to lead to a function; `b` leads to the value `b`",
    );
    says(
        "a = b\nb = a",
        "line 1, column 1: the value `a` reaches itself: a -> b -> a",
    );
}

/// Formulas and what is hinted at, with line, column and width where it has a
/// place.
const HINTS: [(&str, &[&str]); 5] = [
    (
        "# one\nright { sphere = 1 }\nprism = rigth.sphere",
        &[
            "2:1:5 `right` is here",
            "the outermost Group has `right` and `prism`",
        ],
    ),
    (
        "a = 1\n  b = 2\na = 3",
        &[
            "1:1:1 `a` is here first",
            "give one of them another name, or another Group",
        ],
    ),
    (
        "f(x) = x\na = f",
        &["1:1:1 the function `f` is here", "call it: `f(...)`"],
    ),
    (
        "g { f = 1 }\na = g.f(2)",
        &["1:5:1 the value `g.f` is here", "read it: `g.f`"],
    ),
    (
        "a = 1 + `b`\nb = a",
        &[
            "1:9:3 `a` reads `b`",
            "2:5:1 `b` reads `a`",
            "no value may reach itself: change one of these lines",
        ],
    ),
];

/// Hints speak of lines of the formulas, and show formulas.
#[test]
fn hints() {
    for (formulas, hints) in HINTS {
        let mistake = formula::write(formulas.as_bytes()).expect_err("a mistake");
        let said = mistake.help.iter().map(|help| {
            let Some(mark) = help.mark else {
                return help.sentence.clone();
            };
            let (line, column, width) = (mark.line, mark.column, mark.width);
            format!("{line}:{column}:{width} {}", help.sentence)
        });
        assert_eq!(said.collect::<Vec<String>>(), hints, "{formulas}");
    }
}

#[test]
fn numbers_of_rows() {
    for (formulas, row) in [
        ("a = ", None),
        ("a = 0 a = 1", Some(12)),
        ("a = b", Some(13)),
        ("a { } b = a.c", Some(14)),
        ("a { } b = a", Some(15)),
        ("a = a", Some(16)),
    ] {
        let mistake = formula::write(formulas.as_bytes()).expect_err("a mistake");
        assert_eq!(mistake.row, row, "{formulas}");
    }
}

/// 1,024 lines are allowed; the first line too many is where it stands.
#[test]
fn too_many_lines() {
    let most = "a { ".repeat(1_023) + &"}".repeat(1_023);
    assert!(formula::write(most.as_bytes()).is_ok());
    let sentence = "up to here the sheet has 1024 lines, and no more are allowed";
    let groups = "a { ".repeat(1_024) + &"}".repeat(1_024);
    says(&groups, &format!("line 1, column 4093: {sentence}"));
    let sum = format!("v = 1{}", "\n+ 1".repeat(511));
    says(&sum, &format!("line 512, column 1: {sentence}"));
}

/// Nothing is too deep to be read: a million of each.
#[test]
fn deep_texts() {
    let many = 1_000_000;
    let wanted = "a number, a name, `(` or `if` has to stand here, not the end of the text";
    for open in ["(", "if ", "f("] {
        let text = format!("v = {}", open.repeat(many));
        let mistake = formula::write(text.as_bytes()).expect_err("a mistake");
        assert_eq!(mistake.sentence, wanted, "{open}");
    }
    let text = format!("v = {}1{}", "(".repeat(many), ")".repeat(many));
    assert_eq!(formula::write(text.as_bytes()), formula::write(b"v = 1"));
    let text = "a {".repeat(many);
    assert_eq!(
        formula::write(text.as_bytes()).expect_err("a mistake").row,
        Some(3)
    );
}

const RULES: &str = "the tie rule is written `halves away from zero` or `halves to even`";

/// The second word of the tie rule is another, and says of neither rule that it is
/// meant.
#[test]
fn tie_rules_of_another_word() {
    for (formulas, column, word) in [
        ("halves even", 8, "`even`"),
        ("halves up", 8, "`up`"),
        ("halves `to` even", 8, "`to`"),
        ("halves to.even", 8, "`to.even`"),
        ("halves - even", 8, "`-`"),
        ("halves if", 8, "`if`"),
        ("halves\n", 7, "the end of the text"),
    ] {
        let words = format!("`away` or `to` has to stand here, not {word}; {RULES}");
        says(formulas, &format!("line 1, column {column}: {words}"));
    }
}

/// A later word is another, so that one rule is meant.
#[test]
fn tie_rules_misspelt() {
    for (formulas, place, wanted, word, rule) in [
        ("halves to evn", (1, 11), "even", "evn", "to even"),
        ("halves to zero", (1, 11), "even", "zero", "to even"),
        ("halves to = 5", (1, 11), "even", "=", "to even"),
        (
            "halves away of zero",
            (1, 13),
            "from",
            "of",
            "away from zero",
        ),
        (
            "halves away from\nx = 5",
            (2, 1),
            "zero",
            "x",
            "away from zero",
        ),
    ] {
        let words = format!(
            "line {}, column {}: `{wanted}` has to stand here, not `{word}`; \
             the tie rule is written `halves {rule}`",
            place.0, place.1
        );
        says(formulas, &words);
    }
}

/// The first word is another. Further down it has to be near, since a sign may be
/// missing before it.
#[test]
fn tie_rules_by_another_name() {
    for (formulas, column, word) in [
        ("halfs to even  x = 5", 1, "halfs"),
        ("half to even  x = 5", 1, "half"),
        ("ties to even  x = 5", 1, "ties"),
        ("Halve away from zero", 1, "Halve"),
        ("x = 5  halvs to even", 8, "halvs"),
    ] {
        let words = format!("`halves` has to stand here, not `{word}`; {RULES}");
        says(formulas, &format!("line 1, column {column}: {words}"));
    }
}

/// What is said of a tie rule, and the other place that it has to do with.
#[track_caller]
fn ties_say(formulas: &str, words: &str, place: (Mark, &str)) {
    let mistake = formula::write(formulas.as_bytes()).expect_err("a mistake");
    assert_eq!(mistake.to_string(), words, "{formulas}");
    let help = mistake.help.first().expect("another place");
    assert_eq!(
        (help.mark, help.sentence.as_str()),
        (Some(place.0), place.1)
    );
}

/// The tie rule after a definition, in a Group, or twice.
#[test]
fn tie_rules_out_of_place() {
    let mark = |column: usize, width: usize| Mark {
        line: 1,
        column,
        width,
    };
    let first = "the first definition is here";
    let before = "the tie rule stands before the first definition";
    ties_say(
        "sphere = -325\nhalves to even",
        &format!("line 2, column 1: {before}: put `halves to even` first"),
        (mark(1, 6), first),
    );
    ties_say(
        "right { halves away from zero }",
        &format!("line 1, column 9: {before}: put `halves away from zero` first"),
        (mark(1, 5), first),
    );
    let twice = "the tie rule is said already: leave out one of the two";
    for rule in ["halves to even", "halves away from zero"] {
        ties_say(
            &format!("halves to even  {rule}"),
            &format!("line 1, column 17: {twice}"),
            (mark(1, 14), "it is here"),
        );
    }
    let mistake = formula::write(b"x = 5 halves to even y = 1").expect_err("a mistake");
    assert_eq!(mistake.mark, Some(mark(7, 14)));
}

/// A name that belongs to the formula before it is no rule.
#[test]
fn names_like_a_tie_rule() {
    says(
        "total = prism halves\nprism = 5",
        "line 2, column 1: after the name `halves` of a definition comes `=`, `(` or `{`, \
         not `prism`; if `halves` belongs to the formula before it, a sign is missing between them",
    );
    says(
        "`halves` to even",
        "line 1, column 10: after the name `halves` of a definition comes `=`, `(` or `{`, \
         not `to`; if `halves` belongs to the formula before it, a sign is missing between them",
    );
}
