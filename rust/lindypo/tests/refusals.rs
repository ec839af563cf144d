//! What a refusal says, number by number: the very words, with line and column.

use lindypo::{Help, Label, Refusal, Sheet};

const LINE_ONE: &str = "line one has to be `kind name a b c` or `kind2 name a b c`";

/// A sheet of these lines after line one.
fn sheet(lines: &str) -> Vec<u8> {
    format!("kind name a b c\n{lines}\n").into_bytes()
}

fn refusal(text: &[u8]) -> Refusal {
    let run = Sheet::read(text).and_then(|sheet| sheet.run());
    run.expect_err("a refusal")
}

#[track_caller]
fn text_says(text: &[u8], words: &str) {
    assert_eq!(refusal(text).to_string(), words);
}

/// What is said of a sheet of these lines.
#[track_caller]
fn says(lines: &str, words: &str) {
    text_says(&sheet(lines), words);
}

/// The hints of a refusal, each after the line that it is about, if that is
/// another.
#[track_caller]
fn helps(refusal: &Refusal, wanted: &[&str]) {
    let help = |help: &Help| match help.mark {
        Some(mark) => format!("line {}: {}", mark.line, help.sentence),
        None => help.sentence.clone(),
    };
    let helps: Vec<String> = refusal.help().iter().map(help).collect();
    assert_eq!(helps, wanted);
}

#[test]
fn refusal_1_length_and_end() {
    text_says(b"", "refusal 1: the text is empty");
    text_says(
        &b"x".repeat(65_537),
        "refusal 1: the text has more than 65536 bytes",
    );
    text_says(
        b"kind name a b c\nG - 0 - -",
        "refusal 1, line 2, column 10: the last line does not end with a line end (byte 10)",
    );
}

#[test]
fn refusal_1_bytes() {
    let allowed = "is not allowed; lines end with byte 10, all others are 32 to 126";
    text_says(
        b"kind name a b c\r\nG - 0 - -\r\n",
        "refusal 1, line 1, column 16: \
         2 of 2 lines end with a carriage return (byte 13; Windows line ends)",
    );
    text_says(
        b"kind2 name a b c\r\nG - 0 - -\n",
        "refusal 1, line 1, column 17: \
         1 of 2 lines ends with a carriage return (byte 13; Windows line ends)",
    );
    for (byte, name) in [
        (0, "0"),
        (9, "9 (a tab)"),
        (127, "127"),
        (195, "195 (not ASCII)"),
    ] {
        let mut text = sheet("G - 0 - -\nG x 1 - -");
        text[28] = byte;
        let words = format!("refusal 1, line 3, column 3: byte {name} {allowed}");
        text_says(&text, &words);
    }
}

/// The mark is on the rest of the line, from where it differs from the one that is
/// meant; on the first name where that has a wrong number.
#[test]
fn refusal_2() {
    for (first, column) in [
        ("", 1),
        ("Kind name a b c", 1),
        ("kind  name a b c", 6),
        ("kind name a b", 14),
        ("kind name a b c d", 16),
        ("Kind2 name a b c", 1),
        ("kind2  name a b c", 7),
        ("kind2 name a b", 15),
        ("kind2 name a b c d", 17),
        ("kind 2 name a b c", 1),
        ("kind3 name a b c", 1),
        ("kind02 name a b c", 1),
    ] {
        let text = format!("{first}\nG - 0 - -\n");
        let words = format!("refusal 2, line 1, column {column}: {LINE_ONE}");
        text_says(text.as_bytes(), &words);
    }
    let marked = |first: &str| refusal(format!("{first}\nG - 0 - -\n").as_bytes()).mark();
    let width = |first: &str| marked(first).map(|mark| mark.width);
    assert_eq!(width("kind 2 name a b c"), Some("kind 2".len()));
    assert_eq!(width("kind02 name a b c"), Some("kind02".len()));
    assert_eq!(width("kind2 name a b c d"), Some(" d".len()));
}

#[test]
fn refusal_3() {
    text_says(
        b"kind name a b c\n",
        "refusal 3: there is no line after line one; label 1 has to be `G - 0 - -`",
    );
    let many = "refusal 3: there are 1025 lines after line one; at most 1024 are allowed";
    let empty = format!("G - 0 - -{}", "\n".repeat(1_024));
    says(&empty, many);
    helps(
        &refusal(&sheet(&empty)),
        &["1024 of them are empty: leave those out"],
    );
    let full = ["G - 0 - -"; 1_025].join("\n");
    says(&full, many);
    helps(
        &refusal(&sheet(&full)),
        &["leave out what the order does not need, or send it as two sheets"],
    );
}

#[test]
fn refusal_5_number_of_fields() {
    let five = "it has to have five: kind, name, a, b, c";
    for (line, column, count) in [
        ("G", 2, "one field"),
        ("G - 0 -", 8, "4 fields"),
        ("G - 0 - - -", 11, "6 fields"),
        ("G - 0 - - more words", 11, "7 fields"),
    ] {
        let words = format!("refusal 5, line 2, column {column}: the line has {count}; {five}");
        says(line, &words);
    }
}

/// The space too many is marked.
#[test]
fn refusal_5_empty_fields() {
    says(
        "",
        "refusal 5, line 2, column 1: \
         the line is empty; it has to have five fields: kind, name, a, b, c",
    );
    says(
        "G - 0 - -\n G x 1 - -",
        "refusal 5, line 3, column 1: \
         the line begins with a space; one space stands between fields, nowhere else",
    );
    says(
        "G - 0 - -\nG x  1 - -",
        "refusal 5, line 3, column 5: \
         two spaces stand side by side; one is wanted between fields",
    );
    says(
        "G - 0 - -\nG x 1 - - ",
        "refusal 5, line 3, column 10: \
         the line ends with a space; one space stands between fields, nowhere else",
    );
}

#[test]
fn refusal_6() {
    let kinds = "the kinds are G V F N P R C A S M D I";
    for kind in ["X", "v", "-", "GG"] {
        let words = format!("refusal 6, line 3, column 1: `{kind}` is no kind; {kinds}");
        says(&format!("G - 0 - -\n{kind} x 1 3 -\nN - 1 - -"), &words);
    }
    let (long, start) = ("k".repeat(41), "k".repeat(40));
    let words = format!("refusal 6, line 2, column 1: `{start}...` is no kind; {kinds}");
    says(&format!("{long} - 0 - -"), &words);
}

#[test]
fn refusal_7_label_1() {
    for (line, column) in [
        ("V - 0 - -", 1),
        ("G x 0 - -", 3),
        ("G - 1 - -", 5),
        ("G - 0 - 1", 9),
    ] {
        let place = format!("refusal 7, line 2, column {column}");
        let words = format!("{place}: label 1 has to be `G - 0 - -`, the outermost Group");
        says(line, &words);
    }
}

#[test]
fn refusal_7_forms() {
    let name = "a name: 1 to 16 letters or digits, a letter first";
    let path =
        "a path: 1 to 8 names joined by dots, each of 1 to 16 letters or digits, a letter first";
    let label = "a label: 1 to 3, with no leading zero";
    let number =
        "a whole number: -1000000000 to 1000000000, with no leading zero, plus sign or `-0`";
    let missing = "`-` (missing)";
    for (line, column, field, wanted) in [
        ("G 1a 1 - -", 3, "name of a Group (G) is `1a`", name),
        ("G - 1 - -", 3, "name of a Group (G) is `-`", name),
        ("F x 01 3 -", 5, "a of a function (F) is `01`", label),
        ("V x 1 4 -", 7, "b of a value (V) is `4`", label),
        ("V x 1 3 3", 9, "c of a value (V) is `3`", missing),
        ("N - 05 - -", 5, "a of a number (N) is `05`", number),
        (
            "N - 1000000001 - -",
            5,
            "a of a number (N) is `1000000001`",
            number,
        ),
        ("N n 5 - -", 3, "name of a number (N) is `n`", missing),
        ("P - 1 - -", 5, "a of an argument (P) is `1`", missing),
        ("R a..b - - -", 3, "name of a read (R) is `a..b`", path),
        ("C f - - -", 5, "a of a call (C) is `-`", label),
        ("A - 3 x -", 7, "b of a sum (A) is `x`", label),
        ("I - 3 3 -", 9, "c of a choice (I) is `-`", label),
    ] {
        let place = format!("refusal 7, line 3, column {column}");
        let words = format!("{place}: field {field}; it has to be {wanted}");
        says(&format!("G - 0 - -\n{line}\nN - 1 - -"), &words);
    }
}

#[test]
fn refusal_8_groups() {
    let group = "it has to lead to a Group with a smaller label than";
    for (lines, label, found) in [
        (
            "V x 1 4 -\nV y 2 5 -\nN - 1 - -\nN - 2 - -",
            3,
            "label 2, a value (V)",
        ),
        ("G x 2 - -", 2, "this very line"),
        ("G x 3 - -\nG y 1 - -", 2, "label 3, a Group (G)"),
    ] {
        let place = format!("refusal 8, line {}, column 5", label + 1);
        let words = format!("{place}: field a leads to {found}; {group} {label}");
        says(&format!("G - 0 - -\n{lines}"), &words);
    }
}

#[test]
fn refusal_8_bodies_and_operands() {
    let expression = "it has to lead to an expression with a larger label than";
    for (lines, place, found) in [
        (
            "V x 1 1 -",
            "line 3, column 7: field b",
            "label 1, a Group (G)",
        ),
        ("V x 1 2 -", "line 3, column 7: field b", "this very line"),
    ] {
        let words = format!("refusal 8, {place} leads to {found}; {expression} 2");
        says(&format!("G - 0 - -\n{lines}"), &words);
    }
    says(
        "G - 0 - -\nV x 1 4 -\nN - 1 - -\nI - 5 6 3\nN - 1 - -\nN - 2 - -",
        &format!(
            "refusal 8, line 5, column 9: field c leads to label 3, a number (N); {expression} 4"
        ),
    );
}

#[test]
fn refusal_9() {
    let value = "G - 0 - -\nV x 1 3 -";
    says(
        &format!("{value}\nN - 1 - -\nN - 2 - -"),
        "refusal 9, line 5, column 1: no field uses this expression; one field has to",
    );
    says(
        &format!("{value}\nA - 4 4 -\nN - 1 - -"),
        "refusal 9, line 5, column 1: this expression is used twice, by label 3",
    );
    says(
        "G - 0 - -\nV x 1 4 -\nV y 1 4 -\nN - 1 - -",
        "refusal 9, line 5, column 1: this expression is used twice, by labels 2 and 3",
    );
    says(
        "G - 0 - -\nV x 1 5 -\nV y 1 4 -\nI - 5 5 5\nN - 1 - -",
        "refusal 9, line 6, column 1: this expression is used 4 times, by labels 2 and 4",
    );
    let values: String = (2..10).map(|at| format!("V v{at} 1 10 -\n")).collect();
    says(
        &format!("G - 0 - -\n{values}N - 1 - -"),
        "refusal 9, line 11, column 1: \
         this expression is used 8 times, by labels 2, 3, 4, 5, 6, 7 and 2 more",
    );
}

#[test]
fn refusal_10() {
    says(
        "G - 0 - -\nG right 1 - -\nV x 2 4 -\nS - 5 6 -\nN - 1 - -\nP - - - -",
        "refusal 10, line 7, column 1: \
         an argument (P) stands in the value `right.x`; only a function has one",
    );
}

#[test]
fn refusal_11() {
    let calls: String = (4..36)
        .map(|label| format!("C f {} - -\n", label + 1))
        .collect();
    let lines = format!("G - 0 - -\nF f 1 37 -\nV deep 1 4 -\n{calls}N - 1 - -\nP - - - -");
    says(
        &lines,
        "refusal 11, line 37, column 1: \
         this expression is at level 33 in the value `deep`; at most 32 levels are allowed",
    );
}

#[test]
fn refusal_12() {
    says(
        "G - 0 - -\nV x 1 3 -\nN - 1 - -\nF x 1 5 -\nP - - - -",
        "refusal 12, line 5, column 3: the outermost Group has a member `x` already (line 3)",
    );
    says(
        "G - 0 - -\nG g 1 - -\nG h 2 - -\nG h 1 - -\nG h 2 - -",
        "refusal 12, line 6, column 3: the Group `g` has a member `h` already (line 4)",
    );
}

/// The name that is there is said as it is written there.
#[test]
fn refusal_12_capitals() {
    says(
        "G - 0 - -\nG right 1 - -\nG left 1 - -\nV Prism 2 5 -\nN - 1 - -\nF prism 2 7 -\nP - - - -",
        "refusal 12, line 7, column 3: the Group `right` has a member `Prism` already (line 5): \
         names are compared without regard to capitals",
    );
    // kinds and column names keep their case
    says(
        "G - 0 - -\ng right 1 - -",
        "refusal 6, line 3, column 1: `g` is no kind; the kinds are G V F N P R C A S M D I",
    );
    text_says(
        b"Kind name a b c\nG - 0 - -\n",
        &format!("refusal 2, line 1, column 1: {LINE_ONE}"),
    );
}

#[test]
fn refusal_13() {
    says(
        "G - 0 - -\nV x 1 3 -\nR y - - -",
        "refusal 13, line 4, column 3: the outermost Group has no member `y`",
    );
    says(
        "G - 0 - -\nG g 1 - -\nG h 2 - -\nF f 3 5 -\nA - 6 7 -\nP - - - -\nR y.z - - -",
        "refusal 13, line 8, column 3: \
         neither the Group `g.h` nor a Group around it has a member `y`",
    );
    // of names that are as near, the one that the path would lead to
    says(
        "G - 0 - -\nV size 1 5 -\nG right 1 - -\nV SIZE 3 6 -\nN - 1 - -\nR Sise - - -",
        "refusal 13, line 7, column 3: neither the Group `right` nor a Group around it \
         has a member `Sise`; is `SIZE` (line 5) meant?",
    );
}

/// The name that is not found is marked, not the whole path.
#[test]
fn refusal_14() {
    says(
        "G - 0 - -\nG g 1 - -\nV x 1 4 -\nR g.x - - -",
        "refusal 14, line 5, column 5: the Group `g` has no member `x`",
    );
    says(
        "G - 0 - -\nG g 1 - -\nG h 2 - -\nV x 1 5 -\nR g.h.long.z - - -",
        "refusal 14, line 6, column 7: the Group `g.h` has no member `long`",
    );
    says(
        "G - 0 - -\nV x 1 3 -\nR x.y - - -",
        "refusal 14, line 4, column 5: the value `x` is no Group, so it has no member `y`",
    );
    says(
        "G - 0 - -\nF f 1 3 -\nC f.g 4 - -\nP - - - -",
        "refusal 14, line 4, column 5: the function `f` is no Group, so it has no member `g`",
    );
    says(
        "G - 0 - -\nG right 1 - -\nV x 1 5 -\nV prism 2 6 -\nR Right.prsim - - -\nN - 1 - -",
        "refusal 14, line 6, column 9: \
         the Group `right` has no member `prsim`; is `prism` (line 5) meant?",
    );
    let text = sheet("G - 0 - -\nG g 1 - -\nG h 2 - -\nV x 1 5 -\nR g.h.long.z - - -");
    assert_eq!(refusal(&text).mark().map(|mark| mark.width), Some(4));
}

#[test]
fn refusal_15() {
    says(
        "G - 0 - -\nF f 1 3 -\nR f - - -",
        "refusal 15, line 4, column 3: \
         a read (R) has to lead to a value; `f` leads to the function `f`",
    );
    says(
        "G - 0 - -\nG g 1 - -\nG h 2 - -\nV x 2 5 -\nR h - - -",
        "refusal 15, line 6, column 3: \
         a read (R) has to lead to a value; `h` leads to the Group `g.h`",
    );
    says(
        "G - 0 - -\nV x 1 3 -\nC x 4 - -\nN - 1 - -",
        "refusal 15, line 4, column 3: \
         a call (C) has to lead to a function; `x` leads to the value `x`",
    );
}

#[test]
fn refusal_16() {
    says(
        "G - 0 - -\nV x 1 3 -\nR x - - -",
        "refusal 16, line 3, column 3: the value `x` reaches itself: x -> x",
    );
    says(
        "G - 0 - -\nV x 1 3 -\nR g.y - - -\nG g 1 - -\nV y 4 6 -\nC f 7 - -\nN - 1 - -\n\
         F f 1 9 -\nR x - - -",
        "refusal 16, line 3, column 3: the value `x` reaches itself: x -> g.y -> f -> x",
    );
    // The middle of a long way is left out of the sentence; every step is shown.
    let value = |at: usize| format!("V v{at} 1 {} -\nR v{} - - -\n", 2 * at + 3, (at + 1) % 10);
    let values: String = (0..10).map(value).collect();
    says(
        &format!("G - 0 - -\n{}", values.trim_end()),
        "refusal 16, line 3, column 3: the value `v0` reaches itself: \
         v0 -> v1 -> v2 -> v3 -> ... -> v7 -> v8 -> v9 -> v0",
    );
    let text = sheet(&format!("G - 0 - -\n{}", values.trim_end()));
    let lines = refusal(&text)
        .help()
        .iter()
        .filter_map(|help| help.mark)
        .count();
    assert_eq!(lines, 10);
}

/// A value 2 that calls a function 3, which reads a value 5 of the Group 4, and
/// a value 12 that reads 5 itself.
const ORDERED: &str = "G - 0 - -\nV total 1 6 -\nF half 1 8 -\nG right 1 - -\nV sphere 4 11 -\n\
                       C half 7 - -\nN - 8 - -\nD - 9 10 -\nR right.sphere - - -\nP - - - -\n\
                       N - -325 - -\nV copy 1 13 -\nR right.sphere - - -";

/// What Follow says of an order, and how to mend it.
#[track_caller]
fn order_says(order: &[Label], words: &str, wanted: &[&str]) {
    let text = sheet(ORDERED);
    let sheet = Sheet::read(&text).expect("a sheet that reads");
    let refusal = sheet.follow(order).expect_err("a refusal");
    assert_eq!(refusal.to_string(), words);
    helps(&refusal, wanted);
}

#[test]
fn refusal_17_no_value() {
    let values = "an order lists the values: 2, 5 and 12";
    order_says(
        &[5, 2, 3, 12],
        "refusal 17, position 3 of the order: label 3 is a function (F), not a value",
        &["line 4: label 3 is here", values],
    );
    order_says(
        &[10],
        "refusal 17, position 1 of the order: label 10 is an argument (P), not a value",
        &["line 11: label 10 is here", values],
    );
    order_says(
        &[5, 0],
        "refusal 17, position 2 of the order: there is no label 0",
        &[values],
    );
    let largest = Label::MAX;
    order_says(
        &[largest],
        &format!("refusal 17, position 1 of the order: there is no label {largest}"),
        &[values],
    );
}

#[test]
fn refusal_17_twice_or_missing() {
    order_says(
        &[5, 2, 5, 12],
        "refusal 17, position 3 of the order: `right.sphere` is listed already, at position 1",
        &["leave out one of the two"],
    );
    order_says(
        &[5, 2],
        "refusal 17, position 3 of the order: the value `copy` (label 12) is not listed",
        &[
            "line 13: label 12 is here",
            "put it after every value that it reaches",
        ],
    );
    order_says(
        &[],
        "refusal 17, position 1 of the order: the value `total` (label 2) is not listed",
        &[
            "line 3: label 2 is here",
            "3 values are not listed: 2, 5 and 12",
        ],
    );
    let text = sheet("G - 0 - -");
    let none = Sheet::read(&text).expect("a sheet that reads");
    let refusal = none.follow(&[1]).expect_err("a refusal");
    let empty = "the sheet has no values: its order is empty";
    helps(&refusal, &["line 2: label 1 is here", empty]);
}

#[test]
fn refusal_18() {
    order_says(
        &[12, 5, 2],
        "refusal 18, position 1 of the order: \
         `copy` reaches `right.sphere`, which is not listed earlier",
        &[
            "line 14: `copy` reads `right.sphere`",
            "put `right.sphere` (label 5), now at position 2, before position 1",
        ],
    );
    order_says(
        &[2, 5, 12],
        "refusal 18, position 1 of the order: \
         `total` reaches `right.sphere`, which is not listed earlier: \
         total -> half -> right.sphere",
        &[
            "line 7: `total` calls `half`",
            "line 10: `half` reads `right.sphere`",
            "put `right.sphere` (label 5), now at position 2, before position 1",
        ],
    );
}

/// `prism` = dec * 3 / 100 reads `right.dec`; `copy` has no number in it, and
/// `five` is a function whose body is one.
const PAIRED: &str = "G - 0 - -\n\
    G right 1 - -\n\
    V prism 1 8 -\n\
    V dec 2 7 -\n\
    V copy 1 13 -\n\
    F five 1 14 -\n\
    N - 350 - -\n\
    D - 9 12 -\n\
    M - 10 11 -\n\
    R right.dec - - -\n\
    N - 3 - -\n\
    N - 100 - -\n\
    R right.dec - - -\n\
    N - 5 - -";

/// What is said of a list of pairs for that sheet, and the hints.
#[track_caller]
fn pairs_say(pairs: &[(Label, i64)], words: &str, wanted: &[&str]) {
    let text = sheet(PAIRED);
    let sheet = Sheet::read(&text).expect("a sheet that reads");
    let refusal = sheet.retouch(pairs).expect_err("a refusal");
    assert_eq!(refusal.to_string(), words);
    helps(&refusal, wanted);
}

#[test]
fn refusal_19() {
    let most = [(7, 1); 1024];
    let text = sheet(PAIRED);
    let sheet = Sheet::read(&text).expect("a sheet that reads");
    let retouched = sheet.retouch(&most).expect("an answer");
    assert_eq!(retouched.changes.len(), 1024);
    pairs_say(
        &[(1, 2_000_000_000); 1025],
        "refusal 19: the list has 1025 pairs, and may have 1024 at most",
        &["put the first 1024 numbers into the sheet, and retouch that with the others"],
    );
}

#[test]
fn refusal_20_expressions() {
    pairs_say(
        &[(7, 250), (9, 1)],
        "refusal 20, line 10, column 1, pair 2 of the list: \
         label 9 is a product (M), not a number",
        &[
            "line 12: label 11 is here",
            "name an N line; the one in it is label 11",
        ],
    );
    pairs_say(
        &[(10, 1)],
        "refusal 20, line 11, column 1, pair 1 of the list: label 10 is a read (R), not a number",
        &[
            "line 8: label 7 is here",
            "name an N line; the one that it reaches is label 7",
        ],
    );
    let all = "name an N line; they are labels 7, 11, 12 and 14";
    for label in [0, 15, Label::MAX] {
        let words = format!("refusal 20, pair 1 of the list: there is no label {label}");
        pairs_say(&[(label, 1)], &words, &[all]);
    }
    let text = sheet("G - 0 - -");
    let none = Sheet::read(&text).expect("a sheet that reads");
    let refusal = none.retouch(&[(2, 1)]).expect_err("a refusal");
    helps(
        &refusal,
        &["the sheet has no N lines, so no number can be changed"],
    );
    let refusal = none.retouch(&[(1, 1)]).expect_err("a refusal");
    helps(&refusal, &["no N line is in it, nor in what it reaches"]);
}

#[test]
fn refusal_20_definitions() {
    pairs_say(
        &[(4, 250)],
        "refusal 20, line 5, column 3, pair 1 of the list: \
         label 4 is the value `right.dec`, not its number",
        &["line 8: label 7 is its number", "name label 7"],
    );
    pairs_say(
        &[(6, 250)],
        "refusal 20, line 7, column 3, pair 1 of the list: \
         label 6 is the function `five`, not its number",
        &["line 15: label 14 is its number", "name label 14"],
    );
    pairs_say(
        &[(3, 250)],
        "refusal 20, line 9, column 1, pair 1 of the list: \
         the body of `prism` is not a number: line 9 is a quotient (D)",
        &[
            "line 12: label 11 is here",
            "line 13: label 12 is here",
            "name an N line; those in it are labels 11 and 12",
        ],
    );
    pairs_say(
        &[(5, 250)],
        "refusal 20, line 14, column 1, pair 1 of the list: \
         the body of `copy` is not a number: line 14 is a read (R)",
        &[
            "line 8: label 7 is here",
            "name an N line; the one that it reaches is label 7",
        ],
    );
    pairs_say(
        &[(2, 250)],
        "refusal 20, line 3, column 3, pair 1 of the list: the Group `right` is not a number",
        &[
            "line 8: label 7 is here",
            "name an N line; the one in it is label 7",
        ],
    );
    pairs_say(
        &[(1, 250)],
        "refusal 20, line 2, column 1, pair 1 of the list: the outermost Group is not a number",
        &[
            "line 8: label 7 is here",
            "line 12: label 11 is here",
            "line 13: label 12 is here",
            "name an N line; those in it are labels 7, 11, 12 and 14",
        ],
    );
}

#[test]
fn refusal_21() {
    let range = "a number is from -1000000000 to 1000000000";
    pairs_say(
        &[(7, 1_000_000_000), (7, 1_000_000_001), (3, 1)],
        "refusal 21, line 8, column 5, pair 2 of the list: \
         1000000001 is above 1000000000, the largest number",
        &[range],
    );
    pairs_say(
        &[(7, i64::MIN)],
        "refusal 21, line 8, column 5, pair 1 of the list: \
         -9223372036854775808 is below -1000000000, the smallest number",
        &[range],
    );
}

/// Refusals of Run come first, whatever the list is.
#[test]
fn refusals_before_the_list() {
    let text = sheet("G - 0 - -\nV x 1 3 -\nR x - - -");
    let cycle = Sheet::read(&text).expect("a sheet that reads");
    for pairs in [&[(0, 0); 1025][..], &[]] {
        let refusal = cycle.retouch(pairs).expect_err("a refusal");
        assert_eq!(Err(refusal), cycle.run());
    }
}
