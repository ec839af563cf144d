//! Rows 1 to 16: number and place of each refusal, and which one wins.

use crate::{planned, read_refusal, reads, refuses, rubbish, sheet, Builder};

/// A sheet of exactly this many bytes that reads up to row 3.
fn text_of_length(length: usize) -> Vec<u8> {
    let mut text = sheet("G - 0 - -");
    text.resize(length - 1, b'x');
    text.push(b'\n');
    text
}

#[test]
fn row_1_text() {
    assert_eq!(read_refusal(b""), Some((1, 0)));
    assert_eq!(read_refusal(b"kind name a b c"), Some((1, 0)));
    assert_eq!(read_refusal(b"kind name a b c\nG - 0 - -"), Some((1, 0)));
    for byte in [0, 9, 11, 13, 31, 127, 128, 255] {
        let mut text = sheet("G - 0 - -\nN - 1 - -");
        let at = text.len() - 4;
        text[at] = byte;
        assert_eq!(read_refusal(&text), Some((1, 0)), "byte {byte}");
        assert_eq!(read_refusal(&[byte, b'\n']), Some((1, 0)));
    }
    for byte in [32, 126] {
        assert_eq!(read_refusal(&[byte, b'\n']), Some((2, 0)));
    }
    assert_eq!(read_refusal(&text_of_length(65_536)), Some((5, 2)));
    assert_eq!(read_refusal(&text_of_length(65_537)), Some((1, 0)));
    assert_eq!(
        reference::print(&text_of_length(65_537)),
        b"refusal place\n1 0\n"
    );
    // The first row wins: line one differs too, and there are no lines.
    assert_eq!(read_refusal(b"\x01\n"), Some((1, 0)));
}

/// A sheet of 65,536 bytes that reads: long paths, then Groups that fill up.
#[test]
fn row_1_allows_the_longest_sheet() {
    let mut builder = Builder::new();
    let mut group = 1;
    for _ in 0..7 {
        group = builder.group("abcdefghijklmnop", group);
    }
    builder.define("V", "v", group, "1");
    let path = "abcdefghijklmnop.".repeat(7) + "v";
    while builder.text().len() < 65_000 {
        let name = format!("v{}", builder.lines.len());
        builder.define("V", &name, 1, &format!("R:{path}"));
    }
    let mut text = builder.text();
    while text.len() < 65_536 {
        // A line of 13 to 25 bytes, its name 4 to 16 of them.
        let left = 65_536 - text.len();
        let length = if left <= 25 {
            left
        } else {
            (left - 13).min(25)
        };
        let number = left % 1_000;
        let name = format!("x{number:y>width$}", width = length - 10);
        text.extend_from_slice(format!("G {name} 1 - -\n").as_bytes());
    }
    assert_eq!(text.len(), 65_536);
    assert_eq!(read_refusal(&text), None);
    text.extend_from_slice(b"G z 1 - -\n");
    assert_eq!(read_refusal(&text), Some((1, 0)));
}

#[test]
fn row_2_line_one() {
    for first in [
        "",
        "kind name a b",
        "kind name a b c ",
        " kind name a b c",
        "kind name a b c d",
        "kind  name a b c",
        "Kind name a b c",
        "kind3 name a b c",
    ] {
        let text = format!("{first}\nG - 0 - -\n");
        assert_eq!(read_refusal(text.as_bytes()), Some((2, 0)), "{first:?}");
    }
    assert_eq!(read_refusal(b"\n"), Some((2, 0)));
    assert_eq!(read_refusal(b"kind name a b\n"), Some((2, 0)));
}

fn values(count: usize) -> Vec<u8> {
    let mut builder = Builder::new();
    for value in 0..count {
        builder.define("V", &format!("v{value}"), 1, "1");
    }
    builder.text()
}

#[test]
fn row_3_number_of_lines() {
    assert_eq!(read_refusal(b"kind name a b c\n"), Some((3, 0)));
    let mut longest = values(511);
    longest.extend_from_slice(b"G g 1 - -\n");
    assert_eq!(read_refusal(&longest), None);
    longest.extend_from_slice(b"G h 1 - -\n");
    assert_eq!(read_refusal(&longest), Some((3, 0)));
    let mut empty = b"kind name a b c\n".to_vec();
    empty.resize(16 + 1_024, b'\n');
    assert_eq!(read_refusal(&empty), Some((5, 1)));
    empty.push(b'\n');
    assert_eq!(read_refusal(&empty), Some((3, 0)));
}

#[test]
fn row_4_stands_between_rows_3_and_5() {
    let four = |text: &[u8], cells: usize| {
        let mut table = rubbish(cells);
        reference::read(text, &mut table).err().map(crate::pair)
    };
    assert_eq!(four(b"kind name a b c\n", 0), Some((3, 0)));
    assert_eq!(four(b"kind name a b c\n\n", 7), Some((4, 1)));
    assert_eq!(four(b"kind name a b c\n\n", 8), Some((5, 1)));
    assert_eq!(four(b"kind name a b\n\n", 7), Some((2, 0)));
}

#[test]
fn row_5_fields() {
    refuses("G - 0 -", 5, 1);
    refuses("G - 0 - - -", 5, 1);
    refuses("G - 0 - - ", 5, 1);
    refuses("G  - 0 - -", 5, 1);
    let bare = |line: &str| {
        let text = format!("kind name a b c\nG - 0 - -\n{line}\n");
        read_refusal(text.as_bytes())
    };
    for line in [
        "",
        " ",
        "    ",
        "     ",
        " P - - - -",
        "P - - -  ",
        "P - - -",
        "P",
        "P - - - - -",
    ] {
        assert_eq!(bare(line), Some((5, 2)), "{line:?}");
    }
    // Field 5 of four fields: the count wins over the kind and the forms.
    refuses("X", 5, 1);
    refuses("G - 0 - -\nX 1 2 3 4 5", 5, 2);
}

#[test]
fn row_6_kind() {
    for kind in ["X", "g", "GG", "-", "1", "H", "K", "Y", "Q", "B"] {
        refuses(&format!("G - 0 - -\n{kind} - - - -"), 6, 2);
        refuses(&format!("{kind} - 0 - -"), 6, 1);
    }
    // The kind wins over the forms in its line, an earlier line over both.
    refuses("G - 0 - -\nX ? ? ? ?", 6, 2);
    refuses("G - 0 - -\nN - x - -\nX - - - -", 7, 2);
    refuses("G - 0 - -\nX - - - -\nG", 6, 2);
}

#[test]
fn row_7_label_1() {
    for line in [
        "V - 0 - -",
        "G g 0 - -",
        "G - 1 - -",
        "G - - - -",
        "G - 0 1 -",
        "G - 0 - 1",
        "G - 00 - -",
        "P - - - -",
        "N - 0 - -",
    ] {
        refuses(line, 7, 1);
    }
}

/// Label 2 with a fault in one field, in a sheet of six labels.
#[track_caller]
fn wrong_form(line: &str) {
    let rest = "N - 1 - -\nN - 1 - -\nN - 1 - -\nN - 1 - -";
    refuses(&format!("G - 0 - -\n{line}\n{rest}"), 7, 2);
}

#[track_caller]
fn right_form(line: &str) {
    let rest = "N - 1 - -\nN - 1 - -\nN - 1 - -\nN - 1 - -";
    let refusal = read_refusal(&sheet(&format!("G - 0 - -\n{line}\n{rest}")));
    assert!(refusal.is_some_and(|(number, _)| number > 7), "{line}");
}

#[test]
fn row_7_missing_and_unwanted_fields() {
    for (line, wanted) in [
        ("G x 1 - -", 2),
        ("V x 1 3 -", 3),
        ("F x 1 3 -", 3),
        ("N - 5 - -", 1),
        ("P - - - -", 0),
        ("R x - - -", 1),
        ("C x 3 - -", 2),
        ("A - 3 4 -", 2),
        ("S - 3 4 -", 2),
        ("M - 3 4 -", 2),
        ("D - 3 4 -", 2),
        ("I - 3 4 5", 3),
    ] {
        let fields: Vec<&str> = line.split(' ').collect();
        let present = fields[1..].iter().filter(|&&field| field != "-").count();
        assert_eq!(present, wanted);
        right_form(line);
        for at in 1..5 {
            let mut other = fields.clone();
            let fills: &[&str] = if fields[at] == "-" {
                &["1", "3", "x", "--", "0"]
            } else {
                &["-", "--", "?", "3x", "-x"]
            };
            for fill in fills {
                other[at] = fill;
                wrong_form(&other.join(" "));
            }
        }
    }
}

#[test]
fn row_7_names_and_paths() {
    for name in ["a", "Z", "a9", "abcdefghijklmnop", "z0123456789ABCDE"] {
        right_form(&format!("V {name} 1 3 -"));
        right_form(&format!("R {name} - - -"));
        right_form(&format!("C {name}.{name} 3 - -"));
    }
    for name in ["9a", "a_b", "a-b", "abcdefghijklmnopq", "1", "a!", "~"] {
        wrong_form(&format!("V {name} 1 3 -"));
        wrong_form(&format!("R {name} - - -"));
        wrong_form(&format!("R a.{name} - - -"));
        wrong_form(&format!("C {name}.a 3 - -"));
    }
    wrong_form("V a.b 1 3 -");
    right_form("R a.b.c.d.e.f.g.h - - -");
    wrong_form("R a.b.c.d.e.f.g.h.i - - -");
    for path in [".", "..", ".a", "a.", "a..b", "a.b."] {
        wrong_form(&format!("R {path} - - -"));
    }
    let longest = ["abcdefghijklmnop"; 8].join(".");
    right_form(&format!("R {longest} - - -"));
    wrong_form(&format!("R {longest}q - - -"));
}

#[test]
fn row_7_labels() {
    for label in ["1", "2", "6"] {
        right_form(&format!("V x {label} 3 -"));
        right_form(&format!("V x 1 {label} -"));
        right_form(&format!("I - 3 4 {label}"));
    }
    for label in [
        "0",
        "7",
        "10",
        "01",
        "00",
        "+1",
        "-1",
        "-0",
        "1.",
        "x1",
        "99999999999999999999",
    ] {
        wrong_form(&format!("V x {label} 3 -"));
        wrong_form(&format!("V x 1 {label} -"));
        wrong_form(&format!("I - 3 4 {label}"));
    }
    wrong_form("V x 18446744073709551617 3 -");
    wrong_form("V x 4294967297 3 -");
}

#[test]
fn row_7_numbers() {
    for number in [
        "0",
        "1",
        "-1",
        "9",
        "10",
        "-10",
        "1000000000",
        "-1000000000",
        "999999999",
    ] {
        right_form(&format!("N - {number} - -"));
    }
    for number in [
        "-0",
        "00",
        "+1",
        "01",
        "-01",
        "1000000001",
        "-1000000001",
        "9999999999",
        "10000000000",
        "-10000000000",
        "--1",
        "1-",
        "1e3",
        "0x1",
        "1.0",
        "18446744073709551616",
        "x",
        "--",
    ] {
        wrong_form(&format!("N - {number} - -"));
    }
}

#[test]
fn row_8_groups() {
    // From here on: definitions first, then bodies.
    refuses("G - 0 - -\nG g 2 - -", 8, 2);
    refuses("G - 0 - -\nG g 3 - -\nG h 1 - -", 8, 2);
    refuses("G - 0 - -\nV v 1 4 -\nG g 2 - -\nN - 1 - -", 8, 3);
    refuses("G - 0 - -\nF f 1 4 -\nG g 2 - -\nN - 1 - -", 8, 3);
    refuses("G - 0 - -\nV v 3 4 -\nG g 1 - -\nN - 1 - -", 8, 2);
    refuses(
        "G - 0 - -\nV v 1 3 -\nN - 1 - -\nF f 3 5 -\nN - 1 - -",
        8,
        4,
    );
    reads("G - 0 - -\nG g 1 - -\nG h 2 - -\nV v 3 5 -\nN - 1 - -");
}

#[test]
fn row_8_bodies_and_operands() {
    refuses("G - 0 - -\nV v 1 1 -", 8, 2);
    refuses("G - 0 - -\nV v 1 2 -", 8, 2);
    refuses("G - 0 - -\nV v 1 3 -\nG g 1 - -", 8, 2);
    refuses("G - 0 - -\nV v 1 3 -\nV w 1 4 -\nN - 1 - -", 8, 2);
    refuses("G - 0 - -\nN - 1 - -\nV v 1 2 -", 8, 3);
    refuses("G - 0 - -\nV v 1 3 -\nA - 3 4 -\nN - 1 - -", 8, 3);
    refuses(
        "G - 0 - -\nV v 1 4 -\nN - 1 - -\nA - 3 5 -\nN - 1 - -",
        8,
        4,
    );
    refuses("G - 0 - -\nV v 1 3 -\nA - 4 2 -\nN - 1 - -", 8, 3);
    refuses(
        "G - 0 - -\nV v 1 3 -\nI - 4 5 1\nN - 1 - -\nN - 1 - -",
        8,
        3,
    );
    refuses("G - 0 - -\nV v 1 3 -\nC f 2 - -", 8, 3);
    // Row 8 anywhere wins over row 9 below it, and over rows 12 and 13.
    refuses(
        "G - 0 - -\nN - 1 - -\nV v 1 5 -\nV v 4 5 -\nR x - - -",
        8,
        4,
    );
}

#[test]
fn row_9_uses() {
    refuses("G - 0 - -\nN - 1 - -", 9, 2);
    refuses("G - 0 - -\nV v 1 4 -\nN - 1 - -\nN - 1 - -", 9, 3);
    refuses("G - 0 - -\nV v 1 4 -\nV w 1 4 -\nN - 1 - -", 9, 4);
    refuses("G - 0 - -\nV v 1 3 -\nA - 4 4 -\nN - 1 - -", 9, 4);
    refuses(
        "G - 0 - -\nV v 1 3 -\nI - 4 5 4\nN - 1 - -\nN - 1 - -",
        9,
        4,
    );
    refuses(
        "G - 0 - -\nV v 1 3 -\nI - 5 5 5\nN - 1 - -\nN - 1 - -",
        9,
        4,
    );
    refuses(
        "G - 0 - -\nV v 1 3 -\nI - 4 5 5\nN - 1 - -\nN - 1 - -",
        9,
        5,
    );
    // A number in field a of an N line is no label.
    reads("G - 0 - -\nV v 1 3 -\nA - 4 5 -\nN - 4 - -\nN - 5 - -");
    // Row 9 wins over row 10 at a lower label.
    refuses("G - 0 - -\nV v 1 3 -\nP - - - -\nN - 1 - -", 9, 4);
}

#[test]
fn row_10_argument_of_a_value() {
    refuses("G - 0 - -\nV v 1 3 -\nP - - - -", 10, 3);
    refuses(
        "G - 0 - -\nF f 1 4 -\nV v 1 5 -\nP - - - -\nC f 6 - -\nP - - - -",
        10,
        6,
    );
    reads("G - 0 - -\nF f 1 3 -\nA - 4 5 -\nP - - - -\nP - - - -");
    // Row 10 wins over row 12 at lower labels.
    refuses(
        "G - 0 - -\nG g 1 - -\nG g 1 - -\nV v 1 5 -\nP - - - -",
        10,
        5,
    );
}

/// A value whose deepest expression has this level.
fn nested(level: usize) -> Builder {
    let mut builder = Builder::new();
    let body = "A 1 ".repeat(level - 1) + "1";
    builder.define("V", "v", 1, &body);
    builder
}

#[test]
fn row_11_level() {
    assert_eq!(read_refusal(&nested(31).text()), None);
    assert_eq!(read_refusal(&nested(32).text()), None);
    // Level k has its A at label 2k + 1 and its number after it.
    assert_eq!(read_refusal(&nested(33).text()), Some((11, 66)));
    assert_eq!(read_refusal(&nested(34).text()), Some((11, 66)));
    let mut both = nested(33);
    both.group("v", 1);
    assert_eq!(read_refusal(&both.text()), Some((11, 66)));
    let mut argument = nested(33);
    argument.define("V", "w", 1, "P");
    assert_eq!(read_refusal(&argument.text()), Some((10, 69)));
    // An argument of a call is one level down; its target's body is not.
    let mut calls = Builder::new();
    calls.define("F", "f", 1, &("C:f ".repeat(31) + "P"));
    assert_eq!(read_refusal(&calls.text()), None);
    calls.define("F", "g", 1, &("C:f ".repeat(32) + "P"));
    assert_eq!(read_refusal(&calls.text()), Some((11, 68)));
}

#[test]
fn row_12_names() {
    refuses("G - 0 - -\nG g 1 - -\nG g 1 - -", 12, 3);
    refuses("G - 0 - -\nG g 1 - -\nV g 1 4 -\nN - 1 - -", 12, 3);
    refuses(
        "G - 0 - -\nF g 1 4 -\nV g 1 5 -\nN - 1 - -\nN - 1 - -",
        12,
        3,
    );
    refuses(
        "G - 0 - -\nG b 1 - -\nG a 1 - -\nG a 1 - -\nG b 1 - -",
        12,
        4,
    );
    refuses("G - 0 - -\nG a 1 - -\nG a 1 - -\nG a 1 - -", 12, 3);
    refuses(
        "G - 0 - -\nG z 1 - -\nG y 2 - -\nG z 1 - -\nG y 2 - -",
        12,
        4,
    );
    reads("G - 0 - -\nG g 1 - -\nG g 2 - -\nG g 3 - -");
    reads("G - 0 - -\nG g 1 - -\nG h 1 - -\nG g1 1 - -\nG gg 1 - -");
    reads(
        "G - 0 - -\nG abcdefghijklmnop 1 - -\nG abcdefghijklmnoq 1 - -\nG bbcdefghijklmnop 1 - -",
    );
    // Row 12 wins over row 13 at a lower label.
    refuses("G - 0 - -\nV v 1 3 -\nR x - - -\nG v 1 - -", 12, 4);
}

/// Outer value x, Group g with value y and Group h with value z, and a value w
/// in h with this body.
fn around(body: &str) -> Option<(u64, u64)> {
    let mut builder = Builder::new();
    builder.define("V", "x", 1, "1");
    let g = builder.group("g", 1);
    builder.define("V", "y", g, "2");
    let h = builder.group("h", g);
    builder.define("V", "z", h, "3");
    builder.define("F", "f", g, "P");
    builder.define("V", "w", h, body);
    read_refusal(&builder.text())
}

#[test]
fn rows_13_to_15_paths() {
    for path in ["z", "y", "x", "g.y", "g.h.z", "h.z", "w"] {
        assert_eq!(around(&format!("R:{path}")), None, "{path}");
    }
    for path in ["f", "g.f"] {
        assert_eq!(around(&format!("C:{path} 1")), None, "{path}");
    }
    for path in ["q", "q.z", "v", "zz"] {
        assert_eq!(around(&format!("R:{path}")), Some((13, 13)), "{path}");
        assert_eq!(around(&format!("C:{path} 1")), Some((13, 13)), "{path}");
    }
    for path in [
        "g.x", "g.q", "h.y", "h.h", "g.h.y", "x.x", "z.z", "f.f", "g.g", "g.h.q.q",
    ] {
        assert_eq!(around(&format!("R:{path}")), Some((14, 13)), "{path}");
        assert_eq!(around(&format!("C:{path} 1")), Some((14, 13)), "{path}");
    }
    for path in ["g", "h", "f", "g.h", "g.f"] {
        assert_eq!(around(&format!("R:{path}")), Some((15, 13)), "{path}");
    }
    for path in ["g", "h", "z", "g.h", "g.h.z", "x"] {
        assert_eq!(around(&format!("C:{path} 1")), Some((15, 13)), "{path}");
    }
}

#[test]
fn rows_13_to_15_are_passes_of_their_own() {
    assert_eq!(around("A A R:g R:g.q R:q"), Some((13, 17)));
    assert_eq!(around("A A R:g R:g.q R:h.y"), Some((14, 16)));
    assert_eq!(around("A A R:g R:x C:x 1"), Some((15, 15)));
    assert_eq!(around("A C:q R:g R:p"), Some((13, 14)));
}

/// "Nothing goes back outward when a later name fails."
#[test]
fn an_inner_member_settles_the_head() {
    let mut builder = Builder::new();
    let outer = builder.group("g", 1);
    builder.define("V", "v", outer, "1");
    let inner = builder.group("h", 1);
    let same = builder.group("g", inner);
    let label = builder.define("V", "w", inner, "R:g.v");
    assert_eq!(read_refusal(&builder.text()), Some((14, label as u64 + 1)));
    builder.define("V", "v", same, "2");
    assert_eq!(read_refusal(&builder.text()), None);
    assert_eq!(crate::result_of(&builder.text(), label), [1, 2, 1]);
}

/// The search starts in the owner's Group: a value's own name is found there,
/// and members of any kind settle the head.
#[test]
fn a_member_of_any_kind_settles_the_head() {
    let mut builder = Builder::new();
    builder.define("V", "v", 1, "1");
    let g = builder.group("g", 1);
    builder.group("v", g);
    let label = builder.define("V", "w", g, "R:v");
    assert_eq!(read_refusal(&builder.text()), Some((15, label as u64 + 1)));
    let mut builder = Builder::new();
    let g = builder.group("g", 1);
    builder.define("V", "v", g, "1");
    let f = builder.define("F", "f", g, "R:v");
    builder.define("V", "u", 1, "C:g.f 1");
    assert_eq!(read_refusal(&builder.text()), None);
    let mut table = rubbish(8 * 1024);
    assert!(reference::read(&builder.text(), &mut table).is_ok());
    assert_eq!(table[8 * f + 7], 3);
}

#[test]
fn row_16_cycles() {
    let cycle = |values: &[(&str, &str)], functions: &[(&str, &str)]| {
        let mut builder = Builder::new();
        for (name, body) in values {
            builder.define("V", name, 1, body);
        }
        for (name, body) in functions {
            builder.define("F", name, 1, body);
        }
        assert_eq!(read_refusal(&builder.text()), None);
        planned(&builder.text()).err()
    };
    assert_eq!(cycle(&[("a", "R:a")], &[]), Some((16, 2)));
    assert_eq!(
        cycle(&[("a", "1"), ("b", "R:c"), ("c", "R:b")], &[]),
        Some((16, 4))
    );
    // a reaches the cycle but is not on it.
    assert_eq!(
        cycle(&[("a", "R:b"), ("b", "R:c"), ("c", "R:b")], &[]),
        Some((16, 4))
    );
    assert_eq!(cycle(&[("a", "C:f 1")], &[("f", "R:a")]), Some((16, 2)));
    let round = [("f", "C:g P"), ("g", "A C:f P R:b")];
    assert_eq!(cycle(&[("a", "C:f 1"), ("b", "1")], &round), None);
    assert_eq!(
        cycle(&[("a", "C:f 1"), ("b", "R:a")], &round),
        Some((16, 2))
    );
    // Both branches of I mention, the one never taken too.
    assert_eq!(cycle(&[("a", "I 1 2 R:a")], &[]), Some((16, 2)));
    // Functions may reach themselves and each other.
    assert_eq!(
        cycle(&[("a", "C:f 1")], &[("f", "C:g P"), ("g", "C:f P")]),
        None
    );
}
