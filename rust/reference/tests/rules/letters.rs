//! Order 1: "Names now compare without regard to the case of ASCII letters, in
//! member lists and in paths."

use reference::Order;

use crate::{followed, planned, read_refusal, reads, refuses, result_of, rubbish, sheet, Builder};

/// The target of each line, by label.
fn targets(text: &[u8]) -> Vec<i64> {
    let lines = text.iter().filter(|&&byte| byte == b'\n').count() - 1;
    let mut table = rubbish(8 * lines);
    assert_eq!(reference::read(text, &mut table), Ok(lines));
    table.chunks(8).map(|cells| cells[7]).collect()
}

/// "So `Right` and `right` in one Group clash under 12", at the later label.
#[test]
fn names_of_one_group_clash() {
    refuses("G - 0 - -\nG Right 1 - -\nG right 1 - -", 12, 3);
    refuses("G - 0 - -\nG right 1 - -\nG Right 1 - -", 12, 3);
    refuses(
        "G - 0 - -\nV sphere 1 4 -\nF SPHERE 1 5 -\nN - 1 - -\nP - - - -",
        12,
        3,
    );
    refuses(
        "G - 0 - -\nG a 1 - -\nG b 1 - -\nG c 1 - -\nG B 1 - -\nG A 1 - -",
        12,
        5,
    );
    refuses("G - 0 - -\nG x1Y 1 - -\nG g 1 - -\nG X1y 1 - -", 12, 4);
    refuses(
        "G - 0 - -\nG abcdefghijklmnop 1 - -\nG ABCDEFGHIJKLMNOP 1 - -",
        12,
        3,
    );
    // In two Groups they do not, and a Group may have its own Group's name.
    reads("G - 0 - -\nG g 1 - -\nG G 2 - -\nG h 1 - -\nG H 2 - -");
    // Row 12 wins over row 13 at a lower label.
    refuses("G - 0 - -\nV v 1 3 -\nR x - - -\nG V 1 - -", 12, 4);
}

/// Case apart, one byte that differs or one more makes another name.
#[test]
fn other_names_stay_other_names() {
    reads("G - 0 - -\nG a 1 - -\nG B 1 - -\nG aB 1 - -\nG Ba 1 - -\nG AA 1 - -");
    reads("G - 0 - -\nG p1 1 - -\nG P2 1 - -\nG pq 1 - -\nG P 1 - -");
    let name = "abcdefghijklmnop";
    for at in 0..16 {
        let mut other = name.to_uppercase().into_bytes();
        other[at] = if at == 0 { b'Z' } else { b'0' };
        let other = String::from_utf8(other).expect("ASCII");
        reads(&format!("G - 0 - -\nG {name} 1 - -\nG {other} 1 - -"));
        let cut = &name[at + 1..];
        if !cut.is_empty() {
            let cut = cut.to_uppercase();
            reads(&format!("G - 0 - -\nG {name} 1 - -\nG {cut} 1 - -"));
        }
    }
}

/// Every pair of letters and digits as the end of two names: they clash, and a
/// path with the one leads to the other, exactly where the bytes are the same
/// with 65 to 90 taken for 97 to 122.
#[test]
fn every_pair_of_letters_and_digits() {
    let bytes = || (0..=255).filter(u8::is_ascii_alphanumeric);
    let small = |byte: u8| {
        if matches!(byte, 65..=90) {
            byte + 32
        } else {
            byte
        }
    };
    for (first, second) in bytes().flat_map(|first| bytes().map(move |second| (first, second))) {
        let is_same = small(first) == small(second);
        let (first, second) = (char::from(first), char::from(second));
        let clash = sheet(&format!("G - 0 - -\nG x{first} 1 - -\nG x{second} 1 - -"));
        let wanted = is_same.then_some((12, 3));
        assert_eq!(read_refusal(&clash), wanted, "{first} {second}");
        let lines = format!("G - 0 - -\nV x{first} 1 3 -\nN - 1 - -\nV y 1 5 -\nR X{second} - - -");
        let wanted = (!is_same).then_some((13, 5));
        assert_eq!(read_refusal(&sheet(&lines)), wanted, "{first} {second}");
    }
}

/// What lies beside the letters has no place in a name, in any case.
#[test]
fn bytes_beside_the_letters_are_refused_as_before() {
    for byte in "@[\\]^_`{|}~".chars() {
        for name in [format!("a{byte}"), format!("{byte}A"), format!("{byte}")] {
            refuses(&format!("G - 0 - -\nG {name} 1 - -"), 7, 2);
            refuses(&format!("G - 0 - -\nV v 1 3 -\nR {name} - - -"), 7, 3);
        }
    }
}

/// Outer value Sphere, Group Right with Group Lens, and value Power in that.
fn optics(body: &str) -> (Vec<u8>, usize) {
    let mut builder = Builder::new();
    builder.define("V", "Sphere", 1, "4");
    let right = builder.group("Right", 1);
    let lens = builder.group("Lens", right);
    builder.define("V", "Power", lens, "5");
    builder.define("F", "Twice", lens, "A P P");
    let label = builder.define("V", "total", 1, body);
    (builder.text(), label)
}

#[test]
fn heads_and_later_names_in_any_case() {
    for path in ["Sphere", "sphere", "SPHERE", "sPHERE", "sphErE"] {
        let (text, label) = optics(&format!("R:{path}"));
        assert_eq!(targets(&text)[label], 2, "{path}");
        assert_eq!(result_of(&text, label), [1, 4, 1], "{path}");
    }
    for path in [
        "Right.Lens.Power",
        "RIGHT.Lens.Power",
        "Right.LENS.Power",
        "Right.Lens.power",
        "right.lens.power",
        "rIGHT.lENS.pOWER",
    ] {
        let (text, label) = optics(&format!("R:{path}"));
        assert_eq!(targets(&text)[label], 6, "{path}");
        assert_eq!(result_of(&text, label), [1, 5, 1], "{path}");
    }
    let (text, label) = optics("C:RIGHT.LENS.TWICE R:SPHERE");
    assert_eq!(targets(&text)[label..label + 2], [8, 2]);
    assert_eq!(result_of(&text, label), [1, 8, 5]);
}

/// Rows 13 to 15 are found as for names in one case.
#[test]
fn paths_in_any_case_are_refused_as_before() {
    for (path, number) in [
        ("SPHER", 13),
        ("SPHEREE", 13),
        ("LENS.POWER", 13),
        ("RIGHT.POWER", 14),
        ("SPHERE.POWER", 14),
        ("RIGHT.LENS", 15),
        ("RIGHT.LENS.TWICE", 15),
    ] {
        let (text, label) = optics(&format!("R:{path}"));
        let wanted = Some((number, label as u64 + 1));
        assert_eq!(read_refusal(&text), wanted, "{path}");
    }
    assert_eq!(read_refusal(&optics("C:SPHERE 1").0), Some((15, 13)));
}

/// An inner member settles the head, in whatever case; nothing goes back
/// outward.
#[test]
fn an_inner_member_in_another_case_settles_the_head() {
    let mut builder = Builder::new();
    builder.define("V", "axis", 1, "1");
    let frame = builder.group("frame", 1);
    builder.define("V", "pd", frame, "2");
    let left = builder.group("left", 1);
    let inner = builder.group("FRAME", left);
    let near = builder.define("V", "AXIS", left, "3");
    let reader = builder.define("V", "reader", left, "R:axis");
    assert_eq!(targets(&builder.text())[reader], near as i64);
    assert_eq!(result_of(&builder.text(), reader), [1, 3, 1]);
    let outer = builder.define("V", "outer", left, "R:frame.pd");
    assert_eq!(read_refusal(&builder.text()), Some((14, outer as u64 + 1)));
    builder.define("V", "Pd", inner, "4");
    assert_eq!(result_of(&builder.text(), outer), [1, 4, 1]);
}

/// "A proper order and a target are judged under this comparison": reaching
/// goes by the targets.
#[test]
fn plans_orders_and_cycles_in_any_case() {
    let mut builder = Builder::new();
    let first = builder.define("V", "first", 1, "R:SECOND") as i64;
    let second = builder.define("V", "Second", 1, "7") as i64;
    let text = builder.text();
    assert_eq!(planned(&text), Ok((vec![second, first], Order::Whole)));
    assert!(followed(&text, &[second, first]).is_ok());
    assert_eq!(followed(&text, &[first, second]), Err((18, 1)));
    let text = sheet("G - 0 - -\nV a 1 3 -\nR A - - -");
    assert_eq!(read_refusal(&text), None);
    assert_eq!(planned(&text), Err((16, 2)));
    let text = sheet("G - 0 - -\nV a 1 3 -\nR B - - -\nV b 1 5 -\nR A - - -");
    assert_eq!(planned(&text), Err((16, 2)));
}

/// "The bytes that Name returns keep the case as sent", and so does the print.
#[test]
fn names_are_given_as_sent() {
    let text = sheet("G - 0 - -\nV sPHERE 1 3 -\nN - 4 - -\nV Total 1 5 -\nR SPHERE - - -");
    let mut table = rubbish(8 * 5);
    for (label, name) in [(2, "sPHERE"), (4, "Total"), (5, "SPHERE")] {
        assert_eq!(reference::name(&text, &mut table, label), name.as_bytes());
        let row = &table[8 * (label as usize - 1)..][..3];
        let (start, length) = (row[1] as usize, row[2] as usize);
        assert_eq!(&text[start..][..length], name.as_bytes());
    }
    let print = "label name order state number steps\n\
                 2 sPHERE whole 1 4 1\n\
                 4 Total whole 1 4 1\n";
    assert_eq!(reference::print(&text), print.as_bytes());
}

/// Kinds and column names compare byte by byte.
#[test]
fn kinds_and_column_names_keep_their_case() {
    for kind in "gvfnprcasmdi".chars() {
        refuses(&format!("G - 0 - -\n{kind} - - - -"), 6, 2);
    }
    for first in ["Kind name a b c", "kind Name a b c", "kind name A b c"] {
        let text = format!("{first}\nG - 0 - -\n");
        assert_eq!(read_refusal(text.as_bytes()), Some((2, 0)), "{first}");
    }
}
