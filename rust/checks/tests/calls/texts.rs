//! Texts of all sorts, one byte changed at a time and at the edges.

use generator::{late_refusal, FIRST_LINES};
use lindypo::raw::Refusal;

use crate::{agree, example, refusal, sheets, RUBBISH};

/// Values to put in place of a byte: allowed and not, of every form, and the
/// separators.
const BYTES: [u8; 16] = [
    0, 9, 10, 13, 31, 32, b'-', b'.', b'0', b'9', b'G', b'N', b'z', 126, 127, 255,
];

#[test]
fn a_refusal_has_its_number_and_place() {
    let mut table = vec![RUBBISH; 16];
    let refusal = |number, place| Err(Refusal { number, place });
    assert_eq!(lindypo::raw::read(b"", &mut []), refusal(1, 0));
    assert_eq!(lindypo::raw::read(&example(), &mut table), refusal(4, 1));
    assert_eq!(table, [0; 16]);
    let text = b"kind name a b c\nG - 0 - -\nX - - - -\n";
    assert_eq!(lindypo::raw::read(text, &mut table), refusal(6, 2));
}

/// Rows 5 to 16 at the end of 1,024 lines.
#[test]
fn refusals_at_the_last_line() {
    for number in 5..=16 {
        let place = if matches!(number, 11 | 16) {
            1_023
        } else {
            1_024
        };
        let outcome = agree(&late_refusal(number));
        let [read, planned @ ..] = outcome.replies();
        for reply in planned {
            assert_eq!((reply.refusal, reply.place), (number, place));
        }
        let wanted = if number == 16 { 0 } else { number };
        assert_eq!(read.refusal, wanted, "16 is not Read's");
    }
}

#[test]
fn every_byte_changed() {
    for mut text in sheets() {
        for at in 0..text.len() {
            let kept = text[at];
            for byte in BYTES {
                text[at] = byte;
                agree(&text);
            }
            text[at] = kept;
        }
    }
}

#[test]
fn every_byte_left_out_or_doubled() {
    for text in sheets() {
        for at in 0..text.len() {
            let (before, after) = text.split_at(at);
            agree(&[before, &after[1..]].concat());
            agree(&[before, &after[..1], after].concat());
        }
    }
}

#[test]
fn every_truncation() {
    for text in sheets() {
        for end in 0..=text.len() {
            agree(&text[..end]);
            agree(&text[end..]);
        }
    }
}

/// A sheet that reads, of this many bytes, from 65,000 on, under this first line:
/// the longest path, read by 400 values, then Groups up to the length.
fn long_text(line: &str, length: usize) -> Vec<u8> {
    let name = "p".repeat(16);
    let mut text = format!("{line}\nG - 0 - -\n");
    for group in 1..8 {
        text += &format!("G {name} {group} - -\n");
    }
    text += &format!("V {name} 8 10 -\nN - 1 - -\n");
    let path = [&name[..]; 8].join(".");
    for label in (11..811).step_by(2) {
        let body = label + 1;
        text += &format!("V v{label} 1 {body} -\nR {path} - - -\n");
    }
    while text.len() < length {
        text += &padding(length - text.len(), text.len());
    }
    text.into_bytes()
}

/// A Group's line that leaves none or at least 10 of these bytes. The number
/// makes its name its own, and the last one has no number.
fn padding(bytes: usize, number: usize) -> String {
    if bytes <= 25 {
        return format!("G {} 1 - -\n", "g".repeat(bytes - 9));
    }
    let width = 25.min(bytes - 10) - 10;
    format!("G g{number:0width$} 1 - -\n")
}

#[test]
fn text_lengths() {
    assert_eq!(refusal(b""), Some((1, 0)));
    for (line, length) in both_lines([65_535, 65_536, 65_537]) {
        let text = long_text(line, length);
        assert_eq!(text.len(), length);
        let wanted = (length > 65_536).then_some((1, 0));
        assert_eq!(refusal(&text), wanted, "{line}, {length} bytes");
    }
    for length in [1, 65_536, 65_537] {
        agree(&vec![b'\n'; length]);
        agree(&vec![b'a'; length]);
    }
}

/// Each of these under each of the two first lines.
fn both_lines<const N: usize>(list: [usize; N]) -> impl Iterator<Item = (&'static str, usize)> {
    let lines = FIRST_LINES.map(|line| std::str::from_utf8(line).expect("ASCII"));
    list.into_iter()
        .flat_map(move |item| lines.map(|line| (line, item)))
}

#[test]
fn label_counts() {
    for (line, count) in both_lines([0, 1, 2, 1_023, 1_024, 1_025]) {
        let groups = (2..=count).map(|label| format!("G g{label} 1 - -\n"));
        let outermost = if count > 0 { "G - 0 - -\n" } else { "" };
        let text = format!("{line}\n{outermost}{}", groups.collect::<String>());
        let wanted = (count == 0 || count > 1_024).then_some((3, 0));
        assert_eq!(refusal(text.as_bytes()), wanted, "{line}, {count} labels");
    }
}

/// A line under label 1 in a sheet of 1,024 labels, whose form is fine; no
/// line uses the others, so that row 8 or 9 refuses what row 7 lets pass.
fn with_line(line: &str) -> Vec<u8> {
    let mut text = format!("kind name a b c\nG - 0 - -\n{line}\n").into_bytes();
    text.extend(b"P - - - -\n".repeat(1_022));
    text
}

/// Fields at and beyond the edges of their forms.
#[test]
fn edges_of_the_forms() {
    let name = "a".repeat(16);
    let path = [&name[..]; 8].join(".");
    let right = [
        format!("G {name} 1 - -"),
        format!("R {path} - - -"),
        "V v 1024 1 -".to_string(),
        "N - 1000000000 - -".to_string(),
        "N - -1000000000 - -".to_string(),
        "N - 0 - -".to_string(),
    ];
    let wrong = [
        format!("G {name}a 1 - -"),
        format!("R {path}.a - - -"),
        format!("R {path}a - - -"),
        "R a..b - - -".to_string(),
        "R .a - - -".to_string(),
        "R a. - - -".to_string(),
        "V v 1025 1 -".to_string(),
        "V v 0 1 -".to_string(),
        "V v 01 1 -".to_string(),
        "V v 18446744073709551617 1 -".to_string(),
        "N - 1000000001 - -".to_string(),
        "N - -1000000001 - -".to_string(),
        "N - 99999999999999999999999999 - -".to_string(),
        "N - -0 - -".to_string(),
        "N - +1 - -".to_string(),
        "N - - - -".to_string(),
    ];
    for line in right {
        let number = refusal(&with_line(&line)).map(|(number, _)| number);
        assert!(matches!(number, Some(8 | 9)), "{line}");
    }
    for line in wrong {
        assert_eq!(refusal(&with_line(&line)), Some((7, 2)), "{line}");
    }
}
