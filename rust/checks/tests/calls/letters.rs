//! Order 1: capitals and small letters. Names in other letters are the same
//! names, so that a sheet in other letters gives the same in every call.

use checks::{Call, Lent};
use generator::{case, line_count, recased, Case, Rng};
use lindypo::raw::{name, name_part, print, Part, Printed, Reply};

use crate::sheets::print_of_run;
use crate::{agree, refusal, setting, sheets};

/// Name is asked for this many labels at most, spread through the sheet.
const LABELS: usize = 100;

/// How a call is made: by the library or by the reference.
type Make = fn(Call, Lent) -> Reply;

/// What a call on a text replies, and what it leaves in table, plan, results and
/// changes, lent as much as the case says.
fn given(make: Make, call: Call, case: &Case, text: &[u8]) -> (Reply, [Vec<i64>; 4]) {
    let lengths = [case.table, case.plan, case.results, case.changes];
    let mut buffers = lengths.map(|length| vec![case.rubbish; length]);
    let [table, plan, results, changes] = &mut buffers;
    let lent = Lent {
        text,
        order: &case.order,
        pairs: &case.pairs,
        table,
        plan,
        results,
        changes,
    };
    (make(call, lent), buffers)
}

/// The labels to ask Name for: the case's own, those past the ends, and the
/// sheet's.
fn labels(case: &Case) -> impl Iterator<Item = i64> {
    let lines = line_count(&case.text);
    let inside = (0..=lines as i64 + 1).step_by(1 + lines / LABELS);
    inside.chain([case.label, i64::MIN, i64::MAX])
}

/// The part that Name gives, which is a part of this very text, and the table
/// that it leaves.
fn named(case: &Case, text: &[u8], label: i64) -> (Part, Vec<i64>) {
    let mut table = vec![case.rubbish; case.table];
    let bytes = name(text, &mut table, label);
    let part = name_part(text, &mut table, label);
    let sent = &text[part.start as usize..][..part.length as usize];
    assert_eq!(bytes, sent);
    assert!(bytes.is_empty() || std::ptr::eq(bytes, sent));
    (part, table)
}

/// The print's answer and its bytes, in a buffer of this length.
fn printed(text: &[u8], length: usize) -> (Printed, Vec<u8>) {
    let mut out = vec![b'?'; length];
    (print(text, &mut out), out)
}

/// The reply of a call on a text and on the same in other letters, which leave the
/// same in every cell, by the library and by the reference.
fn same_reply(call: Call, case: &Case, other: &[u8]) -> Reply {
    let (reply, cells) = given(Call::library, call, case, &case.text);
    let shown = String::from_utf8_lossy(other);
    for make in [Call::library, Call::reference] {
        let (other_reply, other_cells) = given(make, call, case, other);
        assert_eq!(other_reply, reply, "{call:?} of {shown:?}");
        assert!(other_cells == cells, "{call:?} of {shown:?}: other cells");
    }
    reply
}

/// Checks that a text and the same in other letters give the same: every reply,
/// cell and part; prints but for the case of letters, which is as sent.
fn same_in_other_letters(case: &Case, other: &[u8]) -> [Reply; Call::COUNT] {
    let text = &case.text[..];
    let replies = Call::ALL.map(|call| same_reply(call, case, other));
    for label in labels(case) {
        let given = named(case, text, label);
        assert!(named(case, other, label) == given, "Name {label}");
    }
    let (answer, bytes) = printed(text, case.print);
    let (other_answer, other_bytes) = printed(other, case.print);
    assert_eq!(other_answer, answer);
    assert!(other_bytes.eq_ignore_ascii_case(&bytes), "another print");
    for text in [text, other] {
        let print = print_of_run(text);
        let (_, bytes) = printed(text, print.len());
        assert_eq!(String::from_utf8_lossy(&bytes), print);
    }
    replies
}

/// A case with this text, buffers as long as it needs and its plan for Follow.
fn case_of(text: Vec<u8>) -> Case {
    let lines = line_count(&text);
    Case {
        table: 8 * lines,
        plan: lines,
        results: 3 * lines,
        rubbish: -1,
        label: 2,
        order: generator::planned(&text),
        print: reference::print(&text).len(),
        pairs: vec![],
        changes: 0,
        text,
    }
}

/// Random sheets, damaged ones too: of texts that do differ, every call answers
/// some and refuses some by each of its rows.
#[test]
fn recased_sheets() {
    let first = setting("LINDYPO_SEED", 0);
    let mut replies = [[0; Call::LAST_ROW + 1]; Call::COUNT];
    for seed in first..first + 6_000 {
        let case = case(seed);
        let other = recased(&mut Rng::new(seed), &case.text);
        let given = same_in_other_letters(&case, &other);
        if other == case.text {
            continue;
        }
        for (counts, reply) in replies.iter_mut().zip(given) {
            counts[reply.refusal as usize] += 1;
        }
    }
    for (call, counts) in Call::ALL.into_iter().zip(replies) {
        assert!(
            call.has_met(&counts),
            "{call:?} has not met every row: {counts:?}"
        );
    }
}

/// The sample sheets, each in many ways, and the worst shapes.
#[test]
fn recased_samples_and_shapes() {
    let rng = &mut Rng::new(12);
    for text in sheets() {
        let case = case_of(text);
        for _ in 0..30 {
            same_in_other_letters(&case, &recased(rng, &case.text));
        }
    }
    for shape in generator::shapes() {
        let case = case_of(shape.text);
        same_in_other_letters(&case, &recased(rng, &case.text));
    }
}

/// A sheet of these lines after `G - 0 - -`.
fn sheet(lines: &str) -> Vec<u8> {
    format!("kind name a b c\nG - 0 - -\n{lines}\n").into_bytes()
}

/// A byte as names are compared by it.
fn compared(byte: u8) -> u8 {
    match byte {
        65..=90 => byte + 32,
        _ => byte,
    }
}

/// Whether names are the same, as members of one Group, as the head of a path
/// and as a later name: by the rows that refuse them where they are and where
/// they are not.
fn check_names(first: &str, second: &str, is_same: bool) {
    let clash = sheet(&format!("G {first} 1 - -\nV {second} 1 4 -\nN - 1 - -"));
    let wanted = is_same.then_some((12, 3));
    assert_eq!(refusal(&clash), wanted, "{first} {second}");
    let head = format!("V {first} 1 3 -\nN - 1 - -\nV reader9 1 5 -\nR {second} - - -");
    let wanted = (!is_same).then_some((13, 5));
    assert_eq!(refusal(&sheet(&head)), wanted, "{first} {second}");
    let later = format!(
        "G group9 1 - -\nV {first} 2 4 -\nN - 1 - -\nV reader9 1 6 -\nR GROUP9.{second} - - -"
    );
    let wanted = (!is_same).then_some((14, 6));
    assert_eq!(refusal(&sheet(&later)), wanted, "{first} {second}");
}

/// Names of one letter: every pair. Names of two bytes: every pair of second
/// bytes that a name may have.
#[test]
fn every_pair_of_letters() {
    let bytes = (0..=255).filter(u8::is_ascii_alphanumeric);
    let pairs = bytes
        .clone()
        .flat_map(|a| bytes.clone().map(move |b| (a, b)));
    for (a, b) in pairs {
        let is_same = compared(a) == compared(b);
        let (first, second) = (char::from(a), char::from(b));
        check_names(&format!("x{first}"), &format!("X{second}"), is_same);
        if a.is_ascii_alphabetic() && b.is_ascii_alphabetic() {
            check_names(&first.to_string(), &second.to_string(), is_same);
        }
    }
}

/// Two names that differ in one byte, at every place of names of every length: every
/// byte there but the letter in either case makes it another name. At each place is a
/// letter that has the low five bits of a digit, so that no hash of these tells the
/// two apart.
#[test]
fn one_byte_at_every_place() {
    for length in 1..=16 {
        let name = &"pqrstuvwxypqrstu"[..length];
        check_names(name, &name.to_uppercase(), true);
        for at in 0..length {
            let allowed = |byte: &u8| match at {
                0 => byte.is_ascii_alphabetic(),
                _ => byte.is_ascii_alphanumeric(),
            };
            for byte in (0..=255).filter(allowed) {
                let mut other = name.to_string();
                other.replace_range(at..=at, &char::from(byte).to_string());
                check_names(name, &other, compared(byte) == name.as_bytes()[at]);
            }
        }
        if length < 16 {
            check_names(name, &format!("{}Z", name.to_uppercase()), false);
        }
    }
}

/// A name and all that it is the beginning of, in the same letters and in others: at
/// the end of a word too, one is never the other.
#[test]
fn beginnings_of_names() {
    let whole = "abcdefghijklmnop";
    for (long, short) in (1..=16).flat_map(|long| (1..=16).map(move |short| (long, short))) {
        let name = whole[..long].to_uppercase();
        check_names(&whole[..short], &name, long == short);
    }
}

/// Members of one Group whose names differ in one byte, at every place of 16, all of
/// them in one sheet and each read: the library's hash tells none of them apart.
#[test]
fn near_names_beside_each_other() {
    let name = |at: usize| {
        let mut name = "pppppppppppppppp".to_string();
        name.replace_range(at..=at, if at == 0 { "p" } else { "0" });
        name
    };
    for last in 1..16 {
        let mut lines = Vec::new();
        for at in 0..=last {
            let label = 2 + 4 * at;
            let read = name(last - at).to_uppercase();
            lines.push(format!("V {} 1 {} -\nN - {at} - -", name(at), label + 1));
            lines.push(format!("V r{at} 1 {} -\nR {read} - - -", label + 3));
        }
        let text = sheet(&lines.join("\n"));
        assert_eq!(refusal(&text), None);
        let mut table = vec![0; 8 * line_count(&text)];
        assert!(lindypo::raw::read(&text, &mut table).is_ok());
        let targets: Vec<i64> = table.chunks(8).map(|row| row[7]).collect();
        for at in 0..=last {
            assert_eq!(targets[4 + 4 * at], 2 + 4 * (last - at) as i64);
        }
    }
}

/// Every pair of bytes that a text may have, at the end of two members' names:
/// bytes beside the letters are refused, whatever letter they would be.
#[test]
fn every_pair_of_bytes() {
    for (a, b) in (33..=126).flat_map(|a| (33..=126).map(move |b| (a, b))) {
        let (first, second) = (char::from(a), char::from(b));
        let text = sheet(&format!("G x{first} 1 - -\nG x{second} 1 - -"));
        let wanted = match (a.is_ascii_alphanumeric(), b.is_ascii_alphanumeric()) {
            (false, _) => Some((7, 2)),
            (true, false) => Some((7, 3)),
            (true, true) => (compared(a) == compared(b)).then_some((12, 3)),
        };
        assert_eq!(refusal(&text), wanted, "{first} {second}");
    }
}

/// Every byte at every place of a sheet whose names differ in case from their
/// paths and, in two Groups, from each other.
#[test]
fn every_byte_at_every_place() {
    let lines = "G Right 1 - -\nV aZ 2 4 -\nN - 1 - -\nV Az 1 6 -\nR RIGHT.Az - - -";
    let mut text = sheet(lines);
    assert_eq!(refusal(&text), None);
    for at in 0..text.len() {
        let kept = text[at];
        for byte in 0..=255 {
            text[at] = byte;
            agree(&text);
        }
        text[at] = kept;
    }
}

/// The case of letters counts everywhere else.
#[test]
fn kinds_and_column_names_keep_their_case() {
    for kind in "gvfnprcasmdi".chars() {
        let text = sheet(&format!("{kind} - - - -"));
        assert_eq!(refusal(&text), Some((6, 2)), "{kind}");
    }
    let line_one = "kind name a b c";
    for (at, letter) in line_one.char_indices().filter(|(_, letter)| *letter != ' ') {
        let mut text = sheet("G g 1 - -");
        text[at] = letter.to_ascii_uppercase() as u8;
        assert_eq!(refusal(&text), Some((2, 0)), "{letter}");
    }
}
