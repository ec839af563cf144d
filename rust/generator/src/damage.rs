//! Sheets spoilt on purpose, so that every refusal from 1 to 16 is met.

use crate::first_lines::{first_line, under, FIRST_LINES};
use crate::letters::recase;
use crate::near::make_near;
use crate::random;
use crate::rng::Rng;
use crate::rows::{self, Row};

const MAX_BYTES: usize = 65_536;
const MAX_LINES: usize = 1_024;

/// A random sheet with one fault put in, sometimes two. Now and then the
/// fault does no harm.
pub fn damaged(rng: &mut Rng) -> Vec<u8> {
    let lines = match rng.below(100) {
        0..=79 => rng.range(4, 24),
        80..=97 => rng.range(12, 60),
        _ => rng.range(60, 400),
    };
    let mut text = random::sheet_of(rng, lines);
    let faults = if rng.chance(20) { 2 } else { 1 };
    for _ in 0..faults {
        text = damage(rng, text);
    }
    text
}

/// One fault put into a text of any sort.
pub fn damage(rng: &mut Rng, text: Vec<u8>) -> Vec<u8> {
    match rng.below(100) {
        0..=7 => damage_text(rng, text),
        8..=11 => damage_line_one(rng, text),
        12..=14 => damage_count(rng, text),
        15..=21 => damage_bytes(rng, text),
        22..=29 => damage_spaces(rng, text),
        _ => damage_fields(rng, text),
    }
}

/// Row 1: length, last byte, a byte not allowed.
fn damage_text(rng: &mut Rng, mut text: Vec<u8>) -> Vec<u8> {
    let at = rng.below(text.len().max(1));
    match rng.below(20) {
        0 => text.clear(),
        1..=4 => {
            text.pop();
        }
        5..=6 => text.truncate(at),
        7 => {
            let over = MAX_BYTES + rng.below(3);
            text.resize(over.max(text.len() + 1), b'x');
            text.push(b'\n');
        }
        8 => {
            text.resize(text.len().max(MAX_BYTES - 1), b'x');
            text.push(b'\n');
        }
        _ if text.is_empty() => {}
        _ => text[at] = *rng.pick(&[0, 9, 11, 13, 31, 127, 128, 200, 255]),
    }
    text
}

/// What line one is mistaken for: a byte or a field of either line too many, too
/// few or another, other letters, other separators.
pub const WRONG_LINES: [&[u8]; 26] = [
    b"",
    b"kind name a b",
    b"kind name a b c ",
    b" kind name a b c",
    b"kind  name a b c",
    b"kind name a b c d",
    b"KIND name a b c",
    b"Kind name a b c",
    b"kind,name,a,b,c",
    b"kind name a b c2",
    b"kind1 name a b c",
    b"kind3 name a b c",
    b"kind02 name a b c",
    b"kind22 name a b c",
    b"kind 2 name a b c",
    b"kind2name a b c",
    b"kind2  name a b c",
    b" kind2 name a b c",
    b"kind2 name a b c ",
    b"kind2 name a b",
    b"kind2 name a b c d",
    b"Kind2 name a b c",
    b"KIND2 name a b c",
    b"kind2 Name a b c",
    b"kind2,name,a,b,c",
    b"kind2",
];

/// Row 2: another line one, or one of the two cut short or with a byte of it
/// replaced. Beside these, what is no matter of row 2: a line end of Windows (row
/// 1), both lines one after the other (row 6), the other line (none).
pub fn damage_line_one(rng: &mut Rng, text: Vec<u8>) -> Vec<u8> {
    let [line, other] = [(); 2].map(|()| *rng.pick(&FIRST_LINES));
    let at = rng.below(line.len());
    let line = match rng.below(10) {
        0 => [line, b"\r"].concat(),
        1 => [line, other].join(&b'\n'),
        2 => line.to_vec(),
        3 => line[..at].to_vec(),
        4 => [&line[..at], &[rng.range(32, 126) as u8], &line[at + 1..]].concat(),
        _ => rng.pick(&WRONG_LINES).to_vec(),
    };
    under(&line, &text)
}

/// Row 3.
fn damage_count(rng: &mut Rng, mut text: Vec<u8>) -> Vec<u8> {
    if rng.chance(70) {
        return [rng.pick(&FIRST_LINES), &b"\n"[..]].concat();
    }
    let lines = MAX_LINES + rng.below(3);
    while crate::line_count(&text) < lines {
        let missing = lines - crate::line_count(&text);
        text.extend_from_slice(&b"N - 1 - -\n".repeat(missing));
    }
    text
}

/// A byte replaced, left out or put in anywhere.
fn damage_bytes(rng: &mut Rng, mut text: Vec<u8>) -> Vec<u8> {
    if text.is_empty() {
        return text;
    }
    let at = rng.below(text.len());
    let any = rng.range(32, 126) as u8;
    let byte = *rng.pick(&[any, any, b'0', b'1', b'-', b'.', b' ', b'\n', b'G', b'V']);
    match rng.below(4) {
        0 => {
            text.remove(at);
        }
        1 => text.insert(at, byte),
        _ => text[at] = byte,
    }
    text
}

/// Row 5: a space or line end left out, put in or doubled.
fn damage_spaces(rng: &mut Rng, mut text: Vec<u8>) -> Vec<u8> {
    let is_gap = |&at: &usize| matches!(text[at], b' ' | b'\n');
    let lines = first_line(&text).len() + 1;
    let gaps: Vec<usize> = (lines..text.len()).filter(is_gap).collect();
    if gaps.is_empty() {
        return text;
    }
    let at = *rng.pick(&gaps);
    match rng.below(5) {
        0 if at + 1 < text.len() => {
            text.remove(at);
        }
        1 => text.insert(at, b' '),
        2 => text.insert(at, b'\n'),
        3 => text.insert(at + 1, b' '),
        _ => text[at] = b' ' + b'\n' - text[at],
    }
    text
}

/// Rows 6 to 16: the fields of one line or two.
fn damage_fields(rng: &mut Rng, text: Vec<u8>) -> Vec<u8> {
    let Some(mut rows) = rows::split(&text) else {
        return damage_bytes(rng, text);
    };
    match rng.below(14) {
        0 => change_kind(rng, &mut rows),
        1 | 2 => change_form(rng, &mut rows),
        3 => change_label(rng, &mut rows),
        4 => change_operand(rng, &mut rows),
        5 => change_lines(rng, &mut rows),
        6 => change_to_argument(rng, &mut rows),
        7 => deepen(rng, &mut rows),
        8 => change_name(rng, &mut rows),
        _ => change_path(rng, &mut rows),
    }
    rows::join_under(first_line(&text), &rows)
}

/// A label of one of these kinds, 0-based.
fn find_kind(rng: &mut Rng, rows: &[Row], kinds: &[u8]) -> Option<usize> {
    let has = |row: &Row| row[0].len() == 1 && kinds.contains(&row[0][0]);
    let found: Vec<usize> = (0..rows.len()).filter(|&at| has(&rows[at])).collect();
    (!found.is_empty()).then(|| *rng.pick(&found))
}

fn is_definition(row: &Row) -> bool {
    matches!(row[0].first(), Some(b'G' | b'V' | b'F'))
}

fn number(value: usize) -> Vec<u8> {
    value.to_string().into_bytes()
}

/// Row 6, or another kind's fields.
fn change_kind(rng: &mut Rng, rows: &mut [Row]) {
    const KINDS: [&str; 18] = [
        "X", "g", "v", "r", "GG", "-", "H", "K", "Q", "1", "G", "V", "F", "N", "P", "R", "A", "I",
    ];
    let at = rng.below(rows.len());
    rows[at][0] = rng.pick(&KINDS).as_bytes().to_vec();
}

/// Field contents at and beyond the edges of the forms, space between.
const FORMS: &str = "- -- 0 -0 00 01 +1 1000000000 -1000000000 1000000001 -1000000001 \
    99999999999999999999 -1 a 1a a_b abcdefghijklmnop abcdefghijklmnopq . a. .a a..b \
    a.b.c.d.e.f.g.h a.b.c.d.e.f.g.h.i a.1 ? a.abcdefghijklmnopq -a 1- 1.0 ~ _ \
    A A.B ABCDEFGHIJKLMNOP ABCDEFGHIJKLMNOPQ a@ a` a[ a{ @A";

/// Row 7: a field of any form, most often a wrong one.
fn change_form(rng: &mut Rng, rows: &mut [Row]) {
    let at = if rng.chance(8) {
        0
    } else {
        rng.below(rows.len())
    };
    let count = rows.len();
    let field = rng.range(1, 4);
    rows[at][field] = match rng.below(8) {
        0 => number(count + 1),
        1 => number(count),
        _ => {
            let forms: Vec<&str> = FORMS.split(' ').collect();
            rng.pick(&forms).as_bytes().to_vec()
        }
    };
}

/// Row 8 (or 9): any label in a label field.
fn change_label(rng: &mut Rng, rows: &mut [Row]) {
    let Some(at) = find_kind(rng, rows, b"GVFCASMDI") else {
        return;
    };
    let fields = match rows[at][0][0] {
        b'G' | b'C' => 1,
        b'I' => 3,
        _ => 2,
    };
    let field = 2 + rng.below(fields);
    let any = rng.range(1, rows.len());
    rows[at][field] = number(*rng.pick(&[any, any, at + 1, 1, at.max(1)]));
}

/// Row 9: an operand that another field uses too.
fn change_operand(rng: &mut Rng, rows: &mut [Row]) {
    let Some(at) = find_kind(rng, rows, b"VFCASMDI") else {
        return;
    };
    let later: Vec<usize> = (at + 1..rows.len())
        .filter(|&other| !is_definition(&rows[other]))
        .collect();
    if later.is_empty() {
        return;
    }
    let field = match rows[at][0][0] {
        b'V' | b'F' => 3,
        b'C' => 2,
        _ => rng.range(2, 3),
    };
    rows[at][field] = number(*rng.pick(&later) + 1);
}

/// Lines added at the end, left out or put elsewhere.
fn change_lines(rng: &mut Rng, rows: &mut Vec<Row>) {
    let at = rng.below(rows.len());
    let other = rng.below(rows.len());
    match rng.below(5) {
        0 => rows.push(["N", "-", "1", "-", "-"].map(|field| field.as_bytes().to_vec())),
        1 => rows.push(rows[at].clone()),
        2 if rows.len() > 1 => {
            rows.remove(at);
        }
        3 => rows.insert(at, rows[other].clone()),
        _ => rows.swap(at, other),
    }
}

/// Row 10: P in place of a leaf, wherever it stands.
fn change_to_argument(rng: &mut Rng, rows: &mut [Row]) {
    if let Some(at) = find_kind(rng, rows, b"NR") {
        rows[at] = ["P", "-", "-", "-", "-"].map(|field| field.as_bytes().to_vec());
    }
}

/// Row 11: sums nested under a leaf, up to about level 32.
fn deepen(rng: &mut Rng, rows: &mut Vec<Row>) {
    let Some(at) = find_kind(rng, rows, b"NR") else {
        return;
    };
    let levels = rng.range(27, 34);
    let mut place = at;
    for _ in 0..levels {
        let leaf = rows[place].clone();
        let next = rows.len() + 1;
        let sum = [
            b"A".to_vec(),
            b"-".to_vec(),
            number(next),
            number(next + 1),
            b"-".to_vec(),
        ];
        rows[place] = sum;
        rows.push(leaf.clone());
        rows.push(leaf);
        place = rows.len() - 1 - rng.below(2);
    }
}

/// Row 12 (or 13 to 15): a definition takes another's name, in the same letters
/// or in others, or nearly that, or a new one.
fn change_name(rng: &mut Rng, rows: &mut [Row]) {
    let (Some(at), Some(other)) = (
        find_kind(rng, &rows[1..], b"GVF"),
        find_kind(rng, &rows[1..], b"GVF"),
    ) else {
        return;
    };
    rows[at + 1][1] = rows[other + 1][1].clone();
    if rng.chance(50) {
        recase(rng, &mut rows[at + 1][1]);
    }
    if rng.chance(40) {
        rows[at + 1][2] = rows[other + 1][2].clone();
    }
    if rng.chance(10) {
        make_near(rng, &mut rows[at + 1][1]);
    }
    if rng.chance(10) {
        rows[at + 1][1] = b"fresh".to_vec();
    }
}

/// Rows 13 to 16: another head, a name more, fewer or changed, a byte of one, or
/// another line's path, or a definition's name; now and then in other letters.
fn change_path(rng: &mut Rng, rows: &mut [Row]) {
    let Some(at) = find_kind(rng, rows, b"RC") else {
        return;
    };
    let other = find_kind(rng, rows, b"RC").unwrap_or(at);
    let definition = find_kind(rng, rows, b"GVF").unwrap_or(0);
    let name = rows[definition][1].clone();
    let path = rows[at][1].clone();
    let mut names: Vec<Vec<u8>> = path.split(|&b| b == b'.').map(<[u8]>::to_vec).collect();
    let last = names.len() - 1;
    match rng.below(12) {
        0 => names[0] = b"nobody".to_vec(),
        1 => names[last] = b"nobody".to_vec(),
        2 => names.push(name),
        3 if last > 0 => {
            names.pop();
        }
        4 => names.insert(0, name),
        5 => names[last] = name,
        6 => names = vec![rows[other][1].clone()],
        7 => slip(rng, &mut names[last]),
        8 => {
            let any = rng.below(names.len());
            make_near(rng, &mut names[any]);
        }
        _ => names = vec![name],
    }
    rows[at][1] = names.join(&b'.');
    if rng.chance(25) {
        recase(rng, &mut rows[at][1]);
    }
}

/// One byte of a name mistyped: a neighbour, so that it is that letter in no
/// case.
fn slip(rng: &mut Rng, name: &mut [u8]) {
    if !name.is_empty() {
        let at = rng.below(name.len());
        name[at] ^= 1;
    }
}
