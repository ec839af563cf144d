//! Refusal 1: the bytes of the text.

use std::collections::HashMap;
use std::str;

use super::files;
use super::letters::{self, TAKE_OUT};
use super::rows::{self, FIELDS};
use super::words;
use super::Finding;
use crate::Mark;

pub const MOST_BYTES: usize = 65_536;

/// The most sorts of bytes that are told apart, and the most lines named.
const SORTS: usize = 8;
const LINES: usize = 6;

/// What is not allowed, at one place of the text.
#[derive(Clone, Copy, PartialEq, Eq, Hash)]
enum Stray {
    /// A carriage return before a line end.
    LineEnd,
    ByteOrderMark,
    /// Not ASCII, well-formed UTF-8.
    Character(char),
    Byte(u8),
}

/// All places of one sort.
struct Sort {
    stray: Stray,
    first: Mark,
    count: usize,
    /// Each line once.
    lines: Vec<usize>,
}

/// What refusal 1 finds, one for each sort of bytes; nothing where it finds
/// nothing.
pub fn all(text: &[u8]) -> Vec<Finding> {
    if text.is_empty() {
        let lines = words::first_lines();
        let smallest = format!("a sheet begins with the line {lines}, then `G - 0 - -`");
        return vec![Finding::new("the text is empty").help(smallest)];
    }
    let mut found: Vec<Finding> = too_long(text).into_iter().collect();
    match files::wide(text) {
        Some(wide) => found.push(wide),
        None => {
            // of a longer text no more is looked at
            found.extend(strays(&text[..text.len().min(MOST_BYTES)]));
            found.extend(unended(text));
        }
    }
    if let (Some(first), Some(kind)) = (found.first_mut(), files::kind_of(text)) {
        first.help_only(kind);
    }
    found
}

/// Whether all bytes of a line are allowed.
pub fn is_clean(line: &[u8]) -> bool {
    line.iter().all(|byte| (32..=126).contains(byte))
}

fn too_long(text: &[u8]) -> Option<Finding> {
    let sentence = format!("the text has more than {MOST_BYTES} bytes");
    let help = "leave out what the order does not need, or send it as two sheets";
    (text.len() > MOST_BYTES).then(|| Finding::new(sentence).help(help))
}

/// The last line without a line end. Of a text that is too long it may not be
/// the last, and one whose lines end otherwise has other line ends.
fn unended(text: &[u8]) -> Option<Finding> {
    let is_macintosh = !text.contains(&b'\n') && text.contains(&b'\r');
    if text.ends_with(b"\n") || text.len() > MOST_BYTES || is_macintosh {
        return None;
    }
    let line = text.iter().filter(|&&byte| byte == b'\n').count() + 1;
    let mark = Mark {
        line,
        column: line_length(text) + 1,
        width: 1,
    };
    let sentence = "the last line does not end with a line end (byte 10)";
    Some(Finding::at(mark, sentence).help(match is_cut(text) {
        true => "the last line is not whole: was the text cut off on its way?",
        false => "end it with a line end: press Enter after it",
    }))
}

/// Whether the text ends in the midst of a line.
pub fn is_cut(text: &[u8]) -> bool {
    let last = rows::lines_of(text).last().unwrap_or(b"");
    let fields = last.split(|&byte| byte == b' ');
    let is_whole = fields.filter(|field| !field.is_empty()).count() >= FIELDS.len();
    !text.ends_with(b"\n") && !is_whole
}

/// How many bytes the last line has.
fn line_length(text: &[u8]) -> usize {
    text.iter().rev().take_while(|&&byte| byte != b'\n').count()
}

/// The bytes that are not allowed, by their sorts as they first stand.
fn strays(text: &[u8]) -> Vec<Finding> {
    let sorts = sorts(text);
    let told = sorts.iter().take(SORTS);
    let mut found: Vec<Finding> = told.map(|sort| say(text, sort)).collect();
    let rest = &sorts[sorts.len().min(SORTS)..];
    if let Some(next) = rest.first() {
        let places = rest.iter().map(|sort| sort.count).sum();
        let sorts = words::counted(rest.len(), "other byte or letter");
        let places = words::counted(places, "place");
        let sentence = format!("{sorts} that are not allowed stand at {places}");
        found.push(Finding::at(next.first, sentence));
    }
    found
}

fn sorts(text: &[u8]) -> Vec<Sort> {
    let mut sorts: Vec<Sort> = vec![];
    let mut places: HashMap<Stray, usize> = HashMap::new();
    let (mut line, mut start, mut at) = (1, 0, 0);
    while at < text.len() {
        let Some((stray, width)) = stray(text, at) else {
            if text[at] == b'\n' {
                (line, start) = (line + 1, at + 1);
            }
            at += 1;
            continue;
        };
        let column = 1 + at - start;
        let place = *places.entry(stray).or_insert(sorts.len());
        if place == sorts.len() {
            sorts.push(Sort::new(
                stray,
                Mark {
                    line,
                    column,
                    width,
                },
            ));
        }
        sorts[place].add(line);
        at += width;
    }
    sorts
}

impl Sort {
    fn new(stray: Stray, first: Mark) -> Self {
        Sort {
            stray,
            first,
            count: 0,
            lines: vec![],
        }
    }

    fn add(&mut self, line: usize) {
        self.count += 1;
        if self.lines.last() != Some(&line) {
            self.lines.push(line);
        }
    }
}

/// What is not allowed at a place, and how many bytes it takes.
fn stray(text: &[u8], at: usize) -> Option<(Stray, usize)> {
    match text[at] {
        b'\n' | 32..=126 => None,
        b'\r' if text.get(at + 1) == Some(&b'\n') => Some((Stray::LineEnd, 1)),
        _ if at == 0 && text.starts_with(files::BYTE_ORDER_MARK) => {
            Some((Stray::ByteOrderMark, files::BYTE_ORDER_MARK.len()))
        }
        byte => Some(match character(&text[at..]) {
            Some(letter) if byte >= 128 => (Stray::Character(letter), letter.len_utf8()),
            _ => (Stray::Byte(byte), 1),
        }),
    }
}

/// The character that the bytes begin with, where they are UTF-8.
fn character(bytes: &[u8]) -> Option<char> {
    let start = |length| str::from_utf8(bytes.get(..length)?).ok()?.chars().next();
    (1..=4).find_map(start)
}

fn say(text: &[u8], sort: &Sort) -> Finding {
    let found = match sort.stray {
        Stray::LineEnd => return windows(text, sort),
        Stray::ByteOrderMark => {
            let sentence = "the text begins with a byte order mark (bytes 239, 187 and 191)";
            Finding::at(sort.first, sentence).help(files::PLAIN)
        }
        Stray::Character(letter) => {
            let sentence = format!(
                "{} is not allowed; a sheet is printable ASCII",
                letters::shown(letter)
            );
            Finding::at(sort.first, sentence).may_help(letters::instead(letter))
        }
        Stray::Byte(byte) => of_byte(text, byte, sort.first),
    };
    found.may_help(places(sort))
}

fn windows(text: &[u8], sort: &Sort) -> Finding {
    let (count, lines) = (sort.count, rows::lines_of(text).count());
    let end = if count == 1 { "ends" } else { "end" };
    let sentence = format!(
        "{count} of {} {end} with a carriage return (byte 13; Windows line ends)",
        words::counted(lines, "line")
    );
    Finding::at(sort.first, sentence).help("save the file with Unix line ends (LF)")
}

fn of_byte(text: &[u8], byte: u8, first: Mark) -> Finding {
    let (name, help) = match byte {
        b'\t' => (
            " (a tab)",
            "one space stands between fields: write a space for each tab".to_string(),
        ),
        b'\r' if !text.contains(&b'\n') => (
            " (a carriage return)",
            "save the file with Unix line ends (LF), not those of an old Macintosh".to_string(),
        ),
        b'\r' => (" (a carriage return)", TAKE_OUT.to_string()),
        128.. => (" (not ASCII)", letters::of_windows(byte)),
        _ => ("", TAKE_OUT.to_string()),
    };
    let sentence = format!(
        "byte {byte}{name} is not allowed; lines end with byte 10, all others are 32 to 126"
    );
    Finding::at(first, sentence).help(help)
}

/// How often it stands, where that is more than once.
fn places(sort: &Sort) -> Option<String> {
    let lines = match &sort.lines[..] {
        [line] => format!("line {line}"),
        lines => format!("lines {}", words::and_more(lines, LINES)),
    };
    let count = sort.count;
    (count > 1).then(|| format!("it stands {count} times, in {lines}"))
}
