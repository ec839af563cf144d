//! A refusal with the line of the text that it is about, the field marked.

use std::str::Utf8Chunk;

use lindypo::{Help, Mark, Refusal};

use crate::output::Paint;
use crate::rules;

/// The most bytes of a line that are shown, and how many of them before the
/// mark, where a line is longer.
const SHOWN: usize = 96;
const BEFORE: usize = 32;

/// What stands for the rest of a line.
const CUT: &str = "...";

/// Why a text is refused, in words, with all places of it that this has to do
/// with, and how to mend it; `file` is what to call the text.
pub fn refused(text: &[u8], file: &str, refusal: &Refusal, paint: Paint) -> String {
    let (number, sentence) = (refusal.number(), refusal.sentence());
    let heading = paint.bad(&format!("refusal {number}"));
    let place = place(file, refusal);
    let (mark, help, rule) = (refusal.mark(), refusal.help(), rules::of(number).rule);
    let (margin, places) = places(text, mark, help, Some(rule), paint);
    format!("{heading}: {sentence}\n{margin}--> {place}\n{places}")
}

/// As much room as the numbers of the lines take; these lines with all that is
/// to be seen in them, the hints and the rule.
pub fn places(
    text: &[u8],
    mark: Option<Mark>,
    help: &[Help],
    rule: Option<&str>,
    paint: Paint,
) -> (String, String) {
    let spots = spots(mark, help);
    let last = spots.iter().map(|spot| spot.mark.line).max().unwrap_or(1);
    let margin = " ".repeat(last.to_string().len());
    let mut places = excerpt(text, &spots, &margin, paint);
    for help in help.iter().filter(|help| help.mark.is_none()) {
        places += &note(&margin, "help", &help.sentence, paint);
    }
    if let Some(rule) = rule {
        places += &note(&margin, "rule", rule, paint);
    }
    (margin, places)
}

fn note(margin: &str, word: &str, sentence: &str, paint: Paint) -> String {
    format!("{margin} = {}: {sentence}\n", paint.strong(word))
}

/// Where to look: in the file, in the order, in the list of pairs.
fn place(file: &str, refusal: &Refusal) -> String {
    let in_file = match refusal.mark() {
        Some(Mark { line, column, .. }) => {
            let label = line.checked_sub(2).map(|above| above + 1);
            let label = label.map_or(String::new(), |label| format!(" (label {label})"));
            format!("{file}:{line}:{column}{label}")
        }
        None => file.to_string(),
    };
    match refusal {
        Refusal::Listed(fault) | Refusal::Early(fault) => {
            format!("{in_file}, position {} of the order", fault.place)
        }
        Refusal::PairLabel(fault) | Refusal::PairNumber(fault) => {
            format!("{in_file}, pair {} of the list", fault.place)
        }
        _ => in_file,
    }
}

/// A part of the text that is marked, and what is said of it there.
struct Spot<'a> {
    mark: Mark,
    /// Whether this is the place to mend, and no other that has to do with it.
    is_place: bool,
    words: &'a str,
}

/// The place to mend and all others, from the top.
fn spots(mark: Option<Mark>, help: &[Help]) -> Vec<Spot<'_>> {
    let place = mark.map(|mark| Spot {
        mark,
        is_place: true,
        words: "",
    });
    let others = help.iter().filter_map(other_spot);
    let mut spots: Vec<Spot> = others.chain(place).collect();
    spots.sort_by_key(|spot| (spot.mark.line, spot.mark.column));
    spots
}

fn other_spot(help: &Help) -> Option<Spot<'_>> {
    Some(Spot {
        mark: help.mark?,
        is_place: false,
        words: &help.sentence,
    })
}

/// The lines of the text with their marks beneath.
fn excerpt(text: &[u8], spots: &[Spot], margin: &str, paint: Paint) -> String {
    let (mut excerpt, mut above) = (String::new(), None);
    if !spots.is_empty() {
        excerpt += &format!("{margin} |\n");
    }
    for spot in spots {
        let line = spot.mark.line;
        let (shown, spaces, width) = marked(line_of(text, line), spot.mark);
        let shown = format!("{line:>width$} | {shown}\n", width = margin.len());
        // a line stands once above all its marks, but where it is cut for each
        if above.as_ref() != Some(&shown) {
            excerpt += &shown;
        }
        above = Some(shown);
        let signs = match spot.is_place {
            true => paint.bad(&"^".repeat(width)),
            false => format!("{} {}", "-".repeat(width), spot.words),
        };
        excerpt += &format!("{margin} | {}{signs}\n", " ".repeat(spaces));
    }
    excerpt
}

/// A line of the text, from 1.
fn line_of(text: &[u8], line: usize) -> &[u8] {
    let mut lines = text.split(|&byte| byte == b'\n');
    lines.nth(line - 1).unwrap_or(b"")
}

/// The part of a line around the mark as it is shown, how far the mark is from
/// its start, and how wide it is.
fn marked(line: &[u8], mark: Mark) -> (String, usize, usize) {
    let start = mark.column - 1;
    let end = start + mark.width;
    let (first, last) = window(line.len(), start);
    let [left, right] = [first > 0, last < line.len()].map(|cut| if cut { CUT } else { "" });
    let before = shown(&line[first..start.min(last)]);
    let within = shown(&line[start.min(last)..end.min(last)]);
    let after = shown(&line[end.min(last)..last]);
    let beyond = if end > last { right.len() } else { 0 };
    // a mark beyond the end of the line still has a sign
    let width = within.chars().count().max(1) + beyond;
    (
        format!("{left}{before}{within}{after}{right}"),
        left.len() + before.chars().count(),
        width,
    )
}

/// Which bytes of a line of this length to show, with those from `start` on.
fn window(length: usize, start: usize) -> (usize, usize) {
    let latest = length.saturating_sub(SHOWN);
    let first = start.saturating_sub(BEFORE).min(latest);
    (first, length.min(first + SHOWN))
}

/// Letters as they are, bytes that cannot be seen as numbers: `<9>`.
fn shown(bytes: &[u8]) -> String {
    let letter = |letter: char| match is_seen(letter) {
        true => letter.to_string(),
        false => numbers(letter.encode_utf8(&mut [0; 4]).as_bytes()),
    };
    let chunk = |chunk: Utf8Chunk| {
        let letters: String = chunk.valid().chars().map(letter).collect();
        letters + &numbers(chunk.invalid())
    };
    bytes.utf8_chunks().map(chunk).collect()
}

/// All but what would move the text: controls, marks that turn or join letters,
/// spaces other than the plain one.
fn is_seen(letter: char) -> bool {
    let is_escaped = letter.escape_debug().count() > 1 && !letter.is_ascii_graphic();
    letter == ' ' || !letter.is_whitespace() && !is_escaped
}

fn numbers(bytes: &[u8]) -> String {
    bytes.iter().map(|byte| format!("<{byte}>")).collect()
}

#[cfg(test)]
mod tests {
    use super::*;

    fn mark(column: usize, width: usize) -> Mark {
        Mark {
            line: 1,
            column,
            width,
        }
    }

    #[track_caller]
    fn shows(line: &[u8], mark: Mark, wanted: [&str; 2]) {
        let (line, spaces, width) = marked(line, mark);
        let carets = " ".repeat(spaces) + &"^".repeat(width);
        assert_eq!([line.as_str(), carets.as_str()], wanted);
    }

    #[test]
    fn a_field_has_carets() {
        shows(
            b"R right.prism - - -",
            mark(9, 5),
            ["R right.prism - - -", "        ^^^^^"],
        );
    }

    #[test]
    fn past_the_end_there_is_one_caret() {
        shows(b"V x 1 3", mark(8, 1), ["V x 1 3", "       ^"]);
        shows(b"", mark(1, 1), ["", "^"]);
    }

    #[test]
    fn bytes_that_cannot_be_seen_are_numbers() {
        shows(b"V\tx\xc3 1", mark(2, 1), ["V<9>x<195> 1", " ^^^"]);
        shows(b"V\tx\xc3 1", mark(4, 1), ["V<9>x<195> 1", "     ^^^^^"]);
        let turned = "V \u{202e}x";
        shows(
            turned.as_bytes(),
            mark(6, 1),
            ["V <226><128><174>x", "                 ^"],
        );
    }

    #[test]
    fn letters_outside_ascii_are_shown() {
        shows("V café 1".as_bytes(), mark(6, 2), ["V café 1", "     ^"]);
        shows("V a\"'\\ 1".as_bytes(), mark(1, 1), ["V a\"'\\ 1", "^"]);
    }

    #[test]
    fn a_long_line_is_cut_around_the_mark() {
        let line = [b"a".repeat(100), b"X".to_vec(), b"b".repeat(100)].concat();
        let wanted = format!("...{}X{}...", "a".repeat(32), "b".repeat(63));
        let carets = format!("{}^", " ".repeat(35));
        shows(&line, mark(101, 1), [&wanted, &carets]);
        let start = format!("{}...", "a".repeat(96));
        shows(&line, mark(1, 1), [&start, "^"]);
        let end = format!("...{}", "b".repeat(96));
        let carets = format!("{}^", " ".repeat(98));
        shows(&line, mark(201, 1), [&end, &carets]);
    }

    #[test]
    fn a_long_mark_is_cut_with_its_line() {
        let line = b"a".repeat(200);
        let (shown, carets) = ("a".repeat(96) + "...", "^".repeat(99));
        shows(&line, mark(1, 200), [&shown, &carets]);
    }

    /// One past the end of a long line, where its line end is missing.
    #[test]
    fn the_end_of_a_long_line() {
        let line = b"a".repeat(200);
        let (shown, carets) = (
            format!("...{}", "a".repeat(96)),
            format!("{}^", " ".repeat(99)),
        );
        shows(&line, mark(201, 1), [&shown, &carets]);
    }
}
