//! Line one of a sheet, which names its tie rule (order 5), and lines that are
//! nearly one of the two.

/// Line one of a sheet whose halves go away from zero, and of one whose halves go
/// to the even neighbour, their ends left out.
pub const AWAY: &[u8] = b"kind name a b c";
pub const EVEN: &[u8] = b"kind2 name a b c";

/// Both.
pub const FIRST_LINES: [&[u8]; 2] = [AWAY, EVEN];

/// Line one of a text, without its end.
pub fn first_line(text: &[u8]) -> &[u8] {
    let end = text.iter().position(|&byte| byte == b'\n');
    &text[..end.unwrap_or(text.len())]
}

/// The text with another line one.
pub fn under(line: &[u8], text: &[u8]) -> Vec<u8> {
    [line, &text[first_line(text).len()..]].concat()
}

/// The text under the other of the two lines; none where it has neither.
pub fn under_other(text: &[u8]) -> Option<Vec<u8>> {
    let at = FIRST_LINES
        .iter()
        .position(|&line| line == first_line(text))?;
    Some(under(FIRST_LINES[1 - at], text))
}

/// Whether one byte put in, left out or replaced makes one line of the other.
pub fn is_one_byte_off(line: &[u8], other: &[u8]) -> bool {
    let same = line.iter().zip(other).take_while(|(a, b)| a == b).count();
    let [line, other] = [&line[same..], &other[same..]];
    match [line, other].map(|rest| rest.get(1..)) {
        [Some(line_rest), Some(other_rest)] => {
            line_rest == other_rest || line_rest == other || line == other_rest
        }
        [rest, other_rest] => [rest, other_rest]
            .into_iter()
            .flatten()
            .any(<[u8]>::is_empty),
    }
}

#[cfg(test)]
mod tests {
    use super::*;

    #[test]
    fn lines_one_byte_off() {
        for near in [
            "kin name a b c",
            "kinds name a b c",
            "Kind name a b c",
            "kind name a b cc",
        ] {
            assert!(is_one_byte_off(near.as_bytes(), AWAY), "{near}");
            assert!(is_one_byte_off(AWAY, near.as_bytes()), "{near}");
        }
        for other in [
            "kind name a b c",
            "kind name a b",
            "",
            "Kind name a b C",
            "kind02 name a b c",
        ] {
            assert!(!is_one_byte_off(other.as_bytes(), AWAY), "{other}");
            assert!(!is_one_byte_off(AWAY, other.as_bytes()), "{other}");
        }
        assert!(is_one_byte_off(AWAY, EVEN));
        assert!(FIRST_LINES
            .iter()
            .all(|line| is_one_byte_off(b"kind3 name a b c", line)));
    }

    #[test]
    fn a_text_under_the_other_line() {
        let [away, even] = FIRST_LINES.map(|line| [line, b"\nG - 0 - -\n"].concat());
        assert_eq!(under_other(&away).as_ref(), Some(&even));
        assert_eq!(under_other(&even), Some(away));
        assert_eq!(under_other(b"kind3 name a b c\nG - 0 - -\n"), None);
        assert_eq!(under_other(b"kind name a b c"), Some(EVEN.to_vec()));
        assert_eq!(under(b"", &even), b"\nG - 0 - -\n");
    }
}
