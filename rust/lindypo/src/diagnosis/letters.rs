//! Letters outside ASCII: what they are, and what to write in their place.

pub const TAKE_OUT: &str = "take it out";

/// The letters of bytes 128 to 159 in Windows-1252, a space for none; the bytes
/// after these are as in Latin-1.
const WINDOWS: &str = "€ ‚ƒ„…†‡ˆ‰Š‹Œ Ž  ‘’“”•–—˜™š›œ žŸ";

/// Letters that look like one of ASCII, and that one.
const ALIKE: [(&str, &str); 8] = [
    (
        "\u{a0}\u{2002}\u{2003}\u{2007}\u{2009}\u{202f}\u{3000}",
        " ",
    ),
    (
        "\u{ad}\u{2010}\u{2011}\u{2012}\u{2013}\u{2014}\u{2212}",
        "-",
    ),
    ("\u{2018}\u{2019}\u{b4}", "'"),
    ("\u{201c}\u{201d}\u{201e}", "\""),
    ("\u{b7}\u{2024}\u{ff0e}", "."),
    ("\u{200b}\u{200c}\u{200d}\u{2060}\u{feff}", ""),
    ("\u{d7}", "x"),
    ("\u{2044}\u{2215}\u{f7}", "/"),
];

/// Letters with accents, and how they are written without.
const PLAIN: [(&str, &str); 18] = [
    ("àáâãåā", "a"),
    ("ÀÁÂÃÅĀ", "A"),
    ("çćč", "c"),
    ("ÇĆČ", "C"),
    ("èéêëēėę", "e"),
    ("ÈÉÊËĒĖĘ", "E"),
    ("ìíîïī", "i"),
    ("ñń", "n"),
    ("òóôõøō", "o"),
    ("ÒÓÔÕØŌ", "O"),
    ("ùúûū", "u"),
    ("šś", "s"),
    ("žźż", "z"),
    ("äæ", "ae"),
    ("öœ", "oe"),
    ("ü", "ue"),
    ("ß", "ss"),
    ("ł", "l"),
];

/// The letter itself where it can be seen, and its number.
pub fn shown(letter: char) -> String {
    let number = u32::from(letter);
    match letter {
        '\u{a0}' => "a no-break space (U+00A0)".to_string(),
        _ if is_unseen(letter) => format!("a letter that cannot be seen (U+{number:04X})"),
        _ => format!("`{letter}` (U+{number:04X})"),
    }
}

/// Spaces, and what Rust escapes where it shows a text: controls, marks that
/// turn or join letters, letters of no script.
fn is_unseen(letter: char) -> bool {
    letter.is_whitespace() || letter.escape_debug().count() > 1
}

/// What to write in its place, where that can be said.
pub fn instead(letter: char) -> Option<String> {
    let of = |table: &'static [(&str, &str)]| {
        let mut rows = table.iter();
        rows.find(|(letters, _)| letters.contains(letter))
            .map(|row| row.1)
    };
    let alike = of(&ALIKE).map(|plain| match plain {
        "" => TAKE_OUT.to_string(),
        " " => "write a plain space (byte 32)".to_string(),
        _ => format!("write `{plain}` (byte {})", plain.as_bytes()[0]),
    });
    let plain = || of(&PLAIN).map(|plain| format!("write it without its accent: `{plain}`"));
    let other = || {
        let is_letter = letter.is_alphanumeric();
        is_letter.then(|| "names have the letters A to Z and a to z, and digits".to_string())
    };
    alike.or_else(plain).or_else(other)
}

/// What a byte is in a file that Windows saved as its own letters, and what to
/// write.
pub fn of_windows(byte: u8) -> String {
    let own = byte
        .checked_sub(128)
        .and_then(|at| WINDOWS.chars().nth(at.into()));
    let letter = own.unwrap_or(char::from(byte));
    match (letter, instead(letter)) {
        (' ', _) => TAKE_OUT.to_string(),
        (_, Some(instead)) => format!("in Windows-1252 it is {}; {instead}", shown(letter)),
        (_, None) => format!("in Windows-1252 it is {}", shown(letter)),
    }
}

#[cfg(test)]
mod tests {
    use super::*;

    #[test]
    fn letters_that_cannot_be_seen() {
        for letter in [
            '\u{200b}', '\u{feff}', '\u{202e}', '\u{2028}', '\u{85}', '\u{301}',
        ] {
            assert!(is_unseen(letter), "{letter:?}");
        }
        assert!(!['é', '−', '–', '×', 'α', '字'].into_iter().any(is_unseen));
    }

    #[test]
    fn bytes_of_windows() {
        assert_eq!(WINDOWS.chars().count(), 32);
        for (byte, said) in [
            (128, "in Windows-1252 it is `€` (U+20AC)"),
            (129, TAKE_OUT),
            (
                146,
                "in Windows-1252 it is `’` (U+2019); write `'` (byte 39)",
            ),
            (
                150,
                "in Windows-1252 it is `–` (U+2013); write `-` (byte 45)",
            ),
            (
                160,
                "in Windows-1252 it is a no-break space (U+00A0); write a plain space (byte 32)",
            ),
            (
                233,
                "in Windows-1252 it is `é` (U+00E9); write it without its accent: `e`",
            ),
        ] {
            assert_eq!(of_windows(byte), said);
        }
    }
}
