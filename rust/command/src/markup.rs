//! Text in HTML and SVG.

/// Text as XML takes it; a character that XML cannot hold is shown as one that
/// is missing.
pub fn escaped(text: &str) -> String {
    let mut written = String::new();
    for letter in text.chars() {
        match letter {
            '&' => written += "&amp;",
            '<' => written += "&lt;",
            '>' => written += "&gt;",
            '"' => written += "&quot;",
            '\'' => written += "&apos;",
            '\u{fffe}' | '\u{ffff}' => written.push('\u{fffd}'),
            _ if letter.is_control() => written.push('\u{fffd}'),
            _ => written.push(letter),
        }
    }
    written
}

#[cfg(test)]
mod tests {
    use super::*;

    #[test]
    fn markup_is_escaped() {
        let written = escaped("a<b>&\"c'\u{1b}\n");
        assert_eq!(written, "a&lt;b&gt;&amp;&quot;c&apos;\u{fffd}\u{fffd}");
    }
}
