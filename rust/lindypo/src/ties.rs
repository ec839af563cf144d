//! The tie rule: where a quotient goes that is a half. Line one names it.

use std::fmt;

/// Where D puts a quotient that is a half. Line one of a sheet says which; it has
/// no other meaning.
///
/// ```
/// use lindypo::Ties;
///
/// assert_eq!(Ties::default(), Ties::Away);
/// assert_eq!(Ties::Even.first_line(), "kind2 name a b c");
/// assert_eq!(Ties::Even.to_string(), "halves to even");
/// ```
#[derive(Debug, Clone, Copy, Default, PartialEq, Eq, Hash)]
pub enum Ties {
    /// Away from zero: -3250 / 100 is -33, and 50 / 100 is 1.
    #[default]
    Away,
    /// To the even neighbour: -3250 / 100 is -32, and 50 / 100 is 0.
    Even,
}

impl Ties {
    pub const ALL: [Ties; 2] = [Ties::Away, Ties::Even];

    /// Line one of a sheet with this rule, without its line end.
    pub fn first_line(self) -> &'static str {
        match self {
            Ties::Away => "kind name a b c",
            Ties::Even => "kind2 name a b c",
        }
    }

    /// The rule that line one of a text names, whatever follows; `None` where it
    /// is neither line, or has no line end.
    ///
    /// ```
    /// use lindypo::Ties;
    ///
    /// assert_eq!(Ties::of_text(b"kind name a b c\nG - 0 - -\n"), Some(Ties::Away));
    /// assert_eq!(Ties::of_text(b"kind2 name a b c\n"), Some(Ties::Even));
    /// assert_eq!(Ties::of_text(b"kind3 name a b c\n"), None);
    /// ```
    pub fn of_text(text: &[u8]) -> Option<Ties> {
        let end = text.iter().position(|&byte| byte == b'\n')?;
        Ties::of_line(&text[..end])
    }

    /// The rule with this first line.
    pub(crate) fn of_line(line: &[u8]) -> Option<Ties> {
        let is_it = |ties: &Ties| ties.first_line().as_bytes() == line;
        Ties::ALL.into_iter().find(is_it)
    }

    /// The first of the column names, which is what the two lines differ in.
    pub(crate) fn column(self) -> &'static str {
        let line = self.first_line();
        line.split(' ').next().unwrap_or(line)
    }
}

/// The rule in words, as formulas say it too.
impl fmt::Display for Ties {
    fn fmt(&self, f: &mut fmt::Formatter) -> fmt::Result {
        f.write_str(match self {
            Ties::Away => "halves away from zero",
            Ties::Even => "halves to even",
        })
    }
}

#[cfg(test)]
mod tests {
    use super::*;

    #[test]
    fn lines_of_their_rule() {
        for ties in Ties::ALL {
            let line = ties.first_line();
            assert_eq!(Ties::of_line(line.as_bytes()), Some(ties));
            assert_eq!(Ties::of_text(format!("{line}\nG").as_bytes()), Some(ties));
            assert_eq!(Ties::of_text(line.as_bytes()), None, "no line end");
            assert_eq!(line, format!("{} name a b c", ties.column()));
        }
        for line in [
            "",
            "Kind2 name a b c",
            "kind2  name a b c",
            "kind02 name a b c",
            "kind2",
        ] {
            assert_eq!(
                Ties::of_text(format!("{line}\n").as_bytes()),
                None,
                "{line}"
            );
        }
    }
}
