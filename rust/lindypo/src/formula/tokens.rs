//! A text of formulas cut into tokens.

use std::str;

use super::names::{self, Word};
use super::Mistake;
use crate::diagnosis::words::quoted;
use crate::Mark;

/// The signs, and what stands around and between definitions.
const SYMBOLS: &[u8] = b"+-*/(){}=,";

#[derive(Debug, Clone, PartialEq, Eq)]
pub enum Token<'text> {
    /// A name, or a path of several.
    Names(Names<'text>),
    Digits(&'text str),
    Word(Word),
    Symbol(char),
    End,
}

/// Names joined by dots.
#[derive(Debug, Clone, PartialEq, Eq)]
pub struct Names<'text> {
    pub names: Vec<&'text str>,
    /// Whether the first is marked, and so surely no argument's.
    pub is_marked: bool,
}

impl Names<'_> {
    pub fn path(&self) -> String {
        self.names.join(".")
    }
}

impl Token<'_> {
    /// The token as a sentence repeats it.
    pub fn quoted(&self) -> String {
        match self {
            Token::Names(names) => quoted(&names.path()),
            Token::Digits(digits) => quoted(digits),
            Token::Word(word) => quoted(word.text()),
            Token::Symbol(symbol) => format!("`{symbol}`"),
            Token::End => "the end of the text".to_string(),
        }
    }
}

/// The tokens still to come.
pub struct Tokens<'text> {
    text: &'text [u8],
    at: usize,
    /// The line that `at` is in, and where it begins.
    line: usize,
    line_start: usize,
    /// After the last token.
    end: Mark,
    /// A token that was looked at and not taken.
    ahead: Option<(Token<'text>, Mark)>,
}

impl<'text> Tokens<'text> {
    pub fn new(text: &'text [u8]) -> Self {
        let end = Mark {
            line: 1,
            column: 1,
            width: 1,
        };
        Tokens {
            text,
            at: 0,
            line: 1,
            line_start: 0,
            end,
            ahead: None,
        }
    }

    pub fn take(&mut self) -> Result<(Token<'text>, Mark), Mistake> {
        match self.ahead.take() {
            Some(token) => Ok(token),
            None => self.cut(),
        }
    }

    /// The next token, left where it is.
    pub fn peek(&mut self) -> Result<(Token<'text>, Mark), Mistake> {
        let token = self.take()?;
        self.ahead = Some(token.clone());
        Ok(token)
    }

    /// Whether a symbol comes next; it is taken then.
    pub fn take_symbol(&mut self, symbol: char) -> Result<bool, Mistake> {
        let (token, mark) = self.take()?;
        let is_it = token == Token::Symbol(symbol);
        if !is_it {
            self.ahead = Some((token, mark));
        }
        Ok(is_it)
    }

    fn cut(&mut self) -> Result<(Token<'text>, Mark), Mistake> {
        self.skip_blanks();
        let start = self.at;
        let token = match self.byte() {
            None => return Ok((Token::End, self.end)),
            Some(b'a'..=b'z' | b'A'..=b'Z' | b'`') => self.names()?,
            Some(b'0'..=b'9') => self.digits()?,
            Some(byte) if SYMBOLS.contains(&byte) => {
                self.at += 1;
                Token::Symbol(char::from(byte))
            }
            Some(byte) => return Err(self.no_token(byte)),
        };
        self.end = self.mark(self.at, self.at + 1);
        Ok((token, self.mark(start, self.at)))
    }

    /// Spaces, line ends and comments.
    fn skip_blanks(&mut self) {
        while let Some(byte) = self.byte() {
            match byte {
                b' ' | b'\t' | b'\r' => self.at += 1,
                b'\n' => {
                    self.at += 1;
                    self.line += 1;
                    self.line_start = self.at;
                }
                b'#' => self.skip(|byte| byte != b'\n'),
                _ => return,
            }
        }
    }

    fn names(&mut self) -> Result<Token<'text>, Mistake> {
        let start = self.at;
        let mut names = vec![];
        let mut marked = vec![];
        loop {
            let (name, is_marked) = self.name()?;
            names.push(name);
            marked.push(is_marked);
            if self.byte() != Some(b'.') {
                break;
            }
            self.at += 1;
        }
        let word = |at: usize| Word::of(names[at]).filter(|_| !marked[at]);
        match (0..names.len()).find_map(word) {
            Some(word) if names.len() == 1 => Ok(Token::Word(word)),
            Some(word) => Err(Mistake::at(self.mark(start, self.at), is_word(word))),
            None => Ok(Token::Names(Names {
                names,
                is_marked: marked[0],
            })),
        }
    }

    /// A name, and whether it is marked.
    fn name(&mut self) -> Result<(&'text str, bool), Mistake> {
        let start = self.at;
        let is_marked = self.byte() == Some(b'`');
        self.at += usize::from(is_marked);
        let first = self.at;
        self.skip(|byte| byte.is_ascii_alphanumeric());
        let name = self.part(first);
        if is_marked && self.byte() != Some(b'`') {
            let sentence = "a backquote stands on both sides of a name: `if`";
            return Err(Mistake::at(
                self.mark(start, self.at.max(start + 1)),
                sentence,
            ));
        }
        self.at += usize::from(is_marked);
        if !name.starts_with(|first: char| first.is_ascii_alphabetic()) {
            let sentence = "a name has to stand here, with a letter first";
            return Err(Mistake::at(
                self.mark(start, self.at.max(start + 1)),
                sentence,
            ));
        }
        Ok((name, is_marked))
    }

    fn digits(&mut self) -> Result<Token<'text>, Mistake> {
        let start = self.at;
        self.skip(|byte| byte.is_ascii_digit());
        let digits = self.part(start);
        let sentence = match self.byte() {
            Some(b'.') => "numbers are whole: no point stands in one",
            Some(byte) if byte.is_ascii_alphabetic() => "a name begins with a letter",
            _ => return Ok(Token::Digits(digits)),
        };
        self.skip(|byte| byte == b'.' || byte.is_ascii_alphanumeric());
        Err(Mistake::at(self.mark(start, self.at), sentence))
    }

    fn no_token(&self, byte: u8) -> Mistake {
        let sentence = match byte {
            b'.' => "a dot stands between two names, with no space: `right.prism`".to_string(),
            b';' => "nothing stands between definitions".to_string(),
            b'<' | b'>' | b'!' | b'&' | b'|' => format!(
                "`{}` means nothing in a formula: a test is a number, and holds where it is not 0",
                char::from(byte)
            ),
            33..=126 => format!(
                "`{}` means nothing in a formula; names are letters and digits, \
                 the signs are + - * / ( ) {{ }} =",
                char::from(byte)
            ),
            _ => format!(
                "byte {byte} may stand in a comment, after `#`, and nowhere else: \
                 formulas are printable ASCII"
            ),
        };
        Mistake::at(self.mark(self.at, self.at + 1), sentence)
    }

    fn byte(&self) -> Option<u8> {
        self.text.get(self.at).copied()
    }

    fn skip(&mut self, is_skipped: impl Fn(u8) -> bool) {
        let rest = self.text[self.at..].iter();
        self.at += rest.take_while(|&&byte| is_skipped(byte)).count();
    }

    /// The text from here to there, ASCII letters and digits.
    fn part(&self, start: usize) -> &'text str {
        str::from_utf8(&self.text[start..self.at]).unwrap_or_default()
    }

    /// A part of the line.
    fn mark(&self, start: usize, end: usize) -> Mark {
        Mark {
            line: self.line,
            column: 1 + start - self.line_start,
            width: end - start,
        }
    }
}

/// How to name what is named as a word.
pub const BETWEEN_MARKS: &str = "a definition of this name stands between backquotes";

/// What is wrong where a word stands for a name.
pub fn is_word(word: Word) -> String {
    let (word, marked) = (word.text(), names::marked(word.text()));
    format!("`{word}` is a word of the grammar; {BETWEEN_MARKS}: {marked}")
}
