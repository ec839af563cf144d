//! The tokens of antt, the language of `specs/`, `proofs/` and contracts.

/// What a token is.
#[derive(Clone, Copy, Debug, PartialEq, Eq)]
pub enum Kind {
    /// A run of characters that has none of the others in it.
    Name,
    /// `(` or `{`, or a name that is `[` alone.
    Open,
    /// `)` or `}`, or a name that is `]` alone.
    Close,
    Dot,
    Comma,
    Semicolon,
    /// Quoted text.
    Text,
}

#[derive(Clone, Debug, PartialEq, Eq)]
pub struct Token {
    pub kind: Kind,
    pub text: String,
    /// Line and column, from 1.
    pub line: usize,
    pub column: usize,
    /// Whether it is the first of its line.
    pub first: bool,
    /// Whether it follows the token before it with no space between.
    pub tight: bool,
}

impl Token {
    pub fn is(&self, text: &str) -> bool {
        self.kind != Kind::Text && self.text == text
    }

    pub fn is_name(&self) -> bool {
        self.kind == Kind::Name
    }
}

/// A comment, with its dashes, where it stands.
#[derive(Clone, Debug, PartialEq, Eq)]
pub struct Comment {
    pub line: usize,
    pub column: usize,
    pub text: String,
    /// Whether it has the line for itself.
    pub alone: bool,
}

/// The tokens and the comments of a text whose first line has this number.
pub fn tokens(text: &str, line: usize) -> (Vec<Token>, Vec<Comment>) {
    let mut lexer = Lexer {
        rest: text.chars().collect(),
        at: 0,
        line,
        column: 1,
        first: true,
        tight: false,
        tokens: vec![],
        comments: vec![],
    };
    while lexer.at < lexer.rest.len() {
        lexer.step();
    }
    (lexer.tokens, lexer.comments)
}

struct Lexer {
    rest: Vec<char>,
    at: usize,
    line: usize,
    column: usize,
    first: bool,
    tight: bool,
    tokens: Vec<Token>,
    comments: Vec<Comment>,
}

fn is_name_part(c: char) -> bool {
    !c.is_whitespace() && !"(){}.;,@\"".contains(c)
}

fn kind_of(c: char) -> Kind {
    match c {
        '(' | '{' => Kind::Open,
        ')' | '}' => Kind::Close,
        ',' => Kind::Comma,
        ';' => Kind::Semicolon,
        _ => Kind::Dot,
    }
}

impl Lexer {
    fn starts(&self, with: &str) -> bool {
        with.chars()
            .enumerate()
            .all(|(i, c)| self.rest.get(self.at + i) == Some(&c))
    }

    fn step(&mut self) {
        let c = self.rest[self.at];
        if c == '\n' {
            self.at += 1;
            self.line += 1;
            self.column = 1;
            self.first = true;
            self.tight = false;
        } else if c.is_whitespace() {
            self.skip(1);
            self.tight = false;
        } else if self.starts("--") {
            self.comment();
        } else if c == '"' {
            let length = self.quoted();
            self.push(Kind::Text, length);
        } else if is_name_part(c) {
            let length = self.length(is_name_part);
            let kind = match self.word(length).as_str() {
                "[" => Kind::Open,
                "]" => Kind::Close,
                _ => Kind::Name,
            };
            self.push(kind, length);
        } else {
            self.push(kind_of(c), 1);
        }
    }

    fn skip(&mut self, count: usize) {
        self.at += count;
        self.column += count;
    }

    fn length(&self, part: impl Fn(char) -> bool) -> usize {
        self.rest[self.at..]
            .iter()
            .take_while(|c| part(**c))
            .count()
    }

    fn word(&self, length: usize) -> String {
        self.rest[self.at..self.at + length].iter().collect()
    }

    /// The length of a quoted text, with its quotes.
    fn quoted(&self) -> usize {
        let mut length = 1;
        while let Some(c) = self.rest.get(self.at + length) {
            length += if *c == '\\' { 2 } else { 1 };
            if *c == '"' {
                break;
            }
        }
        length.min(self.rest.len() - self.at)
    }

    fn comment(&mut self) {
        let length = self.length(|c| c != '\n');
        self.comments.push(Comment {
            line: self.line,
            column: self.column,
            text: self.word(length).trim_end().to_string(),
            alone: self.first,
        });
        self.skip(length);
    }

    fn push(&mut self, kind: Kind, length: usize) {
        self.tokens.push(Token {
            kind,
            text: self.word(length),
            line: self.line,
            column: self.column,
            first: self.first,
            tight: self.tight,
        });
        self.skip(length);
        self.first = false;
        self.tight = true;
    }
}

/// Where the bracket at `open` closes; the end where it does not.
pub fn closing(tokens: &[Token], open: usize) -> usize {
    let mut depth = 0;
    for (at, token) in tokens.iter().enumerate().skip(open) {
        match token.kind {
            Kind::Open => depth += 1,
            Kind::Close => depth -= 1,
            _ => {}
        }
        if depth == 0 {
            return at;
        }
    }
    tokens.len()
}

/// The first token outside brackets that is as asked.
pub fn outside(tokens: &[Token], asked: impl Fn(&Token) -> bool) -> Option<usize> {
    let mut at = 0;
    while at < tokens.len() {
        if asked(&tokens[at]) {
            return Some(at);
        }
        at = match tokens[at].kind {
            Kind::Open => closing(tokens, at),
            _ => at,
        } + 1;
    }
    None
}

/// The parts of a text between the tokens outside brackets that are as asked.
pub fn split(tokens: &[Token], between: impl Fn(&Token) -> bool) -> Vec<&[Token]> {
    let mut parts = vec![];
    let mut rest = tokens;
    while let Some(at) = outside(rest, &between) {
        parts.push(&rest[..at]);
        rest = &rest[at + 1..];
    }
    parts.push(rest);
    parts
}

#[cfg(test)]
mod tests {
    use super::*;

    fn texts(text: &str) -> Vec<String> {
        tokens(text, 1).0.into_iter().map(|t| t.text).collect()
    }

    #[test]
    fn names_are_runs_between_spaces_and_brackets() {
        assert_eq!(texts("n+n (x .y)"), ["n+n", "(", "x", ".", "y", ")"]);
        assert_eq!(
            texts("λ r. a ≡ r.b"),
            ["λ", "r", ".", "a", "≡", "r", ".", "b"]
        );
        assert_eq!(
            texts("f \"a (b\\\" c\" ∷ []"),
            ["f", "\"a (b\\\" c\"", "∷", "[]"]
        );
    }

    #[test]
    fn comments_are_kept_apart() {
        let (tokens, comments) = tokens("-- one\nx -- two\n", 1);
        assert_eq!(tokens.len(), 1);
        assert_eq!((tokens[0].line, tokens[0].column), (2, 1));
        assert_eq!((comments[0].alone, comments[1].alone), (true, false));
        assert_eq!(comments[1].text, "-- two");
    }

    #[test]
    fn brackets_close_where_they_were_opened() {
        let (tokens, _) = tokens("a (b { c } [ d | e ]) f , g", 1);
        assert_eq!(closing(&tokens, 1), 11);
        assert_eq!(outside(&tokens, |t| t.is("f")), Some(12));
        assert_eq!(outside(&tokens, |t| t.is("c")), None);
        assert_eq!(split(&tokens, |t| t.kind == Kind::Comma).len(), 2);
    }
}
