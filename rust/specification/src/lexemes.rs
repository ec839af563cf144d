//! The words and signs of a file in Rattle, its contracts kept whole.

/// A word of code, with what it leads to: `a::b` is one.
#[derive(Clone, Debug, PartialEq, Eq)]
pub struct Word {
    pub path: Vec<String>,
    /// Whether a bracket follows, as behind a function that is called.
    pub called: bool,
    /// Whether a dot stands before it: a field or a method.
    pub member: bool,
}

#[derive(Clone, Debug, PartialEq, Eq)]
pub enum Sort {
    Word(Word),
    Sign(char),
    /// `requires`, `ensures` or a `ghost` member, and the text between its braces, a
    /// name between them left out.
    Contract(String, String),
    /// `ghost use ..`, the first word left out.
    Ghost(String),
}

#[derive(Clone, Debug, PartialEq, Eq)]
pub struct Lexeme {
    pub line: usize,
    pub sort: Sort,
}

impl Lexeme {
    /// The word, where it is one by itself.
    pub fn word(&self) -> Option<&str> {
        match &self.sort {
            Sort::Word(word) if word.path.len() == 1 => Some(&word.path[0]),
            _ => None,
        }
    }

    pub fn is_sign(&self, sign: char) -> bool {
        self.sort == Sort::Sign(sign)
    }
}

/// Comments, each with its line.
pub type Comments = Vec<(usize, String)>;

pub fn lexemes(text: &str) -> (Vec<Lexeme>, Comments) {
    let mut lexer = Lexer {
        text,
        at: 0,
        line: 1,
        lexemes: vec![],
        comments: vec![],
    };
    while lexer.at < text.len() {
        lexer.step();
    }
    (lexer.lexemes, lexer.comments)
}

struct Lexer<'a> {
    text: &'a str,
    at: usize,
    line: usize,
    lexemes: Vec<Lexeme>,
    comments: Comments,
}

fn is_word_part(c: char) -> bool {
    c.is_alphanumeric() || c == '_'
}

/// Where the brace that a text begins with closes.
fn braced(text: &str) -> usize {
    let mut depth = 0;
    for (at, c) in text.char_indices() {
        match c {
            '{' => depth += 1,
            '}' => depth -= 1,
            _ => {}
        }
        if depth == 0 {
            return at;
        }
    }
    text.len()
}

/// The length of a quoted text that a text begins with, with its quotes.
fn quoted(text: &str, quote: char) -> usize {
    let mut escaped = false;
    for (at, c) in text.char_indices().skip(1) {
        if c == quote && !escaped {
            return at + 1;
        }
        escaped = c == '\\' && !escaped;
    }
    text.len()
}

impl<'a> Lexer<'a> {
    fn rest(&self) -> &'a str {
        &self.text[self.at..]
    }

    fn skip(&mut self, length: usize) -> &'a str {
        let part = &self.rest()[..length];
        self.line += part.matches('\n').count();
        self.at += length;
        part
    }

    fn push(&mut self, line: usize, sort: Sort) {
        self.lexemes.push(Lexeme { line, sort });
    }

    fn step(&mut self) {
        let rest = self.rest();
        let c = rest.chars().next().unwrap_or(' ');
        let line = self.line;
        if rest.starts_with("//") {
            let length = rest.find('\n').unwrap_or(rest.len());
            let comment = self.skip(length).trim_start_matches('/').trim();
            self.comments.push((line, comment.to_string()));
        } else if rest.starts_with("ghost use") {
            let length = rest.find(';').unwrap_or(rest.len() - 1) + 1;
            let text = self.skip(length)["ghost ".len()..length - 1].to_string();
            self.push(line, Sort::Ghost(text));
        } else if let Some(text) = rest.strip_prefix("ghost ") {
            self.skip(rest.len() - text.len());
            self.contract(line, "ghost");
        } else if rest.starts_with("b'") || rest.starts_with("b\"") {
            let quote = rest.chars().nth(1).unwrap_or('"');
            self.skip(1 + quoted(&rest[1..], quote));
        } else if c == '"' {
            self.skip(quoted(rest, '"'));
        } else if is_word_part(c) {
            self.word();
        } else if c.is_whitespace() {
            self.skip(c.len_utf8());
        } else {
            self.skip(c.len_utf8());
            self.push(line, Sort::Sign(c));
        }
    }

    fn word(&mut self) {
        let line = self.line;
        let member = self.lexemes.last().is_some_and(|last| last.is_sign('.'));
        let mut path = vec![];
        loop {
            let rest = self.rest();
            let length = rest.find(|c| !is_word_part(c)).unwrap_or(rest.len());
            path.push(self.skip(length).to_string());
            self.arguments();
            let after = self.rest().strip_prefix("::");
            if !after.is_some_and(|text| text.starts_with(is_word_part)) {
                break;
            }
            self.skip(2);
        }
        if ["requires", "ensures"].contains(&&path[0][..]) {
            return self.contract(line, &path[0]);
        }
        let called = self.rest().starts_with('(');
        self.push(
            line,
            Sort::Word(Word {
                path,
                called,
                member,
            }),
        );
    }

    /// `::<..>` behind a name: what it names stands before it.
    fn arguments(&mut self) {
        let Some(text) = self.rest().strip_prefix("::<") else {
            return;
        };
        let length = text.find('>').unwrap_or(text.len());
        let line = self.line;
        let (words, _) = lexemes(&text[..length]);
        self.skip("::<".len() + length + 1);
        let words = words.into_iter();
        self.lexemes
            .extend(words.map(|word| Lexeme { line, ..word }));
    }

    fn contract(&mut self, line: usize, keyword: &str) {
        let open = self.rest().find('{').unwrap_or(0);
        self.skip(open);
        let length = braced(self.rest());
        let text = self.skip(length)[1..].to_string();
        self.skip(1);
        self.push(line, Sort::Contract(keyword.to_string(), text));
    }
}

#[cfg(test)]
mod tests {
    use super::*;

    #[test]
    fn words_contracts_and_signs() {
        let text = "// c\nghost use A.{b};\nstruct S { ghost is: { y } }\nfn f(x: u8) -> T\n    ensures same { result ≡ g {x = 1} }\n{ a::b::<N>(x.len(), b'{', b\"}\") }\n";
        let (lexemes, comments) = lexemes(text);
        assert_eq!(comments, [(1, "c".to_string())]);
        assert_eq!(lexemes[0].sort, Sort::Ghost("use A.{b}".to_string()));
        let contract = lexemes.iter().find_map(|lexeme| match &lexeme.sort {
            Sort::Contract(keyword, text) => Some((lexeme.line, &keyword[..], &text[..])),
            _ => None,
        });
        assert_eq!(contract, Some((3, "ghost", " y ")));
        let contract = lexemes.iter().rev().find_map(|lexeme| match &lexeme.sort {
            Sort::Contract(keyword, text) => Some((lexeme.line, &keyword[..], &text[..])),
            _ => None,
        });
        assert_eq!(contract, Some((5, "ensures", " result ≡ g {x = 1} ")));
        let words = lexemes.iter().filter_map(|lexeme| match &lexeme.sort {
            Sort::Word(word) => Some((word.path.join("::"), word.called, word.member)),
            _ => None,
        });
        let last: Vec<_> = words.collect();
        assert!(last.contains(&("a::b".to_string(), true, false)));
        assert!(last.contains(&("len".to_string(), true, true)));
    }
}
