//! The items of a file in Rattle: functions with their contracts, types, constants.

use crate::blocks::{import, Use};
use crate::lexemes::{lexemes, Comments, Lexeme, Sort, Word};
use crate::tokens::{tokens, Token};

#[derive(Clone, Copy, Debug, PartialEq, Eq)]
pub enum Form {
    Function,
    /// A struct, an enum or a name for a type.
    Type,
    Constant,
}

/// A `requires`, an `ensures` or a ghost member.
#[derive(Clone, Debug)]
pub struct Contract {
    pub keyword: String,
    pub tokens: Vec<Token>,
}

#[derive(Clone, Debug)]
pub struct Item {
    pub name: String,
    pub form: Form,
    /// The type that an `impl` gives it to.
    pub of: Option<String>,
    pub public: bool,
    /// Whether C can call it.
    pub exported: bool,
    /// The name of the functions that call one another, where it is one of them.
    pub cycle: Option<String>,
    pub first: usize,
    /// The last line of its head and contract, and of all of it.
    pub headed: usize,
    pub last: usize,
    pub comment: Vec<String>,
    pub parameters: Vec<String>,
    pub contracts: Vec<Contract>,
    /// What its marks name: what its proof may cite.
    pub cited: Vec<Word>,
    /// What its head names: parameters, results, the types of fields; and its body.
    pub head: Vec<Word>,
    pub body: Vec<Word>,
    pub variants: Vec<String>,
}

#[derive(Clone, Debug, Default)]
pub struct Code {
    /// What contracts may name.
    pub ghosts: Vec<Use>,
    /// The ghost members of impls.
    pub members: Vec<Contract>,
    /// What code may name: the path and the line.
    pub uses: Vec<(Vec<String>, usize)>,
    pub items: Vec<Item>,
}

/// Reads a file.
pub fn code(text: &str) -> Code {
    let (lexemes, comments) = lexemes(text);
    let mut reader = Reader {
        comments,
        code: Code::default(),
    };
    reader.items(&lexemes, None);
    reader.code
}

struct Reader {
    comments: Comments,
    code: Code,
}

fn depth_change(lexeme: &Lexeme) -> isize {
    match lexeme.sort {
        Sort::Sign('(' | '[' | '{') => 1,
        Sort::Sign(')' | ']' | '}') => -1,
        _ => 0,
    }
}

/// The first lexeme outside brackets that is as asked.
fn outside(lexemes: &[Lexeme], asked: impl Fn(&Lexeme) -> bool) -> Option<usize> {
    let mut depth = 0;
    for (at, lexeme) in lexemes.iter().enumerate() {
        if depth == 0 && asked(lexeme) {
            return Some(at);
        }
        depth += depth_change(lexeme);
    }
    None
}

/// Where the bracket that the lexemes begin with closes.
fn closing(lexemes: &[Lexeme]) -> usize {
    let mut depth = 0;
    for (at, lexeme) in lexemes.iter().enumerate() {
        depth += depth_change(lexeme);
        if depth == 0 {
            return at;
        }
    }
    lexemes.len().saturating_sub(1)
}

/// Where an item ends: at its body's brace, or at a semicolon.
fn end(lexemes: &[Lexeme]) -> (usize, usize) {
    let ends = |lexeme: &Lexeme| lexeme.is_sign('{') || lexeme.is_sign(';');
    let at = outside(lexemes, ends).unwrap_or(lexemes.len() - 1);
    match lexemes[at].is_sign('{') {
        true => (at, at + closing(&lexemes[at..])),
        false => (at, at),
    }
}

fn words<'a>(lexemes: impl Iterator<Item = &'a Lexeme>) -> Vec<Word> {
    let word = |lexeme: &Lexeme| match &lexeme.sort {
        Sort::Word(word) => Some(word.clone()),
        _ => None,
    };
    lexemes.filter_map(word).collect()
}

/// The word in `#[cycle(word)]`.
fn cycle(marks: &[Lexeme]) -> Option<String> {
    let at = marks
        .iter()
        .position(|lexeme| lexeme.word() == Some("cycle"))?;
    marks[at + 1..]
        .iter()
        .find_map(Lexeme::word)
        .map(str::to_string)
}

/// The places of the words before a sign, just inside the first brackets.
fn labels(lexemes: &[Lexeme], open: char, before: &[char]) -> Vec<usize> {
    let Some(open) = outside(lexemes, |lexeme| lexeme.is_sign(open)) else {
        return vec![];
    };
    let close = open + closing(&lexemes[open..]);
    let mut depth = 0;
    let mut labels = vec![];
    for at in open + 1..close {
        let ends = match at + 1 < close {
            true => before.iter().any(|sign| lexemes[at + 1].is_sign(*sign)),
            false => before.contains(&','),
        };
        if depth == 0 && ends && lexemes[at].word().is_some() {
            labels.push(at);
        }
        depth += depth_change(&lexemes[at]);
    }
    labels
}

fn texts(lexemes: &[Lexeme], places: &[usize]) -> Vec<String> {
    let words = places.iter().filter_map(|at| lexemes[*at].word());
    words.map(str::to_string).collect()
}

const FORMS: [(&str, Form); 6] = [
    ("fn", Form::Function),
    ("struct", Form::Type),
    ("enum", Form::Type),
    ("type", Form::Type),
    ("const", Form::Constant),
    ("static", Form::Constant),
];

impl Reader {
    fn items(&mut self, lexemes: &[Lexeme], of: Option<&str>) {
        let mut at = 0;
        let mut start = 0;
        while at < lexemes.len() {
            let rest = &lexemes[at..];
            let form = FORMS.iter().find(|(word, _)| rest[0].word() == Some(word));
            at += match (&rest[0].sort, form) {
                (Sort::Contract(keyword, text), _) => {
                    self.code.members.push(Contract {
                        keyword: keyword.clone(),
                        tokens: tokens(text, rest[0].line).0,
                    });
                    1
                }
                (Sort::Ghost(text), _) => {
                    let (tokens, _) = tokens(text, rest[0].line);
                    self.code.ghosts.push(import(&tokens, false));
                    1
                }
                // what an impl calls the type of a trait
                (_, Some((_, Form::Type))) if of.is_some() => end(rest).1 + 1,
                (_, Some((_, form))) => self.item(&lexemes[start..], at - start, *form, of),
                _ => match rest[0].word() {
                    Some("use") if lexemes[start].word() == Some("pub") => end(rest).1 + 1,
                    Some("use") => self.import(rest),
                    Some("impl") => self.methods(rest),
                    Some("mod") => end(rest).1 + 1,
                    _ => {
                        at += 1;
                        continue;
                    }
                },
            };
            start = at;
        }
    }

    fn import(&mut self, lexemes: &[Lexeme]) -> usize {
        let end = outside(lexemes, |lexeme| lexeme.is_sign(';')).unwrap_or(lexemes.len() - 1);
        let mut brought = words(lexemes[1..end].iter())
            .into_iter()
            .map(|word| word.path);
        let first = brought.next().unwrap_or_default();
        let line = lexemes[0].line;
        match lexemes[..end].iter().any(|lexeme| lexeme.is_sign('{')) {
            // `a::{b, c}` brings in `a::b` and `a::c`
            true => {
                let whole = brought.map(|path| ([&first[..], &path[..]].concat(), line));
                self.code.uses.extend(whole);
            }
            false => self.code.uses.push((first, line)),
        }
        end + 1
    }

    fn methods(&mut self, lexemes: &[Lexeme]) -> usize {
        let (open, close) = end(lexemes);
        let named = outside(&lexemes[..open], |lexeme| lexeme.word() == Some("for"));
        let from = named.map_or(&lexemes[1..open], |at| &lexemes[at + 1..open]);
        let is_name = |word: &&str| word.starts_with(char::is_uppercase);
        let of = from.iter().filter_map(Lexeme::word).find(is_name);
        let of = of.unwrap_or_default().to_string();
        self.items(&lexemes[open + 1..close], Some(&of));
        close + 1
    }

    /// An item whose marks begin the lexemes, and whose keyword stands `at`.
    fn item(&mut self, lexemes: &[Lexeme], at: usize, form: Form, of: Option<&str>) -> usize {
        let marks = &lexemes[..at];
        let rest = &lexemes[at..];
        let (open, close) = end(rest);
        let is_marked = |mark: &str| marks.iter().any(|lexeme| lexeme.word() == Some(mark));
        let contract = |lexeme: &Lexeme| match &lexeme.sort {
            Sort::Contract(keyword, text) => Some(Contract {
                keyword: keyword.clone(),
                tokens: tokens(text, lexeme.line).0,
            }),
            _ => None,
        };
        let first = lexemes[0].line;
        let variants = match rest[0].word() {
            Some("enum") => labels(rest, '{', &[',', '(', '{']),
            _ => vec![],
        };
        let named = |from: usize, to: usize| {
            let named = (from..to).filter(|at| !variants.contains(at));
            words(named.map(|at| &rest[at]))
        };
        let headed = if form == Form::Function {
            open
        } else {
            close + 1
        };
        let stated = if form == Form::Type { close } else { open };
        self.code.items.push(Item {
            name: rest[1].word().unwrap_or_default().to_string(),
            form,
            of: of.map(str::to_string),
            public: is_marked("pub"),
            exported: is_marked("extern"),
            cycle: cycle(marks),
            first,
            headed: rest[open.saturating_sub(1)].line,
            last: rest[close].line,
            comment: self.above(first),
            parameters: texts(rest, &labels(&rest[..open], '(', &[':'])),
            contracts: rest[..stated].iter().filter_map(contract).collect(),
            cited: words(marks.iter()),
            head: named(2, headed),
            body: named(headed, close + 1),
            variants: texts(rest, &variants),
        });
        close + 1
    }

    fn above(&self, line: usize) -> Vec<String> {
        let mut comment = vec![];
        for (above, (at, text)) in (1..).zip(self.comments.iter().rev().filter(|c| c.0 < line)) {
            if at + above != line || text.starts_with("----") {
                break;
            }
            comment.insert(0, text.clone());
        }
        comment
    }
}

#[cfg(test)]
mod tests {
    use super::*;

    const TEXT: &str = "\
ghost use lib.A.{x};
use other::{T, U};

// A kind.
pub enum Kind {
    One,
    Two(u8),
}

const TABLE: [Kind; 2] = [Kind::One, Kind::Two(1)];

impl Kind {
    // Its number.
    pub fn number(self) -> usize
        ensures { result ≡ x self }
    {
        other::f(1)
    }
}

// Exported.
#[cycle(both)]
#[unsafe(no_mangle)]
pub extern \"C\" fn g(
    a: &[u8],
    b: T,
) -> usize
    requires { 0 < a }
{
    f(a)
}
";

    #[test]
    fn items_have_their_parts() {
        let code = code(TEXT);
        let names: Vec<&str> = code.items.iter().map(|item| &item.name[..]).collect();
        assert_eq!(names, ["Kind", "TABLE", "number", "g"]);
        assert_eq!(code.items[0].variants, ["One", "Two"]);
        let words: Vec<&str> = code.items[0].head.iter().map(|w| &w.path[0][..]).collect();
        assert_eq!(words, ["u8"]);
        assert_eq!(code.items[2].of.as_deref(), Some("Kind"));
        let uses: Vec<String> = code.uses.iter().map(|(path, _)| path.join("::")).collect();
        assert_eq!(
            (code.ghosts.len(), uses.join(" ")),
            (1, "other::T other::U".to_string())
        );
    }

    #[test]
    fn functions_have_contracts_and_parameters() {
        let g = code(TEXT).items.pop().expect("an item");
        assert!(g.exported && g.public);
        assert_eq!(g.parameters, ["a", "b"]);
        assert_eq!(g.contracts.len(), 1);
        assert_eq!(g.contracts[0].keyword, "requires");
        assert_eq!((g.first, g.headed, g.last), (22, 28, 31));
        assert_eq!(g.cycle.as_deref(), Some("both"));
        assert_eq!(g.comment, ["Exported."]);
    }
}
