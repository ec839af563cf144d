//! The declarations of a file in antt. Layout is by indentation: in a block, what
//! begins at the block's column begins a piece, and what stands further in goes on
//! with it.

use crate::tokens::{closing, outside, split, tokens, Comment, Kind, Token};

/// A line that brings names in, or a module under a name.
#[derive(Clone, Debug, PartialEq, Eq)]
pub struct Use {
    pub line: usize,
    /// Whether it passes on what it brings in.
    pub public: bool,
    pub module: Vec<String>,
    pub brings: Brings,
}

#[derive(Clone, Debug, PartialEq, Eq)]
pub enum Brings {
    /// Names of the module, each with what it is called here.
    Names(Vec<(String, String)>),
    /// The module, and what it is called here.
    Module(String),
}

#[derive(Clone, Copy, Debug, PartialEq, Eq)]
pub enum Form {
    Definition,
    Record,
    Data,
}

/// A field of a record or a constructor of a data type.
#[derive(Clone, Debug)]
pub struct Member {
    pub name: String,
    pub of: Vec<Token>,
}

#[derive(Clone, Debug)]
pub struct Clause {
    pub left: Vec<Token>,
    pub right: Vec<Token>,
    pub helpers: Vec<Declaration>,
}

#[derive(Clone, Debug)]
pub struct Declaration {
    pub name: String,
    pub form: Form,
    pub public: bool,
    /// Whether it says how something is computed and not that something holds:
    /// a type, or what is marked `abbrev` or `unfoldable`.
    pub computes: bool,
    /// First and last line, the comment left out; the last of the signature.
    pub first: usize,
    pub last: usize,
    pub signed: usize,
    /// The lines of the comment right before it.
    pub comment: Vec<String>,
    /// The heading, a comment that begins with dashes, that it stands under.
    pub heading: Option<String>,
    pub parameters: Vec<Token>,
    pub signature: Vec<Token>,
    pub unfolding: Vec<Token>,
    pub clauses: Vec<Clause>,
    pub members: Vec<Member>,
    /// The sections around it, the outermost first.
    pub sections: Vec<usize>,
}

/// A section: parameters that all of its declarations take.
#[derive(Clone, Debug)]
pub struct Section {
    pub first: usize,
    /// The last line of its head.
    pub headed: usize,
    pub parameters: Vec<Token>,
}

#[derive(Clone, Debug, Default)]
pub struct Source {
    pub uses: Vec<Use>,
    pub sections: Vec<Section>,
    pub declarations: Vec<Declaration>,
    /// The comment at the head of the file.
    pub opening: Vec<String>,
}

/// Reads a file.
pub fn source(text: &str) -> Source {
    let (tokens, comments) = tokens(text, 1);
    let mut reader = Reader {
        comments,
        source: Source::default(),
        around: vec![],
    };
    reader.source.opening = opening(&reader.comments);
    reader.block(&tokens);
    reader.source
}

/// The comment at the head of a file: the lines from the first on.
fn opening(comments: &[Comment]) -> Vec<String> {
    let lines = comments.iter().zip(1..);
    let here = lines.take_while(|(comment, line)| comment.line == *line && comment.alone);
    here.map(|(comment, _)| bare(&comment.text)).collect()
}

/// A comment without its dashes.
fn bare(comment: &str) -> String {
    comment.trim_start_matches(['-', ' ']).to_string()
}

/// Reads a line that begins with `use`, marks before it left out.
pub fn import(tokens: &[Token], public: bool) -> Use {
    let line = tokens[0].line;
    let open = outside(tokens, |t| t.is("{"));
    let path = &tokens[1..open.unwrap_or(tokens.len())];
    let renamed = outside(path, |t| t.is("as"));
    let module = names(&path[..renamed.unwrap_or(path.len())]);
    let brings = match open {
        Some(open) => {
            let inner = &tokens[open + 1..closing(tokens, open)];
            let items = split(inner, |t| t.kind == Kind::Comma);
            Brings::Names(items.into_iter().filter_map(item).collect())
        }
        None => {
            let alias = renamed.map(|at| path[at + 1].text.clone());
            Brings::Module(alias.unwrap_or_else(|| module.last().cloned().unwrap_or_default()))
        }
    };
    Use {
        line,
        public,
        module,
        brings,
    }
}

fn names(path: &[Token]) -> Vec<String> {
    let names = path.iter().filter(|t| t.is_name());
    names.map(|t| t.text.clone()).collect()
}

/// A name in braces, and what it is called here.
fn item(tokens: &[Token]) -> Option<(String, String)> {
    let name = tokens.first()?.text.clone();
    let alias = outside(tokens, |t| t.is("as")).map(|at| tokens[at + 1].text.clone());
    Some((name.clone(), alias.unwrap_or(name)))
}

struct Reader {
    comments: Vec<Comment>,
    source: Source,
    /// The sections that are open.
    around: Vec<usize>,
}

/// The pieces of a block.
fn pieces(tokens: &[Token]) -> Vec<&[Token]> {
    let Some(first) = tokens.first() else {
        return vec![];
    };
    let mut starts = vec![];
    let mut depth = 0;
    for (at, token) in tokens.iter().enumerate() {
        let begins = at == 0 || token.first && token.column <= first.column;
        if depth == 0 && begins && token.kind != Kind::Close {
            starts.push(at);
        }
        match token.kind {
            Kind::Open => depth += 1,
            Kind::Close => depth -= 1,
            _ => {}
        }
    }
    let ends = starts.iter().skip(1).copied().chain([tokens.len()]);
    let bounds = starts.iter().zip(ends);
    bounds.map(|(start, end)| &tokens[*start..end]).collect()
}

/// The words that may stand in front of a declaration.
const MARKS: [&str; 4] = ["pub", "abbrev", "unfoldable", "axiom"];

fn has_mark(piece: &[Token], mark: &str) -> bool {
    let marks = piece
        .iter()
        .take_while(|t| MARKS.contains(&t.text.as_str()));
    marks.into_iter().any(|t| t.is(mark))
}

fn last_line(piece: &[Token]) -> usize {
    piece.last().map_or(0, |token| token.line)
}

impl Reader {
    fn block(&mut self, tokens: &[Token]) {
        for piece in pieces(tokens) {
            let marks = piece
                .iter()
                .take_while(|t| MARKS.contains(&t.text.as_str()));
            let body = &piece[marks.count()..];
            let Some(word) = body.first() else { continue };
            match word.text.as_str() {
                "use" => self.source.uses.push(import(body, has_mark(piece, "pub"))),
                "mod" | "infix" | "infixl" | "infixr" => {}
                "module" => self.section(body),
                _ => {
                    let mut declarations = std::mem::take(&mut self.source.declarations);
                    self.piece(piece, body, &mut declarations);
                    self.source.declarations = declarations;
                }
            }
        }
    }

    fn section(&mut self, piece: &[Token]) {
        let Some(at) = outside(piece, |t| t.is("where")) else {
            return;
        };
        self.source.sections.push(Section {
            first: piece[0].line,
            headed: piece[at].line,
            parameters: piece[1..at].iter().skip(1).cloned().collect(),
        });
        self.around.push(self.source.sections.len() - 1);
        self.block(&piece[at + 1..]);
        self.around.pop();
    }

    /// A piece that declares something, or goes on with what was declared last.
    fn piece(&self, piece: &[Token], body: &[Token], declarations: &mut Vec<Declaration>) {
        match body[0].text.as_str() {
            "record" => declarations.push(self.members(piece, &body[1..], Form::Record)),
            "data" => declarations.push(self.members(piece, &body[1..], Form::Data)),
            "unfolding" => {
                if let Some(last) = declarations.last_mut() {
                    last.unfolding = body[1..].to_vec();
                    last.last = last_line(piece);
                }
            }
            _ => match outside(body, |t| t.is(":") || t.is("=")) {
                Some(at) if body[at].is(":") => declarations.push(self.signed(piece, body, at)),
                Some(at) => {
                    if let Some(last) = declarations.last_mut() {
                        last.clauses.push(self.clause(body, at));
                        last.last = last_line(piece);
                    }
                }
                None => {}
            },
        }
    }

    fn declaration(&self, piece: &[Token], name: &str, form: Form) -> Declaration {
        let (comment, heading) = self.above(piece[0].line, piece[0].column);
        let opens = has_mark(piece, "abbrev") || has_mark(piece, "unfoldable");
        Declaration {
            name: name.to_string(),
            form,
            public: has_mark(piece, "pub"),
            computes: opens || form != Form::Definition,
            first: piece[0].line,
            last: last_line(piece),
            signed: last_line(piece),
            comment,
            heading,
            parameters: vec![],
            signature: vec![],
            unfolding: vec![],
            clauses: vec![],
            members: vec![],
            sections: self.around.clone(),
        }
    }

    fn signed(&self, piece: &[Token], body: &[Token], colon: usize) -> Declaration {
        Declaration {
            parameters: body[1..colon].to_vec(),
            signature: body[colon + 1..].to_vec(),
            ..self.declaration(piece, &body[0].text, Form::Definition)
        }
    }

    fn clause(&self, body: &[Token], equals: usize) -> Clause {
        let right = &body[equals + 1..];
        let at = outside(right, |t| t.is("where")).unwrap_or(right.len());
        let mut helpers = vec![];
        for piece in pieces(right.get(at + 1..).unwrap_or_default()) {
            self.piece(piece, piece, &mut helpers);
        }
        Clause {
            left: body[..equals].to_vec(),
            right: right[..at].to_vec(),
            helpers,
        }
    }

    /// A record or a data type: its name, parameters, type and members.
    fn members(&self, piece: &[Token], body: &[Token], form: Form) -> Declaration {
        let at = outside(body, |t| t.is("where")).unwrap_or(body.len());
        let colon = outside(&body[..at], |t| t.is(":")).unwrap_or(at);
        let mut members = vec![];
        for member in pieces(body.get(at + 1..).unwrap_or_default()) {
            let Some(of) = outside(member, |t| t.is(":")) else {
                continue;
            };
            for name in member[..of].iter().filter(|t| !t.is("pub")) {
                members.push(Member {
                    name: name.text.clone(),
                    of: member[of + 1..].to_vec(),
                });
            }
        }
        Declaration {
            parameters: body[1..colon].to_vec(),
            signature: body[(colon + 1).min(at)..at].to_vec(),
            members,
            ..self.declaration(piece, &body[0].text, form)
        }
    }

    /// The comment right above a line, and the heading that it stands under.
    fn above(&self, line: usize, column: usize) -> (Vec<String>, Option<String>) {
        let before = self.comments.iter().filter(|c| c.alone && c.line < line);
        let before: Vec<&Comment> = before.collect();
        let is_heading = |c: &Comment| c.text.starts_with("-- ----");
        let mut comment = vec![];
        for (above, other) in (1..).zip(before.iter().rev()) {
            let follows = other.line + above == line && other.column == column;
            if !follows || is_heading(other) {
                break;
            }
            comment.insert(0, bare(&other.text));
        }
        let heading = before.iter().rev().find(|c| is_heading(c));
        (comment, heading.map(|c| bare(&c.text)))
    }
}

#[cfg(test)]
mod tests {
    use super::*;

    const TEXT: &str = "\
-- What this file is.
use lib.A.{x, y as z}
use lib.B as b
pub use lib.C.{w}

-- ---- heading

-- adds one
abbrev pub f : ℕ → ℕ
f n = suc n

-- two lines
-- of comment
module _ (t : List ℕ)
    (n : ℕ) where
  g : n ≡ n
  unfolding f
  g = h {
    a = n;
  }
    where
      h : ℕ
      h = n

  module _ (k : ℕ) where
    pub deep : k ≡ k
    deep = refl

pub record R (t : ℕ) : Type 0 where
  -- a field
  pub one : t ≡ t
  pub two three : ℕ

pub data D : ℕ → Type 0 where
  first : D 0
  next : {n : ℕ} → D n
      → D (suc n)
";

    fn find(source: &Source, name: &str) -> Declaration {
        let found = source.declarations.iter().find(|d| d.name == name);
        found.expect("a declaration").clone()
    }

    #[test]
    fn imports_bring_names_or_a_module() {
        let source = source(TEXT);
        let [names, module, passed] = &source.uses[..] else {
            panic!("three lines")
        };
        let pair = |a: &str, b: &str| (a.to_string(), b.to_string());
        let both = vec![pair("x", "x"), pair("y", "z")];
        assert_eq!(names.brings, Brings::Names(both));
        assert_eq!(module.brings, Brings::Module("b".to_string()));
        assert_eq!((passed.public, passed.line), (true, 4));
        assert_eq!(source.opening, ["What this file is."]);
    }

    #[test]
    fn declarations_have_their_lines_and_comments() {
        let source = source(TEXT);
        let names: Vec<&str> = source.declarations.iter().map(|d| &d.name[..]).collect();
        assert_eq!(names, ["f", "g", "deep", "R", "D"]);
        let f = find(&source, "f");
        assert_eq!((f.first, f.last, f.public, f.computes), (9, 10, true, true));
        assert_eq!(f.comment, ["adds one"]);
        assert_eq!(f.heading.as_deref(), Some("heading"));
    }

    #[test]
    fn a_section_gives_its_parameters_to_all_within() {
        let source = source(TEXT);
        assert_eq!(find(&source, "g").sections, [0]);
        assert_eq!(find(&source, "deep").sections, [0, 1]);
        assert_eq!(
            (source.sections[0].first, source.sections[0].headed),
            (14, 15)
        );
        assert!(find(&source, "R").sections.is_empty());
    }

    #[test]
    fn a_clause_has_its_helpers() {
        let g = find(&source(TEXT), "g");
        assert_eq!(g.unfolding.len(), 1);
        assert_eq!(g.clauses.len(), 1);
        assert_eq!(g.clauses[0].helpers[0].name, "h");
        assert_eq!((g.first, g.last), (16, 23));
    }

    #[test]
    fn records_and_data_types_have_members() {
        let source = source(TEXT);
        let names = |name| -> Vec<String> {
            let members = find(&source, name).members;
            members.into_iter().map(|member| member.name).collect()
        };
        assert_eq!(names("R"), ["one", "two", "three"]);
        assert_eq!(names("D"), ["first", "next"]);
    }
}
