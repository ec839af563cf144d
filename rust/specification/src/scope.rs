//! The names that a text in antt refers to: every name in it but those that it
//! binds itself.

use crate::blocks::{Declaration, Section};
use crate::tokens::{closing, outside, split, Kind, Token};

/// A name, or a module and the names below it.
pub type Path = Vec<String>;

/// What a name means where a text stands.
pub trait Scope {
    /// Whether it names a constructor, so that in a pattern it binds nothing.
    fn is_constructor(&self, path: &[String]) -> bool;
    /// Whether it names a module, so that a dot leads on from it.
    fn is_module(&self, name: &str) -> bool;
    /// Whether it is one of what the checker makes of a function, by which a dot may lead
    /// to the same point in another way.
    fn is_point(&self, name: &str) -> bool;
}

/// What a declaration refers to.
#[derive(Clone, Debug, Default)]
pub struct References {
    /// In what it states: its type, the parameters of its sections, its members.
    pub statement: Vec<Path>,
    /// In how it is made: its clauses.
    pub body: Vec<Path>,
    /// What it asks to see through.
    pub unfolding: Vec<Path>,
}

/// The part of a name by which a text uses it: `+` of `◌+◌`.
pub fn key(name: &str) -> &str {
    let mut parts = name.split('◌').filter(|part| !part.is_empty());
    parts.next().unwrap_or("")
}

/// What a declaration refers to, in a file with these sections.
pub fn references(scope: &dyn Scope, sections: &[Section], of: &Declaration) -> References {
    let mut walker = Walker::new(scope);
    for section in &of.sections {
        walker.segment(&sections[*section].parameters);
    }
    let around = walker.bound.len();
    walker.head(of);
    let statement = walker.take();
    walker.bound.truncate(around);
    walker.expression(&of.unfolding);
    let unfolding = walker.take();
    walker.clauses(of);
    References {
        statement,
        body: walker.take(),
        unfolding,
    }
}

/// What a contract refers to, of a function with these parameters.
pub fn contract(scope: &dyn Scope, parameters: &[String], text: &[Token]) -> Vec<Path> {
    let mut walker = Walker::new(scope);
    walker.bound.extend(parameters.iter().cloned());
    walker.expression(text);
    walker.take()
}

struct Walker<'a> {
    scope: &'a dyn Scope,
    bound: Vec<String>,
    found: Vec<Path>,
}

fn is_separator(token: &Token) -> bool {
    matches!(token.kind, Kind::Comma | Kind::Semicolon) || token.is("|")
}

/// `name name : type`, which binds the names.
fn binder(inner: &[Token]) -> Option<usize> {
    let colon = inner.iter().position(|t| t.is(":"))?;
    let names = &inner[..colon];
    (!names.is_empty() && names.iter().all(Token::is_name)).then_some(colon)
}

/// Where the `in` stands that ends a `let` whose text begins here.
fn matching_in(tokens: &[Token]) -> usize {
    let mut depth = 1;
    let mut at = 0;
    while at < tokens.len() {
        let token = &tokens[at];
        if token.is("let") || token.is("unfold") {
            depth += 1;
        } else if token.is("in") {
            depth -= 1;
        }
        if depth == 0 {
            return at;
        }
        at = match token.kind {
            Kind::Open => closing(tokens, at),
            _ => at,
        } + 1;
    }
    tokens.len()
}

impl<'a> Walker<'a> {
    fn new(scope: &'a dyn Scope) -> Walker<'a> {
        Walker {
            scope,
            bound: vec![],
            found: vec![],
        }
    }

    fn take(&mut self) -> Vec<Path> {
        std::mem::take(&mut self.found)
    }

    fn is_bound(&self, name: &str) -> bool {
        self.bound.iter().any(|bound| bound == name)
    }

    /// A signature; of a record or a data type its members too.
    fn head(&mut self, of: &Declaration) {
        for token in of.parameters.iter().filter(|t| t.text.starts_with('ℓ')) {
            self.bound.push(token.text.clone());
        }
        self.segment(&of.parameters);
        self.expression(&of.signature);
        for member in &of.members {
            self.expression(&member.of);
            self.bound.push(member.name.clone());
        }
    }

    fn clauses(&mut self, of: &Declaration) {
        for clause in &of.clauses {
            let mark = self.bound.len();
            let own = |token: &&Token| key(&token.text) != key(&of.name);
            let left: Vec<Token> = clause.left.iter().filter(own).cloned().collect();
            self.pattern(&left);
            let helpers = clause.helpers.iter();
            self.bound.extend(helpers.map(|helper| helper.name.clone()));
            for helper in &clause.helpers {
                let mark = self.bound.len();
                self.head(helper);
                self.bound.truncate(mark);
                self.expression(&helper.unfolding);
                self.clauses(helper);
            }
            self.expression(&clause.right);
            self.bound.truncate(mark);
        }
    }

    /// What is bound within stays within.
    fn expression(&mut self, tokens: &[Token]) {
        let mark = self.bound.len();
        self.segment(tokens);
        self.bound.truncate(mark);
    }

    /// What is bound within stays bound after it, up to a separator.
    fn segment(&mut self, tokens: &[Token]) {
        let mark = self.bound.len();
        let mut at = 0;
        while at < tokens.len() {
            let token = &tokens[at];
            at = match token.kind {
                Kind::Open => self.group(tokens, at),
                Kind::Dot => self.projection(tokens, at),
                Kind::Name if token.is("λ") => self.lambda(tokens, at),
                Kind::Name if token.is("let") => self.binding(tokens, at),
                Kind::Name if !token.is("|") => self.name(tokens, at),
                _ => at + 1,
            };
            if is_separator(token) {
                self.bound.truncate(mark);
            }
        }
    }

    /// A projection and its name, which refers to nothing but where it is a point.
    fn projection(&mut self, tokens: &[Token], at: usize) -> usize {
        let name = tokens.get(at + 1).map(|token| &token.text);
        let point = name.filter(|name| self.scope.is_point(name));
        self.found.extend(point.map(|name| vec![name.clone()]));
        at + 2
    }

    /// A path, or a name with its projections left out.
    fn path(&self, tokens: &[Token], at: usize) -> (Path, usize) {
        let mut path = vec![tokens[at].text.clone()];
        let mut next = at + 1;
        let leads = !self.is_bound(&path[0]) && self.scope.is_module(&path[0]);
        while leads && next + 1 < tokens.len() {
            let is_dot = tokens[next].kind == Kind::Dot && tokens[next].tight;
            if !(is_dot && tokens[next + 1].tight && tokens[next + 1].is_name()) {
                break;
            }
            path.push(tokens[next + 1].text.clone());
            next += 2;
        }
        (path, next)
    }

    fn name(&mut self, tokens: &[Token], at: usize) -> usize {
        let (path, next) = self.path(tokens, at);
        if !self.is_bound(&path[0]) {
            self.found.push(path);
        }
        next
    }

    fn group(&mut self, tokens: &[Token], open: usize) -> usize {
        let close = closing(tokens, open).min(tokens.len() - 1);
        let inner = &tokens[open + 1..close];
        if tokens[open].is("[") {
            self.cases(inner);
        } else if open > 0 && tokens[open - 1].is("record") {
            self.fields(inner);
        } else if let Some(colon) = binder(inner) {
            self.expression(&inner[colon + 1..]);
            let names = inner[..colon].iter();
            self.bound.extend(names.map(|t| t.text.clone()));
        } else if tokens[open].is("{") && inner.get(1).is_some_and(|t| t.is("=")) {
            self.expression(&inner[2..]);
        } else {
            self.expression(inner);
        }
        close + 1
    }

    /// `name = value; ..` of a record, or `name : type; ..` of its type.
    fn fields(&mut self, inner: &[Token]) {
        let mark = self.bound.len();
        for field in split(inner, |t| t.kind == Kind::Semicolon) {
            self.expression(field.get(2..).unwrap_or_default());
            if field.get(1).is_some_and(|t| t.is(":")) {
                self.bound.push(field[0].text.clone());
            }
        }
        self.bound.truncate(mark);
    }

    /// `pattern ↦ value | ..`
    fn cases(&mut self, inner: &[Token]) {
        for case in split(inner, |t| t.is("|")) {
            let mark = self.bound.len();
            let arrow = outside(case, |t| t.is("↦"));
            if let Some(arrow) = arrow {
                self.pattern(&case[..arrow]);
            }
            self.expression(&case[arrow.map_or(0, |at| at + 1)..]);
            self.bound.truncate(mark);
        }
    }

    fn lambda(&mut self, tokens: &[Token], at: usize) -> usize {
        let rest = &tokens[at + 1..];
        let dot = outside(rest, |t| t.kind == Kind::Dot).unwrap_or(rest.len());
        self.binders(&rest[..dot]);
        at + dot + 2
    }

    /// Names, patterns and typed names.
    fn binders(&mut self, tokens: &[Token]) {
        let mut at = 0;
        while at < tokens.len() {
            let end = match tokens[at].kind {
                Kind::Open => closing(tokens, at).min(tokens.len() - 1),
                _ => at,
            };
            let inner = tokens.get(at + 1..end).unwrap_or_default();
            match binder(inner) {
                Some(_) => at = self.group(tokens, at),
                None => {
                    self.pattern(&tokens[at..=end]);
                    at = end + 1;
                }
            }
        }
    }

    /// `let name : type = value in`, `let pattern = value in`.
    fn binding(&mut self, tokens: &[Token], at: usize) -> usize {
        let rest = &tokens[at + 1..];
        let end = matching_in(rest);
        let bound = &rest[..end];
        let equals = outside(bound, |t| t.is("=")).unwrap_or(bound.len());
        let left = &bound[..equals];
        let colon = outside(left, |t| t.is(":")).unwrap_or(left.len());
        self.expression(left.get(colon + 1..).unwrap_or_default());
        self.expression(bound.get(equals + 1..).unwrap_or_default());
        self.pattern(&left[..colon]);
        at + end + 2
    }

    /// Binds every name that is no constructor.
    fn pattern(&mut self, tokens: &[Token]) {
        let mut at = 0;
        while at < tokens.len() {
            let token = &tokens[at];
            let is_label = tokens.get(at + 1).is_some_and(|t| t.is("="));
            if !token.is_name() || is_label || ["=", "→", "record"].contains(&&token.text[..]) {
                at += 1;
                continue;
            }
            let (path, next) = self.path(tokens, at);
            match self.scope.is_constructor(&path) {
                true => self.found.push(path),
                false => self.bound.push(path[0].clone()),
            }
            at = next;
        }
    }
}

#[cfg(test)]
mod tests {
    use super::*;
    use crate::blocks::source;

    struct Known;

    impl Scope for Known {
        fn is_constructor(&self, path: &[String]) -> bool {
            ["suc", "zero", "∷", "case"].contains(&key(path.last().expect("a name")))
        }

        fn is_module(&self, name: &str) -> bool {
            name == "other"
        }

        fn is_point(&self, name: &str) -> bool {
            name == "Start"
        }
    }

    fn found(text: &str) -> References {
        let source = source(text);
        let of = source.declarations.last().expect("a declaration");
        references(&Known, &source.sections, of)
    }

    fn joined(paths: &[Path]) -> String {
        let names: Vec<String> = paths.iter().map(|path| path.join(".")).collect();
        names.join(" ")
    }

    #[test]
    fn what_a_signature_binds_is_not_referred_to() {
        let found = found("f : (n : A) {m : B n} → C n m x\nf n = n\n");
        assert_eq!(joined(&found.statement), "A B → C x");
        assert_eq!(joined(&found.body), "");
    }

    #[test]
    fn patterns_bind_all_but_constructors() {
        let found = found("f : A\nf (suc n) (x ∷ l) = g n x l suc\n");
        assert_eq!(joined(&found.body), "suc ∷ g suc");
    }

    #[test]
    fn a_binding_ends_where_its_scope_does() {
        let body = |text: &str| joined(&found(&format!("f : A\nf = {text}\n")).body);
        assert_eq!(body("(λ x. x y, x)"), "y x");
        assert_eq!(body("let x : T = x in (x, y)"), "T x y");
        assert_eq!(body("let x = λ y. y in y"), "y");
        assert_eq!(body("let (a, b) = p in a b c"), "p c");
        assert_eq!(
            body("elim n [ zero ↦ n | suc (k → h) ↦ h k ] k"),
            "elim n zero n suc k"
        );
        assert_eq!(body("record { x = y; z = λ q. q } x"), "record y x");
        assert_eq!(body("g {x = y} p .x q.y"), "g y p q");
        assert_eq!(body("(x : A) × B x"), "A × B");
        assert_eq!(body("f (g x).Start (g x).end"), "f g x Start g x");
    }

    #[test]
    fn paths_lead_on_from_modules_alone() {
        let found = found("f : A\nf = other.x p.y (λ other. other.x)\n");
        assert_eq!(joined(&found.body), "other.x p");
    }

    #[test]
    fn sections_bind_their_parameters_for_all_within() {
        let found = found("module _ (n : N) where\n  f : n ≡ q\n  unfolding g\n  f = h n\n");
        assert_eq!(joined(&found.statement), "N ≡ q");
        assert_eq!(joined(&found.unfolding), "g");
        assert_eq!(joined(&found.body), "h");
    }

    #[test]
    fn helpers_are_no_references() {
        let text = "f : A\nf n = go n\n  where\n    go : B\n    go n = h n go\n";
        assert_eq!(joined(&found(text).body), "B h");
    }

    #[test]
    fn later_members_know_the_ones_before() {
        let text = "record R (t : T) : Type 0 where\n  pub a : t ≡ b\n  pub b : a ≡ a\n";
        assert_eq!(joined(&found(text).statement), "T Type 0 ≡ b ≡");
    }
}
