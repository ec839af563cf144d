//! A text of formulas taken apart.

use super::expression::{take_line, Formula};
use super::halves;
use super::tokens::{is_word, Names, Token, Tokens};
use super::Mistake;
use crate::build::{Content, Expression, Group, Place, MOST_LINES};
use crate::diagnosis::forms::Form;
use crate::diagnosis::words::quoted;
use crate::{Label, Mark, Ties};

/// Where all that a text defines stands in it.
#[derive(Default)]
pub struct Marks {
    /// By definition: its name, and the nodes of its body.
    definitions: Vec<(Mark, Vec<Mark>)>,
}

impl Marks {
    pub fn of_place(&self, place: Place) -> Option<Mark> {
        match place {
            Place::Sheet => None,
            Place::Definition(at) => Some(self.definitions.get(at)?.0),
            Place::Node(at, node) => self.definitions.get(at)?.1.get(node).copied(),
        }
    }

    /// The labels of a sheet that is built: label 1, definitions, bodies.
    pub fn of_label(&self, label: Label) -> Option<Mark> {
        let names = self.definitions.iter().map(|(name, _)| name);
        let nodes = self.definitions.iter().flat_map(|(_, nodes)| nodes);
        names.chain(nodes).nth(label.checked_sub(2)?).copied()
    }
}

/// The definitions of a text, and where they stand.
pub fn parse(text: &[u8]) -> Result<(Group, Marks), Mistake> {
    if let Some(ties) = Ties::of_text(text) {
        let mark = Mark {
            line: 1,
            column: 1,
            width: ties.first_line().len(),
        };
        let sentence = "this is the first line of a sheet, not of formulas";
        return Err(Mistake::at(mark, sentence));
    }
    let mut parser = Parser {
        tokens: Tokens::new(text),
        left: MOST_LINES - 1,
        group: Group::new(),
        marks: Marks::default(),
        ties: None,
        open: vec![],
    };
    while parser.definition()? {}
    Ok((parser.group, parser.marks))
}

struct Parser<'text> {
    tokens: Tokens<'text>,
    /// How many more lines the sheet may have.
    left: usize,
    group: Group,
    marks: Marks,
    /// Where the tie rule stands.
    ties: Option<Mark>,
    /// The names of the Groups that are not closed.
    open: Vec<Mark>,
}

impl<'text> Parser<'text> {
    /// The next definition or `}`, or the tie rule; whether there is one.
    fn definition(&mut self) -> Result<bool, Mistake> {
        let (token, mark) = self.tokens.take()?;
        match token {
            token if self.is_tie_rule(&token)? => self.tie_rule((token, mark))?,
            Token::Names(names) => self.named(&names, mark)?,
            Token::Symbol('}') if self.open.pop().is_some() => {}
            Token::End => return self.end(),
            Token::Symbol('}') => return Err(Mistake::at(mark, "this `}` closes no Group")),
            Token::Word(word) => return Err(Mistake::at(mark, is_word(word))),
            token => return Err(Mistake::at(mark, no_beginning(&token))),
        }
        Ok(true)
    }

    fn end(&self) -> Result<bool, Mistake> {
        match self.open.last() {
            Some(&name) => Err(Mistake::at(
                name,
                "this Group is not closed: `}` is missing",
            )),
            None => Ok(false),
        }
    }

    fn is_tie_rule(&mut self, token: &Token) -> Result<bool, Mistake> {
        let is_first = self.marks.definitions.is_empty();
        // what follows any other token is looked at when it is its turn
        if !halves::may_begin(token, is_first) {
            return Ok(false);
        }
        let (next, _) = self.tokens.peek()?;
        Ok(halves::is_meant(token, &next, is_first))
    }

    /// Once, before the first definition.
    fn tie_rule(&mut self, first: (Token<'text>, Mark)) -> Result<(), Mistake> {
        let (ties, mark) = halves::read(first, &mut self.tokens)?;
        let said = self.ties.map(|mark| {
            let sentence = "the tie rule is said already: leave out one of the two";
            (sentence.to_string(), mark, "it is here")
        });
        let defined = self.marks.definitions.first().map(|(name, _)| {
            let sentence =
                format!("the tie rule stands before the first definition: put `{ties}` first");
            (sentence, *name, "the first definition is here")
        });
        if let Some((sentence, other, what)) = said.or(defined) {
            return Err(Mistake::at(mark, sentence).see(other, what));
        }
        self.group.ties(ties);
        self.ties = Some(mark);
        Ok(())
    }

    fn named(&mut self, names: &Names<'text>, mark: Mark) -> Result<(), Mistake> {
        let [name] = names.names[..] else {
            let sentence = "a definition has one name; one in a Group is written inside it: \
                            `right { prism = 5 }`";
            return Err(Mistake::at(mark, sentence));
        };
        take_line(&mut self.left, mark)?;
        let (token, after) = self.tokens.take()?;
        match token {
            Token::Symbol('=') => self.body(name, mark, None),
            Token::Symbol('(') => {
                let argument = self.argument()?;
                self.body(name, mark, Some(argument))
            }
            Token::Symbol('{') => {
                self.add(name, (mark, vec![]), Content::Group);
                self.open.push(mark);
                Ok(())
            }
            token => Err(Mistake::at(after, no_definition(name, &token))),
        }
    }

    /// What stands after the `(` of a function, up to the `=`.
    fn argument(&mut self) -> Result<&'text str, Mistake> {
        let (token, mark) = self.tokens.take()?;
        let argument = match &token {
            Token::Names(names) if names.names.len() == 1 && !names.is_marked => names.names[0],
            token => {
                let token = token.quoted();
                let sentence = format!("the argument's name has to stand here, not {token}");
                return Err(Mistake::at(mark, sentence));
            }
        };
        if !Form::Name.fits(argument, 0) {
            let sentence = format!("{} is not {}", quoted(argument), Form::Name.words(0));
            return Err(Mistake::at(mark, sentence));
        }
        for symbol in [')', '='] {
            let (token, mark) = self.tokens.take()?;
            if token != Token::Symbol(symbol) {
                let token = token.quoted();
                let sentence = format!(
                    "`{symbol}` has to stand here, not {token}; \
                     a function is written `name(x) = formula`"
                );
                return Err(Mistake::at(mark, sentence));
            }
        }
        Ok(argument)
    }

    /// The formula of a value, or of a function with this argument.
    fn body(
        &mut self,
        name: &str,
        mark: Mark,
        argument: Option<&'text str>,
    ) -> Result<(), Mistake> {
        let part = Formula::new(&mut self.tokens, argument, &mut self.left).read()?;
        let (nodes, marks) = part.into_iter().unzip();
        let body = Expression::of_nodes(nodes);
        let content = match argument {
            Some(_) => Content::Function(body),
            None => Content::Value(body),
        };
        self.add(name, (mark, marks), content);
        Ok(())
    }

    fn add(&mut self, name: &str, marks: (Mark, Vec<Mark>), content: Content) {
        self.group.add(self.open.len(), name.to_string(), content);
        self.marks.definitions.push(marks);
    }
}

fn no_beginning(token: &Token) -> String {
    match token {
        Token::Symbol(symbol @ ('=' | '{')) => format!(
            "no definition begins before this `{symbol}`: its name is missing, or the formula \
             before it ends with a sign too many and took the name in"
        ),
        token => {
            let token = token.quoted();
            format!("a definition has to begin here, with its name, not {token}")
        }
    }
}

fn no_definition(name: &str, token: &Token) -> String {
    let (name, token) = (quoted(name), token.quoted());
    format!(
        "after the name {name} of a definition comes `=`, `(` or `{{`, not {token}; \
         if {name} belongs to the formula before it, a sign is missing between them"
    )
}
