//! The formula after a `=`. What is open is on a stack of its own, so that no
//! text is nested too deep.

use super::names::{self, Word};
use super::signs::{self, Strength};
use super::tokens::{Names, Token, Tokens, BETWEEN_MARKS};
use super::Mistake;
use crate::build::{Node, MOST_LINES};
use crate::diagnosis::forms::Form;
use crate::diagnosis::words::quoted;
use crate::{same_name, Mark};

/// An expression and where each of its nodes stands in the text; nodes as in
/// `build::Expression`.
pub type Part = Vec<(Node, Mark)>;

/// What waits for operands or for its end.
enum Open {
    Parenthesis(Mark),
    Call(String, Mark),
    /// The choice of this `if`, which its test, then its branches follow.
    Test(Mark),
    Then(Mark),
    Else(Mark),
    Sign(Node, Strength, Mark),
}

impl Open {
    /// What it holds together once its last operand is there.
    fn strength(&self) -> Option<Strength> {
        match self {
            Open::Sign(_, strength, _) => Some(*strength),
            Open::Else(_) => Some(Strength::Choice),
            _ => None,
        }
    }

    /// What has to come before anything else can.
    fn missing(&self) -> String {
        match self {
            Open::Test(mark) => format!("`then` is missing: the `if` {} has none", place(mark)),
            Open::Then(mark) => format!("`else` is missing: the `if` {} has none", place(mark)),
            Open::Parenthesis(mark) => {
                format!("`)` is missing: the `(` {} is not closed", place(mark))
            }
            Open::Call(_, mark) => {
                format!("`)` is missing: the call {} is not closed", place(mark))
            }
            Open::Else(_) | Open::Sign(..) => "an operand is missing".to_string(),
        }
    }
}

fn place(mark: &Mark) -> String {
    format!("at line {}, column {}", mark.line, mark.column)
}

/// A formula as far as it has been read.
pub struct Formula<'parser, 'text> {
    tokens: &'parser mut Tokens<'text>,
    /// What the argument is called, in a function.
    argument: Option<&'text str>,
    /// How many more lines the sheet may have.
    left: &'parser mut usize,
    operands: Vec<Part>,
    open: Vec<Open>,
}

impl<'parser, 'text> Formula<'parser, 'text> {
    pub fn new(
        tokens: &'parser mut Tokens<'text>,
        argument: Option<&'text str>,
        left: &'parser mut usize,
    ) -> Self {
        Formula {
            tokens,
            argument,
            left,
            operands: vec![],
            open: vec![],
        }
    }

    pub fn read(mut self) -> Result<Part, Mistake> {
        loop {
            self.operand()?;
            if !self.goes_on()? {
                return Ok(self.operands.pop().unwrap_or_default());
            }
        }
    }

    /// The next operand, and what opens before it.
    fn operand(&mut self) -> Result<(), Mistake> {
        loop {
            let (token, mark) = self.tokens.take()?;
            match token {
                Token::Symbol('(') => self.open.push(Open::Parenthesis(mark)),
                Token::Word(Word::If) if !self.is_after_sign() => self.open.push(Open::Test(mark)),
                Token::Names(names) if self.tokens.take_symbol('(')? => {
                    self.names_no_argument(&names, mark)?;
                    self.open.push(Open::Call(names.path(), mark));
                }
                Token::Names(names) => return self.read_or_argument(&names, mark),
                Token::Digits(digits) => return self.number(digits, mark),
                Token::Symbol('-') => return self.negative(mark),
                token => return Err(Mistake::at(mark, no_operand(&token))),
            }
        }
    }

    fn is_after_sign(&self) -> bool {
        matches!(self.open.last(), Some(Open::Sign(..)))
    }

    /// What comes after an operand: whether another one has to follow.
    fn goes_on(&mut self) -> Result<bool, Mistake> {
        loop {
            let (token, mark) = self.tokens.peek()?;
            match token {
                Token::Symbol(')') => self.close(mark)?,
                Token::Word(word @ (Word::Then | Word::Else)) => {
                    self.branch(word, mark)?;
                    return Ok(true);
                }
                Token::Symbol(symbol) => {
                    let Some((node, strength)) = signs::of_char(symbol) else {
                        return self.end(mark);
                    };
                    self.tokens.take()?;
                    self.settle(strength)?;
                    self.open.push(Open::Sign(node, strength, mark));
                    return Ok(true);
                }
                _ => return self.end(mark),
            }
        }
    }

    /// A `)`.
    fn close(&mut self, mark: Mark) -> Result<(), Mistake> {
        self.tokens.take()?;
        self.settle(Strength::Choice)?;
        match self.open.pop() {
            Some(Open::Parenthesis(_)) => Ok(()),
            Some(Open::Call(path, mark)) => self.put(Node::Call(path), mark),
            Some(open) => Err(Mistake::at(mark, open.missing())),
            None => Err(Mistake::at(mark, "this `)` closes nothing")),
        }
    }

    /// A `then` or `else`.
    fn branch(&mut self, word: Word, mark: Mark) -> Result<(), Mistake> {
        self.tokens.take()?;
        self.settle(Strength::Choice)?;
        let open = match (self.open.pop(), word) {
            (Some(Open::Test(mark)), Word::Then) => Open::Then(mark),
            (Some(Open::Then(mark)), Word::Else) => Open::Else(mark),
            (Some(open), _) => return Err(Mistake::at(mark, open.missing())),
            (None, _) => {
                let sentence = format!("this `{}` belongs to no `if`", word.text());
                return Err(Mistake::at(mark, sentence));
            }
        };
        self.open.push(open);
        Ok(())
    }

    /// The end of the formula, where nothing is open.
    fn end(&mut self, mark: Mark) -> Result<bool, Mistake> {
        self.settle(Strength::Choice)?;
        match self.open.last() {
            Some(open) => Err(Mistake::at(mark, open.missing())),
            None => Ok(false),
        }
    }

    /// Takes together what holds at least so firmly.
    fn settle(&mut self, least: Strength) -> Result<(), Mistake> {
        let is_whole = |open: &mut Open| open.strength() >= Some(least);
        while let Some(open) = self.open.pop_if(is_whole) {
            match open {
                Open::Sign(node, _, mark) => self.put(node, mark)?,
                Open::Else(mark) => self.put(Node::Choice, mark)?,
                _ => {}
            }
        }
        Ok(())
    }

    /// A node in place of its operands.
    fn put(&mut self, node: Node, mark: Mark) -> Result<(), Mistake> {
        take_line(self.left, mark)?;
        let first = self.operands.len() - node.operands();
        let operands = self.operands.split_off(first);
        let mut part = vec![(node, mark)];
        part.extend(operands.into_iter().flatten());
        self.operands.push(part);
        Ok(())
    }

    fn read_or_argument(&mut self, names: &Names, mark: Mark) -> Result<(), Mistake> {
        if self.argument_named(names).is_some() && names.names.len() == 1 {
            return self.put(Node::Argument, mark);
        }
        self.names_no_argument(names, mark)?;
        self.put(Node::Read(names.path()), mark)
    }

    /// The argument, where the first name is its own.
    fn argument_named(&self, names: &Names) -> Option<&'text str> {
        let is_meant = |argument: &&str| !names.is_marked && same_name(argument, names.names[0]);
        self.argument.filter(is_meant)
    }

    /// A path whose first name is the argument's would be taken for it.
    fn names_no_argument(&self, names: &Names, mark: Mark) -> Result<(), Mistake> {
        match self.argument_named(names) {
            Some(argument) => {
                let marked = names::marked(names.names[0]);
                let sentence = format!(
                    "`{argument}` is the argument here, a number; {BETWEEN_MARKS}: {marked}"
                );
                Err(Mistake::at(mark, sentence))
            }
            None => Ok(()),
        }
    }

    /// A minus sign where an operand has to stand: a number's.
    fn negative(&mut self, sign: Mark) -> Result<(), Mistake> {
        let (token, mark) = self.tokens.peek()?;
        let is_joined = (mark.line, mark.column) == (sign.line, sign.column + 1);
        match token {
            Token::Digits(digits) if is_joined => {
                self.tokens.take()?;
                let width = sign.width + mark.width;
                self.number(&format!("-{digits}"), Mark { width, ..sign })
            }
            _ => {
                let sentence = "a minus sign here stands directly before the digits of a number; \
                                the negative of anything else is written `0 - ...`";
                Err(Mistake::at(sign, sentence))
            }
        }
    }

    fn number(&mut self, digits: &str, mark: Mark) -> Result<(), Mistake> {
        let is_number = Form::Number.fits(digits, 0);
        match digits.parse().ok().filter(|_| is_number) {
            Some(number) => self.put(Node::Number(number), mark),
            None => {
                let (digits, form) = (quoted(digits), Form::Number.words(0));
                Err(Mistake::at(mark, format!("{digits} is not {form}")))
            }
        }
    }
}

/// One line more of the sheet.
pub fn take_line(left: &mut usize, mark: Mark) -> Result<(), Mistake> {
    match left.checked_sub(1) {
        Some(fewer) => {
            *left = fewer;
            Ok(())
        }
        None => {
            let sentence =
                format!("up to here the sheet has {MOST_LINES} lines, and no more are allowed");
            Err(Mistake {
                row: Some(3),
                ..Mistake::at(mark, sentence)
            })
        }
    }
}

fn no_operand(token: &Token) -> String {
    match token {
        Token::Word(Word::If) => {
            "a choice stands in parentheses after a sign: `(if ... then ... else ...)`".to_string()
        }
        token => {
            let token = token.quoted();
            format!("a number, a name, `(` or `if` has to stand here, not {token}")
        }
    }
}
