//! The tie rule as a text of formulas says it: `halves to even`. None of its words
//! is a word of the grammar: a name goes on with `=`, `(` or `{`, and here another
//! word follows.

use super::tokens::{Names, Token, Tokens};
use super::Mistake;
use crate::diagnosis::near;
use crate::diagnosis::words::or;
use crate::{same_name, Mark, Ties};

/// The first word of either rule.
const HALVES: &str = "halves";

/// The words of a rule.
fn words(ties: Ties) -> Vec<String> {
    ties.to_string().split(' ').map(str::to_string).collect()
}

/// Whether a token is this word, as names are compared.
fn is_word(token: &Token, word: &str) -> bool {
    match token {
        Token::Names(Names { names, is_marked }) => {
            !is_marked && names.len() == 1 && same_name(names[0], word)
        }
        _ => false,
    }
}

/// Whether the tie rule may begin with this token, be it misspelt; `is_first` where
/// no definition comes before it, so that no formula can go on here.
pub fn may_begin(token: &Token, is_first: bool) -> bool {
    match token {
        Token::Names(Names { names, is_marked }) if !is_marked && names.len() == 1 => {
            is_first || near::nearest(names[0], [((), HALVES)]).is_some()
        }
        _ => false,
    }
}

/// Whether it then does, by what comes next.
pub fn is_meant(token: &Token, next: &Token, is_first: bool) -> bool {
    let is_definition = matches!(next, Token::Symbol('=' | '(' | '{'));
    let is_rule = Ties::ALL.iter().any(|&ties| is_word(next, &words(ties)[1]));
    is_rule || is_first && is_word(token, HALVES) && !is_definition
}

/// The rule, from its first word on, and where that stands: all of it, or its
/// first word where it goes over several lines.
pub fn read(first: (Token, Mark), tokens: &mut Tokens) -> Result<(Ties, Mark), Mistake> {
    let (mut token, mut mark) = first;
    let start = mark;
    let (mut meant, mut at) = (Ties::ALL.to_vec(), 0);
    loop {
        let wanted = meant.clone();
        meant.retain(|&ties| is_word(&token, &words(ties)[at]));
        let Some(&ties) = meant.first() else {
            return Err(Mistake::at(mark, other_word(&wanted, at, &token)));
        };
        if words(ties).len() == at + 1 {
            return Ok((ties, joined(start, mark)));
        }
        (token, mark) = tokens.take()?;
        at += 1;
    }
}

/// What is wrong where another token stands for a word of these rules.
fn other_word(rules: &[Ties], at: usize, token: &Token) -> String {
    let mut wanted: Vec<String> = rules.iter().map(|&ties| words(ties)[at].clone()).collect();
    wanted.dedup();
    let quoted = |word: &String| format!("`{word}`");
    let wanted: Vec<String> = wanted.iter().map(quoted).collect();
    let rules: Vec<String> = rules.iter().map(|ties| format!("`{ties}`")).collect();
    format!(
        "{} has to stand here, not {}; the tie rule is written {}",
        or(&wanted),
        token.quoted(),
        or(&rules)
    )
}

/// From one mark to another, in one line.
fn joined(start: Mark, end: Mark) -> Mark {
    match start.line == end.line {
        true => Mark {
            width: end.column + end.width - start.column,
            ..start
        },
        false => start,
    }
}
