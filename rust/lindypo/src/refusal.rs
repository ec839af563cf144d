//! A refusal as an error: the paper's number and place, and the words for it.

use std::error::Error;
use std::fmt;

/// Why a sheet, an order or a list of pairs is refused: one case for each refusal
/// of the papers, top to bottom; the first that applies is given. Refusal 4 has
/// none: it is about buffers, and `Sheet` lends those that are long enough.
#[derive(Debug, Clone, PartialEq, Eq, Hash)]
pub enum Refusal {
    /// 1: the text's length, its last byte, or a byte that is not allowed.
    Text(Fault),
    /// 2: line one is neither `kind name a b c` nor `kind2 name a b c`.
    FirstLine(Fault),
    /// 3: no labels, or more than 1,024.
    Count(Fault),
    /// 5: not five fields, or an empty one.
    Fields(Fault),
    /// 6: an unknown kind.
    Kind(Fault),
    /// 7: a field of wrong form, or label 1 is not `G - 0 - -`.
    Form(Fault),
    /// 8: a Group, body or operand that is none, or on the wrong side.
    Link(Fault),
    /// 9: an expression that no field uses, or two or more.
    Use(Fault),
    /// 10: the argument of a function in a value.
    Argument(Fault),
    /// 11: nested deeper than 32 levels.
    Level(Fault),
    /// 12: a name that its Group has already, whatever the case of its letters.
    Name(Fault),
    /// 13: the head of a path is not found.
    Head(Fault),
    /// 14: a later name of a path is not found, or is asked of a value or function.
    Member(Fault),
    /// 15: a read that leads to no value, or a call that leads to no function.
    Target(Fault),
    /// 16: a value that reaches itself.
    Cycle(Fault),
    /// 17: an order with a label that is no value's, with one twice, or without
    /// a value.
    Listed(Fault),
    /// 18: an order with a value before one that it reaches.
    Early(Fault),
    /// 19: an odd list of pairs, or more than 1,024 pairs.
    Pairs(Fault),
    /// 20: a pair with a label that is no N line.
    PairLabel(Fault),
    /// 21: a pair with a number out of range.
    PairNumber(Fault),
}

/// Where a refusal was found, and what is wrong.
#[derive(Debug, Clone, PartialEq, Eq, Hash)]
pub struct Fault {
    /// The paper's place: 0 for the text as a whole (1 to 3) and for a list of
    /// pairs as a whole (19), a label (5 to 16), a position in the order, from 1
    /// (17 and 18), a pair of the list, from 1 (20 and 21).
    pub place: u64,
    /// What to look at in the text, where it is in the text.
    pub mark: Option<Mark>,
    /// What is wrong, in words.
    pub sentence: String,
    /// How to mend it, and other places of the text that it has to do with.
    pub help: Vec<Help>,
}

/// A hint how to mend a fault. One with a mark is about that part of the text:
/// a second use, the other holder of a name, a step of a cycle.
#[derive(Debug, Clone, PartialEq, Eq, Hash)]
pub struct Help {
    pub sentence: String,
    pub mark: Option<Mark>,
}

/// A part of one line of the text. Lines and columns count from 1, and a column
/// is a byte.
#[derive(Debug, Clone, Copy, PartialEq, Eq, Hash)]
pub struct Mark {
    pub line: usize,
    pub column: usize,
    pub width: usize,
}

impl Refusal {
    /// The case of a number of the paper's table; 4 is not found here.
    pub(crate) fn of_number(number: u64, fault: Fault) -> Refusal {
        let case = match number {
            1 => Refusal::Text,
            2 => Refusal::FirstLine,
            3 => Refusal::Count,
            5 => Refusal::Fields,
            6 => Refusal::Kind,
            7 => Refusal::Form,
            8 => Refusal::Link,
            9 => Refusal::Use,
            10 => Refusal::Argument,
            11 => Refusal::Level,
            12 => Refusal::Name,
            13 => Refusal::Head,
            14 => Refusal::Member,
            15 => Refusal::Target,
            16 => Refusal::Cycle,
            17 => Refusal::Listed,
            18 => Refusal::Early,
            19 => Refusal::Pairs,
            20 => Refusal::PairLabel,
            21 => Refusal::PairNumber,
            _ => unreachable!("refusal {number}"),
        };
        case(fault)
    }

    /// The paper's number and what is wrong.
    fn parts(&self) -> (u64, &Fault) {
        match self {
            Refusal::Text(fault) => (1, fault),
            Refusal::FirstLine(fault) => (2, fault),
            Refusal::Count(fault) => (3, fault),
            Refusal::Fields(fault) => (5, fault),
            Refusal::Kind(fault) => (6, fault),
            Refusal::Form(fault) => (7, fault),
            Refusal::Link(fault) => (8, fault),
            Refusal::Use(fault) => (9, fault),
            Refusal::Argument(fault) => (10, fault),
            Refusal::Level(fault) => (11, fault),
            Refusal::Name(fault) => (12, fault),
            Refusal::Head(fault) => (13, fault),
            Refusal::Member(fault) => (14, fault),
            Refusal::Target(fault) => (15, fault),
            Refusal::Cycle(fault) => (16, fault),
            Refusal::Listed(fault) => (17, fault),
            Refusal::Early(fault) => (18, fault),
            Refusal::Pairs(fault) => (19, fault),
            Refusal::PairLabel(fault) => (20, fault),
            Refusal::PairNumber(fault) => (21, fault),
        }
    }

    /// The paper's number, 1 to 21 without 4.
    pub fn number(&self) -> u64 {
        self.parts().0
    }

    /// The paper's place.
    pub fn place(&self) -> u64 {
        self.fault().place
    }

    pub fn fault(&self) -> &Fault {
        self.parts().1
    }

    /// What is wrong, in words, without where.
    pub fn sentence(&self) -> &str {
        &self.fault().sentence
    }

    /// How to mend it, and other places of the text that it has to do with.
    ///
    /// ```
    /// let text = b"kind name a b c\nG - 0 - -\nV size 1 4 -\nV x 1 5 -\nN - 7 - -\nR sise - - -\n";
    /// let refusal = lindypo::Sheet::read(text).unwrap_err();
    /// assert_eq!(
    ///     refusal.sentence(),
    ///     "the outermost Group has no member `sise`; is `size` (line 3) meant?"
    /// );
    /// let near = &refusal.help()[0];
    /// assert_eq!(near.sentence, "`size` is here");
    /// assert_eq!(near.mark.map(|mark| (mark.line, mark.column, mark.width)), Some((3, 3, 4)));
    /// assert_eq!(refusal.help()[1].sentence, "the outermost Group has `size` and `x`");
    /// ```
    pub fn help(&self) -> &[Help] {
        &self.fault().help
    }

    /// What to look at in the text, where it is in the text.
    pub fn mark(&self) -> Option<Mark> {
        self.fault().mark
    }

    /// The line of the text, from 1.
    pub fn line(&self) -> Option<usize> {
        self.mark().map(|mark| mark.line)
    }

    /// The column in that line, from 1.
    pub fn column(&self) -> Option<usize> {
        self.mark().map(|mark| mark.column)
    }
}

/// Number, line and column, position or pair, and the sentence.
impl fmt::Display for Refusal {
    fn fmt(&self, f: &mut fmt::Formatter) -> fmt::Result {
        let (number, fault) = self.parts();
        write!(f, "refusal {number}")?;
        if let Some(Mark { line, column, .. }) = fault.mark {
            write!(f, ", line {line}, column {column}")?;
        }
        match self {
            Refusal::Listed(_) | Refusal::Early(_) => {
                write!(f, ", position {} of the order", fault.place)?;
            }
            Refusal::PairLabel(_) | Refusal::PairNumber(_) => {
                write!(f, ", pair {} of the list", fault.place)?;
            }
            _ => (),
        }
        write!(f, ": {}", fault.sentence)
    }
}

impl Error for Refusal {}
