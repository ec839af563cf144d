//! The rules of document 01's table of refusals, as document 02 has changed
//! them, in plain words.

/// A rule by a short name, and what it says.
pub struct Rule {
    pub name: &'static str,
    pub rule: &'static str,
}

/// The rule of refusal k stands at k - 1. Refusal 4 is about buffers, 17 and 18
/// about orders, 19 to 21 about lists of pairs: no sheet is refused by them.
pub const RULES: [Rule; 21] = [
    rule(
        "bytes of the text",
        "a sheet is 1 to 65,536 bytes, printable ASCII in lines that each end with \
         byte 10",
    ),
    rule(
        "line one",
        "line one is `kind name a b c` or `kind2 name a b c`",
    ),
    rule("number of lines", "1 to 1,024 lines follow line one"),
    rule("length of a buffer", "every buffer is long enough"),
    rule(
        "number of fields",
        "a line has five fields, none of them empty, with one space between fields",
    ),
    rule(
        "unknown kind",
        "the kind is one of the twelve: G V F N P R C A S M D I",
    ),
    rule(
        "form of a field",
        "each field has the form that its kind wants, and label 1 is `G - 0 - -`",
    ),
    rule(
        "Group, body or operand",
        "a definition's Group is a Group above it; a body or operand is an expression \
         below the line that uses it",
    ),
    rule(
        "use of an expression",
        "an expression is used by one field, no less and no more",
    ),
    rule("argument in a value", "only a function has an argument"),
    rule(
        "more than 32 levels",
        "expressions are nested at most 32 levels deep",
    ),
    rule(
        "name taken already",
        "the members of a Group have names that differ by more than the case of letters",
    ),
    rule(
        "first name of a path",
        "the first name of a path is a member of the Group that it is read in, or of \
         one around it",
    ),
    rule(
        "later name of a path",
        "each later name of a path is a member of the Group that the names before it \
         lead to",
    ),
    rule(
        "end of a path",
        "a read leads to a value, a call to a function",
    ),
    rule(
        "value reaching itself",
        "no value reaches itself by what it reads and calls",
    ),
    rule(
        "values of an order",
        "an order lists every value once and nothing else",
    ),
    rule(
        "sequence of an order",
        "an order lists a value after all that it reaches",
    ),
    rule("length of a list", "a list has at most 1,024 pairs"),
    rule(
        "label of a pair",
        "a pair of the list puts its number into an N line",
    ),
    rule(
        "number of a pair",
        "the number of a pair is one that an N line may have",
    ),
];

const fn rule(name: &'static str, rule: &'static str) -> Rule {
    Rule { name, rule }
}

/// The rule of the refusal with this number, 1 to 21.
pub fn of(number: u64) -> &'static Rule {
    &RULES[number as usize - 1]
}
