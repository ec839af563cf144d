//! What makes a plan mixed, in words and as JSON: which members of a Group are
//! tangled, by which lines, and how to mend it.

use lindypo::{Label, Sheet};

use crate::blocks::{self, Need, Tangle};
use crate::json::{Json, Object};
use crate::mentions::Mention;
use crate::numerals::counted;
use crate::outline::positions;
use crate::output::Paint;
use crate::tree::Node;
use crate::values;
use crate::words::Field;

/// The most blocks, members of a block, needs of a cycle and mentions of a chain
/// that are named.
const BLOCKS: usize = 8;
const MEMBERS: usize = 8;
const NEEDS: usize = 8;
const MENTIONS: usize = 6;

pub const FIELDS: [Field; 21] = [
    (
        "tangles",
        "of a mixed plan: the blocks of members that need each other:",
    ),
    (
        "tangles.group",
        "the label of the Group that they are members of",
    ),
    (
        "tangles.name",
        "its full name; empty for the outermost Group",
    ),
    (
        "tangles.first",
        "the first position in the plan of a value in the block, from 1",
    ),
    ("tangles.last", "the last such position"),
    ("tangles.members", "the members of the block:"),
    ("tangles.members.label", "its label"),
    ("tangles.members.name", "its full name"),
    ("tangles.members.line", "the line that it stands in, from 1"),
    (
        "tangles.cycle",
        "a shortest cycle through the first of them, each needing the next:",
    ),
    ("tangles.cycle.member", "the label of a member"),
    (
        "tangles.cycle.needed",
        "the label of the member that it needs",
    ),
    (
        "tangles.cycle.chain",
        "a shortest chain of mentions from a value of it to one of that:",
    ),
    ("tangles.cycle.chain.line", "the R or C line, from 1"),
    (
        "tangles.cycle.chain.from",
        "the label of the definition that mentions",
    ),
    (
        "tangles.cycle.chain.to",
        "the label of the value or function that is mentioned",
    ),
    ("tangles.cycle.chain.sentence", "the same in words"),
    (
        "tangles.move",
        "a value that undoes the tangle where it is moved to that Group:",
    ),
    ("tangles.move.label", "its label"),
    ("tangles.move.name", "its full name"),
    ("tangles.move.line", "the line that it stands in, from 1"),
];

/// A paragraph for each block, an empty line before it.
pub fn text(sheet: &Sheet, outermost: &Node, tangles: &[Tangle], paint: Paint) -> String {
    let paragraph = |tangle: &Tangle| {
        let lines = lines(sheet, outermost, tangle);
        let (headline, needs) = (paint.strong(&lines[0]), &lines[1..]);
        let needs: String = needs.iter().map(|need| format!("  {need}\n")).collect();
        format!("\n{headline}\n{needs}  = help: {}\n", help(sheet, tangle))
    };
    let shown: String = tangles.iter().take(BLOCKS).map(paragraph).collect();
    match tangles.len().saturating_sub(BLOCKS) as u64 {
        0 => shown,
        more => format!("{shown}\nand {}\n", counted(more, "more block")),
    }
}

/// Who is tangled, and the needs around a cycle.
pub fn lines(sheet: &Sheet, outermost: &Node, tangle: &Tangle) -> Vec<String> {
    let names = named(sheet, &tangle.members);
    let span = outermost.span_of(&tangle.members);
    let at = span.map_or(String::new(), |span| {
        format!(", positions {}", positions(span))
    });
    let mut lines = vec![format!("tangled in one block{at}: {names}")];
    let needs = tangle.cycle.iter().take(NEEDS);
    lines.extend(needs.map(|need| sentence(sheet, need)));
    if tangle.cycle.len() > NEEDS {
        let more = counted((tangle.cycle.len() - NEEDS) as u64, "more need");
        lines.push(format!(
            "and {more}, back to {}",
            name(sheet, tangle.members[0])
        ));
    }
    lines
}

/// "`right`, `left` and `frame`".
fn named(sheet: &Sheet, members: &[Label]) -> String {
    let mut names: Vec<String> = members.iter().map(|&member| name(sheet, member)).collect();
    let last = match names.len() > MEMBERS {
        true => format!("{} more", names.split_off(MEMBERS - 1).len()),
        false => names.pop().unwrap_or_default(),
    };
    format!("{} and {last}", names.join(", "))
}

fn name(sheet: &Sheet, label: Label) -> String {
    format!("`{}`", sheet.full_name(label))
}

/// "`frame` needs `left`: `frame.blank` (line 13) reads `left.dec`".
fn sentence(sheet: &Sheet, need: &Need) -> String {
    let [member, needed] = [need.member, need.needed].map(|label| name(sheet, label));
    format!("{member} needs {needed}: {}", chain(sheet, &need.chain))
}

/// Mentions one after the other; the middle of many is left out.
fn chain(sheet: &Sheet, mentions: &[Mention]) -> String {
    let subject = |at: usize| match at {
        0 => name(sheet, mentions[0].from),
        _ => ", which".to_string(),
    };
    let part = |at: usize| format!("{} {}", subject(at), predicate(sheet, &mentions[at]));
    let count = mentions.len();
    if count <= MENTIONS {
        return (0..count).map(part).collect();
    }
    let half = MENTIONS / 2;
    let (start, end): (String, String) = (
        (0..half).map(part).collect(),
        (count - half..count).map(part).collect(),
    );
    let left_out = counted((count - MENTIONS) as u64, "more mention");
    let to = name(sheet, mentions[count - half].from);
    format!("{start}, which by {left_out} leads to {to}{end}")
}

/// "(line 13) reads `left.dec`".
fn predicate(sheet: &Sheet, mention: &Mention) -> String {
    let (line, verb, to) = (mention.line + 1, mention.verb(), name(sheet, mention.to));
    format!("(line {line}) {verb} {to}")
}

/// How to mend it. A move is said only where it is known to help.
fn help(sheet: &Sheet, tangle: &Tangle) -> String {
    let Some(value) = blocks::mend(sheet, tangle) else {
        return "change one of these lines, or move a value to another Group, until there is no \
                such cycle"
            .to_string();
    };
    let group = match tangle.group {
        1 => "the outermost Group".to_string(),
        group => format!("the Group {}", name(sheet, group)),
    };
    format!(
        "moved to {group}, {} (line {}) undoes the tangle; paths to it and in it then change",
        name(sheet, value),
        value + 1
    )
}

pub fn json(sheet: &Sheet, outermost: &Node, tangles: &[Tangle]) -> Json {
    let objects = tangles
        .iter()
        .map(|tangle| object(sheet, outermost, tangle));
    objects.collect()
}

fn object(sheet: &Sheet, outermost: &Node, tangle: &Tangle) -> Object {
    let definition = |label: Label| values::name_object(label, &sheet.full_name(label));
    let need = |need: &Need| {
        let chain = need
            .chain
            .iter()
            .map(|mention| mention_object(sheet, mention));
        Object::new()
            .with("member", need.member)
            .with("needed", need.needed)
            .with("chain", chain.collect::<Json>())
    };
    let members = tangle.members.iter().map(|&member| definition(member));
    let span = outermost.span_of(&tangle.members);
    Object::new()
        .with("group", tangle.group)
        .with("name", sheet.full_name(tangle.group))
        .with_some("first", span.map(|span| span.first))
        .with_some("last", span.map(|span| span.last))
        .with("members", members.collect::<Json>())
        .with("cycle", tangle.cycle.iter().map(need).collect::<Json>())
        .with_some("move", blocks::mend(sheet, tangle).map(definition))
}

fn mention_object(sheet: &Sheet, mention: &Mention) -> Object {
    let (from, predicate) = (name(sheet, mention.from), predicate(sheet, mention));
    Object::new()
        .with("line", mention.line + 1)
        .with("from", mention.from)
        .with("to", mention.to)
        .with("sentence", format!("{from} {predicate}"))
}
