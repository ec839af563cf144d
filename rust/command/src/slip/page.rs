//! The page itself, in HTML that is XML too.

use lindypo::{Label, Order, State};

use super::loads::{Load, Turn};
use super::Slip;
use crate::markup::escaped;
use crate::numerals::counted;
use crate::values::{self, Value};

/// How every page begins.
pub const START: &str = "<!DOCTYPE html>\n<html lang=\"en\" class=\"lindypo-slip\">\n";

const STYLE: &str = include_str!("page.css");

const NOT_TO_BE_CUT: &str = "NOT TO BE CUT";

/// One page for all slips, each on sheets of paper of its own.
pub fn html(slips: &[&Slip]) -> String {
    let title = match slips {
        [slip] => escaped(&format!("{} - {}", slip.name, shout(slip))),
        _ => counted(slips.len() as u64, "slip"),
    };
    let sections: String = slips.iter().map(|slip| section(slip)).collect();
    format!(
        "{START}<head>\n<meta charset=\"utf-8\"/>\n<title>{title}</title>\n\
         <style>\n{STYLE}</style>\n</head>\n<body>\n{sections}</body>\n</html>\n"
    )
}

fn section(slip: &Slip) -> String {
    let class = slip.run.plan.order;
    let loads: String = (1..)
        .zip(&slip.loads)
        .map(|(number, load)| group(slip, number, load))
        .collect();
    format!(
        "<section class=\"{class}\">\n{}{}<table>\n{COLUMNS}<thead>\n{}{TITLES}</thead>\n{loads}</table>\n\
         </section>\n",
        heading(slip),
        alarm(slip),
        running(slip),
    )
}

/// WHOLE or MIXED.
fn shout(slip: &Slip) -> String {
    slip.run.plan.order.to_string().to_uppercase()
}

/// At the top of the first sheet of paper.
fn heading(slip: &Slip) -> String {
    let (name, word) = (escaped(&slip.name), shout(slip));
    let meaning = match slip.run.plan.order {
        _ if slip.values.is_empty() => "nothing to load",
        Order::Whole => "no Group is loaded again",
        Order::Mixed => "Groups are loaded again, where it says AGAIN",
    };
    let (headline, ties) = (values::headline_of(&slip.values), slip.sheet.ties());
    let loads = counted(slip.loads.len() as u64, "load");
    format!(
        "<header>\n<div>\n<h1><bdi>{name}</bdi></h1>\n<p>{headline}; {loads}</p>\n</div>\n\
         <div class=\"order\">\n<strong>{word}</strong>\n<p>{meaning}</p>\n<p>{ties}</p>\n</div>\n</header>\n"
    )
}

/// Where a value has no number: how many, and at which positions.
fn alarm(slip: &Slip) -> String {
    let has_failed = |(_, value): &(usize, &Value)| value.outcome.state.number().is_none();
    let failed = (1..).zip(&slip.values).filter(has_failed);
    let positions: Vec<String> = failed.map(|(at, _)| at.to_string()).collect();
    let (values, places) = match positions.len() {
        0 => return String::new(),
        1 => ("1 value has no number".to_string(), "position"),
        count => (
            format!("{} have no number", counted(count as u64, "value")),
            "positions",
        ),
    };
    let positions = positions.join(", ");
    format!(
        "<p class=\"alarm\"><strong>{NOT_TO_BE_CUT}</strong> {values}: {places} {positions}</p>\n"
    )
}

/// At the top of every sheet of paper: which sheet this is.
fn running(slip: &Slip) -> String {
    let (name, word, digest) = (escaped(&slip.name), shout(slip), &slip.digest);
    let ties = slip.sheet.ties();
    format!(
        "<tr class=\"running\"><th colspan=\"2\"><bdi>{name}</bdi> <b>{word}</b>, {ties}</th>\
         <th colspan=\"2\" class=\"digest\">SHA-256 <code>{digest}</code></th></tr>\n"
    )
}

const COLUMNS: &str = "<colgroup><col class=\"position\"/><col class=\"name\"/>\
    <col class=\"number\"/><col class=\"formula\"/></colgroup>\n";

const TITLES: &str = "<tr class=\"titles\"><th class=\"position\" scope=\"col\">position</th>\
    <th scope=\"col\">name</th><th class=\"number\" scope=\"col\">number</th>\
    <th class=\"formula\" scope=\"col\">formula</th></tr>\n";

/// The values of a load under the name of its Group.
fn group(slip: &Slip, number: usize, load: &Load) -> String {
    let values = (1..).zip(&slip.values);
    let values = values.skip(load.first - 1).take(load.last + 1 - load.first);
    let rows: String = values
        .map(|(position, value)| row(slip, position, value))
        .collect();
    let (name, turn) = (group_name(slip, load.group), turn(slip, load));
    let positions = match load.first == load.last {
        true => format!("position {}", load.first),
        false => format!("positions {} to {}", load.first, load.last),
    };
    format!(
        "<tbody>\n<tr class=\"load\"><td class=\"position\">load {number}</td>\
         <th colspan=\"2\" scope=\"rowgroup\">{name}{turn}</th>\
         <td class=\"positions\">{positions}</td></tr>\n{rows}</tbody>\n"
    )
}

fn group_name(slip: &Slip, group: Label) -> String {
    match slip.sheet.full_name(group) {
        name if name.is_empty() => "outermost Group".to_string(),
        name => broken(&name),
    }
}

/// What is said of a Group that is not loaded for the first time.
fn turn(slip: &Slip, load: &Load) -> String {
    match load.turn {
        Turn::First => String::new(),
        Turn::Continued => " <em>continued</em>".to_string(),
        Turn::Again(group) if group == load.group => " <strong>AGAIN</strong>".to_string(),
        Turn::Again(group) => format!(" <strong>{} AGAIN</strong>", group_name(slip, group)),
    }
}

fn row(slip: &Slip, position: usize, value: &Value) -> String {
    let (class, number) = match value.outcome.state {
        State::Number(number) => ("value", number.to_string()),
        failure => (
            "failed",
            format!(
                "<strong>{NOT_TO_BE_CUT}</strong> {}",
                escaped(&failure.to_string())
            ),
        ),
    };
    let (name, formula) = (broken(&value.name), broken(&slip.formula(value.label)));
    format!(
        "<tr class=\"{class}\"><td class=\"position\">{position}</td><td class=\"name\">{name}</td>\
         <td class=\"number\">{number}</td><td class=\"formula\">{formula}</td></tr>\n"
    )
}

/// Names that may be broken after a dot.
fn broken(names: &str) -> String {
    escaped(names).replace('.', ".<wbr/>")
}
