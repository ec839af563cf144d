//! `--svg` of `lindypo explain` and `lindypo retouch`: pictures of sheets.

use std::cell::Cell;
use std::collections::{BTreeMap, BTreeSet};
use std::ffi::OsStr;

use lindypo::{same_name, Kind, Label, Refusal, Sheet, State};

use crate::document::{self, Document, Failure, Maker};
use crate::input::{self, Source};
use crate::json::Object;
use crate::labels;
use crate::numerals::counted;
use crate::options::{Call, Opt};
use crate::output::Output;
use crate::sheets;
use crate::status::Status;
use crate::svg::{self, Wanted, MOST};
use crate::values;

pub const SVG: Opt = Opt {
    name: "--svg",
    value: Some("PICTURE"),
    meaning: "a picture of one sheet in the file PICTURE; - is standard output",
};

pub const FOCUS: Opt = Opt {
    name: "--focus",
    value: Some("NAME"),
    meaning: "draw only what NAME reaches and what reaches it; NAME is a full name or a label",
};

pub const FOLD: Opt = Opt {
    name: "--fold",
    value: Some("NAME..."),
    meaning: "draw this Group as one card; may be given again; none: all Groups open",
};

/// What `--fold` takes for: fold nothing. A Group of this name is folded by its
/// label.
const NONE: &str = "none";

/// The most definitions that a message names.
const NAMED: usize = 3;

/// What is drawn of a file that is read.
pub struct Subject {
    pub text: Vec<u8>,
    pub caption: String,
    /// What the values were that have changed.
    pub before: BTreeMap<Label, State>,
}

/// What a word draws of a file.
pub type Draws<'f> = &'f dyn Fn(&[u8], &Source) -> Result<Subject, Failure>;

/// Draws the one sheet that the words name, as it is, into a file.
pub fn draw_sheet(file: &OsStr, call: &Call, out: &mut Output) -> Result<Status, String> {
    draw(file, call, out, &|text: &[u8], source: &Source| {
        Ok(Subject {
            text: text.to_vec(),
            caption: source.file_name(),
            before: BTreeMap::new(),
        })
    })
}

/// Draws what comes of the one sheet that the words name into a file.
pub fn draw(file: &OsStr, call: &Call, out: &mut Output, draws: Draws) -> Result<Status, String> {
    let folded = Cell::new(0);
    let make = |text: &[u8], source: &Source| {
        let subject = draws(text, source)?;
        let text = &subject.text[..];
        let ran = sheets::ran(text);
        let (sheet, run) = ran.map_err(|refusal| document::refused(text, source, &refusal))?;
        let mut wanted = wanted(&sheet, call).map_err(document::wrong)?;
        wanted.before = subject.before;
        let (svg, count) = svg::picture(&sheet, &run, &wanted, &subject.caption);
        folded.set(count);
        Ok(Document {
            text: svg.into_bytes(),
            status: values::status(&values::of_run(&sheet, &run)),
            fields: Object::new(),
        })
    };
    let maker = Maker {
        read: Source::read,
        make: &make,
        sort: Some(svg::SORT),
    };
    let status = document::one_to(file, call, out, maker)?;
    if folded.get() > 0 {
        let groups = counted(folded.get() as u64, "Group");
        out.hint(&format!(
            "{groups} folded, since there are more than {MOST} cards; `{} {NONE}` draws all",
            FOLD.name
        ));
    }
    Ok(status)
}

/// The picture of a text that runs, with a caption.
pub fn picture(text: &[u8], wanted: &Wanted, caption: &str) -> Result<(String, usize), Refusal> {
    let (sheet, run) = sheets::ran(text)?;
    Ok(svg::picture(&sheet, &run, wanted, caption))
}

/// What the words ask for.
fn wanted(sheet: &Sheet, call: &Call) -> Result<Wanted, String> {
    let focus = call.value(FOCUS.name);
    let focus = focus
        .map(|name| definition(sheet, FOCUS, name))
        .transpose()?;
    let names: Vec<&OsStr> = call.values(FOLD.name).collect();
    let folded = match &names[..] {
        [] => None,
        [none] if *none == NONE => Some(BTreeSet::new()),
        names if names.contains(&OsStr::new(NONE)) => {
            return Err(format!("{} {NONE} stands alone", FOLD.name));
        }
        names => {
            let groups = names.iter().map(|name| group(sheet, name));
            Some(groups.collect::<Result<_, _>>()?)
        }
    };
    Ok(Wanted {
        focus,
        folded,
        ..Wanted::default()
    })
}

fn group(sheet: &Sheet, name: &OsStr) -> Result<Label, String> {
    let label = definition(sheet, FOLD, name)?;
    let kind = sheet.line(label).map(|line| line.kind);
    let (option, shown) = (FOLD.name, input::shown(name.as_ref()));
    match kind {
        _ if label == 1 => Err(format!("{option} {shown}: the outermost Group stays open")),
        Some(Kind::Group) => Ok(label),
        Some(kind) => Err(format!(
            "{option} {shown}: it is a {kind}, and Groups are folded"
        )),
        None => Err(format!("{option} {shown}: there is no such label")),
    }
}

/// The definition that a name or label stands for.
fn definition(sheet: &Sheet, option: Opt, name: &OsStr) -> Result<Label, String> {
    let is_definition = |&label: &Label| {
        let line = sheet.line(label);
        line.is_some_and(|line| line.kind.is_definition())
    };
    let name = name.to_string_lossy();
    let label = labels::of(sheet, &name).filter(is_definition);
    label.ok_or_else(|| {
        let shown = input::shown(name.as_ref().as_ref());
        format!(
            "{} {shown}: there is no such definition{}",
            option.name,
            meant(sheet, &name)
        )
    })
}

/// The definitions with the same last name.
fn meant(sheet: &Sheet, name: &str) -> String {
    let last = name.rsplit('.').next().unwrap_or("");
    let lines = sheet.lines().filter(|line| line.kind.is_definition());
    let like = lines.filter(|line| line.name.is_some_and(|name| same_name(name, last)));
    let like = like.map(|line| format!("`{}`", sheet.full_name(line.label)));
    match like.take(NAMED).collect::<Vec<_>>() {
        names if names.is_empty() => "; `lindypo explain` lists them".to_string(),
        names => format!("; is {} meant?", names.join(" or ")),
    }
}
