//! Slips: every value stands on them once, in the order of the plan, under the
//! Groups as they are loaded.

use std::process::Command;

use command::slip;
use lindypo::{formula, Kind, Label, Order, Run, Sheet, Ties};

use crate::markup::{parts, words_in, Part};
use crate::{output, read, read_text, sheets, stdout, top};

const CASES: u64 = 1_500;

const NAME: &str = "a < \"b\" & 'c'\u{7}";

/// A page: its parts, and what kind of row each is in sequence.
struct Page<'a> {
    parts: Vec<Part<'a>>,
    rows: Vec<&'a str>,
}

impl<'a> Page<'a> {
    fn new(html: &'a str) -> Self {
        let html = html.strip_prefix("<!DOCTYPE html>\n").expect("HTML");
        let parts = parts(html);
        let row = |part: &Part<'a>| match part {
            Part::Begin(tag) if tag.name == "tr" => Some(tag.get("class")),
            _ => None,
        };
        let rows = parts.iter().filter_map(row).collect();
        Page { parts, rows }
    }

    fn cells(&self, class: &str) -> Vec<String> {
        words_in(&self.parts, "td", class)
    }
}

/// The state of every value as the slip has it.
fn states(run: &Run) -> Vec<String> {
    let state = |state: lindypo::State| match state.number() {
        Some(number) => number.to_string(),
        None => format!("NOT TO BE CUT {state}"),
    };
    run.values()
        .map(|(_, outcome)| state(outcome.state))
        .collect()
}

/// How many values each load has, and whether its Group is said to be loaded
/// again.
fn loads(page: &Page) -> Vec<(usize, bool)> {
    let headings = words_in(&page.parts, "tr", "load");
    let mut headings = headings.iter();
    let mut loads: Vec<(usize, bool)> = vec![];
    for &row in &page.rows {
        match row {
            "load" => {
                let heading = headings.next().expect("a heading");
                loads.push((0, heading.contains("AGAIN")));
            }
            "value" | "failed" => loads.last_mut().expect("a load above").0 += 1,
            _ => {}
        }
    }
    loads
}

/// The Groups that a value is in.
fn groups(sheet: &Sheet, label: Label) -> Vec<Label> {
    let around = |&at: &Label| sheet.line(at)?.owner;
    std::iter::successors(Some(label), around).skip(1).collect()
}

/// Whether a Group of this value was left and goes on: it has an earlier value,
/// and the last one is not in it.
fn goes_on(sheet: &Sheet, before: &[Label], value: Label) -> bool {
    let before: Vec<Vec<Label>> = before.iter().map(|&label| groups(sheet, label)).collect();
    let last = before.last().cloned().unwrap_or_default();
    groups(sheet, value)
        .iter()
        .any(|group| !last.contains(group) && before.iter().any(|groups| groups.contains(group)))
}

/// A load is a longest run of values of one Group; AGAIN is where one goes on
/// that was left.
fn loads_are_the_groups(sheet: &Sheet, run: &Run, page: &Page) {
    let group = |&label: &Label| groups(sheet, label)[0];
    let (plan, mut last) = (&run.plan.labels, None);
    let (mut start, mut has_again) = (0, false);
    for (count, is_again) in loads(page) {
        let (before, rest) = plan.split_at(start);
        let under: Vec<Label> = rest[..count].iter().map(group).collect();
        assert!(count > 0 && under.iter().all(|&other| other == under[0]));
        assert_ne!(last, Some(under[0]));
        assert_eq!(is_again, goes_on(sheet, before, rest[0]));
        (start, last, has_again) = (start + count, Some(under[0]), has_again || is_again);
    }
    assert_eq!(start, plan.len());
    assert_eq!(has_again, run.plan.order == Order::Mixed);
}

/// Whether a slip says what the library does; none where the text is refused.
fn check(text: &[u8]) -> Option<usize> {
    let (html, status) = slip::page(text, NAME).ok()?;
    let (sheet, page) = (Sheet::read(text).expect("a sheet"), Page::new(&html));
    let run = sheet.run().expect("a run");
    let count = run.plan.labels.len();
    let labels = || run.plan.labels.iter();
    let names: Vec<String> = labels().map(|&label| sheet.full_name(label)).collect();
    let formulas = labels().map(|&label| formula::of(&sheet, label));
    let formulas: Vec<String> = formulas.map(Option::unwrap_or_default).collect();
    let positions = page.cells("position").into_iter();
    let positions: Vec<String> = positions
        .filter(|words| !words.starts_with("load"))
        .collect();
    assert_eq!(page.cells("name"), names);
    assert_eq!(page.cells("number"), states(&run));
    assert_eq!(page.cells("formula"), formulas);
    assert!((1..=count)
        .map(|position| position.to_string())
        .eq(positions));
    let failed = page.rows.iter().filter(|&&row| row == "failed").count();
    assert_eq!(status.code(), u8::from(failed > 0));
    assert_eq!(!words_in(&page.parts, "p", "alarm").is_empty(), failed > 0);
    let [running] = &words_in(&page.parts, "tr", "running")[..] else {
        panic!("one line that every sheet of paper has");
    };
    let (order, ties) = (run.plan.order.to_string().to_uppercase(), sheet.ties());
    let start = format!("a < \"b\" & 'c'\u{fffd} {order}, {ties}SHA-256 ");
    assert!(running.starts_with(&start), "{running}");
    let [heading] = &words_in(&page.parts, "div", "order")[..] else {
        panic!("one heading");
    };
    let (heading, ties) = (heading.trim(), ties.to_string());
    assert!(heading.starts_with(&order) && heading.ends_with(&ties));
    loads_are_the_groups(&sheet, &run, &page);
    Some(count)
}

#[test]
fn random_slips() {
    let (mut made, mut values) = (0, 0);
    for seed in 0..CASES {
        let text = generator::sheet(&mut generator::Rng::new(seed));
        let sheet = Sheet::read(&text).expect("a sheet that reads");
        let under = sheet.with_ties(Ties::ALL[seed as usize % 2]);
        if let Some(count) = check(&under) {
            (made, values) = (made + 1, values + count);
        }
    }
    assert!(
        made > 1_000 && values > 3_000,
        "{made} slips, {values} values"
    );
}

#[test]
fn everyday_slips() {
    for lines in (1..120).chain([1_024]) {
        check(&generator::everyday(lines, lines as u64)).expect("a slip");
    }
}

/// The worst shapes: long names, long formulas, Groups that take turns.
#[test]
fn large_slips() {
    let mut made = 0;
    for shape in generator::shapes() {
        made += usize::from(check(&shape.text).is_some());
    }
    assert!(made > 10, "{made} slips");
}

/// The digest is the one that `sha256sum` prints.
#[test]
fn digests_can_be_checked() {
    for sheet in sheets() {
        let path = sheet.display().to_string();
        let summed = Command::new("sha256sum")
            .arg(&path)
            .current_dir(top())
            .output();
        let summed = stdout(&summed.expect("sha256sum"));
        let wanted = summed.split(' ').next().expect("a digest");
        let json = stdout(&output(&["slip", "--json", &path]));
        let html = stdout(&output(&["slip", &path]));
        let has_slip = !html.is_empty();
        assert_eq!(html.contains(&format!("<code>{wanted}</code>")), has_slip);
        assert_eq!(json.contains(&format!("\"digest\":\"{wanted}\"")), has_slip);
    }
}

/// Nothing comes from elsewhere, and nothing of it depends on the day.
#[test]
fn a_slip_needs_nothing_else() {
    let page = |name: &str| stdout(&output(&["slip", name]));
    let html = page("sheets/03-mixed.sheet");
    for word in [
        "http", "url(", "@import", "<script", "<img", "<link", "src=",
    ] {
        assert!(!html.contains(word), "{word}");
    }
    assert_eq!(html, page("sheets/03-mixed.sheet"));
}

/// The page of the documents is what is made.
#[test]
fn the_slip_on_file() {
    let path = "sheets/03-mixed.sheet";
    let (made, _) = slip::page(&read(path), "03-mixed.sheet").expect("a slip");
    let again = format!("to make it anew: ./lindypo slip -o docs/slip.html {path}");
    assert!(made == read_text("docs/slip.html"), "{again}");
}

/// Nobody but values is on a slip.
#[test]
fn functions_and_groups_have_no_rows() {
    let text = read("sheets/04b-even-of-1.sheet");
    let sheet = Sheet::read(&text).expect("a sheet");
    let values = sheet.lines().filter(|line| line.kind == Kind::Value);
    assert_eq!(check(&text), Some(values.count()));
}
