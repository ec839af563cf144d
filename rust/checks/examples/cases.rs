//! `cargo run --release -p checks --example cases -- FOLDER COUNT`: sheets for
//! tests in other languages, the worst shapes and so many random ones. NAME.sheet
//! is a sheet, NAME.json what the reference wants of each call on it, with
//! buffers as long as it needs, and besides that what the wrapper gives: the line
//! that a refusal points at, and the sheet built again where it reads.
//! mistakes.json is what the wrapper's builder says of a Group for each mistake.

use std::fs;
use std::path::Path;
use std::process::ExitCode;

use checks::{Trial, Wanted};
use lindypo::build::{argument, number, read, Expression, Group};
use lindypo::Sheet;

/// The most labels of a sheet, and the most values that each have a body.
const LABELS: usize = 1_024;
const CHAIN: usize = (LABELS - 1) / 2;

const NULL: &str = "null";

fn main() -> ExitCode {
    let words: Vec<String> = std::env::args().skip(1).collect();
    let count = words.get(1).and_then(|word| word.parse().ok());
    let (Some(folder), Some(count)) = (words.first(), count) else {
        eprintln!("a folder and a count, please");
        return ExitCode::from(2);
    };
    match write(Path::new(folder), count) {
        Ok(sheets) => {
            println!("{sheets} sheets");
            ExitCode::SUCCESS
        }
        Err(error) => {
            eprintln!("{folder}: {error}");
            ExitCode::from(2)
        }
    }
}

fn write(folder: &Path, count: u64) -> std::io::Result<usize> {
    let shape = |(at, text): (usize, Vec<u8>)| (format!("shape-{at:02}"), text, [vec![], vec![]]);
    let random = |seed: u64| {
        let case = generator::case(seed);
        (format!("seed-{seed}"), case.text, [case.order, case.pairs])
    };
    let shapes = generator::shapes().into_iter().map(|shape| shape.text);
    // the longest chain that a sheet has room for takes Plan the most stack
    let shapes = shapes.chain([generator::forward(CHAIN)]);
    fs::write(folder.join("mistakes.json"), format!("{:?}\n", mistakes()))?;
    let mut sheets = 0;
    for (name, text, lists) in shapes.enumerate().map(shape).chain((0..count).map(random)) {
        let file = folder.join(name);
        fs::write(file.with_extension("sheet"), &text)?;
        fs::write(file.with_extension("json"), wanted(&text, &lists))?;
        sheets += 1;
    }
    Ok(sheets)
}

/// What each call has to reply and to write, Follow and Retouch with these lists.
fn wanted(text: &[u8], [order, pairs]: &[Vec<i64>; 2]) -> String {
    let lines = generator::line_count(text).min(LABELS);
    let trial = Trial {
        table: 8 * lines,
        plan: lines,
        results: 3 * lines,
        pairs,
        changes: 3 * (pairs.len() / 2),
        ..Trial::new(text, order)
    };
    let [read, plan, run, follow, retouch] = trial.wanted();
    format!(
        "{{\"order\": {order:?}, \"pairs\": {pairs:?}, \"line\": {}, \"built\": {}, \"read\": {}, \"plan\": {}, \"run\": {}, \"follow\": {}, \"retouch\": {}}}\n",
        line(text).map_or(NULL.to_string(), |line| line.to_string()),
        built(text).map_or(NULL.to_string(), |text| format!("{text:?}")),
        call(&read, &[0]),
        call(&plan, &[0, 1]),
        call(&run, &[0, 1, 2]),
        call(&follow, &[0, 2]),
        call(&retouch, &[0, 1, 2, 3]),
    )
}

/// A reply and the buffers that the call is lent.
fn call(wanted: &Wanted, lent: &[usize]) -> String {
    let reply = wanted.reply;
    let numbers = [reply.refusal, reply.place, reply.count, reply.order];
    let buffers: Vec<&Vec<i64>> = lent.iter().map(|&at| &wanted.buffers[at]).collect();
    format!("{{\"reply\": {numbers:?}, \"buffers\": {buffers:?}}}")
}

/// What the sheet holds, built again.
fn built(text: &[u8]) -> Option<String> {
    let sheet = Sheet::read(text).ok()?;
    let text = Group::of_sheet(&sheet).text().expect("a sheet that can be");
    String::from_utf8(text).ok()
}

/// What is said of a Group `right` for each mistake that its one value can have,
/// and of Groups with too many lines or bytes.
fn mistakes() -> Vec<String> {
    let nested = |levels: usize| (1..levels).fold(number(1), |body, _| 1 + body);
    let path = ["decentration0001"; 8].join(".");
    let cases: [(&str, Expression, usize); 10] = [
        ("1x", number(1), 1),
        ("abcdefghijklmnopq", number(1), 1),
        ("x", number(1_000_000_001), 1),
        ("x", read("x..y"), 1),
        ("x", 2 * read("a.b.c.d.e.f.g.h.i"), 1),
        ("x", 1 + argument(), 1),
        ("x", nested(33), 1),
        ("x", number(1), 512),
        ("x", read(path), 500),
        ("abcdefghijklmnopqrstuvwxyzabcdefghijklmnop", number(1), 1),
    ];
    let said = |(name, body, count): (&str, Expression, usize)| {
        let mut right = Group::new();
        for _ in 0..count {
            right.value(name, body.clone());
        }
        let mistake = Group::new().group("right", right).text().unwrap_err();
        format!("{} {mistake}", mistake.row)
    };
    cases.into_iter().map(said).collect()
}

/// The line that the refusal of Read or Run points at.
fn line(text: &[u8]) -> Option<usize> {
    let sheet = Sheet::read(text);
    let refusal = match sheet {
        Ok(sheet) => sheet.run().err(),
        Err(refusal) => Some(refusal),
    };
    refusal?.line()
}
