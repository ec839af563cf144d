//! `cargo run --release -p bench`: the proved library's time beside the Rust
//! reference's, for every call. Words choose: the names of calls, and parts of
//! the names of sheets (`-- plan tangled`, `-- run growth`, `-- instructions`,
//! `-- floor`).
//!
//! Both are release builds and get the same sheets and the same buffers, just
//! long enough, which both clear; Follow gets the plan. Rounds of the library
//! and of the reference take turns; after some to warm up the shortest counts,
//! since whatever else the machine does can only add to a round. Several passes
//! through all sheets give each its share of quiet moments. One sheet taken
//! again and again is soon known by heart to the processor; several in turn are
//! not.
//!
//! Sheets of halves come under both first lines, and everyday orders under the one
//! whose halves go to even too: what the tie rule costs, and what line one does.
//!
//! Built with `LINDYPO_EARLIER` set to the archive of an earlier library, it
//! times that one too, in the same turns, on sheets of which it answers the same:
//! the last column is our time to its.
//!
//! Retouch is measured on lists of pairs, and beside as many Runs as there are pairs.
//!
//! The floor is one pass over the bytes that judges nothing. Read and Run on everyday
//! orders are given as multiples of its time, too, taken in the same turns.

#![deny(unsafe_code)]

mod calls;
mod earlier;
mod floor;
mod instructions;
mod measure;
mod workloads;

use std::env;
use std::process::ExitCode;

use calls::{Call, Side};
use instructions::CALLS_ONLY;
use measure::{measure, Times, ROUNDS};
use workloads::{floored, growths, retouched, workloads, Growth, Workload, BAR};

/// Passes through all sheets; fewer where only the growth is wanted.
const PASSES: usize = 12;
const GROWTH_PASSES: usize = 4;

/// How much longer than an earlier library ours may take.
const EARLIER_BAR: f64 = 1.05;

/// The calls that are measured by the floor, and how many times its time the library
/// may take on an order of as many lines as a sheet may have.
const FLOOR_BARS: [(Call, f64); 2] = [(Call::Read, 3.0), (Call::Run, 4.5)];

/// The share of as many Runs as there are pairs that Retouch may take beside one Run,
/// on the first list of pairs.
const RUNS_BAR: f64 = 1.0 / 20.0;

/// Width of the names of sheets.
const WIDTH: usize = 30;

/// What the words on the command line choose; none choose all.
struct Choice {
    calls: Vec<Call>,
    words: Vec<String>,
}

impl Choice {
    fn new(words: impl Iterator<Item = String>) -> Self {
        let call_of = |word: &String| Call::named(word);
        let (names, words): (Vec<_>, Vec<_>) = words.partition(|word| call_of(word).is_some());
        let calls = names.iter().filter_map(call_of).collect();
        Choice { calls, words }
    }

    fn has_call(&self, call: Call) -> bool {
        self.calls.is_empty() || self.calls.contains(&call)
    }

    fn has_sheet(&self, name: &str) -> bool {
        let is_part = |word: &String| name.to_lowercase().contains(&word.to_lowercase());
        self.words.is_empty() || self.words.iter().any(is_part)
    }
}

fn main() -> ExitCode {
    let words: Vec<String> = env::args().skip(1).collect();
    match words.split_first() {
        Some((word, rest)) if word == CALLS_ONLY => {
            let made = instructions::make_calls(rest);
            made.map_or(ExitCode::FAILURE, |()| ExitCode::SUCCESS)
        }
        _ => measure_all(&Choice::new(words.into_iter())),
    }
}

fn measure_all(choice: &Choice) -> ExitCode {
    let (workloads, growths) = (workloads(), growths());
    let mut measured = 0;
    for call in Call::ALL.into_iter().filter(|&call| choice.has_call(call)) {
        measured += compare(call, choice, &workloads);
        measured += grow(call, choice, &growths);
        measured += count(call, choice);
        measured += compare_floor(call, choice);
        measured += compare_runs(call, choice);
    }
    if measured > 0 {
        return ExitCode::SUCCESS;
    }
    eprintln!("nothing of that name; the sheets are:");
    for workload in &workloads {
        eprintln!("{}", workload.name);
    }
    ExitCode::FAILURE
}

/// Prints the times of a call on every workload chosen; says how many.
fn compare(call: Call, choice: &Choice, workloads: &[Workload]) -> usize {
    let is_chosen = |work: &&Workload| work.calls.contains(&call) && choice.has_sheet(&work.name);
    let workloads: Vec<&Workload> = workloads.iter().filter(is_chosen).collect();
    if workloads.is_empty() {
        return 0;
    }
    let (name, rounds) = (call.name(), PASSES * ROUNDS);
    println!("{name}, microseconds a call: the shortest of {rounds} rounds\n");
    println!(
        "{:<WIDTH$} {:>6} {:>7} {:>9} {:>10} {:>6}{}",
        "sheet",
        "lines",
        "bytes",
        "library",
        "reference",
        "ratio",
        earlier_columns(call)
    );
    let times = measure(call, &workloads, &Side::WORKING, PASSES);
    for (workload, times) in workloads.iter().zip(&times) {
        print(workload, times);
    }
    println!("\n{name}: {}", within_bars(&workloads, &times));
    compare_earlier(&name, &times);
    println!();
    workloads.len()
}

/// How many of those that have a bar are within it, and how many have none.
fn within_bars(workloads: &[&Workload], times: &[Times]) -> String {
    let (mut barred, mut within) = (0, 0);
    for (workload, times) in workloads.iter().zip(times) {
        if let Some(bar) = workload.bar {
            barred += 1;
            let ratio = times.ratio(Side::Library, Side::Reference);
            within += usize::from(ratio.is_some_and(|ratio| ratio <= bar));
        }
    }
    let said = format!("{within} of {barred} within the bar of {BAR}");
    match workloads.len() - barred {
        0 => said,
        others => format!("{said}; {others} more without a bar"),
    }
}

/// The headings of an earlier library's columns, where one is linked.
fn earlier_columns(call: Call) -> &'static str {
    match call.function(Side::Earlier) {
        Some(_) => "   earlier  ratio",
        None => "",
    }
}

fn compare_earlier(name: &str, times: &[Times]) {
    let to_earlier = |times: &Times| times.ratio(Side::Library, Side::Earlier);
    let ratios: Vec<f64> = times.iter().filter_map(to_earlier).collect();
    if let Some(most) = ratios.iter().copied().reduce(f64::max) {
        let within = ratios.iter().filter(|&&ratio| ratio <= EARLIER_BAR).count();
        println!(
            "{name}: {within} of {} within {EARLIER_BAR} of the earlier library, at most {most:.2}",
            ratios.len()
        );
    }
}

fn print(workload: &Workload, times: &Times) {
    let to = |side| times.ratio(Side::Library, side);
    let micros = |side| 1e6 * times.of(side);
    let earlier = to(Side::Earlier).map_or(String::new(), |ratio| {
        format!(" {:>9.2} {ratio:>6.2}", micros(Side::Earlier))
    });
    println!(
        "{:<WIDTH$} {:>6} {:>7} {:>9.2} {:>10.2} {:>6.2}{earlier}{}",
        workload.name,
        workload.lines(),
        workload.bytes(),
        micros(Side::Library),
        micros(Side::Reference),
        to(Side::Reference).unwrap_or(f64::NAN),
        workload.bar.map_or("  no bar", |_| "")
    );
}

/// Prints what Read or Run takes of the floor's time, where that is chosen; says how
/// many.
fn compare_floor(call: Call, choice: &Choice) -> usize {
    let bar = FLOOR_BARS.into_iter().find(|&(barred, _)| barred == call);
    let Some((_, bar)) = bar.filter(|_| choice.has_sheet("floor")) else {
        return 0;
    };
    let name = call.name();
    println!("{name}, multiples of the floor, which is in microseconds a call\n");
    let sides = [Side::Floor, Side::Library, Side::Reference, Side::Earlier];
    let sides = sides
        .into_iter()
        .filter(|&side| call.function(side).is_some());
    print!("{:<WIDTH$} {:>6} {:>7}", "sheet", "lines", "bytes");
    sides.for_each(|side| print!(" {:>10}", side.name()));
    println!();
    let workloads = floored();
    let sheets: Vec<&Workload> = workloads.iter().collect();
    let times = measure(call, &sheets, &Side::ALL, PASSES);
    for (workload, times) in workloads.iter().zip(&times) {
        print_floor(workload, times);
    }
    let longest = times.last();
    let ratio = longest.and_then(|times| times.ratio(Side::Library, Side::Floor));
    let is_within = ratio.is_some_and(|ratio| ratio <= bar);
    let said = if is_within { "within" } else { "above" };
    println!("\n{name}: {said} the bar of {bar} times the floor on the longest\n");
    workloads.len()
}

/// The floor's microseconds, and the others' times as multiples of that.
fn print_floor(workload: &Workload, times: &Times) {
    print!(
        "{:<WIDTH$} {:>6} {:>7} {:>10.2}",
        workload.name,
        workload.lines(),
        workload.bytes(),
        1e6 * times.of(Side::Floor)
    );
    let multiples = Side::WORKING.map(|side| times.ratio(side, Side::Floor));
    for multiple in multiples.into_iter().flatten() {
        print!(" {multiple:>10.2}");
    }
    println!();
}

/// Prints what Retouch takes beside as many Runs as there are pairs, where that is
/// chosen; says how many.
fn compare_runs(call: Call, choice: &Choice) -> usize {
    if call != Call::Retouch || !choice.has_sheet("runs") {
        return 0;
    }
    println!("Retouch beside a Run for each pair, microseconds; the share is without one Run\n");
    println!(
        "{:<WIDTH$} {:>6} {:>7} {:>9} {:>9} {:>11} {:>7}",
        "sheet", "lines", "pairs", "Retouch", "a Run", "the Runs", "share"
    );
    let workloads = retouched();
    let sheets: Vec<&Workload> = workloads.iter().collect();
    let [touched, run] = [Call::Retouch, Call::Run].map(|call| {
        let times = measure(call, &sheets, &[Side::Library], PASSES);
        times.into_iter().map(|times| times.of(Side::Library))
    });
    let mut shares = Vec::new();
    for ((workload, touched), run) in workloads.iter().zip(touched).zip(run) {
        let runs = run * workload.pairs() as f64;
        shares.push((touched - run) / runs);
        println!(
            "{:<WIDTH$} {:>6} {:>7} {:>9.2} {:>9.2} {:>11.2} {:>7.4}",
            workload.name,
            workload.lines(),
            workload.pairs(),
            1e6 * touched,
            1e6 * run,
            1e6 * runs,
            (touched - run) / runs
        );
    }
    let said = if shares[0] <= RUNS_BAR {
        "within"
    } else {
        "above"
    };
    println!("\nRetouch: {said} the bar of {RUNS_BAR} of the Runs on the first\n");
    workloads.len()
}

/// Prints how the time of a call grows with the lines, for every shape chosen;
/// says how many. 1 is in proportion, 2 with their square.
fn grow(call: Call, choice: &Choice, growths: &[Growth]) -> usize {
    let is_chosen = |growth: &&Growth| {
        growth.calls.contains(&call) && choice.has_sheet(&format!("growth of {}", growth.name))
    };
    let growths: Vec<&Growth> = growths.iter().filter(is_chosen).collect();
    if growths.is_empty() {
        return 0;
    }
    println!(
        "{:<WIDTH$} {:>14} {:>9} {:>10}",
        format!("{}, exponent of growth", call.name()),
        "lines",
        "library",
        "reference"
    );
    for growth in &growths {
        let sizes: Vec<&Workload> = growth.sizes.iter().collect();
        let times = measure(call, &sizes, &Side::BOTH, GROWTH_PASSES);
        print_growth(growth, &times);
    }
    println!();
    growths.len()
}

/// Prints the instructions of a call, where they are chosen; says how many.
fn count(call: Call, choice: &Choice) -> usize {
    if !choice.has_sheet("instructions") {
        return 0;
    }
    println!(
        "{:<WIDTH$} {:>6} {:>7} {:>9} {:>10} {:>6}",
        format!("{}, instructions", call.name()),
        "lines",
        "bytes",
        "library",
        "reference",
        "ratio"
    );
    instructions::print(call, WIDTH);
    println!();
    1
}

fn print_growth(growth: &Growth, times: &[Times]) {
    let [small, large] = growth.sizes.each_ref().map(Workload::lines);
    let more = large as f64 / small as f64;
    let exponent = |side| (times[1].of(side) / times[0].of(side)).ln() / more.ln();
    println!(
        "{:<WIDTH$} {:>14} {:>9.2} {:>10.2}",
        growth.name,
        format!("{small} to {large}"),
        exponent(Side::Library),
        exponent(Side::Reference)
    );
}
