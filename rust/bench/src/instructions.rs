//! Instructions a call, counted by callgrind: the same for the same build
//! wherever and whenever they are counted, so that figures can be repeated.
//!
//! This program runs itself under valgrind, once with one call and once with
//! several; the difference is what the calls between take, and what it takes to
//! start and to make the sheet falls out.

use std::env;
use std::process::Command;

use crate::calls::{Call, Side};
use crate::measure::Job;
use crate::workloads::counted;

/// The word that has this program make calls and print nothing.
pub const CALLS_ONLY: &str = "--calls-only";

/// The calls of the longer of the two runs.
const CALLS: u64 = 11;

/// What stands after `CALLS_ONLY`: call, side, sheet and count.
pub fn make_calls(words: &[String]) -> Option<()> {
    let [call, side, sheet, count] = words else {
        return None;
    };
    let call = Call::named(call)?;
    let side = Side::BOTH.into_iter().find(|each| each.name() == side)?;
    let workload = &counted(call)[sheet.parse::<usize>().ok()?];
    let mut job = Job::new(call, workload);
    let function = call.function(side)?;
    for _ in 0..count.parse::<u64>().ok()? {
        job.go_through(function);
    }
    Some(())
}

/// Prints a call's instructions on the sheets that are counted.
pub fn print(call: Call, width: usize) {
    for (sheet, workload) in counted(call).iter().enumerate() {
        let [library, reference] = Side::BOTH.map(|side| count(call, side, sheet));
        let (Some(library), Some(reference)) = (library, reference) else {
            println!("valgrind is not there, or not callgrind: no instructions counted");
            return;
        };
        println!(
            "{:<width$} {:>6} {:>7} {library:>9} {reference:>10} {:>6.2}",
            workload.name,
            workload.lines(),
            workload.bytes(),
            library as f64 / reference as f64
        );
    }
}

/// Instructions of one call.
fn count(call: Call, side: Side, sheet: usize) -> Option<u64> {
    let [few, many] = [1, CALLS].map(|count| collected(call, side, sheet, count));
    Some((many? - few?) / (CALLS - 1))
}

/// Instructions of a whole process with as many calls.
fn collected(call: Call, side: Side, sheet: usize, count: u64) -> Option<u64> {
    let program = env::current_exe().ok()?;
    let output = Command::new("valgrind")
        .args(["--tool=callgrind", "--callgrind-out-file=/dev/null"])
        .arg(program)
        .args([CALLS_ONLY, &call.name(), side.name()])
        .args([sheet.to_string(), count.to_string()])
        .output()
        .ok()?;
    let report = String::from_utf8_lossy(&output.stderr);
    let line = report.lines().find(|line| line.contains("Collected"))?;
    line.split_whitespace().last()?.parse().ok()
}
