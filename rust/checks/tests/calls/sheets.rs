//! The sample sheets: what the calls make of them, and the program's print.

use std::fs;
use std::path::Path;

use generator::planned;
use lindypo::raw::Refusal;
use lindypo::Order;

use crate::{agree, example, is_sheet, sheet_files, Buffers};

/// The row that is not Read's: a sheet that it refuses reads.
const CYCLE: u64 = 16;

/// The refusal that a sheet's print has, 0 where it has none.
fn refusal_in_print(sheet: &Path) -> u64 {
    let print = fs::read_to_string(sheet.with_extension("print")).expect("its print");
    match print.strip_prefix("refusal place\n") {
        Some(numbers) => {
            let number = numbers.split(' ').next().expect("a number");
            number.parse().expect("a number")
        }
        None => 0,
    }
}

#[test]
fn every_file_of_the_sheets() {
    let files = sheet_files();
    assert!(files.len() > 30);
    for path in files {
        let text = fs::read(&path).expect("a file");
        let outcome = agree(&text);
        let refusal = if is_sheet(&path) {
            refusal_in_print(&path)
        } else {
            1
        };
        let plans = refusal == 0;
        let reads = plans || refusal == CYCLE;
        let name = path.file_name();
        assert_eq!(outcome.read.refusal == 0, reads, "{name:?}");
        for reply in [outcome.plan, outcome.run, outcome.follow] {
            assert_eq!(reply.refusal == 0, plans, "{name:?}");
        }
    }
}

/// What the program has to print, from Run's answer.
pub fn print_of_run(text: &[u8]) -> String {
    let Buffers {
        mut table,
        mut plan,
        mut results,
    } = Buffers::new(text);
    match lindypo::raw::run(text, &mut table, &mut plan, &mut results) {
        Ok((length, order)) => {
            let order = match order {
                Order::Whole => "whole",
                Order::Mixed => "mixed",
            };
            let line = |&label: &i64| {
                let at = label as usize - 1;
                let [start, length] = [1, 2].map(|cell| table[8 * at + cell] as usize);
                let name = String::from_utf8_lossy(&text[start..][..length]);
                let [state, number, steps] = [0, 1, 2].map(|cell| results[3 * at + cell]);
                format!("{label} {name} {order} {state} {number} {steps}\n")
            };
            let lines: String = plan[..length].iter().map(line).collect();
            format!("label name order state number steps\n{lines}")
        }
        Err(Refusal { number, place }) => format!("refusal place\n{number} {place}\n"),
    }
}

#[test]
fn every_print_of_the_sheets() {
    let paths: Vec<_> = sheet_files().into_iter().filter(|p| is_sheet(p)).collect();
    assert!(paths.len() > 12);
    for path in paths {
        let text = fs::read(&path).expect("a sheet");
        let wanted = fs::read_to_string(path.with_extension("print")).expect("its print");
        assert_eq!(print_of_run(&text), wanted, "{:?}", path.file_name());
    }
}

/// The example's plan and results, as the paper prints them.
#[test]
fn the_example_run() {
    let text = example();
    let mut buffers = Buffers::new(&text);
    let Buffers {
        table,
        plan,
        results,
    } = &mut buffers;
    assert_eq!(
        lindypo::raw::plan(&text, table, plan),
        Ok((3, Order::Whole))
    );
    assert_eq!(plan[..4], [5, 4, 2, 0]);
    let answer = lindypo::raw::run(&text, table, plan, results);
    assert_eq!(answer, Ok((3, Order::Whole)));
    assert_eq!(plan[..4], [5, 4, 2, 0]);
    let wanted = [0, 0, 0, 1, -28, 3, 0, 0, 0, 1, -33, 5, 1, -325, 1, 0];
    assert_eq!(results[..16], wanted);
    assert_eq!(results[16..], [0; 26]);
    let of_run = results.clone();
    results.fill(-1);
    assert_eq!(
        lindypo::raw::follow(&text, &[5, 4, 2], table, results),
        Ok(3)
    );
    assert_eq!(*results, of_run);
    assert_eq!(planned(&text), [5, 4, 2]);
}
