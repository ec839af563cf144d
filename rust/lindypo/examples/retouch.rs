//! Puts new numbers into the sheet in a file and prints the values that change:
//! `retouch SHEET right.sphere=-400 8=7`.

use std::process::ExitCode;

use lindypo::{typed_number, Label, Refusal, Sheet};

fn main() -> ExitCode {
    let mut words = std::env::args().skip(1);
    let Some(path) = words.next() else {
        eprintln!("the file of a sheet and pairs NAME=NUMBER, please");
        return ExitCode::from(2);
    };
    let text = std::fs::read(path).expect("a file that can be read");
    match print_changes(&text, &words.collect::<Vec<_>>()) {
        Ok(()) => ExitCode::SUCCESS,
        Err(refusal) => {
            println!("{refusal}");
            for help in refusal.help() {
                println!("help: {}", help.sentence);
            }
            ExitCode::FAILURE
        }
    }
}

fn print_changes(text: &[u8], words: &[String]) -> Result<(), Refusal> {
    let sheet = Sheet::read(text)?;
    let pairs: Vec<(Label, i64)> = words.iter().map(|word| pair(&sheet, word)).collect();
    let (run, retouched) = (sheet.run()?, sheet.retouch(&pairs)?);
    for (word, change) in words.iter().zip(&retouched.changes) {
        println!(
            "{word}: {} evaluated again, {} fail",
            change.redone, change.failing
        );
    }
    for ((label, before), (_, after)) in run.values().zip(retouched.run.values()) {
        if before.state != after.state {
            let name = sheet.full_name(label);
            println!("{name}: {}, now {}", before.state, after.state);
        }
    }
    Ok(())
}

/// The N line that a value is, or the one with a label, and its new number. What is
/// neither is for `retouch` to refuse.
fn pair(sheet: &Sheet, word: &str) -> (Label, i64) {
    let (name, number) = word.split_once('=').expect("NAME=NUMBER");
    let label = sheet.find_number(name).or_else(|| sheet.find(name));
    let label = label.or_else(|| name.parse().ok());
    (label.unwrap_or(0), typed_number(number).expect("a number"))
}
