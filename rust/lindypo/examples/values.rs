//! Runs the sheet in a file and prints its values in the order of the plan.

use std::process::ExitCode;

use lindypo::{Refusal, Sheet};

fn main() -> ExitCode {
    let Some(path) = std::env::args().nth(1) else {
        eprintln!("the file of a sheet, please");
        return ExitCode::from(2);
    };
    let text = std::fs::read(path).expect("a file that can be read");
    match print_values(&text) {
        Ok(()) => ExitCode::SUCCESS,
        Err(refusal) => {
            println!("{refusal}");
            ExitCode::FAILURE
        }
    }
}

fn print_values(text: &[u8]) -> Result<(), Refusal> {
    let sheet = Sheet::read(text)?;
    let run = sheet.run()?;
    println!("{} values, {}", run.plan.labels.len(), run.plan.order);
    for (label, outcome) in run.values() {
        let name = sheet.full_name(label);
        println!("{name}: {} in {} steps", outcome.state, outcome.steps);
    }
    Ok(())
}
