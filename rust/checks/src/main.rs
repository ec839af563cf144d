//! `cargo run --release -p checks -- SEED COUNT`: as many random trials as
//! wanted. Status 1 and the seed where the library and the reference differ,
//! and where many trials have not met every refusal, state and order, names in
//! other letters than those that they are the same as, names that are nearly the
//! same, every sort of tangle, all that lists of pairs bring about, and both first
//! lines with halves on which their tie rules part.

use std::env;
use std::process::ExitCode;

const USAGE: &str = "two numbers, please: the first seed and the count";

fn main() -> ExitCode {
    match run() {
        Ok(tally) => {
            println!("{tally}");
            ExitCode::SUCCESS
        }
        Err(message) => {
            eprintln!("{message}");
            ExitCode::FAILURE
        }
    }
}

fn run() -> Result<checks::Tally, String> {
    let words: Vec<String> = env::args().skip(1).collect();
    let [seed, count] = &words[..] else {
        return Err(USAGE.to_string());
    };
    let tally = checks::check_seeds(number(seed)?, number(count)?)?;
    match tally.is_complete() {
        true => Ok(tally),
        false => Err(format!("not everything was met\n{tally}")),
    }
}

fn number(word: &str) -> Result<u64, String> {
    word.parse().map_err(|_| format!("{word}: {USAGE}"))
}
