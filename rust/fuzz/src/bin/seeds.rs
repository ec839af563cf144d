//! `seeds FOLDER FILE...`: writes inputs to begin with to a folder: the sheets of
//! the files, the shapes of the speed figures, an everyday order under each first
//! line that is allowed or taken for one, and sheets of the generator.

use std::path::Path;
use std::process::ExitCode;
use std::{env, fs, io};

use fuzz::Settings;
use generator::{Rng, FIRST_LINES, WRONG_LINES};

/// How many sheets of the generator.
const SHEETS: u64 = 400;

fn main() -> ExitCode {
    let words: Vec<String> = env::args().skip(1).collect();
    let Some((folder, files)) = words.split_first() else {
        eprintln!("a folder and the files of sheets, please");
        return ExitCode::from(2);
    };
    match write_all(Path::new(folder), files) {
        Ok(()) => ExitCode::SUCCESS,
        Err(error) => {
            eprintln!("{error}");
            ExitCode::FAILURE
        }
    }
}

fn write_all(folder: &Path, files: &[String]) -> io::Result<()> {
    let plain = Settings::default();
    for (at, file) in files.iter().enumerate() {
        write(folder, &format!("sheet-{at:03}"), plain, &fs::read(file)?)?;
    }
    for (at, shape) in generator::shapes().iter().enumerate() {
        write(folder, &format!("shape-{at:03}"), plain, &shape.text)?;
    }
    let everyday = generator::everyday(60, 1);
    let lines = FIRST_LINES.iter().chain(&WRONG_LINES);
    for (at, line) in lines.enumerate() {
        let text = generator::under(line, &everyday);
        write(folder, &format!("line-{at:03}"), plain, &text)?;
    }
    for seed in 0..SHEETS {
        let rng = &mut Rng::new(seed);
        let text = generator::any_sheet(rng);
        let settings = Settings::random(rng);
        write(folder, &format!("random-{seed:03}"), settings, &text)?;
    }
    Ok(())
}

fn write(folder: &Path, name: &str, settings: Settings, text: &[u8]) -> io::Result<()> {
    fs::write(folder.join(name), [&settings.to_bytes(), text].concat())
}
