//! The picture of a sheet with new numbers, changed values marked.

use std::ffi::OsStr;

use lindypo::Sheet;

use super::pairs::{self, Pair};
use super::with_numbers;
use crate::document;
use crate::input::Source;
use crate::options::Call;
use crate::output::Output;
use crate::picture::{self, Subject};
use crate::status::Status;

/// The caption of a sheet from a file, or from standard input.
fn caption(file_name: &str) -> String {
    match file_name {
        "" => "retouched".to_string(),
        name => format!("{name}, retouched"),
    }
}

pub fn draw(file: &OsStr, call: &Call, out: &mut Output, pairs: &[Pair]) -> Result<Status, String> {
    picture::draw(file, call, out, &|text: &[u8], source: &Source| {
        let refused = |refusal| document::refused(text, source, &refusal);
        let sheet = Sheet::read(text).map_err(refused)?;
        let stages = pairs::staged(&sheet, pairs).map_err(refused)?;
        Ok(Subject {
            text: with_numbers(&sheet, &stages)?,
            caption: caption(&source.file_name()),
            before: stages.before(),
        })
    })
}
