//! `lindypo`: see `lindypo --help`.

#![forbid(unsafe_code)]

use std::env;
use std::io::{self, IsTerminal};
use std::process::ExitCode;

fn main() -> ExitCode {
    let has_input = !io::stdin().is_terminal();
    command::words::call(env::args_os().skip(1), has_input).into()
}
