//! Reads a journal from standard input and writes its lines to standard output.

#![forbid(unsafe_code)]
#![deny(warnings)]

use std::io::{stdin, stdout};
use std::process::ExitCode;

fn main() -> ExitCode {
    match twin::replay(stdin().lock(), stdout().lock()) {
        Ok(()) => ExitCode::SUCCESS,
        Err(error) => {
            eprintln!("twin-replay: {error}");
            ExitCode::FAILURE
        }
    }
}
