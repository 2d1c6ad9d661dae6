//! Reads a journal from standard input and writes its season report to standard output.

#![forbid(unsafe_code)]
#![deny(warnings)]

use std::io::{stdin, stdout};
use std::process::ExitCode;

fn main() -> ExitCode {
    match twin::report(stdin().lock(), stdout().lock()) {
        Ok(()) => ExitCode::SUCCESS,
        Err(error) => {
            eprintln!("twin-report: {error}");
            ExitCode::FAILURE
        }
    }
}
