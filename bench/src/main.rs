//! What a call costs: the proved library, its twin and plain C on the same inputs in the same run, as a table.
//!
//! Before a row is timed, the three must give the same answers. Then they take turns, batch by batch, and the best of their
//! rounds counts. `bench/run` builds and starts this:
//!
//!     bench EMULATOR COUNTER JOURNAL REPLAY TWIN-REPLAY REPORT TWIN-REPORT
//!
//! The first two are the words that start a program of this processor, as it is (there may be none) and with its instructions
//! counted. The last four are programs that play the file JOURNAL, two for its lines and two for its season report.
//! `bench pass ROW SIDE PASSES` makes one side's calls of a row, to be counted.
//!
//! It fails where a row of ours takes more instructions than plain C's, and where our merged call takes more than our write and our
//! fetch of the same request.

#![deny(warnings)]

mod calls;
mod journal;
mod measure;
mod outside;
mod rows;
mod sides;
mod table;

use journal::Job;
use std::error::Error;
use std::process::ExitCode;

fn main() -> ExitCode {
    let arguments: Vec<String> = std::env::args().skip(1).collect();
    let words: Vec<&str> = arguments.iter().map(String::as_str).collect();
    let done = match words[..] {
        ["pass", row, side, passes] => calls::pass(row, side, passes),
        [emulator, counter, journal, replay, twin_replay, report, twin_report] => {
            let replay = Job { done: "replayed", ours: replay, twin: twin_replay };
            let report = Job { done: "reported", ours: report, twin: twin_report };
            bench(emulator, counter, journal, &[replay, report])
        }
        _ => Err("usage: bench EMULATOR COUNTER JOURNAL REPLAY TWIN-REPLAY REPORT TWIN-REPORT".into()),
    };
    match done {
        Ok(()) => ExitCode::SUCCESS,
        Err(why) => {
            eprintln!("bench: {why}");
            ExitCode::FAILURE
        }
    }
}

fn bench(emulator: &str, counter: &str, journal: &str, jobs: &[Job]) -> Result<(), Box<dyn Error>> {
    println!(
        "A cycle, a write and its fetch, a merged call, a frame, a list, a going back, a check, a record: the best of many rounds, \
         the sides taking turns."
    );
    if !emulator.is_empty() {
        println!("UNDER AN EMULATOR ({emulator}): the times are its own, and only their ratios speak.");
    }
    table::head();
    let merging = calls::measure(counter)?;
    jobs.iter().try_for_each(|job| journal::measure(emulator, counter, journal, job))?;
    Ok(merging?)
}
