//! The rows of a journal: programs that play it, ours and the twin's, by what a record costs them. Plain C has none.

use crate::outside::Started;
use crate::table::{least, line, Costs};
use std::error::Error;
use std::fs::File;
use std::io;
use twin::{Journal, Next};

/// Runs of each program; the best of them counts.
const ROUNDS: usize = 40;
/// No record: what is left is the start of the program, which is taken off.
const EMPTY: &str = "/dev/null";

/// What is done with a journal, and the two programs that do it.
pub struct Job<'a> {
    pub done: &'a str,
    pub ours: &'a str,
    pub twin: &'a str,
}

/// Measures both programs on one journal and prints the line.
pub fn measure(emulator: &str, counter: &str, journal: &str, job: &Job) -> Result<(), Box<dyn Error>> {
    let both = |by: &str| [Started::new(by, job.ours, &["-"]), Started::new(by, job.twin, &[])];
    let [ours, twin] = both(emulator);
    if ours.output(journal)? != twin.output(journal)? {
        return Err(format!("{} and {} differ", job.ours, job.twin).into());
    }
    let records = records(journal)? as f64;
    let times = timed(&ours, &twin, journal)?.map(|time| time / records);
    let counts = counted(&both(counter), journal)?.map(|count| count / records);
    line(&format!("journal of {records} records, {}", job.done), row(times), row(counts));
    Ok(())
}

/// Whole records of a journal.
fn records(journal: &str) -> io::Result<usize> {
    let mut journal = Journal::new(File::open(journal)?);
    let mut records = 0;
    while let Next::Record(_) = journal.next_record()? {
        records += 1;
    }
    Ok(records)
}

fn row([ours, twin]: [f64; 2]) -> Costs {
    [Some(ours), Some(twin), None]
}

fn timed(ours: &Started, twin: &Started, journal: &str) -> io::Result<[f64; 2]> {
    let mut best = [f64::INFINITY; 4];
    for _ in 0..ROUNDS {
        best = least(best, [ours.time(journal)?, twin.time(journal)?, ours.time(EMPTY)?, twin.time(EMPTY)?]);
    }
    let [ours, twin, ours_start, twin_start] = best;
    Ok([ours - ours_start, twin - twin_start])
}

fn counted([ours, twin]: &[Started; 2], journal: &str) -> io::Result<[f64; 2]> {
    Ok([ours.count(journal)? - ours.count(EMPTY)?, twin.count(journal)? - twin.count(EMPTY)?])
}
