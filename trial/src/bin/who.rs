//! Whether the lines that `who` prints of a journal agree with the library: what they say was stored is what the
//! station then holds.
//!
//! Usage: `who-agrees JOURNAL LINES`; the lines are all that it prints, of every axis.
//!
//! The journal is played on the library by single calls. Each line must be there, in its place, and no other; the first
//! that is not so is told, with what it says and what it is by the library. A journal that does not reach everything
//! proves little, and fails too.

#![forbid(unsafe_code)]
#![deny(warnings)]

use std::env;
use std::ffi::OsStr;
use std::fs::File;
use std::io::{BufRead, BufReader, Read};
use std::path::Path;
use std::process::ExitCode;
use tools::command::trouble;
use tools::face;
use tools::journal::{self, Next, Record};
use trial::who::{Lines, Reached, Witness};

fn main() -> ExitCode {
    let arguments: Vec<_> = env::args_os().skip(1).collect();
    let agreed = match arguments.as_slice() {
        [journal, lines] => run(journal, lines),
        _ => Err("usage: who-agrees JOURNAL LINES".to_string()),
    };
    match agreed {
        Ok(line) => {
            println!("{line}");
            ExitCode::SUCCESS
        }
        Err(why) => {
            eprintln!("who-agrees: {why}");
            ExitCode::FAILURE
        }
    }
}

fn run(journal: &OsStr, lines: &OsStr) -> Result<String, String> {
    let (journal, name) = open(journal)?;
    let (lines, _) = open(lines)?;
    face::start()?;
    judge(journal, &name, Lines::of(lines))
}

fn open(typed: &OsStr) -> Result<(BufReader<File>, String), String> {
    let name = Path::new(typed).display().to_string();
    let file = File::open(typed).map_err(trouble(&name))?;
    Ok((BufReader::new(file), name))
}

/// Holds the lines against the journal of this name.
fn judge(mut journal: impl Read, name: &str, mut lines: Lines<impl BufRead>) -> Result<String, String> {
    let (mut witness, mut reached) = (Witness::fresh(), Reached::default());
    while let Some(record) = next(&mut journal, name, witness.records() + 1)? {
        let due = witness.play(&record)?;
        lines.take(&due)?;
        reached.count(&record, &due);
    }
    witness.look_at_all()?;
    lines.take_last(&reached.last_line(witness.records()))?;
    let missing = reached.missing();
    if !missing.is_empty() {
        return Err(format!("the lines agree, but no record of {name} reaches: {}", missing.join(", ")));
    }
    let Reached { set, not, .. } = reached;
    Ok(format!("who: {} records, {set} set and {not} not, all as the library holds", witness.records()))
}

/// The next record, which is this one; none at the end.
fn next(journal: &mut impl Read, name: &str, place: u64) -> Result<Option<Record>, String> {
    match journal::next(journal).map_err(trouble(name))? {
        Next::Record(record) => Ok(Some(record)),
        Next::Bad => Err(format!("{name}: record {place} is bad")),
        Next::End => Ok(None),
    }
}
