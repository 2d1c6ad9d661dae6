//! `versions`: plays a journal and lists what is then kept of a farm's settings. The list is made in `history`.

use crate::command::{self, Ended, Journal, Output};
use crate::history::History;
use std::ffi::{OsStr, OsString};
use twin::AXES;

/// The command, given a journal and a farm.
pub fn run(arguments: &[OsString]) -> Result<Ended, String> {
    let [journal, farm] = arguments else { return Err("takes a journal and a farm, 1 to 16".to_string()) };
    let mut history = History::new(farm_of(farm)?);
    let journal = Journal::open(journal)?;
    let name = journal.name.clone();
    let mut output = Output::new();
    let length = command::play(journal, &mut output, |_, played, _| {
        history.add(played);
        Ok(())
    })?;
    for line in history.lines(&name, length) {
        output.line(line)?;
    }
    output.flush()?;
    Ok(length.ended(&name))
}

/// The farm that an argument is.
fn farm_of(typed: &OsStr) -> Result<u8, String> {
    let farm = typed.to_str().and_then(|typed| typed.parse().ok());
    farm.filter(|farm| (1..=AXES as u8).contains(farm))
        .ok_or_else(|| format!("there is no farm '{}': they are 1 to {AXES}", typed.to_string_lossy()))
}
