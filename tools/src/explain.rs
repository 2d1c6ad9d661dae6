//! `explain`: plays a journal and tells every record and its answer in words, a line each.

mod cycle;
mod frame;

use crate::command::{self, Ended, Journal, Output};
use crate::face::Returned;
use crate::journal::Record;
use crate::names;
use crate::played::{Answer, Played};
use crate::words::counted;
use cycle::Axis;
use frame::Waiting;
use std::ffi::OsString;
use twin::AXES;

/// The command, given a journal.
pub fn run(arguments: &[OsString]) -> Result<Ended, String> {
    let [journal] = arguments else { return Err("takes a journal".to_string()) };
    let journal = Journal::open(journal)?;
    let name = journal.name.clone();
    let (mut output, mut station) = (Output::new(), Station::fresh());
    let length = command::play(journal, &mut output, |_, played, output| {
        output.line(format_args!("record {}: {}", played.place, station.told(played)))
    })?;
    output.flush()?;
    Ok(length.ended(&name))
}

/// What is remembered of a farm from one record to the next.
#[derive(Clone, Default)]
struct Farm {
    axis: Axis,
    waiting: Waiting,
}

/// The farms of a station; the last stands in for all that there are not, of which every call is refused.
struct Station(Vec<Farm>);

impl Station {
    fn fresh() -> Station {
        Station(vec![Farm::default(); AXES + 1])
    }

    fn farm(&mut self, number: u8) -> &mut Farm {
        &mut self.0[usize::from(number).wrapping_sub(1).min(AXES)]
    }

    /// A record and its answer in words.
    fn told(&mut self, played: &Played) -> String {
        let farm = self.farm(played.record.owner());
        match (&played.record, &played.answer) {
            (Record::Cycle(axis, inputs), Answer::Cycled(cycled)) => {
                format!("axis {axis}, {}", farm.axis.told(inputs, cycled))
            }
            (Record::Frame(number, sending, frame), Answer::Framed(framed)) => {
                format!("farm {number} {}", farm.waiting.told(*sending, frame, framed))
            }
            (Record::GoBack(number, version), Answer::Returned(returned)) => {
                format!("farm {number} goes back to version {version} -> {}", returned_told(returned))
            }
            _ => "an answer of another kind".to_string(),
        }
    }
}

fn returned_told(returned: &Returned) -> String {
    let Returned { stored, version, number } = *returned;
    match number {
        0 => format!("{} stored as version {version}", counted(stored, "element")),
        _ => refused(number, false),
    }
}

fn refused(number: u8, reads: bool) -> String {
    format!("refused: {} ({number})", names::refusal(number, reads))
}

#[cfg(test)]
mod tests {
    use super::*;
    use crate::played::made_up::going_back;

    /// The lines of records and their answers on one station.
    pub(super) fn told(records: Vec<Played>) -> Vec<String> {
        let mut station = Station::fresh();
        records.iter().map(|played| station.told(played)).collect()
    }

    #[test]
    fn goings_back() {
        let lines = told(vec![going_back(1, 2, (0, 18, 5)), going_back(1, 9, (14, 0, 0)), going_back(0, 9, (1, 0, 0))]);
        assert_eq!(
            lines,
            [
                "farm 1 goes back to version 2 -> 18 elements stored as version 5",
                "farm 1 goes back to version 9 -> refused: version is not kept (14)",
                "farm 0 goes back to version 9 -> refused: no such farm or axis (1)",
            ]
        );
    }
}
