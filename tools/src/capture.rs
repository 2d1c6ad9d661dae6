//! `capture`: plays a journal and writes each exchange of frames as packets that Wireshark opens. What they hold is said in `packets`.

use crate::command::{self, Ended, Journal, Output};
use crate::journal::Record;
use crate::packets::{self, Answered};
use crate::played::{Answer, Played};
use crate::words::counted;
use std::ffi::OsString;

/// What was played. A merged call that was done is two exchanges.
#[derive(Default)]
struct Tally {
    cycles: u64,
    returns: u64,
    exchanges: u64,
    refused: u64,
}

/// The command, given a journal; the capture is standard output, and what was played is told on standard error.
pub fn run(arguments: &[OsString]) -> Result<Ended, String> {
    let [journal] = arguments else { return Err("takes a journal".to_string()) };
    let journal = Journal::open(journal)?;
    let name = journal.name.clone();
    let (mut output, mut tally) = (Output::new(), Tally::default());
    output.bytes(&packets::head())?;
    let length = command::play(journal, &mut output, |_, played, output| {
        let exchanges = exchanges(played);
        tally.count(&played.record, &exchanges);
        output.bytes(&packets::of(&exchanges))
    })?;
    output.flush()?;
    command::say(format_args!("{tally}\n"));
    Ok(length.ended(&name))
}

/// The exchanges that a record was, none where it has no frame.
fn exchanges(played: &Played) -> Vec<Answered> {
    let (Record::Frame(farm, sending, frame), Answer::Framed(framed)) = (&played.record, &played.answer) else {
        return Vec::new();
    };
    let (number, stored, reply) = (framed.number, framed.stored, framed.reply.clone());
    Answered { record: played.place, farm: *farm, frame: frame.clone(), number, stored, reply }.by(*sending)
}

impl Tally {
    fn count(&mut self, record: &Record, exchanges: &[Answered]) {
        self.cycles += u64::from(matches!(record, Record::Cycle(..)));
        self.returns += u64::from(matches!(record, Record::GoBack(..)));
        self.exchanges += exchanges.len() as u64;
        self.refused += exchanges.iter().filter(|answered| answered.number != 0).count() as u64;
    }
}

impl std::fmt::Display for Tally {
    fn fmt(&self, f: &mut std::fmt::Formatter) -> std::fmt::Result {
        let Tally { cycles, returns, exchanges, refused } = *self;
        let returns = if returns == 1 { "1 going back".to_string() } else { format!("{returns} goings back") };
        let (packets, exchanges) = (counted(2 * exchanges, "packet"), counted(exchanges, "exchange"));
        write!(f, "{packets}, {exchanges} ({refused} refused); {} and {returns} left out", counted(cycles, "cycle"))
    }
}
