//! A journal played on the library: each record with its answer, by `host/play`, which says at its top what it tells.

use crate::command::Journal;
use crate::face::{Cycled, Returned};
use crate::hex;
use crate::host;
use crate::journal::{self, Record};
use crate::layout::HEADER;
use crate::settings;
use std::io::{self, BufRead, BufReader, ErrorKind, Read};
use std::process::{Child, ChildStdout};

/// A record, and what came of it.
#[derive(Clone, Debug)]
pub struct Played {
    /// Its place in the journal, from 1.
    pub place: u64,
    /// The record.
    pub record: Record,
    /// What it was answered.
    pub answer: Answer,
    /// How it left its farm's settings, where it stored something.
    pub after: Option<After>,
}

/// What a record was answered.
#[derive(Clone, Debug)]
pub enum Answer {
    /// A cycle.
    Cycled(Cycled),
    /// A frame or a merged call.
    Framed(Framed),
    /// A going back.
    Returned(Returned),
}

/// The answer to a frame or to a merged call.
#[derive(Clone, Debug)]
pub struct Framed {
    /// Refusal number, 0 for none.
    pub number: u8,
    /// Elements stored.
    pub stored: u16,
    /// The reply.
    pub reply: Vec<u8>,
    /// The reply that a fetch would get next, after a write by itself; else empty.
    pub waiting: Vec<u8>,
}

/// A farm's settings after something was stored.
#[derive(Clone, Debug)]
pub struct After {
    /// The oldest version that is kept.
    pub oldest: u16,
    /// The last, which this made.
    pub last: u16,
    /// All settings, in the order of `settings::all`.
    pub settings: Vec<i32>,
}

/// What comes next of a journal.
#[derive(Clone, Debug)]
pub enum Next {
    /// A record that was played.
    Played(Played),
    /// Something that is no record: it ends the journal.
    Bad,
    /// The journal ends after a whole record.
    End,
}

/// A journal that is being played.
pub struct Player {
    child: Child,
    told: BufReader<ChildStdout>,
    records: u64,
    /// All settings of a farm of which nothing was stored yet.
    pub fresh: Vec<i32>,
}

const END: u8 = 0;
const BAD: u8 = 0xFF;
const FAILED: u8 = 0xFE;

impl Player {
    /// Begins to play a journal.
    pub fn start(journal: Journal) -> Result<Player, String> {
        let mut command = host::program("play")?;
        let block = hex::digits_of(&settings::request(0).bytes());
        command.arg(block).stdin(journal.stdio);
        let mut child = command.spawn().map_err(|error| host::unstarted(&command, &error))?;
        let told = BufReader::with_capacity(1 << 16, child.stdout.take().expect("piped"));
        let mut player = Player { child, told, records: 0, fresh: Vec::new() };
        player.fresh = player.settings().map_err(|error| format!("{}: {error}", journal.name))?;
        Ok(player)
    }

    /// Whether nothing more is told at the moment, so that what comes next may be waited for.
    pub fn is_caught_up(&self) -> bool {
        self.told.buffer().is_empty()
    }

    /// The next record and what came of it. The error is that of reading the journal.
    pub fn advance(&mut self) -> io::Result<Next> {
        let kind = self.told.fill_buf()?.first().copied();
        match kind {
            Some(END) => Ok(Next::End),
            Some(BAD) => Ok(Next::Bad),
            Some(FAILED) => Err(self.failed()?),
            Some(_) => self.record().map(Next::Played),
            None => Err(ErrorKind::UnexpectedEof.into()),
        }
        .map_err(ended)
    }

    fn failed(&mut self) -> io::Result<io::Error> {
        let [_, number @ ..] = self.bytes::<5>()?;
        Ok(io::Error::from_raw_os_error(i32::from_le_bytes(number)))
    }

    fn record(&mut self) -> io::Result<Played> {
        let journal::Next::Record(record) = journal::next(&mut self.told)? else {
            return Err(ErrorKind::UnexpectedEof.into());
        };
        self.records += 1;
        let (answer, stored) = match &record {
            Record::Cycle(..) => (Answer::Cycled(self.cycled()?), 0),
            Record::Frame(..) => {
                let framed = self.framed()?;
                (Answer::Framed(framed.clone()), framed.stored)
            }
            Record::GoBack(..) => {
                let returned = self.returned()?;
                (Answer::Returned(returned), returned.stored)
            }
        };
        let after = if stored > 0 { Some(self.after()?) } else { None };
        Ok(Played { place: self.records, record, answer, after })
    }

    fn cycled(&mut self) -> io::Result<Cycled> {
        let [a, b, c, d, low, high, state, number] = self.bytes()?;
        Ok(Cycled { rpm: i32::from_le_bytes([a, b, c, d]), status: u16::from_le_bytes([low, high]), state, number })
    }

    fn framed(&mut self) -> io::Result<Framed> {
        let (length, stored, [number]) = (self.word()?, self.word()?, self.bytes()?);
        let reply = self.reply(length)?;
        let waiting = self.word()?;
        Ok(Framed { number, stored, reply, waiting: self.reply(waiting)? })
    }

    fn returned(&mut self) -> io::Result<Returned> {
        let (version, stored, [number]) = (self.word()?, self.word()?, self.bytes()?);
        Ok(Returned { stored, version, number })
    }

    fn after(&mut self) -> io::Result<After> {
        let (oldest, kept) = (self.word()?, self.word()?);
        Ok(After { oldest, last: oldest - 1 + kept, settings: self.settings()? })
    }

    fn settings(&mut self) -> io::Result<Vec<i32>> {
        let length = self.word()?;
        let reply = self.reply(length)?;
        let unanswered = || io::Error::other("the library does not answer a read of all settings");
        reply.get(HEADER..).and_then(settings::values).ok_or_else(unanswered)
    }

    fn word(&mut self) -> io::Result<u16> {
        self.bytes().map(u16::from_le_bytes)
    }

    fn reply(&mut self, length: u16) -> io::Result<Vec<u8>> {
        let mut reply = vec![0; length.into()];
        self.told.read_exact(&mut reply).map(|()| reply)
    }

    fn bytes<const N: usize>(&mut self) -> io::Result<[u8; N]> {
        let mut bytes = [0; N];
        self.told.read_exact(&mut bytes).map(|()| bytes)
    }
}

/// What it means that nothing more is told before the end.
fn ended(error: io::Error) -> io::Error {
    match error.kind() {
        ErrorKind::UnexpectedEof => io::Error::other("the program that plays it ended"),
        _ => error,
    }
}

impl Drop for Player {
    /// Ends a journal that is not played to its end.
    fn drop(&mut self) {
        let _ = self.child.kill();
        let _ = self.child.wait();
    }
}

/// Records with made-up answers, for the tests of what is told of them.
#[cfg(test)]
pub mod made_up {
    use super::*;
    use crate::journal::Inputs;
    use crate::sending::Sending;

    /// All settings of a fresh farm.
    pub const FRESH: [i32; 18] = [0, 0, 0, 0, 0, 0, 0, 0, 0, 1500, 0, 0, 0, 0, 164, 16384, 0, 0];

    /// The fresh settings but for some elements.
    pub fn but(others: &[(usize, i32)]) -> Vec<i32> {
        let mut settings = FRESH.to_vec();
        others.iter().for_each(|(element, value)| settings[*element] = *value);
        settings
    }

    fn played(record: Record, answer: Answer) -> Played {
        Played { place: 7, record, answer, after: None }
    }

    /// A cycle.
    pub fn cycle(axis: u8, inputs: Inputs, cycled: Cycled) -> Played {
        played(Record::Cycle(axis, inputs), Answer::Cycled(cycled))
    }

    /// A frame in hex, with its number, the elements stored and its reply, and the reply that then waits.
    pub fn frame(farm: u8, sending: Sending, frame: &str, answer: (u8, u16, &str), waiting: &str) -> Played {
        let [frame, reply, waiting] = [frame, answer.2, waiting].map(|hex| hex::bytes(hex).unwrap());
        let answer = Answer::Framed(Framed { number: answer.0, stored: answer.1, reply, waiting });
        played(Record::Frame(farm, sending, frame), answer)
    }

    /// A going back, with its number, the elements stored and the new version.
    pub fn going_back(farm: u8, version: u16, (number, stored, new): (u8, u16, u16)) -> Played {
        let answer = Answer::Returned(Returned { stored, version: new, number });
        played(Record::GoBack(farm, version), answer)
    }

    /// The same record, which left its farm these settings.
    pub fn leaving(played: Played, settings: &[i32]) -> Played {
        let after = After { oldest: 1, last: 1, settings: settings.to_vec() };
        Played { after: Some(after), ..played }
    }
}
