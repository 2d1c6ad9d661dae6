//! A capture with what its packets mean.

use super::compared::Compared;
use super::meant::{Meaning, Meant, Until};
use super::tshark;
use std::fs;
use std::path::PathBuf;
use tools::packets::{self, Answered};

/// A capture, and what each of its packets was meant to say.
pub(crate) struct Capture {
    pub(crate) path: PathBuf,
    pub(crate) meant: Vec<Meant>,
    bytes: Vec<u8>,
    records: u64,
    /// Request blocks that are compared to their end.
    pub(crate) requests: usize,
    /// Response blocks that are compared to their end.
    pub(crate) responses: usize,
}

impl Capture {
    /// A capture without a packet, to be written there.
    pub(crate) fn new(path: PathBuf) -> Capture {
        Capture { path, meant: Vec::new(), bytes: packets::head(), records: 0, requests: 0, responses: 0 }
    }

    /// Adds the exchanges of a record.
    pub(crate) fn add(&mut self, what: &str, meanings: impl IntoIterator<Item = Meaning>) {
        self.records += 1;
        let mut exchanges = Vec::new();
        for mut meaning in meanings {
            meaning.answered = Answered { record: self.records, ..meaning.answered };
            let what = format!("{what}, farm {}", meaning.answered.farm);
            let (request, response) = (meaning.request(&what), meaning.response(&what));
            self.requests += usize::from(meaning.block.is_some() && request.until == Until::End);
            self.responses += usize::from(meaning.answer.block.is_some() && response.until == Until::End);
            self.meant.extend([request, response]);
            exchanges.push(meaning.answered);
        }
        self.bytes.extend(packets::of(&exchanges));
    }

    /// Writes it to its place.
    pub(crate) fn write(&self) -> Result<(), String> {
        fs::write(&self.path, &self.bytes).map_err(|error| format!("{}: {error}", self.path.display()))
    }

    /// Lets Wireshark read it, and compares each packet.
    pub(crate) fn compared(self) -> Result<Vec<Compared>, String> {
        self.write()?;
        let packets = tshark::read(&self.path)?;
        if packets.len() != self.meant.len() {
            return Err(format!("Wireshark sees {} packets of {}", packets.len(), self.meant.len()));
        }
        Ok(self.meant.into_iter().zip(packets).map(|(meant, read)| Compared::of(meant, read)).collect())
    }
}
