//! The capture of blocks from all sources, and how far it agrees.
//!
//! Where the meaning of a block comes from:
//!
//! - made-up requests, worked by the library, and made-up responses: the structure that their bytes were written from;
//! - the library's own responses, to those requests and to the journals: the twin, as `stations` says;
//! - the requests of journals, and the examples with the answers written there: what the twin reads. Nothing here makes
//!   their bytes, and the twin's reader is neither the library's nor Wireshark's.
//!
//! Frames of a farm over 255, which only a caller in C can send, are left out: a capture has no place for its number.

use super::capture::Capture;
use super::compared::Compared;
use super::examples::Example;
use super::made_up::{self, BY_CHANCE, SEED};
use super::meant::{Meaning, Until};
use super::seen::fields_of_request;
use super::stations::Stations;
use super::PRINTED;
use crate::cases::{logical_lines, read_bytes, Step};
use crate::random::Random;
use crate::{blocks, words};
use std::fs;
use std::path::PathBuf;
use tools::journal::{self, Next, Record};
use tools::layout::Block;
use tools::packets::Answered;
use tools::sending::{Sending, FETCH, READ};
use twin::AXES;

/// A test of fewer request or response blocks, each read to its end, says too little.
const LEAST: usize = 1000;

/// A capture that is written from a station of the library with the twin beside it.
pub struct Bench {
    capture: Capture,
    stations: Stations,
    left_out: usize,
}

impl Bench {
    /// Nothing yet, for a capture in this place.
    pub fn new(path: PathBuf) -> Bench {
        Bench { capture: Capture::new(path), stations: Stations::fresh(), left_out: 0 }
    }

    /// A journal.
    pub fn journal(&mut self, file: &str) -> Result<(), String> {
        let bytes = fs::read(file).map_err(|error| format!("{file}: {error}"))?;
        self.records(file, &bytes)
    }

    /// The journals of a file in hex, which ends each with a blank line.
    pub fn journals(&mut self, file: &str) -> Result<(), String> {
        let text = fs::read_to_string(file).map_err(|error| format!("{file}: {error}"))?;
        let (mut name, mut bytes) = (String::new(), Vec::new());
        for (number, line) in logical_lines(&text) {
            match line.split_once(' ') {
                Some(("case", case)) => name = case.to_string(),
                Some(("journal", hex)) => {
                    let words: Vec<&str> = hex.split_whitespace().collect();
                    bytes.extend(read_bytes(&words).map_err(|wrong| format!("{file}: line {number}: {wrong}"))?);
                }
                Some(_) => {}
                None => self.records(&name, &std::mem::take(&mut bytes))?,
            }
        }
        self.records(&name, &bytes)
    }

    /// The records of a journal, on fresh stations.
    fn records(&mut self, what: &str, mut bytes: &[u8]) -> Result<(), String> {
        self.stations = Stations::fresh();
        while let Next::Record(record) = journal::next(&mut bytes).map_err(|error| error.to_string())? {
            let played = self.stations.play(record);
            self.capture.add(what, played.into_iter().map(Meaning::of_bytes));
        }
        Ok(())
    }

    /// The frames of examples, with the answers that are written there.
    pub fn examples(&mut self, examples: &[Example]) {
        for Example { case, line } in examples {
            let Step::Frame { farm, sending, frame, wanted } = &line.step else { continue };
            let Ok(farm) = u8::try_from(*farm) else {
                self.left_out += 1;
                continue;
            };
            let (number, stored, reply) = (wanted.number, wanted.stored, wanted.reply.clone());
            let answered = Answered { record: 0, farm, frame: frame.clone(), number, stored, reply };
            self.capture.add(case, answered.by(*sending).into_iter().map(Meaning::of_example));
        }
    }

    /// Made-up requests of every kind, each of its axis' farm, or of farm 1 where the axis is nobody's.
    pub fn every_request(&mut self) -> Result<(), String> {
        for (what, block) in made_up::every_request() {
            let farm = if (1..=AXES as u8).contains(&block.axis) { block.axis } else { 1 };
            self.request(what, farm, &block)?;
        }
        Ok(())
    }

    /// Readable requests that chance makes, with cycles between them so that the values move.
    pub fn requests_by_chance(&mut self) -> Result<(), String> {
        let mut random = Random::new(SEED);
        for _ in 0..BY_CHANCE {
            let index = random.below(AXES);
            let axis = index as u8 + 1;
            let inputs = words::inputs(&mut random, &self.stations.twin.axes[index]);
            self.stations.play(Record::Cycle(axis, inputs));
            let (_, block) = blocks::block(&mut random, axis);
            if Block::of_request(&block.bytes()).is_some() {
                self.request("made up", axis, &block)?;
            }
        }
        Ok(())
    }

    /// Has the library work a request, and fetches the response: by two frames, and by the merged call.
    fn request(&mut self, what: &str, farm: u8, block: &Block) -> Result<(), String> {
        let bytes = block.bytes();
        let read = Block::of_request(&bytes).map(|block| fields_of_request(&block));
        if read != Some(fields_of_request(block)) {
            return Err(format!("{what}: the twin reads {bytes:02X?} otherwise than {block:?}"));
        }
        let write = blocks::framed(&bytes);
        for (sending, frame) in
            [(Sending::Alone, write.clone()), (Sending::Alone, FETCH.to_vec()), (Sending::Merged, write)]
        {
            let played = self.stations.play(Record::Frame(farm, sending, frame)).into_iter();
            let meanings = played.map(|(answered, answer)| {
                let block = (answered.frame[0] != READ).then(|| block.clone());
                Meaning { answered, block, answer }
            });
            self.capture.add(&format!("{what}, {sending}"), meanings);
        }
        Ok(())
    }

    /// Made-up responses, each to a fetch.
    pub fn responses(&mut self) {
        for block in made_up::responses() {
            self.capture.add("a made-up response", [Meaning::fetched(&block, &block.bytes())]);
        }
    }

    /// Prints the differences and what was compared; whether there was none.
    pub fn report(self) -> Result<bool, String> {
        let (requests, responses) = (self.capture.requests, self.capture.responses);
        let packets = self.capture.compared()?;
        let of_packet = |(number, packet): (usize, &Compared)| {
            let told = format!("packet {number} ({})", packet.meant.what);
            packet.differences.iter().map(|difference| format!("{told}: {difference}")).collect::<Vec<_>>()
        };
        let differences: Vec<String> = (1..).zip(&packets).flat_map(of_packet).collect();
        differences.iter().take(PRINTED).for_each(|difference| println!("{difference}"));
        let fields: usize = packets.iter().map(|packet| packet.meant.fields.len()).sum();
        let count = |until: Until| packets.iter().filter(|packet| packet.meant.until == until).count();
        println!("{} frames of farms over 255 left out", self.left_out);
        println!(
            "{} packets compared by their header alone, {} up to a fill byte",
            count(Until::Header),
            count(Until::Fill),
        );
        println!(
            "{} packets, {requests} requests and {responses} responses to their end: {fields} fields compared, \
             {} differences",
            packets.len(),
            differences.len(),
        );
        if requests.min(responses) < LEAST {
            return Err(format!("fewer than {LEAST} request or response blocks"));
        }
        Ok(differences.is_empty())
    }
}
