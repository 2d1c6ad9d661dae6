//! What packets mean: the fields that Wireshark should read in the two packets of an exchange.
//!
//! They stand in their order: both checksums and addresses, both sequence numbers, operation, status, block type, slot,
//! subslot, index, record length, elements stored, and what `seen` says of the block.
//!
//! Of a block that is not readable, and of a frame whose length byte is wrong, all but the packet's header is left out,
//! since Wireshark stops somewhere in it and nothing was meant.

use super::answer::Answer;
use super::fields::{Field, BLOCK_TYPE, IP_CHECKSUM, IP_FROM, IP_TO, OPERATION, RECORD, RECORD_INDEX, RECORD_LENGTH};
use super::fields::{RECORD_LOW, SLOT, STORED, SUBSLOT, UDP_CHECKSUM};
use super::seen::{seen_in_request, seen_in_response};
use crate::blocks::{framed, replied};
use tools::layout::Block;
use tools::packets::Answered;
use tools::sending::{FETCH, INDEX, READ, WRITE};

/// An exchange, and what its block and its answer were meant to be.
pub(crate) struct Meaning {
    pub(crate) answered: Answered,
    pub(crate) block: Option<Block>,
    pub(crate) answer: Answer,
}

impl Meaning {
    /// A frame that comes as bytes: what the twin reads in them.
    pub(crate) fn of_bytes((answered, answer): (Answered, Answer)) -> Meaning {
        let block = match answered.frame.as_slice() {
            [WRITE, _, INDEX, length, block @ ..] if usize::from(*length) == block.len() => Block::of_request(block),
            _ => None,
        };
        Meaning { answered, block, answer }
    }

    /// A frame with the answer that an example has for it.
    pub(crate) fn of_example(answered: Answered) -> Meaning {
        let answer = Answer::of(answered.number, answered.stored, &answered.reply);
        Meaning::of_bytes((answered, answer))
    }

    /// A write of these bytes, acknowledged, where this block was meant.
    pub(crate) fn written(block: &Block, bytes: &[u8]) -> Meaning {
        let reply = vec![WRITE, 0, INDEX, bytes.len() as u8];
        let answer = Answer::of(0, 0, &reply);
        let answered = Answered { record: 0, farm: 1, frame: framed(bytes), number: 0, stored: 0, reply };
        Meaning { answered, block: Some(block.clone()), answer }
    }

    /// A fetch that is answered with these bytes, where this block was meant.
    pub(crate) fn fetched(block: &Block, bytes: &[u8]) -> Meaning {
        let answer = Answer { number: 0, stored: 0, length: bytes.len() as u32, block: Some(block.clone()) };
        let (frame, reply) = (FETCH.to_vec(), replied(bytes));
        let answered = Answered { record: 0, farm: 1, frame, number: 0, stored: 0, reply };
        Meaning { answered, block: None, answer }
    }

    /// What its request packet was meant to say.
    pub(crate) fn request(&self, what: &str) -> Meant {
        let (length, meant) = match self.answered.frame.as_slice() {
            [READ, _, _, length, data @ ..] => (usize::from(*length), data.is_empty()),
            [WRITE, _, INDEX, length, ..] => (usize::from(*length), self.block.is_some()),
            [WRITE, _, _, length, data @ ..] => (usize::from(*length), usize::from(*length) == data.len()),
            frame => (frame.len(), true),
        };
        let mut fields = header(&self.answered, true, &[], length as u32, &[]);
        let mut until = if meant { Until::End } else { Until::Header };
        if let Some(seen) = self.block.as_ref().map(seen_in_request) {
            fields.extend(seen.fields);
            until = if seen.lost { Until::Fill } else { until };
        }
        Meant { what: format!("{what}, request"), fields, until }
    }

    /// What its response packet was meant to say.
    pub(crate) fn response(&self, what: &str) -> Meant {
        let reads = reads(&self.answered.frame);
        let status = self.answer.status(reads);
        let stored = [(STORED, self.answer.stored.into())];
        let mut fields = header(&self.answered, false, &status, self.answer.length, &stored);
        if !reads {
            fields.extend(status);
        }
        let mut until = Until::End;
        if let Some(seen) = self.answer.block.as_ref().map(seen_in_response) {
            fields.extend(seen.fields);
            until = if seen.lost { Until::Fill } else { until };
        }
        Meant { what: format!("{what}, response"), fields, until }
    }
}

/// What a packet was meant to say.
pub(crate) struct Meant {
    pub(crate) what: String,
    pub(crate) fields: Vec<Field>,
    pub(crate) until: Until,
}

/// How far a packet is compared.
#[derive(Clone, Copy, PartialEq, Eq)]
pub(crate) enum Until {
    /// To its end.
    End,
    /// To a fill byte in the middle of its block.
    Fill,
    /// To its block, which was not meant.
    Header,
}

/// The fields of a packet up to its record's data, or up to the status that ends the header of a write's answer.
fn header(answered: &Answered, from_farm: bool, status: &[Field], length: u32, stored: &[Field]) -> Vec<Field> {
    let farm = u32::from(answered.farm);
    let (slot, index) = match answered.frame.as_slice() {
        [READ | WRITE, slot, INDEX, _, ..] => (*slot, 0xB02F),
        [READ | WRITE, slot, index, _, ..] => (*slot, u32::from(*index)),
        _ => (0, 0x7FFF),
    };
    let reads = reads(&answered.frame);
    let (farm_address, box_address) = (0x0A2F_0100 + farm, 0x0A2F_0001);
    let (from, to) = if from_farm { (farm_address, box_address) } else { (box_address, farm_address) };
    let block_type = if from_farm { 0x0008 } else { 0x8008 } + u32::from(reads);
    let mut fields = vec![
        (IP_CHECKSUM, 1),
        (IP_FROM, from),
        (IP_TO, to),
        (UDP_CHECKSUM, 1),
        (RECORD, answered.record as u32),
        (OPERATION, if reads { 2 } else { 3 }),
    ];
    fields.extend(status);
    fields.extend([
        (BLOCK_TYPE, block_type),
        (RECORD_LOW, answered.record as u32 & 0xFFFF),
        (SLOT, slot.into()),
        (SUBSLOT, farm),
        (RECORD_INDEX, index),
        (RECORD_LENGTH, length),
    ]);
    fields.extend(stored);
    fields
}

/// Whether the frame is a read; what is neither stands as a write.
fn reads(frame: &[u8]) -> bool {
    frame.len() >= 4 && frame[0] == READ
}
