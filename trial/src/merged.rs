//! What a run of calls has met of merged calls.

use crate::counts::{named, unmet, Counts, Worked};
use crate::fills::is_misfilled;
use crate::meaning::{response_of, STATION};
use std::fmt::{self, Display, Formatter};
use tools::layout::{Block, HEADER};
use tools::sending::{INDEX, READ};
use twin::{Axis, Framed, AXES, BLOCK_MAX};

const WHEN: [&str; 2] = ["while none waits", "while a response waits"];
/// Refusal numbers, 0 for none, at both times.
const IDLE_NUMBERS: [u8; 11] = [0, 1, 2, 3, 4, 5, 6, 7, 10, 11, 15];
const WAITING_NUMBERS: [u8; 7] = [2, 3, 4, 5, 6, 7, 8];
/// Refusal numbers of a read that come before its own.
const BEFORE_READ: [u8; 3] = [1, 2, 3];
/// What number 4 is given for.
const UNTAKEN: [&str; 7] = [
    "under 4 bytes",
    "another function",
    "cut read",
    "read",
    "read of another slot",
    "read of another index",
    "read with bytes behind it",
];
/// What else there is to meet.
const MET: [&str; 7] = [
    "memory of another size",
    "element stored beside an error",
    "response of 240 bytes",
    "fill byte taken",
    "fill byte in a response",
    "fill byte refused with 10",
    "axis of another farm",
];
/// This one is met by the fetch, which is no merged call.
const OUTLIVED: &str = "fetch of a response that outlived one";
/// What the library's own calls in turn were made beside.
const IN_TURN: [&str; 3] = ["done", "refused write", "read"];

/// A merged call that was made.
pub struct Made<'a> {
    /// The index of the farm's part, and the part before the call, if there is such a farm.
    pub sender: Option<(usize, &'a Axis)>,
    /// Bytes that the station was lent as.
    pub bytes: usize,
    /// The frame.
    pub frame: &'a [u8],
    /// The answer.
    pub framed: Framed,
    /// The reply.
    pub reply: &'a [u8],
    /// Whether the library's own calls in turn were made beside it.
    pub in_turn: bool,
}

impl Made<'_> {
    fn reads(&self) -> bool {
        self.frame.first() == Some(&READ)
    }

    /// Which of the things beside its number it was.
    fn met(&self) -> [bool; MET.len()] {
        let Framed { number, stored, .. } = self.framed;
        let block = self.frame.get(HEADER..).unwrap_or_default();
        // No other block is read here: the twin refuses some before it reads them, and to ask here would count as reached.
        let worked = match number {
            0 => Block::of_request(block).zip(Block::of_response(&self.reply[HEADER..])),
            _ => None,
        };
        let came = |to: fn(&Block, &Block) -> bool| worked.as_ref().is_some_and(|(asked, got)| to(asked, got));
        [
            number == 2 && self.bytes != STATION,
            stored > 0 && came(|_, got| got.identifier == 0x82),
            came(|_, got| got.length() == BLOCK_MAX),
            came(|asked, _| asked.is_filled()),
            came(|_, got| got.is_filled()),
            number == 10 && is_misfilled(block),
            number == 11 && (1..=AXES).contains(&block[2].into()),
        ]
    }
}

/// The counts of a run.
#[derive(Default)]
pub struct Merged {
    /// While none waits, and while a response waits.
    numbers: [Counts; 2],
    /// Number 4, in the same way.
    untaken: [[u64; UNTAKEN.len()]; 2],
    reads: Counts,
    worked: Worked,
    met: [u64; MET.len()],
    outlived: u64,
    in_turn: [u64; IN_TURN.len()],
    /// Of each farm, the response that waited at its last merged call and was not fetched since.
    spared: [Vec<u8>; AXES],
}

impl Merged {
    /// A merged call was made.
    pub fn count(&mut self, made: &Made) {
        let Framed { number, stored, .. } = made.framed;
        let waiting = made.sender.map(|(_, before)| response_of(before)).unwrap_or_default();
        let waits = usize::from(!waiting.is_empty());
        self.numbers[waits].add(number);
        if made.reads() {
            self.reads.add(number);
        }
        match (number, made.sender) {
            (0, _) => self.worked.count(&made.frame[HEADER..], &made.reply[HEADER..], stored),
            (4, _) => self.untaken[waits][untaken(made.frame)] += 1,
            (8, Some((owner, _))) => self.spared[owner] = waiting.to_vec(),
            _ => {}
        }
        for (count, met) in self.met.iter_mut().zip(made.met()) {
            *count += u64::from(met);
        }
        if made.in_turn {
            self.in_turn[if made.reads() { 2 } else { usize::from(number != 0) }] += 1;
        }
    }

    /// The farm of this index has fetched this response by a read of its own.
    pub fn fetched(&mut self, owner: usize, response: &[u8]) {
        let spared = std::mem::take(&mut self.spared[owner]);
        self.outlived += u64::from(spared == response);
    }

    /// What no merged call has met.
    pub fn missing(&self) -> Vec<String> {
        let mut missing = self.worked.missing();
        for (waits, numbers) in [&IDLE_NUMBERS[..], &WAITING_NUMBERS].into_iter().enumerate() {
            let when = WHEN[waits];
            missing.extend(self.numbers[waits].unmet(numbers).map(|number| format!("number {number} {when}")));
            missing.extend(unmet(&self.untaken[waits], &UNTAKEN).map(|name| format!("number 4 {when}: {name}")));
        }
        missing.extend(self.reads.unmet(&BEFORE_READ).map(|number| format!("read with number {number}")));
        missing.extend(unmet(&self.met, &MET).chain(unmet(&[self.outlived], &[OUTLIVED])).map(String::from));
        missing.extend(unmet(&self.in_turn, &IN_TURN).map(|name| format!("beside two calls in turn: {name}")));
        missing.iter().map(|what| format!("merged call: {what}")).collect()
    }
}

/// Why a frame is none that the merged call takes.
fn untaken(frame: &[u8]) -> usize {
    match frame {
        [READ, 0, INDEX, _] => 3,
        [READ, 0, INDEX, _, ..] => 6,
        [READ, 0, _, _, ..] => 5,
        [READ, _, _, _, ..] => 4,
        [READ, ..] => 2,
        [_, _, _, _, ..] => 1,
        _ => 0,
    }
}

impl Display for Merged {
    fn fmt(&self, f: &mut Formatter) -> fmt::Result {
        let [idle, waits] = &self.numbers;
        let untaken = |at: usize| format!("number 4 {}: {}", WHEN[at], named(&self.untaken[at], &UNTAKEN));
        writeln!(f, "merged     by number (0 accepted), {}: {}", WHEN[0], idle.list(&IDLE_NUMBERS))?;
        writeln!(f, "           {}: {}", WHEN[1], waits.list(&WAITING_NUMBERS))?;
        writeln!(f, "           {}\n           {}", untaken(0), untaken(1))?;
        writeln!(f, "           reads refused before: {}", self.reads.list(&BEFORE_READ))?;
        for (name, counts) in self.worked.lines() {
            writeln!(f, "           {name} {counts}")?;
        }
        writeln!(f, "           {}, {OUTLIVED} {}", named(&self.met, &MET), self.outlived)?;
        writeln!(f, "           beside two calls in turn: {}", named(&self.in_turn, &IN_TURN))
    }
}

#[cfg(test)]
mod tests {
    use super::*;
    use tools::sending::FETCH;
    use twin::Station;

    const READ_OF_965: [u8; 14] = [0x5F, 0, 47, 10, 7, 1, 2, 1, 0x10, 1, 0x03, 0xC5, 0, 0];

    fn make(merged: &mut Merged, station: &mut Station, frame: &[u8]) -> u8 {
        let before = station.axes[1].clone();
        let mut reply = [0; 244];
        let framed = station.exchange(2, frame, &mut reply);
        let (sender, reply) = (Some((1, &before)), &reply[..framed.length.into()]);
        merged.count(&Made { sender, bytes: STATION, frame, framed, reply, in_turn: true });
        framed.number
    }

    #[test]
    fn a_call_that_was_done() {
        let (mut merged, mut station) = (Merged::default(), Station::fresh());
        assert_eq!(make(&mut merged, &mut station, &READ_OF_965), 0);
        assert_eq!((merged.met, merged.in_turn), ([0, 0, 0, 0, 1, 0, 0], [1, 0, 0]));
        let missing = merged.missing();
        assert!(!missing.contains(&"merged call: response 01".to_string()));
        assert!(!missing.contains(&"merged call: number 0 while none waits".to_string()));
        assert!(missing.contains(&"merged call: a stored element".to_string()));
    }

    #[test]
    fn a_response_that_outlives_a_call() {
        let (mut merged, mut station) = (Merged::default(), Station::fresh());
        station.frame(2, &READ_OF_965, &mut [0; 244]);
        assert_eq!(make(&mut merged, &mut station, &READ_OF_965), 8);
        let response = response_of(&station.axes[1]).to_vec();
        merged.fetched(0, &response);
        assert_eq!(merged.outlived, 0, "another farm's");
        merged.fetched(1, &response);
        merged.fetched(1, &response);
        assert_eq!((merged.outlived, merged.in_turn), (1, [0, 1, 0]));
    }

    #[test]
    fn why_a_frame_is_not_taken() {
        let frames: [&[u8]; 7] = [
            &[0x5F, 0, 47],
            &[0x5D, 0, 47, 0],
            &[READ, 0, 47],
            &FETCH,
            &[READ, 1, 48, 240],
            &[READ, 0, 48, 240],
            &[READ, 0, 47, 1, 7],
        ];
        let (mut merged, mut station) = (Merged::default(), Station::fresh());
        for (place, frame) in frames.into_iter().enumerate() {
            assert_eq!((make(&mut merged, &mut station, frame), untaken(frame)), (4, place), "{frame:02X?}");
        }
        station.frame(2, &READ_OF_965, &mut [0; 244]);
        assert_eq!(make(&mut merged, &mut station, &FETCH), 4);
        assert_eq!(merged.untaken, [[1; UNTAKEN.len()], [0, 0, 0, 1, 0, 0, 0]]);
        assert_eq!(merged.in_turn, [0, 2, 6]);
    }
}
