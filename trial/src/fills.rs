//! What a run of calls has met of fill bytes: right and wrong ones in changes, in the responses that were written and
//! fetched, and in those that a part was made up with.

use crate::counts::{named, names, place, unmet};
use std::fmt::{self, Display, Formatter};
use tools::layout::{Block, Values, ADDRESS, BYTE_FORMATS, HEADER};
use twin::{well_formed, Axis, Parameter, Waiting, BLOCK_MAX};

/// What is wrong with a fill byte that alone keeps a block from being readable.
#[derive(Clone, Copy, Debug, PartialEq, Eq)]
enum Fault {
    Other,
    Missing,
    Second,
    Needless,
}

const FAULTS: [(Fault, &str); 4] = [
    (Fault::Other, "another byte than 0"),
    (Fault::Missing, "none behind an odd number"),
    (Fault::Second, "a second one"),
    (Fault::Needless, "one behind an even number"),
];
/// Numbers of byte values in a change that is not refused.
const TAKEN: [&str; 3] = ["none", "odd", "even"];
/// What else there is to meet.
const MET: [&str; 7] = [
    "element stored behind one",
    "taken at the end of 240 bytes",
    "written",
    "written before another block",
    "written in 240 bytes",
    "error 15 by them alone",
    "fetched",
];
const FETCHED: usize = MET.len() - 1;
/// Bytes of an error block.
const ERROR: usize = 4;

/// The counts of a run.
#[derive(Default)]
pub struct Fills {
    /// By format.
    taken: [[u64; TAKEN.len()]; BYTE_FORMATS.len()],
    /// By format.
    refused: [[u64; FAULTS.len()]; BYTE_FORMATS.len()],
    met: [u64; MET.len()],
    ill_formed: [u64; FAULTS.len()],
}

impl Fills {
    /// A request block was refused with number 10.
    pub fn refused(&mut self, block: &[u8]) {
        if let Some((format, fault)) = fault_of_request(block) {
            self.refused[index_of(format)][place(fault, &FAULTS)] += 1;
        }
    }

    /// A request was worked and this response now waits.
    pub fn worked(&mut self, request: &[u8], response: &[u8]) {
        let Some((request, response)) = Block::of_request(request).zip(Block::of_response(response)) else { return };
        for bytes in request.byte_blocks() {
            let taken = if bytes.count == 0 { 0 } else { 2 - bytes.count % 2 };
            self.taken[index_of(bytes.format)][taken] += 1;
        }
        let behind = request.values.iter().position(Values::is_filled).map_or(0, |first| first + 1);
        let filled = response.values.iter().position(Values::is_filled);
        let met: [bool; FETCHED] = [
            behind > 0 && response.values.iter().skip(behind).any(|values| *values == Values::zero()),
            request.length() == BLOCK_MAX && request.values.last().is_some_and(Values::is_filled),
            filled.is_some(),
            filled.is_some_and(|first| first + 1 < response.values.len()),
            filled.is_some() && response.length() == BLOCK_MAX,
            too_long_by_fills(&request, &response),
        ];
        for (count, met) in self.met.iter_mut().zip(met) {
            *count += u64::from(met);
        }
    }

    /// This response was fetched.
    pub fn fetched(&mut self, response: &[u8]) {
        let filled = Block::of_response(response).is_some_and(|block| block.is_filled());
        self.met[FETCHED] += u64::from(filled);
    }

    /// A call was refused with number 2 while this part was the caller's.
    pub fn ill_formed(&mut self, part: &Axis, axis: u8) {
        let Some(waiting) = &part.waiting else { return };
        let Some((bytes, unused)) = waiting.bytes.split_at_checked(waiting.length) else { return };
        if unused.iter().any(|byte| *byte != 0) {
            return;
        }
        let well_formed_with = |mended: &[u8]| {
            let block = Block::of_response(mended)?;
            let mut bytes = [0; BLOCK_MAX];
            bytes[..mended.len()].copy_from_slice(mended);
            let part = Axis { waiting: Some(Waiting { bytes, length: mended.len() }), ..part.clone() };
            well_formed(&part, axis).then_some(block)
        };
        if let Some((_, fault)) = fault(bytes, HEADER, well_formed_with) {
            self.ill_formed[place(fault, &FAULTS)] += 1;
        }
    }

    /// What no call has met.
    pub fn missing(&self) -> Vec<String> {
        let mut missing = Vec::new();
        let mut want = |counts: &[u64], names: &[&str], what: String| {
            missing.extend(unmet(counts, names).map(|name| format!("{what}: {name}")));
        };
        let faults = names(&FAULTS);
        want(&self.met, &MET, "fill byte".into());
        want(&self.ill_formed, &faults, "fill byte in a response refused with 2".into());
        for (format, (taken, refused)) in BYTE_FORMATS.iter().zip(self.taken.iter().zip(&self.refused)) {
            want(taken, &TAKEN, format!("values of format {format:02X} taken"));
            want(refused, &faults, format!("fill byte of format {format:02X} refused with 10"));
        }
        missing
    }
}

impl Display for Fills {
    fn fmt(&self, f: &mut Formatter) -> fmt::Result {
        let faults = names(&FAULTS);
        writeln!(f, "fill bytes {}", named(&self.met, &MET))?;
        writeln!(f, "           in a response that waits, number 2: {}", named(&self.ill_formed, &faults))?;
        for (format, (taken, refused)) in BYTE_FORMATS.iter().zip(self.taken.iter().zip(&self.refused)) {
            let (taken, refused) = (named(taken, &TAKEN), named(refused, &faults));
            writeln!(f, "           values of format {format:02X}: {taken}; number 10: {refused}")?;
        }
        Ok(())
    }
}

fn index_of(format: u8) -> usize {
    BYTE_FORMATS.iter().position(|known| *known == format).expect("a byte format")
}

/// Whether the first 0x15 of a response would be none without fill bytes before it.
fn too_long_by_fills(request: &Block, response: &Block) -> bool {
    let Some(at) = response.values.iter().position(|values| *values == Values::error(0x15)) else { return false };
    let address = request.addresses[at];
    let size = Parameter::find(address.pnu).map_or(0, |parameter| parameter.kind().size());
    let length = 2 + size * usize::from(address.elements.max(1));
    let before = &response.values[..at];
    let fills = before.iter().filter(|values| values.is_filled()).count();
    let start = HEADER + before.iter().map(Values::length).sum::<usize>() - fills;
    start + length <= BLOCK_MAX - ERROR * (response.values.len() - at - 1)
}

/// Whether a fill byte alone keeps a request from being readable.
pub fn is_misfilled(request: &[u8]) -> bool {
    fault_of_request(request).is_some()
}

fn fault_of_request(block: &[u8]) -> Option<(u8, Fault)> {
    let addresses = usize::from(*block.get(3)?);
    fault(block, HEADER + ADDRESS * addresses, Block::of_request)
}

/// The fault of an unreadable block that is readable once a zero is put in, set or taken out at the first place where a
/// fill byte is not as it should be, and the format of the values before it. The value blocks begin at `first`.
fn fault(block: &[u8], first: usize, read: impl Fn(&[u8]) -> Option<Block>) -> Option<(u8, Fault)> {
    let at = suspect(block, first)?;
    let (before, rest) = block.split_at(at);
    let behind = rest.get(1..).unwrap_or_default();
    let ends_at = |mended: &[u8], end: usize| read(mended)?.byte_blocks().into_iter().find(|bytes| bytes.end == end);
    // All readable blocks are even in length: an odd one has a byte too few or too many.
    match (block.len() % 2, rest.first()) {
        (0, _) => ends_at(&[before, &[0], behind].concat(), at + 1).map(|bytes| (bytes.format, Fault::Other)),
        (_, Some(0)) => {
            let bytes = ends_at(&[before, behind].concat(), at)?;
            Some((bytes.format, if bytes.is_filled() { Fault::Second } else { Fault::Needless }))
        }
        _ => ends_at(&[before, &[0], rest].concat(), at + 1).map(|bytes| (bytes.format, Fault::Missing)),
    }
}

/// The first place behind byte values where a fill byte is not zero, missing or one too many.
fn suspect(block: &[u8], first: usize) -> Option<usize> {
    let mut at = first;
    loop {
        let &[format, count] = block.get(at..)?.first_chunk()?;
        let size = match format {
            _ if BYTE_FORMATS.contains(&format) => 1,
            0x42 | 3 | 6 | 0x44 => 2,
            0x43 | 4 | 7 => 4,
            0x40 => 0,
            _ => return None,
        };
        at += 2 + size * usize::from(count);
        let fill = usize::from(size == 1 && count % 2 == 1);
        let behind = block.get(at..)?;
        if fill == 1 && behind.first() != Some(&0) {
            return Some(at);
        }
        at += fill;
        if size == 1 && block.get(at) == Some(&0) {
            return Some(at);
        }
    }
}

#[cfg(test)]
mod tests {
    use super::*;
    use twin::Settings;

    fn of_change(values: &[u8], count: u8) -> Option<(u8, Fault)> {
        let mut block = vec![7, 2, 1, count];
        (0..count).for_each(|_| block.extend([0x10, 1, 0x03, 0xC5, 0, 0]));
        block.extend(values);
        fault_of_request(&block)
    }

    #[test]
    fn faults_of_changes() {
        for format in BYTE_FORMATS {
            let found = |fault| Some((format, fault));
            assert_eq!(of_change(&[format, 1, 3, 0], 1), None);
            assert_eq!(of_change(&[format, 1, 3, 1], 1), found(Fault::Other));
            assert_eq!(of_change(&[format, 1, 3], 1), found(Fault::Missing));
            assert_eq!(of_change(&[format, 1, 3, 0, 0], 1), found(Fault::Second));
            assert_eq!(of_change(&[format, 2, 3, 41, 0], 1), found(Fault::Needless));
            assert_eq!(of_change(&[format, 0, 0], 1), found(Fault::Needless));
            assert_eq!(of_change(&[format, 1, 3, 0x42, 1, 0, 7], 2), found(Fault::Missing));
            assert_eq!(of_change(&[format, 1, 0, 0, 0, 0x42, 1, 0, 7], 2), found(Fault::Second));
            assert_eq!(of_change(&[0x42, 1, 0, 7, format, 3, 0, 0, 0, 9], 2), found(Fault::Other));
            assert_eq!(of_change(&[format, 1, 3, 0, 0, 0], 1), None);
        }
        assert_eq!(of_change(&[0x42, 1, 0, 7, 0], 1), None, "no byte values");
        assert_eq!(of_change(&[0x42, 1, 0], 1), None, "no byte values");
        assert_eq!(of_change(&[8, 1, 0, 1], 1), None, "no byte format");
    }

    #[test]
    fn faults_of_parts() {
        let with = |block: &[u8], length| {
            let mut bytes = [0; BLOCK_MAX];
            bytes[..block.len()].copy_from_slice(block);
            Axis { waiting: Some(Waiting { bytes, length }), ..Axis::fresh() }
        };
        let counted = |part: &Axis| {
            let mut fills = Fills::default();
            fills.ill_formed(part, 2);
            fills.ill_formed
        };
        let one = [7, 1, 2, 1, 0x41, 1, 3, 0];
        assert_eq!(counted(&with(&one, 8)), [0, 0, 0, 0]);
        assert_eq!(counted(&with(&[7, 1, 2, 1, 0x41, 1, 3, 9], 8)), [1, 0, 0, 0]);
        assert_eq!(counted(&with(&one, 7)), [0, 1, 0, 0]);
        assert_eq!(counted(&with(&one, 9)), [0, 0, 1, 0]);
        assert_eq!(counted(&with(&[7, 1, 2, 1, 0x41, 2, 3, 41], 9)), [0, 0, 0, 1]);
        let settings = Settings { p10111: 0, ..Settings::fresh() };
        assert_eq!(counted(&Axis { settings, ..with(&one, 7) }), [0; 4], "the part has another fault");
        assert_eq!(counted(&with(&[7, 1, 2, 1, 0x41, 1, 3, 9], 7)), [0; 4], "unused bytes are not 0");
        assert_eq!(counted(&with(&one, 255)), [0; 4]);
    }

    #[test]
    fn what_was_worked_and_fetched() {
        let mut fills = Fills::default();
        let change = [7, 2, 1, 2, 0x10, 1, 0x26, 0xAC, 0, 0, 0x10, 1, 0x75, 0x31, 0, 0, 5, 1, 9, 0, 0x42, 1, 3, 0xE8];
        fills.worked(&change, &[7, 0x82, 1, 2, 0x44, 1, 0, 5, 0x40, 0]);
        let read = [7, 1, 1, 2, 0x10, 1, 0x03, 0xC5, 0, 0, 0x10, 1, 0x03, 0xA2, 0, 0];
        let response = [7, 1, 1, 2, 0x41, 1, 3, 0, 0x42, 1, 0, 1];
        fills.worked(&read, &response);
        fills.fetched(&response);
        assert_eq!((fills.met, fills.taken), ([1, 0, 1, 1, 0, 0, 1], [[0; 3], [0; 3], [0, 1, 0]]));
        assert!(!fills.missing().contains(&"fill byte: fetched".to_string()));
        assert!(fills.missing().contains(&"values of format 41 taken: odd".to_string()));
    }

    #[test]
    fn too_long_by_fill_bytes_alone() {
        let address = |elements, pnu| twin::Address { attribute: 0x10, elements, pnu, sub_index: 0 };
        let decided = |single: usize, whole: usize| {
            let addresses = [vec![address(1, 965); single], vec![address(32, 947); whole]].concat();
            let count = addresses.len() as u8;
            let request = Block { reference: 1, identifier: 1, axis: 1, count, addresses, values: Vec::new() };
            let mut station = twin::Station::fresh();
            station.frame(1, &crate::blocks::framed(&request.bytes()), &mut [0; 244]);
            let waiting = station.axes[0].waiting.clone().expect("a readable request");
            let response = Block::of_response(&waiting.bytes[..waiting.length]).expect("a readable response");
            (response.identifier, too_long_by_fills(&request, &response))
        };
        // Of bytes: 234, 238, 242 (232 without fill bytes), and 300 (292 without).
        assert_eq!(decided(8, 3), (0x01, false));
        assert_eq!(decided(9, 3), (0x01, false));
        assert_eq!(decided(10, 3), (0x81, true));
        assert_eq!(decided(8, 4), (0x81, false));
    }
}
