//! A block as Wireshark reads it, and what its fields show of it.
//!
//! A block is not readable, checks 1 and 2 of R-4, where Wireshark finds a fault with it (malformed, an invalid format,
//! a "Long frame" other than a fill byte). It finds none with reference 0, an unknown identifier or a byte left over
//! behind a request, say: there one of the fields is none of a readable block, or they do not make up the record's
//! length.

use crate::wireshark::fields::{Field, DO, ELEMENTS, ERROR, FAULT, FORMAT, LEFT_OVER, PARAMETERS, RECORD_LENGTH};
use crate::wireshark::fields::{REFERENCE, REQUEST_ID, RESPONSE_ID, VALUES};
use crate::wireshark::seen::SINGLE_ONLY;
use tools::layout::{Side, ADDRESS, BYTE_FORMATS, HEADER};

/// How a check comes out by what Wireshark shows.
#[derive(Clone, Copy, Debug, PartialEq, Eq)]
pub(super) enum Shown {
    Passed,
    Failed,
    Hidden,
}

impl Shown {
    pub(super) fn of(passed: bool) -> Shown {
        if passed {
            Shown::Passed
        } else {
            Shown::Failed
        }
    }
}

/// A value block's format and number of values.
type Head = (u32, u32);

fn is_filled((format, values): Head) -> bool {
    BYTE_FORMATS.map(u32::from).contains(&format) && values % 2 == 1
}

fn length((format, values): Head) -> u32 {
    let size = match format {
        0x40 => 0,
        0x41 | 2 | 5 => 1,
        0x42 | 3 | 6 | 0x44 => 2,
        _ => 4,
    };
    2 + size * values + u32::from(is_filled((format, values)))
}

/// Whether a value block may stand in a block of this identifier.
fn may_stand(side: Side, identifier: u32, head: Head) -> bool {
    match (side, identifier) {
        (Side::Request, _) => matches!(head, (2..=7 | 0x41..=0x43, _)),
        (Side::Response, 0x01) => matches!(head, (0x41..=0x43, 1..)),
        (Side::Response, 0x81) => matches!(head, (0x41..=0x43, 1..) | (0x44, 1)),
        (Side::Response, _) => matches!(head, (0x40, 0) | (0x44, 1)),
    }
}

/// A block as Wireshark reads it, from a right place or not.
#[derive(Default)]
pub(super) struct Reading {
    length: u32,
    /// Reference, identifier, axis and number of parameters, as far as they are there.
    pub(super) header: Vec<u32>,
    elements: Vec<u32>,
    heads: Vec<Head>,
    /// Whether the last of them is the error at which Wireshark stops.
    stopped: bool,
    left_over: Vec<u32>,
    faults: u32,
}

impl Reading {
    pub(super) fn of(fields: &[Field]) -> Reading {
        let mut reading = Reading::default();
        for &(name, number) in fields {
            match (name, reading.heads.last_mut()) {
                (RECORD_LENGTH, _) => reading.length = number,
                (REFERENCE | REQUEST_ID | RESPONSE_ID | DO | PARAMETERS, _) => reading.header.push(number),
                (ELEMENTS, _) => reading.elements.push(number),
                (FORMAT, _) => reading.heads.push((number, 0)),
                (VALUES, Some((_, values))) => *values = number,
                (ERROR, _) => reading.stopped = number == SINGLE_ONLY.into(),
                (LEFT_OVER, _) => reading.left_over.push(number),
                (FAULT, _) => reading.faults += 1,
                _ => {}
            }
        }
        reading
    }

    /// The value blocks that are read from their right place: up to the first fill byte.
    fn right(&self) -> &[Head] {
        let end = self.heads.iter().position(|head| is_filled(*head)).map_or(self.heads.len(), |at| at + 1);
        &self.heads[..end]
    }

    /// How many addresses and value blocks the header announces; none where the header is no readable block's.
    fn announced(&self, side: Side) -> Option<(usize, usize)> {
        let &[1..=255, identifier, _, count @ 1..=39] = self.header.as_slice() else { return None };
        let count = count as usize;
        match (side, identifier) {
            (Side::Request, 0x01) => Some((count, 0)),
            (Side::Request, 0x02) => Some((count, count)),
            (Side::Response, 0x01 | 0x81 | 0x82) => Some((0, count)),
            (Side::Response, 0x02) => Some((0, 0)),
            _ => None,
        }
    }

    /// Whether the block is readable.
    pub(super) fn readable(&self, side: Side) -> Shown {
        let (Some((addresses, blocks)), ..=240) = (self.announced(side), self.length) else { return Shown::Failed };
        let (right, identifier) = (self.right(), self.header[1]);
        if self.elements.len() != addresses || !right.iter().all(|head| may_stand(side, identifier, *head)) {
            return Shown::Failed;
        }
        if right.len() < blocks {
            return self.readable_so_far(side, identifier);
        }
        let with_error = right.iter().any(|(format, _)| *format == 0x44);
        match right.last() {
            _ if with_error != matches!(identifier, 0x81 | 0x82) => Shown::Failed,
            _ if right.len() > blocks || !self.ends(side) => Shown::Failed,
            // The fill byte is there, by the length, and nothing shows what it is.
            Some(last) if side == Side::Request && is_filled(*last) => Shown::Hidden,
            _ => Shown::Passed,
        }
    }

    /// Whether the block may be readable where Wireshark goes its own way in it: a fill byte is to it a format, and the
    /// format that follows a number of values.
    fn readable_so_far(&self, side: Side, identifier: u32) -> Shown {
        match self.heads.get(self.right().len()) {
            Some(&(0, format)) if [0, 1].iter().any(|values| may_stand(side, identifier, (format, *values))) => {
                Shown::Hidden
            }
            None if self.stopped => Shown::Hidden,
            _ => Shown::Failed,
        }
    }

    /// Whether the block ends where it should: by its length, and without a fault but that of the fill byte of a
    /// response.
    fn ends(&self, side: Side) -> bool {
        let addresses = (HEADER + ADDRESS * self.elements.len()) as u32;
        let bytes = addresses + self.right().iter().map(|head| length(*head)).sum::<u32>();
        let filled = side == Side::Response && self.right().last().is_some_and(|last| is_filled(*last));
        let left_over = if filled { &[0][..] } else { &[] };
        bytes == self.length && self.left_over == left_over && self.faults == u32::from(filled)
    }

    /// Whether the value blocks have as many values as a request asks elements.
    pub(super) fn counts(&self, request: &Reading) -> Shown {
        let asked = request.elements.iter().map(|elements| (*elements).max(1));
        let wrong = |((format, values), asked): (&Head, u32)| (0x41..=0x43).contains(format) && *values != asked;
        let right = self.right();
        match self.announced(Side::Response) {
            _ if right.iter().zip(asked).any(wrong) => Shown::Failed,
            Some((_, blocks)) if right.len() >= blocks => Shown::Passed,
            _ => Shown::Hidden,
        }
    }
}

#[cfg(test)]
mod tests {
    use super::*;

    #[test]
    fn faults_and_lengths() {
        let header = [(REFERENCE, 7), (RESPONSE_ID, 1), (DO, 1), (PARAMETERS, 1)];
        let readable = |length: u32, fields: &[Field]| {
            Reading::of(&[&[(RECORD_LENGTH, length)], &header[..], fields].concat()).readable(Side::Response)
        };
        let word = [(FORMAT, 0x42), (VALUES, 1)];
        assert_eq!(readable(8, &word), Shown::Passed);
        assert_eq!(readable(9, &word), Shown::Failed);
        assert_eq!(readable(9, &[word[0], word[1], (LEFT_OVER, 0), (FAULT, 0)]), Shown::Failed);
        assert_eq!(readable(8, &[word[0], word[1], (FAULT, 0)]), Shown::Failed);
        let byte = |fill: u32| [(FORMAT, 0x41), (VALUES, 1), (LEFT_OVER, fill), (FAULT, 0)];
        assert_eq!(readable(8, &byte(0)), Shown::Passed);
        assert_eq!(readable(8, &byte(1)), Shown::Failed);
        assert_eq!(readable(7, &byte(0)[..2]), Shown::Failed);
        assert_eq!(readable(242, &[(FORMAT, 0x42), (VALUES, 118)]), Shown::Failed);
        assert_eq!(readable(240, &[(FORMAT, 0x42), (VALUES, 117)]), Shown::Passed);
    }
}
