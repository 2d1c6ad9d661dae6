//! The records of a journal: what is one is said here alone.

use std::io::{self, BufReader, ErrorKind, Read};

const BUFFER: usize = 1 << 16;
const CYCLE_BODY: usize = 10;
/// Bytes that a record has for its frame.
pub const FRAME_MAX: usize = 244;
const FRAME_BODY: usize = 2 + FRAME_MAX;
const RETURN_BODY: usize = 3;

/// A whole record.
#[derive(Clone, Copy, Debug, PartialEq, Eq)]
#[allow(missing_docs)]
pub enum Record<'a> {
    /// Kind 1, a cycle.
    Cycle { axis: u8, flags: u8, stw1: u16, nsoll: i16, nist: i16, fault: u16 },
    /// Kind 2, a frame.
    Frame { farm: u8, frame: &'a [u8] },
    /// Kind 3, the merged call with a frame.
    Exchange { farm: u8, frame: &'a [u8] },
    /// Kind 4, a going back.
    GoBack { farm: u8, version: u16 },
}

/// What comes next in a journal.
#[derive(Clone, Copy, Debug, PartialEq, Eq)]
pub enum Next<'a> {
    /// A whole record.
    Record(Record<'a>),
    /// Anything else, or a cut body.
    Bad,
    /// The journal ends after a whole record.
    End,
}

/// A journal that is being read.
pub struct Journal<R> {
    input: BufReader<R>,
    /// Lent out with a frame.
    body: [u8; FRAME_BODY],
}

impl<R: Read> Journal<R> {
    /// A journal from its start.
    pub fn new(input: R) -> Journal<R> {
        Journal { input: BufReader::with_capacity(BUFFER, input), body: [0; FRAME_BODY] }
    }

    /// Reads one record. Only trouble with the input is an error.
    pub fn next_record(&mut self) -> io::Result<Next<'_>> {
        let mut kind = [0];
        if !fill(&mut self.input, &mut kind)? {
            return Ok(Next::End);
        }
        let record = match kind[0] {
            1 => self.cycle()?,
            2 => self.frame()?.map(|(farm, frame)| Record::Frame { farm, frame }),
            3 => self.frame()?.map(|(farm, frame)| Record::Exchange { farm, frame }),
            4 => self.go_back()?,
            _ => None,
        };
        Ok(record.map_or(Next::Bad, Next::Record))
    }

    fn cycle(&mut self) -> io::Result<Option<Record<'_>>> {
        let mut body = [0; CYCLE_BODY];
        if !fill(&mut self.input, &mut body)? {
            return Ok(None);
        }
        let word = |at: usize| u16::from_be_bytes([body[at], body[at + 1]]);
        let [axis, flags, ..] = body;
        let (nsoll, nist) = (word(4) as i16, word(6) as i16);
        Ok(Some(Record::Cycle { axis, flags, stw1: word(2), nsoll, nist, fault: word(8) }))
    }

    /// The body of kinds 2 and 3: a farm and its frame.
    fn frame(&mut self) -> io::Result<Option<(u8, &[u8])>> {
        if !fill(&mut self.input, &mut self.body)? {
            return Ok(None);
        }
        let [farm, length, ref room @ ..] = self.body;
        let Some((frame, unused)) = room.split_at_checked(length.into()) else { return Ok(None) };
        Ok(unused.iter().all(|byte| *byte == 0).then_some((farm, frame)))
    }

    fn go_back(&mut self) -> io::Result<Option<Record<'_>>> {
        let mut body = [0; RETURN_BODY];
        let whole = fill(&mut self.input, &mut body)?;
        let [farm, high, low] = body;
        Ok(whole.then_some(Record::GoBack { farm, version: u16::from_be_bytes([high, low]) }))
    }
}

/// Fills the buffer; false when the input ends before.
fn fill(input: &mut impl Read, buffer: &mut [u8]) -> io::Result<bool> {
    match input.read_exact(buffer) {
        Ok(()) => Ok(true),
        Err(error) if error.kind() == ErrorKind::UnexpectedEof => Ok(false),
        Err(error) => Err(error),
    }
}
