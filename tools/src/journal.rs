//! Journals: their records, read and written.

use crate::sending::Sending;
use std::io::{self, ErrorKind, Read};

const CYCLE: u8 = 1;
const FRAME: u8 = 2;
const MERGED: u8 = 3;
const RETURN: u8 = 4;

const CYCLE_BODY: usize = 10;
const RETURN_BODY: usize = 3;
/// Bytes that a record has for its frame.
pub const FRAME_ROOM: usize = 244;

/// What a cycle is given beside its axis.
#[derive(Clone, Copy, Debug)]
#[allow(missing_docs)]
pub struct Inputs {
    pub flags: u32,
    pub stw1: u16,
    pub nsoll: i16,
    pub nist: i16,
    pub fault: u16,
}

/// A record.
#[derive(Clone, Debug)]
pub enum Record {
    /// Kind 1: the inputs of a cycle of this axis.
    Cycle(u8, Inputs),
    /// Kinds 2 and 3: a frame of this farm, sent so.
    Frame(u8, Sending, Vec<u8>),
    /// Kind 4: a going back of this farm to this version.
    GoBack(u8, u16),
}

impl Record {
    /// Whose it is: its axis or farm, as it says.
    pub fn owner(&self) -> u8 {
        match self {
            Record::Cycle(owner, _) | Record::Frame(owner, _, _) | Record::GoBack(owner, _) => *owner,
        }
    }

    fn kind(&self) -> u8 {
        match self {
            Record::Cycle(..) => CYCLE,
            Record::Frame(_, Sending::Alone, _) => FRAME,
            Record::Frame(_, Sending::Merged, _) => MERGED,
            Record::GoBack(..) => RETURN,
        }
    }

    /// Bytes of the record.
    pub fn length(&self) -> usize {
        length_of(self.kind())
    }

    /// The record as it stands in a journal. Its flags are a byte, and its frame has room there.
    pub fn bytes(&self) -> Vec<u8> {
        let mut bytes = vec![self.kind(), self.owner()];
        match self {
            Record::Cycle(_, Inputs { flags, stw1, nsoll, nist, fault }) => {
                bytes.push(*flags as u8);
                bytes.extend([*stw1, *nsoll as u16, *nist as u16, *fault].map(u16::to_be_bytes).as_flattened());
            }
            Record::Frame(_, _, frame) => {
                bytes.push(frame.len() as u8);
                bytes.extend(frame);
            }
            Record::GoBack(_, version) => bytes.extend(version.to_be_bytes()),
        }
        bytes.resize(self.length(), 0);
        bytes
    }
}

/// Bytes of a record of this kind; of a kind that there is not, the byte that says so.
pub fn length_of(kind: u8) -> usize {
    1 + match kind {
        CYCLE => CYCLE_BODY,
        FRAME | MERGED => 2 + FRAME_ROOM,
        RETURN => RETURN_BODY,
        _ => 0,
    }
}

/// What comes next in a journal.
#[derive(Clone, Debug)]
pub enum Next {
    /// A whole record.
    Record(Record),
    /// Another kind, a cut body, a frame too long or with something behind it: what follows cannot be read.
    Bad,
    /// The journal ends after a whole record.
    End,
}

/// Reads one record.
pub fn next(input: &mut impl Read) -> io::Result<Next> {
    let mut kind = [0];
    if !fill(input, &mut kind)? {
        return Ok(Next::End);
    }
    let record = match kind {
        [CYCLE] => cycle(input)?,
        [FRAME] => frame(input, Sending::Alone)?,
        [MERGED] => frame(input, Sending::Merged)?,
        [RETURN] => go_back(input)?,
        _ => None,
    };
    Ok(record.map_or(Next::Bad, Next::Record))
}

/// Fills the buffer; false where the input ends before.
fn fill(input: &mut impl Read, buffer: &mut [u8]) -> io::Result<bool> {
    match input.read_exact(buffer) {
        Err(error) if error.kind() == ErrorKind::UnexpectedEof => Ok(false),
        done => done.map(|()| true),
    }
}

fn cycle(input: &mut impl Read) -> io::Result<Option<Record>> {
    let mut body = [0; CYCLE_BODY];
    let whole = fill(input, &mut body)?;
    let word = |at: usize| u16::from_be_bytes([body[at], body[at + 1]]);
    let inputs =
        Inputs { flags: body[1].into(), stw1: word(2), nsoll: word(4) as i16, nist: word(6) as i16, fault: word(8) };
    Ok(whole.then_some(Record::Cycle(body[0], inputs)))
}

fn frame(input: &mut impl Read, sending: Sending) -> io::Result<Option<Record>> {
    let mut body = [0; 2 + FRAME_ROOM];
    let whole = fill(input, &mut body)?;
    let [farm, length, room @ ..] = body;
    let frame = room.split_at_checked(length.into()).filter(|(_, past)| past.iter().all(|byte| *byte == 0));
    Ok(frame.filter(|_| whole).map(|(frame, _)| Record::Frame(farm, sending, frame.to_vec())))
}

fn go_back(input: &mut impl Read) -> io::Result<Option<Record>> {
    let mut body = [0; RETURN_BODY];
    let whole = fill(input, &mut body)?;
    let [farm, high, low] = body;
    Ok(whole.then_some(Record::GoBack(farm, u16::from_be_bytes([high, low]))))
}

#[cfg(test)]
mod tests {
    use super::*;

    fn frame_record(kind: u8, length: u8, frame: &[u8]) -> Vec<u8> {
        let mut record = vec![kind, 16, length];
        record.extend(frame);
        record.resize(3 + FRAME_ROOM, 0);
        record
    }

    #[test]
    fn a_record_of_each_kind_and_the_end() {
        let mut journal = vec![1, 3, 2, 0x04, 0x7F, 0x20, 0x00, 0xFF, 0xFF, 0x00, 0x09];
        journal.extend(frame_record(2, 4, &[0x5E, 0, 47, 0xF0]));
        journal.extend(frame_record(3, 4, &[0x5F, 0, 47, 0]));
        journal.extend([4, 2, 0x12, 0x34]);
        let mut input = journal.as_slice();
        let Ok(Next::Record(Record::Cycle(3, i))) = next(&mut input) else { panic!("no cycle") };
        assert_eq!((i.flags, i.stw1, i.nsoll, i.nist, i.fault), (2, 0x047F, 0x2000, -1, 9));
        let Ok(Next::Record(Record::Frame(16, Sending::Alone, frame))) = next(&mut input) else { panic!("no frame") };
        assert_eq!(frame, [0x5E, 0, 47, 0xF0]);
        let Ok(Next::Record(Record::Frame(16, Sending::Merged, frame))) = next(&mut input) else {
            panic!("no merged call")
        };
        assert_eq!(frame, [0x5F, 0, 47, 0]);
        assert!(matches!(next(&mut input), Ok(Next::Record(Record::GoBack(2, 0x1234)))));
        assert!(matches!(next(&mut input), Ok(Next::End)));
    }

    #[test]
    fn a_record_is_written_as_it_was_read() {
        let longest = (0..FRAME_ROOM).map(|byte| byte as u8).collect::<Vec<_>>();
        for bytes in [
            vec![1, 3, 0xFF, 0x04, 0x7F, 0x80, 0x00, 0xFF, 0xFE, 0x12, 0x34],
            frame_record(2, 4, &[0x5E, 0, 47, 0xF0]),
            frame_record(3, 0, &[]),
            frame_record(2, 244, &longest),
            vec![4, 2, 0x12, 0x34],
        ] {
            let Ok(Next::Record(record)) = next(&mut bytes.as_slice()) else { panic!("no record: {bytes:02X?}") };
            assert_eq!(
                (record.bytes(), record.length(), length_of(bytes[0])),
                (bytes.clone(), bytes.len(), bytes.len())
            );
        }
        assert_eq!([0, 5, 255].map(length_of), [1; 3]);
    }

    fn assert_bad(journals: &[&[u8]]) {
        for mut journal in journals.iter().copied() {
            assert!(matches!(next(&mut journal), Ok(Next::Bad)), "{journal:02X?}");
        }
    }

    #[test]
    fn bad_records() {
        assert_bad(&[&[0], &[5], &[1, 1, 0], &[4], &[4, 1, 0]]);
        for kind in [2, 3] {
            let cut = &frame_record(kind, 4, &[0x5E, 0, 47, 0xF0])[..246];
            assert_bad(&[&[kind], cut, &frame_record(kind, 245, &[]), &frame_record(kind, 3, &[1, 2, 3, 4])]);
        }
    }
}
