//! Writes a journal as text.

use crate::command::Length;
use crate::hex;
use crate::journal::{self, length_of, Inputs, Next, Record};
use crate::notation;
use crate::sending::{request_in, Sending, FETCH, INDEX, READ};
use std::io::{self, BufReader, Read};

/// Bytes in a line of what is no record.
const BAD_BYTES: usize = 32;

/// A line of the text.
#[derive(Clone, Debug, PartialEq, Eq)]
pub struct Written {
    /// The line.
    pub text: String,
    /// How many bytes of the journal it tells.
    pub bytes: usize,
}

/// The lines of a journal, made as it comes. What is no record, and all that follows it, are lines of bytes.
pub struct Lines<R> {
    input: BufReader<R>,
    /// Those of a record; of what is no record, those that are not told yet.
    bytes: Vec<u8>,
    length: Length,
}

impl<R: Read> Lines<R> {
    /// The lines of a journal of which nothing is read yet.
    pub fn new(input: BufReader<R>) -> Lines<R> {
        Lines { input, bytes: Vec::with_capacity(1 << 9), length: Length { records: 0, bad: false } }
    }

    /// How much of the journal was told.
    pub fn length(&self) -> Length {
        self.length
    }

    /// Whether the next line may have to be waited for.
    pub fn may_wait(&self) -> bool {
        let ahead = self.input.buffer();
        match self.length.bad {
            true => self.bytes.len() + ahead.len() < BAD_BYTES,
            false => ahead.first().is_none_or(|kind| ahead.len() < length_of(*kind)),
        }
    }

    /// The next line; none at the end.
    pub fn next_line(&mut self) -> io::Result<Option<Written>> {
        if self.length.bad {
            return self.bad();
        }
        self.bytes.clear();
        self.more(1)?;
        let body = self.bytes.first().map_or(0, |kind| length_of(*kind) - 1);
        self.more(body)?;
        match journal::next(&mut self.bytes.as_slice())? {
            Next::Record(record) => {
                self.length.records += 1;
                Ok(Some(Written { text: line(&record), bytes: self.bytes.len() }))
            }
            Next::End => Ok(None),
            Next::Bad => {
                self.length.bad = true;
                self.bad()
            }
        }
    }

    /// So many more bytes, or as many as there are.
    fn more(&mut self, count: usize) -> io::Result<()> {
        self.input.by_ref().take(count as u64).read_to_end(&mut self.bytes).map(|_| ())
    }

    /// The next line of what is no record.
    fn bad(&mut self) -> io::Result<Option<Written>> {
        self.more(BAD_BYTES.saturating_sub(self.bytes.len()))?;
        let told: Vec<u8> = self.bytes.drain(..BAD_BYTES.min(self.bytes.len())).collect();
        let written = Written { text: format!("bad{}", hex::spaced(&told)), bytes: told.len() };
        Ok(Some(written).filter(|written| written.bytes > 0))
    }
}

/// The line of a record.
pub fn line(record: &Record) -> String {
    match record {
        Record::Cycle(axis, inputs) => cycle(*axis, *inputs),
        Record::Frame(farm, Sending::Alone, sent) => format!("frame {farm} {}", frame(sent)),
        Record::Frame(farm, Sending::Merged, sent) => format!("merged {farm} {}", frame(sent)),
        Record::GoBack(farm, version) => format!("back {farm} {version}"),
    }
}

/// A cycle: its axis and control word, and what is not 0 of the rest.
fn cycle(axis: u8, Inputs { flags, stw1, nsoll, nist, fault }: Inputs) -> String {
    let mut line = format!("cycle {axis} {stw1:04X}");
    let mut add = |word: &str, number: i64| {
        if number != 0 {
            line += &format!(" {word} {number}");
        }
    };
    add("setpoint", nsoll.into());
    add("actual", nist.into());
    add("fault", fault.into());
    match flags {
        0 => {}
        1 => line += " standstill",
        2 => line += " warning",
        3 => line += " standstill warning",
        _ => add("flags", flags.into()),
    }
    line
}

/// A frame in words, where they say all of it, or in hex.
fn frame(frame: &[u8]) -> String {
    match (frame, request_in(frame)) {
        (_, Some(block)) => notation::request(&block),
        (frame, _) if *frame == FETCH => "fetch".to_string(),
        ([READ, 0, INDEX, wanted], _) => format!("fetch {wanted}"),
        _ => format!("hex{}", hex::spaced(frame)),
    }
}

#[cfg(test)]
mod tests {
    use super::*;
    use crate::sending::WRITE;

    fn cycle_line(flags: u32, nsoll: i16, nist: i16, fault: u16) -> String {
        line(&Record::Cycle(255, Inputs { flags, stw1: 0x4F, nsoll, nist, fault }))
    }

    fn frame_line(frame: &[u8]) -> String {
        line(&Record::Frame(1, Sending::Alone, frame.to_vec()))
    }

    #[test]
    fn cycles_say_what_is_not_0() {
        assert_eq!(cycle_line(0, 0, 0, 0), "cycle 255 004F");
        assert_eq!(
            cycle_line(3, -32768, -1, 65535),
            "cycle 255 004F setpoint -32768 actual -1 fault 65535 standstill warning"
        );
        assert_eq!(
            [cycle_line(1, 5, 0, 0), cycle_line(2, 0, 5, 0)],
            ["cycle 255 004F setpoint 5 standstill", "cycle 255 004F actual 5 warning"]
        );
        assert_eq!(
            [cycle_line(4, 0, 0, 9), cycle_line(255, 0, 0, 0)],
            ["cycle 255 004F fault 9 flags 4", "cycle 255 004F flags 255"]
        );
    }

    #[test]
    fn frames_in_words_and_in_hex() {
        assert_eq!(frame_line(&FETCH), "frame 1 fetch");
        assert_eq!(frame_line(&[READ, 0, INDEX, 0]), "frame 1 fetch 0");
        assert_eq!(line(&Record::Frame(0, Sending::Merged, vec![READ, 0, INDEX, 255])), "merged 0 fetch 255");
        let write = [WRITE, 0, INDEX, 10, 7, 1, 2, 1, 0x10, 1, 0x03, 0xB0, 0, 0];
        assert_eq!(frame_line(&write), "frame 1 read 07 axis 2: 944");
        assert_eq!(line(&Record::Frame(16, Sending::Merged, write.to_vec())), "merged 16 read 07 axis 2: 944");
        assert_eq!(frame_line(&[]), "frame 1 hex");
        assert_eq!(frame_line(&write[..13]), "frame 1 hex 5F 00 2F 0A 07 01 02 01 10 01 03 B0 00");
        for (at, byte) in [(0, READ), (1, 1), (2, 46), (3, 9), (4, 0), (5, 3), (7, 2)] {
            let mut other = write;
            other[at] = byte;
            assert_eq!(frame_line(&other), format!("frame 1 hex{}", hex::spaced(&other)));
        }
        assert_eq!(frame_line(&[READ, 0, INDEX, 240, 0]), "frame 1 hex 5E 00 2F F0 00");
        assert_eq!(
            [frame_line(&[READ, 1, INDEX, 240]), frame_line(&FETCH[..3])],
            ["frame 1 hex 5E 01 2F F0", "frame 1 hex 5E 00 2F"]
        );
    }

    #[test]
    fn goings_back() {
        assert_eq!(line(&Record::GoBack(1, 65535)), "back 1 65535");
    }

    #[test]
    fn what_is_no_record_is_told_in_lines_of_32_bytes() {
        let journal = [&[4, 1, 0, 2, 2, 1, 245][..], &[7; 300]].concat();
        let mut lines = Lines::new(BufReader::new(journal.as_slice()));
        let mut told = Vec::new();
        while let Some(line) = lines.next_line().unwrap() {
            told.push((line.text, line.bytes));
        }
        let (sevens, first) = (" 07".repeat(32), " 07".repeat(29));
        assert_eq!(
            told[..3],
            [("back 1 2".to_string(), 4), (format!("bad 02 01 F5{first}"), 32), (format!("bad{sevens}"), 32)]
        );
        assert_eq!((told.len(), told[10].clone()), (11, (format!("bad{}", " 07".repeat(15)), 15)));
        assert_eq!(lines.length(), Length { records: 1, bad: true });
    }

    /// A pipe through which these pieces come, and then nothing, which would be waited for.
    struct Pieces(Vec<Vec<u8>>);

    impl Read for Pieces {
        fn read(&mut self, buffer: &mut [u8]) -> io::Result<usize> {
            let piece = self.0.pop().expect("it was waited for something that does not come");
            buffer[..piece.len()].copy_from_slice(&piece);
            Ok(piece.len())
        }
    }

    #[test]
    fn what_may_have_to_be_waited_for() {
        let cycle = [1, 1, 0, 4, 0x7E, 0, 0, 0, 0, 0, 0];
        let (two_and_a_half, rest) = ([&cycle[..], &cycle, &cycle[..5]].concat(), [&cycle[5..], &[5; 40]].concat());
        let mut lines = Lines::new(BufReader::new(Pieces(vec![vec![], rest, two_and_a_half])));
        let mut waits = vec![lines.may_wait()];
        while lines.length().records < 3 {
            lines.next_line().unwrap();
            waits.push(lines.may_wait());
        }
        assert_eq!(waits, [true, false, true, false]);
        assert_eq!((lines.next_line().unwrap().map(|line| line.bytes), lines.may_wait()), (Some(32), true));
        assert_eq!(lines.next_line().unwrap().map(|line| line.bytes), Some(8));
    }
}
