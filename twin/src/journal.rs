//! The journal program.

use crate::axis::{State, Station};
use crate::cycle::Cycled;
use crate::frame::{Framed, REPLY_MIN};
use crate::record::{Journal, Next, Record};
use crate::versions::Returned;
use std::io::{self, BufWriter, Read, Write};

const BUFFER: usize = 1 << 16;

/// Runs a fresh station over a journal and writes its lines. Only trouble with input or output is an error; a bad
/// record writes `bad` and ends.
pub fn replay(input: impl Read, output: impl Write) -> io::Result<()> {
    let mut output = BufWriter::with_capacity(BUFFER, output);
    let done = run(&mut Journal::new(input), &mut output);
    output.flush()?;
    done
}

fn run(journal: &mut Journal<impl Read>, output: &mut impl Write) -> io::Result<()> {
    let mut station = Station::fresh();
    loop {
        match journal.next_record()? {
            Next::Record(record) => play(&mut station, &record, output)?,
            Next::Bad => return output.write_all(b"bad\n"),
            Next::End => return Ok(()),
        }
    }
}

/// Makes a record's call and writes its line.
fn play(station: &mut Station, record: &Record, output: &mut impl Write) -> io::Result<()> {
    let mut reply = [0; REPLY_MIN];
    match *record {
        Record::Cycle { axis, flags, stw1, nsoll, nist, fault } => {
            let cycled = station.cycle(axis.into(), flags.into(), stw1, nsoll, nist, fault);
            write_cycle(output, axis, &cycled)
        }
        Record::Frame { farm, frame } => {
            let framed = station.frame(farm.into(), frame, &mut reply);
            write_frame(output, 'f', farm, &framed, &reply)
        }
        Record::Exchange { farm, frame } => {
            let framed = station.exchange(farm.into(), frame, &mut reply);
            write_frame(output, 'e', farm, &framed, &reply)
        }
        Record::GoBack { farm, version } => {
            let returned = station.go_back(farm.into(), version.into());
            write_return(output, farm, &returned)
        }
    }
}

fn write_cycle(output: &mut impl Write, axis: u8, cycled: &Cycled) -> io::Result<()> {
    if cycled.number != 0 {
        writeln!(output, "x {}", cycled.number)
    } else {
        writeln!(output, "c {axis} {} {:04X} {}", state_name(cycled.state), cycled.status, cycled.rpm)
    }
}

fn write_return(output: &mut impl Write, farm: u8, returned: &Returned) -> io::Result<()> {
    if returned.number != 0 {
        writeln!(output, "x {}", returned.number)
    } else {
        writeln!(output, "g {farm} {} {}", returned.stored, returned.version)
    }
}

fn state_name(code: u8) -> &'static str {
    match State::from_code(code) {
        Some(State::S1) => "S1",
        Some(State::S2) => "S2",
        Some(State::S3) => "S3",
        Some(State::S4) => "S4",
        Some(State::S51) => "S51",
        Some(State::S52) => "S52",
        None => unreachable!("an accepted cycle with state {code}"),
    }
}

/// The line of a frame or of the merged call, told apart by its letter.
fn write_frame(output: &mut impl Write, letter: char, farm: u8, framed: &Framed, reply: &[u8]) -> io::Result<()> {
    write!(output, "{letter} {farm} {} ", framed.stored)?;
    write_reply(output, &reply[..framed.length.into()])
}

/// The reply in hex, or `-`, and the end of the line.
fn write_reply(output: &mut impl Write, reply: &[u8]) -> io::Result<()> {
    const DIGITS: &[u8; 16] = b"0123456789ABCDEF";
    let mut line = [0; 2 * REPLY_MIN];
    for (pair, byte) in line.chunks_exact_mut(2).zip(reply) {
        pair[0] = DIGITS[usize::from(byte >> 4)];
        pair[1] = DIGITS[usize::from(byte & 0x0F)];
    }
    let text = if reply.is_empty() { b"-".as_slice() } else { &line[..2 * reply.len()] };
    output.write_all(text)?;
    output.write_all(b"\n")
}
