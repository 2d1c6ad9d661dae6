//! Usage: `made-up-journal [RECORDS [SEED]]`: writes a journal of made-up records to standard output, for two replays or two season
//! reports to be given alike, and for what is told of journals to be held against the library.

#![forbid(unsafe_code)]
#![deny(warnings)]

use std::io::{self, BufWriter, Write};
use tools::journal::FRAME_ROOM;
use tools::sending::Sending;
use trial::random::Random;
use trial::{blocks, kept, words};
use twin::{Station, AXES};

fn main() -> io::Result<()> {
    let number = |at: usize| std::env::args().nth(at).and_then(|number| number.parse().ok());
    let mut random = Random::new(number(2).unwrap_or(7));
    let mut station = Station::fresh();
    let mut out = BufWriter::new(io::stdout());
    for _ in 0..number(1).unwrap_or(10_000) {
        match random.below(20) {
            0..=9 => cycle(&mut random, &mut station, &mut out)?,
            10 => go_back(&mut random, &mut station, &mut out)?,
            _ => frame(&mut random, &mut station, &mut out)?,
        }
    }
    out.flush()
}

/// The owner of this part, or seldom nobody.
fn number(random: &mut Random, index: usize) -> u8 {
    if random.one_in(150) {
        random.pick(&[0, 17, 255])
    } else {
        index as u8 + 1
    }
}

/// A record of kind 1; the station goes along, so that the words to come fit its states.
fn cycle(random: &mut Random, station: &mut Station, out: &mut impl Write) -> io::Result<()> {
    let index = random.below(AXES);
    let axis = number(random, index);
    let i = words::inputs(random, &station.axes[index]);
    let flags = i.flags.min(255) as u8;
    out.write_all(&[1, axis, flags])?;
    for word in [i.stw1, i.nsoll as u16, i.nist as u16, i.fault] {
        out.write_all(&word.to_be_bytes())?;
    }
    station.cycle(u32::from(axis), u32::from(flags), i.stw1, i.nsoll, i.nist, i.fault);
    Ok(())
}

/// A record of kind 2 or 3, with a frame that has room in one.
fn frame(random: &mut Random, station: &mut Station, out: &mut impl Write) -> io::Result<()> {
    let index = random.below(AXES);
    let farm = number(random, index);
    let waiting = station.axes[index].waiting.as_ref().map(|waiting| waiting.length);
    let (mut sending, _, mut frame) = blocks::frame(random, index as u8 + 1, waiting);
    while frame.len() > FRAME_ROOM {
        (sending, _, frame) = blocks::frame(random, index as u8 + 1, waiting);
    }
    let mut body = [0; FRAME_ROOM];
    body[..frame.len()].copy_from_slice(&frame);
    let kind = match sending {
        Sending::Alone => 2,
        Sending::Merged => 3,
    };
    out.write_all(&[kind, farm, frame.len() as u8])?;
    out.write_all(&body)?;
    sending.twins(station, u32::from(farm), &frame, &mut [0; FRAME_ROOM]);
    Ok(())
}

/// A record of kind 4, with a version that has room in one.
fn go_back(random: &mut Random, station: &mut Station, out: &mut impl Write) -> io::Result<()> {
    let index = random.below(AXES);
    let farm = number(random, index);
    let version = kept::version(random, &station.axes[index].versions).min(65535) as u16;
    out.write_all(&[4, farm])?;
    out.write_all(&version.to_be_bytes())?;
    station.go_back(u32::from(farm), u32::from(version));
    Ok(())
}
