//! Worked cases of document 01, of of document 02 and of the readings.

mod addresses;
mod blocks;
mod checker;
mod cycles;
mod exchanges;
mod frames;
mod journal;
mod parts;
mod random;
mod season;
mod versions;
mod whole;

use crate::{Axis, Framed, Station};
use std::io::{self, Read};

/// A reply memory that shows which bytes were touched.
pub const UNTOUCHED: u8 = 0xA5;

/// Bytes from hex text, spaces ignored.
pub fn hex(text: &str) -> Vec<u8> {
    let digits: Vec<u8> = text.chars().filter_map(|digit| digit.to_digit(16)).map(|digit| digit as u8).collect();
    assert_eq!(digits.len() % 2, 0, "{text}");
    digits.chunks(2).map(|pair| pair[0] << 4 | pair[1]).collect()
}

/// A write frame around a block of at most 240 bytes.
pub fn write_frame(block: &[u8]) -> Vec<u8> {
    let mut frame = vec![0x5F, 0x00, 0x2F, u8::try_from(block.len()).unwrap()];
    frame.extend_from_slice(block);
    frame
}

/// A request block of these addresses, each written in hex.
pub fn request(reference: u8, axis: u8, addresses: &[&str]) -> Vec<u8> {
    let mut block = vec![reference, 0x01, axis, addresses.len() as u8];
    addresses.iter().for_each(|address| block.extend(hex(address)));
    block
}

/// A change block of addresses and value blocks, each written in hex.
pub fn change(reference: u8, axis: u8, parameters: &[(&str, &str)]) -> Vec<u8> {
    let mut block = vec![reference, 0x02, axis, parameters.len() as u8];
    parameters.iter().for_each(|(address, _)| block.extend(hex(address)));
    parameters.iter().for_each(|(_, values)| block.extend(hex(values)));
    block
}

/// A frame or the merged call.
type Call = fn(&mut Station, u32, &[u8], &mut [u8]) -> Framed;

/// Makes a call, checks that nothing past the reply is touched, and gives the reply.
fn make(call: Call, station: &mut Station, farm: u32, frame: &[u8]) -> (Framed, Vec<u8>) {
    let mut memory = [UNTOUCHED; 260];
    let framed = call(station, farm, frame, &mut memory);
    let (reply, rest) = memory.split_at(framed.length.into());
    assert!(rest.iter().all(|byte| *byte == UNTOUCHED));
    (framed, reply.to_vec())
}

/// Runs a frame and gives its reply.
pub fn send(station: &mut Station, farm: u32, frame: &[u8]) -> (Framed, Vec<u8>) {
    make(Station::frame, station, farm, frame)
}

/// Runs the merged call and gives its reply.
pub fn send_merged(station: &mut Station, farm: u32, frame: &[u8]) -> (Framed, Vec<u8>) {
    make(Station::exchange, station, farm, frame)
}

fn assert_call_refused(call: Call, station: &mut Station, farm: u32, frame: &[u8], number: u8, reply: &str) {
    let before = station.clone();
    let (framed, bytes) = make(call, station, farm, frame);
    assert_eq!(bytes, hex(reply), "reply to {frame:02X?}");
    assert_eq!(framed, Framed { length: bytes.len() as u16, stored: 0, number });
    assert!(*station == before);
}

/// Runs a frame that must be refused with this number and reply, and changes nothing; the merged call refuses it so
/// too, but for a read that comes as far as 4.
pub fn assert_refused(station: &mut Station, farm: u32, frame: &[u8], number: u8, reply: &str) {
    assert_call_refused(Station::frame, station, farm, frame, number, reply);
    let read = frame.first() == Some(&0x5E);
    let (number, reply) = if read && number > 4 { (4, "") } else { (number, reply) };
    assert_merged_refused(station, farm, frame, number, reply);
}

/// Runs a merged call that must be refused with this number and reply, and changes nothing.
pub fn assert_merged_refused(station: &mut Station, farm: u32, frame: &[u8], number: u8, reply: &str) {
    assert_call_refused(Station::exchange, station, farm, frame, number, reply);
}

/// Writes a block that must be accepted, fetches the response, and gives the stored count and the response; the merged
/// call gives both at once and leaves the same station.
pub fn write_and_fetch(station: &mut Station, farm: u32, block: &[u8]) -> (u16, Vec<u8>) {
    let mut merged = station.clone();
    let (framed, reply) = send(station, farm, &write_frame(block));
    assert_eq!(reply, [0x5F, 0x00, 0x2F, block.len() as u8]);
    assert_eq!((framed.length, framed.number), (4, 0));
    let response = fetch(station, farm);
    let expected = Framed { length: 4 + response.len() as u16, ..framed };
    let reply = [&[0x5E, 0x00, 0x2F, response.len() as u8], &response[..]].concat();
    assert_eq!(send_merged(&mut merged, farm, &write_frame(block)), (expected, reply));
    assert!(merged == *station);
    (framed.stored, response)
}

/// Fetches a response with F0.
pub fn fetch(station: &mut Station, farm: u32) -> Vec<u8> {
    let (framed, reply) = send(station, farm, &hex("5E 00 2F F0"));
    assert_eq!((framed.stored, framed.number), (0, 0));
    assert_eq!(reply[..3], [0x5E, 0x00, 0x2F]);
    assert_eq!(usize::from(reply[3]), reply.len() - 4);
    assert_eq!(station.axes[farm as usize - 1].waiting, None);
    reply[4..].to_vec()
}

/// What every call that stores something leaves beside it: the settings as the newest version, of which 16 are kept.
pub fn keep_version(part: &mut Axis) {
    let Axis { settings, versions, .. } = part;
    versions.kept.push_back(settings.clone());
    while versions.kept.len() > 16 {
        versions.kept.pop_front();
        versions.dropped += 1;
    }
}

/// The worked write frame of marks 1000 and 3001.
pub fn worked_write() -> Vec<u8> {
    hex("5F 00 2F 10 07 02 01 01 10 02 75 31 00 00 42 02 03 E8 0B B9")
}

/// A record of kind 1.
pub fn cycle(axis: u8, flags: u8, stw1: u16, nsoll: i16, nist: i16, fault: u16) -> Vec<u8> {
    let mut record = vec![1, axis, flags];
    for word in [stw1, nsoll as u16, nist as u16, fault] {
        record.extend(word.to_be_bytes());
    }
    record
}

/// A record of kind 2, a frame, or 3, the merged call.
pub fn record(kind: u8, farm: u8, frame: &[u8]) -> Vec<u8> {
    let mut record = vec![kind, farm, frame.len() as u8];
    record.extend_from_slice(frame);
    record.resize(1 + 246, 0);
    record
}

/// A record of kind 2.
pub fn frame(farm: u8, frame: &[u8]) -> Vec<u8> {
    record(2, farm, frame)
}

/// A record of kind 3.
pub fn merged(farm: u8, frame: &[u8]) -> Vec<u8> {
    record(3, farm, frame)
}

/// A record of kind 4.
pub fn back(farm: u8, version: u16) -> Vec<u8> {
    [&[4, farm][..], &version.to_be_bytes()].concat()
}

/// The worked journal of document 01.
pub fn worked_journal() -> Vec<u8> {
    [
        cycle(1, 0, 0x047E, 0, 0, 0),
        cycle(1, 0, 0x047F, 0, 0, 0),
        cycle(1, 0, 0x047F, 0x2000, 0, 0),
        cycle(1, 0, 0x047D, 0, 0, 0),
        frame(1, &worked_write()),
        frame(1, &hex("5E 00 2F F0")),
        frame(2, &worked_write()),
    ]
    .concat()
}

/// An input in trouble.
pub struct Broken;

impl Read for Broken {
    fn read(&mut self, _: &mut [u8]) -> io::Result<usize> {
        Err(io::Error::other("broken"))
    }
}
