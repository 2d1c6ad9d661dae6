//! The merged call made of frames in turn, and all settings as they are read.

use crate::blocks::framed;
use tools::face::{self, Framed};
use tools::layout::HEADER;
use tools::sending::{FETCH, READ};
use tools::settings;
use twin::{Settings, REPLY_MIN};

/// What the merged call must come to, by the library's own frames in turn: the write and, where it was done, the fetch.
pub fn in_turn(station: &mut [u8], farm: u32, frame: &[u8], reply: &mut [u8]) -> Framed {
    if frame.first() == Some(&READ) {
        return read_refused(station, farm, frame, reply);
    }
    let written = face::frame(station, farm, frame, reply);
    if written.number != 0 {
        return written;
    }
    let fetched = face::frame(station, farm, &FETCH, reply);
    Framed { stored: written.stored, ..fetched }
}

/// A read has no turn of its own here: what comes before number 4 is as for any frame, and then it is 4.
fn read_refused(station: &[u8], farm: u32, frame: &[u8], reply: &[u8]) -> Framed {
    let alone = face::frame(&mut station.to_vec(), farm, frame, &mut reply.to_vec());
    let number = if (1..=3).contains(&alone.number) { alone.number } else { 4 };
    Framed { length: 0, stored: 0, number }
}

/// Reads of all settings, in the order of document 01's table: attribute, elements, PNU, sub-index.
const SETTINGS: [[u8; 6]; 7] = [
    [0x10, 1, 0x26, 0xAC, 0, 0],
    [0x10, 8, 0x26, 0xAD, 0, 0],
    [0x10, 1, 0x27, 0x7F, 0, 0],
    [0x10, 4, 0x75, 0x31, 0, 0],
    [0x10, 1, 0x75, 0x32, 0, 0],
    [0x10, 1, 0x75, 0x33, 0, 0],
    [0x10, 2, 0x75, 0x34, 0, 0],
];

/// The blocks of values that the library answers to a read of all settings of a farm.
pub fn read_settings(station: &mut [u8], farm: u32) -> Vec<u8> {
    let block = [&[1, 1, farm as u8, SETTINGS.len() as u8], SETTINGS.concat().as_slice()].concat();
    let mut reply = vec![0; REPLY_MIN];
    // A response that waits would refuse the read, and is fetched before.
    face::frame(station, farm, &FETCH, &mut reply);
    let read = face::exchange(station, farm, &framed(&block), &mut reply);
    reply.truncate(read.length.into());
    reply.split_off(reply.len().min(2 * HEADER))
}

/// All settings of a farm, in the order of `tools::settings::all`, read on a copy of the station.
pub fn settings_held(station: &[u8], farm: u8) -> Vec<i32> {
    let blocks = read_settings(&mut station.to_vec(), farm.into());
    let response = [&[1, 1, farm, SETTINGS.len() as u8], blocks.as_slice()].concat();
    settings::values(&response).expect("the library answers a read of all settings")
}

/// The blocks of values that hold these settings.
pub fn values_of(settings: &Settings) -> Vec<u8> {
    let Settings { p9900, p9901, p10111, p30001, p30002, p30003, p30004 } = settings;
    let words: [&[u16]; 6] = [&[*p9900], p9901, &[*p10111], p30001, &[*p30002], &[*p30003]];
    let block = |words: &&[u16]| {
        let values = words.iter().flat_map(|word| word.to_be_bytes());
        [0x42, words.len() as u8].into_iter().chain(values).collect::<Vec<u8>>()
    };
    let offsets = p30004.iter().flat_map(|offset| offset.to_be_bytes());
    words.iter().flat_map(block).chain([0x43, 2]).chain(offsets).collect()
}
