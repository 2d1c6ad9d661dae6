//! A station of the library, and the records of journals played on it by single calls.

use tools::face;
use tools::journal::Record;
use tools::packets::Answered;
use twin::REPLY_MIN;

/// A fresh station of the library.
pub fn fresh() -> Vec<u8> {
    let mut station = vec![0; face::size()];
    assert_eq!(face::fresh(&mut station), 0, "a station of the library's own size is made fresh");
    station
}

/// Plays the record in this place, counted from 1: the exchanges that it was, none where it has no frame.
pub fn play(station: &mut [u8], record: Record, place: u64) -> Vec<Answered> {
    match record {
        Record::Cycle(axis, i) => {
            face::cycle(station, axis.into(), i.flags, i.stw1, i.nsoll, i.nist, i.fault);
            Vec::new()
        }
        Record::GoBack(farm, version) => {
            face::go_back(station, farm.into(), version.into());
            Vec::new()
        }
        Record::Frame(farm, sending, frame) => {
            let mut reply = vec![0; REPLY_MIN];
            let framed = sending.ours(station, farm.into(), &frame, &mut reply);
            reply.truncate(framed.length.into());
            let (number, stored) = (framed.number, framed.stored);
            Answered { record: place, farm, frame, number, stored, reply }.by(sending)
        }
    }
}
