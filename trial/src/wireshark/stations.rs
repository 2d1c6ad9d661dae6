//! A station of the library and the twin beside it.
//!
//! What the library's own responses mean is the twin's answer to the same call, as the twin reads it. A merged call
//! that is done stands in a capture as its write and its fetch: it means the twin's answers to these two.

use super::answer::Answer;
use crate::station;
use tools::journal::Record;
use tools::packets::Answered;
use tools::sending::{Sending, FETCH, READ};
use twin::{Station, REPLY_MIN};

/// The two, on the same records.
pub(crate) struct Stations {
    library: Vec<u8>,
    pub(crate) twin: Station,
}

impl Stations {
    /// Both fresh.
    pub(crate) fn fresh() -> Stations {
        Stations { library: station::fresh(), twin: Station::fresh() }
    }

    /// Plays a record on both: the library's exchanges and the twin's answers.
    pub(crate) fn play(&mut self, record: Record) -> Vec<(Answered, Answer)> {
        let answers = match &record {
            Record::Cycle(axis, i) => {
                self.twin.cycle((*axis).into(), i.flags, i.stw1, i.nsoll, i.nist, i.fault);
                Vec::new()
            }
            Record::GoBack(farm, version) => {
                self.twin.go_back((*farm).into(), (*version).into());
                Vec::new()
            }
            Record::Frame(farm, sending, frame) => self.twins_answers(*farm, *sending, frame),
        };
        let exchanges = station::play(&mut self.library, record, 0);
        assert_eq!(exchanges.len(), answers.len(), "an answer of the twin for each of the library");
        exchanges.into_iter().zip(answers).collect()
    }

    /// The twin's answer to a frame; to a merged call those to its write and, where that is done, to its fetch.
    fn twins_answers(&mut self, farm: u8, sending: Sending, frame: &[u8]) -> Vec<Answer> {
        let mut answer = |sending: Sending, frame: &[u8]| {
            let mut reply = [0; REPLY_MIN];
            let framed = sending.twins(&mut self.twin, farm.into(), frame, &mut reply);
            Answer::of(framed.number, framed.stored, &reply[..framed.length.into()])
        };
        if sending == Sending::Alone || frame.first() == Some(&READ) {
            return vec![answer(sending, frame)];
        }
        let mut answers = vec![answer(Sending::Alone, frame)];
        if answers[0].number == 0 {
            answers.push(answer(Sending::Alone, &FETCH));
        }
        answers
    }
}
