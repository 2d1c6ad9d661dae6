//! A station of the library on which a journal is played by single calls, and the lines that `who` must have of it.

use super::changes::{of_change, of_going_back, tried_by, Settings};
use super::due::{element_name, Due, What};
use crate::station;
use crate::turns::settings_held;
use tools::face;
use tools::journal::Record;
use tools::layout::HEADER;
use tools::sending::{Sending, FETCH};
use tools::settings;
use twin::{AXES, REPLY_MIN};

/// So many records are between two looks at a farm whose turn it is, whoever sent something.
const BETWEEN_LOOKS: u64 = 100;

/// What the library answered to a frame.
struct Answer {
    number: u8,
    stored: u16,
    /// The response block, fetched where it waits; empty after a refusal.
    response: Vec<u8>,
}

/// The station, and what each farm must hold in it.
pub struct Witness {
    station: Vec<u8>,
    /// All settings, in the order in which they are read.
    elements: Vec<(u16, u16)>,
    held: Vec<Settings>,
    records: u64,
}

impl Witness {
    /// A fresh station.
    pub fn fresh() -> Witness {
        let (station, elements) = (station::fresh(), settings::all());
        let mut witness = Witness { station, elements, held: Vec::new(), records: 0 };
        witness.held = farms().map(|farm| witness.read(farm)).collect();
        witness
    }

    /// How many records were played.
    pub fn records(&self) -> u64 {
        self.records
    }

    /// Plays the next record: the lines that are due of it.
    pub fn play(&mut self, record: &Record) -> Result<Vec<Due>, String> {
        self.records += 1;
        let farm = record.owner();
        let due = match record {
            Record::Cycle(..) => {
                station::play(&mut self.station, record.clone(), self.records);
                Ok((farm, Vec::new()))
            }
            Record::Frame(_, sending, frame) => self.frame(farm, *sending, frame),
            Record::GoBack(_, version) => self.go_back(farm, *version).map(|whats| (farm, whats)),
        };
        let (axis, whats) = due.and_then(|due| self.look_in_turn().map(|()| due)).map_err(|why| self.at_record(why))?;
        let record = self.records;
        Ok(whats.into_iter().map(|what| Due { record, farm, axis, what }).collect())
    }

    fn at_record(&self, why: String) -> String {
        format!("record {}: {why}", self.records)
    }

    /// The axis that a frame names, and what is due of it.
    fn frame(&mut self, farm: u8, sending: Sending, frame: &[u8]) -> Result<(u8, Vec<What>), String> {
        let Answer { number, stored, response } = self.send(farm, sending, frame);
        let mut held = self.held(farm).cloned().unwrap_or_default();
        let (axis, due) = match tried_by(frame) {
            Some((axis, block)) => (axis, of_change(block, number, &response, &mut held)?),
            None => (farm, Vec::new()),
        };
        let set = due.iter().filter(|what| what.is_done()).count();
        if set != usize::from(stored) {
            return Err(format!("the library stored {stored} elements, and its response says {set}"));
        }
        self.must_hold(farm, held)?;
        Ok((axis, due))
    }

    fn send(&mut self, farm: u8, sending: Sending, frame: &[u8]) -> Answer {
        let mut reply = vec![0; REPLY_MIN];
        let done = sending.ours(&mut self.station, farm.into(), frame, &mut reply);
        let length = match (done.number, sending) {
            (0, Sending::Merged) => done.length,
            // After a read none waits, and nothing is fetched.
            (0, Sending::Alone) => face::frame(&mut self.station.clone(), farm.into(), &FETCH, &mut reply).length,
            _ => 0,
        };
        reply.truncate(length.into());
        let response = reply.split_off(reply.len().min(HEADER));
        Answer { number: done.number, stored: done.stored, response }
    }

    fn go_back(&mut self, farm: u8, version: u16) -> Result<Vec<What>, String> {
        let returned = face::go_back(&mut self.station, farm.into(), version.into());
        let before = self.held(farm).cloned().unwrap_or_default();
        let after = if returned.number == 0 { self.read(farm) } else { before.clone() };
        let due = of_going_back(version, returned.number, &before, &after);
        self.must_hold(farm, after)?;
        Ok(due)
    }

    /// What a farm held after its last record; none where there is no such farm.
    fn held(&self, farm: u8) -> Option<&Settings> {
        self.held.get(usize::from(farm).wrapping_sub(1))
    }

    fn read(&self, farm: u8) -> Settings {
        let values = settings_held(&self.station, farm);
        assert_eq!(values.len(), self.elements.len(), "a read of all settings brings them all");
        self.elements.iter().copied().zip(values.into_iter().map(i64::from)).collect()
    }

    /// A farm, if there is such a one, holds this.
    fn must_hold(&mut self, farm: u8, settings: Settings) -> Result<(), String> {
        if self.held(farm).is_none() {
            return Ok(());
        }
        let now = self.read(farm);
        let differing = settings.iter().zip(now.values()).find(|((_, due), now)| due != now);
        if let Some((((pnu, index), due), now)) = differing {
            let name = element_name(*pnu, (*index).into());
            return Err(format!("farm {farm} holds {now} in {name}, and {due} is what the lines due leave in it"));
        }
        self.held[usize::from(farm) - 1] = now;
        Ok(())
    }

    fn look_in_turn(&mut self) -> Result<(), String> {
        if self.records % BETWEEN_LOOKS != 0 {
            return Ok(());
        }
        self.look((self.records / BETWEEN_LOOKS % AXES as u64) as u8 + 1)
    }

    /// A farm holds what it held.
    fn look(&mut self, farm: u8) -> Result<(), String> {
        self.must_hold(farm, self.held(farm).cloned().unwrap_or_default())
    }

    /// Looks at every farm, when all is played.
    pub fn look_at_all(&mut self) -> Result<(), String> {
        farms().try_for_each(|farm| self.look(farm)).map_err(|why| format!("at the end: {why}"))
    }
}

fn farms() -> impl Iterator<Item = u8> {
    1..=AXES as u8
}
