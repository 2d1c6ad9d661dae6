//! How much the lines of `who` tell, and what of it no record has reached.

use super::attempts::{last_line, Told, Tried, Why};
use super::due::{Due, Sent, What};
use crate::counts::{names, place, unmet, Counts};
use std::collections::HashSet;
use tools::journal::Record;
use tools::sending::Sending;

/// Refusal numbers of attempts, but for 15, for which a journal is too short.
const REFUSALS: [u8; 8] = [1, 5, 6, 7, 8, 10, 11, 14];
/// Error words of the addresses of a change.
const ERRORS: [u8; 10] = [0x00, 0x01, 0x02, 0x03, 0x04, 0x05, 0x09, 0x0F, 0x16, 0x18];

/// What else there is to meet.
#[derive(Clone, Copy, Debug, PartialEq, Eq)]
enum Met {
    ByFrame,
    ByMergedCall,
    ByGoingBack,
    Equal,
    Twice,
    Same,
    Miscounted,
    Unreadable,
}

const MET: [(Met, &str); 8] = [
    (Met::ByFrame, "an element set by a frame"),
    (Met::ByMergedCall, "an element set by a merged call"),
    (Met::ByGoingBack, "an element set by a going back"),
    (Met::Equal, "an element set to what it held"),
    (Met::Twice, "an element set twice by one record"),
    (Met::Same, "a going back with nothing different"),
    (Met::Miscounted, "another number of values than of elements"),
    (Met::Unreadable, "a change that is not readable"),
];

/// The counts of a journal.
#[derive(Default)]
pub struct Reached {
    /// Lines of what was set, goings back with nothing different among them.
    pub set: u64,
    /// Lines of what was not.
    pub not: u64,
    refusals: Counts,
    errors: Counts,
    met: [u64; MET.len()],
}

impl Reached {
    /// A record, and the lines that are due of it.
    pub fn count(&mut self, record: &Record, due: &[Due]) {
        let set = due.iter().filter(|due| due.what.is_done()).count();
        self.set += set as u64;
        self.not += (due.len() - set) as u64;
        self.meet(Met::Twice, is_any_twice(due));
        due.iter().for_each(|due| self.count_line(record, &due.what));
    }

    fn count_line(&mut self, record: &Record, what: &What) {
        match what {
            What::Told(Told::Set { old, new, .. }) => {
                self.meet(setter(record), true);
                self.meet(Met::Equal, old == new);
            }
            What::Told(Told::Same(_)) => self.meet(Met::Same, true),
            What::Told(Told::Not(tried, why)) => {
                self.meet(Met::Unreadable, *tried == Tried::Unreadable);
                self.count_why(*why);
            }
            What::Sent(Sent { index, why, .. }) => {
                self.meet(Met::Miscounted, index.is_none());
                self.count_why(*why);
            }
        }
    }

    fn meet(&mut self, met: Met, is_met: bool) {
        self.met[place(met, &MET)] += u64::from(is_met);
    }

    fn count_why(&mut self, why: Why) {
        match why {
            Why::Refused(number) => self.refusals.add(number),
            Why::Error(word) => self.errors.add(word as u8),
        }
    }

    /// The last line, after so many records.
    pub fn last_line(&self, records: u64) -> String {
        last_line(self.set, self.not, records)
    }

    /// What no record has reached.
    pub fn missing(&self) -> Vec<String> {
        let refusals = self.refusals.unmet(&REFUSALS).map(|number| format!("refusal {number}"));
        let errors = self.errors.unmet(&ERRORS).map(|word| format!("error {word:02X}"));
        unmet(&self.met, &names(&MET)).map(String::from).chain(refusals).chain(errors).collect()
    }
}

/// Who set an element. A cycle sets none.
fn setter(record: &Record) -> Met {
    match record {
        Record::Frame(_, Sending::Alone, _) => Met::ByFrame,
        Record::Frame(_, Sending::Merged, _) => Met::ByMergedCall,
        Record::Cycle(..) | Record::GoBack(..) => Met::ByGoingBack,
    }
}

/// Whether an element is set twice in these lines of a record.
fn is_any_twice(due: &[Due]) -> bool {
    let mut met = HashSet::new();
    let mut is_again = |due: &Due| match &due.what {
        What::Told(Told::Set { name, .. }) => !met.insert(name.clone()),
        _ => false,
    };
    due.iter().any(&mut is_again)
}

#[cfg(test)]
mod tests {
    use super::*;
    use twin::Address;

    /// What was reached before this record with these lines and not after, of all that there is.
    fn reached(record: &Record, whats: &[What]) -> (u64, u64, Vec<String>) {
        let mut reached = Reached::default();
        let all = reached.missing();
        let due = |what: &What| Due { record: 1, farm: 2, axis: 2, what: what.clone() };
        reached.count(record, &whats.iter().map(due).collect::<Vec<_>>());
        let missing = reached.missing();
        (reached.set, reached.not, all.into_iter().filter(|name| !missing.contains(name)).collect())
    }

    #[test]
    fn what_each_line_reaches() {
        let set =
            |index: u16, old, new| What::Told(Told::Set { name: format!("PNU 9901[{index}]"), old, new, back: None });
        let not = |tried, number| What::Told(Told::Not(tried, Why::Refused(number)));
        let sent = |index, why| {
            let address = Address { attribute: 0x10, elements: 1, pnu: 9901, sub_index: 0 };
            What::Sent(Sent { address, index, values: Vec::new(), why })
        };
        let frame = |sending| Record::Frame(2, sending, Vec::new());
        let (alone, merged, back) = (frame(Sending::Alone), frame(Sending::Merged), Record::GoBack(2, 1));
        let names = |names: &[&str]| names.iter().map(|name| name.to_string()).collect::<Vec<_>>();
        assert_eq!(reached(&alone, &[set(0, 1, 2), set(1, 1, 2)]), (2, 0, names(&[MET[0].1])));
        assert_eq!(reached(&merged, &[set(0, 1, 2), set(0, 2, 3)]), (2, 0, names(&[MET[1].1, MET[4].1])));
        assert_eq!(reached(&back, &[set(0, 2, 2)]), (1, 0, names(&[MET[2].1, MET[3].1])));
        assert_eq!(reached(&back, &[What::Told(Told::Same(1))]), (1, 0, names(&[MET[5].1])));
        assert_eq!(reached(&back, &[not(Tried::Back(1), 14)]), (0, 1, names(&["refusal 14"])));
        assert_eq!(reached(&alone, &[not(Tried::Unreadable, 10)]), (0, 1, names(&[MET[7].1, "refusal 10"])));
        let failed = [sent(Some(0), Why::Error(0x0F)), sent(None, Why::Error(0x18))];
        assert_eq!(reached(&alone, &failed), (0, 2, names(&[MET[6].1, "error 0F", "error 18"])));
        assert_eq!(reached(&alone, &[]), (0, 0, Vec::new()));
    }
}
