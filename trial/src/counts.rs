//! Counts of a run, by number and by name, and what of them no call has reached.

use crate::blocks::limits;
use std::collections::BTreeMap;
use tools::layout::{Block, Values};

/// Identifiers of responses.
const RESPONSES: [u8; 4] = [0x01, 0x02, 0x81, 0x82];
/// Error words of addresses.
const ERRORS: [u8; 11] = [0x00, 0x01, 0x02, 0x03, 0x04, 0x05, 0x09, 0x0F, 0x15, 0x16, 0x18];
/// The error of an address that has a value outside its limits.
const LIMITS: u8 = 0x02;
/// What there is to meet beside such an address.
const BESIDE: [&str; 2] = ["behind a stored address", "before one"];
/// Where one of several stands.
pub const PLACES: [&str; 4] = ["the only one", "the first", "one between", "the last"];

/// How often each number was met.
#[derive(Default)]
pub struct Counts(BTreeMap<u8, u64>);

impl Counts {
    /// This number was met.
    pub fn add(&mut self, number: u8) {
        *self.0.entry(number).or_default() += 1;
    }

    /// How often any was met.
    pub fn total(&self) -> u64 {
        self.0.values().sum()
    }

    fn times(&self, number: u8) -> u64 {
        self.0.get(&number).copied().unwrap_or(0)
    }

    /// These numbers, each with how often it was met.
    pub fn list(&self, numbers: &[u8]) -> String {
        self.told(numbers, |number| number.to_string())
    }

    fn list_in_hex(&self, numbers: &[u8]) -> String {
        self.told(numbers, |number| format!("{number:02X}"))
    }

    fn told(&self, numbers: &[u8], name: fn(u8) -> String) -> String {
        numbers.iter().map(|n| format!("{}: {}", name(*n), self.times(*n))).collect::<Vec<_>>().join(", ")
    }

    /// Those of these numbers that were never met.
    pub fn unmet<'a>(&'a self, numbers: &'a [u8]) -> impl Iterator<Item = u8> + 'a {
        numbers.iter().copied().filter(|number| self.times(*number) == 0)
    }
}

/// Names with how often each was met.
pub fn named(counts: &[u64], names: &[&str]) -> String {
    let each = names.iter().zip(counts).map(|(name, times)| format!("{name} {times}"));
    each.collect::<Vec<_>>().join(", ")
}

/// Where one of a kind stands in the table of their names, by which it is counted.
pub fn place<T: PartialEq>(of: T, names: &[(T, &str)]) -> usize {
    names.iter().position(|(known, _)| *known == of).expect("each has its name")
}

/// The names of a table.
pub fn names<T, const N: usize>(table: &[(T, &'static str); N]) -> [&'static str; N] {
    table.each_ref().map(|(_, name)| *name)
}

/// Which of these places the one at this index has, of so many.
pub fn place_among(at: usize, count: usize) -> usize {
    match (at, count - 1) {
        (0, 0) => 0,
        (0, _) => 1,
        (at, last) if at < last => 2,
        _ => 3,
    }
}

/// The names of what was never met.
pub fn unmet<'a>(counts: &'a [u64], names: &'a [&str]) -> impl Iterator<Item = &'a str> {
    names.iter().zip(counts).filter(|(_, times)| **times == 0).map(|(name, _)| *name)
}

/// What requests that were worked came to.
#[derive(Default)]
pub struct Worked {
    responses: Counts,
    errors: Counts,
    /// Addresses of one value outside its limits, by its place among those of the address.
    outside: [u64; PLACES.len()],
    beside: [u64; BESIDE.len()],
    changes_stored: u64,
    elements_stored: u64,
}

impl Worked {
    /// A request was answered with this response, and stored so many elements.
    pub fn count(&mut self, request: &[u8], response: &[u8], stored: u16) {
        self.changes_stored += u64::from(stored > 0);
        self.elements_stored += u64::from(stored);
        self.responses.add(response[1]);
        let Some((asked, answered)) = Block::of_request(request).zip(Block::of_response(response)) else { return };
        for (at, answer) in answered.values.iter().enumerate().filter(|(_, answer)| answer.is_error()) {
            let error = answer.values[0] as u8;
            self.errors.add(error);
            if error == LIMITS {
                self.count_limits(&asked, &answered, at);
            }
        }
    }

    /// The address at this index was not stored, since a value of it is outside its limits.
    fn count_limits(&mut self, asked: &Block, answered: &Block, at: usize) {
        let values = &asked.values[at].values;
        if let [one] = outside(asked.addresses[at].pnu, values)[..] {
            self.outside[place_among(one, values.len())] += 1;
        }
        let (before, after) = (&answered.values[..at], &answered.values[at + 1..]);
        for (count, answers) in self.beside.iter_mut().zip([before, after]) {
            *count += u64::from(answers.contains(&Values::zero()));
        }
    }

    /// What no request has come to.
    pub fn missing(&self) -> Vec<String> {
        let mut missing: Vec<String> = self.errors.unmet(&ERRORS).map(|error| format!("error {error:02X}")).collect();
        missing.extend(self.responses.unmet(&RESPONSES).map(|id| format!("response {id:02X}")));
        missing.extend(unmet(&[self.changes_stored], &["a stored element"]).map(String::from));
        let limits = unmet(&self.outside, &PLACES).chain(unmet(&self.beside, &BESIDE));
        missing.extend(limits.map(|name| format!("value outside its limits: {name}")));
        missing
    }

    /// The counts, named.
    pub fn lines(&self) -> [(&'static str, String); 4] {
        let Worked { changes_stored: changes, elements_stored: elements, .. } = self;
        let stored = format!("{changes} changes stored at least one element, {elements} elements");
        let (responses, errors) = (self.responses.list_in_hex(&RESPONSES), self.errors.list_in_hex(&ERRORS));
        let (places, beside) = (named(&self.outside, &PLACES), named(&self.beside, &BESIDE));
        let limits = format!("one value of an address outside: {places}; {beside}");
        [("responses", responses), ("errors", errors), ("limits", limits), ("stored", stored)]
    }
}

/// Where values stand that are outside the limits of this parameter. None that can be written is I16, so words have no sign.
fn outside(pnu: u16, values: &[u32]) -> Vec<usize> {
    let (low, high) = limits(pnu);
    (0..values.len()).filter(|at| !(low..=high).contains(&(values[*at] as i32))).collect()
}

#[cfg(test)]
mod tests {
    use super::*;
    use crate::blocks::framed;
    use tools::layout::HEADER;
    use twin::{Address, Station};

    /// A change of marks, with an address for each of these.
    fn change(marks: &[&[u32]]) -> Vec<u8> {
        let address = |count: usize| Address { attribute: 0x10, elements: count as u8, pnu: 30001, sub_index: 0 };
        let addresses = marks.iter().map(|values| address(values.len())).collect();
        let values = marks.iter().map(|values| Values { format: 0x42, size: 2, values: values.to_vec() }).collect();
        Block { reference: 7, identifier: 2, axis: 1, count: marks.len() as u8, addresses, values }.bytes()
    }

    #[test]
    fn where_a_value_is_outside() {
        let (mut worked, mut station) = (Worked::default(), Station::fresh());
        let mut work = |marks: &[&[u32]]| {
            let (request, mut reply) = (change(marks), [0; 244]);
            let done = station.exchange(1, &framed(&request), &mut reply);
            worked.count(&request, &reply[HEADER..done.length.into()], done.stored);
            (worked.outside, worked.beside)
        };
        assert_eq!(work(&[&[0, 3000]]), ([0, 0, 0, 0], [0, 0]), "none is");
        assert_eq!(work(&[&[3001]]), ([1, 0, 0, 0], [0, 0]));
        assert_eq!(work(&[&[1], &[3001, 1, 1]]), ([1, 1, 0, 0], [1, 0]));
        assert_eq!(work(&[&[1, 3001, 1], &[1]]), ([1, 1, 1, 0], [1, 1]));
        assert_eq!(work(&[&[1, 1, 65535]]), ([1, 1, 1, 1], [1, 1]));
        assert_eq!(work(&[&[1], &[3001, 1, 3001], &[1]]), ([1, 1, 1, 1], [2, 2]), "two are");
        let offsets = [-100_001, -100_000, -1, 100_000, 100_001].map(|offset: i32| offset as u32);
        assert_eq!(outside(30004, &offsets), [0, 4]);
    }
}
