//! Attempts to change something: what a record asked to be stored, and what came of it.
//!
//! Each element of a change is an attempt, and so is each going back. What was stored is told by the library's response to the change,
//! and the old values are what it held before. What it then holds must be what was told.

use crate::journal::Record;
use crate::layout::{Block, Side, Values, CHANGE, HEADER, VALUE};
use crate::played::{After, Answer, Framed, Played};
use crate::sending::{Sending, WRITE};
use crate::{faults, notation, settings, words};
use twin::{Address, Parameter, AXES};

/// Error of an address with a value outside its limits.
const LIMITS: u16 = 0x02;

/// What was asked of an axis, and what came of it.
#[derive(Clone, Debug, PartialEq, Eq)]
pub struct Attempt {
    /// The axis that was named.
    pub axis: u8,
    /// What of it was to be changed.
    pub target: Target,
    /// What came of it.
    pub outcome: Outcome,
}

/// What was to be changed.
#[derive(Clone, Debug, PartialEq, Eq)]
pub enum Target {
    /// An element, to this value.
    Element(Element, i64),
    /// An address with another number of values than of elements.
    Address(Address, Values),
    /// Nothing can be said of a block that is not readable, but why it is not.
    Unreadable(String),
    /// All settings, to those of this version.
    Version(u16),
}

/// An element that a request names, whether there is one or not.
#[derive(Clone, Copy, Debug, PartialEq, Eq)]
pub struct Element {
    /// The attribute by which it is named.
    pub attribute: u8,
    /// Its parameter.
    pub pnu: u16,
    /// Its index. Of several elements behind a sub-index it may be more than a sub-index can be.
    pub index: u32,
}

/// What came of an attempt.
#[derive(Clone, Copy, Debug, PartialEq, Eq)]
pub enum Outcome {
    /// It was stored over this value; by going back to a version, if that was it.
    Set(i64, Option<u16>),
    /// It was stored, and is what it was: a going back to settings that are there.
    Same,
    /// The call was refused with this number.
    Refused(u8),
    /// Its address failed with this error.
    Failed(u16),
    /// Its value is outside these limits.
    Outside(i32, i32),
    /// Its address failed, as this element of it is the first with a value outside its limits.
    Beside(Element),
}

/// The settings that each farm holds.
pub struct Held {
    all: Vec<(u16, u16)>,
    farms: Vec<Vec<i32>>,
}

impl Held {
    /// Those of a fresh station, of which each farm holds these.
    pub fn fresh(settings: &[i32]) -> Held {
        Held { all: settings::all(), farms: vec![settings.to_vec(); AXES] }
    }

    /// The attempts of the next record. Of a going back those are the elements that came out different, or one at the version where none
    /// did; with `each`, all of its elements. The error is that the library holds something else than would be told.
    pub fn attempts(&mut self, played: &Played, each: bool) -> Result<Vec<Attempt>, String> {
        let attempts = match (&played.record, &played.answer) {
            (Record::Frame(farm, sending, frame), Answer::Framed(framed)) => {
                let attempts = self.changes(*farm, frame, response(*sending, framed), framed.number)?;
                counted_as(attempts, framed.stored)?
            }
            (Record::GoBack(farm, version), Answer::Returned(returned)) => match &played.after {
                Some(after) => self.returned(*farm, *version, after, each),
                None => vec![back(*farm, *version, Outcome::Refused(returned.number))],
            },
            _ => Vec::new(),
        };
        let held = self.of(played.record.owner());
        match &played.after {
            Some(After { settings, .. }) if held.is_none_or(|held| held != settings) => {
                Err("the library holds other settings than it said it stored".to_string())
            }
            _ => Ok(attempts),
        }
    }

    /// What a farm holds; none where there is no such farm.
    fn of(&mut self, farm: u8) -> Option<&mut Vec<i32>> {
        self.farms.get_mut(usize::from(farm).checked_sub(1)?)
    }

    /// Stores a value, and answers the old one.
    fn store(&mut self, farm: u8, element: Element, value: i64) -> Option<i64> {
        let place =
            self.all.iter().position(|(pnu, index)| (*pnu, u32::from(*index)) == (element.pnu, element.index))?;
        let value = value.try_into().ok()?;
        self.of(farm).map(|held| std::mem::replace(&mut held[place], value).into())
    }

    /// The attempts of a frame with this response, none where it is no change.
    fn changes(&mut self, farm: u8, frame: &[u8], response: &[u8], number: u8) -> Result<Vec<Attempt>, String> {
        let [WRITE, _, _, _, block @ ..] = frame else { return Ok(Vec::new()) };
        let [_, CHANGE, axis, ..] = *block else { return Ok(Vec::new()) };
        let Some(change) = Block::of_request(block) else {
            let target = Target::Unreadable(faults::fault(Side::Request, block).unwrap_or_default());
            return Ok(vec![Attempt { axis, target, outcome: Outcome::Refused(number) }]);
        };
        let errors = match number {
            0 => errors(&change, response).ok_or("the library's response is none to this change")?,
            _ => vec![None; change.addresses.len()],
        };
        let mut attempts = Vec::new();
        for ((address, values), error) in change.addresses.iter().zip(&change.values).zip(errors) {
            let outcome = refused(number).or_else(|| error.map(|error| failed(error, address, values)));
            attempts.extend(targets(address, values).into_iter().map(|target| (target, outcome)));
        }
        attempts.into_iter().map(|(target, outcome)| self.attempt(farm, axis, target, outcome)).collect()
    }

    /// An attempt whose address came out so; with no outcome it was stored.
    fn attempt(&mut self, farm: u8, axis: u8, target: Target, of_address: Option<Outcome>) -> Result<Attempt, String> {
        let outcome = match (&target, of_address) {
            (Target::Element(element, value), Some(Outcome::Beside(_))) => outside(element.pnu, *value).or(of_address),
            (Target::Element(element, value), None) => {
                self.store(farm, *element, *value).map(|old| Outcome::Set(old, None))
            }
            _ => of_address,
        };
        let outcome = outcome.ok_or("the library stored something that is no setting")?;
        Ok(Attempt { axis, target, outcome })
    }

    /// What a going back of a farm stored.
    fn returned(&mut self, farm: u8, version: u16, after: &After, each: bool) -> Vec<Attempt> {
        let before = self.of(farm).map(|held| std::mem::replace(held, after.settings.clone())).unwrap_or_default();
        let mut attempts = Vec::new();
        for ((pnu, index), (old, new)) in self.all.iter().zip(before.iter().zip(&after.settings)) {
            let element = Element { attribute: VALUE, pnu: *pnu, index: (*index).into() };
            if each || old != new {
                let target = Target::Element(element, (*new).into());
                attempts.push(Attempt { axis: farm, target, outcome: Outcome::Set((*old).into(), Some(version)) });
            }
        }
        if attempts.is_empty() {
            attempts.push(back(farm, version, Outcome::Same));
        }
        attempts
    }
}

/// The attempts of a frame, where as many were stored as the library counts.
fn counted_as(attempts: Vec<Attempt>, stored: u16) -> Result<Vec<Attempt>, String> {
    let set = attempts.iter().filter(|attempt| matches!(attempt.outcome, Outcome::Set(..))).count();
    match set == usize::from(stored) {
        true => Ok(attempts),
        false => {
            Err(format!("the library counts {} stored, by its response {set} were", words::counted(stored, "element")))
        }
    }
}

/// A going back of a farm as a whole.
fn back(farm: u8, version: u16, outcome: Outcome) -> Attempt {
    Attempt { axis: farm, target: Target::Version(version), outcome }
}

/// The reply with the response to a change that was done.
fn response(sending: Sending, framed: &Framed) -> &[u8] {
    match sending {
        Sending::Alone => &framed.waiting,
        Sending::Merged => &framed.reply,
    }
}

/// The error of each address by the reply to its change, none where it was stored.
fn errors(change: &Block, reply: &[u8]) -> Option<Vec<Option<u16>>> {
    let response = Block::of_response(reply.get(HEADER..)?)?;
    let addresses = change.addresses.len();
    if response.identifier == CHANGE {
        return Some(vec![None; addresses]);
    }
    let errors: Vec<_> = response.values.iter().map(Values::error_word).collect();
    (errors.len() == addresses).then_some(errors)
}

fn refused(number: u8) -> Option<Outcome> {
    (number != 0).then_some(Outcome::Refused(number))
}

/// How an address fails with this error.
fn failed(error: u16, address: &Address, values: &Values) -> Outcome {
    let first = elements(address, values).find(|(element, value)| outside(element.pnu, *value).is_some());
    match first {
        Some((element, _)) if error == LIMITS => Outcome::Beside(element),
        _ => Outcome::Failed(error),
    }
}

/// That a value is outside its parameter's limits, if it is.
fn outside(pnu: u16, value: i64) -> Option<Outcome> {
    let (low, high) = Parameter::find(pnu)?.limits()?;
    (value < low.into() || value > high.into()).then_some(Outcome::Outside(low, high))
}

/// The elements of an address with the values that they are given.
fn elements<'a>(address: &'a Address, values: &'a Values) -> impl Iterator<Item = (Element, i64)> + 'a {
    let element = |index| Element { attribute: address.attribute, pnu: address.pnu, index };
    let values = values.values.iter().map(|bits| notation::number(address.pnu, values.size, *bits));
    (u32::from(address.sub_index)..).map(element).zip(values)
}

/// What an address asks for: each element by itself, where it has a value. 0 elements count as 1, but not in an array.
fn targets(address: &Address, values: &Values) -> Vec<Target> {
    let of_array = Parameter::find(address.pnu).is_some_and(|parameter| parameter.array_length().is_some());
    let count = if of_array { address.elements } else { address.elements.max(1) };
    if count == 0 || values.values.len() != usize::from(count) {
        return vec![Target::Address(*address, values.clone())];
    }
    elements(address, values).map(|(element, value)| Target::Element(element, value)).collect()
}
