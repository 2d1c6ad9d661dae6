//! Which lines `who` must have of a record, by what the library answered and holds.

use super::attempts::{Told, Tried, Why};
use super::due::{element_name, readings, Readings, Sent, What};
use std::collections::BTreeMap;
use std::mem;
use std::ops::Range;
use tools::layout::{Block, Values};
use tools::sending::{FAILED, WRITE};
use twin::{Address, Parameter};

/// Identifier of a change, and of a response to one that stored all.
const CHANGE: u8 = 0x02;
/// Identifier of a response to a change of which an address failed.
const CHANGE_FAILED: u8 = CHANGE | FAILED;
/// Number of a write whose block is not readable.
const UNREADABLE: u8 = 10;

/// The settings of a farm, by parameter and index.
pub type Settings = BTreeMap<(u16, u16), i64>;

/// The axis and the block of a frame that tries a change, whatever else is wrong with it; none for other frames.
pub fn tried_by(frame: &[u8]) -> Option<(u8, &[u8])> {
    match frame {
        [WRITE, _, _, _, block @ ..] => match block {
            [_, CHANGE, axis, ..] => Some((*axis, block)),
            _ => None,
        },
        _ => None,
    }
}

/// What is due of a block that tries a change, answered with this number and response. What the farm holds becomes what
/// it must hold then.
pub fn of_change(block: &[u8], number: u8, response: &[u8], held: &mut Settings) -> Result<Vec<What>, String> {
    let why = Why::Refused(number);
    match (Block::of_request(block), number) {
        (None, 0) => Err("the library does a change that is not readable".to_string()),
        (Some(_), UNREADABLE) => Err("the library does not read a change that is readable".to_string()),
        (None, _) => Ok(vec![What::Told(Told::Not(Tried::Unreadable, why))]),
        (Some(request), 0) => worked(&request, response, held),
        (Some(request), _) => {
            let sent = request.addresses.iter().zip(&request.values);
            Ok(sent.flat_map(|(address, values)| not_stored(address, values, why)).collect())
        }
    }
}

/// What is due of a change that was worked, address by address.
fn worked(request: &Block, response: &[u8], held: &mut Settings) -> Result<Vec<What>, String> {
    let errors = errors(request.addresses.len(), response)
        .ok_or_else(|| format!("the library answers a change with {response:02X?}"))?;
    let mut due = Vec::new();
    for ((address, values), error) in request.addresses.iter().zip(&request.values).zip(errors) {
        due.extend(match error {
            Some(why) => not_stored(address, values, why),
            None => stored(address, values, held).ok_or_else(|| format!("the library stores in {address:?}"))?,
        });
    }
    Ok(due)
}

/// The errors of so many addresses; none where this is no response to a change of them.
fn errors(addresses: usize, response: &[u8]) -> Option<Vec<Option<Why>>> {
    let response = Block::of_response(response).filter(|response| usize::from(response.count) == addresses)?;
    let error = |answer: &Values| answer.is_error().then(|| Why::Error(answer.values[0] as u16));
    match response.identifier {
        CHANGE => Some(vec![None; addresses]),
        CHANGE_FAILED => Some(response.values.iter().map(error).collect()),
        _ => None,
    }
}

/// The indices of the elements that values were sent to; none where these are not as many. 0 elements count as 1, but not in an array.
fn indices(address: &Address, values: &Values) -> Option<Range<u32>> {
    let is_array = Parameter::find(address.pnu).is_some_and(|parameter| parameter.array_length().is_some());
    let (first, elements) = (u32::from(address.sub_index), u32::from(address.elements.max(1)));
    let as_many = values.values.len() == elements as usize && !(is_array && address.elements == 0);
    as_many.then_some(first..first + elements)
}

fn not_stored(address: &Address, values: &Values, why: Why) -> Vec<What> {
    let sent = |index, values| What::Sent(Sent { address: *address, index, values, why });
    let readings = readings(address.pnu, values);
    match indices(address, values) {
        Some(indices) => indices.zip(readings).map(|(index, value)| sent(Some(index), vec![value])).collect(),
        None => vec![sent(None, readings)],
    }
}

/// None where an element is no setting.
fn stored(address: &Address, values: &Values, held: &mut Settings) -> Option<Vec<What>> {
    let set = |(index, [new, _]): (u32, Readings)| {
        let element = (address.pnu, u16::try_from(index).ok()?);
        let old = mem::replace(held.get_mut(&element)?, new);
        Some(What::Told(Told::Set { name: element_name(address.pnu, index), old, new, back: None }))
    };
    indices(address, values)?.zip(readings(address.pnu, values)).map(set).collect()
}

/// What is due of a going back to a version, answered with this number.
pub fn of_going_back(version: u16, number: u8, before: &Settings, after: &Settings) -> Vec<What> {
    if number != 0 {
        return vec![What::Told(Told::Not(Tried::Back(version), Why::Refused(number)))];
    }
    let differing = before.iter().zip(after.values()).filter(|((_, old), new)| old != new);
    let set = |(((pnu, index), old), new): ((&(u16, u16), &i64), &i64)| {
        let name = element_name(*pnu, (*index).into());
        What::Told(Told::Set { name, old: *old, new: *new, back: Some(version) })
    };
    let due: Vec<What> = differing.map(set).collect();
    if due.is_empty() {
        return vec![What::Told(Told::Same(version))];
    }
    due
}

#[cfg(test)]
mod tests {
    use super::*;
    use crate::who::due::Due;

    /// A change of PNU 30001[0..1], 9900 and 30001[1], then of 30002 by two values.
    const CHANGES: [u8; 48] = [
        7, 2, 3, 4, 16, 2, 0x75, 0x31, 0, 0, 16, 0, 0x26, 0xAC, 0, 0, 16, 1, 0x75, 0x31, 0, 1, 16, 1, 0x75, 0x32, 0, 0,
        0x42, 2, 0, 1, 0, 2, 6, 1, 0, 3, 0x42, 1, 0, 4, 6, 2, 0, 5, 0, 6,
    ];

    fn held() -> Settings {
        BTreeMap::from([((9900, 0), 3), ((30001, 0), 10), ((30001, 1), 11), ((30002, 0), 12), ((30004, 0), -13)])
    }

    fn lines(whats: Vec<What>) -> Vec<String> {
        let line = |what| Due { record: 7, farm: 3, axis: 3, what }.to_string();
        whats.into_iter().map(line).map(|line| line["record 7: farm 3 ".len()..].to_string()).collect()
    }

    #[test]
    fn a_change_that_is_worked() {
        let mut after = held();
        let response = [7, 0x82, 3, 4, 0x40, 0, 0x40, 0, 0x40, 0, 0x44, 1, 0, 0x18];
        let due = lines(of_change(&CHANGES, 0, &response, &mut after).unwrap());
        let expected = [
            "set axis 3, PNU 30001[0]: 10 -> 1",
            "set axis 3, PNU 30001[1]: 11 -> 2",
            "set axis 3, PNU 9900: 3 -> 3",
            "set axis 3, PNU 30001[1]: 2 -> 4",
            "tried axis 3, PNU 30002[0;1] = 5 6: ... (error 18)",
        ];
        assert_eq!(due, expected);
        let marks = [((30001, 0), 1), ((30001, 1), 4)];
        assert_eq!(after, held().into_iter().chain(marks).collect());
    }

    #[test]
    fn an_address_fails_whole() {
        let mut after = held();
        let response = [7, 0x82, 3, 4, 0x44, 1, 0, 2, 0x44, 1, 0, 2, 0x40, 0, 0x44, 1, 0, 0x18];
        let due = lines(of_change(&CHANGES, 0, &response, &mut after).unwrap());
        let expected = [
            "tried axis 3, PNU 30001[0] = 1: ... (error 02)",
            "tried axis 3, PNU 30001[1] = 2: ... (error 02)",
            "tried axis 3, PNU 9900 = 3: ... (error 02)",
            "set axis 3, PNU 30001[1]: 11 -> 4",
        ];
        assert_eq!(due[..4], expected);
        assert_eq!(after, held().into_iter().chain([((30001, 1), 4)]).collect());
    }

    #[test]
    fn a_change_that_is_refused() {
        let mut after = held();
        let due = lines(of_change(&CHANGES, 11, &[], &mut after).unwrap());
        assert_eq!((due.len(), due[3].as_str()), (5, "tried axis 3, PNU 30001[1] = 4: ... (11)"));
        let cut = lines(of_change(&CHANGES[..47], 7, &[], &mut after).unwrap());
        assert_eq!(cut, ["tried axis 3, a change that is not readable: ... (7)"]);
        assert_eq!(after, held());
    }

    #[test]
    fn answers_that_no_library_gives() {
        let all = [7, 2, 3, 4];
        assert!(of_change(&CHANGES[..47], 0, &all, &mut held()).is_err(), "not readable");
        assert!(of_change(&CHANGES, 10, &[], &mut held()).is_err(), "readable");
        assert!(of_change(&CHANGES, 0, &all, &mut held()).is_err(), "two values for one element");
        let mut without = held();
        without.remove(&(30001, 1));
        let response = [7, 0x82, 3, 4, 0x40, 0, 0x40, 0, 0x40, 0, 0x44, 1, 0, 0x18];
        assert!(of_change(&CHANGES, 0, &response, &mut without).is_err(), "no such setting");
        for response in [&[][..], &[7, 2, 3, 3], &[7, 1, 3, 1, 0x42, 1, 0, 1]] {
            assert!(of_change(&CHANGES, 0, response, &mut held()).is_err(), "{response:02X?}");
        }
    }

    #[test]
    fn frames_that_try_a_change() {
        assert_eq!(tried_by(&[0x5F, 0, 47, 3, 7, 2, 9]), Some((9, &[7, 2, 9][..])));
        assert_eq!(tried_by(&[0x5F, 9, 9, 9, 0, 2, 0, 1]), Some((0, &[0, 2, 0, 1][..])));
        let others: [&[u8]; 4] =
            [&[0x5F, 0, 47, 2, 7, 2], &[0x5E, 0, 47, 3, 7, 2, 9], &[0x5F, 0, 47, 3, 7, 1, 9], &[0x5F, 0, 47]];
        assert_eq!(others.map(tried_by), [None; 4]);
    }

    #[test]
    fn goings_back() {
        let after: Settings = held().into_iter().chain([((9900, 0), 4), ((30004, 0), 5)]).collect();
        let set = [
            "set axis 3, PNU 9900: 3 -> 4, back to version 2",
            "set axis 3, PNU 30004[0]: -13 -> 5, back to version 2",
        ];
        assert_eq!(lines(of_going_back(2, 0, &held(), &after)), set);
        let same = "went back to version 2 on axis 3: nothing different";
        assert_eq!(lines(of_going_back(2, 0, &held(), &held())), [same]);
        assert_eq!(lines(of_going_back(2, 14, &held(), &held())), ["tried axis 3, back to version 2: ... (14)"]);
    }
}
