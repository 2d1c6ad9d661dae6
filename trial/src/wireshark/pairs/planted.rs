//! That a mistake in a pair would be seen: of some pairs that pass every other number is said, and every byte is
//! altered. Those that decide must be noticed, and no others.

use super::{numbers_left, Pair, NUMBERS};
use crate::wireshark::planted::altered;
use std::path::Path;

/// A pair that passes: each block, and the places of the bytes in it that decide so.
pub(super) type Passing = [(&'static [u8], &'static [usize]); 2];

pub(super) const PASSING: [Passing; 5] = [
    // Values of two sizes.
    [
        (&[7, 1, 1, 2, 16, 2, 0x75, 0x31, 0, 0, 16, 4, 0x26, 0xAD, 0, 0], &[0, 1, 2, 3, 5, 11]),
        (&[7, 1, 1, 2, 0x42, 2, 0x03, 0xE8, 0x0B, 0xB8, 0x41, 4, 1, 2, 3, 4], &[0, 1, 2, 3, 4, 5, 10, 11]),
    ],
    // One byte and its fill; 1 element asked is altered to 0, which counts as 1.
    [(&[7, 1, 1, 1, 16, 1, 0x03, 0xC5, 0, 0], &[0, 1, 2, 3]), (&[7, 1, 1, 1, 0x41, 1, 3, 0], &[0, 1, 2, 3, 4, 5, 7])],
    // An error beside a value.
    [
        (&[7, 1, 1, 2, 16, 2, 0x75, 0x31, 0, 0, 16, 1, 0x03, 0x84, 0, 0], &[0, 1, 2, 3, 5]),
        (&[7, 0x81, 1, 2, 0x42, 2, 0x03, 0xE8, 0x0B, 0xB8, 0x44, 1, 0, 0], &[0, 1, 2, 3, 4, 5, 10, 11]),
    ],
    // A change, of which the elements decide nothing.
    [
        (&[7, 2, 1, 1, 16, 2, 0x75, 0x31, 0, 0, 0x42, 2, 0x03, 0xE8, 0x0B, 0xB8], &[0, 1, 2, 3, 10, 11]),
        (&[7, 2, 1, 1], &[0, 1, 2, 3]),
    ],
    // A change that failed.
    [
        (
            &[7, 2, 1, 2, 16, 1, 0x75, 0x31, 0, 0, 16, 1, 0x75, 0x31, 0, 1, 6, 1, 0, 1, 6, 1, 0, 2],
            &[0, 1, 2, 3, 16, 17, 20, 21],
        ),
        (&[7, 0x82, 1, 2, 0x40, 0, 0x44, 1, 0, 2], &[0, 1, 2, 3, 4, 5, 6, 7]),
    ],
];

/// The pair with each number that is not its own, and with each byte of a block altered and its own number; and of each
/// whether that is a mistake.
fn mistakes([(request, in_request), (response, in_response)]: &Passing) -> Vec<(Pair, bool)> {
    let pair = |what, request: Vec<u8>, response: Vec<u8>, number| Pair { what, request, response, number };
    let said = |number: u8| (pair(format!("{number} said"), request.to_vec(), response.to_vec(), number), true);
    let asked = |at: usize| {
        let what = format!("byte {at} of {request:02X?} altered");
        (pair(what, altered(request, at), response.to_vec(), 0), in_request.contains(&at))
    };
    let answered = |at: usize| {
        let what = format!("byte {at} of {response:02X?} altered");
        (pair(what, request.to_vec(), altered(response, at), 0), in_response.contains(&at))
    };
    let bytes = (0..request.len()).map(asked).chain((0..response.len()).map(answered));
    NUMBERS[1..].iter().map(|number| said(*number)).chain(bytes).collect()
}

/// Whether mistakes that are planted in pairs are found, and no alteration is taken for one that is none.
pub fn found(capture: &Path) -> Result<bool, String> {
    let (pairs, mistaken): (Vec<Pair>, Vec<bool>) = PASSING.iter().flat_map(mistakes).unzip();
    let left = numbers_left(capture, &pairs)?;
    let found: Vec<bool> = pairs.iter().zip(&left).map(|(pair, numbers)| !numbers.contains(&pair.number)).collect();
    for (pair, _) in pairs.iter().zip(found.iter().zip(&mistaken)).filter(|(_, (found, mistaken))| found != mistaken) {
        println!("planted and not told right: {}", pair.what);
    }
    let count = |which: &[bool]| which.iter().filter(|one| **one).count();
    println!("{} pairs with {} mistakes planted: {} found", pairs.len(), count(&mistaken), count(&found));
    Ok(found == mistaken)
}
