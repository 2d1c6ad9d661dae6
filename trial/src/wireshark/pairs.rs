//! The pairs of the examples' checks, each as a request and its response in a capture of its own. What a pair means is
//! the number written there; it is compared with what the fields come to that Wireshark reads of the two blocks, as
//! `judged` says.
//!
//! Pairs with a block over 255 bytes are left out: a frame's length byte has no place for its length.

mod judged;
pub mod planted;
mod reading;

use super::examples::Example;
use super::{tshark, PRINTED};
use crate::blocks::{framed, replied};
use crate::cases::Step;
use crate::counts::Counts;
use std::fs;
use std::io;
use std::path::Path;
use tools::packets::{self, Answered};
use tools::sending::Sending;

/// What a checker may answer: 0, or the number of a check.
const NUMBERS: [u8; 8] = [0, 1, 2, 3, 4, 5, 6, 7];
/// A test of fewer pairs that Wireshark's fields alone decide says too little.
const LEAST: usize = 350;

/// A request block and a response block, and what the checker is said to answer.
struct Pair {
    /// Where it comes from.
    what: String,
    request: Vec<u8>,
    response: Vec<u8>,
    /// 0, or the number of the first check that failed.
    number: u8,
}

impl Pair {
    /// The pair that an example checks.
    fn of(Example { case, line }: &Example) -> Option<Pair> {
        let Step::Check { request, response, number } = &line.step else { return None };
        let what = format!("{case}, line {}", line.number);
        Some(Pair { what, request: request.clone(), response: response.clone(), number: *number })
    }

    /// Whether a frame's length byte can tell the length of both blocks.
    fn fits_in_frames(&self) -> bool {
        self.request.len().max(self.response.len()) <= u8::MAX.into()
    }

    /// The pair as a write that was done and the fetch of its response.
    fn exchanges(&self, record: u64) -> Vec<Answered> {
        let (frame, reply) = (framed(&self.request), replied(&self.response));
        Answered { record, farm: 1, frame, number: 0, stored: 0, reply }.by(Sending::Merged)
    }
}

/// Puts pairs in a capture and has Wireshark read it: the numbers that a checker may give for each.
fn numbers_left(capture: &Path, pairs: &[Pair]) -> Result<Vec<Vec<u8>>, String> {
    write(capture, pairs).map_err(|error| format!("{}: {error}", capture.display()))?;
    let packets = tshark::read(capture)?;
    if packets.len() != 4 * pairs.len() {
        return Err(format!("Wireshark sees {} packets of {} pairs", packets.len(), pairs.len()));
    }
    Ok(packets.chunks(4).map(|of_pair| judged::numbers(&of_pair[0], &of_pair[3])).collect())
}

fn write(path: &Path, pairs: &[Pair]) -> io::Result<()> {
    let exchanges = (1..).zip(pairs).flat_map(|(record, pair)| packets::of(&pair.exchanges(record)));
    fs::write(path, packets::head().into_iter().chain(exchanges).collect::<Vec<u8>>())
}

/// Whether the fields of each pair leave the number that is said of it; prints which do not, and what was decided.
pub fn agree(capture: &Path, examples: &[Example]) -> Result<bool, String> {
    let mut pairs: Vec<Pair> = examples.iter().filter_map(Pair::of).collect();
    let all = pairs.len();
    pairs.retain(Pair::fits_in_frames);
    let left = numbers_left(capture, &pairs)?;
    let differ: Vec<_> = pairs.iter().zip(&left).filter(|(pair, numbers)| !numbers.contains(&pair.number)).collect();
    for (Pair { what, number, .. }, numbers) in differ.iter().take(PRINTED) {
        println!("{what}: {number} is said, and the fields leave {numbers:?}");
    }
    let decided: Vec<u8> = left.iter().filter(|numbers| numbers.len() == 1).map(|numbers| numbers[0]).collect();
    println!("{} pairs with a block over 255 bytes left out", all - pairs.len());
    println!("{} pairs, {} decided by the fields alone: {} differences", pairs.len(), decided.len(), differ.len());
    enough(&decided)?;
    Ok(differ.is_empty())
}

/// Prints how often the fields alone say each number: none may be missing, nor all too few.
fn enough(decided: &[u8]) -> Result<(), String> {
    let mut alone = Counts::default();
    decided.iter().for_each(|number| alone.add(*number));
    println!("decided, by number: {}", alone.list(&NUMBERS));
    if let Some(number) = alone.unmet(&NUMBERS).next() {
        return Err(format!("no pair of which the fields alone say {number}"));
    }
    if decided.len() < LEAST {
        return Err(format!("fewer than {LEAST} pairs that the fields alone decide"));
    }
    Ok(())
}
