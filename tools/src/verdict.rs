//! The words for a check of two blocks.
//!
//! Whether a response answers a request is the library's to say, by a number (`face::check`). The words beside the number tell
//! what the twin reads in the two blocks, or why one is not readable (`faults`).

use crate::faults;
use crate::layout::{Block, Side};
use crate::sending::{FAILED, INDEX, READ, WRITE};
use crate::words::counted;
use std::fmt::{self, Display, Formatter};

/// What is said of an answer.
#[derive(Clone, Debug, PartialEq, Eq)]
pub enum Verdict {
    /// The response passes every check.
    Yes,
    /// The first check that failed, in words.
    No(String),
    /// The partner refused the frame, with this code.
    Refused(u8),
}

impl Display for Verdict {
    fn fmt(&self, f: &mut Formatter) -> fmt::Result {
        match self {
            Verdict::Yes => write!(f, "yes"),
            Verdict::No(words) => write!(f, "no: {words}"),
            Verdict::Refused(code) => write!(f, "refused with code {code:02X}"),
        }
    }
}

/// The verdict on a response block, by the library's number: 0 for yes, else that of the first check that failed.
pub fn verdict(number: u8, request: &[u8], response: &[u8]) -> Verdict {
    let words = match number {
        0 => return Verdict::Yes,
        1 => unreadable(Side::Request, request),
        2 => unreadable(Side::Response, response),
        _ => found(number, request, response).unwrap_or_else(|| plain(number).to_string()),
    };
    Verdict::No(format!("check {number}, {words}"))
}

fn unreadable(side: Side, block: &[u8]) -> String {
    let which = if side == Side::Request { "request" } else { "response" };
    let words = format!("the {which} block ({}) is not readable", counted(block.len(), "byte"));
    if is_like_a_frame(block) {
        return format!("{words}: it looks like a frame, whose first four bytes must be left out");
    }
    match faults::fault(side, block) {
        Some(fault) => format!("{words}: {fault}"),
        None => words,
    }
}

/// Its slot stands where a block has an identifier, which is never 0; another may be one, so that the length byte must be right too.
fn is_like_a_frame(block: &[u8]) -> bool {
    match block {
        [READ | WRITE, 0, INDEX, ..] => true,
        [READ | WRITE, _, INDEX, length, rest @ ..] => usize::from(*length) == rest.len(),
        _ => false,
    }
}

/// What stands in two readable blocks that fails this check; none where the twin does not find it.
fn found(number: u8, request: &[u8], response: &[u8]) -> Option<String> {
    let (request, response) = (Block::of_request(request)?, Block::of_response(response)?);
    let unlike = |what: &str, of: fn(&Block) -> String| {
        let (asked, answered) = (of(&request), of(&response));
        (answered != asked).then(|| format!("the response's {what} is {answered}, the request's {asked}"))
    };
    let matching = [request.identifier, request.identifier | FAILED];
    match number {
        3 => unlike("reference", |block| format!("{:02X}", block.reference)),
        4 => unlike("axis", |block| block.axis.to_string()),
        5 => unlike("number of parameters", |block| block.count.to_string()),
        6 if !matching.contains(&response.identifier) => {
            unlike("identifier", |block| format!("{:02X}", block.identifier))
                .map(|words| format!("{words}, which {:02X} or {:02X} answers", matching[0], matching[1]))
        }
        7 => miscounted(&request, &response),
        _ => None,
    }
}

/// The first parameter whose block of values has another count than the elements asked.
fn miscounted(request: &Block, response: &Block) -> Option<String> {
    let at = request.first_miscounted(response)?;
    let (address, block) = (request.addresses[at], &response.values[at]);
    let asked = match address.elements {
        0 => "0 elements were asked, which count as 1".to_string(),
        1 => "1 element was asked".to_string(),
        elements => format!("{elements} elements were asked"),
    };
    let values = counted(block.values.len(), "value");
    Some(format!("parameter {} of {} has {values}, {asked}", at + 1, request.count))
}

/// A check that failed, without what stands in the blocks.
fn plain(number: u8) -> &'static str {
    match number {
        3 => "the response has another reference than the request",
        4 => "the response has another axis than the request",
        5 => "the response has another number of parameters than the request",
        6 => "the response's identifier does not match the request's",
        7 => "a block of values has another count than the elements asked",
        _ => "which is none of 1 to 7",
    }
}

#[cfg(test)]
mod tests {
    use super::*;
    use crate::hex::bytes;

    /// Two marks and a simple parameter asked with 0 elements.
    const ASKED: &str = "07 01 01 02  10 02 75 31 00 00  10 00 03 A2 00 00";
    const VALUES: &str = "07 01 01 02  42 02 00 00 00 00  42 01 00 01";
    /// Document 01's change of two marks, and its response.
    const WRITE_OF_MARKS: &str = "5F 00 2F 10 07 02 01 01 10 02 75 31 00 00 42 02 03 E8 0B B9";
    const RESPONSE: &str = "5E 00 2F 08 07 82 01 01 44 01 00 02";

    /// The words for two blocks in hex, with the twin as the checker.
    fn said(request: &str, response: &str) -> String {
        let (request, response) = (bytes(request).unwrap(), bytes(response).unwrap());
        verdict(twin::check(&request, &response), &request, &response).to_string()
    }
    #[test]
    fn words_for_every_check() {
        let asked = |response: &str| said(ASKED, response);
        assert_eq!(asked(VALUES), "yes");
        let short = "the request block (1 byte) is not readable: it is under 4 bytes";
        assert_eq!(said("07", VALUES), format!("no: check 1, {short}"));
        let cut = "the response block (6 bytes) is not readable: it is cut where bytes 7 to 10 should be values";
        assert_eq!(asked("07 01 01 02 42 02"), format!("no: check 2, {cut}"));
        assert_eq!(asked("06 02 01 02"), "no: check 3, the response's reference is 06, the request's 07");
        assert_eq!(asked("07 02 10 02"), "no: check 4, the response's axis is 16, the request's 1");
        assert_eq!(asked("07 02 01 03"), "no: check 5, the response's number of parameters is 3, the request's 2");
        let identifiers = "the response's identifier is 02, the request's 01, which 01 or 81 answers";
        assert_eq!(asked("07 02 01 02"), format!("no: check 6, {identifiers}"));
        let change = "07 02 01 01 10 01 26 AC 00 00 42 01 00 00";
        let identifiers = "the response's identifier is 81, the request's 02, which 02 or 82 answers";
        assert_eq!(said(change, "07 81 01 01 44 01 00 02"), format!("no: check 6, {identifiers}"));
    }

    #[test]
    fn words_for_counts() {
        let first = |values: &str| said(ASKED, &format!("07 01 01 02 {values} 42 01 00 01"));
        assert_eq!(first("42 01 00 00"), "no: check 7, parameter 1 of 2 has 1 value, 2 elements were asked");
        assert_eq!(first("41 03 00 00 00 00"), "no: check 7, parameter 1 of 2 has 3 values, 2 elements were asked");
        let second = said(ASKED, "07 81 01 02 44 01 00 16 43 02 00 00 00 00 00 00 00 00");
        assert_eq!(second, "no: check 7, parameter 2 of 2 has 2 values, 0 elements were asked, which count as 1");
        let one = said("07 01 01 01 10 01 03 A2 00 00", "07 01 01 01 42 02 00 00 00 00");
        assert_eq!(one, "no: check 7, parameter 1 of 1 has 2 values, 1 element was asked");
    }

    #[test]
    fn blocks_that_are_too_long_or_look_like_frames() {
        let (long, over) = ("00".repeat(241), "block (241 bytes) is not readable: it is over 240 bytes");
        assert_eq!(said(&long, VALUES), format!("no: check 1, the request {over}"));
        assert_eq!(said(ASKED, &long), format!("no: check 2, the response {over}"));
        let frame = "is not readable: it looks like a frame, whose first four bytes must be left out";
        assert_eq!(said(WRITE_OF_MARKS, RESPONSE), format!("no: check 1, the request block (20 bytes) {frame}"));
        assert_eq!(said(ASKED, RESPONSE), format!("no: check 2, the response block (12 bytes) {frame}"));
        assert_eq!(said(ASKED, "5E 00 2F 09"), format!("no: check 2, the response block (4 bytes) {frame}"));
        let other_slot = RESPONSE.replacen("00", "01", 1);
        assert_eq!(said(ASKED, &other_slot), format!("no: check 2, the response block (12 bytes) {frame}"));
        let axis_47 = "is not readable: it is cut where byte 5 should be a format";
        assert_eq!(said(ASKED, "5E 01 2F 02"), format!("no: check 2, the response block (4 bytes) {axis_47}"));
    }

    #[test]
    fn a_check_that_the_twin_does_not_find_is_named_all_the_same() {
        let words = [
            "the response has another reference than the request",
            "the response has another axis than the request",
            "the response has another number of parameters than the request",
            "the response's identifier does not match the request's",
            "a block of values has another count than the elements asked",
            "which is none of 1 to 7",
        ];
        let good = (bytes(ASKED).unwrap(), bytes(VALUES).unwrap());
        for (number, words) in (3..).zip(words) {
            let plain = Verdict::No(format!("check {number}, {words}"));
            assert_eq!(verdict(number, &good.0, &good.1), plain);
            assert_eq!(verdict(number, &[], &[]), plain);
        }
        let unreadable = |number, words: &str| Verdict::No(format!("check {number}, the {words} is not readable"));
        assert_eq!(verdict(1, &good.0, &good.1), unreadable(1, "request block (16 bytes)"));
        assert_eq!(verdict(2, &good.0, &good.1), unreadable(2, "response block (14 bytes)"));
        let failed = bytes("07 81 01 02 44 01 00 00 44 01 00 00").unwrap();
        assert_eq!(verdict(6, &good.0, &failed), Verdict::No(format!("check 6, {}", words[3])));
    }
}
