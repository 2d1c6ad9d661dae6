//! Pairs judged by the fields that Wireshark reads of the two blocks, and by nothing else.
//!
//! Checks 1 and 2 of R-4 are made as `reading` says, and 3 to 7 of references, identifiers, axes and numbers of
//! parameters, the elements asked, and format and number of values of each block.
//!
//! Of each check the fields show that it passed or that it failed, or they hide it. Hidden is what follows a fill byte
//! in the middle of a block, but for the next format, and what follows an error 23, so that neither the counts there
//! are shown nor that the block is readable to its end; and whether a fill byte at the end of a request is a zero. Then
//! several numbers are left that a checker may give, and the one that is written must be among them; one alone is left
//! where all that decides is shown.

use super::reading::{Reading, Shown};
use crate::wireshark::fields::Field;
use tools::layout::Side;

/// The numbers that a checker may give for a pair, by the fields of its request and of its response.
pub(super) fn numbers(request: &[Field], response: &[Field]) -> Vec<u8> {
    left(shown(&Reading::of(request), &Reading::of(response)))
}

/// The seven checks.
fn shown(request: &Reading, response: &Reading) -> [Shown; 7] {
    let header = |at: usize, agree: fn(u32, u32) -> bool| match (request.header.get(at), response.header.get(at)) {
        (Some(asked), Some(answered)) => Shown::of(agree(*asked, *answered)),
        _ => Shown::Hidden,
    };
    let same = |asked, answered| asked == answered;
    [
        request.readable(Side::Request),
        response.readable(Side::Response),
        header(0, same),
        header(2, same),
        header(3, same),
        header(1, |asked, answered| answered & 0x7F == asked),
        response.counts(request),
    ]
}

/// The numbers that a checker may give: the first check that failed or, where some before it are hidden, one of these.
fn left(shown: [Shown; 7]) -> Vec<u8> {
    let mut numbers = Vec::new();
    for (check, shown) in (1..).zip(shown) {
        if shown != Shown::Passed {
            numbers.push(check);
        }
        if shown == Shown::Failed {
            return numbers;
        }
    }
    numbers.push(0);
    numbers
}

#[cfg(test)]
mod tests {
    use super::*;
    use crate::wireshark::fields::RECORD_LENGTH;
    use crate::wireshark::pairs::planted::PASSING;
    use crate::wireshark::seen::{seen_in_request, seen_in_response};
    use tools::layout::Block;

    /// The numbers that are left for two readable blocks by what Wireshark reads in them.
    fn of_blocks(request: &[u8], response: &[u8]) -> Vec<u8> {
        let asked = seen_in_request(&Block::of_request(request).unwrap()).fields;
        let answered = seen_in_response(&Block::of_response(response).unwrap()).fields;
        let packet = |bytes: &[u8], fields: &[Field]| [&[(RECORD_LENGTH, bytes.len() as u32)], fields].concat();
        numbers(&packet(request, &asked), &packet(response, &answered))
    }

    #[test]
    fn what_is_shown_decides() {
        for [(request, _), (response, _)] in PASSING {
            assert_eq!(of_blocks(request, response), [0], "{request:02X?} {response:02X?}");
        }
        let request = [7, 1, 1, 1, 16, 2, 0x75, 0x31, 0, 0];
        assert_eq!(of_blocks(&request, &[6, 1, 1, 1, 0x42, 2, 0, 1, 0, 2]), [3]);
        assert_eq!(of_blocks(&request, &[7, 1, 0, 1, 0x42, 2, 0, 1, 0, 2]), [4]);
        assert_eq!(of_blocks(&request, &[7, 1, 1, 2, 0x42, 2, 0, 1, 0, 2, 0x42, 1, 0, 1]), [5]);
        assert_eq!(of_blocks(&request, &[7, 2, 1, 1]), [6]);
        assert_eq!(of_blocks(&request, &[7, 1, 1, 1, 0x42, 1, 0, 1]), [7]);
    }

    #[test]
    fn what_is_hidden_leaves_more() {
        let change = [7, 2, 1, 1, 16, 1, 0x03, 0xC5, 0, 0, 5, 1, 3, 0];
        assert_eq!(of_blocks(&change, &[7, 2, 1, 1]), [1, 0]);
        assert_eq!(of_blocks(&change, &[6, 2, 1, 1]), [1, 3]);
        let read = [7, 1, 1, 2, 16, 1, 0x03, 0xC5, 0, 0, 16, 1, 0x03, 0xA2, 0, 0];
        assert_eq!(of_blocks(&read, &[7, 1, 1, 2, 0x41, 1, 3, 0, 0x42, 1, 0, 1]), [2, 7, 0]);
        assert_eq!(of_blocks(&read, &[7, 1, 0, 2, 0x41, 1, 3, 0, 0x42, 1, 0, 1]), [2, 4]);
        assert_eq!(of_blocks(&read, &[7, 1, 1, 2, 0x41, 3, 3, 41, 3, 0, 0x42, 1, 0, 1]), [2, 7]);
        assert_eq!(of_blocks(&read, &[7, 0x81, 1, 2, 0x44, 1, 0, 0x23, 0x42, 1, 0, 1]), [2, 7, 0]);
    }
}
