//! Whether a response block, of whatever maker's drive, answers a request block: R-4 of document 02.

use crate::block::{parse_request, parse_response, Address, Item, Request, RequestKind, Response, ResponseKind};

/// Holds a response block against a request block; 0 for yes, else the number of the first check that failed.
pub fn check(request: &[u8], response: &[u8]) -> u8 {
    let Some(request) = parse_request(request) else { return 1 };
    let Some(response) = parse_response(response) else { return 2 };
    let checks = [
        (3, request.reference == response.reference),
        (4, request.axis == response.axis),
        (5, request.count == response.count),
        (6, identifiers_match(request.kind, response.kind)),
        (7, counts_match(&request, &response)),
    ];
    checks.into_iter().find(|(_, passed)| !passed).map_or(0, |(number, _)| number)
}

/// 01 is answered with 01 or 81, and 02 with 02 or 82.
fn identifiers_match(asked: RequestKind, answered: ResponseKind) -> bool {
    match asked {
        RequestKind::Request => matches!(answered, ResponseKind::Values | ResponseKind::ValuesFailed),
        RequestKind::Change => matches!(answered, ResponseKind::Changed | ResponseKind::ChangeFailed),
    }
}

/// Block k is held against address k; 02 has no blocks.
fn counts_match(request: &Request, response: &Response) -> bool {
    request.addresses().zip(response.items()).all(|(address, item)| count_matches(&address, &item))
}

/// A block of values has as many as elements were asked, where 0 count as 1; a block without values passes.
fn count_matches(address: &Address, item: &Item) -> bool {
    match item {
        Item::Values(values) => values.count == address.elements.max(1),
        Item::Zero | Item::Error(_) => true,
    }
}
