//! A small journal in which each part of each filter decides.

use crate::blocks::framed;
use tools::journal::{Inputs, Record};
use tools::layout::{Block, Values};
use tools::sending::{Sending, FETCH};
use twin::Address;

/// A word, as changes have it.
const WORD: u8 = 0x42;

/// The records. The seventh is a merged call that is done, of which the README's row of record 7 speaks.
pub(super) fn records() -> Vec<Record> {
    let fetch = |farm: u8| Record::Frame(farm, Sending::Alone, FETCH.to_vec());
    let inputs = Inputs { flags: 1, stw1: 0x047E, nsoll: 0, nist: 0, fault: 0 };
    vec![
        // Farm 1 changes its second mark, which is stored.
        write(1, &change(1, mark(1), 1200)),
        fetch(1),
        // Farm 2 tries the same: a neighbour's axis.
        write(2, &change(1, mark(1), 1300)),
        // Farm 1 reads two marks from the first on.
        write(1, &request(1, vec![Address { elements: 2, ..mark(0) }])),
        fetch(1),
        // No frame, and a record all the same.
        Record::Cycle(1, inputs),
        // Farm 2 sets a mark of its own outside the limits.
        merged(2, &change(2, mark(2), 3001)),
        // Two addresses of which one has the second mark's number and the other its index.
        merged(1, &request(1, vec![mark(0), Address { pnu: 30004, ..mark(1) }])),
        // An index of 1 without a mark, and another error than that of limits.
        merged(3, &request(3, vec![Address { pnu: 30004, ..mark(1) }, Address { pnu: 1, ..mark(0) }])),
        // Nothing waits: another refusal than that of a neighbour.
        fetch(2),
    ]
}

fn mark(index: u16) -> Address {
    Address { attribute: 0x10, elements: 1, pnu: 30001, sub_index: index }
}

fn request(axis: u8, addresses: Vec<Address>) -> Block {
    Block { reference: 7, identifier: 0x01, axis, count: addresses.len() as u8, addresses, values: Vec::new() }
}

fn change(axis: u8, address: Address, value: u32) -> Block {
    let values = vec![Values { format: WORD, size: 2, values: vec![value] }];
    Block { identifier: 0x02, values, ..request(axis, vec![address]) }
}

fn write(farm: u8, block: &Block) -> Record {
    Record::Frame(farm, Sending::Alone, framed(&block.bytes()))
}

fn merged(farm: u8, block: &Block) -> Record {
    Record::Frame(farm, Sending::Merged, framed(&block.bytes()))
}
