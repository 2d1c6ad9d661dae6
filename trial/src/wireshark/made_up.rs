//! Made-up blocks, requests and responses of every kind. Each is a structure from which its bytes are written, and
//! means that structure.

use crate::parts;
use crate::random::Random;
use tools::layout::{Block, Values, BYTE_FORMATS};
use twin::Address;

/// Where chance begins, for requests and for responses.
pub(crate) const SEED: u64 = 11;
/// How many requests chance makes, and how many responses.
pub(crate) const BY_CHANCE: usize = 1500;

const FORMATS: [(u8, usize); 9] = [(0x41, 1), (2, 1), (5, 1), (0x42, 2), (3, 2), (6, 2), (0x43, 4), (4, 4), (7, 4)];

fn address(attribute: u8, elements: u8) -> Address {
    Address { attribute, elements, pnu: 30001, sub_index: 0 }
}

/// A change of axis 1 with an address for each value block.
fn change(values: Vec<Values>) -> Block {
    let addresses = values.iter().map(|values| address(0x10, values.values.len() as u8)).collect();
    Block { reference: 9, identifier: 0x02, axis: 1, count: values.len() as u8, addresses, values }
}

/// A request of axis 1 for the values of these addresses.
fn request(addresses: Vec<Address>) -> Block {
    Block { identifier: 0x01, count: addresses.len() as u8, addresses, ..change(Vec::new()) }
}

fn response(identifier: u8, values: Vec<Values>) -> Block {
    Block { reference: 200, identifier, axis: 16, count: values.len() as u8, addresses: Vec::new(), values }
}

/// Values that differ in every byte.
fn values(format: u8, size: usize, count: u32) -> Values {
    let value = |at: u32| (0xF1E2_D3C4_u32.wrapping_sub(0x0305_0709 * at)) >> (32 - 8 * size);
    Values { format, size, values: (0..count).map(value).collect() }
}

fn any_value() -> Values {
    values(0x43, 4, 1)
}

// ---- Requests ----

/// Every format, attribute and number of parameters, every byte where a byte may be any, and fill bytes; each with its
/// name.
pub(crate) fn every_request() -> Vec<(&'static str, Block)> {
    let formats = each_format_alone().into_iter().chain(all_formats_in_one());
    formats
        .map(|block| ("a change of every format", block))
        .chain(filled_changes().into_iter().map(|block| ("a change with fill bytes", block)))
        .chain(reads_of_single_bytes().into_iter().map(|block| ("single elements of 965", block)))
        .chain((0..=255).map(|byte| ("every byte", any_byte(byte))))
        .chain((1..=39).map(|count| ("every number of parameters", parameters(count))))
        .collect()
}

/// Each format with no value and with some.
fn each_format_alone() -> Vec<Block> {
    let counts = [0, 1, 2, 3, 4, 54, 55];
    FORMATS.iter().flat_map(|(format, size)| counts.map(|count| change(vec![values(*format, *size, count)]))).collect()
}

/// All formats in one block, each of them first once. Bytes are even in number, so that Wireshark reads all.
pub(crate) fn all_formats_in_one() -> Vec<Block> {
    let block = |first: usize| {
        let order = FORMATS.iter().cycle().skip(first).take(FORMATS.len()).zip(0..);
        let count = |size: usize, at: u32| if size == 1 { at % 4 / 2 * 2 } else { at % 4 };
        change(order.map(|((format, size), at)| values(*format, *size, count(*size, at))).collect())
    };
    (0..FORMATS.len()).map(block).collect()
}

/// An odd number of bytes behind a word, and before every format.
pub(crate) fn filled_changes() -> Vec<Block> {
    let mut blocks = Vec::new();
    for format in BYTE_FORMATS {
        blocks.push(change(vec![values(0x42, 2, 1), values(format, 1, 3)]));
        blocks.extend(FORMATS.map(|(next, size)| change(vec![values(format, 1, 1), values(next, size, 2)])));
    }
    blocks
}

/// Reads that are answered with a fill byte at the end, before another block, and both.
fn reads_of_single_bytes() -> Vec<Block> {
    let byte = Address { pnu: 965, sub_index: 1, ..address(0x10, 1) };
    let word = Address { pnu: 930, ..address(0x10, 1) };
    [vec![byte], vec![word, byte], vec![byte, word], vec![byte, word, byte]].map(request).into()
}

/// A request in which every field that is a byte has another one for each byte.
fn any_byte(byte: u8) -> Block {
    let word = |factor: u16| u16::from(byte).wrapping_mul(factor).rotate_left(3);
    let first = Address { attribute: byte, elements: !byte, pnu: word(257), sub_index: word(251) };
    let second = Address { attribute: byte ^ 0x0F, elements: byte, pnu: !word(241), sub_index: 0xFFFF };
    let addresses = vec![first, second];
    Block { reference: byte.max(1), identifier: 0x01, axis: byte ^ 0x05, count: 2, addresses, values: Vec::new() }
}

/// A request for so many parameters.
fn parameters(count: u16) -> Block {
    request((0..count).map(|at| Address { pnu: 930 + at, ..address(0x10, 1) }).collect())
}

// ---- Responses ----

/// Responses that no request need have had: every error, every count, and what chance makes.
pub(crate) fn responses() -> Vec<Block> {
    let mut random = Random::new(SEED);
    let errors = (0..=0xFF).chain([0x100, 0x7FFF, 0x8000, 0xFFFF]);
    let errors = errors.map(|number| response(0x81, vec![any_value(), Values::error(number)]));
    let failed = (0..=0x30).map(|number| response(0x82, vec![Values::zero(), Values::error(number)]));
    let changed = (1..=39).map(|count| Block { count, ..response(0x02, Vec::new()) });
    let made_up: Vec<Block> = (0..BY_CHANCE).map(|at| parts::response(&mut random, (at % 256) as u8)).collect();
    let evened: Vec<Block> = made_up.iter().filter_map(evened).collect();
    errors.chain(failed).chain(changed).chain(made_up).chain(evened).collect()
}

/// A block that has fill bytes, with one more value in the place of each, so that Wireshark reads all of it.
fn evened(block: &Block) -> Option<Block> {
    let mut block = block.clone();
    let mut filled = block.values.iter_mut().filter(|values| values.is_filled()).peekable();
    filled.peek()?;
    filled.for_each(|values| values.values.push(0xA5));
    Some(block)
}

/// A response of each identifier, and those of values with a fill byte nowhere, at the end and before another block.
pub(crate) fn responses_of_every_kind() -> Vec<Block> {
    let (words, doubles) = (values(0x42, 2, 3), values(0x43, 4, 3));
    vec![
        response(0x01, vec![values(0x41, 1, 2), words.clone(), doubles.clone()]),
        response(0x01, vec![words.clone(), doubles, values(0x41, 1, 3)]),
        response(0x01, vec![values(0x41, 1, 3), words]),
        response(0x02, Vec::new()),
        response(0x81, vec![any_value(), Values::error(0x16)]),
        response(0x82, vec![Values::zero(), Values::error(0x02)]),
    ]
}
