//! That a block has a fault, which people are told, exactly where the twin does not read it.

use crate::cases::{read_cases, Line, Step};
use crate::checks::{Check, Own};
use crate::random::Random;
use std::fs;
use tools::faults::fault;
use tools::layout::Side;

/// Whether the twin reads the block, which must be where no fault is found; taken for either side.
fn readable(block: &[u8]) -> [bool; 2] {
    let read = [twin::parse_request(block).is_some(), twin::parse_response(block).is_some()];
    let faults = [fault(Side::Request, block), fault(Side::Response, block)];
    assert_eq!(faults.each_ref().map(Option::is_none), read, "{block:02X?}: {faults:?}");
    read
}

#[test]
fn made_up_blocks_have_a_fault_where_the_twin_reads_none() {
    let (mut random, mut own, mut met) = (Random::new(8), Own::default(), [[0; 2]; 2]);
    for _ in 0..50_000 {
        let Check { request, response, .. } = Check::make(&mut random, &mut own);
        let ([asked, _], [_, answered]) = (readable(&request), readable(&response));
        met[0][usize::from(asked)] += 1;
        met[1][usize::from(answered)] += 1;
    }
    assert!(met.as_flattened().iter().all(|times| *times > 5000), "{met:?}");
}

#[test]
fn altered_blocks_have_a_fault_where_the_twin_reads_none() {
    let blocks: [&[u8]; 5] = [
        &[7, 1, 1, 2, 16, 1, 0x03, 0xC5, 0, 0, 16, 1, 0x03, 0xA2, 0, 0],
        &[7, 2, 1, 2, 16, 1, 0x03, 0xC5, 0, 0, 16, 1, 0x26, 0xAC, 0, 0, 5, 1, 3, 0, 0x42, 1, 0, 1],
        &[7, 1, 1, 3, 0x41, 1, 3, 0, 0x42, 1, 0, 1, 0x43, 1, 0, 0, 0, 1],
        &[7, 0x81, 1, 2, 0x41, 1, 3, 0, 0x44, 1, 0, 2],
        &[7, 0x82, 1, 2, 0x40, 0, 0x44, 1, 0, 2],
    ];
    for (block, at) in blocks.iter().flat_map(|block| (0..block.len()).map(move |at| (block, at))) {
        readable(&block[..at]);
        let with = |byte: u8| [&block[..at], &[byte], &block[at + 1..]].concat();
        let read = (0..=255).map(with).filter(|altered| readable(altered) != [false; 2]).count();
        assert!(read > 0, "at least the block itself");
    }
}

/// The blocks of the checks in a step.
fn checked(line: &Line) -> Vec<&[u8]> {
    match &line.step {
        Step::Check { request, response, .. } => vec![request, response],
        Step::Loop { body, .. } => body.iter().flat_map(checked).collect(),
        _ => Vec::new(),
    }
}

#[test]
fn blocks_of_the_examples_have_a_fault_where_the_twin_reads_none() {
    let mut tried = 0;
    let entries = fs::read_dir(concat!(env!("CARGO_MANIFEST_DIR"), "/../examples")).unwrap();
    for file in entries.map(|entry| entry.unwrap().path()).filter(|path| path.is_file()) {
        let cases = read_cases(&fs::read_to_string(file).unwrap()).unwrap();
        let blocks = cases.iter().flat_map(|case| &case.steps).flat_map(checked);
        tried += blocks.map(readable).count();
    }
    assert!(tried > 800, "{tried} blocks");
}
