//! That a mistake in a block would be seen: every byte of some blocks is altered, one in each packet, and each must be
//! told from what was meant.
//!
//! Of blocks with a fill byte only what Wireshark shows is altered: that byte too where it is a format to it or left
//! over, but not at the end of a request, and nothing that follows it and the next format.

use super::capture::Capture;
use super::compared::Compared;
use super::made_up::{all_formats_in_one, filled_changes, responses_of_every_kind};
use super::meant::Meaning;
use super::seen::{seen_in_request, seen_in_response};
use super::PRINTED;
use std::path::PathBuf;
use tools::layout::Block;

/// A byte altered.
pub(crate) fn altered(bytes: &[u8], at: usize) -> Vec<u8> {
    let mut bytes = bytes.to_vec();
    bytes[at] ^= 1;
    bytes
}

/// Whether all mistakes that are planted in a capture of blocks are found.
pub fn found(path: PathBuf) -> Result<bool, String> {
    let mut capture = Capture::new(path);
    let requests = all_formats_in_one().into_iter().rev().take(3).chain(filled_changes());
    let requests = requests.flat_map(|block| planted(&block, seen_in_request(&block).bytes, Meaning::written));
    let responses = responses_of_every_kind().into_iter();
    let responses = responses.flat_map(|block| planted(&block, seen_in_response(&block).bytes, Meaning::fetched));
    for (what, meaning) in requests.chain(responses) {
        capture.add(&what, [meaning]);
    }
    capture.compared().map(|packets| singled_out(&packets))
}

/// A block with each of its first bytes altered in turn, carried so.
fn planted(block: &Block, bytes: usize, carried: fn(&Block, &[u8]) -> Meaning) -> Vec<(String, Meaning)> {
    let whole = block.bytes();
    (0..bytes).map(|at| (format!("byte {at} altered"), carried(block, &altered(&whole, at)))).collect()
}

/// Of the two packets of each exchange one has a byte altered, and the other none.
fn singled_out(packets: &[Compared]) -> bool {
    let differs = |packet: &&Compared| !packet.differences.is_empty();
    let missed: Vec<_> = packets.chunks(2).filter(|pair| pair.iter().filter(differs).count() != 1).collect();
    for pair in missed.iter().take(PRINTED) {
        println!("planted and not singled out: {}", pair[0].meant.what);
    }
    if let Some(Compared { meant, differences }) = packets.iter().find(differs) {
        println!("planted, as an example: {}: {}", meant.what, differences[0]);
    }
    let all = packets.len() / 2;
    println!("{all} mistakes planted, each one byte of a block: {} found", all - missed.len());
    missed.is_empty()
}
