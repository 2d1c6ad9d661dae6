//! Frames of a farm, and the two calls that take one.

use crate::face::{self, Framed};
use crate::layout::Block;
use std::fmt::{self, Display, Formatter};
use twin::Station;

/// Function byte of a read.
pub const READ: u8 = 0x5E;
/// Function byte of a write.
pub const WRITE: u8 = 0x5F;
/// Tells a refusal from an answer in the first byte, and a response with errors from one without in the identifier.
pub const FAILED: u8 = 0x80;
/// Index of the parameter blocks.
pub const INDEX: u8 = 47;
/// The read that fetches any response.
pub const FETCH: [u8; 4] = [READ, 0, INDEX, 240];

/// The request in a write that is right; none where a frame is none.
pub fn request_in(frame: &[u8]) -> Option<Block> {
    match frame {
        [WRITE, 0, INDEX, length, block @ ..] if usize::from(*length) == block.len() => Block::of_request(block),
        _ => None,
    }
}

/// How a frame is sent.
#[derive(Clone, Copy, Debug, PartialEq, Eq)]
pub enum Sending {
    /// By itself.
    Alone,
    /// By the merged call, which takes a write and fetches its response.
    Merged,
}

impl Sending {
    /// Sends a frame to the library.
    pub fn ours(self, station: &mut [u8], farm: u32, frame: &[u8], reply: &mut [u8]) -> Framed {
        match self {
            Sending::Alone => face::frame(station, farm, frame, reply),
            Sending::Merged => face::exchange(station, farm, frame, reply),
        }
    }

    /// Sends a frame to the twin.
    pub fn twins(self, station: &mut Station, farm: u32, frame: &[u8], reply: &mut [u8]) -> twin::Framed {
        match self {
            Sending::Alone => station.frame(farm, frame, reply),
            Sending::Merged => station.exchange(farm, frame, reply),
        }
    }
}

impl Display for Sending {
    fn fmt(&self, f: &mut Formatter) -> fmt::Result {
        f.write_str(match self {
            Sending::Alone => "frame",
            Sending::Merged => "merged call",
        })
    }
}
