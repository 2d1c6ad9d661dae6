//! What Wireshark reads in captures of ours, compared with what was meant.
//!
//! The library, the twin and the tests were written by readers of the same document, and Wireshark was not. Three
//! things are compared, each in captures of its own, and at the end of the first two mistakes are planted that must be
//! found:
//!
//! - blocks: `bench` fills a `capture` from journals, examples and `made_up` blocks; what was `meant` by its packets is
//!   `compared`, field by field, with what `tshark` reads; `seen` says where Wireshark goes its own way in a block; the
//!   mistakes are `planted`;
//! - `pairs` of a request and a response, judged by the fields that Wireshark reads of them;
//! - `filters` of the README, and the packets that they match.
//!
//! Each says at its top what is not compared, and why.

mod answer;
mod bench;
mod capture;
mod compared;
pub mod examples;
mod fields;
pub mod filters;
mod made_up;
mod meant;
pub mod pairs;
pub mod planted;
mod seen;
mod stations;
mod tshark;

pub use bench::Bench;
pub use tshark::version;

/// Differences that are printed.
const PRINTED: usize = 20;
