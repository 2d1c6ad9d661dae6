//! The proved library and its twin on the same calls.
//!
//! `face` calls the library, `meaning` says what its memory means to the twin, and the other modules make up calls and
//! memory for both.

#![deny(unsafe_code)]
#![deny(warnings)]
#![deny(missing_docs)]

pub mod blocks;
pub mod cases;
pub mod checks;
pub mod counts;
#[cfg(test)]
mod faults;
pub mod fills;
pub mod kept;
pub mod meaning;
pub mod merged;
pub mod pair;
pub mod parts;
pub mod random;
pub mod station;
pub mod tally;
pub mod turns;
pub mod who;
pub mod wireshark;
pub mod words;
