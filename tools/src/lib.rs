//! The commands for people: what a journal did, told in lines, words, packets and pictures, and a partner's answers checked.
//!
//! What a call answers is the library's to say, by two programs of its processor: `played` plays a journal through one, and `face`
//! makes single calls through the other. What stands in a block is told by the twin's reading.

#![deny(unsafe_code)]
#![deny(warnings)]
#![deny(missing_docs)]

pub mod attempts;
pub mod bits;
pub mod capture;
pub mod check;
pub mod command;
pub mod explain;
pub mod face;
pub mod faults;
pub mod hex;
pub mod history;
pub mod host;
pub mod journal;
pub mod layout;
pub mod line;
pub mod log;
pub mod names;
pub mod notation;
pub mod packets;
pub mod picture;
pub mod played;
pub mod progress;
pub mod sending;
pub mod settings;
pub mod text;
pub mod verdict;
pub mod versions;
pub mod who;
pub mod words;
