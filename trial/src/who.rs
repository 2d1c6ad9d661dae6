//! The lines that `who` prints of a journal, held against the library.
//!
//! They are read by `attempts` alone, and nothing of their writer is used. A `witness` plays the records on the library by single calls and
//! reads what it holds; `changes` says from that which lines a record must have, `due` what each must tell, `lines` whether they do, and
//! `reached` what was met on the way.

mod attempts;
mod changes;
mod due;
mod lines;
mod reached;
mod witness;

pub use lines::Lines;
pub use reached::Reached;
pub use witness::Witness;
