//! What Wireshark reads in a packet beside what was meant: the same fields in the same order, and nothing else between
//! them. Wireshark may find no fault with the packet but those that were meant.

use super::fields::{Field, FAULT, PROFIDRIVE};
use super::meant::{Meant, Until};

/// A packet, and each field in it that was read otherwise than it was meant.
pub(crate) struct Compared {
    pub(crate) meant: Meant,
    pub(crate) differences: Vec<String>,
}

impl Compared {
    /// Compares what was read as far as it was meant.
    pub(crate) fn of(meant: Meant, mut read: Vec<Field>) -> Compared {
        if meant.until == Until::Header {
            read.retain(|(name, _)| !name.starts_with(PROFIDRIVE) && *name != FAULT);
        }
        if meant.until != Until::End {
            // What Wireshark reads from a wrong place; and bytes behind a read, which are to it one more block header.
            read.truncate(meant.fields.len());
        }
        let differences = differences(&meant.fields, &read);
        Compared { meant, differences }
    }
}

fn differences(meant: &[Field], read: &[Field]) -> Vec<String> {
    let mut differences = Vec::new();
    for at in 0..meant.len().max(read.len()) {
        match (meant.get(at), read.get(at)) {
            (Some(meant), Some(read)) if meant == read => {}
            (Some(meant), Some(read)) if meant.0 == read.0 => {
                differences.push(format!("read {}, meant {:#X}", told(Some(read)), meant.1));
            }
            (meant, read) => {
                differences.push(format!("field {}: read {}, meant {}", at + 1, told(read), told(meant)));
                // From here on fields stand beside others than their own.
                break;
            }
        }
    }
    differences
}

fn told(field: Option<&Field>) -> String {
    field.map_or("nothing".to_string(), |(name, number)| format!("{name} {number:#X}"))
}
