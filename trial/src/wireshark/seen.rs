//! What Wireshark reads in a block, where it should and where it goes its own way: every field of PROFIdrive in the
//! order of the block's bytes. Reference, identifier, axis, number of parameters; each attribute, number of elements,
//! PNU and sub-index; each format, number of values and value; each error number.
//!
//! What it does not show cannot be compared:
//!
//! - the sign of a value: Wireshark shows the bytes of a value as a number without one, whatever the format;
//! - what follows an error 23 in a response: to Wireshark it ends the block, and what follows is a "Long frame". Only
//!   made-up responses have it, the library does not send it; that Wireshark stops there is compared, and the bytes
//!   that it leaves over;
//! - what follows a fill byte in the middle of a block. Wireshark (4.0 and 4.4) knows no fill byte and takes it for the
//!   next value block: the zero for its format, the format that follows for its number of values, and of each of these
//!   it says that format 0 is invalid. So far it is compared; then Wireshark goes on from a wrong place;
//! - a fill byte at the end of a request: Wireshark passes over it, whatever it is, as over the bytes by which PROFINET
//!   makes a write divisible by four. At the end of a response it is a "Long frame", and is compared: one byte, a zero.

use super::fields::{Field, ATTRIBUTE, BYTE, DO, DOUBLE, ELEMENTS, ERROR, FAULT, FORMAT, INVALID, LEFT_OVER};
use super::fields::{PARAMETERS, PNU, REFERENCE, REQUEST_ID, RESPONSE_ID, SUB_INDEX, VALUES, WORD};
use tools::layout::{Block, Values, ADDRESS, HEADER};

/// The error, "only single parameters", at which Wireshark takes a response to end.
pub(crate) const SINGLE_ONLY: u16 = 0x23;
const WARNING: u32 = 0x60_0000;

/// What Wireshark makes of a block.
pub(crate) struct Seen {
    /// The fields that it reads.
    pub(crate) fields: Vec<Field>,
    /// How many bytes of the block they show.
    pub(crate) bytes: usize,
    /// Whether it goes on reading from a wrong place.
    pub(crate) lost: bool,
}

fn head(block: &Block, identifier: &'static str) -> Vec<Field> {
    let mut fields = vec![
        (REFERENCE, block.reference.into()),
        (identifier, block.identifier.into()),
        (DO, block.axis.into()),
        (PARAMETERS, block.count.into()),
    ];
    for address in &block.addresses {
        fields.push((ATTRIBUTE, address.attribute.into()));
        fields.push((ELEMENTS, address.elements.into()));
        fields.push((PNU, address.pnu.into()));
        fields.push((SUB_INDEX, address.sub_index.into()));
    }
    fields
}

fn fields_of_values(values: &Values) -> Vec<Field> {
    let name = match (values.format, values.size) {
        (0x44, _) => ERROR,
        (_, 1) => BYTE,
        (_, 2) => WORD,
        _ => DOUBLE,
    };
    // What Wireshark shows of a value is the bytes it has, without a sign.
    let bits = u32::MAX >> (32 - 8 * values.size);
    let mut fields = vec![(FORMAT, values.format.into()), (VALUES, values.values.len() as u32)];
    fields.extend(values.values.iter().map(|value| (name, value & bits)));
    fields
}

/// The fields that a request block should be read as.
pub(crate) fn fields_of_request(block: &Block) -> Vec<Field> {
    let mut fields = head(block, REQUEST_ID);
    fields.extend(block.values.iter().flat_map(fields_of_values));
    fields
}

/// What Wireshark reads in a request block. It passes over a fill byte at the end, whatever that is, since PROFINET
/// fills up a write until four divides its bytes.
pub(crate) fn seen_in_request(block: &Block) -> Seen {
    let (mut seen, at) = seen_up_to_its_own_way(block, REQUEST_ID);
    if let [_, next, ..] = &block.values[at..] {
        seen.lose(next);
    }
    seen
}

/// What Wireshark reads in a response block. What follows the end that it sees is left over: a fill byte at the end, or
/// all that follows an error 23.
pub(crate) fn seen_in_response(block: &Block) -> Seen {
    let (mut seen, at) = seen_up_to_its_own_way(block, RESPONSE_ID);
    match &block.values[at..] {
        [filled, next, ..] if filled.is_filled() => seen.lose(next),
        _ => seen.leave_over(&block.bytes()),
    }
    seen
}

/// All up to the first value block after which Wireshark goes its own way, or up to the last, and that one's place.
fn seen_up_to_its_own_way(block: &Block, identifier: &'static str) -> (Seen, usize) {
    let own_way = |values: &Values| values.is_filled() || *values == Values::error(SINGLE_ONLY);
    let last = block.values.len().saturating_sub(1);
    let at = block.values.iter().position(own_way).unwrap_or(last);
    let mut fields = head(block, identifier);
    let mut bytes = HEADER + ADDRESS * block.addresses.len();
    for values in block.values.iter().take(at + 1) {
        fields.extend(fields_of_values(values));
        bytes += values.length() - usize::from(values.is_filled());
    }
    (Seen { fields, bytes, lost: false }, at)
}

impl Seen {
    /// A fill byte before another block is to Wireshark a format, and the format of that block a number of values.
    fn lose(&mut self, next: &Values) {
        self.fields.extend([(FORMAT, 0), (VALUES, next.format.into())]);
        self.fields.extend([(INVALID, 0), (FAULT, WARNING)].repeat(next.format.into()));
        self.bytes += 2;
        self.lost = true;
    }

    fn leave_over(&mut self, block: &[u8]) {
        if self.bytes < block.len() {
            self.fields.extend(block[self.bytes..].iter().map(|byte| (LEFT_OVER, u32::from(*byte))));
            self.fields.push((FAULT, WARNING));
            self.bytes = block.len();
        }
    }
}

#[cfg(test)]
mod tests {
    use super::*;

    /// A block of these values, with an address for each in a request.
    fn block(identifier: u8, addresses: usize, values: Vec<Values>) -> Block {
        let address = twin::Address { attribute: 0x10, elements: 1, pnu: 965, sub_index: 0 };
        let count = values.len() as u8;
        Block { reference: 7, identifier, axis: 1, count, addresses: vec![address; addresses], values }
    }

    fn bytes(values: &[u32]) -> Values {
        Values { format: 0x41, size: 1, values: values.to_vec() }
    }

    #[test]
    fn a_fill_byte_at_the_end() {
        let read = [(FORMAT, 0x41), (VALUES, 1), (BYTE, 3)];
        let seen = seen_in_response(&block(1, 0, vec![bytes(&[3])]));
        assert_eq!((&seen.fields[4..7], seen.lost), (&read[..], false));
        assert_eq!((&seen.fields[7..], seen.bytes), (&[(LEFT_OVER, 0), (FAULT, WARNING)][..], 8));
        let change = block(2, 1, vec![bytes(&[3])]);
        let seen = seen_in_request(&change);
        assert_eq!((&seen.fields[8..], seen.lost, seen.bytes), (&read[..], false, 4 + 6 + 3));
        assert_eq!(seen.fields, fields_of_request(&change));
    }

    #[test]
    fn a_fill_byte_before_another_block() {
        let seen = seen_in_response(&block(1, 0, vec![bytes(&[3, 41]), bytes(&[3]), bytes(&[3, 41])]));
        assert_eq!(seen.fields[4..8], [(FORMAT, 0x41), (VALUES, 2), (BYTE, 3), (BYTE, 41)]);
        assert_eq!(seen.fields[8..13], [(FORMAT, 0x41), (VALUES, 1), (BYTE, 3), (FORMAT, 0), (VALUES, 0x41)]);
        assert_eq!(seen.fields[13..], [(INVALID, 0), (FAULT, WARNING)].repeat(0x41));
        assert_eq!((seen.lost, seen.bytes), (true, 4 + 4 + 3 + 2));
    }

    #[test]
    fn an_error_that_ends_a_response() {
        let seen = seen_in_response(&block(0x81, 0, vec![Values::error(SINGLE_ONLY), bytes(&[9])]));
        let left_over = [0x41, 1, 9, 0].map(|byte| (LEFT_OVER, byte));
        assert_eq!(seen.fields[4..7], [(FORMAT, 0x44), (VALUES, 1), (ERROR, 0x23)]);
        assert_eq!((&seen.fields[7..11], &seen.fields[11..]), (&left_over[..], &[(FAULT, WARNING)][..]));
        assert_eq!((seen.lost, seen.bytes), (false, 12));
        assert_eq!(seen_in_response(&block(0x81, 0, vec![Values::error(SINGLE_ONLY)])).fields.len(), 7);
    }
}
