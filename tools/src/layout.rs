//! Request and response blocks as they are meant, and the bytes that say it.

use twin::{Address, Item, Request, RequestKind, Response, ResponseKind};

/// Bytes of the header.
pub const HEADER: usize = 4;
/// Bytes of an address.
pub const ADDRESS: usize = 6;
/// Identifier of a change.
pub const CHANGE: u8 = 0x02;
/// Attribute of an address that names values.
pub const VALUE: u8 = 0x10;
/// Formats of one byte. A fill byte, one zero that the count leaves out, follows an odd number of their values.
pub const BYTE_FORMATS: [u8; 3] = [0x41, 2, 5];

/// Whose block it is.
#[derive(Clone, Copy, Debug, PartialEq, Eq)]
pub enum Side {
    /// That of who asks.
    Request,
    /// That of who answers.
    Response,
}

/// A block of either kind. Nothing keeps it readable, since tests want others too.
#[derive(Clone, Debug, PartialEq, Eq)]
pub struct Block {
    /// Reference.
    pub reference: u8,
    /// 01 or 02 in a request; 01, 02, 81 or 82 in a response.
    pub identifier: u8,
    /// Axis.
    pub axis: u8,
    /// Number of parameters; all that a response to a change says where none failed.
    pub count: u8,
    /// Addresses, in a request.
    pub addresses: Vec<Address>,
    /// Value blocks.
    pub values: Vec<Values>,
}

/// A value block. An error is one value of format 44 and two bytes; `40 00` is format 40 without a value.
#[derive(Clone, Debug, PartialEq, Eq)]
pub struct Values {
    /// Format.
    pub format: u8,
    /// Bytes of a value, 1 to 4.
    pub size: usize,
    /// The values, each in its low bytes.
    pub values: Vec<u32>,
}

/// Where a value block of a byte format stands in a block.
#[derive(Clone, Copy, Debug, PartialEq, Eq)]
pub struct ByteBlock {
    /// Its format.
    pub format: u8,
    /// Number of its values.
    pub count: usize,
    /// Where it ends, a fill byte included.
    pub end: usize,
}

impl ByteBlock {
    /// Whether its last byte is a fill byte.
    pub fn is_filled(&self) -> bool {
        self.count % 2 == 1
    }
}

impl Values {
    /// An error block.
    pub fn error(number: u16) -> Values {
        Values { format: 0x44, size: 2, values: vec![number.into()] }
    }

    /// `40 00`.
    pub fn zero() -> Values {
        Values { format: 0x40, size: 1, values: Vec::new() }
    }

    /// Whether it is an error block.
    pub fn is_error(&self) -> bool {
        self.format == 0x44
    }

    /// The error word; none where it is no error block.
    pub fn error_word(&self) -> Option<u16> {
        self.values.first().filter(|_| self.is_error()).map(|word| *word as u16)
    }

    /// Whether it holds values: it is neither an error nor `40 00`.
    pub fn holds_values(&self) -> bool {
        !self.is_error() && self.format != 0x40
    }

    fn is_of_bytes(&self) -> bool {
        self.size == 1 && BYTE_FORMATS.contains(&self.format)
    }

    /// Whether a fill byte follows the values.
    pub fn is_filled(&self) -> bool {
        self.is_of_bytes() && self.values.len() % 2 == 1
    }

    /// Bytes of the block.
    pub fn length(&self) -> usize {
        2 + self.size * self.values.len() + usize::from(self.is_filled())
    }

    /// The bytes, high byte first.
    pub fn bytes(&self) -> Vec<u8> {
        let mut bytes = vec![self.format, self.values.len() as u8];
        for value in &self.values {
            bytes.extend(&value.to_be_bytes()[4 - self.size..]);
        }
        if self.is_filled() {
            bytes.push(0);
        }
        bytes
    }

    fn read(values: &twin::Values) -> Values {
        let size = values.bytes.len().checked_div(values.count.into()).unwrap_or(1);
        let number = |bytes: &[u8]| bytes.iter().fold(0, |high, byte| high << 8 | u32::from(*byte));
        Values { format: values.format, size, values: values.bytes.chunks(size).map(number).collect() }
    }
}

impl Block {
    /// Bytes of the block.
    pub fn length(&self) -> usize {
        HEADER + ADDRESS * self.addresses.len() + self.values.iter().map(Values::length).sum::<usize>()
    }

    /// The bytes, high byte first.
    pub fn bytes(&self) -> Vec<u8> {
        let mut bytes = vec![self.reference, self.identifier, self.axis, self.count];
        for address in &self.addresses {
            bytes.extend([address.attribute, address.elements]);
            bytes.extend(address.pnu.to_be_bytes());
            bytes.extend(address.sub_index.to_be_bytes());
        }
        bytes.extend(self.values.iter().flat_map(Values::bytes));
        bytes
    }

    /// Whether a fill byte is in it.
    pub fn is_filled(&self) -> bool {
        self.values.iter().any(Values::is_filled)
    }

    /// Where in a response to this request the first block stands whose values are not as many as its address asks; 0 elements
    /// count as 1.
    pub fn first_miscounted(&self, response: &Block) -> Option<usize> {
        let is_wrong = |(address, block): (&Address, &Values)| {
            block.holds_values() && block.values.len() != usize::from(address.elements.max(1))
        };
        self.addresses.iter().zip(&response.values).position(is_wrong)
    }

    /// The value blocks of byte formats, in their order.
    pub fn byte_blocks(&self) -> Vec<ByteBlock> {
        let mut end = HEADER + ADDRESS * self.addresses.len();
        let mut blocks = Vec::new();
        for values in &self.values {
            end += values.length();
            if values.is_of_bytes() {
                blocks.push(ByteBlock { format: values.format, count: values.values.len(), end });
            }
        }
        blocks
    }

    /// What the twin reads in a request block; none where it is unreadable.
    pub fn of_request(block: &[u8]) -> Option<Block> {
        let request: Request = twin::parse_request(block)?;
        // As many as there are: no call asks the twin for the end of its values, and to ask here would count as reached.
        let value_blocks = if request.kind == RequestKind::Change { request.count } else { 0 };
        Some(Block {
            reference: request.reference,
            identifier: if request.kind == RequestKind::Request { 0x01 } else { 0x02 },
            axis: request.axis,
            count: request.count,
            addresses: request.addresses().collect(),
            values: request.values().take(value_blocks.into()).map(|values| Values::read(&values)).collect(),
        })
    }

    /// What the twin reads in a response block; none where it is unreadable.
    pub fn of_response(block: &[u8]) -> Option<Block> {
        let response: Response = twin::parse_response(block)?;
        let values = response.items().map(|item| match item {
            Item::Values(values) => Values::read(&values),
            Item::Zero => Values::zero(),
            Item::Error(number) => Values::error(number),
        });
        Some(Block {
            reference: response.reference,
            identifier: match response.kind {
                ResponseKind::Values => 0x01,
                ResponseKind::Changed => 0x02,
                ResponseKind::ValuesFailed => 0x81,
                ResponseKind::ChangeFailed => 0x82,
            },
            axis: response.axis,
            count: response.count,
            addresses: Vec::new(),
            values: values.collect(),
        })
    }
}

#[cfg(test)]
mod tests {
    use super::*;

    #[test]
    fn bytes_of_the_change_of_two_marks() {
        let block = Block {
            reference: 7,
            identifier: 2,
            axis: 1,
            count: 1,
            addresses: vec![Address { attribute: 0x10, elements: 2, pnu: 30001, sub_index: 0 }],
            values: vec![Values { format: 0x42, size: 2, values: vec![1000, 3001] }],
        };
        let bytes = [7, 2, 1, 1, 0x10, 2, 0x75, 0x31, 0, 0, 0x42, 2, 0x03, 0xE8, 0x0B, 0xB9];
        assert_eq!((block.bytes(), block.length()), (bytes.to_vec(), bytes.len()));
        assert_eq!(Block::of_request(&bytes), Some(block));
    }

    #[test]
    fn bytes_of_a_response_of_every_part() {
        let values = vec![Values { format: 0x43, size: 4, values: vec![0xFFFE_7960] }, Values::error(0x16)];
        let block = Block { reference: 1, identifier: 0x81, axis: 16, count: 2, addresses: Vec::new(), values };
        let bytes = [1, 0x81, 16, 2, 0x43, 1, 0xFF, 0xFE, 0x79, 0x60, 0x44, 1, 0, 0x16];
        assert_eq!((block.bytes(), block.length()), (bytes.to_vec(), bytes.len()));
        assert_eq!(Block::of_response(&bytes), Some(block));
        assert_eq!(Block::of_response(&bytes[..13]), None);
    }

    #[test]
    fn a_fill_byte_follows_an_odd_number_of_bytes() {
        let address = Address { attribute: 0x10, elements: 1, pnu: 965, sub_index: 0 };
        let values = |format, size, values: &[u32]| Values { format, size, values: values.to_vec() };
        for format in BYTE_FORMATS {
            let values = vec![values(format, 1, &[3]), values(format, 1, &[3, 41]), values(format, 1, &[])];
            let addresses = vec![address; 3];
            let block = Block { reference: 1, identifier: 2, axis: 1, count: 3, addresses, values };
            let bytes = block.bytes();
            assert_eq!(bytes[22..], [format, 1, 3, 0, format, 2, 3, 41, format, 0]);
            assert_eq!((block.length(), Block::of_request(&bytes)), (bytes.len(), Some(block.clone())));
            let ends: Vec<_> = block.byte_blocks().iter().map(|bytes| (bytes.end, bytes.is_filled())).collect();
            assert_eq!(ends, [(26, true), (30, false), (32, false)]);
        }
        for (format, size, bytes) in [(0x42, 2, 4), (0x43, 4, 6), (0x44, 1, 3), (0x40, 1, 3), (8, 1, 3)] {
            assert_eq!(values(format, size, &[7]).length(), bytes, "format {format:02X} has no fill byte");
        }
    }
}
