//! The layouts of request and response blocks.

use crate::axis::BLOCK_MAX;

const HEADER: usize = 4;
const ADDRESS: usize = 6;
const PARAMETERS_MAX: u8 = 39;

/// Size code of values of one byte.
pub const SIZE_BYTE: u8 = 0x41;
/// Size code of values of two bytes.
pub const SIZE_WORD: u8 = 0x42;
/// Size code of values of four bytes.
pub const SIZE_DOUBLE: u8 = 0x43;
/// Format of a response's empty block.
pub const FORMAT_ZERO: u8 = 0x40;
/// Format of a response's error block.
pub const FORMAT_ERROR: u8 = 0x44;

/// What a request block asks for.
#[derive(Clone, Copy, Debug, PartialEq, Eq)]
pub enum RequestKind {
    /// 01, read the parameters.
    Request,
    /// 02, change the parameters.
    Change,
}

/// A readable request block.
#[derive(Clone, Copy, Debug, PartialEq, Eq)]
pub struct Request<'a> {
    /// Reference, 1 to 255.
    pub reference: u8,
    /// Request or change.
    pub kind: RequestKind,
    /// Axis byte, any.
    pub axis: u8,
    /// Number of parameters, 1 to 39.
    pub count: u8,
    /// The addresses, six bytes each.
    pub address_bytes: &'a [u8],
    /// The value blocks of a change with their fill bytes; empty for a request.
    pub value_bytes: &'a [u8],
}

/// One parameter address.
#[derive(Clone, Copy, Debug, PartialEq, Eq)]
pub struct Address {
    /// Attribute.
    pub attribute: u8,
    /// Number of elements.
    pub elements: u8,
    /// Parameter number.
    pub pnu: u16,
    /// Sub-index.
    pub sub_index: u16,
}

/// One value block of a change.
#[derive(Clone, Copy, Debug, PartialEq, Eq)]
pub struct Values<'a> {
    /// Format.
    pub format: u8,
    /// Number of values.
    pub count: u8,
    /// The values alone, `count` times the format's size; a fill byte is none of them.
    pub bytes: &'a [u8],
}

/// What a response block answers.
#[derive(Clone, Copy, Debug, PartialEq, Eq)]
pub enum ResponseKind {
    /// 01, all values.
    Values,
    /// 02, all changed.
    Changed,
    /// 81, values and at least one error.
    ValuesFailed,
    /// 82, at least one error.
    ChangeFailed,
}

/// A readable response block.
#[derive(Clone, Copy, Debug, PartialEq, Eq)]
pub struct Response<'a> {
    /// Reference, 1 to 255.
    pub reference: u8,
    /// What it answers.
    pub kind: ResponseKind,
    /// Axis byte, any.
    pub axis: u8,
    /// Number of parameters, 1 to 39.
    pub count: u8,
    /// The blocks after the header.
    pub item_bytes: &'a [u8],
}

/// One block after a response's header.
#[derive(Clone, Copy, Debug, PartialEq, Eq)]
pub enum Item<'a> {
    /// Size code, a count from 1, and the values.
    Values(Values<'a>),
    /// 40 00.
    Zero,
    /// 44 01 and this error word.
    Error(u16),
}

/// Reads a request block; none when it is not readable.
pub fn parse_request(block: &[u8]) -> Option<Request<'_>> {
    let (reference, identifier, axis, count, rest) = split_header(block)?;
    let kind = match identifier {
        0x01 => RequestKind::Request,
        0x02 => RequestKind::Change,
        _ => return None,
    };
    let (address_bytes, value_bytes) = rest.split_at_checked(usize::from(count) * ADDRESS)?;
    let left = match kind {
        RequestKind::Request => value_bytes,
        RequestKind::Change => skip_values(value_bytes, count)?,
    };
    left.is_empty().then_some(Request { reference, kind, axis, count, address_bytes, value_bytes })
}

/// Reads a response block; none when it is not readable.
pub fn parse_response(block: &[u8]) -> Option<Response<'_>> {
    let (reference, identifier, axis, count, item_bytes) = split_header(block)?;
    let kind = match identifier {
        0x01 => ResponseKind::Values,
        0x02 => ResponseKind::Changed,
        0x81 => ResponseKind::ValuesFailed,
        0x82 => ResponseKind::ChangeFailed,
        _ => return None,
    };
    items_readable(kind, count, item_bytes).then_some(Response { reference, kind, axis, count, item_bytes })
}

impl<'a> Request<'a> {
    /// The addresses in order.
    pub fn addresses(&self) -> impl Iterator<Item = Address> + 'a {
        self.address_bytes.chunks_exact(ADDRESS).map(|bytes| Address {
            attribute: bytes[0],
            elements: bytes[1],
            pnu: u16::from_be_bytes([bytes[2], bytes[3]]),
            sub_index: u16::from_be_bytes([bytes[4], bytes[5]]),
        })
    }

    /// The value blocks in order; none for a request.
    pub fn values(&self) -> impl Iterator<Item = Values<'a>> + 'a {
        let mut left = self.value_bytes;
        std::iter::from_fn(move || {
            let (values, rest) = split_values(left)?;
            left = rest;
            Some(values)
        })
    }
}

impl<'a> Response<'a> {
    /// The blocks after the header in order.
    pub fn items(&self) -> impl Iterator<Item = Item<'a>> + 'a {
        let mut left = self.item_bytes;
        std::iter::from_fn(move || {
            let (item, rest) = split_item(left)?;
            left = rest;
            Some(item)
        })
    }
}

/// Bytes of one value of a format; none for a format that does not exist.
pub fn format_size(format: u8) -> Option<usize> {
    match format {
        SIZE_BYTE | 2 | 5 => Some(1),
        SIZE_WORD | 3 | 6 => Some(2),
        SIZE_DOUBLE | 4 | 7 => Some(4),
        _ => None,
    }
}

/// Zero bytes that follow this many bytes of values: R-2 of document 02 keeps every block at even length. Only an odd
/// number of one-byte values needs one, since values of two or four bytes are even however many.
pub(crate) fn fill_length(value_bytes: usize) -> usize {
    value_bytes % 2
}

/// Reference, identifier, axis, number of parameters and the rest, with what both layouts ask of them.
fn split_header(block: &[u8]) -> Option<(u8, u8, u8, u8, &[u8])> {
    if block.len() > BLOCK_MAX {
        return None;
    }
    let (header, rest) = block.split_at_checked(HEADER)?;
    let [reference, identifier, axis, count] = *header else { return None };
    let readable = reference != 0 && (1..=PARAMETERS_MAX).contains(&count);
    readable.then_some((reference, identifier, axis, count, rest))
}

/// The first value block, in either layout, and what follows it and its fill byte; none where that byte is missing or
/// not zero.
fn split_values(bytes: &[u8]) -> Option<(Values<'_>, &[u8])> {
    let (&[format, count], rest) = bytes.split_first_chunk::<2>()?;
    let (bytes, rest) = rest.split_at_checked(usize::from(count) * format_size(format)?)?;
    let (fill, rest) = rest.split_at_checked(fill_length(bytes.len()))?;
    fill.iter().all(|byte| *byte == 0).then_some((Values { format, count, bytes }, rest))
}

/// What follows `count` value blocks.
fn skip_values(mut bytes: &[u8], count: u8) -> Option<&[u8]> {
    for _ in 0..count {
        bytes = split_values(bytes)?.1;
    }
    Some(bytes)
}

/// The first block after a response's header and what follows it.
fn split_item(bytes: &[u8]) -> Option<(Item<'_>, &[u8])> {
    let (&[format, count], rest) = bytes.split_first_chunk::<2>()?;
    match (format, count) {
        (FORMAT_ZERO, 0) => Some((Item::Zero, rest)),
        (FORMAT_ERROR, 1) => {
            let (&word, rest) = rest.split_first_chunk::<2>()?;
            Some((Item::Error(u16::from_be_bytes(word)), rest))
        }
        (SIZE_BYTE | SIZE_WORD | SIZE_DOUBLE, 1..) => {
            let (values, rest) = split_values(bytes)?;
            Some((Item::Values(values), rest))
        }
        _ => None,
    }
}

/// Whether exactly these bytes may follow a header of this kind and count.
fn items_readable(kind: ResponseKind, count: u8, mut bytes: &[u8]) -> bool {
    if kind == ResponseKind::Changed {
        return bytes.is_empty();
    }
    let mut errors = 0;
    for _ in 0..count {
        let Some((item, rest)) = split_item(bytes) else { return false };
        if !item_allowed(kind, &item) {
            return false;
        }
        errors += usize::from(matches!(item, Item::Error(_)));
        bytes = rest;
    }
    bytes.is_empty() && (kind == ResponseKind::Values || errors > 0)
}

fn item_allowed(kind: ResponseKind, item: &Item) -> bool {
    match item {
        Item::Values(_) => matches!(kind, ResponseKind::Values | ResponseKind::ValuesFailed),
        Item::Zero => kind == ResponseKind::ChangeFailed,
        Item::Error(_) => matches!(kind, ResponseKind::ValuesFailed | ResponseKind::ChangeFailed),
    }
}
