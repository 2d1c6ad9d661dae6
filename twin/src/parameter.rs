//! The parameters of an axis, and the rules by which one address is read or changed.

use crate::axis::{Axis, Settings, CODES, SITUATIONS};
use crate::block::{fill_length, Address, Values, SIZE_BYTE, SIZE_DOUBLE, SIZE_WORD};

/// Error words of an address.
pub mod error {
    /// No such PNU.
    pub const UNKNOWN: u8 = 0x00;
    /// Not writable.
    pub const READ_ONLY: u8 = 0x01;
    /// Outside limits.
    pub const LIMITS: u8 = 0x02;
    /// Sub-index plus elements passes the array.
    pub const SUB_INDEX: u8 = 0x03;
    /// Not an array.
    pub const NO_ARRAY: u8 = 0x04;
    /// Wrong format.
    pub const FORMAT: u8 = 0x05;
    /// No description.
    pub const NO_DESCRIPTION: u8 = 0x09;
    /// No text.
    pub const NO_TEXT: u8 = 0x0F;
    /// Response too long.
    pub const TOO_LONG: u8 = 0x15;
    /// Address not permitted.
    pub const ADDRESS: u8 = 0x16;
    /// Number of values not the elements.
    pub const COUNT: u8 = 0x18;
}

/// The parameters that exist.
#[derive(Clone, Copy, Debug, PartialEq, Eq)]
#[allow(missing_docs)]
pub enum Parameter {
    P930,
    P944,
    P947,
    P965,
    P9900,
    P9901,
    P10100,
    P10101,
    P10102,
    P10103,
    P10111,
    P30001,
    P30002,
    P30003,
    P30004,
}

/// The type of a parameter's elements.
#[derive(Clone, Copy, Debug, PartialEq, Eq)]
#[allow(missing_docs)]
pub enum Type {
    U8,
    I16,
    U16,
    I32,
}

impl Type {
    /// Bytes of one value.
    pub fn size(self) -> usize {
        match self {
            Type::U8 => 1,
            Type::I16 | Type::U16 => 2,
            Type::I32 => 4,
        }
    }

    /// The format that names the size alone.
    pub fn size_code(self) -> u8 {
        match self {
            Type::U8 => SIZE_BYTE,
            Type::I16 | Type::U16 => SIZE_WORD,
            Type::I32 => SIZE_DOUBLE,
        }
    }

    /// The format that names the type.
    pub fn type_code(self) -> u8 {
        match self {
            Type::U8 => 5,
            Type::I16 => 3,
            Type::U16 => 6,
            Type::I32 => 4,
        }
    }

    /// The value of these bytes, exactly `size` many, high byte first.
    fn decode(self, bytes: &[u8]) -> i32 {
        match (self, bytes) {
            (Type::U8, &[a]) => i32::from(a),
            (Type::I16, &[a, b]) => i32::from(i16::from_be_bytes([a, b])),
            (Type::U16, &[a, b]) => i32::from(u16::from_be_bytes([a, b])),
            (Type::I32, &[a, b, c, d]) => i32::from_be_bytes([a, b, c, d]),
            _ => unreachable!("a value of {self:?} in {} bytes", bytes.len()),
        }
    }

    /// Writes a value over exactly `size` bytes, high byte first.
    fn encode(self, value: i32, bytes: &mut [u8]) {
        bytes.copy_from_slice(&value.to_be_bytes()[4 - self.size()..]);
    }
}

impl Parameter {
    /// The parameter of this number, if it exists.
    pub fn find(pnu: u16) -> Option<Parameter> {
        Some(match pnu {
            930 => Parameter::P930,
            944 => Parameter::P944,
            947 => Parameter::P947,
            965 => Parameter::P965,
            9900 => Parameter::P9900,
            9901 => Parameter::P9901,
            10100 => Parameter::P10100,
            10101 => Parameter::P10101,
            10102 => Parameter::P10102,
            10103 => Parameter::P10103,
            10111 => Parameter::P10111,
            30001 => Parameter::P30001,
            30002 => Parameter::P30002,
            30003 => Parameter::P30003,
            30004 => Parameter::P30004,
            _ => return None,
        })
    }

    /// The type of its elements.
    pub fn kind(self) -> Type {
        match self {
            Parameter::P965 => Type::U8,
            Parameter::P10101 | Parameter::P10103 => Type::I16,
            Parameter::P30004 => Type::I32,
            _ => Type::U16,
        }
    }

    /// Elements of an array; none for a simple parameter.
    pub fn array_length(self) -> Option<usize> {
        match self {
            Parameter::P947 => Some(SITUATIONS * CODES),
            Parameter::P965 | Parameter::P30004 => Some(2),
            Parameter::P9901 => Some(8),
            Parameter::P30001 => Some(4),
            _ => None,
        }
    }

    /// Lowest and highest value of a writable parameter, both included; none where it is not writable.
    pub fn limits(self) -> Option<(i32, i32)> {
        match self {
            Parameter::P9900 | Parameter::P9901 => Some((0, 65535)),
            Parameter::P10111 => Some((1, 60000)),
            Parameter::P30001 => Some((0, 3000)),
            Parameter::P30002 => Some((0, 16384)),
            Parameter::P30003 => Some((0, 32767)),
            Parameter::P30004 => Some((-100_000, 100_000)),
            _ => None,
        }
    }

    /// The value of an element; the element exists.
    fn load(self, part: &Axis, element: usize) -> i32 {
        match self {
            Parameter::P930 => part.p930.into(),
            Parameter::P944 => part.fault_counter.into(),
            Parameter::P947 => part.situations[element / CODES][element % CODES].into(),
            Parameter::P965 => part.p965[element].into(),
            Parameter::P9900 => part.settings.p9900.into(),
            Parameter::P9901 => part.settings.p9901[element].into(),
            Parameter::P10100 => part.last_word.into(),
            Parameter::P10101 => part.last_setpoint.into(),
            Parameter::P10102 => part.status.into(),
            Parameter::P10103 => part.actual.into(),
            Parameter::P10111 => part.settings.p10111.into(),
            Parameter::P30001 => part.settings.p30001[element].into(),
            Parameter::P30002 => part.settings.p30002.into(),
            Parameter::P30003 => part.settings.p30003.into(),
            Parameter::P30004 => part.settings.p30004[element],
        }
    }

    /// Stores a value inside the limits in an element that exists, of a writable parameter.
    fn store(self, settings: &mut Settings, element: usize, value: i32) {
        match self {
            Parameter::P9900 => settings.p9900 = value as u16,
            Parameter::P9901 => settings.p9901[element] = value as u16,
            Parameter::P10111 => settings.p10111 = value as u16,
            Parameter::P30001 => settings.p30001[element] = value as u16,
            Parameter::P30002 => settings.p30002 = value as u16,
            Parameter::P30003 => settings.p30003 = value as u16,
            Parameter::P30004 => settings.p30004[element] = value,
            _ => unreachable!("{self:?} is not writable"),
        }
    }
}

/// An address that names existing elements.
struct Target {
    parameter: Parameter,
    first: usize,
    elements: usize,
}

/// The rules for every address, up to 0x03.
fn locate(address: &Address) -> Result<Target, u8> {
    let parameter = Parameter::find(address.pnu).ok_or(error::UNKNOWN)?;
    check_attribute(address.attribute)?;
    let first = usize::from(address.sub_index);
    let elements = usize::from(address.elements);
    match parameter.array_length() {
        None if first != 0 || elements > 1 => Err(error::NO_ARRAY),
        None => Ok(Target { parameter, first, elements: 1 }),
        Some(_) if elements == 0 => Err(error::ADDRESS),
        Some(length) if first + elements > length => Err(error::SUB_INDEX),
        Some(_) => Ok(Target { parameter, first, elements }),
    }
}

fn check_attribute(attribute: u8) -> Result<(), u8> {
    match attribute {
        0x10 => Ok(()),
        0x20 => Err(error::NO_DESCRIPTION),
        0x30 => Err(error::NO_TEXT),
        _ => Err(error::ADDRESS),
    }
}

/// Writes the value block of an address, fill byte included, at the front of `room` and answers its length; 0x15 when
/// it does not fit.
pub(crate) fn read(part: &Axis, address: &Address, room: &mut [u8]) -> Result<usize, u8> {
    let Target { parameter, first, elements } = locate(address)?;
    let kind = parameter.kind();
    let value_bytes = elements * kind.size();
    let length = 2 + value_bytes + fill_length(value_bytes);
    let block = room.get_mut(..length).ok_or(error::TOO_LONG)?;
    block[0] = kind.size_code();
    block[1] = elements as u8;
    let (values, fill) = block[2..].split_at_mut(value_bytes);
    for (i, bytes) in values.chunks_exact_mut(kind.size()).enumerate() {
        kind.encode(parameter.load(part, first + i), bytes);
    }
    fill.fill(0);
    Ok(length)
}

/// Works one address of a change and answers how many elements it stored: all of them, or with an error none.
pub(crate) fn change(settings: &mut Settings, address: &Address, values: &Values) -> Result<u16, u8> {
    let Target { parameter, first, elements } = locate(address)?;
    let (low, high) = parameter.limits().ok_or(error::READ_ONLY)?;
    let kind = parameter.kind();
    if values.format != kind.size_code() && values.format != kind.type_code() {
        return Err(error::FORMAT);
    }
    if usize::from(values.count) != elements {
        return Err(error::COUNT);
    }
    let decoded = values.bytes.chunks_exact(kind.size()).map(|bytes| kind.decode(bytes));
    // R-6 of document 02: every value is tested before the first is stored.
    if !decoded.clone().all(|value| (low..=high).contains(&value)) {
        return Err(error::LIMITS);
    }
    for (element, value) in (first..).zip(decoded) {
        parameter.store(settings, element, value);
    }
    Ok(u16::from(values.count))
}
