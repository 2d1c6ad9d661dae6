//! How a request block is written in words: `change 07 axis 1: 10111 = 1450, 30001[0..1] = 1000 3001`.
//!
//! Every readable request can be written so, and what is written is read again (`read`) as the same bytes.

mod read;

use crate::layout::{Block, Values, CHANGE, VALUE};
use twin::block::SIZE_WORD;
use twin::{Address, Parameter, Type};

pub use read::read;

/// Attributes that have a name. That of values is not written.
const ATTRIBUTES: [(u8, &str); 2] = [(0x20, "description"), (0x30, "text")];

/// An element by its parameter and index; of a simple parameter there is but one.
pub fn element(pnu: u16, index: u32) -> String {
    let is_simple = Parameter::find(pnu).is_some_and(|parameter| parameter.array_length().is_none());
    match index {
        0 if is_simple => format!("{pnu}"),
        _ => format!("{pnu}[{index}]"),
    }
}

/// Several elements from a sub-index on, or none.
pub fn elements(pnu: u16, sub_index: u16, count: u8) -> String {
    match (count, sub_index.checked_add(u16::from(count).wrapping_sub(1))) {
        (1, _) => element(pnu, sub_index.into()),
        (2.., Some(last)) => format!("{pnu}[{sub_index}..{last}]"),
        _ => format!("{pnu}[{sub_index};{count}]"),
    }
}

/// An address: its parameter and elements.
pub fn address(address: &Address) -> String {
    let named = elements(address.pnu, address.sub_index, address.elements);
    match attribute(address.attribute) {
        Some(name) => format!("{name} {named}"),
        None => named,
    }
}

/// What an attribute is called; none where it is that of values.
pub fn attribute(attribute: u8) -> Option<String> {
    let known = ATTRIBUTES.iter().find(|(number, _)| *number == attribute);
    let name = known.map_or_else(|| format!("attribute {attribute:02X}"), |(_, name)| name.to_string());
    (attribute != VALUE).then_some(name)
}

/// The number that the low bytes of a value are to a parameter.
pub fn number(pnu: u16, size: usize, bits: u32) -> i64 {
    match (Parameter::find(pnu).map(Parameter::kind), size) {
        (Some(Type::I16), 2) => (bits as i16).into(),
        (Some(Type::I32), 4) => (bits as i32).into(),
        _ => bits.into(),
    }
}

/// The values of a block that belongs to a parameter, behind their format where it is not the parameter's own.
pub fn values(pnu: u16, values: &Values) -> String {
    let told: Vec<String> = values.values.iter().map(|bits| number(pnu, values.size, *bits).to_string()).collect();
    let told = if told.is_empty() { "none".to_string() } else { told.join(" ") };
    match values.format {
        format if format == own_format(pnu) => told,
        format => format!("format {format:02X} {told}"),
    }
}

/// The format that is not written: the size code of the parameter's type, and that of a word where there is no such parameter.
fn own_format(pnu: u16) -> u8 {
    Parameter::find(pnu).map_or(SIZE_WORD, |parameter| parameter.kind().size_code())
}

/// A request block.
pub fn request(block: &Block) -> String {
    let what = if block.identifier == CHANGE { "change" } else { "read" };
    let told: Vec<String> = (block.addresses.iter().enumerate())
        .map(|(at, named)| match block.values.get(at) {
            Some(of) => format!("{} = {}", address(named), values(named.pnu, of)),
            None => address(named),
        })
        .collect();
    format!("{what} {:02X} axis {}: {}", block.reference, block.axis, told.join(", "))
}

#[cfg(test)]
mod tests {
    use super::*;

    fn named(attribute: u8, elements: u8, pnu: u16, sub_index: u16) -> String {
        address(&Address { attribute, elements, pnu, sub_index })
    }

    fn told(pnu: u16, format: u8, size: usize, of: &[u32]) -> String {
        values(pnu, &Values { format, size, values: of.to_vec() })
    }

    #[test]
    fn addresses() {
        assert_eq!(
            [named(0x10, 1, 944, 0), named(0x10, 1, 944, 1), named(0x10, 2, 944, 0)],
            ["944", "944[1]", "944[0..1]"]
        );
        assert_eq!(
            [named(0x10, 1, 947, 0), named(0x10, 8, 947, 8), named(0x10, 1, 7, 0)],
            ["947[0]", "947[8..15]", "7[0]"]
        );
        assert_eq!([named(0x10, 0, 944, 0), named(0x10, 0, 947, 9)], ["944[0;0]", "947[9;0]"]);
        assert_eq!([named(0x10, 2, 947, 65534), named(0x10, 2, 947, 65535)], ["947[65534..65535]", "947[65535;2]"]);
        assert_eq!([named(0x20, 1, 944, 0), named(0x30, 1, 944, 0)], ["description 944", "text 944"]);
        assert_eq!([named(0x00, 1, 944, 0), named(0xAB, 2, 7, 0)], ["attribute 00 944", "attribute AB 7[0..1]"]);
    }

    #[test]
    fn values_of_the_own_format_and_of_others() {
        assert_eq!([told(30001, 0x42, 2, &[1000, 65535]), told(7, 0x42, 2, &[65535])], ["1000 65535", "65535"]);
        assert_eq!([told(10101, 0x42, 2, &[0xFFFF, 0x7FFF]), told(965, 0x41, 1, &[255])], ["-1 32767", "255"]);
        assert_eq!(told(30004, 0x43, 4, &[0xFFFF_FFEC, 0x8000_0000]), "-20 -2147483648");
        assert_eq!(
            [told(30001, 6, 2, &[1]), told(30001, 0x43, 4, &[u32::MAX])],
            ["format 06 1", "format 43 4294967295"]
        );
        assert_eq!(
            [told(30004, 4, 4, &[u32::MAX]), told(10101, 3, 2, &[0x8000])],
            ["format 04 -1", "format 03 -32768"]
        );
        assert_eq!([told(9, 3, 2, &[0x8000]), told(9, 2, 1, &[0x80])], ["format 03 32768", "format 02 128"]);
        assert_eq!([told(30001, 0x42, 1, &[]), told(30001, 0x43, 1, &[])], ["none", "format 43 none"]);
    }

    #[test]
    fn values_are_signed_in_the_size_of_a_signed_parameter() {
        assert_eq!(
            [number(10101, 2, 0xFFFF), number(10101, 4, 0xFFFF_FFFF), number(10101, 1, 0xFF)],
            [-1, 4294967295, 255]
        );
        assert_eq!([number(30004, 4, 0xFFFF_FFFF), number(30004, 2, 0xFFFF), number(30004, 1, 0xFF)], [-1, 65535, 255]);
        assert_eq!(
            [number(930, 2, 0xFFFF), number(930, 4, 0xFFFF_FFFF), number(7, 2, 0xFFFF)],
            [65535, 4294967295, 65535]
        );
    }

    #[test]
    fn a_request_that_reads_and_one_that_changes() {
        let addresses = vec![
            Address { attribute: 0x10, elements: 1, pnu: 10111, sub_index: 0 },
            Address { attribute: 0x10, elements: 2, pnu: 30001, sub_index: 2 },
        ];
        let read = Block { reference: 7, identifier: 0x01, axis: 16, count: 2, addresses, values: Vec::new() };
        assert_eq!(request(&read), "read 07 axis 16: 10111, 30001[2..3]");
        let of = |values: &[u32]| Values { format: 0x42, size: 2, values: values.to_vec() };
        let change = Block { identifier: CHANGE, reference: 0xFE, values: vec![of(&[1450]), of(&[1, 2])], ..read };
        assert_eq!(request(&change), "change FE axis 16: 10111 = 1450, 30001[2..3] = 1 2");
    }
}
