//! Wireshark's names for the fields that are looked at.

use std::net::Ipv4Addr;

/// A field by Wireshark's name, and its number.
pub(crate) type Field = (&'static str, u32);

/// The names of PROFIdrive's fields begin so.
pub(crate) const PROFIDRIVE: &str = "pn_io.profidrive.";
/// Where Wireshark finds fault with a packet.
pub(crate) const FAULT: &str = "_ws.expert.severity";

pub(crate) const REFERENCE: &str = "pn_io.profidrive.parameter.request_reference";
pub(crate) const REQUEST_ID: &str = "pn_io.profidrive.parameter.request_id";
pub(crate) const RESPONSE_ID: &str = "pn_io.profidrive.parameter.response_id";
pub(crate) const DO: &str = "pn_io.profidrive.parameter.do";
pub(crate) const PARAMETERS: &str = "pn_io.profidrive.parameter.no_of_parameters";
pub(crate) const ATTRIBUTE: &str = "pn_io.profidrive.parameter.attribute";
pub(crate) const ELEMENTS: &str = "pn_io.profidrive.parameter.no_of_elems";
pub(crate) const PNU: &str = "pn_io.profidrive.parameter.number";
pub(crate) const SUB_INDEX: &str = "pn_io.profidrive.parameter.index";
pub(crate) const FORMAT: &str = "pn_io.profidrive.parameter.format";
pub(crate) const VALUES: &str = "pn_io.profidrive.parameter.no_of_values";
pub(crate) const BYTE: &str = "pn_io.profidrive.parameter.value_b";
pub(crate) const WORD: &str = "pn_io.profidrive.parameter.value_w";
pub(crate) const DOUBLE: &str = "pn_io.profidrive.parameter.value_dw";
pub(crate) const ERROR: &str = "pn_io.profidrive.parameter.error_num";

pub(crate) const IP_CHECKSUM: &str = "ip.checksum.status";
pub(crate) const IP_FROM: &str = "ip.src";
pub(crate) const IP_TO: &str = "ip.dst";
pub(crate) const UDP_CHECKSUM: &str = "udp.checksum.status";
pub(crate) const RECORD: &str = "dcerpc.dg_seqnum";
pub(crate) const OPERATION: &str = "pn_io.opnum";
/// The four bytes of a status.
pub(crate) const STATUS: [&str; 4] =
    ["pn_io.error_code", "pn_io.error_decode", "pn_io.error_code1", "pn_io.error_code2"];
pub(crate) const BLOCK_TYPE: &str = "pn_io.block_type";
pub(crate) const RECORD_LOW: &str = "pn_io.seq_number";
pub(crate) const SLOT: &str = "pn_io.slot_nr";
pub(crate) const SUBSLOT: &str = "pn_io.subslot_nr";
pub(crate) const RECORD_INDEX: &str = "pn_io.index";
pub(crate) const RECORD_LENGTH: &str = "pn_io.record_data_length";
pub(crate) const STORED: &str = "pn_io.add_val1";

/// Of a value whose format Wireshark does not know.
pub(crate) const INVALID: &str = "pn_io.profidrive.parameter.format.invalid";
/// Wireshark's words for what follows the end of a response: no field's name, but each byte is taken here as a field.
pub(crate) const LEFT_OVER: &str = "Long frame";

/// Fields of PROFIdrive that are no number; they are looked at because we never send what should be read so.
const NO_NUMBER: [&str; 3] =
    ["pn_io.profidrive.parameter.value_float", "pn_io.profidrive.parameter.value_str", INVALID];

/// The other fields that are looked at. With those above all that Wireshark has of PROFIdrive are here.
const NUMBERS: [&str; 34] = [
    FAULT,
    REFERENCE,
    REQUEST_ID,
    RESPONSE_ID,
    DO,
    PARAMETERS,
    ATTRIBUTE,
    ELEMENTS,
    PNU,
    SUB_INDEX,
    FORMAT,
    VALUES,
    BYTE,
    WORD,
    DOUBLE,
    ERROR,
    "pn_io.profidrive.parameter.error_subindex",
    IP_CHECKSUM,
    IP_FROM,
    IP_TO,
    UDP_CHECKSUM,
    RECORD,
    OPERATION,
    STATUS[0],
    STATUS[1],
    STATUS[2],
    STATUS[3],
    BLOCK_TYPE,
    RECORD_LOW,
    SLOT,
    SUBSLOT,
    RECORD_INDEX,
    RECORD_LENGTH,
    STORED,
];

/// The field of this name, if it is looked at for its number.
pub(crate) fn with_number(name: &str) -> Option<&'static str> {
    NUMBERS.into_iter().find(|known| *known == name)
}

/// The field of this name, if it is looked at though it is no number.
pub(crate) fn without_number(name: &str) -> Option<&'static str> {
    NO_NUMBER.into_iter().find(|known| *known == name)
}

/// A number as Wireshark writes it: decimal, in hex, or an address.
pub(crate) fn number(written: &str) -> Option<u32> {
    match (written.strip_prefix("0x"), written.parse::<Ipv4Addr>()) {
        (_, Ok(address)) => Some(address.into()),
        (Some(hex), _) => u32::from_str_radix(hex, 16).ok(),
        _ => written.parse().ok(),
    }
}
