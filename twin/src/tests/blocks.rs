use super::hex;
use crate::{parse_request, parse_response, Address, Item, RequestKind, ResponseKind, Values};

fn readable_request(text: &str) -> bool {
    parse_request(&hex(text)).is_some()
}

fn readable_response(text: &str) -> bool {
    parse_response(&hex(text)).is_some()
}

#[test]
fn the_worked_request_in_its_parts() {
    let block = hex("07 02 01 01 10 02 75 31 00 00 42 02 03 E8 0B B9");
    let request = parse_request(&block).unwrap();
    assert_eq!((request.reference, request.kind, request.axis, request.count), (7, RequestKind::Change, 1, 1));
    let address = Address { attribute: 0x10, elements: 2, pnu: 30001, sub_index: 0 };
    assert_eq!(request.addresses().collect::<Vec<_>>(), [address]);
    let values = Values { format: 0x42, count: 2, bytes: &[0x03, 0xE8, 0x0B, 0xB9] };
    assert_eq!(request.values().collect::<Vec<_>>(), [values]);
}

#[test]
fn request_headers() {
    assert!(readable_request("01 01 01 01 10 01 03 A2 00 00"));
    assert!(readable_request("FF 01 00 01 99 FF FF FF FF FF"), "axis and address may be anything");
    assert!(!readable_request("00 01 01 01 10 01 03 A2 00 00"), "reference 0");
    assert!(!readable_request("01 00 01 01 10 01 03 A2 00 00"));
    assert!(!readable_request("01 03 01 01 10 01 03 A2 00 00"));
    assert!(!readable_request("01 81 01 01 10 01 03 A2 00 00"));
    assert!(!readable_request("01 01 01 00"), "no parameter");
    assert!(!readable_request("01 01 01 00 10 01 03 A2 00 00"));
    assert!(!readable_request("01 01 01 02 10 01 03 A2 00 00"), "an address missing");
    assert!(!readable_request("01 01 01 01 10 01 03 A2 00"), "a byte missing");
    assert!(!readable_request("01 01 01 01 10 01 03 A2 00 00 00"), "a byte left over");
    let full = hex("01 01 01 01 10 01 03 A2 00 00");
    assert!((0..full.len()).all(|length| parse_request(&full[..length]).is_none()));
}

#[test]
fn number_of_parameters() {
    for count in 0..=255u8 {
        let mut block = vec![1, 1, 1, count];
        block.resize(4 + 6 * usize::from(count), 0);
        assert_eq!(parse_request(&block).is_some(), (1..=39).contains(&count), "{count}");
    }
}

#[test]
fn formats_of_a_change() {
    for format in 0..=255u8 {
        // Three values, and after three bytes the fill byte.
        let length = match format {
            0x41 | 2 | 5 => Some(4),
            0x42 | 3 | 6 => Some(6),
            0x43 | 4 | 7 => Some(12),
            _ => None,
        };
        for bytes in 0..=13 {
            let mut block = hex("01 02 01 01 10 01 03 A2 00 00");
            block.extend([format, 3]);
            block.resize(block.len() + bytes, 0);
            assert_eq!(parse_request(&block).is_some(), length == Some(bytes), "{format:02X} {bytes}");
        }
    }
}

#[test]
fn value_blocks_of_a_change() {
    let two = "01 02 01 02 10 01 03 A2 00 00 10 01 03 A2 00 00";
    assert!(readable_request(&format!("{two} 41 03 01 02 03 00 42 01 00 01")), "three bytes and their fill byte");
    assert!(!readable_request(&format!("{two} 41 03 01 02 03 42 01 00 01")), "no fill byte");
    assert!(readable_request(&format!("{two} 41 00 43 00")), "no values are readable");
    assert!(!readable_request(&format!("{two} 41 00")), "a value block missing");
    assert!(!readable_request(&format!("{two} 41 00 41")));
    assert!(!readable_request(&format!("{two} 41 00 41 00 00")));
}

/// Byte values of each count, and whether a fill byte follows them.
const BYTE_VALUES: [(u8, &str, bool); 5] =
    [(0, "", false), (1, "11", true), (2, "11 12", false), (3, "11 12 13", true), (4, "11 12 13 14", false)];

/// The block with none, zero, other and several bytes after it is readable only as the fill rule says.
#[track_caller]
fn assert_fill(readable: impl Fn(&str) -> bool, block: &str, filled: bool) {
    assert_eq!(readable(block), !filled, "{block} and nothing");
    assert_eq!(readable(&format!("{block} 00")), filled, "{block} and a zero byte");
    for other in 1..=255 {
        assert!(!readable(&format!("{block} {other:02X}")), "{block} and {other:02X}");
    }
    for several in ["00 00", "00 01", "00 00 00"] {
        assert!(!readable(&format!("{block} {several}")), "{block} and {several}");
    }
}

#[test]
fn fill_bytes_of_a_change() {
    for format in [0x41, 2, 5] {
        for (count, values, filled) in BYTE_VALUES {
            let bare = format!("01 02 01 01 10 01 03 C5 00 00 {format:02X} {count:02X} {values}");
            assert_fill(readable_request, &bare, filled);
            let block = hex(&if filled { bare + "00" } else { bare });
            let expected = Values { format, count, bytes: &hex(values) };
            assert_eq!(parse_request(&block).unwrap().values().collect::<Vec<_>>(), [expected]);
        }
    }
    for values in ["42 01 00 01", "03 03 00 01 00 02 00 03", "06 00", "43 01 00 00 00 01", "04 00"] {
        assert_fill(readable_request, &format!("01 02 01 01 10 01 03 C5 00 00 {values}"), false);
    }
}

#[test]
fn the_count_leaves_the_fill_byte_out() {
    let values = |text: &str| {
        let block = hex(&format!("01 02 01 01 10 01 03 C5 00 00 {text}"));
        parse_request(&block).unwrap().values().map(|values| (values.count, values.bytes.to_vec())).collect::<Vec<_>>()
    };
    assert_eq!(values("41 01 07 00"), [(1, vec![7])], "a fill byte");
    assert_eq!(values("41 02 07 00"), [(2, vec![7, 0])], "a value that is zero");
    assert_eq!(values("41 01 00 00"), [(1, vec![0])], "both");
}

#[test]
fn every_value_block_has_its_own_fill_byte() {
    let four = format!("01 02 01 04 {}", "10 01 03 C5 00 00".repeat(4));
    let block = hex(&format!("{four} 41 01 07 00 05 03 01 02 03 00 42 01 12 34 02 01 09 00"));
    let expected = [
        Values { format: 0x41, count: 1, bytes: &[7] },
        Values { format: 5, count: 3, bytes: &[1, 2, 3] },
        Values { format: 0x42, count: 1, bytes: &[0x12, 0x34] },
        Values { format: 2, count: 1, bytes: &[9] },
    ];
    assert_eq!(parse_request(&block).unwrap().values().collect::<Vec<_>>(), expected);

    let two = "01 02 01 02 10 01 03 C5 00 00 10 01 03 C5 00 00";
    assert!(readable_request(&format!("{two} 41 01 07 00 41 01 08 00")));
    assert!(!readable_request(&format!("{two} 41 01 07 41 01 08")), "even without them, but each lacks its own");
    assert!(!readable_request(&format!("{two} 41 01 07 41 01 08 00")), "the first lacks its own");
    assert!(!readable_request(&format!("{two} 41 01 07 00 41 01 08")), "the second lacks its own");
    assert!(!readable_request(&format!("{two} 41 01 07 41 01 08 00 00")), "both at the end");
    assert!(!readable_request(&format!("{two} 41 01 07 00 00 41 01 08 00")), "a second one in the middle");
    assert!(!readable_request(&format!("{two} 41 01 07 01 41 01 08 00")), "another one in the middle");
    assert!(readable_request(&format!("{two} 41 02 07 08 41 01 08 00")), "none after an even count");
    assert!(!readable_request(&format!("{two} 41 02 07 08 00 41 01 08 00")));
    assert!(readable_request(&format!("{two} 41 00 41 01 08 00")), "none after no values");
    assert!(!readable_request(&format!("{two} 41 00 00 41 01 08 00")));
}

/// The lengths, of those near the largest, at which a block that starts so and goes on with zeros is readable.
fn readable_lengths(readable: impl Fn(&[u8]) -> bool, start: &[u8]) -> Vec<usize> {
    let block = [start, &[0; 256]].concat();
    (220..=256).filter(|length| readable(&block[..*length])).collect()
}

#[test]
fn the_largest_change() {
    let lengths = |count: u8| {
        let start = [hex("01 02 01 01 10 01 03 A2 00 00"), vec![0x41, count]].concat();
        readable_lengths(|block| parse_request(block).is_some(), &start)
    };
    assert_eq!(lengths(226), [238], "12 + 226");
    assert_eq!(lengths(227), [240], "12 + 227 and the fill byte");
    assert_eq!(lengths(228), [240], "12 + 228");
    assert_eq!(lengths(229), [], "12 + 229 and the fill byte are 242");
    assert_eq!(lengths(230), []);
}

#[test]
fn the_worked_response_in_its_parts() {
    let block = hex("07 82 01 01 44 01 00 02");
    let response = parse_response(&block).unwrap();
    assert_eq!((response.reference, response.kind), (7, ResponseKind::ChangeFailed));
    assert_eq!((response.axis, response.count), (1, 1));
    assert_eq!(response.items().collect::<Vec<_>>(), [Item::Error(2)]);
}

#[test]
fn response_headers() {
    assert!(readable_response("01 02 01 01"));
    assert!(readable_response("FF 02 FF 27"));
    assert!(!readable_response("00 02 01 01"));
    assert!(!readable_response("01 02 01 00"));
    assert!(!readable_response("01 02 01 28"));
    assert!(!readable_response("01 02 01"));
    assert!(!readable_response(""));
    assert!(!readable_response("01 02 01 01 40 00"), "02 ends after its header");
    for kind in (0..=255u8).filter(|kind| *kind != 2) {
        assert!(parse_response(&[1, kind, 1, 1]).is_none());
    }
}

#[test]
fn response_blocks() {
    assert!(readable_response("01 01 01 03 41 01 00 00 42 01 00 00 43 01 00 00 00 00"));
    assert!(!readable_response("01 01 01 01 41 00"), "a count from 1");
    assert!(!readable_response("01 01 01 01 05 01 00 00"), "no type codes");
    assert!(!readable_response("01 01 01 01 42 01 00"));
    assert!(!readable_response("01 01 01 01 42 01 00 00 00"));
    assert!(!readable_response("01 01 01 02 42 01 00 00"));
    assert!(!readable_response("01 01 01 01 44 01 00 02"), "01 has no error");
    assert!(!readable_response("01 01 01 01 40 00"));

    assert!(readable_response("01 81 01 02 41 01 00 00 44 01 FF FF"), "any error word");
    assert!(readable_response("01 81 01 01 44 01 00 00"));
    assert!(!readable_response("01 81 01 01 41 01 00 00"), "at least one error");
    assert!(!readable_response("01 81 01 02 40 00 44 01 00 00"));

    assert!(readable_response("01 82 01 02 40 00 44 01 00 02"));
    assert!(!readable_response("01 82 01 02 40 00 40 00"), "at least one error");
    assert!(!readable_response("01 82 01 02 41 01 00 00 44 01 00 02"));
    assert!(!readable_response("01 82 01 01 44 01 00"));
    assert!(!readable_response("01 82 01 01 44 00"));
    assert!(!readable_response("01 82 01 01 44 02 00 02 00 02"));
    assert!(!readable_response("01 82 01 02 40 01 44 01 00 02"));
    assert!(!readable_response("01 82 01 01 44 01 00 02 00"));
}

#[test]
fn fill_bytes_of_a_response() {
    for (count, values, filled) in BYTE_VALUES.into_iter().skip(1) {
        let bare = format!("01 01 01 01 41 {count:02X} {values}");
        assert_fill(readable_response, &bare, filled);
        let block = hex(&if filled { bare + "00" } else { bare });
        let expected = Item::Values(Values { format: 0x41, count, bytes: &hex(values) });
        assert_eq!(parse_response(&block).unwrap().items().collect::<Vec<_>>(), [expected]);
    }
    assert_fill(readable_response, "01 01 01 01 42 01 00 01", false);
    assert_fill(readable_response, "01 01 01 01 43 03 00 00 00 01 00 00 00 02 00 00 00 03", false);
    assert_fill(readable_response, "01 82 01 02 44 01 00 02 40 00", false);
    assert_fill(readable_response, "01 82 01 02 40 00 44 01 00 02", false);
    assert_fill(readable_response, "01 02 01 01", false);
}

#[test]
fn fill_bytes_in_the_middle_of_a_response() {
    let block = hex("01 81 01 04 41 01 07 00 44 01 00 02 41 03 01 02 03 00 42 01 12 34");
    let expected = [
        Item::Values(Values { format: 0x41, count: 1, bytes: &[7] }),
        Item::Error(2),
        Item::Values(Values { format: 0x41, count: 3, bytes: &[1, 2, 3] }),
        Item::Values(Values { format: 0x42, count: 1, bytes: &[0x12, 0x34] }),
    ];
    assert_eq!(parse_response(&block).unwrap().items().collect::<Vec<_>>(), expected);

    assert!(!readable_response("01 01 01 02 41 01 07 42 01 00 01"), "none");
    assert!(!readable_response("01 01 01 02 41 01 07 01 42 01 00 01"), "another");
    assert!(!readable_response("01 01 01 02 41 01 07 00 00 42 01 00 01"), "a second");
    assert!(!readable_response("01 01 01 02 41 01 07 41 01 08"), "even without them");
    assert!(!readable_response("01 01 01 02 41 01 07 41 01 08 00 00"), "both at the end");
    assert!(!readable_response("01 01 01 02 41 02 07 08 00 42 01 00 01"), "one after an even count");
    assert!(!readable_response("01 82 01 02 40 00 00 44 01 00 02"), "one after 40 00");
    assert!(!readable_response("01 82 01 02 44 01 00 02 00 40 00"), "one after an error block");
}

#[test]
fn the_largest_response() {
    let lengths = |count: u8| {
        let start = [hex("01 01 01 01"), vec![0x41, count]].concat();
        readable_lengths(|block| parse_response(block).is_some(), &start)
    };
    assert_eq!(lengths(232), [238], "6 + 232");
    assert_eq!(lengths(233), [240], "6 + 233 and the fill byte");
    assert_eq!(lengths(234), [240], "6 + 234");
    assert_eq!(lengths(235), [], "6 + 235 and the fill byte are 242");
    assert_eq!(lengths(236), []);
}
