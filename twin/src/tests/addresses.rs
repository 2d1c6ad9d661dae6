use super::{change, hex, request, write_and_fetch, UNTOUCHED};
use crate::parameter::{error, read};
use crate::{Address, Axis, Station};

/// The error of one read address.
fn read_error(address: &str) -> u8 {
    let mut station = Station::fresh();
    let (stored, response) = write_and_fetch(&mut station, 1, &request(1, 1, &[address]));
    assert_eq!((stored, &response[..7]), (0, &hex("01 81 01 01 44 01 00")[..]), "{address}");
    assert_eq!(response.len(), 8);
    assert!(station == Station::fresh());
    response[7]
}

/// The error of one changed address, which stores nothing.
fn change_error(address: &str, values: &str) -> u8 {
    let mut station = Station::fresh();
    let (stored, response) = write_and_fetch(&mut station, 1, &change(1, 1, &[(address, values)]));
    assert_eq!((stored, &response[..7]), (0, &hex("01 82 01 01 44 01 00")[..]), "{address} {values}");
    assert_eq!(response.len(), 8);
    assert!(station == Station::fresh());
    response[7]
}

/// The part after a change that must succeed, and its stored count.
fn changed(address: &str, values: &str) -> (Axis, u16) {
    let mut station = Station::fresh();
    let (stored, response) = write_and_fetch(&mut station, 1, &change(1, 1, &[(address, values)]));
    assert_eq!(response, hex("01 02 01 01"), "{address} {values}");
    assert!(station.axes[1..] == Station::fresh().axes[1..]);
    (station.axes[0].clone(), stored)
}

#[test]
fn every_read_error() {
    assert_eq!(read_error("10 01 00 00 00 00"), 0x00);
    assert_eq!(read_error("10 01 03 A3 00 00"), 0x00);
    assert_eq!(read_error("20 01 03 A2 00 00"), 0x09);
    assert_eq!(read_error("30 01 03 A2 00 00"), 0x0F);
    assert_eq!(read_error("00 01 03 A2 00 00"), 0x16);
    assert_eq!(read_error("11 01 03 A2 00 00"), 0x16);
    assert_eq!(read_error("10 01 03 A2 00 01"), 0x04);
    assert_eq!(read_error("10 02 03 A2 00 00"), 0x04);
    assert_eq!(read_error("10 00 03 B3 00 00"), 0x16);
    assert_eq!(read_error("10 21 03 B3 00 00"), 0x03);
    assert_eq!(read_error("10 01 03 B3 00 20"), 0x03);
    assert_eq!(read_error("10 02 03 B3 00 1F"), 0x03);
    assert_eq!(read_error("10 FF 03 B3 FF FF"), 0x03);
    assert_eq!(read_error("10 01 03 B3 FF FF"), 0x03, "the sum does not wrap");
}

#[test]
fn order_of_read_errors() {
    assert_eq!(read_error("20 05 00 01 00 09"), 0x00, "the PNU before the attribute");
    assert_eq!(read_error("30 05 03 A2 00 09"), 0x0F, "the attribute before 0x04");
    assert_eq!(read_error("20 00 03 B3 00 99"), 0x09, "the attribute before 0x16");
    assert_eq!(read_error("10 00 03 A2 00 01"), 0x04);
    assert_eq!(read_error("10 00 03 B3 00 99"), 0x16, "no elements before 0x03");
}

#[test]
fn every_change_error() {
    assert_eq!(change_error("10 01 00 00 00 00", "42 01 00 00"), 0x00);
    assert_eq!(change_error("20 01 75 32 00 00", "42 01 00 00"), 0x09);
    assert_eq!(change_error("30 01 75 32 00 00", "42 01 00 00"), 0x0F);
    assert_eq!(change_error("12 01 75 32 00 00", "42 01 00 00"), 0x16);
    assert_eq!(change_error("10 01 75 32 00 01", "42 01 00 00"), 0x04);
    assert_eq!(change_error("10 02 75 32 00 00", "42 02 00 00 00 00"), 0x04);
    assert_eq!(change_error("10 00 75 31 00 00", "42 00"), 0x16);
    assert_eq!(change_error("10 02 75 31 00 03", "42 02 00 00 00 00"), 0x03);
    assert_eq!(change_error("10 01 03 A2 00 00", "42 01 00 01"), 0x01);
    assert_eq!(change_error("10 01 75 32 00 00", "43 01 00 00 00 00"), 0x05);
    assert_eq!(change_error("10 02 75 31 00 00", "42 01 00 00"), 0x18);
    assert_eq!(change_error("10 02 75 31 00 00", "42 03 00 00 00 00 00 00"), 0x18);
    assert_eq!(change_error("10 01 75 31 00 00", "42 01 0B B9"), 0x02);
}

#[test]
fn order_of_change_errors() {
    assert_eq!(change_error("10 01 03 A2 00 00", "43 02 00 00 00 00 00 00 00 00"), 0x01, "0x01 before 0x05");
    assert_eq!(change_error("10 03 03 C5 00 00", "43 00"), 0x03, "0x03 before 0x01");
    assert_eq!(change_error("10 01 75 31 00 00", "41 02 FF FF"), 0x05, "0x05 before 0x18");
    assert_eq!(change_error("10 01 75 31 00 00", "42 02 0B B9 0B B9"), 0x18, "0x18 before 0x02");
    assert_eq!(change_error("10 01 75 31 00 00", "42 00"), 0x18, "an array without values");
    assert_eq!(change_error("10 00 75 32 00 00", "42 00"), 0x18, "no elements count as one");
    assert_eq!(change_error("10 01 75 32 00 00", "42 00"), 0x18);
}

#[test]
fn nothing_that_is_not_writable_changes() {
    for pnu in ["03 A2", "03 B0", "27 74", "27 75", "27 76", "27 77"] {
        assert_eq!(change_error(&format!("10 01 {pnu} 00 00"), "42 01 00 00"), 0x01);
    }
    assert_eq!(change_error("10 01 03 B3 00 00", "42 01 00 00"), 0x01);
    assert_eq!(change_error("10 01 03 C5 00 00", "41 01 03 00"), 0x01);
}

#[test]
fn formats_that_each_type_takes() {
    // One value of one byte takes two bytes, the second its fill byte.
    for (format, length) in [(0x41, 2), (2, 2), (5, 2), (0x42, 2), (3, 2), (6, 2), (0x43, 4), (4, 4), (7, 4)] {
        let values = format!("{format:02X} 01 {}", "00".repeat(length));
        for (address, accepted) in [("10 01 26 AC 00 00", [0x42, 6]), ("10 01 75 34 00 01", [0x43, 4])] {
            if accepted.contains(&format) {
                assert_eq!(changed(address, &values).1, 1);
            } else {
                assert_eq!(change_error(address, &values), 0x05);
            }
        }
    }
}

#[test]
fn both_sides_of_every_limit() {
    assert_eq!(changed("10 01 75 31 00 03", "42 01 0B B8").0.settings.p30001, [0, 0, 0, 3000]);
    assert_eq!(change_error("10 01 75 31 00 03", "42 01 0B B9"), 0x02);
    assert_eq!(changed("10 01 27 7F 00 00", "42 01 00 01").0.settings.p10111, 1);
    assert_eq!(change_error("10 01 27 7F 00 00", "42 01 00 00"), 0x02);
    assert_eq!(changed("10 01 27 7F 00 00", "42 01 EA 60").0.settings.p10111, 60000);
    assert_eq!(change_error("10 01 27 7F 00 00", "42 01 EA 61"), 0x02);
    assert_eq!(changed("10 01 75 32 00 00", "42 01 40 00").0.settings.p30002, 16384);
    assert_eq!(change_error("10 01 75 32 00 00", "42 01 40 01"), 0x02);
    assert_eq!(changed("10 01 75 33 00 00", "06 01 7F FF").0.settings.p30003, 32767);
    assert_eq!(change_error("10 01 75 33 00 00", "06 01 80 00"), 0x02);
    assert_eq!(changed("10 02 75 34 00 00", "43 02 FF FE 79 60 00 01 86 A0").0.settings.p30004, [-100_000, 100_000]);
    assert_eq!(change_error("10 01 75 34 00 00", "04 01 FF FE 79 5F"), 0x02);
    assert_eq!(change_error("10 01 75 34 00 00", "04 01 00 01 86 A1"), 0x02);
    assert_eq!(changed("10 01 26 AC 00 00", "42 01 FF FF").0.settings.p9900, 65535);
    assert_eq!(changed("10 02 26 AD 00 06", "42 02 FF FF 00 01").0.settings.p9901, [0, 0, 0, 0, 0, 0, 65535, 1]);
}

#[test]
fn stores_are_counted_not_differences() {
    assert_eq!(changed("10 01 75 32 00 00", "42 01 00 A4").1, 1, "an equal value counts");
    assert_eq!(changed("10 00 75 32 00 00", "42 01 00 A4").1, 1, "no elements count as one");
    assert_eq!(changed("10 04 75 31 00 00", "42 04 00 01 00 02 00 03 00 04").1, 4);
    let mut station = Station::fresh();
    let twice = [("10 01 26 AC 00 00", "42 01 00 05"), ("10 01 26 AC 00 00", "42 01 00 06")];
    assert_eq!(write_and_fetch(&mut station, 1, &change(1, 1, &twice)), (2, hex("01 02 01 02")));
    assert_eq!(station.axes[0].settings.p9900, 6);
}

#[test]
fn a_failed_change_goes_on() {
    let mut station = Station::fresh();
    let block = change(
        0x11,
        16,
        &[
            ("10 01 26 AC 00 00", "42 01 00 05"),
            ("10 04 75 31 00 00", "42 04 00 01 00 02 0B B9 00 04"),
            ("10 01 00 01 00 00", "41 03 01 02 03 00"),
            ("10 02 75 34 00 00", "04 02 00 00 00 01 FF FF FF FF"),
        ],
    );
    let (stored, response) = write_and_fetch(&mut station, 16, &block);
    assert_eq!(stored, 1 + 2);
    assert_eq!(response, hex("11 82 10 04 40 00 44 01 00 02 44 01 00 00 40 00"));
    let part = &station.axes[15];
    assert_eq!((part.settings.p9900, part.settings.p30001, part.settings.p30004), (5, [0; 4], [1, -1]));
}

#[test]
fn the_change_with_most_failures() {
    let mut station = Station::fresh();
    let block = change(1, 1, &[("10 01 00 01 00 00", "41 00"); 29]);
    assert_eq!(block.len(), 236);
    let (stored, response) = write_and_fetch(&mut station, 1, &block);
    assert_eq!((stored, response.len()), (0, 120));
    assert_eq!(response[4..], hex("44 01 00 00").repeat(29));
}

#[test]
fn reads_with_errors_between_values() {
    let mut station = Station::fresh();
    let block = request(2, 1, &["10 01 03 A2 00 00", "10 01 03 A1 00 00", "10 01 03 C5 00 01"]);
    assert_eq!(write_and_fetch(&mut station, 1, &block).1, hex("02 81 01 03 42 01 00 01 44 01 00 00 41 01 29 00"));
}

#[test]
fn byte_values_are_judged_without_their_fill_byte() {
    for format in ["41", "02", "05"] {
        assert_eq!(change_error("10 01 03 C5 00 00", &format!("{format} 01 03 00")), 0x01);
        assert_eq!(change_error("10 02 03 C5 00 00", &format!("{format} 02 03 29")), 0x01);
        assert_eq!(change_error("10 03 03 C5 00 00", &format!("{format} 03 03 29 00 00")), 0x03);
        assert_eq!(change_error("10 01 26 AC 00 00", &format!("{format} 01 05 00")), 0x05, "no word of two bytes");
        assert_eq!(change_error("10 01 26 AC 00 00", &format!("{format} 02 00 05")), 0x05, "0x05 before 0x18");
        assert_eq!(change_error("10 03 26 AD 00 00", &format!("{format} 03 01 02 03 00")), 0x05);
        assert_eq!(change_error("10 01 26 AC 00 00", &format!("{format} 00")), 0x05);
    }
}

#[test]
fn a_value_block_is_written_with_its_fill_byte_or_not_at_all() {
    let address = |elements: u8, sub_index: u16| Address { attribute: 0x10, elements, pnu: 965, sub_index };
    let cases = [
        (address(1, 0), hex("41 01 03 00 A5 A5")),
        (address(1, 1), hex("41 01 29 00 A5 A5")),
        (address(2, 0), hex("41 02 03 29 A5 A5")),
    ];
    for (address, written) in cases {
        let mut room = [UNTOUCHED; 6];
        assert_eq!(read(&Axis::fresh(), &address, &mut room), Ok(4));
        assert_eq!(room[..], written);
        assert_eq!(read(&Axis::fresh(), &address, &mut room[..4]), Ok(4), "four bytes are enough");
        let mut short = [UNTOUCHED; 3];
        assert_eq!(read(&Axis::fresh(), &address, &mut short), Err(error::TOO_LONG));
        assert_eq!(short, [UNTOUCHED; 3]);
    }
}
