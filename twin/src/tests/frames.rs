use super::{assert_refused, change, fetch, hex, request, send, worked_write, write_and_fetch, write_frame, UNTOUCHED};
use crate::{Framed, Station};

#[test]
fn the_worked_frames() {
    let mut station = Station::fresh();
    let (framed, reply) = send(&mut station, 1, &worked_write());
    assert_eq!((framed, reply), (Framed { length: 4, stored: 0, number: 0 }, hex("5F 00 2F 10")));
    assert_eq!(station.axes[0].settings.p30001, [0; 4], "mark 0 stays 0");
    let (framed, reply) = send(&mut station, 1, &hex("5E 00 2F F0"));
    assert_eq!(framed, Framed { length: 12, stored: 0, number: 0 });
    assert_eq!(reply, hex("5E 00 2F 08 07 82 01 01 44 01 00 02"));
    assert_refused(&mut station, 2, &worked_write(), 11, "DF 80 B6 00");
    assert!(station == Station::fresh());
}

#[test]
fn number_1() {
    let mut station = Station::fresh();
    station.axes.iter_mut().for_each(|part| part.p930 = 0);
    for farm in [0, 17, 257, u32::MAX] {
        assert_refused(&mut station, farm, &worked_write(), 1, "");
        assert_eq!(station.frame(farm, &[], &mut []), Framed { length: 0, stored: 0, number: 1 });
    }
}

#[test]
fn number_2() {
    let mut station = Station::fresh();
    station.axes[0].settings.p30002 = 16385;
    assert_refused(&mut station, 1, &worked_write(), 2, "");
    assert_eq!(station.frame(1, &[], &mut []), Framed { length: 0, stored: 0, number: 2 });
    let block = request(1, 2, &["10 01 03 A2 00 00"]);
    let (_, response) = write_and_fetch(&mut station, 2, &block);
    assert_eq!(response, hex("01 01 02 01 42 01 00 01"), "only the own part is tested");
}

#[test]
fn number_3() {
    let mut station = Station::fresh();
    for frame in [worked_write(), vec![], hex("5E 00 2F F0"), hex("5F 01 2F 00")] {
        let mut memory = [UNTOUCHED; 243];
        assert_eq!(station.frame(1, &frame, &mut memory), Framed { length: 0, stored: 0, number: 3 });
        assert_eq!(memory, [UNTOUCHED; 243]);
    }
    assert!(station == Station::fresh());
    assert_eq!(station.frame(1, &worked_write(), &mut [0; 244]).number, 0);
}

#[test]
fn number_4() {
    let mut station = Station::fresh();
    for frame in ["", "5F", "5F 00 2F", "5E 00 2F", "00 01 00 FF", "5D 00 2F 00", "60 00 2F 00", "DE 00 2F F0"] {
        assert_refused(&mut station, 1, &hex(frame), 4, "");
    }
}

#[test]
fn number_5() {
    let mut station = Station::fresh();
    assert_refused(&mut station, 1, &hex("5E 01 00 FF"), 5, "DE 80 B2 00");
    assert_refused(&mut station, 1, &hex("5F FF 00 FF"), 5, "DF 80 B2 00");
}

#[test]
fn number_6() {
    let mut station = Station::fresh();
    assert_refused(&mut station, 1, &hex("5E 00 30 FF"), 6, "DE 80 B0 00");
    assert_refused(&mut station, 1, &hex("5F 00 2E FF"), 6, "DF 80 B0 00");
    assert_refused(&mut station, 1, &hex("5F 00 00 FF"), 6, "DF 80 B0 00");
}

#[test]
fn number_7() {
    let mut station = Station::fresh();
    assert_refused(&mut station, 1, &hex("5E 00 2F F1"), 7, "DE 80 B1 00");
    assert_refused(&mut station, 1, &hex("5E 00 2F F0 00"), 7, "DE 80 B1 00");
    assert_refused(&mut station, 1, &hex("5E 00 2F 01 00"), 7, "DE 80 B1 00");
    assert_refused(&mut station, 1, &hex("5F 00 2F F0"), 7, "DF 80 B1 00");
    assert_refused(&mut station, 1, &hex("5F 00 2F 00 00"), 7, "DF 80 B1 00");
    for length in [240, 241, 242, 255, 256 + 16] {
        let mut frame = worked_write();
        frame.resize(4 + length, 0);
        frame[3] = length as u8;
        let (number, code) = if length == 240 { (10, "B8") } else { (7, "B1") };
        assert_refused(&mut station, 1, &frame, number, &format!("DF 80 {code} 00"));
    }
}

#[test]
fn number_8() {
    let mut station = Station::fresh();
    assert_refused(&mut station, 1, &hex("5E 00 2F F0"), 8, "DE 80 B5 00");
    assert_refused(&mut station, 1, &hex("5E 00 2F 00"), 8, "DE 80 B5 00");
    send(&mut station, 1, &worked_write());
    assert_refused(&mut station, 1, &worked_write(), 8, "DF 80 B5 00");
    assert_refused(&mut station, 1, &hex("5F 00 2F 00"), 8, "DF 80 B5 00");
    let foreign = write_frame(&request(1, 2, &["10 01 03 A2 00 00"]));
    assert_refused(&mut station, 1, &foreign, 8, "DF 80 B5 00");
    assert_eq!(fetch(&mut station, 1), hex("07 82 01 01 44 01 00 02"), "it outlives 8");
    assert_refused(&mut station, 1, &hex("5E 00 2F F0"), 8, "DE 80 B5 00");
}

#[test]
fn number_9() {
    let mut station = Station::fresh();
    send(&mut station, 1, &worked_write());
    assert_refused(&mut station, 1, &hex("5E 00 2F 07"), 9, "DE 80 B7 00");
    assert_refused(&mut station, 1, &hex("5E 00 2F 00"), 9, "DE 80 B7 00");
    let (framed, reply) = send(&mut station, 1, &hex("5E 00 2F 08"));
    assert_eq!((framed.number, reply), (0, hex("5E 00 2F 08 07 82 01 01 44 01 00 02")), "it outlives 9");
}

#[test]
fn number_10() {
    let mut station = Station::fresh();
    let misfilled = "01 02 01 01 10 01 03 C5 00 00 41 01 03 01";
    for block in ["", "01", "01 01 01 01 10 01 03 A2 00", "00 01 02 01 10 01 03 A2 00 00", misfilled] {
        assert_refused(&mut station, 1, &write_frame(&hex(block)), 10, "DF 80 B8 00");
    }
}

#[test]
fn number_11() {
    let mut station = Station::fresh();
    for axis in [0, 2, 17, 255] {
        let block = change(1, axis, &[("10 01 26 AC 00 00", "42 01 12 34")]);
        assert_refused(&mut station, 1, &write_frame(&block), 11, "DF 80 B6 00");
    }
}

#[test]
fn thirty_nine_parameters() {
    let mut station = Station::fresh();
    let block = request(9, 1, &["10 01 03 A2 00 00"; 39]);
    assert_eq!(block.len(), 238);
    let (_, response) = write_and_fetch(&mut station, 1, &block);
    assert_eq!(response[..4], hex("09 01 01 27"));
    assert_eq!(response[4..], hex("42 01 00 01").repeat(39));
}

#[test]
fn forty_parameters() {
    let mut station = Station::fresh();
    let block = request(9, 1, &["10 01 03 A2 00 00"; 40]);
    assert_eq!(block.len(), 244);
    assert_refused(&mut station, 1, &write_frame(&block), 7, "DF 80 B1 00");
    assert_refused(&mut station, 1, &write_frame(&block[..240]), 10, "DF 80 B8 00");
    assert_refused(&mut station, 1, &write_frame(&block[..238]), 10, "DF 80 B8 00");
    assert_refused(&mut station, 1, &write_frame(&block[..10]), 10, "DF 80 B8 00");
}

#[test]
fn four_reads_of_all_947() {
    let mut station = Station::fresh();
    station.axes[0].situations = std::array::from_fn(|i| std::array::from_fn(|j| (0x100 * (i + 1) + j) as u16));
    let block = request(3, 1, &["10 20 03 B3 00 00"; 4]);
    let (stored, response) = write_and_fetch(&mut station, 1, &block);
    assert_eq!((stored, response.len()), (0, 206));
    assert_eq!(response[..4], hex("03 81 01 04"));
    let mut values = hex("42 20");
    for i in 1..=4 {
        (0..8).for_each(|j| values.extend([i, j]));
    }
    assert_eq!(response[4..202], values.repeat(3));
    assert_eq!(response[202..], hex("44 01 00 15"));
}

#[test]
fn the_largest_reply() {
    let mut station = Station::fresh();
    let mut addresses = vec!["10 20 03 B3 00 00"; 3];
    addresses.push("10 12 03 B3 00 00");
    let (_, response) = write_and_fetch(&mut station, 1, &request(1, 1, &addresses));
    assert_eq!((response.len(), response[1]), (240, 0x01), "202 + 2 + 36");
    addresses[3] = "10 13 03 B3 00 00";
    let (_, response) = write_and_fetch(&mut station, 1, &request(1, 1, &addresses));
    assert_eq!((response.len(), response[1]), (206, 0x81));
}

#[test]
fn after_too_long_later_addresses_are_still_answered() {
    let mut station = Station::fresh();
    let mut addresses = vec!["10 20 03 B3 00 00"; 4];
    addresses.extend(["10 01 03 A2 00 00", "20 20 03 B3 00 00", "10 02 03 C5 00 00"]);
    let (_, response) = write_and_fetch(&mut station, 1, &request(1, 1, &addresses));
    let block = |i: usize| response[4 + 66 * i..][..2].to_vec();
    assert_eq!((block(0), block(1), block(2)), (hex("42 20"), hex("42 20"), hex("42 20")), "202 + 4 * 4 fit");
    assert_eq!(response[202..], hex("44 01 00 15 42 01 00 01 44 01 00 09 41 02 03 29"));
}

#[test]
fn four_bytes_are_kept_for_every_later_address() {
    let mut station = Station::fresh();
    // 37 one-element reads of PNU 965 take the 4 bytes each that are kept for them:
    // 4 + 66 + 2 + 2n + 4 * 37 <= 240 gives n <= 10.
    let mut addresses = vec!["10 20 03 B3 00 00", "10 0A 03 B3 00 00"];
    addresses.extend(["10 01 03 C5 00 01"; 37]);
    let (_, response) = write_and_fetch(&mut station, 1, &request(1, 1, &addresses));
    assert_eq!((response.len(), response[1]), (240, 0x01), "4 + 66 + 22 + 148");
    assert_eq!(response[92..], hex("41 01 29 00").repeat(37));
    addresses[1] = "10 0B 03 B3 00 00";
    let (_, response) = write_and_fetch(&mut station, 1, &request(1, 1, &addresses));
    assert_eq!((response.len(), response[1]), (222, 0x81), "4 + 66 + 4 + 148");
    assert_eq!(response[70..74], hex("44 01 00 15"));
    assert_eq!(response[74..], hex("41 01 29 00").repeat(37));
}

#[test]
fn fill_bytes_count_for_too_long() {
    let mut station = Station::fresh();
    // Ten single elements of 965 are 40 bytes; 4 + 40 + 3 * 66 are 242. Without their fill bytes, 232 would fit.
    let mut addresses = vec!["10 01 03 C5 00 00"; 10];
    addresses.extend(["10 20 03 B3 00 00"; 3]);
    let (_, response) = write_and_fetch(&mut station, 1, &request(1, 1, &addresses));
    let whole = [hex("42 20"), vec![0; 64]].concat();
    let expected = [hex("01 81 01 0D"), hex("41 01 03 00").repeat(10), whole.repeat(2), hex("44 01 00 15")].concat();
    assert_eq!((response.len(), response), (4 + 40 + 132 + 4, expected));
    // The other side: nine of them are 36 bytes, and both elements at once take no more than one.
    addresses.remove(0);
    addresses[0] = "10 02 03 C5 00 00";
    let (_, response) = write_and_fetch(&mut station, 1, &request(1, 1, &addresses));
    assert_eq!((response.len(), response[1]), (4 + 36 + 198, 0x01));
}

#[test]
fn a_byte_and_its_fill_byte_fit_where_an_error_does() {
    let mut station = Station::fresh();
    let mut addresses = vec!["10 20 03 B3 00 00"; 3];
    addresses.extend(["10 10 03 B3 00 00", "10 01 03 C5 00 01"]);
    let (_, response) = write_and_fetch(&mut station, 1, &request(1, 1, &addresses));
    assert_eq!((response.len(), response[1]), (240, 0x01), "202 + 34 + 4");
    assert_eq!(response[236..], hex("41 01 29 00"));
    addresses[3] = "10 11 03 B3 00 00";
    let (_, response) = write_and_fetch(&mut station, 1, &request(1, 1, &addresses));
    assert_eq!((response.len(), response[1]), (210, 0x81), "202 + 36 leave 2 of the 4");
    assert_eq!(response[202..], hex("44 01 00 15 41 01 29 00"));
}

#[test]
fn one_element_of_965() {
    let mut station = Station::fresh();
    let cases = [
        ("10 01 03 C5 00 00", "41 01 03 00"),
        ("10 01 03 C5 00 01", "41 01 29 00"),
        ("10 02 03 C5 00 00", "41 02 03 29"),
    ];
    for (address, block) in cases {
        let (framed, reply) = send(&mut station, 1, &write_frame(&request(5, 1, &[address])));
        assert_eq!((framed.number, reply), (0, hex("5F 00 2F 0A")));
        assert_eq!(station.axes[0].waiting.as_ref().unwrap().length, 8);
        assert_refused(&mut station, 1, &hex("5E 00 2F 07"), 9, "DE 80 B7 00");
        let (framed, reply) = send(&mut station, 1, &hex("5E 00 2F 08"));
        assert_eq!(framed, Framed { length: 12, stored: 0, number: 0 });
        assert_eq!(reply, hex(&format!("5E 00 2F 08 05 01 01 01 {block}")));
    }
    let addresses = ["10 01 03 C5 00 00", "10 01 03 A2 00 00", "10 02 03 C5 00 00", "10 01 03 C5 00 01"];
    let (_, response) = write_and_fetch(&mut station, 1, &request(6, 1, &addresses));
    assert_eq!(response, hex("06 01 01 04 41 01 03 00 42 01 00 01 41 02 03 29 41 01 29 00"));
}

#[test]
fn changes_with_byte_values() {
    let mut station = Station::fresh();
    for format in ["41", "02", "05"] {
        let block = |values: &str| change(1, 1, &[("10 01 03 C5 00 00", &format!("{format} {values}"))]);
        for (values, length) in [("00", 12), ("01 03 00", 14), ("02 03 29", 14), ("03 03 29 07 00", 16)] {
            assert_eq!(block(values).len(), length);
            assert_eq!(write_and_fetch(&mut station, 1, &block(values)), (0, hex("01 82 01 01 44 01 00 01")));
        }
        let missing = ["01 03", "03 03 29 07"];
        let others = ["01 03 01", "01 03 FF", "03 03 29 07 80"];
        let too_many = ["00 00", "01 03 00 00", "02 03 29 00", "03 03 29 07 00 00"];
        for values in [&missing[..], &others, &too_many].concat() {
            assert_refused(&mut station, 1, &write_frame(&block(values)), 10, "DF 80 B8 00");
        }
    }
    assert!(station == Station::fresh());
}

#[test]
fn a_fill_byte_between_value_blocks() {
    let block = |fill: &str| {
        let bytes = format!("41 03 01 02 03 {fill}");
        let values = [
            ("10 01 26 AC 00 00", "42 01 00 05"),
            ("10 02 03 C5 00 00", &bytes),
            ("10 02 75 31 00 00", "42 02 03 E8 0B B8"),
        ];
        change(1, 1, &values)
    };
    let mut station = Station::fresh();
    for fill in ["", "01", "42", "00 00"] {
        assert_refused(&mut station, 1, &write_frame(&block(fill)), 10, "DF 80 B8 00");
    }
    assert!(station == Station::fresh(), "nor is what stands before it stored");
    let (stored, response) = write_and_fetch(&mut station, 1, &block("00"));
    assert_eq!((stored, response), (3, hex("01 82 01 03 40 00 44 01 00 01 40 00")));
    assert_eq!((station.axes[0].settings.p9900, station.axes[0].settings.p30001), (5, [1000, 3000, 0, 0]));
}

#[test]
fn the_order_of_numbers_around_a_fill_byte() {
    let mut station = Station::fresh();
    let block = |axis: u8, values: &str| change(1, axis, &[("10 01 03 C5 00 00", values)]);
    let mut short = write_frame(&block(1, "41 01 03 00"));
    short[3] -= 1;
    assert_refused(&mut station, 1, &short, 7, "DF 80 B1 00");
    let mut long = write_frame(&block(1, "41 01 03"));
    long[3] += 1;
    assert_refused(&mut station, 1, &long, 7, "DF 80 B1 00");
    assert_refused(&mut station, 1, &write_frame(&block(2, "41 01 03")), 10, "DF 80 B8 00");
    assert_refused(&mut station, 1, &write_frame(&block(2, "41 01 03 01")), 10, "DF 80 B8 00");
    assert_refused(&mut station, 1, &write_frame(&block(2, "41 01 03 00")), 11, "DF 80 B6 00");
    send(&mut station, 1, &worked_write());
    assert_refused(&mut station, 1, &write_frame(&block(1, "41 01 03 01")), 8, "DF 80 B5 00");
}

#[test]
fn the_largest_change() {
    let mut station = Station::fresh();
    let frame = |count: u8, length: usize| {
        let mut block = change(1, 1, &[("10 01 00 01 00 00", &format!("41 {count:02X}"))]);
        block.resize(length, 0);
        write_frame(&block)
    };
    for count in [227, 228] {
        let (framed, reply) = send(&mut station, 1, &frame(count, 240));
        assert_eq!((framed.number, reply), (0, hex("5F 00 2F F0")), "{count}");
        assert_eq!(fetch(&mut station, 1), hex("01 82 01 01 44 01 00 00"));
    }
    assert_refused(&mut station, 1, &frame(227, 239), 10, "DF 80 B8 00");
    assert_refused(&mut station, 1, &frame(228, 241), 7, "DF 80 B1 00");
    assert_refused(&mut station, 1, &frame(229, 242), 7, "DF 80 B1 00");
    assert_refused(&mut station, 1, &frame(229, 241), 7, "DF 80 B1 00");
    assert_refused(&mut station, 1, &frame(229, 240), 10, "DF 80 B8 00");
}

#[test]
fn a_waiting_response_needs_its_fill_byte() {
    let mut waiting = Station::fresh();
    send(&mut waiting, 1, &write_frame(&request(5, 1, &["10 01 03 C5 00 00"])));
    let cases: [(usize, u8); 4] = [(7, 0), (8, 1), (8, 0xFF), (9, 0)];
    for (length, fill) in cases {
        let mut station = waiting.clone();
        let response = station.axes[0].waiting.as_mut().unwrap();
        response.length = length;
        response.bytes[7] = fill;
        assert_refused(&mut station, 1, &hex("5E 00 2F F0"), 2, "");
        assert_refused(&mut station, 1, &worked_write(), 2, "");
        assert_eq!(station.cycle(1, 0, 0x047E, 0, 0, 0).number, 2, "{length} {fill:02X}");
    }
    assert_eq!(waiting.cycle(1, 0, 0x047E, 0, 0, 0).number, 0);
    assert_eq!(fetch(&mut waiting, 1), hex("05 01 01 01 41 01 03 00"));
}

#[test]
fn reads_of_every_parameter() {
    let mut station = Station::fresh();
    let part = &mut station.axes[4];
    part.fault_counter = 0x0102;
    part.situations[1] = [0x11, 0x12, 0x13, 0, 0, 0, 0, 0];
    part.settings.p9900 = 0xFFFE;
    part.settings.p9901 = [1, 2, 3, 4, 5, 6, 7, 8];
    part.last_word = 0x047F;
    part.last_setpoint = -2;
    part.actual = i16::MIN;
    part.settings.p30001 = [3000, 1, 2, 3];
    part.settings.p30004 = [-100_000, 100_000];
    let cases = [
        ("10 01 03 A2 00 00", "42 01 00 01"),
        ("10 00 03 B0 00 00", "42 01 01 02"),
        ("10 03 03 B3 00 09", "42 03 00 12 00 13 00 00"),
        ("10 01 03 B3 00 1F", "42 01 00 00"),
        ("10 01 03 C5 00 00", "41 01 03 00"),
        ("10 01 03 C5 00 01", "41 01 29 00"),
        ("10 02 03 C5 00 00", "41 02 03 29"),
        ("10 01 26 AC 00 00", "42 01 FF FE"),
        ("10 02 26 AD 00 06", "42 02 00 07 00 08"),
        ("10 01 27 74 00 00", "42 01 04 7F"),
        ("10 01 27 75 00 00", "42 01 FF FE"),
        ("10 01 27 76 00 00", "42 01 03 40"),
        ("10 01 27 77 00 00", "42 01 80 00"),
        ("10 01 27 7F 00 00", "42 01 05 DC"),
        ("10 04 75 31 00 00", "42 04 0B B8 00 01 00 02 00 03"),
        ("10 01 75 32 00 00", "42 01 00 A4"),
        ("10 01 75 33 00 00", "42 01 40 00"),
        ("10 02 75 34 00 00", "43 02 FF FE 79 60 00 01 86 A0"),
    ];
    let before = station.clone();
    for (address, block) in cases {
        let (stored, response) = write_and_fetch(&mut station, 5, &request(0xFF, 5, &[address]));
        assert_eq!((stored, response), (0, [hex("FF 01 05 01"), hex(block)].concat()), "{address}");
    }
    let addresses = cases.map(|case| case.0);
    let (_, response) = write_and_fetch(&mut station, 5, &request(1, 5, &addresses));
    assert_eq!(response, [hex("01 01 05 12"), cases.map(|case| hex(case.1)).concat()].concat());
    assert!(station == before);
}
