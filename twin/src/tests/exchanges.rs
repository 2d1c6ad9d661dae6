//! The merged call: R-3 of document 02, readings 11 and 12.

use super::{
    assert_merged_refused, assert_refused, change, fetch, hex, request, send, send_merged, worked_write,
    write_and_fetch, write_frame, UNTOUCHED,
};
use crate::{Framed, Station};

/// A request of PNU 930 of this axis.
fn ask(axis: u8) -> Vec<u8> {
    write_frame(&request(5, axis, &["10 01 03 A2 00 00"]))
}

/// Read frames in each of their forms, the last one around a block and the one before longer than any frame.
fn reads() -> Vec<Vec<u8>> {
    let short = ["5E", "5E 00", "5E 00 2F"];
    let whole = ["5E 00 2F F0", "5E 00 2F 08", "5E 00 2F 00"];
    let refused = ["5E 01 2F F0", "5E 00 30 F0", "5E 00 2F F1", "5E 00 2F F0 00", "5E FF 00 FF 00"];
    let long = [vec![0x5E; 300], [&[0x5E], &worked_write()[1..]].concat()];
    [&short[..], &whole, &refused].concat().into_iter().map(hex).chain(long).collect()
}

#[test]
fn the_worked_write_in_one_call() {
    let mut station = Station::fresh();
    let (framed, reply) = send_merged(&mut station, 1, &worked_write());
    assert_eq!(framed, Framed { length: 12, stored: 0, number: 0 });
    assert_eq!(reply, hex("5E 00 2F 08 07 82 01 01 44 01 00 02"));
    assert!(station == Station::fresh(), "mark 0 stays 0, and nothing waits");
    assert_merged_refused(&mut station, 2, &worked_write(), 11, "DF 80 B6 00");
}

#[test]
fn a_request_in_one_call() {
    let mut station = Station::fresh();
    let (framed, reply) = send_merged(&mut station, 16, &ask(16));
    assert_eq!(framed, Framed { length: 12, stored: 0, number: 0 });
    assert_eq!(reply, hex("5E 00 2F 08 05 01 10 01 42 01 00 01"));
    assert!(station == Station::fresh());
}

#[test]
fn the_least_reply_covers_the_acknowledgement() {
    let mut station = Station::fresh();
    let parameters = [("10 01 26 AC 00 00", "42 01 00 05"), ("10 02 75 31 00 02", "42 02 03 E8 0B B8")];
    let (framed, reply) = send_merged(&mut station, 3, &write_frame(&change(9, 3, &parameters)));
    assert_eq!(framed, Framed { length: 8, stored: 3, number: 0 });
    assert_eq!(reply, hex("5E 00 2F 04 09 02 03 02"));
    assert_eq!((station.axes[2].settings.p9900, station.axes[2].settings.p30001), (5, [0, 0, 1000, 3000]));
    assert_eq!(station.axes[2].waiting, None);
}

#[test]
fn the_largest_reply_fills_244_bytes() {
    let mut station = Station::fresh();
    // Three whole 947 and 18 elements of it: 4 + 3 * 66 + 38 are 240, so F0 wants no fewer than wait and 9 never comes.
    let addresses = ["10 20 03 B3 00 00", "10 20 03 B3 00 00", "10 20 03 B3 00 00", "10 12 03 B3 00 00"];
    let frame = write_frame(&request(1, 1, &addresses));
    let mut memory = [UNTOUCHED; 244];
    assert_eq!(station.exchange(1, &frame, &mut memory), Framed { length: 244, stored: 0, number: 0 });
    let values = [[hex("42 20"), vec![0; 64]].concat().repeat(3), hex("42 12"), vec![0; 36]].concat();
    assert_eq!(memory[..], [hex("5E 00 2F F0 01 01 01 04"), values].concat());
    assert!(station == Station::fresh());
}

#[test]
fn the_axis_is_idle_again() {
    let mut station = Station::fresh();
    for _ in 0..3 {
        assert_eq!(send_merged(&mut station, 1, &worked_write()).0.number, 0, "the next user gets no B5");
    }
    assert_refused(&mut station, 1, &hex("5E 00 2F F0"), 8, "DE 80 B5 00");
    let (_, response) = write_and_fetch(&mut station, 1, &request(1, 1, &["10 01 03 A2 00 00"]));
    assert_eq!(response, hex("01 01 01 01 42 01 00 01"));
}

#[test]
fn number_1() {
    let mut station = Station::fresh();
    for farm in [0, 17, 257, u32::MAX] {
        assert_merged_refused(&mut station, farm, &worked_write(), 1, "");
        assert_merged_refused(&mut station, farm, &ask(farm as u8), 1, "");
        assert_merged_refused(&mut station, farm, &hex("5E 00 2F F0"), 1, "");
    }
}

#[test]
fn number_2() {
    let mut station = Station::fresh();
    station.axes[0].settings.p30002 = 16385;
    assert_merged_refused(&mut station, 1, &worked_write(), 2, "");
    assert_merged_refused(&mut station, 1, &hex("5E 00 2F F0"), 2, "");
    assert_eq!(send_merged(&mut station, 2, &ask(2)).0.number, 0, "only the own part is tested");
}

/// Makes a merged call with so much reply memory, which is too little, and stays as it is.
fn assert_too_little(station: &mut Station, frame: &[u8], length: usize) {
    let mut memory = vec![UNTOUCHED; length];
    assert_eq!(station.exchange(1, frame, &mut memory), Framed { length: 0, stored: 0, number: 3 });
    assert!(memory.iter().all(|byte| *byte == UNTOUCHED));
}

#[test]
fn number_3() {
    let mut station = Station::fresh();
    for frame in [worked_write(), vec![], hex("5F 01 2F 00")].into_iter().chain(reads()) {
        assert_too_little(&mut station, &frame, 0);
        assert_too_little(&mut station, &frame, 12);
        assert_too_little(&mut station, &frame, 243);
    }
    assert!(station == Station::fresh());
}

#[test]
fn number_4() {
    let mut station = Station::fresh();
    for frame in ["", "5F", "5F 00 2F", "5D 00 2F 00", "60 00 2F 00", "00 01 00 FF", "DF 00 2F F0"] {
        assert_merged_refused(&mut station, 1, &hex(frame), 4, "");
    }
}

#[test]
fn number_4_is_every_read() {
    let mut idle = Station::fresh();
    let mut waiting = Station::fresh();
    send(&mut waiting, 1, &worked_write());
    for frame in reads() {
        assert_merged_refused(&mut idle, 1, &frame, 4, "");
        assert_merged_refused(&mut waiting, 1, &frame, 4, "");
    }
    assert_eq!(fetch(&mut waiting, 1), hex("07 82 01 01 44 01 00 02"), "it outlives 4");
}

#[test]
fn number_8_is_for_a_response_of_the_own_axis() {
    let mut station = Station::fresh();
    send(&mut station, 1, &worked_write());
    assert_merged_refused(&mut station, 1, &ask(1), 8, "DF 80 B5 00");
    assert_eq!(send_merged(&mut station, 2, &ask(2)).0.number, 0, "another farm's call is its own");
    assert_eq!(fetch(&mut station, 1), hex("07 82 01 01 44 01 00 02"), "it outlives 8");
    assert_eq!(send_merged(&mut station, 1, &ask(1)).0.number, 0);
}

/// What each refusal replies, those of a write as document 01 lists them.
const REFUSALS: [(u8, &str); 10] = [
    (1, ""),
    (2, ""),
    (3, ""),
    (4, ""),
    (5, "DF 80 B2 00"),
    (6, "DF 80 B0 00"),
    (7, "DF 80 B1 00"),
    (8, "DF 80 B5 00"),
    (10, "DF 80 B8 00"),
    (11, "DF 80 B6 00"),
];

/// The worked write with what earns each of these numbers; 4 by cutting the frame or by its function.
fn faulty(numbers: &[u8], function: Option<u8>) -> Vec<u8> {
    let mut frame = worked_write();
    for number in numbers {
        match number {
            4 => frame[0] = function.unwrap_or(0x5F),
            5 => frame[1] = 1,
            6 => frame[2] = 46,
            7 => frame[3] = 0xF1,
            10 => frame[4] = 0,
            11 => frame[6] = 2,
            _ => {}
        }
    }
    let cut = numbers.contains(&4) && function.is_none();
    frame.truncate(if cut { 3 } else { frame.len() });
    frame
}

/// Makes a merged call that has earned these numbers, lowest first, and must be answered by the first of them.
fn assert_first_counts(numbers: &[u8], function: Option<u8>) {
    let mut station = Station::fresh();
    if numbers.contains(&8) {
        send(&mut station, 1, &worked_write());
    }
    station.axes[0].p930 = u16::from(!numbers.contains(&2));
    let farm = if numbers.contains(&1) { 17 } else { 1 };
    let mut memory = vec![UNTOUCHED; if numbers.contains(&3) { 243 } else { 244 }];
    let before = station.clone();
    let framed = station.exchange(farm, &faulty(numbers, function), &mut memory);
    let (number, reply) = *REFUSALS.iter().find(|refusal| refusal.0 == numbers[0]).unwrap();
    let reply = hex(reply);
    assert_eq!(framed, Framed { length: reply.len() as u16, stored: 0, number }, "{numbers:?} {function:02X?}");
    assert_eq!(memory[..reply.len()], reply);
    assert!(memory[reply.len()..].iter().all(|byte| *byte == UNTOUCHED));
    assert!(station == before);
}

#[test]
fn the_order_of_checks_is_the_order_of_numbers() {
    for chosen in 1..1 << REFUSALS.len() {
        let numbers: Vec<u8> = (0..REFUSALS.len()).filter(|i| chosen >> i & 1 == 1).map(|i| REFUSALS[i].0).collect();
        assert_first_counts(&numbers, None);
        assert_first_counts(&numbers, Some(0x5D));
        assert_first_counts(&numbers, Some(0x5E));
    }
    assert_eq!(send_merged(&mut Station::fresh(), 1, &faulty(&[], None)).0.number, 0, "none earned");
}
