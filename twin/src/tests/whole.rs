//! An address is stored whole or not at all: R-6 of document 02.

use super::{change, hex, keep_version, write_and_fetch};
use crate::Station;

/// Marks and offsets that stand before a change; none is the fresh one, so nothing can be cleared unseen.
const MARKS: [u16; 4] = [10, 20, 30, 40];
const OFFSETS: [i32; 2] = [-7, 7];

const STORED: &str = "40 00";
const FAILED: &str = "44 01 00 02";

/// An address and its value block, in hex.
type Sent = (String, String);

/// Marks from this one on.
fn marks(first: u16, values: &[u16]) -> Sent {
    let bytes: String = values.iter().map(|value| format!("{value:04X}")).collect();
    let count = values.len();
    (format!("10 {count:02X} 75 31 {first:04X}"), format!("42 {count:02X} {bytes}"))
}

/// Offsets from this one on.
fn offsets(first: u16, values: &[i32]) -> Sent {
    let bytes: String = values.iter().map(|value| format!("{value:08X}")).collect();
    let count = values.len();
    (format!("10 {count:02X} 75 34 {first:04X}"), format!("43 {count:02X} {bytes}"))
}

/// A station with these marks and offsets of axis 1.
fn holding(marks: [u16; 4], offsets: [i32; 2]) -> Station {
    let mut station = Station::fresh();
    station.axes[0].settings.p30001 = marks;
    station.axes[0].settings.p30004 = offsets;
    station
}

/// One change of these addresses stores so many elements, answers so, and leaves these marks and offsets.
#[track_caller]
fn assert_change(sent: &[Sent], stored: u16, response: &str, marks: [u16; 4], offsets: [i32; 2]) {
    let parameters: Vec<(&str, &str)> = sent.iter().map(|(address, values)| (&address[..], &values[..])).collect();
    let mut station = holding(MARKS, OFFSETS);
    let answer = write_and_fetch(&mut station, 1, &change(1, 1, &parameters));
    assert_eq!(answer, (stored, hex(response)), "{sent:?}");
    assert_eq!((station.axes[0].settings.p30001, station.axes[0].settings.p30004), (marks, offsets), "{sent:?}");
    let mut expected = holding(marks, offsets);
    if stored > 0 {
        keep_version(&mut expected.axes[0]);
    }
    assert!(station == expected, "nothing else changes: {sent:?}");
}

/// A change of this address alone stores nothing and answers 0x02.
#[track_caller]
fn assert_stays(sent: Sent) {
    assert_change(&[sent], 0, "01 82 01 01 44 01 00 02", MARKS, OFFSETS);
}

#[track_caller]
fn assert_marks_stored(values: [u16; 4]) {
    assert_change(&[marks(0, &values)], 4, "01 02 01 01", values, OFFSETS);
}

#[track_caller]
fn assert_offsets_stored(values: [i32; 2]) {
    assert_change(&[offsets(0, &values)], 2, "01 02 01 01", MARKS, values);
}

#[test]
fn the_first_mark_is_bad() {
    assert_stays(marks(0, &[3001, 1, 2, 3]));
    assert_stays(marks(0, &[65535, 1, 2, 3]));
}

#[test]
fn a_middle_mark_is_bad() {
    assert_stays(marks(0, &[1, 3001, 2, 3]));
    assert_stays(marks(0, &[1, 2, 3001, 3]));
}

#[test]
fn the_last_mark_is_bad() {
    assert_stays(marks(0, &[1, 2, 3, 3001]));
    assert_stays(marks(0, &[1, 2, 3, 65535]));
}

#[test]
fn every_choice_of_bad_marks() {
    for chosen in 1..16 {
        let values: [u16; 4] = std::array::from_fn(|i| if chosen >> i & 1 == 1 { 3001 } else { 1 });
        assert_stays(marks(0, &values));
    }
    assert_marks_stored([1; 4]);
}

#[test]
fn a_bad_mark_of_a_part_of_the_array() {
    assert_stays(marks(1, &[5, 3001]));
    assert_stays(marks(2, &[5, 3001]));
    assert_stays(marks(1, &[5, 6, 3001]));
    assert_change(&[marks(1, &[5, 6])], 2, "01 02 01 01", [10, 5, 6, 40], OFFSETS);
}

#[test]
fn the_first_offset_is_bad() {
    for bad in [-100_001, 100_001, i32::MIN, i32::MAX] {
        assert_stays(offsets(0, &[bad, 1]));
        assert_stays(offsets(0, &[bad, -1]));
    }
}

#[test]
fn the_last_offset_is_bad() {
    for bad in [-100_001, 100_001, i32::MIN, i32::MAX] {
        assert_stays(offsets(0, &[1, bad]));
        assert_stays(offsets(0, &[-1, bad]));
    }
}

#[test]
fn the_last_value_alone_is_one_past_its_limit() {
    assert_stays(marks(0, &[3000, 3000, 3000, 3001]));
    assert_stays(offsets(0, &[100_000, 100_001]));
    assert_stays(offsets(0, &[-100_000, -100_001]));
}

#[test]
fn all_at_their_limits_are_stored() {
    assert_marks_stored([3000; 4]);
    assert_marks_stored([0; 4]);
    assert_marks_stored([0, 3000, 0, 3000]);
    assert_offsets_stored([-100_000, 100_000]);
    assert_offsets_stored([100_000, -100_000]);
}

#[test]
fn both_formats_keep_an_address_whole() {
    let formatted = |format: &str, (address, values): Sent| (address, values.replacen(&values[..2], format, 1));
    for format in ["42", "06"] {
        assert_stays(formatted(format, marks(0, &[1, 2, 3, 3001])));
    }
    for format in ["43", "04"] {
        assert_stays(formatted(format, offsets(0, &[1, -100_001])));
    }
}

#[test]
fn one_bad_address_of_three() {
    let good = [marks(0, &[1, 2]), offsets(0, &[3, -3]), marks(2, &[4, 5])];
    let whole = [1, 2, 4, 5];
    assert_change(&good, 6, "01 02 01 03", whole, [3, -3]);
    let with = |at: usize, bad: Sent| {
        let mut sent = good.clone();
        sent[at] = bad;
        sent
    };
    let answer = |blocks: [&str; 3]| format!("01 82 01 03 {}", blocks.concat());
    let first = with(0, marks(0, &[1, 3001]));
    assert_change(&first, 4, &answer([FAILED, STORED, STORED]), [10, 20, 4, 5], [3, -3]);
    let middle = with(1, offsets(0, &[3, -100_001]));
    assert_change(&middle, 4, &answer([STORED, FAILED, STORED]), whole, OFFSETS);
    let last = with(2, marks(2, &[4, 3001]));
    assert_change(&last, 4, &answer([STORED, STORED, FAILED]), [1, 2, 30, 40], [3, -3]);
}

#[test]
fn what_an_earlier_address_stored_stays() {
    let response = format!("01 82 01 02 {STORED} {FAILED}");
    let over_marks = [marks(0, &[1, 2]), marks(0, &[5, 6, 7, 3001])];
    assert_change(&over_marks, 2, &response, [1, 2, 30, 40], OFFSETS);
    let over_one = [marks(3, &[4]), marks(2, &[5, 3001])];
    assert_change(&over_one, 1, &response, [10, 20, 30, 4], OFFSETS);
    let over_offsets = [offsets(0, &[1, 2]), offsets(0, &[3, 100_001])];
    assert_change(&over_offsets, 2, &response, MARKS, [1, 2]);
}

#[test]
fn a_later_address_stores_what_a_bad_one_did_not() {
    let after = [marks(0, &[5, 6, 7, 3001]), marks(0, &[1])];
    assert_change(&after, 1, &format!("01 82 01 02 {FAILED} {STORED}"), [1, 20, 30, 40], OFFSETS);
    let around = [marks(0, &[1, 2]), marks(0, &[5, 3001]), marks(1, &[3])];
    assert_change(&around, 3, &format!("01 82 01 03 {STORED} {FAILED} {STORED}"), [1, 3, 30, 40], OFFSETS);
}

#[test]
fn the_count_is_of_addresses_stored_whole() {
    let equal = marks(0, &MARKS);
    assert_change(&[equal], 4, "01 02 01 01", MARKS, OFFSETS);
    let equal_but_bad = marks(0, &[10, 20, 30, 3001]);
    assert_stays(equal_but_bad);
    // As many as a block has room for, every other one bad: 4 + 14 * 16 are 228 bytes, 7 * 4 elements are stored.
    let most: Vec<Sent> = (0..7).flat_map(|_| [marks(0, &[1, 2, 3, 4]), marks(0, &[5, 6, 7, 3001])]).collect();
    let response = format!("01 82 01 0E {}", [STORED, FAILED].concat().repeat(7));
    assert_change(&most, 28, &response, [1, 2, 3, 4], OFFSETS);
}
