//! Old settings, kept by number: R-7 of document 02.

use super::{
    assert_merged_refused, assert_refused, change, fetch, hex, keep_version, request, send, send_merged,
    write_and_fetch, write_frame,
};
use crate::{Framed, Listed, Parameter, Returned, Settings, State, Station, Versions};

/// A frame that stores this number in 9900 of an axis.
fn mark(axis: u8, value: u16) -> Vec<u8> {
    write_frame(&change(1, axis, &[("10 01 26 AC 00 00", &format!("42 01 {value:04X}"))]))
}

/// A station whose farm 1 has stored 1, 2, 3 and so on in 9900, so that version n holds n.
fn versions(count: u16) -> Station {
    let mut station = Station::fresh();
    for value in 1..=count {
        assert_eq!(send_merged(&mut station, 1, &mark(1, value)).0.number, 0);
    }
    station
}

/// A station whose farm 1 has used this number last, of which the last 16 are kept, each with its own number in 9900.
fn numbered(last: u16) -> Station {
    let mut station = Station::fresh();
    let version = |value| Settings { p9900: value, ..Settings::fresh() };
    station.axes[0].versions = Versions { dropped: last - 16, kept: (last - 15..=last).map(version).collect() };
    station
}

#[track_caller]
fn assert_listed(station: &Station, oldest: u16, kept: u16) {
    assert_eq!(station.versions(1), Listed { oldest, kept, number: 0 });
}

/// Farm 1 goes back to a version that holds this number in 9900, and gets this new number.
#[track_caller]
fn assert_back(station: &mut Station, version: u32, value: u16, new: u16) {
    let mut expected = station.clone();
    let part = &mut expected.axes[0];
    part.settings = Settings { p9900: value, ..Settings::fresh() };
    keep_version(part);
    assert_eq!(station.go_back(1, version), Returned { stored: 18, version: new, number: 0 });
    assert!(*station == expected, "the settings and the versions change, and nothing else");
}

#[track_caller]
fn assert_back_refused(station: &mut Station, farm: u32, version: u32, number: u8) {
    let before = station.clone();
    assert_eq!(station.go_back(farm, version), Returned { stored: 0, version: 0, number });
    assert!(*station == before);
}

#[track_caller]
fn assert_list_refused(station: &Station, farm: u32, number: u8) {
    assert_eq!(station.versions(farm), Listed { oldest: 0, kept: 0, number });
}

#[test]
fn the_settings_are_all_that_can_be_written() {
    let elements = |pnu| Parameter::find(pnu).filter(|found| found.limits().is_some()).map(Parameter::array_length);
    let counts = (0..=u16::MAX).filter_map(elements).map(|length| length.unwrap_or(1));
    assert_eq!(counts.sum::<usize>(), usize::from(Settings::ELEMENTS));
}

#[test]
fn a_fresh_station_has_no_version() {
    let mut station = Station::fresh();
    for farm in 1..=16 {
        assert_eq!(station.versions(farm), Listed { oldest: 1, kept: 0, number: 0 });
        for version in [0, 1, 2, 16, 65535, 65536, 65537, u32::MAX] {
            assert_back_refused(&mut station, farm, version, 14);
        }
    }
}

#[test]
fn a_version_is_what_a_change_leaves() {
    let mut station = Station::fresh();
    let marks = ("10 04 75 31 00 00", "42 04 0001 0002 0003 0004");
    assert_eq!(write_and_fetch(&mut station, 1, &change(1, 1, &[marks])).0, 4);
    assert_listed(&station, 1, 1);
    let first = Settings { p30001: [1, 2, 3, 4], ..Settings::fresh() };
    assert_eq!(station.axes[0].versions.kept, [first.clone()]);
    let more = [("10 01 75 31 00 03", "42 01 0BB8"), ("10 01 27 7F 00 00", "42 01 0001")];
    assert_eq!(write_and_fetch(&mut station, 1, &change(1, 1, &more)).0, 2);
    assert_listed(&station, 1, 2);
    let second = Settings { p30001: [1, 2, 3, 3000], p10111: 1, ..Settings::fresh() };
    assert_eq!(station.axes[0].versions.kept, [first, second]);
}

#[test]
fn all_settings_are_gone_back_to() {
    let mut station = Station::fresh();
    let values = [
        ("10 01 26 AC 00 00", "42 01 0102"),
        ("10 08 26 AD 00 00", "42 08 0103 0104 0105 0106 0107 0108 0109 010A"),
        ("10 01 27 7F 00 00", "42 01 EA60"),
        ("10 04 75 31 00 00", "42 04 0BB8 0001 0002 0003"),
        ("10 01 75 32 00 00", "42 01 4000"),
        ("10 01 75 33 00 00", "42 01 7FFF"),
        ("10 02 75 34 00 00", "43 02 FFFE7960 000186A0"),
    ];
    let read = request(1, 1, &values.map(|(address, _)| address));
    let fresh = write_and_fetch(&mut station, 1, &read);
    let again = send_merged(&mut station, 1, &mark(1, 0));
    assert_eq!((again.0.stored, station.axes[0].settings.clone()), (1, Settings::fresh()), "version 1 is as fresh");
    assert_eq!(write_and_fetch(&mut station, 1, &change(1, 1, &values)).0, 18);
    let set = write_and_fetch(&mut station, 1, &read);
    assert_eq!(set.1[4..], values.map(|(_, block)| hex(block)).concat());
    assert_eq!(station.go_back(1, 1), Returned { stored: 18, version: 3, number: 0 });
    assert_eq!(write_and_fetch(&mut station, 1, &read), fresh);
    assert_eq!(station.go_back(1, 2), Returned { stored: 18, version: 4, number: 0 });
    assert_eq!(write_and_fetch(&mut station, 1, &read), set);
    assert_listed(&station, 1, 4);
}

#[test]
fn one_version_for_each_call_that_stores() {
    let mut station = Station::fresh();
    let three = [("10 01 26 AC 00 00", "42 01 0005"), ("10 02 75 31 00 00", "42 02 0001 0002")];
    let again = [three[0], three[1], three[0]];
    assert_eq!(send_merged(&mut station, 1, &write_frame(&change(1, 1, &again))).0.stored, 4);
    assert_listed(&station, 1, 1);
    assert_eq!(send(&mut station, 1, &write_frame(&change(1, 1, &three))).0.stored, 3, "equal values, by a frame");
    assert_listed(&station, 1, 2);
    fetch(&mut station, 1);
    let some = [three[0], ("10 02 75 31 00 00", "42 02 0001 0BB9"), ("10 01 03 A2 00 00", "42 01 0001")];
    assert_eq!(send_merged(&mut station, 1, &write_frame(&change(1, 1, &some))).0.stored, 1, "beside two that fail");
    assert_listed(&station, 1, 3);
    let kept = &station.axes[0].versions.kept;
    assert!(kept.iter().all(|version| *version == kept[0]));
}

#[test]
fn what_stores_nothing_takes_no_version() {
    let mut station = versions(1);
    let before = station.clone();
    let failing = [("10 02 75 31 00 00", "42 02 0001 0BB9"), ("10 01 03 A2 00 00", "42 01 0001")];
    assert_eq!(write_and_fetch(&mut station, 1, &change(1, 1, &failing)).0, 0);
    assert_eq!(write_and_fetch(&mut station, 1, &request(1, 1, &["10 01 26 AC 00 00"])).0, 0);
    assert!(station == before);
    assert_refused(&mut station, 1, &mark(2, 7), 11, "DF 80 B6 00");
    assert_refused(&mut station, 1, &hex("5E 00 2F F0"), 8, "DE 80 B5 00");
    assert_eq!(station.cycle(1, 0, 0x047E, 0, 0, 0).number, 0);
    assert_eq!(station.axes[0].versions, before.axes[0].versions);
}

#[test]
fn the_last_sixteen_are_kept() {
    for (count, oldest, kept) in [(0, 1, 0), (1, 1, 1), (15, 1, 15), (16, 1, 16), (17, 2, 16), (40, 25, 16)] {
        let mut station = versions(count);
        assert_listed(&station, oldest, kept);
        let (first, past) = (u32::from(oldest), u32::from(oldest + kept));
        for version in first..past {
            assert_back(&mut station.clone(), version, version as u16, count + 1);
        }
        for version in [0, first - 1, past, past + 65536, first + 65536, first + 0x8000_0000, u32::MAX] {
            assert_back_refused(&mut station, 1, version, 14);
        }
    }
}

#[test]
fn going_back_to_the_oldest_of_sixteen_drops_it() {
    let mut station = versions(16);
    assert_back(&mut station, 1, 1, 17);
    assert_listed(&station, 2, 16);
    assert_back_refused(&mut station, 1, 1, 14);
    assert_back(&mut station, 2, 2, 18);
    assert_back(&mut station, 17, 1, 19);
    assert_listed(&station, 4, 16);
}

#[test]
fn a_going_back_can_be_gone_back_from() {
    let mut station = versions(3);
    assert_back(&mut station, 1, 1, 4);
    assert_back(&mut station, 1, 1, 5);
    assert_back(&mut station, 3, 3, 6);
    assert_back(&mut station, 6, 3, 7);
    assert_back(&mut station, 4, 1, 8);
    assert_listed(&station, 1, 8);
}

#[test]
fn nothing_else_is_rewound() {
    let mut station = versions(2);
    for (stw1, fault) in [(0x047E, 0), (0x047F, 0), (0x047F, 0), (0x047F, 9), (0x04FE, 0), (0x047F, 0), (0x047F, 0)] {
        assert_eq!(station.cycle(1, 0, stw1, 0x1234, -7, fault).number, 0);
    }
    send(&mut station, 1, &write_frame(&request(5, 1, &["10 01 26 AC 00 00"])));
    let part = &station.axes[0];
    assert_eq!((part.state, part.situations[1][0], part.fault_counter), (State::S4, 9, 2));
    assert_back(&mut station, 1, 1, 3);
    let response = fetch(&mut station, 1);
    assert_eq!(response, hex("05 01 01 01 42 01 00 02"), "the response that waited tells what was before");
    assert_eq!(station.axes[0].settings.p9900, 1);
}

#[test]
fn each_farm_has_its_own() {
    let mut station = versions(3);
    assert_eq!(send_merged(&mut station, 2, &mark(2, 77)).0.stored, 1);
    let others = station.axes[1..].to_vec();
    assert_back(&mut station, 2, 2, 4);
    assert!(station.axes[1..] == others);
    assert_eq!(station.versions(2), Listed { oldest: 1, kept: 1, number: 0 });
    assert_eq!(station.versions(3), Listed { oldest: 1, kept: 0, number: 0 });
    assert_back_refused(&mut station, 2, 2, 14);
}

#[test]
fn number_1_is_before_all_others() {
    let mut station = numbered(65535);
    station.axes.iter_mut().for_each(|part| part.p930 = 0);
    for farm in [0, 17, 257, 65537, u32::MAX] {
        assert_list_refused(&station, farm, 1);
        assert_back_refused(&mut station, farm, 1, 1);
        assert_back_refused(&mut station, farm, 65535, 1);
    }
}

/// Settings of which one element is just outside its limits, each in turn.
fn outside() -> Vec<Settings> {
    let marks =
        (0..4).map(|i| Settings { p30001: std::array::from_fn(|j| 3001 * u16::from(i == j)), ..Settings::fresh() });
    let offset = |i: usize, value| Settings {
        p30004: std::array::from_fn(|j| if i == j { value } else { 0 }),
        ..Settings::fresh()
    };
    let offsets = (0..2).flat_map(|i| [-100_001, 100_001, i32::MIN].map(|value| offset(i, value)));
    let simple = [
        Settings { p10111: 0, ..Settings::fresh() },
        Settings { p10111: 60001, ..Settings::fresh() },
        Settings { p30002: 16385, ..Settings::fresh() },
        Settings { p30003: 32768, ..Settings::fresh() },
    ];
    simple.into_iter().chain(marks).chain(offsets).collect()
}

#[test]
fn number_2_tests_every_version() {
    for settings in outside() {
        for place in 0..16 {
            let mut station = numbered(20);
            station.axes[0].versions.kept[place] = settings.clone();
            assert_list_refused(&station, 1, 2);
            assert_back_refused(&mut station, 1, 20, 2);
            assert_back_refused(&mut station, 1, 0, 2);
            assert_refused(&mut station, 1, &mark(1, 1), 2, "");
            assert_eq!(station.cycle(1, 4, 0, 0, 0, 0).number, 2);
            assert_eq!(station.versions(2).number, 0, "only the own part is tested");
        }
    }
}

#[test]
fn versions_at_their_limits_are_well_formed() {
    let low = Settings { p10111: 1, p30002: 0, p30003: 0, p30004: [-100_000; 2], ..Settings::fresh() };
    let high = Settings {
        p9900: 65535,
        p9901: [65535; 8],
        p10111: 60000,
        p30001: [3000; 4],
        p30002: 16384,
        p30003: 32767,
        p30004: [100_000; 2],
    };
    for settings in [low, high] {
        let mut station = numbered(20);
        station.axes[0].versions.kept[0] = settings.clone();
        assert_eq!(station.go_back(1, 5), Returned { stored: 18, version: 21, number: 0 });
        assert_eq!(station.axes[0].settings, settings);
    }
}

#[test]
fn the_last_number_is_65535() {
    let mut station = numbered(65533);
    assert_eq!(send(&mut station, 1, &mark(1, 1)).0.stored, 1);
    assert_back(&mut station, 65519, 65519, 65535);
    assert_listed(&station, 65520, 16);
    for version in [65520, 65535] {
        assert_back_refused(&mut station, 1, version, 15);
    }
    for version in [0, 1, 65519, 65536, 65536 + 65520, 2 * 65536 - 1] {
        assert_back_refused(&mut station, 1, version, 14);
    }
}

#[test]
fn number_15_is_for_what_would_store() {
    let mut station = numbered(65535);
    let failing = ("10 02 75 31 00 00", "42 02 0001 0BB9");
    let storing = ("10 01 26 AC 00 00", "42 01 0000");
    for parameters in [&[storing][..], &[storing, failing], &[failing, storing], &[storing; 10]] {
        assert_refused(&mut station, 1, &write_frame(&change(1, 1, parameters)), 15, "DF 80 A1 00");
    }
    let before = station.clone();
    assert_eq!(write_and_fetch(&mut station, 1, &change(1, 1, &[failing])), (0, hex("01 82 01 01 44 01 00 02")));
    let read = request(1, 1, &["10 01 26 AC 00 00", "10 01 00 01 00 00"]);
    assert_eq!(write_and_fetch(&mut station, 1, &read), (0, hex("01 81 01 02 42 01 00 00 44 01 00 00")));
    assert!(station == before);
    assert_listed(&station, 65520, 16);
    assert_eq!(station.cycle(1, 0, 0x047E, 0, 0, 0).number, 0);
    assert_eq!(send_merged(&mut station, 2, &mark(2, 1)).0.stored, 1, "another farm has numbers of its own");
}

#[test]
fn number_15_comes_last() {
    let mut station = numbered(65535);
    assert_refused(&mut station, 1, &mark(2, 1), 11, "DF 80 B6 00");
    let mut unreadable = mark(1, 1);
    unreadable[4] = 0;
    assert_refused(&mut station, 1, &unreadable, 10, "DF 80 B8 00");
    let (framed, _) = send(&mut station, 1, &write_frame(&request(1, 1, &["10 01 26 AC 00 00"])));
    assert_eq!(framed, Framed { length: 4, stored: 0, number: 0 });
    assert_merged_refused(&mut station, 1, &mark(1, 1), 8, "DF 80 B5 00");
    assert_back_refused(&mut station, 1, 65535, 15);
    assert_eq!(fetch(&mut station, 1), hex("01 01 01 01 42 01 00 00"), "it outlives 15");
    assert_refused(&mut station, 1, &mark(1, 1), 15, "DF 80 A1 00");
    assert_eq!(station.frame(1, &mark(1, 1), &mut [0; 243]), Framed { length: 0, stored: 0, number: 3 });
}

#[test]
fn all_numbers_are_used_once() {
    let mut station = versions(1);
    for new in 2..=65535 {
        assert_eq!(station.axes[0].versions.last(), new - 1);
        let oldest = station.versions(1).oldest;
        assert_eq!(oldest, new.saturating_sub(16).max(1));
        assert_eq!(station.go_back(1, oldest.into()), Returned { stored: 18, version: new, number: 0 });
    }
    assert_back_refused(&mut station, 1, 65520, 15);
    assert_refused(&mut station, 1, &mark(1, 1), 15, "DF 80 A1 00");
}
