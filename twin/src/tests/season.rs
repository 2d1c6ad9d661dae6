use super::{back, change, cycle, frame, hex, merged, request, worked_journal, worked_write, write_frame, Broken};
use crate::season::report_from;
use crate::{count, report, Counts, Journal, Next, Station, Totals, AXES, COUNTS};
use std::io::Read;

const NONE: Totals = [[0; COUNTS]; AXES];
/// Words that lead a fresh axis to S4.
const TO_S4: [u16; 3] = [0x047E, 0x047F, 0x047F];

/// Cycles of an axis with these words, all other fields 0.
fn words(axis: u8, words: &[u16]) -> Vec<u8> {
    words.iter().flat_map(|word| cycle(axis, 0, *word, 0, 0, 0)).collect()
}

/// A write of one element of 9900 of an axis, and of marks that are not stored.
fn one_element(axis: u8) -> Vec<u8> {
    let marks = ("10 02 75 31 00 00", "42 02 03E8 0BB9");
    write_frame(&change(1, axis, &[("10 01 26 AC 00 00", "42 01 0005"), marks]))
}

/// A write of all eight elements of 9901 of an axis.
fn eight_elements(axis: u8) -> Vec<u8> {
    let values = "42 08 0001 0002 0003 0004 0005 0006 0007 0008";
    write_frame(&change(1, axis, &[("10 08 26 AD 00 00", values)]))
}

fn text(totals: &Totals, end: &str) -> String {
    let line = |farm: usize| totals[farm - 1].iter().fold(format!("r {farm}"), |line, count| format!("{line} {count}"));
    (1..=16).map(|farm| line(farm) + "\n").chain([end.to_string()]).collect()
}

/// The totals of these farms, and none of the others.
fn totals(farms: &[(usize, Counts)]) -> Totals {
    let mut totals = NONE;
    farms.iter().for_each(|(farm, counts)| totals[farm - 1] = *counts);
    totals
}

fn run(journal: &[u8]) -> String {
    let mut output = Vec::new();
    report(journal, &mut output).unwrap();
    String::from_utf8(output).unwrap()
}

#[track_caller]
fn assert_counts(journal: &[u8], farms: &[(usize, Counts)]) {
    assert_eq!(run(journal), text(&totals(farms), ""));
}

#[test]
fn the_worked_journal() {
    let expected = "\
r 1 1 1 1 1 0 0 1 0 0 0
r 2 0 0 0 0 0 0 0 0 1 0
r 3 0 0 0 0 0 0 0 0 0 0
r 4 0 0 0 0 0 0 0 0 0 0
r 5 0 0 0 0 0 0 0 0 0 0
r 6 0 0 0 0 0 0 0 0 0 0
r 7 0 0 0 0 0 0 0 0 0 0
r 8 0 0 0 0 0 0 0 0 0 0
r 9 0 0 0 0 0 0 0 0 0 0
r 10 0 0 0 0 0 0 0 0 0 0
r 11 0 0 0 0 0 0 0 0 0 0
r 12 0 0 0 0 0 0 0 0 0 0
r 13 0 0 0 0 0 0 0 0 0 0
r 14 0 0 0 0 0 0 0 0 0 0
r 15 0 0 0 0 0 0 0 0 0 0
r 16 0 0 0 0 0 0 0 0 0 0
";
    assert_eq!(run(&worked_journal()), expected);
}

#[test]
fn an_empty_journal() {
    assert_counts(&[], &[]);
}

#[test]
fn a_bad_record_ends_with_the_totals_so_far() {
    let before = [worked_journal(), frame(3, &one_element(3))].concat();
    let after = words(16, &TO_S4);
    let (denied, stored) = ([0, 0, 0, 0, 0, 0, 0, 0, 1, 0], [0, 0, 0, 0, 0, 0, 0, 0, 0, 1]);
    let so_far = totals(&[(1, [1, 1, 1, 1, 0, 0, 1, 0, 0, 0]), (2, denied), (3, stored)]);
    let past_the_frame = [frame(1, &[]), merged(1, &[])].map(|record| [&record[..246], &[1]].concat());
    let cut = [cycle(1, 0, 0, 0, 0, 0), frame(1, &[]), merged(1, &[]), back(3, 1)]
        .map(|record| record[..record.len() - 1].to_vec());
    for bad in [vec![0]].into_iter().chain(past_the_frame).chain(cut) {
        assert_eq!(run(&bad), text(&NONE, "bad\n"), "{bad:02X?}");
        assert_eq!(run(&[&before[..], &bad].concat()), text(&so_far, "bad\n"), "{bad:02X?}");
    }
    let [cycle_body, frame_body] = [&after[1..11], &frame(1, &worked_write())[1..]];
    for kind in [0, 5, 6, 255] {
        for body in [cycle_body, frame_body] {
            let journal = [&before[..], &[kind], body, &after].concat();
            assert_eq!(run(&journal), text(&so_far, "bad\n"), "kind {kind}, and nothing is read after it");
        }
    }
}

#[test]
fn cycles_count_in_the_state_they_end_in() {
    let walk = words(9, &[TO_S4[0], TO_S4[1], TO_S4[2], 0x047E, 0x047B, 0x047B, 0x0479]);
    assert_counts(&walk, &[(9, [1, 1, 1, 1, 1, 2, 1, 0, 0, 0])]);
}

#[test]
fn entries_into_s4() {
    let [s2, s3, s4] = TO_S4;
    assert_counts(&words(1, &[s2, s3, s4, s4, s4]), &[(1, [0, 1, 1, 3, 0, 0, 1, 0, 0, 0])]);
    assert_counts(&words(1, &[s2, s3, s4, 0x047E, s4]), &[(1, [0, 1, 1, 2, 1, 0, 2, 0, 0, 0])]);
    assert_counts(&words(1, &[s2, s3, s4, 0x0477, s4]), &[(1, [0, 1, 2, 2, 0, 0, 2, 0, 0, 0])]);
    let other = [words(1, &[s2, s3]), words(2, &[s2, s3, s4]), words(1, &[s4])].concat();
    assert_counts(&other, &[(1, [0, 1, 1, 1, 0, 0, 1, 0, 0, 0]), (2, [0, 1, 1, 1, 0, 0, 1, 0, 0, 0])]);
}

#[test]
fn refused_cycles_count_nothing() {
    let [s2, s3, _] = TO_S4;
    let journal = [words(1, &[s2, s3]), cycle(1, 4, 0x047F, 0, 0, 0), cycle(1, 255, 0, 0, 0, 9)].concat();
    assert_counts(&journal, &[(1, [0, 1, 1, 0, 0, 0, 0, 0, 0, 0])]);
    assert_counts(&cycle(1, 3, s2, 0, 0, 0), &[(1, [0, 1, 0, 0, 0, 0, 0, 0, 0, 0])]);
}

#[test]
fn nobody_has_counts() {
    for number in [0, 17, 255] {
        let own = write_frame(&change(1, number, &[("10 01 26 AC 00 00", "42 01 0005")]));
        let frames = [frame(number, &worked_write()), frame(number, &own), frame(number, &[])].concat();
        let calls = [merged(number, &worked_write()), merged(number, &own), merged(number, &[])].concat();
        assert_counts(&[words(number, &TO_S4), frames, calls].concat(), &[]);
    }
    assert_counts(&words(16, &[0x047E]), &[(16, [0, 1, 0, 0, 0, 0, 0, 0, 0, 0])]);
}

#[test]
fn acknowledged_situations() {
    let fault = cycle(4, 0, 0x047E, 0, 0, 5);
    let beside = cycle(4, 0, 0x04FE, 0, 0, 6);
    let edge = words(4, &[0x04FE]);
    let clear = words(4, &[0x047E]);
    assert_counts(&edge, &[(4, [0, 1, 0, 0, 0, 0, 0, 0, 0, 0])]);
    assert_counts(&[&fault[..], &edge].concat(), &[(4, [1, 1, 0, 0, 0, 0, 0, 1, 0, 0])]);
    assert_counts(&[&fault[..], &beside].concat(), &[(4, [2, 0, 0, 0, 0, 0, 0, 0, 0, 0])]);
    let used_up = [&fault[..], &beside, &edge].concat();
    assert_counts(&used_up, &[(4, [3, 0, 0, 0, 0, 0, 0, 0, 0, 0])]);
    assert_counts(&[&used_up[..], &clear, &edge].concat(), &[(4, [4, 1, 0, 0, 0, 0, 0, 1, 0, 0])]);
    let inhibited = words(4, &[0x04FF]);
    assert_counts(&[&fault[..], &inhibited].concat(), &[(4, [2, 0, 0, 0, 0, 0, 0, 1, 0, 0])]);
    let not_led = words(4, &[0x00FE]);
    assert_counts(&[&fault[..], &not_led].concat(), &[(4, [2, 0, 0, 0, 0, 0, 0, 0, 0, 0])]);
}

#[test]
fn an_acknowledge_is_no_difference_of_944() {
    let codes: Vec<u8> = (1..=9).flat_map(|code| cycle(1, 0, 0x047E, 0, 0, code)).collect();
    let journal = [&codes[..], &words(1, &[0x04FE])].concat();
    assert_counts(&journal, &[(1, [9, 1, 0, 0, 0, 0, 0, 1, 0, 0])]);
}

#[test]
fn denied_frames_count_for_their_sender() {
    let ask = |axis: u8| write_frame(&request(1, axis, &["10 01 03 A2 00 00"]));
    for axis in [0, 1, 15, 17, 255] {
        assert_counts(&frame(16, &ask(axis)), &[(16, [0, 0, 0, 0, 0, 0, 0, 0, 1, 0])]);
    }
    assert_counts(&frame(16, &ask(16)), &[]);
    let waiting = [frame(16, &ask(16)), frame(16, &ask(1))].concat();
    assert_counts(&waiting, &[]);
    let unreadable = [0x5F, 0x00, 0x2F, 0x04, 0x00, 0x01, 0x01, 0x01];
    assert_counts(&frame(16, &unreadable), &[]);
}

#[test]
fn stored_elements() {
    let fetch = frame(3, &hex("5E 00 2F F0"));
    let twice = [frame(3, &eight_elements(3)), fetch.clone(), frame(3, &eight_elements(3)), fetch.clone()].concat();
    assert_counts(&twice, &[(3, [0, 0, 0, 0, 0, 0, 0, 0, 0, 16])]);
    let waiting = [frame(3, &eight_elements(3)), frame(3, &eight_elements(3))].concat();
    assert_counts(&waiting, &[(3, [0, 0, 0, 0, 0, 0, 0, 0, 0, 8])]);
    let marks = write_frame(&change(1, 3, &[("10 04 75 31 00 00", "42 04 0001 0002 0BB9 0003")]));
    assert_counts(&frame(3, &marks), &[]);
    assert_counts(&frame(3, &one_element(3)), &[(3, [0, 0, 0, 0, 0, 0, 0, 0, 0, 1])]);
}

#[test]
fn merged_calls_count_as_frames_do() {
    let one = [0, 0, 0, 0, 0, 0, 0, 0, 0, 1];
    let denied = [0, 0, 0, 0, 0, 0, 0, 0, 1, 0];
    let journal = [merged(1, &worked_write()), merged(2, &worked_write()), merged(3, &one_element(3))].concat();
    assert_counts(&journal, &[(2, denied), (3, one)]);
    let twice = [merged(3, &eight_elements(3)), merged(3, &eight_elements(3))].concat();
    assert_counts(&twice, &[(3, [0, 0, 0, 0, 0, 0, 0, 0, 0, 16])]);
    for axis in [0, 1, 15, 17, 255] {
        assert_counts(&merged(16, &eight_elements(axis)), &[(16, denied)]);
    }
    let ask = write_frame(&request(1, 16, &["10 01 03 A2 00 00"]));
    let read = [&[0x5E], &eight_elements(1)[1..]].concat();
    assert_counts(&[merged(16, &ask), merged(16, &read), merged(16, &[])].concat(), &[]);
}

#[test]
fn merged_calls_refused_by_a_waiting_response_count_nothing() {
    let waiting = frame(3, &eight_elements(3));
    let journal = [&waiting[..], &merged(3, &eight_elements(3)), &merged(3, &eight_elements(1))].concat();
    assert_counts(&journal, &[(3, [0, 0, 0, 0, 0, 0, 0, 0, 0, 8])]);
}

#[test]
fn goings_back_count_what_they_store() {
    let one = merged(3, &eight_elements(3));
    let refused = [back(3, 0), back(3, 4), back(1, 1), back(0, 1), back(17, 1)].concat();
    let journal = [&one[..], &back(3, 1), &back(3, 2), &refused].concat();
    assert_counts(&journal, &[(3, [0, 0, 0, 0, 0, 0, 0, 0, 0, 8 + 2 * 18])]);
    assert_counts(&[refused, one].concat(), &[(3, [0, 0, 0, 0, 0, 0, 0, 0, 0, 8])]);
}

/// A journal that leads to a record of farm 1, that record, and what it counts.
fn steps() -> Vec<(Vec<u8>, Vec<u8>, Counts)> {
    let [s2, s3, s4] = TO_S4;
    let led = |before: &[u16], word: u16, counts: Counts| (words(1, before), words(1, &[word]), counts);
    vec![
        led(&[], 0x0400, [1, 0, 0, 0, 0, 0, 0, 0, 0, 0]),
        led(&[], s2, [0, 1, 0, 0, 0, 0, 0, 0, 0, 0]),
        led(&[s2], s3, [0, 0, 1, 0, 0, 0, 0, 0, 0, 0]),
        led(&[s2, s3, s4], s4, [0, 0, 0, 1, 0, 0, 0, 0, 0, 0]),
        led(&[s2, s3, s4], 0x047E, [0, 0, 0, 0, 1, 0, 0, 0, 0, 0]),
        led(&[s2, s3, s4], 0x047B, [0, 0, 0, 0, 0, 1, 0, 0, 0, 0]),
        led(&[s2, s3], s4, [0, 0, 0, 1, 0, 0, 1, 0, 0, 0]),
        led(&[s2, s3, s4, 0x047E], s4, [0, 0, 0, 1, 0, 0, 1, 0, 0, 0]),
        (cycle(1, 0, s2, 0, 0, 5), words(1, &[0x04FE]), [0, 1, 0, 0, 0, 0, 0, 1, 0, 0]),
        (cycle(1, 0, s2, 0, 0, 5), words(1, &[0x04FF]), [1, 0, 0, 0, 0, 0, 0, 1, 0, 0]),
        (vec![], frame(1, &eight_elements(2)), [0, 0, 0, 0, 0, 0, 0, 0, 1, 0]),
        (vec![], frame(1, &worked_write()), [0; COUNTS]),
        (vec![], frame(1, &one_element(1)), [0, 0, 0, 0, 0, 0, 0, 0, 0, 1]),
        (vec![], frame(1, &eight_elements(1)), [0, 0, 0, 0, 0, 0, 0, 0, 0, 8]),
        (vec![], merged(1, &eight_elements(2)), [0, 0, 0, 0, 0, 0, 0, 0, 1, 0]),
        (merged(1, &worked_write()), merged(1, &eight_elements(1)), [0, 0, 0, 0, 0, 0, 0, 0, 0, 8]),
        (merged(1, &eight_elements(1)), back(1, 1), [0, 0, 0, 0, 0, 0, 0, 0, 0, 18]),
        (vec![], back(1, 1), [0; COUNTS]),
        (vec![], cycle(1, 4, s2, 0, 0, 0), [0; COUNTS]),
        (frame(1, &eight_elements(1)), frame(1, &eight_elements(1)), [0; COUNTS]),
        (frame(1, &eight_elements(1)), merged(1, &eight_elements(1)), [0; COUNTS]),
    ]
}

/// Counts a record over these totals, on a station that the journal before it has led there.
fn step(before: &[u8], record: &[u8], totals: &mut Totals) -> Result<(), u8> {
    let mut station = Station::fresh();
    let mut journal = Journal::new(before);
    while let Next::Record(record) = journal.next_record().unwrap() {
        count(&mut station, &mut NONE.clone(), &record).unwrap();
    }
    let mut journal = Journal::new(record);
    let Next::Record(record) = journal.next_record().unwrap() else { panic!("{record:02X?}") };
    count(&mut station, totals, &record)
}

/// Farm 1's totals are zeros but for this count; those of all other farms are at their end.
fn near_the_end(which: usize, figure: u64) -> Totals {
    let mut totals = [[u64::MAX; COUNTS]; AXES];
    totals[0] = [0; COUNTS];
    totals[0][which] = figure;
    totals
}

#[test]
fn a_count_may_come_to_its_end() {
    for (before, record, counts) in steps() {
        for which in 0..COUNTS {
            let mut totals = near_the_end(which, u64::MAX - counts[which]);
            let mut expected = totals;
            expected[0] = counts;
            expected[0][which] = u64::MAX;
            assert_eq!(step(&before, &record, &mut totals), Ok(()), "{record:02X?} count {which}");
            assert_eq!(totals, expected, "{record:02X?} count {which}");
        }
    }
}

#[test]
fn no_count_reaches_2_64() {
    let mut refused = [0; COUNTS];
    for (before, record, counts) in steps() {
        for which in (0..COUNTS).filter(|which| counts[*which] > 0) {
            for figure in [u64::MAX - counts[which] + 1, u64::MAX] {
                let mut totals = near_the_end(which, figure);
                assert_eq!(step(&before, &record, &mut totals), Err(13), "{record:02X?} count {which}");
                assert_eq!(totals, near_the_end(which, figure), "{record:02X?} adds nothing");
            }
            refused[which] += 1;
        }
    }
    assert!(refused.iter().all(|times| *times > 0), "{refused:?}");
}

#[test]
fn a_full_count_ends_the_report() {
    let full = near_the_end(1, u64::MAX);
    let mut expected = full;
    expected[0][9] = 8;
    let no_obstacle = [frame(1, &eight_elements(1)), cycle(1, 4, 0x047E, 0, 0, 0), words(17, &TO_S4)].concat();
    let journal = [no_obstacle, words(1, &[0x047E])].concat();
    let mut output = Vec::new();
    report_from(full, journal.chain(Broken), &mut output).expect("nothing is read after it");
    assert_eq!(String::from_utf8(output).unwrap(), text(&expected, "x 13\n"));
}

#[test]
fn an_input_in_trouble_has_no_report() {
    let mut output = Vec::new();
    assert!(report(worked_journal().chain(Broken), &mut output).is_err());
    assert_eq!(output, b"");
}
