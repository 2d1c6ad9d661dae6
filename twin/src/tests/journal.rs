use super::{
    back, change, cycle, frame, hex, merged, record, request, worked_journal, worked_write, write_frame, Broken,
};
use crate::replay;
use std::io::{self, Read};

fn run(journal: &[u8]) -> String {
    let mut output = Vec::new();
    replay(journal, &mut output).unwrap();
    String::from_utf8(output).unwrap()
}

#[test]
fn the_whole_listing() {
    let journal = worked_journal();
    assert_eq!(journal.len(), 4 * 11 + 3 * 247);
    let expected = "\
c 1 S2 0331 0
c 1 S3 0333 0
c 1 S4 0237 750
c 1 S1 0360 0
f 1 0 5F002F10
f 1 0 5E002F080782010144010002
f 2 0 DF80B600
";
    assert_eq!(run(&journal), expected);
}

#[test]
fn the_marks_after_the_worked_write() {
    let marks = |values: &str| write_frame(&change(1, 1, &[("10 04 75 31 00 00", values)]));
    let read = merged(1, &write_frame(&request(1, 1, &["10 04 75 31 00 00"])));
    let journal = [
        merged(1, &worked_write()),
        read.clone(),
        merged(1, &marks("42 04 0001 0002 0003 0004")),
        merged(1, &worked_write()),
        merged(1, &marks("42 04 0BB8 0BB8 0BB8 0BB9")),
        read,
    ]
    .concat();
    let expected = "\
e 1 0 5E002F080782010144010002
e 1 0 5E002F0E0101010142040000000000000000
e 1 4 5E002F0401020101
e 1 0 5E002F080782010144010002
e 1 0 5E002F080182010144010002
e 1 0 5E002F0E0101010142040001000200030004
";
    assert_eq!(run(&journal), expected);
}

#[test]
fn the_listing_read_a_byte_at_a_time() {
    struct Slow<'a>(&'a [u8], bool);
    impl Read for Slow<'_> {
        fn read(&mut self, buffer: &mut [u8]) -> io::Result<usize> {
            self.1 = !self.1;
            if self.1 {
                return Err(io::ErrorKind::Interrupted.into());
            }
            let length = buffer.len().min(1);
            self.0.read(&mut buffer[..length])
        }
    }
    let journal = [cycle(1, 0, 0x047E, 0, 0, 0), frame(1, &worked_write())].concat();
    let mut output = Vec::new();
    replay(Slow(&journal, false), &mut output).unwrap();
    assert_eq!(output, b"c 1 S2 0331 0\nf 1 0 5F002F10\n");
}

#[test]
fn an_empty_journal_writes_nothing() {
    assert_eq!(run(&[]), "");
}

#[test]
fn refused_cycles_and_empty_replies() {
    assert_eq!(run(&cycle(0, 0, 0, 0, 0, 0)), "x 1\n");
    assert_eq!(run(&cycle(17, 9, 0, 0, 0, 0)), "x 1\n");
    assert_eq!(run(&cycle(16, 4, 0, 0, 0, 0)), "x 12\n");
    assert_eq!(run(&frame(17, &worked_write())), "f 17 0 -\n");
    assert_eq!(run(&frame(0, &[])), "f 0 0 -\n");
    assert_eq!(run(&frame(1, &[])), "f 1 0 -\n");
    assert_eq!(run(&frame(1, &hex("5D 00 2F 00"))), "f 1 0 -\n");
}

#[test]
fn merged_calls() {
    let fetch = hex("5E 00 2F F0");
    let journal = [
        merged(1, &worked_write()),
        merged(1, &worked_write()),
        frame(1, &fetch),
        merged(2, &worked_write()),
        frame(1, &worked_write()),
        merged(1, &worked_write()),
        merged(1, &fetch),
        frame(1, &fetch),
        merged(16, &write_frame(&request(5, 16, &["10 01 03 C5 00 01"]))),
        merged(16, &write_frame(&change(1, 16, &[("10 01 26 AC 00 00", "42 01 00 05")]))),
    ]
    .concat();
    let expected = "\
e 1 0 5E002F080782010144010002
e 1 0 5E002F080782010144010002
f 1 0 DE80B500
e 2 0 DF80B600
f 1 0 5F002F10
e 1 0 DF80B500
e 1 0 -
f 1 0 5E002F080782010144010002
e 16 0 5E002F080501100141012900
e 16 1 5E002F0401021001
";
    assert_eq!(run(&journal), expected);
}

#[test]
fn refused_merged_calls() {
    assert_eq!(run(&merged(17, &worked_write())), "e 17 0 -\n");
    assert_eq!(run(&merged(0, &hex("5E 00 2F F0"))), "e 0 0 -\n");
    assert_eq!(run(&merged(255, &[])), "e 255 0 -\n");
    assert_eq!(run(&merged(1, &[])), "e 1 0 -\n");
    assert_eq!(run(&merged(1, &hex("5E 01 2F F0"))), "e 1 0 -\n", "a read is 4, whatever its slot");
    assert_eq!(run(&merged(1, &hex("5F 01 2F F0"))), "e 1 0 DF80B200\n");
    assert_eq!(run(&merged(1, &[0x5F; 244])), "e 1 0 DF80B200\n");
}

#[test]
fn goings_back() {
    let store = |value: &str| merged(16, &write_frame(&change(1, 16, &[("10 01 26 AC 00 00", value)])));
    let read = merged(16, &write_frame(&request(1, 16, &["10 01 26 AC 00 00"])));
    let journal = [
        back(16, 1),
        store("42 01 0005"),
        store("42 01 0006"),
        back(16, 1),
        read.clone(),
        back(16, 2),
        read,
        back(16, 0),
        back(16, 5),
        back(16, 0x0100),
        back(1, 1),
        back(0, 1),
        back(17, 1),
        back(255, 0xFFFF),
    ]
    .concat();
    let expected = "\
x 14
e 16 1 5E002F0401021001
e 16 1 5E002F0401021001
g 16 18 3
e 16 0 5E002F080101100142010005
g 16 18 4
e 16 0 5E002F080101100142010006
x 14
x 14
x 14
x 14
x 1
x 1
x 1
";
    assert_eq!(run(&journal), expected);
}

#[test]
fn numbers_used_up() {
    let store = |value: &str| write_frame(&change(1, 1, &[("10 01 26 AC 00 00", value)]));
    let journal = [
        merged(1, &store("42 01 0005")).repeat(65535),
        back(1, 65520),
        back(1, 65519),
        merged(1, &store("42 01 0005")),
        frame(1, &store("42 01 0005")),
        frame(1, &store("42 02 0005 0006")),
        cycle(1, 0, 0x047E, 0, 0, 0),
    ]
    .concat();
    let stored = "e 1 1 5E002F0401020101\n".repeat(65535);
    let refused = "x 15\nx 14\ne 1 0 DF80A100\nf 1 0 DF80A100\nf 1 0 5F002F10\nc 1 S2 0331 0\n";
    assert_eq!(run(&journal), stored + refused);
}

/// After the line of a good record, these bytes end the run.
fn assert_bad(bytes: &[u8]) {
    let good = cycle(2, 0, 0, 0, 0, 0);
    assert_eq!(run(&[&good, bytes].concat()), "c 2 S1 0340 0\nbad\n", "{bytes:02X?}");
}

#[test]
fn other_kinds_end_the_run() {
    let (good, long) = (cycle(2, 0, 0, 0, 0, 0), frame(1, &worked_write()));
    for kind in (0..=255).filter(|kind| !(1..=4).contains(kind)) {
        assert_bad(&[&[kind], &good[1..], &good].concat());
        assert_bad(&[&[kind], &long[1..], &good].concat());
    }
}

fn assert_bad_wherever_cut(record: &[u8]) {
    for length in 1..record.len() {
        assert_bad(&record[..length]);
    }
}

#[test]
fn cut_records_end_the_run() {
    assert_bad_wherever_cut(&cycle(2, 0, 0, 0, 0, 0));
    assert_bad_wherever_cut(&frame(1, &worked_write()));
    assert_bad_wherever_cut(&merged(1, &worked_write()));
    assert_bad_wherever_cut(&back(1, 1));
    assert_bad_wherever_cut(&back(17, 0));
}

#[test]
fn bad_frame_bodies() {
    let good = cycle(2, 0, 0, 0, 0, 0);
    let set = |mut record: Vec<u8>, at: usize, byte: u8| {
        record[at] = byte;
        [record, good.clone()].concat()
    };
    for (kind, farm) in [2, 3].into_iter().flat_map(|kind| [0, 1, 17, 255].map(|farm| (kind, farm))) {
        let whole = record(kind, farm, &worked_write());
        assert_eq!(run(&set(whole.clone(), 246, 1)), "bad\n", "a byte past the frame");
        assert_eq!(run(&set(whole, 2, 19)), "bad\n", "the byte just past the frame");
        for length in 245..=255 {
            assert_eq!(run(&set(record(kind, farm, &[]), 2, length)), "bad\n");
        }
    }
    assert_eq!(run(&frame(1, &[0; 244])), "f 1 0 -\n", "244 bytes may be a frame");
    assert_eq!(run(&merged(1, &[0; 244])), "e 1 0 -\n", "244 bytes may be a frame");
}

#[test]
fn all_states_and_negative_speeds() {
    let journal = [
        cycle(3, 0, 0x047E, 0, 0, 0),
        cycle(3, 0, 0x047F, 0, 0, 0),
        cycle(3, 0, 0x047F, -32768, 0, 0),
        cycle(3, 0, 0x047E, 0, 0, 0),
        cycle(3, 0, 0x047A, 0, -16384, 0),
        cycle(3, 3, 0x0000, 0, 0, 0xFFFF),
    ]
    .concat();
    let expected = "\
c 3 S2 0331 0
c 3 S3 0333 0
c 3 S4 0237 -3000
c 3 S51 0333 0
c 3 S52 0613 0
c 3 S1 03D8 0
";
    assert_eq!(run(&journal), expected);
}

#[test]
fn a_fill_byte_in_a_request_and_in_a_reply() {
    let fetch = frame(1, &hex("5E 00 2F F0"));
    let sent = |values: &str| frame(1, &write_frame(&change(1, 1, &[("10 01 03 C5 00 00", values)])));
    let journal = [
        frame(1, &write_frame(&request(1, 1, &["10 01 03 C5 00 00"]))),
        fetch.clone(),
        sent("41 01 03 00"),
        fetch,
        sent("41 01 03"),
        sent("41 01 03 01"),
    ]
    .concat();
    let expected = "\
f 1 0 5F002F0A
f 1 0 5E002F080101010141010300
f 1 0 5F002F0E
f 1 0 5E002F080182010144010001
f 1 0 DF80B800
f 1 0 DF80B800
";
    assert_eq!(run(&journal), expected);
}

#[test]
fn a_full_reply() {
    let mut addresses = vec!["10 20 03 B3 00 00"; 3];
    addresses.push("10 12 03 B3 00 00");
    let ask = write_frame(&request(1, 1, &addresses));
    let output = run(&[frame(1, &ask), frame(1, &hex("5E 00 2F F0")), merged(1, &ask)].concat());
    let lines: Vec<&str> = output.lines().collect();
    assert_eq!(lines[0], "f 1 0 5F002F1C");
    assert!(lines[1].starts_with("f 1 0 5E002FF0010101044220"));
    assert_eq!(lines[1].len(), "f 1 0 ".len() + 2 * 244);
    assert_eq!(lines[2], lines[1].replace('f', "e"));
}

#[test]
fn trouble_with_the_input_is_an_error_after_the_lines() {
    let journal = cycle(2, 0, 0, 0, 0, 0);
    let mut output = Vec::new();
    assert!(replay(journal.chain(Broken), &mut output).is_err());
    assert_eq!(output, b"c 2 S1 0340 0\n");
}
