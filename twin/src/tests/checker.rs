//! The checker: R-4 of document 02, readings 14 and 15.

use super::random::{random_block, Random};
use super::{change, hex, request, worked_write, write_and_fetch};
use crate::{check, parse_request, Station};

const MARKS: &str = "10 02 75 31 00 00";
const SIMPLE: &str = "10 01 03 A2 00 00";

/// A response block of these blocks, each written in hex.
fn response(reference: u8, identifier: u8, axis: u8, blocks: &[&str]) -> Vec<u8> {
    let mut block = vec![reference, identifier, axis, blocks.len() as u8];
    blocks.iter().for_each(|text| block.extend(hex(text)));
    block
}

/// A request of one address for each of these numbers of elements.
fn asking(elements: &[u8]) -> Vec<u8> {
    let mut block = vec![1, 0x01, 1, elements.len() as u8];
    elements.iter().for_each(|elements| block.extend([0x10, *elements, 0x75, 0x31, 0, 0]));
    block
}

/// So many values of a format and a size, all zero, and their fill byte.
fn values(format: u8, size: usize, count: u8) -> Vec<u8> {
    let bytes = size * usize::from(count);
    [vec![format, count], vec![0; bytes + bytes % 2]].concat()
}

/// What a check of these numbers of elements against these blocks of a response comes to.
fn checked(elements: &[u8], identifier: u8, blocks: &[&str]) -> u8 {
    check(&asking(elements), &response(1, identifier, 1, blocks))
}

#[test]
fn the_worked_change_and_its_response() {
    assert_eq!(check(&worked_write()[4..], &hex("07 82 01 01 44 01 00 02")), 0);
    assert_eq!(check(&worked_write()[4..], &hex("07 02 01 01")), 0, "what it would be with every mark stored");
    assert_eq!(check(&worked_write()[4..], &hex("07 01 01 01 42 02 03 E8 0B B9")), 6);
}

/// A request and its response of which these checks fail, and no others.
fn failing(numbers: &[u8]) -> (Vec<u8>, Vec<u8>) {
    let fails = |number: u8| numbers.contains(&number);
    let values = ["42 01 00 01", "42 02 03 E8 0B B8"];
    let mut asked = request(7, 1, &[SIMPLE, MARKS]);
    if fails(6) {
        asked = change(7, 1, &[(SIMPLE, values[0]), (MARKS, values[1])]);
    }
    let first = if fails(7) { "42 02 00 01 00 01" } else { values[0] };
    let blocks = if fails(5) { vec![first] } else { vec![first, values[1]] };
    let mut answered = response(7 + u8::from(fails(3)), 0x01, 1 + u8::from(fails(4)), &blocks);
    asked.extend(fails(1).then_some(0));
    answered.extend(fails(2).then_some(0));
    (asked, answered)
}

#[test]
fn the_first_check_that_fails_is_named() {
    for chosen in 0..1 << 7 {
        let numbers: Vec<u8> = (1..=7).filter(|number| chosen >> (number - 1) & 1 == 1).collect();
        let (asked, answered) = failing(&numbers);
        let first = numbers.first().copied().unwrap_or(0);
        assert_eq!(check(&asked, &answered), first, "{numbers:?} {asked:02X?} {answered:02X?}");
    }
}

#[test]
fn checks_1_and_2_are_of_whole_blocks() {
    let (asked, answered) = failing(&[]);
    for length in 0..asked.len() {
        assert_eq!(check(&asked[..length], &answered), 1, "{length} bytes");
        assert_eq!(check(&asked[..length], &[]), 1, "both unreadable, {length} bytes");
    }
    for length in 0..answered.len() {
        assert_eq!(check(&asked, &answered[..length]), 2, "{length} bytes");
    }
    assert_eq!(check(&answered, &asked), 1, "the wrong way round");
    assert_eq!(check(&asked, &asked), 2);
}

#[test]
fn a_block_that_answers_itself() {
    let block = hex("07 01 01 01 42 02 03 E8 0B B8");
    assert_eq!(check(&block, &block), 0, "two elements asked with attribute 42, and two words");
    let block = hex("07 01 01 01 41 04 03 E8 0B B8");
    assert_eq!(check(&block, &block), 0, "four elements, and four bytes");
    let block = hex("07 01 01 01 41 03 03 E8 0B 00");
    assert_eq!(check(&block, &block), 0, "three elements, and three bytes with their fill byte");
    let block = hex("07 01 01 01 43 01 03 E8 0B B8");
    assert_eq!(check(&block, &block), 0, "one element, and one double word");
}

/// What every two values of a header's byte come to.
fn assert_byte(at: usize, expected: fn(u8, u8) -> u8) {
    let (asked, answered) = failing(&[]);
    for ours in 0..=255 {
        for theirs in 0..=255 {
            let (mut asked, mut answered) = (asked.clone(), answered.clone());
            (asked[at], answered[at]) = (ours, theirs);
            assert_eq!(check(&asked, &answered), expected(ours, theirs), "byte {at}: {ours:02X} {theirs:02X}");
        }
    }
}

#[test]
fn check_3_is_of_every_reference() {
    assert_byte(0, |ours, theirs| match (ours, theirs) {
        (0, _) => 1,
        (_, 0) => 2,
        _ if ours != theirs => 3,
        _ => 0,
    });
}

#[test]
fn check_4_is_of_every_axis() {
    assert_byte(2, |ours, theirs| if ours == theirs { 0 } else { 4 });
}

#[test]
fn check_5_is_of_every_number_of_parameters() {
    for asked in 0..=255 {
        let request = asking(&vec![1; asked]);
        for answered in 0..=255 {
            let expected = match (asked, answered) {
                (0 | 40.., _) => 1,
                (_, 0 | 40..) => 2,
                _ if asked != answered => 5,
                _ => 0,
            };
            // 40 blocks are 164 bytes: not their length is wrong, but their number.
            let response = response(1, 0x01, 1, &vec!["42 01 00 00"; answered]);
            assert_eq!(check(&request, &response), expected, "{asked} {answered}");
        }
    }
}

#[test]
fn check_6_is_of_every_two_identifiers() {
    let asked = [request(1, 1, &[MARKS]), change(1, 1, &[(MARKS, "42 02 00 01 00 02")])];
    let answered = [
        response(1, 0x01, 1, &["42 02 00 01 00 02"]),
        response(1, 0x81, 1, &["44 01 00 02"]),
        hex("01 02 01 01"),
        response(1, 0x82, 1, &["44 01 00 02"]),
    ];
    let numbers = asked.map(|asked| answered.each_ref().map(|answered| check(&asked, answered)));
    assert_eq!(numbers, [[0, 0, 6, 6], [6, 6, 0, 0]]);
}

#[test]
fn no_other_identifier_is_readable() {
    let (asked, answered) = failing(&[]);
    for identifier in (0..=255).filter(|identifier| *identifier != 0x01) {
        let (mut asked, mut other) = (asked.clone(), answered.clone());
        other[1] = identifier;
        assert_eq!(check(&asked, &other), 2, "{identifier:02X}");
        asked[1] = identifier;
        assert_eq!(check(&asked, &answered), 1, "{identifier:02X}");
    }
}

#[test]
fn check_7_is_of_every_count() {
    for (format, size, most) in [(0x41, 1, 234), (0x42, 2, 117), (0x43, 4, 58)] {
        for count in 1..=most {
            let answered = [hex("01 01 01 01"), values(format, size, count)].concat();
            for elements in 0..=255u8 {
                let expected = if elements.max(1) == count { 0 } else { 7 };
                assert_eq!(check(&asking(&[elements]), &answered), expected, "{format:02X} {elements} {count}");
            }
        }
    }
}

#[test]
fn no_elements_count_as_one() {
    assert_eq!(checked(&[0], 0x01, &["42 01 00 01"]), 0);
    assert_eq!(checked(&[0], 0x01, &["42 02 00 01 00 02"]), 7);
    assert_eq!(checked(&[0], 0x01, &["42 00"]), 2, "a count from 1");
    assert_eq!(checked(&[1], 0x01, &["42 00"]), 2);
    assert_eq!(checked(&[0, 0], 0x01, &["41 01 07 00", "43 01 00 00 00 01"]), 0);
    assert_eq!(checked(&[0], 0x81, &["44 01 00 16"]), 0, "as our own station answers for an array");
}

#[test]
fn block_k_is_held_against_address_k() {
    let three = ["42 01 00 01", "42 02 00 01 00 02", "42 03 00 01 00 02 00 03"];
    assert_eq!(checked(&[1, 2, 3], 0x01, &three), 0);
    for elements in [[2, 2, 3], [1, 1, 3], [1, 2, 2], [1, 3, 2], [3, 2, 1], [2, 1, 3], [2, 3, 1], [3, 1, 2]] {
        assert_eq!(checked(&elements, 0x01, &three), 7, "{elements:?}");
    }
}

#[test]
fn errors_pass_and_keep_their_place() {
    let error = "44 01 00 02";
    let three = [error, "42 02 00 01 00 02", error];
    for elements in 0..=255 {
        assert_eq!(checked(&[elements], 0x81, &[error]), 0, "one word for {elements} elements");
        assert_eq!(checked(&[elements, 2, elements], 0x81, &three), 0);
    }
    assert_eq!(checked(&[2, 1, 2], 0x81, &three), 7);
    assert_eq!(checked(&[1, 3, 1], 0x81, &three), 7);
    assert_eq!(checked(&[1, 2], 0x81, &["42 02 00 01 00 02", error]), 7);
    assert_eq!(checked(&[2, 1], 0x81, &["42 02 00 01 00 02", error]), 0);
}

#[test]
fn a_change_has_no_values_to_count() {
    for elements in 0..=255u8 {
        let address = format!("10 {elements:02X} 75 31 00 00");
        // What the change itself sends is none of the checker's.
        let asked = change(1, 1, &[(&address, "42 01 00 01"), (&address, "41 00")]);
        assert_eq!(check(&asked, &hex("01 02 01 02")), 0);
        assert_eq!(check(&asked, &response(1, 0x82, 1, &["40 00", "44 01 00 02"])), 0);
        assert_eq!(check(&asked, &response(1, 0x82, 1, &["44 01 00 02", "44 01 00 18"])), 0);
        assert_eq!(check(&asked, &response(1, 0x82, 1, &["40 00", "40 00"])), 2, "at least one error");
    }
}

#[test]
fn fill_bytes() {
    assert_eq!(checked(&[1], 0x01, &["41 01 07 00"]), 0);
    assert_eq!(checked(&[2], 0x01, &["41 01 07 00"]), 7, "the count leaves it out");
    assert_eq!(checked(&[2], 0x01, &["41 02 07 00"]), 0, "a value that is zero");
    for odd in ["41 01 07", "41 01 07 01", "41 01 07 00 00", "41 02 07 00 00"] {
        assert_eq!(checked(&[1], 0x01, &[odd]), 2, "{odd}");
        assert_eq!(check(&change(1, 1, &[(MARKS, odd)]), &hex("01 02 01 01")), 1, "{odd}");
    }
    assert_eq!(check(&change(1, 1, &[(MARKS, "41 01 07 00")]), &hex("01 02 01 01")), 0);
    assert_eq!(checked(&[3, 1], 0x01, &["41 03 01 02 03 00", "41 01 07 00"]), 0);
    assert_eq!(checked(&[3, 1], 0x01, &["41 03 01 02 03", "41 01 07 00"]), 2);
}

#[test]
fn blocks_over_240_bytes_are_not_readable() {
    let asked = |count| [hex("01 02 01 01 10 01 75 31 00 00"), values(0x41, 1, count)].concat();
    let answered = |count| [hex("01 01 01 01"), values(0x41, 1, count)].concat();
    let changed = hex("01 02 01 01");
    assert_eq!((asked(228).len(), check(&asked(228), &changed)), (240, 0));
    assert_eq!((asked(227).len(), check(&asked(227), &changed)), (240, 0), "with a fill byte");
    assert_eq!((asked(229).len(), check(&asked(229), &changed)), (242, 1), "with a fill byte");
    assert_eq!((asked(230).len(), check(&asked(230), &changed)), (242, 1));
    assert_eq!(check(&[asked(228), vec![0]].concat(), &changed), 1, "241 bytes");
    for (count, length, number) in [(233, 240, 0), (234, 240, 0), (235, 242, 2), (236, 242, 2), (255, 262, 2)] {
        assert_eq!((answered(count).len(), check(&asking(&[count]), &answered(count))), (length, number));
    }
    assert_eq!(check(&asking(&[234]), &[answered(234), vec![0]].concat()), 2, "241 bytes");
    assert_eq!(check(&[0; 1000], &[0; 1000]), 1);
    assert_eq!(check(&asking(&[1]), &[0; 1000]), 2);
}

#[test]
fn it_knows_no_catalogue() {
    let answered = response(1, 0x01, 1, &["43 05 0000000000000000000000000000000000000000"]);
    for address in ["10 05 00 00 00 00", "10 05 03 A2 00 00", "99 05 FF FF FF FF"] {
        assert_eq!(check(&request(1, 1, &[address]), &answered), 0, "{address}");
    }
}

#[test]
fn every_response_of_the_station_passes() {
    let mut random = Random(0xC4EC_4E55_0F0F_A115);
    let mut station = Station::fresh();
    let mut seen = [0x01, 0x02, 0x81, 0x82].map(|identifier| (identifier, 0u32));
    for _ in 0..40_000 {
        let farm = 1 + random.below(16) as u32;
        let block = random_block(&mut random, farm as u8);
        if parse_request(&block).is_some() {
            // The merged call is made beside, and gives the same response.
            let (_, response) = write_and_fetch(&mut station, farm, &block);
            assert_eq!(check(&block, &response), 0, "{block:02X?} {response:02X?}");
            seen.iter_mut().filter(|(identifier, _)| *identifier == response[1]).for_each(|(_, times)| *times += 1);
        }
    }
    assert!(seen.iter().all(|(_, times)| *times > 20), "{seen:?}");
}
