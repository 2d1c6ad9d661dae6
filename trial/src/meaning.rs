//! What the bytes of a part of the lent memory mean to the twin, and back.
//!
//! The parameters stand first, in the order of document 01's table, numbers high byte first; then the state, the
//! effective setpoint, and the response that waits, its length before it. The versions stand behind it, low byte first: for
//! each element that can be written, in the order of the table, a column of 16 numbers, one for each slot; and the last
//! number used. Version n stands in slot (n - 1) mod 16. Sixteen such parts make a station.

use std::slice::from_ref;
use twin::{Axis, Settings, State, Versions, Waiting, AXES, BLOCK_MAX, CODES, KEPT, SITUATIONS};

/// The fields of a part, in their order.
#[allow(missing_docs)]
#[derive(Clone, Copy, Debug, PartialEq, Eq)]
pub enum Field {
    P930,
    P944,
    P947,
    P965,
    P9900,
    P9901,
    P10100,
    P10101,
    P10102,
    P10103,
    P10111,
    P30001,
    P30002,
    P30003,
    P30004,
    State,
    Effective,
    Length,
    Response,
    Kept9900,
    Kept9901,
    Kept10111,
    Kept30001,
    Kept30002,
    Kept30003,
    Kept30004,
    Last,
}

/// Bytes of an element, and elements, of each field; every place is computed from this.
const TABLE: [(Field, usize, usize); 27] = [
    (Field::P930, 2, 1),
    (Field::P944, 2, 1),
    (Field::P947, 2, SITUATIONS * CODES),
    (Field::P965, 1, 2),
    (Field::P9900, 2, 1),
    (Field::P9901, 2, 8),
    (Field::P10100, 2, 1),
    (Field::P10101, 2, 1),
    (Field::P10102, 2, 1),
    (Field::P10103, 2, 1),
    (Field::P10111, 2, 1),
    (Field::P30001, 2, 4),
    (Field::P30002, 2, 1),
    (Field::P30003, 2, 1),
    (Field::P30004, 4, 2),
    (Field::State, 1, 1),
    (Field::Effective, 2, 1),
    (Field::Length, 1, 1),
    (Field::Response, 1, BLOCK_MAX),
    (Field::Kept9900, 2, KEPT),
    (Field::Kept9901, 2, 8 * KEPT),
    (Field::Kept10111, 2, KEPT),
    (Field::Kept30001, 2, 4 * KEPT),
    (Field::Kept30002, 2, KEPT),
    (Field::Kept30003, 2, KEPT),
    (Field::Kept30004, 4, 2 * KEPT),
    (Field::Last, 2, 1),
];

/// Bytes of the first so many fields.
const fn bytes_of(fields: usize) -> usize {
    let mut bytes = 0;
    let mut i = 0;
    while i < fields {
        assert!(TABLE[i].0 as usize == i, "the table is in the order of the fields");
        bytes += TABLE[i].1 * TABLE[i].2;
        i += 1;
    }
    bytes
}

/// Where each field stands.
const PLACES: [usize; TABLE.len()] = {
    let mut places = [0; TABLE.len()];
    let mut i = 0;
    while i < TABLE.len() {
        places[i] = bytes_of(i);
        i += 1;
    }
    places
};

/// Bytes of a part.
pub const PART: usize = bytes_of(TABLE.len());
/// Where the versions begin.
pub const VERSIONS: usize = place(Field::Kept9900);
/// Bytes of a station.
pub const STATION: usize = AXES * PART;

/// Where a field stands in a part.
pub const fn place(field: Field) -> usize {
    PLACES[field as usize]
}

/// The field and the byte of it that stand at a place of a part.
pub fn field_at(place: usize) -> (Field, usize) {
    let index = PLACES.partition_point(|start| *start <= place) - 1;
    (TABLE[index].0, place - PLACES[index])
}

/// Why bytes have no meaning to the twin; by document 01 such a part is not well-formed.
#[derive(Clone, Copy, Debug, PartialEq, Eq)]
pub enum Unmeant {
    /// The state is none of the six.
    State(u8),
    /// No response waits, and this many response bytes are not 0.
    Leftover(usize),
    /// This slot holds no version, and something outside its limits.
    Slot(usize),
}

/// The axis that a part's bytes hold. What the twin can hold it also judges, as a length over 240.
pub fn decode(part: &[u8; PART]) -> Result<Axis, Unmeant> {
    let state = part[place(Field::State)];
    Ok(Axis {
        state: State::from_code(state).ok_or(Unmeant::State(state))?,
        last_word: word(part, Field::P10100, 0),
        last_setpoint: word(part, Field::P10101, 0) as i16,
        effective: word(part, Field::Effective, 0) as i16,
        status: word(part, Field::P10102, 0),
        actual: word(part, Field::P10103, 0) as i16,
        fault_counter: word(part, Field::P944, 0),
        situations: std::array::from_fn(|i| words(part, Field::P947, i * CODES)),
        p930: word(part, Field::P930, 0),
        p965: bytes(part, place(Field::P965)),
        settings: settings(part),
        versions: versions(part)?,
        waiting: waiting(part)?,
    })
}

fn settings(part: &[u8; PART]) -> Settings {
    Settings {
        p9900: word(part, Field::P9900, 0),
        p9901: words(part, Field::P9901, 0),
        p10111: word(part, Field::P10111, 0),
        p30001: words(part, Field::P30001, 0),
        p30002: word(part, Field::P30002, 0),
        p30003: word(part, Field::P30003, 0),
        p30004: std::array::from_fn(|i| i32::from_be_bytes(bytes(part, place(Field::P30004) + 4 * i))),
    }
}

/// The versions that are kept. Of the other slots the twin knows nothing, so they are judged here: they hold settings, too.
fn versions(part: &[u8; PART]) -> Result<Versions, Unmeant> {
    let last = usize::from(u16::from_le_bytes(bytes(part, place(Field::Last))));
    let kept = last.min(KEPT);
    if let Some(other) = (kept..KEPT).find(|other| !slot(part, *other).inside_limits()) {
        return Err(Unmeant::Slot(other));
    }
    let dropped = last - kept;
    Ok(Versions { dropped: dropped as u16, kept: (dropped..last).map(|before| slot(part, before % KEPT)).collect() })
}

/// What a slot holds.
pub fn slot(part: &[u8; PART], slot: usize) -> Settings {
    let word = |field, element| u16::from_le_bytes(bytes(part, slot_place(field, element, slot)));
    let double = |field, element| i32::from_le_bytes(bytes(part, slot_place(field, element, slot)));
    Settings {
        p9900: word(Field::Kept9900, 0),
        p9901: std::array::from_fn(|i| word(Field::Kept9901, i)),
        p10111: word(Field::Kept10111, 0),
        p30001: std::array::from_fn(|i| word(Field::Kept30001, i)),
        p30002: word(Field::Kept30002, 0),
        p30003: word(Field::Kept30003, 0),
        p30004: std::array::from_fn(|i| double(Field::Kept30004, i)),
    }
}

/// Where an element of a slot stands in its column.
fn slot_place(field: Field, element: usize, slot: usize) -> usize {
    let (_, size, _) = TABLE[field as usize];
    place(field) + size * (KEPT * element + slot)
}

fn waiting(part: &[u8; PART]) -> Result<Option<Waiting>, Unmeant> {
    let length = usize::from(part[place(Field::Length)]);
    let bytes: [u8; BLOCK_MAX] = bytes(part, place(Field::Response));
    match (length, bytes.iter().filter(|byte| **byte != 0).count()) {
        (0, 0) => Ok(None),
        (0, leftover) => Err(Unmeant::Leftover(leftover)),
        _ => Ok(Some(Waiting { bytes, length })),
    }
}

/// The response that waits in a part; empty where none does, or where its length is none that a response has.
pub fn response_of(axis: &Axis) -> &[u8] {
    axis.waiting.as_ref().and_then(|waiting| waiting.bytes.get(..waiting.length)).unwrap_or_default()
}

fn bytes<const N: usize>(part: &[u8; PART], at: usize) -> [u8; N] {
    std::array::from_fn(|i| part[at + i])
}

fn word(part: &[u8; PART], field: Field, element: usize) -> u16 {
    u16::from_be_bytes(bytes(part, place(field) + 2 * element))
}

fn words<const N: usize>(part: &[u8; PART], field: Field, first: usize) -> [u16; N] {
    std::array::from_fn(|i| word(part, field, first + i))
}

/// The bytes that hold an axis; the length of what waits is below 256.
pub fn encode(axis: &Axis) -> [u8; PART] {
    let mut part = [0; PART];
    put(&mut part, Field::P930, axis.p930.to_be_bytes());
    put(&mut part, Field::P944, axis.fault_counter.to_be_bytes());
    put(&mut part, Field::P947, axis.situations.concat().into_iter().flat_map(u16::to_be_bytes));
    put(&mut part, Field::P965, axis.p965);
    put_settings(&mut part, &axis.settings);
    put(&mut part, Field::P10100, axis.last_word.to_be_bytes());
    put(&mut part, Field::P10101, axis.last_setpoint.to_be_bytes());
    put(&mut part, Field::P10102, axis.status.to_be_bytes());
    put(&mut part, Field::P10103, axis.actual.to_be_bytes());
    put(&mut part, Field::State, [axis.state.code()]);
    put(&mut part, Field::Effective, axis.effective.to_be_bytes());
    if let Some(waiting) = &axis.waiting {
        put(&mut part, Field::Length, [waiting.length as u8]);
        put(&mut part, Field::Response, waiting.bytes);
    }
    put_versions(&mut part, &axis.versions);
    part
}

fn put_settings(part: &mut [u8; PART], settings: &Settings) {
    put(part, Field::P9900, settings.p9900.to_be_bytes());
    put(part, Field::P9901, settings.p9901.into_iter().flat_map(u16::to_be_bytes));
    put(part, Field::P10111, settings.p10111.to_be_bytes());
    put(part, Field::P30001, settings.p30001.into_iter().flat_map(u16::to_be_bytes));
    put(part, Field::P30002, settings.p30002.to_be_bytes());
    put(part, Field::P30003, settings.p30003.to_be_bytes());
    put(part, Field::P30004, settings.p30004.into_iter().flat_map(i32::to_be_bytes));
}

/// The versions; a slot that holds none holds fresh settings.
fn put_versions(part: &mut [u8; PART], versions: &Versions) {
    (0..KEPT).for_each(|slot| put_slot(part, slot, &Settings::fresh()));
    for (before, settings) in (usize::from(versions.dropped)..).zip(&versions.kept) {
        put_slot(part, before % KEPT, settings);
    }
    put(part, Field::Last, versions.last().to_le_bytes());
}

/// Puts settings in a slot.
pub fn put_slot(part: &mut [u8; PART], slot: usize, settings: &Settings) {
    let words: [(Field, &[u16]); 6] = [
        (Field::Kept9900, from_ref(&settings.p9900)),
        (Field::Kept9901, &settings.p9901),
        (Field::Kept10111, from_ref(&settings.p10111)),
        (Field::Kept30001, &settings.p30001),
        (Field::Kept30002, from_ref(&settings.p30002)),
        (Field::Kept30003, from_ref(&settings.p30003)),
    ];
    let mut put = |field, element, bytes: &[u8]| {
        let start = slot_place(field, element, slot);
        part[start..start + bytes.len()].copy_from_slice(bytes);
    };
    for (field, words) in words {
        words.iter().enumerate().for_each(|(element, word)| put(field, element, &word.to_le_bytes()));
    }
    for (element, offset) in settings.p30004.iter().enumerate() {
        put(Field::Kept30004, element, &offset.to_le_bytes());
    }
}

fn put(part: &mut [u8; PART], field: Field, bytes: impl IntoIterator<Item = u8>) {
    let (_, size, count) = TABLE[field as usize];
    let start = place(field);
    for (byte, value) in part[start..start + size * count].iter_mut().zip(bytes) {
        *byte = value;
    }
}

#[cfg(test)]
mod tests {
    use super::*;

    #[test]
    fn places_of_the_layout() {
        assert_eq!((place(Field::P965), place(Field::P30004)), (68, 110));
        assert_eq!((place(Field::State), place(Field::Effective)), (118, 119));
        assert_eq!((place(Field::Length), place(Field::Response), VERSIONS), (121, 122, 362));
        assert_eq!(
            (field_at(0), field_at(5), field_at(361)),
            ((Field::P930, 0), (Field::P947, 1), (Field::Response, 239))
        );
    }

    #[test]
    fn places_of_the_versions() {
        let columns = [
            Field::Kept9900,
            Field::Kept9901,
            Field::Kept10111,
            Field::Kept30001,
            Field::Kept30002,
            Field::Kept30003,
            Field::Kept30004,
            Field::Last,
        ];
        assert_eq!(columns.map(|field| place(field) - VERSIONS), [0, 32, 288, 320, 448, 480, 512, 640]);
        assert_eq!((PART, STATION), (1004, 16064));
        assert_eq!(field_at(PART - 1), (Field::Last, 1));
    }

    #[test]
    fn a_fresh_part_there_and_back() {
        let part = encode(&Axis::fresh());
        assert_eq!(decode(&part), Ok(Axis::fresh()));
        assert_eq!((&part[..2], &part[68..70], part[118]), (&[0, 1][..], &[3, 41][..], 1));
        assert_eq!((&part[92..94], &part[96..98]), (&[0x03, 0x40][..], &[0x05, 0xDC][..]));
    }

    #[test]
    fn bytes_without_a_meaning() {
        let mut part = encode(&Axis::fresh());
        part[place(Field::State)] = 5;
        assert_eq!(decode(&part), Err(Unmeant::State(5)));
        part[place(Field::State)] = 52;
        part[VERSIONS - 1] = 9;
        assert_eq!(decode(&part), Err(Unmeant::Leftover(1)));
        part[place(Field::Length)] = 255;
        assert_eq!(decode(&part).unwrap().waiting.unwrap().length, 255);
    }

    /// Settings that all differ, and differ from those of another number.
    fn numbered(number: u16) -> Settings {
        let word = |element: u16| 32 * number + element;
        Settings {
            p9900: word(0),
            p9901: std::array::from_fn(|i| word(1 + i as u16)),
            p10111: word(9),
            p30001: std::array::from_fn(|i| word(10 + i as u16)),
            p30002: word(14),
            p30003: word(15),
            p30004: std::array::from_fn(|i| -i32::from(word(16 + i as u16))),
        }
    }

    /// A fresh axis that has used these numbers.
    fn used(last: u16) -> Axis {
        let kept = last.min(16);
        let versions = Versions { dropped: last - kept, kept: (0..kept).map(numbered).collect() };
        Axis { versions, ..Axis::fresh() }
    }

    #[test]
    fn versions_there_and_back() {
        for last in [0, 1, 15, 16, 17, 31, 32, 33, 65519, 65520, 65534, 65535] {
            assert_eq!(decode(&encode(&used(last))), Ok(used(last)), "{last}");
        }
    }

    #[test]
    fn versions_in_their_slots() {
        let part = encode(&used(17));
        let slots: [Settings; KEPT] = std::array::from_fn(|at| slot(&part, at));
        assert_eq!((&slots[0], &slots[1], &slots[15]), (&numbered(15), &numbered(0), &numbered(14)), "17, 2 and 16");
        // Mark 2 of version 3, 32 + 12, stands in slot 2 of the third column of marks.
        assert_eq!(part[VERSIONS + 320 + 2 * (2 * 16 + 2)..][..2], [44, 0]);
        // Offset 1 of version 17, -(32 * 15 + 17), stands in slot 0 of the second column of offsets.
        assert_eq!(part[VERSIONS + 512 + 4 * 16..][..4], [0x0F, 0xFE, 0xFF, 0xFF]);
        assert_eq!(part[PART - 2..], [17, 0]);
        assert_eq!(encode(&used(0x1234))[PART - 2..], [0x34, 0x12]);
    }

    #[test]
    fn slots_that_hold_no_version() {
        for at in 0..16 {
            let mut part = encode(&used(3));
            put_slot(&mut part, at, &numbered(20));
            let others = decode(&part).map(|axis| axis == used(3));
            assert_eq!((slot(&part, at), others), (numbered(20), Ok(at >= 3)), "{at}");
            put_slot(&mut part, at, &Settings { p30003: 32768, ..numbered(20) });
            let judged = decode(&part).map(|axis| twin::well_formed(&axis, 1));
            assert_eq!(judged, if at < 3 { Ok(false) } else { Err(Unmeant::Slot(at)) });
        }
    }

    #[test]
    fn every_byte_counts() {
        let mut axis = used(0x1234);
        axis.waiting = Some(Waiting { bytes: [7; BLOCK_MAX], length: 240 });
        let part = encode(&axis);
        for at in (0..PART).filter(|at| *at != place(Field::State) && *at != place(Field::Length)) {
            let mut other = part;
            other[at] ^= 1;
            let meant = decode(&other).unwrap();
            assert!(meant != axis && encode(&meant) == other, "byte {at}");
        }
    }
}
