//! Frames: readable blocks of every kind, the reads that fetch the answers, and damage of every sort.

use crate::random::Random;
use tools::layout::{Block, Values, ADDRESS, BYTE_FORMATS, HEADER};
use tools::sending::{Sending, INDEX, READ, WRITE};
use twin::{Address, Parameter, Type, BLOCK_MAX};

/// What a frame was made to be; damage may have changed it since.
#[derive(Clone, Copy, Debug, PartialEq, Eq)]
pub enum Kind {
    /// A write of a request.
    Request,
    /// A write of a change.
    Change,
    /// A read.
    Read,
    /// Any bytes.
    Free,
}

/// The parameters, the writable ones last.
const KNOWN: [u16; 15] =
    [930, 944, 947, 965, 10100, 10101, 10102, 10103, 9900, 9901, 10111, 30001, 30002, 30003, 30004];
const WRITABLE: &[u16] = KNOWN.split_at(8).1;
/// The writable arrays whose limits leave values out.
const LIMITED: [u16; 2] = [30001, 30004];
/// No parameters: beside each known number, on both sides, and far off.
const UNKNOWN: [u16; 19] =
    [0, 1, 929, 931, 943, 945, 946, 948, 964, 966, 9899, 9902, 10099, 10104, 10110, 10112, 30000, 30005, 65535];
const FORMATS: [u8; 9] = [0x41, 2, 5, 0x42, 3, 6, 0x43, 4, 7];

/// A frame of the farm of this axis, which may have a response of this length waiting, and how it is sent.
pub fn frame(random: &mut Random, axis: u8, waiting: Option<usize>) -> (Sending, Kind, Vec<u8>) {
    // A response that waits refuses every merged call, and is to be fetched.
    let merged = random.one_in(if waiting.is_some() { 8 } else { 3 });
    let sending = if merged { Sending::Merged } else { Sending::Alone };
    if random.one_in(40) {
        return (sending, Kind::Free, free(random, frame_header));
    }
    let reads = random.percent(if waiting.is_some() && !merged { 80 } else { 8 });
    let (kind, mut frame) = match (reads, sending) {
        (false, _) => write(random, axis),
        (true, Sending::Alone) => (Kind::Read, read(random, waiting.unwrap_or(8))),
        (true, Sending::Merged) => (Kind::Read, any_read(random, axis, waiting.unwrap_or(8))),
    };
    if random.one_in(9) {
        damage(random, &mut frame);
    }
    (sending, kind, frame)
}

/// A read where none is taken: right, cut, of another slot or index, or a write but for its first byte.
fn any_read(random: &mut Random, axis: u8, waiting: usize) -> Vec<u8> {
    let mut frame = read(random, waiting);
    match random.below(8) {
        0 => frame[1] = 1 + random.below(255) as u8,
        1 => frame[2] = random.pick(&[0, 46, 48, 255]),
        2 => frame.truncate(1 + random.below(3)),
        3 => {
            frame = write(random, axis).1;
            frame[0] = READ;
        }
        _ => {}
    }
    frame
}

/// A read, mostly of enough bytes.
fn read(random: &mut Random, waiting: usize) -> Vec<u8> {
    let wanted = match random.below(12) {
        0..=5 => BLOCK_MAX as u8,
        6 | 7 => waiting as u8,
        8 => waiting.wrapping_sub(1) as u8,
        9 => random.pick(&[0, 3, 4, 239, 241, 242, 255]),
        10 => waiting.wrapping_add(1) as u8,
        _ => random.byte(),
    };
    vec![READ, 0, INDEX, wanted]
}

fn write(random: &mut Random, axis: u8) -> (Kind, Vec<u8>) {
    let axis = if random.one_in(30) { random.pick(&[0, 1, 2, 16, 17, axis ^ 1, axis + 16, 255]) } else { axis };
    let (kind, block) = block(random, axis);
    let bytes = if random.one_in(4) { misfilled(random, &block) } else { block.bytes() };
    (kind, framed(&bytes))
}

/// The bytes of a block in which a fill byte is not zero, missing, or one too many; a block without byte values as it is.
pub fn misfilled(random: &mut Random, block: &Block) -> Vec<u8> {
    let mut bytes = block.bytes();
    let byte_blocks = block.byte_blocks();
    if byte_blocks.is_empty() {
        return bytes;
    }
    let chosen = random.pick(&byte_blocks);
    let other = 1 + random.below(255) as u8;
    match random.below(3) {
        0 if chosen.is_filled() => bytes[chosen.end - 1] = random.pick(&[1, 0x42, 0x80, other]),
        1 if chosen.is_filled() => drop(bytes.remove(chosen.end - 1)),
        _ => bytes.insert(chosen.end, 0),
    }
    bytes
}

/// A request or a change of this axis, mostly readable.
pub fn block(random: &mut Random, axis: u8) -> (Kind, Block) {
    let (kind, mut block) =
        if random.one_in(2) { (Kind::Request, request(random, axis)) } else { (Kind::Change, change(random, axis)) };
    if random.one_in(200) {
        block.identifier = random.byte();
    }
    (kind, block)
}

/// The write frame of a request block, with its true length as far as a byte holds it.
pub fn framed(block: &[u8]) -> Vec<u8> {
    carried(WRITE, block)
}

/// The reply that brings a response block, with its length told in the same way.
pub fn replied(block: &[u8]) -> Vec<u8> {
    carried(READ, block)
}

fn carried(function: u8, block: &[u8]) -> Vec<u8> {
    [&[function, 0, INDEX, block.len() as u8], block].concat()
}

fn reference(random: &mut Random) -> u8 {
    if random.one_in(100) {
        return 0;
    }
    1 + random.below(255) as u8
}

/// How many parameters: often one, now and then as many as there may be, one more, or none.
fn parameters(random: &mut Random) -> usize {
    match random.below(10) {
        0..=3 => 1,
        4..=6 => 2 + random.below(5),
        7 | 8 => 7 + random.below(31),
        _ => random.pick(&[0, 37, 38, 39, 39, 40]),
    }
}

fn request(random: &mut Random, axis: u8) -> Block {
    let count = parameters(random);
    // Answers that are long, and those that have many fill bytes beside a long one.
    let often: &[u16] = random.pick(&[&[947, 947, 9901, 965], &[947, 965, 965, 965], &KNOWN, &KNOWN, &KNOWN]);
    let right = random.one_in(2);
    let mut block = empty(reference(random), 0x01, axis);
    for _ in 0..count {
        let known = if random.one_in(6) { &KNOWN } else { often };
        let pnu = pnu(random, known, right);
        block.addresses.push(address(random, pnu, right));
    }
    Block { count: count as u8, ..block }
}

fn empty(reference: u8, identifier: u8, axis: u8) -> Block {
    Block { reference, identifier, axis, count: 0, addresses: Vec::new(), values: Vec::new() }
}

/// A change of as many parameters as were wished for and fit; now and then filled up to the last bytes of a block.
fn change(random: &mut Random, axis: u8) -> Block {
    let wish = parameters(random);
    let right = random.one_in(2);
    let mut block = empty(0, 0x02, axis);
    for _ in 0..wish {
        let known = if right || random.percent(85) { WRITABLE } else { &KNOWN };
        let pnu = pnu(random, known, right);
        let address = address(random, pnu, right);
        let values = value_block(random, pnu, address.elements, right);
        if block.length() + ADDRESS + values.length() > BLOCK_MAX {
            break;
        }
        block.addresses.push(address);
        block.values.push(values);
    }
    if right && random.one_in(3) {
        put_outside(random, &mut block);
    }
    if random.one_in(8) {
        fill_up(random, &mut block);
    }
    Block { reference: reference(random), count: block.addresses.len() as u8, ..block }
}

/// One value of several in an address outside its limits, in a change that is right but for it.
fn put_outside(random: &mut Random, block: &mut Block) {
    let fits = |at: &usize| LIMITED.contains(&block.addresses[*at].pnu) && block.values[*at].values.len() > 1;
    let places: Vec<usize> = (0..block.addresses.len()).filter(fits).collect();
    if places.is_empty() {
        return;
    }
    let at = random.pick(&places);
    let (low, high) = limits(block.addresses[at].pnu);
    let values = &mut block.values[at].values;
    let place = random.below(values.len());
    values[place] = random.pick(&[low - 1, high + 1]) as u32;
}

/// One more address, whose values end near the last byte of a block. Where they are bytes, a fill byte may follow.
fn fill_up(random: &mut Random, block: &mut Block) {
    let end: usize = random.pick(&[238, 239, 239, 240, 240, 241]);
    let Some(room) = end.checked_sub(block.length() + ADDRESS + 2) else { return };
    block.addresses.push(address(random, 9901, false));
    let format = random.pick(&[0x42, 0x41, 2, 5]);
    let size = if BYTE_FORMATS.contains(&format) { 1 } else { 2 };
    block.values.push(any_values(random, format, size, room / size));
}

/// So many values, of any bytes.
pub fn any_values(random: &mut Random, format: u8, size: usize, count: usize) -> Values {
    let mut value = || (0..size).fold(0, |high, _| high << 8 | u32::from(random.byte()));
    Values { format, size, values: (0..count).map(|_| value()).collect() }
}

/// One of the known ones; where the block need not be right, seldom another.
fn pnu(random: &mut Random, known: &[u16], right: bool) -> u16 {
    match random.below(20) {
        _ if right => random.pick(known),
        0 => random.word(),
        1 => random.pick(&UNKNOWN),
        _ => random.pick(known),
    }
}

fn address(random: &mut Random, pnu: u16, right: bool) -> Address {
    let attribute = match random.below(40) {
        _ if right => 0x10,
        0 => 0x20,
        1 => 0x30,
        2 => random.pick(&[0x00, 0x01, 0x11, 0x12, 0x18, 0x90, 0xFF]),
        3 => random.byte(),
        _ => 0x10,
    };
    let (elements, sub_index) = match Parameter::find(pnu).and_then(Parameter::array_length) {
        None => one_element(random, right),
        Some(length) => elements_of(random, length, right),
    };
    Address { attribute, elements, pnu, sub_index }
}

/// Elements and sub-index for a simple parameter.
fn one_element(random: &mut Random, right: bool) -> (u8, u16) {
    match random.below(24) {
        4..=6 if right => (1, 0),
        0..=3 => (0, 0),
        4 => (2, 0),
        5 => (random.pick(&[0, 1]), random.pick(&[1, 2, 256, 0xFFFF])),
        6 => (random.byte(), random.word()),
        _ => (1, 0),
    }
}

/// Elements and sub-index for an array of this length: all, one, some, and around its end.
fn elements_of(random: &mut Random, length: usize, right: bool) -> (u8, u16) {
    let first = random.below(length);
    let left = length - first;
    let (elements, first) = match random.below(if right { 19 } else { 24 }) {
        0..=6 => (length, 0),
        7..=11 => (1, first),
        12..=16 => (1 + random.below(left), first),
        17 | 18 => (left, first),
        19 => (left + 1, first),
        20 => (0, random.pick(&[0, first, length, 0xFFFF])),
        21 => (1, random.pick(&[length, length + 1, 256, 0x0100 + first, 0xFFFF])),
        22 => (random.pick(&[255, 255, length, 2]), random.pick(&[0xFFFF, 0xFF01, 0x10000 - length, 0])),
        _ => (random.below(256), random.below(0x10000)),
    };
    (elements as u8, first as u16)
}

/// A value block for an address, mostly of a right format and as many values as elements.
fn value_block(random: &mut Random, pnu: u16, elements: u8, right: bool) -> Values {
    let parameter = Parameter::find(pnu);
    let kind = parameter.map_or(Type::U16, Parameter::kind);
    let any = random.byte();
    let format = match random.below(60) {
        _ if right => random.pick(&[kind.size_code(), kind.type_code()]),
        0 => random.pick(&[0, 1, 8, 9, 0x40, 0x44, 0x45, 0xFF, any]),
        1..=6 => random.pick(&FORMATS),
        7..=9 => random.pick(&BYTE_FORMATS),
        _ => random.pick(&[kind.size_code(), kind.type_code()]),
    };
    let wanted = usize::from(elements.max(1)).min(40);
    let count = match random.below(16) {
        0 if !right => random.pick(&[0, 1, 2, wanted + 1, wanted - 1, wanted + 3]),
        _ => wanted,
    };
    let size = twin::block::format_size(format).unwrap_or_else(|| random.pick(&[1, 2, 4]));
    let limits = limits(pnu);
    Values { format, size, values: (0..count).map(|_| value(random, limits, right) as u32).collect() }
}

/// The limits of a parameter; all words where it has none.
pub fn limits(pnu: u16) -> (i32, i32) {
    Parameter::find(pnu).and_then(Parameter::limits).unwrap_or((0, 65535))
}

/// A value at, inside or just outside the limits.
fn value(random: &mut Random, (low, high): (i32, i32), right: bool) -> i32 {
    match random.below(28) {
        4..=7 if right => random.within(low, high),
        0 | 1 => low,
        2 | 3 => high,
        4 => low - 1,
        5 => high + 1,
        6 => random.draw() as i32,
        7 => random.pick(&[0, -1, 0x7FFF, 0x8000, 0xFFFF, i32::MAX, i32::MIN, -high, high + 0x10000]),
        _ => random.within(low, high),
    }
}

/// Any bytes, often behind a header that leads somewhere, made for their number.
pub fn free(random: &mut Random, header: fn(&mut Random, usize) -> [u8; HEADER]) -> Vec<u8> {
    let length = match random.below(6) {
        0 => random.below(5),
        1 => 240 + random.below(12),
        2 => random.below(300),
        _ => 4 + random.below(40),
    };
    let mut bytes: Vec<u8> = (0..length).map(|_| random.byte()).collect();
    let head = header(random, length);
    let known = random.below(6).min(HEADER);
    for (byte, told) in bytes.iter_mut().zip(head).take(known) {
        *byte = told;
    }
    bytes
}

fn frame_header(random: &mut Random, length: usize) -> [u8; HEADER] {
    [random.pick(&[READ, WRITE, WRITE, 0x5D]), 0, INDEX, length.wrapping_sub(HEADER) as u8]
}

/// One or two of the things that go wrong with a frame.
fn damage(random: &mut Random, frame: &mut Vec<u8>) {
    for _ in 0..1 + random.below(2) {
        damage_bytes(random, frame);
    }
    if random.percent(60) && frame.len() >= HEADER {
        frame[3] = (frame.len() - HEADER) as u8;
    }
}

/// One of the things that go wrong with bytes, often near their front.
pub fn damage_bytes(random: &mut Random, bytes: &mut Vec<u8>) {
    let length = bytes.len();
    let place = random.below(length.max(1));
    let front = random.below(12);
    match random.below(10) {
        0 | 1 if length > 0 => bytes[place] ^= 1 << random.below(8),
        2 if length > 0 => bytes[place] = random.byte(),
        3 | 4 if front < length => {
            bytes[front] = random.pick(&[0, 1, 2, 3, 39, 40, 46, 47, 48, 0x5E, 0x5F, 0x81, 0x82, 0x90, 240, 241, 255])
        }
        5 => bytes.truncate(place),
        6 => bytes.truncate(length.saturating_sub(1 + random.below(3))),
        7 => bytes.extend((0..1 + random.below(8)).map(|_| 0)),
        8 => bytes.insert(place, random.byte()),
        9 if length > 0 => drop(bytes.remove(place)),
        _ if length > 3 => {
            bytes[3] = random.pick(&[bytes[3].wrapping_add(1), bytes[3].wrapping_sub(1), 0, 240, 241, 255])
        }
        _ => bytes.push(random.byte()),
    }
}

#[cfg(test)]
mod tests {
    use super::*;

    #[test]
    fn a_misfilled_block_is_unreadable() {
        let mut random = Random::new(3);
        let mut tried = 0;
        while tried < 500 {
            let block = change(&mut random, 1);
            let readable = Block::of_request(&block.bytes()).is_some();
            if readable && block.byte_blocks().is_empty() {
                assert_eq!(misfilled(&mut random, &block), block.bytes());
            } else if readable {
                tried += 1;
                let bytes = misfilled(&mut random, &block);
                assert_eq!(Block::of_request(&bytes), None, "{bytes:02X?}");
            }
        }
    }

    #[test]
    fn one_of_several_values_is_put_outside() {
        let address = |elements, pnu| Address { attribute: 0x10, elements, pnu, sub_index: 0 };
        let ones = |size, count| Values { format: 0x42, size, values: vec![1; count] };
        let addresses = vec![address(1, 30001), address(3, 30001), address(3, 9901), address(2, 30004)];
        let values = vec![ones(2, 1), ones(2, 3), ones(2, 3), ones(4, 2)];
        let right = Block { addresses, values, ..empty(7, 0x02, 1) };
        let mut random = Random::new(3);
        let mut met = Vec::new();
        for _ in 0..200 {
            let mut block = right.clone();
            put_outside(&mut random, &mut block);
            for (at, Values { values, .. }) in block.values.iter().enumerate() {
                let others = values.iter().enumerate().filter(|(_, value)| **value != 1);
                met.extend(others.map(|(place, value)| (at, place, *value as i32)));
            }
        }
        assert_eq!(met.len(), 200, "one of each block");
        met.sort_unstable();
        met.dedup();
        let marks = (0..3).flat_map(|place| [(1, place, -1), (1, place, 3001)]);
        let offsets = (0..2).flat_map(|place| [(3, place, -100_001), (3, place, 100_001)]);
        assert_eq!(met, marks.chain(offsets).collect::<Vec<_>>());
    }
}
