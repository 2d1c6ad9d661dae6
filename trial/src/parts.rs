//! Parts of the station's memory that no run of calls need have left: at their limits, over them, and with any response.

use crate::blocks::{any_values, misfilled};
use crate::meaning::{encode, place, put_slot, Field, PART};
use crate::random::Random;
use tools::layout::{Block, Values};
use twin::{Axis, Settings, State, Versions, Waiting, BLOCK_MAX, CODES, KEPT, SITUATIONS};

/// One in so many elements is just below its limits, and as many just above: of the settings, and of a version.
const ONE_OVER_OF: usize = 200;
const ONE_OVER_IN_VERSIONS_OF: usize = 5000;

/// The bytes of a part of this axis, mostly well-formed.
pub fn part(random: &mut Random, axis: u8) -> [u8; PART] {
    let mut planted = drive(random);
    planted.settings = settings(random, ONE_OVER_OF);
    planted.versions = versions(random);
    if random.percent(65) {
        planted.waiting = Some(waiting(random, axis));
    }
    let mut part = encode(&planted);
    // A slot that holds no version may hold other settings than fresh ones.
    for slot in (planted.versions.kept.len()..KEPT).filter(|slot| slot % 2 == 0) {
        put_slot(&mut part, slot, &settings(random, ONE_OVER_IN_VERSIONS_OF));
    }
    match random.below(40) {
        0 => part[place(Field::State)] = random.pick(&[0, 5, 6, 50, 53, 255]),
        1 => part[place(Field::Length)] = random.pick(&[0, 1, 3, 4, 239, 240, 241, 255]),
        2 => part[random.below(4)] = random.byte(),
        3 => part[place(Field::P965) + random.below(2)] = random.pick(&[3, 4, 40, 41, 42]),
        _ => {}
    }
    part
}

/// Everything the cycle leaves, as it might be after a long run.
fn drive(random: &mut Random) -> Axis {
    Axis {
        state: random.pick(&State::ALL),
        last_word: random.word(),
        last_setpoint: random.word() as i16,
        effective: random.word() as i16,
        status: random.word(),
        actual: random.word() as i16,
        fault_counter: random.pick(&[0, 65534, 65535, 65535]),
        situations: situations(random),
        ..Axis::fresh()
    }
}

fn situations(random: &mut Random) -> [[u16; CODES]; SITUATIONS] {
    let mut situations = [[0; CODES]; SITUATIONS];
    for situation in &mut situations {
        let standing = random.pick(&[0, 0, 1, 2, 7, 8]);
        for (i, code) in situation.iter_mut().enumerate().take(standing) {
            *code = 10 * (i as u16 + 1) + random.below(9) as u16 + 1;
        }
        if random.one_in(40) {
            situation[random.below(CODES)] = random.pick(&[0, situation[0], 9]);
        }
    }
    situations
}

/// Settings at and inside their limits, and seldom over them: one element in so many on each side.
fn settings(random: &mut Random, one_over_of: usize) -> Settings {
    let mut element = |low, high| match random.below(one_over_of) {
        0 => low - 1,
        1 => high + 1,
        other if other % 5 == 0 => low,
        other if other % 5 == 1 => high,
        _ => random.within(low, high),
    };
    Settings {
        p10111: element(1, 60000) as u16,
        p30001: std::array::from_fn(|_| element(0, 3000) as u16),
        p30002: element(0, 16384) as u16,
        p30003: element(0, 32767) as u16,
        p30004: std::array::from_fn(|_| element(-100_000, 100_000)),
        p9900: random.word(),
        p9901: std::array::from_fn(|_| random.word()),
    }
}

/// Versions up to any number: none, around a first and a second round of the slots, and near the last number there is.
fn versions(random: &mut Random) -> Versions {
    let any = random.word();
    let near_the_end = 65535 - random.below(4) as u16;
    let last = random.pick(&[0, 1, 2, 14, 15, 15, 16, 16, 17, 31, 32, any, any, near_the_end, near_the_end, 65534]);
    let kept = last.min(KEPT as u16);
    let kept_settings = (0..kept).map(|_| settings(random, ONE_OVER_IN_VERSIONS_OF));
    Versions { dropped: last - kept, kept: kept_settings.collect() }
}

/// Blocks that no response has: format, bytes of a value, values.
const ODD: [(u8, usize, usize); 16] = [
    (0x40, 0, 1),
    (0x40, 1, 1),
    (0x41, 1, 0),
    (0x42, 2, 0),
    (0x43, 4, 0),
    (0x44, 2, 0),
    (0x44, 2, 2),
    (0x44, 1, 1),
    (0x45, 0, 1),
    (0x45, 2, 1),
    (2, 1, 1),
    (5, 1, 1),
    (3, 2, 1),
    (6, 2, 1),
    (4, 4, 1),
    (7, 4, 1),
];

/// A response whose blocks fit: one of them is none that a response has, or none is an error where one must be.
fn odd(random: &mut Random, axis: u8) -> Block {
    let mut block = response(random, axis);
    let any = (random.byte(), random.pick(&[0, 1, 2, 4]), random.below(4));
    let (format, size, count) = if random.one_in(4) { any } else { random.pick(&ODD) };
    let item = any_values(random, format, size, count);
    match random.below(4) {
        0 => block.values.iter_mut().for_each(|values| *values = Values::zero()),
        1 => block.values = vec![item],
        _ => {
            block.values.truncate(block.values.len().max(2) - 1);
            block.values.push(item);
        }
    }
    if random.one_in(8) {
        block.identifier = random.pick(&[0x01, 0x81, 0x82, any.0]);
    }
    Block { count: block.values.len() as u8, ..block }
}

/// A response that waits: readable and of this axis but for now and then.
fn waiting(random: &mut Random, axis: u8) -> Waiting {
    let odd_one = random.one_in(4);
    let block = if odd_one { odd(random, axis) } else { response(random, axis) };
    let mut block = if random.one_in(4) { misfilled(random, &block) } else { block.bytes() };
    if random.one_in(if odd_one { 50 } else { 4 }) {
        damage(random, &mut block);
    }
    if random.one_in(10) {
        block[3] = random.pick(&[0, 39, 40]);
    }
    block.truncate(BLOCK_MAX);
    let length = if random.one_in(20) { random.below(256) } else { block.len() };
    let mut bytes = [0; BLOCK_MAX];
    bytes[..block.len()].copy_from_slice(&block);
    if random.one_in(30) {
        bytes[random.below(BLOCK_MAX)] ^= 1 << random.below(8);
    }
    Waiting { bytes, length }
}

/// Every layout of a response block that documents 01 and 02 have, of any length that fits.
pub fn response(random: &mut Random, axis: u8) -> Block {
    let identifier = random.pick(&[0x01, 0x01, 0x02, 0x81, 0x81, 0x82]);
    let wish = random.pick(&[1, 1, 2, 5, 20, 38, 39]);
    let mut block = Block { reference: 0, identifier, axis, count: 0, addresses: Vec::new(), values: Vec::new() };
    while block.count < wish {
        let fails = identifier > 0x80 && (block.count == 0 || random.one_in(3));
        let item = item(random, identifier, fails);
        if block.length() + item.as_ref().map_or(0, Values::length) > BLOCK_MAX {
            break;
        }
        block.values.extend(item);
        block.count += 1;
    }
    Block { reference: 1 + random.below(255) as u8, ..block }
}

fn item(random: &mut Random, identifier: u8, fails: bool) -> Option<Values> {
    match identifier {
        0x02 => None,
        _ if fails => Some(Values::error(u16::from_be_bytes([random.pick(&[0, 0, 255]), random.byte()]))),
        0x82 => Some(Values::zero()),
        _ => {
            let (format, size) = random.pick(&[(0x41, 1), (0x42, 2), (0x43, 4)]);
            let values = if random.one_in(200) { 0 } else { random.pick(&[1, 1, 2, 3, 8, 33]) };
            Some(any_values(random, format, size, values))
        }
    }
}

fn damage(random: &mut Random, block: &mut Vec<u8>) {
    let place = random.below(block.len());
    match random.below(8) {
        0 => block[place] = random.byte(),
        1 => block[random.below(4)] = random.pick(&[0, 1, 2, 3, 39, 40, 0x81, 0x82, 0x83]),
        2 => block.truncate(place.max(4)),
        3 => block.push(random.pick(&[0, 0x40])),
        4 => block[1] ^= random.pick(&[0x80, 3]),
        5 => block[3] = block[3].wrapping_add(random.pick(&[1, 255])),
        6 => block[2] = random.byte(),
        _ => {
            let at = block.len().saturating_sub(4).max(4).min(block.len());
            block.truncate(at);
            block.extend(random.pick(&[
                [0x44, 1, 0, 2],
                [0x44, 2, 0, 2],
                [0x40, 0, 0x40, 0],
                [0x40, 1, 0, 0],
                [0x41, 0, 0x42, 0],
            ]));
        }
    }
}
