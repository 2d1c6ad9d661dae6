//! Inputs of control cycles, chosen by the part they meet so that every state, fault and limit is soon reached.

use crate::random::Random;
use tools::journal::Inputs;
use twin::{Axis, State, CODES};

const SPEEDS: [i16; 13] = [0, 1, -1, 164, -165, 8192, 16383, 16384, -16383, -16384, 32767, -32767, -32768];

/// The inputs of one cycle of this part.
pub fn inputs(random: &mut Random, part: &Axis) -> Inputs {
    let nsoll = if random.one_in(2) { random.pick(&SPEEDS) } else { random.word() as i16 };
    Inputs {
        flags: flags(random, part.state),
        stw1: control_word(random, part),
        nsoll,
        nist: actual_speed(random, part, nsoll),
        fault: fault_code(random, part),
    }
}

fn flags(random: &mut Random, state: State) -> u32 {
    if random.one_in(60) {
        return random.pick(&[4, 5, 7, 128, 255, 256, 259, 0x0001_0000, 0x8000_0001, u32::MAX]);
    }
    let stopping = matches!(state, State::S51 | State::S52);
    let standstill = random.one_in(if stopping { 8 } else { 2 });
    u32::from(standstill) + 2 * u32::from(random.one_in(2))
}

/// Mostly the word of a next step, so that S4, S51 and S52 are common; bit 10 at 0 now and then.
fn control_word(random: &mut Random, part: &Axis) -> u16 {
    let any = random.word();
    if random.one_in(12) {
        return any & !0x0400;
    }
    let low = if random.one_in(16) { any & 0x000F } else { random.pick(next_bits(part.state)) };
    let middle = match random.below(10) {
        0..=5 => 0x0070,
        6..=7 => 0x0050,
        _ => any & 0x0070,
    };
    let acknowledge = if seventh_bit(random, part) { 0x0080 } else { 0 };
    any & 0xFB00 | 0x0400 | acknowledge | middle | low
}

/// Bits 3 to 0 that are worth trying from a state.
fn next_bits(state: State) -> &'static [u16] {
    match state {
        State::S1 => &[0b1110, 0b1110, 0b1110, 0b0110, 0b0110, 0b0110, 0b1111, 0b1010],
        State::S2 => &[0b1111, 0b1111, 0b1111, 0b0111, 0b0111, 0b0111, 0b1110, 0b1101, 0b1011],
        State::S3 => &[0b1111, 0b1111, 0b1111, 0b1111, 0b1111, 0b0111, 0b1110, 0b1101, 0b1011],
        State::S4 => &[0b1111, 0b1111, 0b1111, 0b1111, 0b1110, 0b1110, 0b1110, 0b1011, 0b1010, 0b0111, 0b1101],
        State::S51 => &[0b1110, 0b1110, 0b1110, 0b1110, 0b1111, 0b1111, 0b1011, 0b1010, 0b0110, 0b0111, 0b1100],
        State::S52 => &[0b1111, 0b1111, 0b1111, 0b1110, 0b1110, 0b1011, 0b1010, 0b0111, 0b1101],
    }
}

fn codes_standing(part: &Axis) -> usize {
    part.situations[0].iter().filter(|code| **code != 0).count()
}

/// A fault is now acknowledged, now left to gather codes; bit 7 is often held.
fn seventh_bit(random: &mut Random, part: &Axis) -> bool {
    if part.last_word & 0x0080 != 0 {
        return random.percent(40);
    }
    match codes_standing(part) {
        0 => random.percent(25),
        1 => random.percent(60),
        CODES => random.percent(50),
        _ => random.percent(12),
    }
}

/// Few codes while there is no fault, many once two stand, so that a ninth is met.
fn fault_code(random: &mut Random, part: &Axis) -> u16 {
    let often = match codes_standing(part) {
        0 => 2,
        1 => 12,
        CODES => 30,
        _ => 70,
    };
    if !random.percent(often) {
        return 0;
    }
    match random.below(10) {
        0 => random.word(),
        1 => 0xFFFF,
        2 => random.pick(&part.situations[0]),
        _ => 1 + random.below(12) as u16,
    }
}

/// Often at the edge of a distance or of a size that a status bit speaks of.
fn actual_speed(random: &mut Random, part: &Axis, nsoll: i16) -> i16 {
    let edge = random.within(-1, 1);
    let sign = random.pick(&[-1, 1]);
    let speed = match random.below(8) {
        0..=3 => {
            let middle = random.pick(&[nsoll, nsoll, part.effective, part.last_setpoint, 0]);
            i32::from(middle) + sign * (i32::from(part.settings.p30002) + edge)
        }
        4 | 5 => sign * (i32::from(part.settings.p30003) + edge),
        6 => i32::from(random.pick(&SPEEDS)),
        _ => i32::from(random.word() as i16),
    };
    speed.clamp(i16::MIN.into(), i16::MAX.into()) as i16
}
