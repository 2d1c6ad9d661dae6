//! The control cycle of one axis.

use crate::axis::{Axis, State, Station, CODES, SITUATIONS};

/// The answer of a cycle; `number` is 0 for an accepted one, else the refusal, and the rest is 0.
#[derive(Clone, Copy, Debug, PartialEq, Eq)]
pub struct Cycled {
    /// Effective setpoint in revolutions per minute.
    pub rpm: i32,
    /// ZSW1.
    pub status: u16,
    /// 1, 2, 3, 4, 51 or 52.
    pub state: u8,
    /// Refusal number, 0 for none.
    pub number: u8,
}

impl Cycled {
    fn refused(number: u8) -> Cycled {
        Cycled { rpm: 0, status: 0, state: 0, number }
    }
}

/// An accepted cycle: its answer, and what it did.
#[derive(Clone, Copy, Debug, PartialEq, Eq)]
pub struct Ran {
    /// The answer.
    pub cycled: Cycled,
    /// The state before it.
    pub from: State,
    /// The state it ended in.
    pub to: State,
    /// Whether it acknowledged a fault situation, that is, step 2 happened.
    pub acknowledged: bool,
}

impl Station {
    /// Runs one control cycle of an axis.
    pub fn cycle(&mut self, axis: u32, flags: u32, stw1: u16, nsoll: i16, nist: i16, fault: u16) -> Cycled {
        self.run(axis, flags, stw1, nsoll, nist, fault).map_or_else(Cycled::refused, |ran| ran.cycled)
    }

    /// The same cycle, with what it did; else the number of its refusal.
    pub fn run(&mut self, axis: u32, flags: u32, stw1: u16, nsoll: i16, nist: i16, fault: u16) -> Result<Ran, u8> {
        let index = self.own(axis)?;
        if flags > 3 {
            return Err(12);
        }
        Ok(accepted(&mut self.axes[index], flags, stw1, nsoll, nist, fault))
    }
}

/// Steps 1 to 7.
fn accepted(part: &mut Axis, flags: u32, stw1: u16, nsoll: i16, nist: i16, fault: u16) -> Ran {
    let standstill = flags & 1 != 0;
    let warning = flags & 2 != 0;
    let (word, setpoint) = if bit(stw1, 10) { (stw1, nsoll) } else { (part.last_word, part.last_setpoint) };

    let from = part.state;
    let acknowledged = acknowledge(part, word, fault);
    record_fault(part, fault);
    part.state = if part.faulted() { State::S1 } else { next_state(part.state, word, standstill) };
    part.effective = effective_setpoint(part, word, setpoint);
    part.status = status_word(part, word, nist, warning);
    part.last_word = word;
    part.last_setpoint = setpoint;
    part.actual = nist;

    let rpm = rpm(part.effective, part.settings.p10111);
    let cycled = Cycled { rpm, status: part.status, state: part.state.code(), number: 0 };
    Ran { cycled, from, to: part.state, acknowledged }
}

fn bit(word: u16, number: u32) -> bool {
    (word >> number) & 1 == 1
}

/// Step 2; whether it happened.
fn acknowledge(part: &mut Axis, word: u16, fault: u16) -> bool {
    let rising = bit(word, 7) && !bit(part.last_word, 7);
    let happens = rising && fault == 0 && part.faulted();
    if happens {
        part.situations.copy_within(..SITUATIONS - 1, 1);
        part.situations[0] = [0; CODES];
        part.fault_counter = part.fault_counter.wrapping_add(1);
    }
    happens
}

/// Step 3.
fn record_fault(part: &mut Axis, fault: u16) {
    let codes = &mut part.situations[0];
    if fault == 0 || codes.contains(&fault) {
        return;
    }
    if let Some(free) = codes.iter_mut().find(|code| **code == 0) {
        *free = fault;
        part.fault_counter = part.fault_counter.wrapping_add(1);
    }
}

/// Step 4 without a fault.
fn next_state(state: State, word: u16, standstill: bool) -> State {
    let [b0, b1, b2, b3] = [0, 1, 2, 3].map(|number| bit(word, number));
    match state {
        State::S1 if !b0 && b1 && b2 => State::S2,

        State::S2 if !b1 || !b2 => State::S1,
        State::S2 if b0 => State::S3,

        State::S3 if !b1 || !b2 => State::S1,
        State::S3 if !b0 => State::S2,
        State::S3 if b3 => State::S4,

        State::S4 if !b1 => State::S1,
        State::S4 if !b2 => State::S52,
        State::S4 if !b0 => State::S51,
        State::S4 if !b3 => State::S3,

        State::S51 if !b1 => State::S1,
        State::S51 if !b2 => State::S52,
        State::S51 if b0 && b3 => State::S4,
        State::S51 if standstill || !b3 => State::S2,

        State::S52 if !b1 || standstill || !b3 => State::S1,

        same => same,
    }
}

/// Step 5; the part still holds the last effective setpoint and already the new state.
fn effective_setpoint(part: &Axis, word: u16, setpoint: i16) -> i16 {
    if part.state != State::S4 || !bit(word, 4) || !bit(word, 6) {
        0
    } else if !bit(word, 5) {
        part.effective
    } else {
        setpoint
    }
}

/// Step 6; the part already holds the new state and effective setpoint.
fn status_word(part: &Axis, word: u16, nist: i16, warning: bool) -> u16 {
    let distance = (i32::from(part.effective) - i32::from(nist)).abs();
    let near = distance <= i32::from(part.settings.p30002);
    let fast = i32::from(nist).abs() >= i32::from(part.settings.p30003);
    state_bits(part.state)
        | u16::from(part.faulted()) << 3
        | u16::from(bit(word, 1)) << 4
        | u16::from(bit(word, 2)) << 5
        | u16::from(warning) << 7
        | u16::from(near) << 8
        | 1 << 9
        | u16::from(fast) << 10
}

/// Bits 0, 1, 2 and 6.
fn state_bits(state: State) -> u16 {
    match state {
        State::S1 => 0b100_0000,
        State::S2 => 0b000_0001,
        State::S3 | State::S51 | State::S52 => 0b000_0011,
        State::S4 => 0b000_0111,
    }
}

/// From a normalised figure (16384 is 100 %) to revolutions per minute, cut toward zero.
pub fn rpm(effective: i16, reference: u16) -> i32 {
    i32::from(effective) * i32::from(reference) / 16384
}
