//! The station's memory: 16 axes, what a fresh one holds and when a part is well-formed.

use crate::block::parse_response;
use crate::versions::Versions;

/// Axes (and farms) of a station.
pub const AXES: usize = 16;
/// Fault situations that are remembered.
pub const SITUATIONS: usize = 4;
/// Fault codes of one situation.
pub const CODES: usize = 8;
/// Largest request or response block.
pub const BLOCK_MAX: usize = 240;

/// PNU 930 of every axis.
pub const FIXED_930: u16 = 1;
/// PNU 965 of every axis.
pub const FIXED_965: [u8; 2] = [3, 41];

/// The six states of an axis.
#[derive(Clone, Copy, Debug, PartialEq, Eq, Hash)]
pub enum State {
    /// Switching on inhibited.
    S1,
    /// Ready.
    S2,
    /// Switched on.
    S3,
    /// Operation.
    S4,
    /// Ramp stop.
    S51,
    /// Quick stop.
    S52,
}

impl State {
    /// All six, in the paper's order.
    pub const ALL: [State; 6] = [State::S1, State::S2, State::S3, State::S4, State::S51, State::S52];

    /// The number of the state in a cycle's answer.
    pub fn code(self) -> u8 {
        match self {
            State::S1 => 1,
            State::S2 => 2,
            State::S3 => 3,
            State::S4 => 4,
            State::S51 => 51,
            State::S52 => 52,
        }
    }

    /// The state with this number, if there is one.
    pub fn from_code(code: u8) -> Option<State> {
        State::ALL.into_iter().find(|state| state.code() == code)
    }
}

/// A response block that waits to be fetched; the bytes past `length` are 0 in a well-formed part.
#[derive(Clone, Debug, PartialEq, Eq)]
pub struct Waiting {
    /// The block and the unused rest of its memory.
    pub bytes: [u8; BLOCK_MAX],
    /// Bytes of the block.
    pub length: usize,
}

impl Waiting {
    /// The block itself, unless the length passes the memory.
    pub fn block(&self) -> Option<&[u8]> {
        self.bytes.get(..self.length)
    }
}

/// The settings of a farm: the elements that can be written.
#[derive(Clone, Debug, PartialEq, Eq)]
pub struct Settings {
    /// PNU 9900.
    pub p9900: u16,
    /// PNU 9901.
    pub p9901: [u16; 8],
    /// PNU 10111, revolutions per minute at 100 %.
    pub p10111: u16,
    /// PNU 30001, level marks in mm.
    pub p30001: [u16; 4],
    /// PNU 30002, largest distance that still counts as "setpoint reached".
    pub p30002: u16,
    /// PNU 30003, the speed that sets bit 10.
    pub p30003: u16,
    /// PNU 30004, site offsets.
    pub p30004: [i32; 2],
}

impl Settings {
    /// How many elements they are.
    pub const ELEMENTS: u16 = 18;

    /// The settings of a fresh station.
    pub fn fresh() -> Settings {
        Settings { p9900: 0, p9901: [0; 8], p10111: 1500, p30001: [0; 4], p30002: 164, p30003: 16384, p30004: [0; 2] }
    }

    /// Whether every element is inside its limits; PNU 9900 and 9901 may hold all of their type.
    pub fn inside_limits(&self) -> bool {
        (1..=60000).contains(&self.p10111)
            && self.p30001.iter().all(|mark| *mark <= 3000)
            && self.p30002 <= 16384
            && self.p30003 <= 32767
            && self.p30004.iter().all(|offset| (-100_000..=100_000).contains(offset))
    }
}

/// One axis's part of the station.
#[derive(Clone, Debug, PartialEq, Eq)]
pub struct Axis {
    /// State of the drive.
    pub state: State,
    /// Last accepted STW1 (PNU 10100).
    pub last_word: u16,
    /// Last accepted setpoint (PNU 10101).
    pub last_setpoint: i16,
    /// Effective setpoint of the last accepted cycle.
    pub effective: i16,
    /// ZSW1 (PNU 10102).
    pub status: u16,
    /// NIST_A (PNU 10103).
    pub actual: i16,
    /// Fault counter (PNU 944).
    pub fault_counter: u16,
    /// Fault situations (PNU 947), situation 0 is the present one.
    pub situations: [[u16; CODES]; SITUATIONS],
    /// PNU 930.
    pub p930: u16,
    /// PNU 965.
    pub p965: [u8; 2],
    /// What the farm has set.
    pub settings: Settings,
    /// What it had set before.
    pub versions: Versions,
    /// The response that waits, if any.
    pub waiting: Option<Waiting>,
}

impl Axis {
    /// An axis as a fresh station holds it.
    pub fn fresh() -> Axis {
        Axis {
            state: State::S1,
            last_word: 0,
            last_setpoint: 0,
            effective: 0,
            status: 0x0340,
            actual: 0,
            fault_counter: 0,
            situations: [[0; CODES]; SITUATIONS],
            p930: FIXED_930,
            p965: FIXED_965,
            settings: Settings::fresh(),
            versions: Versions::none(),
            waiting: None,
        }
    }

    /// Whether a fault stands, that is, situation 0 is not empty.
    pub fn faulted(&self) -> bool {
        self.situations[0][0] != 0
    }
}

/// The whole station; axis k is `axes[k - 1]`.
#[derive(Clone, Debug, PartialEq, Eq)]
pub struct Station {
    /// The parts of axes 1 to 16.
    pub axes: [Axis; AXES],
}

impl Station {
    /// A fresh station.
    pub fn fresh() -> Station {
        Station { axes: std::array::from_fn(|_| Axis::fresh()) }
    }

    /// The index of a farm's or an axis's part: number 1 where it is none of 1 to 16, 2 where its part is not well-formed.
    pub(crate) fn own(&self, number: u32) -> Result<usize, u8> {
        let index = (number as usize).checked_sub(1).filter(|index| *index < AXES).ok_or(1)?;
        well_formed(&self.axes[index], number as u8).then_some(index).ok_or(2)
    }
}

/// Whether the part of this axis is well-formed, as far as these types leave it open.
pub fn well_formed(part: &Axis, axis: u8) -> bool {
    fixed_well_formed(part)
        && part.settings.inside_limits()
        && part.versions.kept.iter().all(Settings::inside_limits)
        && part.situations.iter().all(situation_well_formed)
        && part.waiting.as_ref().is_none_or(|waiting| waiting_well_formed(waiting, axis))
}

fn fixed_well_formed(part: &Axis) -> bool {
    part.p930 == FIXED_930 && part.p965 == FIXED_965
}

/// No code stands after a 0 or twice.
fn situation_well_formed(codes: &[u16; CODES]) -> bool {
    let used = codes.iter().position(|code| *code == 0).unwrap_or(CODES);
    let (used, unused) = codes.split_at(used);
    unused.iter().all(|code| *code == 0) && used.iter().enumerate().all(|(i, code)| !used[..i].contains(code))
}

/// A readable block of that axis, and zeros after it.
fn waiting_well_formed(waiting: &Waiting, axis: u8) -> bool {
    let Some(block) = waiting.block() else { return false };
    let unused = &waiting.bytes[waiting.length..];
    unused.iter().all(|byte| *byte == 0) && parse_response(block).is_some_and(|response| response.axis == axis)
}
