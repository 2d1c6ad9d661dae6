//! The library and its twin, called alike, and every difference between them.

use crate::checks::Check;
use crate::meaning::{decode, encode, slot, PART, STATION};
use crate::turns::{in_turn, read_settings, values_of};
use std::fmt::{self, Display, Formatter};
use std::ops::Range;
use tools::face;
use tools::journal::Inputs;
use tools::sending::Sending;
use twin::{Axis, Cycled, Framed, Listed, Returned, Station, AXES, KEPT};

/// Bytes before and after the lent station, and after the lent reply, that no call may touch: at least a part, as which they
/// are lent where the memory is too long.
pub const GUARD: usize = 1024;
const GUARD_BYTE: u8 = 0xA5;
/// Most reply memory that is lent.
pub const REPLY_MAX: usize = 600;

/// One call of the library.
#[derive(Clone)]
pub enum Call {
    /// A fresh station.
    Fresh,
    /// A cycle of this axis.
    Cycle(u32, Inputs),
    /// A frame of this farm, how it is sent, and how much reply memory it is lent.
    Frame(u32, Sending, Vec<u8>, usize),
    /// A list of this farm's versions.
    List(u32),
    /// A going back of this farm to this version.
    GoBack(u32, u32),
    /// A check, which is lent no station.
    Check(Check),
}

impl Call {
    /// The farm or axis, where the call has one.
    pub fn caller(&mut self) -> Option<&mut u32> {
        match self {
            Call::Cycle(number, _) | Call::Frame(number, ..) | Call::List(number) | Call::GoBack(number, _) => {
                Some(number)
            }
            Call::Fresh | Call::Check(_) => None,
        }
    }

    /// The index of the owner's part, if the call has one.
    pub fn owner(&self) -> Option<usize> {
        let (Call::Cycle(number, _) | Call::Frame(number, ..) | Call::List(number) | Call::GoBack(number, _)) = self
        else {
            return None;
        };
        (1..=AXES).find(|owner| *owner as u32 == *number).map(|owner| owner - 1)
    }

    /// The answer, where it is known before the call.
    fn known(&self) -> Option<Answer> {
        let Call::Check(check) = self else { return None };
        check.known().map(Answer::Check)
    }
}

impl Display for Call {
    fn fmt(&self, f: &mut Formatter) -> fmt::Result {
        match self {
            Call::Fresh => write!(f, "fresh"),
            Call::Cycle(axis, i) => write!(
                f,
                "cycle axis {axis:X} flags {:X} STW1 {:04X} NSOLL_A {:04X} NIST_A {:04X} fault {:04X}",
                i.flags, i.stw1, i.nsoll, i.nist, i.fault
            ),
            Call::Frame(farm, sending, frame, reply) => {
                write!(f, "{sending} farm {farm:X} reply memory {reply} frame {}", hex(frame))
            }
            Call::List(farm) => write!(f, "list farm {farm:X}"),
            Call::GoBack(farm, version) => write!(f, "going back farm {farm:X} version {version:X}"),
            Call::Check(check) => write!(f, "{check}"),
        }
    }
}

/// What a call answers.
#[derive(Clone, Copy, Debug, PartialEq, Eq)]
pub enum Answer {
    /// 0 or a refusal number.
    Fresh(u8),
    /// A cycle's answer.
    Cycle(Cycled),
    /// The answer of a frame, however it was sent.
    Frame(Framed),
    /// The versions that are kept.
    List(Listed),
    /// The answer of a going back.
    GoBack(Returned),
    /// 0 or the first check that failed.
    Check(u8),
}

impl Answer {
    fn framed(face::Framed { length, stored, number }: face::Framed) -> Answer {
        Answer::Frame(Framed { length, stored, number })
    }

    fn listed(face::Listed { oldest, kept, number }: face::Listed) -> Answer {
        Answer::List(Listed { oldest, kept, number })
    }

    fn returned(face::Returned { stored, version, number }: face::Returned) -> Answer {
        Answer::GoBack(Returned { stored, version, number })
    }

    /// 0, or the refusal number or that of a check.
    pub fn number(&self) -> u8 {
        match self {
            Answer::Fresh(number) | Answer::Check(number) => *number,
            Answer::Cycle(cycled) => cycled.number,
            Answer::Frame(framed) => framed.number,
            Answer::List(listed) => listed.number,
            Answer::GoBack(returned) => returned.number,
        }
    }
}

/// Two that should be the same, in words.
#[derive(Debug)]
pub struct Difference {
    /// What differs.
    pub what: String,
    /// Ours, in hex or as an answer.
    pub ours: String,
    /// What it should be: the twin's, what was before, or what other calls of the library leave.
    pub wanted: String,
}

fn differ(what: impl Into<String>, ours: impl Into<String>, wanted: impl Into<String>) -> Difference {
    Difference { what: what.into(), ours: ours.into(), wanted: wanted.into() }
}

/// Both stations.
pub struct Pair {
    memory: Vec<u8>,
    before: Vec<u8>,
    twin: Station,
    ours_reply: Vec<u8>,
    twin_reply: Vec<u8>,
}

impl Pair {
    /// Both fresh; our memory held something else before.
    pub fn fresh() -> Result<Pair, Difference> {
        if face::size() != STATION {
            return Err(differ("bytes of a station", face::size().to_string(), STATION.to_string()));
        }
        let memory = vec![GUARD_BYTE; STATION + 2 * GUARD];
        let reply = vec![0; REPLY_MAX + GUARD];
        let mut pair = Pair {
            before: memory.clone(),
            memory,
            twin: Station::fresh(),
            ours_reply: reply.clone(),
            twin_reply: reply,
        };
        pair.call(&Call::Fresh, STATION, 0).map(|_| pair)
    }

    /// The twin's part of this index.
    pub fn axis(&self, index: usize) -> &Axis {
        &self.twin.axes[index]
    }

    /// Our part of this index.
    pub fn part(&self, index: usize) -> &[u8; PART] {
        part_of(&self.memory, index)
    }

    /// Our part before the last call, where that came to a difference; else as it is.
    pub fn part_before(&self, index: usize) -> &[u8; PART] {
        part_of(&self.before, index)
    }

    /// Our reply memory after the last frame, and bytes past what was lent of it.
    pub fn reply(&self) -> &[u8] {
        &self.ours_reply
    }

    /// Puts these bytes in the place of our part, and what they mean, if anything, in that of the twin's.
    pub fn put(&mut self, index: usize, part: &[u8; PART]) {
        let start = GUARD + index * PART;
        self.memory[start..start + PART].copy_from_slice(part);
        self.before[start..start + PART].copy_from_slice(part);
        if let Ok(axis) = decode(part) {
            self.twin.axes[index] = axis;
        }
    }

    /// Makes the call of both, our station being lent as so many bytes, and compares answer, reply and memory.
    pub fn call(&mut self, call: &Call, bytes: usize, pattern: u8) -> Result<Answer, Difference> {
        let answer = self.compared(call, bytes, pattern)?;
        self.keep(call, answer.number());
        Ok(answer)
    }

    /// Makes the call in the same way, and compares a merged one also with the library's own frames in turn, made before
    /// on a copy of our memory.
    pub fn call_and_in_turn(&mut self, call: &Call, bytes: usize, pattern: u8) -> Result<Answer, Difference> {
        let Call::Frame(farm, Sending::Merged, frame, lent) = call else { return self.call(call, bytes, pattern) };
        let (mut memory, mut reply) = (self.memory.clone(), vec![pattern; self.ours_reply.len()]);
        let framed = in_turn(&mut memory[GUARD..GUARD + bytes], *farm, frame, &mut reply[..*lent]);
        let answer = self.compared(call, bytes, pattern)?;
        same_answer("answer, and that of the two calls in turn", &answer, &Answer::framed(framed))?;
        same_bytes("reply memory, and that of the two calls in turn", &self.ours_reply, &reply)?;
        same_bytes("memory, and that after the two calls in turn", &self.memory, &memory)?;
        self.keep(call, answer.number());
        Ok(answer)
    }

    /// Makes the call in the same way, and after a going back that was done reads all settings by the library's own calls, on a
    /// copy of our memory: they are those that stood in that version before.
    pub fn call_and_read(&mut self, call: &Call, bytes: usize, pattern: u8) -> Result<Answer, Difference> {
        let answer = self.compared(call, bytes, pattern)?;
        if let (Call::GoBack(farm, version), Some(owner), 0) = (call, call.owner(), answer.number()) {
            let wanted = slot(self.part_before(owner), (*version as usize - 1) % KEPT);
            let read = read_settings(&mut self.memory[GUARD..GUARD + bytes].to_vec(), *farm);
            same_bytes("settings that are read after it, and those of that version", &read, &values_of(&wanted))?;
        }
        self.keep(call, answer.number());
        Ok(answer)
    }

    /// Makes the call of both and compares; what was before it still stands, to be told beside a difference.
    fn compared(&mut self, call: &Call, bytes: usize, pattern: u8) -> Result<Answer, Difference> {
        let twin = self.call_twin(call, bytes, pattern);
        let ours = self.call_ours(call, bytes, pattern);
        same_answer("answer", &ours, &twin)?;
        if let Some(known) = call.known() {
            same_answer("answer, and what is known of it", &ours, &known)?;
        }
        same_bytes("reply memory", &self.ours_reply, &self.twin_reply)?;
        match call {
            Call::Fresh if ours.number() == 0 => self.compare_fresh()?,
            _ => self.compare_part(call.owner(), ours.number())?,
        }
        self.compare_rest(call, ours.number())?;
        Ok(ours)
    }

    fn call_ours(&mut self, call: &Call, bytes: usize, pattern: u8) -> Answer {
        let station = &mut self.memory[GUARD..GUARD + bytes];
        match call {
            Call::Fresh => Answer::Fresh(face::fresh(station)),
            Call::Cycle(axis, i) => {
                let face::Cycled { rpm, status, state, number } =
                    face::cycle(station, *axis, i.flags, i.stw1, i.nsoll, i.nist, i.fault);
                Answer::Cycle(Cycled { rpm, status, state, number })
            }
            Call::Frame(farm, sending, frame, reply) => {
                self.ours_reply.fill(pattern);
                Answer::framed(sending.ours(station, *farm, frame, &mut self.ours_reply[..*reply]))
            }
            Call::List(farm) => Answer::listed(face::versions(station, *farm)),
            Call::GoBack(farm, version) => Answer::returned(face::go_back(station, *farm, *version)),
            Call::Check(check) => Answer::Check(face::check(&check.request, &check.response)),
        }
    }

    /// The twin knows no bytes: where ours are too many or too few, or mean nothing, number 1 still comes first, then 2.
    fn call_twin(&mut self, call: &Call, bytes: usize, pattern: u8) -> Answer {
        let unmeant = call.owner().is_some_and(|owner| decode(self.part(owner)).is_err());
        let second = bytes != STATION || unmeant;
        match call {
            Call::Fresh if second => Answer::Fresh(2),
            Call::Fresh => {
                self.twin = Station::fresh();
                Answer::Fresh(0)
            }
            Call::Cycle(..) if second && call.owner().is_some() => {
                Answer::Cycle(Cycled { rpm: 0, status: 0, state: 0, number: 2 })
            }
            Call::Cycle(axis, i) => Answer::Cycle(self.twin.cycle(*axis, i.flags, i.stw1, i.nsoll, i.nist, i.fault)),
            Call::Frame(farm, sending, frame, reply) => {
                self.twin_reply.fill(pattern);
                if second && call.owner().is_some() {
                    return Answer::Frame(Framed { length: 0, stored: 0, number: 2 });
                }
                Answer::Frame(sending.twins(&mut self.twin, *farm, frame, &mut self.twin_reply[..*reply]))
            }
            Call::List(_) if second && call.owner().is_some() => Answer::List(Listed { oldest: 0, kept: 0, number: 2 }),
            Call::List(farm) => Answer::List(self.twin.versions(*farm)),
            Call::GoBack(..) if second && call.owner().is_some() => {
                Answer::GoBack(Returned { stored: 0, version: 0, number: 2 })
            }
            Call::GoBack(farm, version) => Answer::GoBack(self.twin.go_back(*farm, *version)),
            Call::Check(check) => Answer::Check(twin::check(&check.request, &check.response)),
        }
    }

    /// The owner's part by its meaning; after a refusal it is as it was.
    fn compare_part(&self, owner: Option<usize>, number: u8) -> Result<(), Difference> {
        let Some(owner) = owner else { return Ok(()) };
        if number != 0 {
            return same_bytes("the owner's part after a refusal", self.part(owner), self.part_before(owner));
        }
        self.compare_meaning(owner)?;
        self.compare_other_slots(owner)
    }

    /// Slots that hold no version are left, whatever they hold: to the twin they mean nothing.
    fn compare_other_slots(&self, owner: usize) -> Result<(), Difference> {
        let (ours, before) = (self.part(owner), self.part_before(owner));
        let mut others = self.twin.axes[owner].versions.kept.len()..KEPT;
        match others.find(|other| slot(ours, *other) != slot(before, *other)) {
            None => Ok(()),
            Some(other) => {
                let told = |part| format!("{:?}", slot(part, other));
                Err(differ(format!("slot {other}, which holds no version"), told(ours), told(before)))
            }
        }
    }

    /// A fresh station has one meaning and one form.
    fn compare_fresh(&self) -> Result<(), Difference> {
        let fresh = encode(&Axis::fresh());
        (0..AXES).try_for_each(|index| same_bytes(&format!("fresh part {}", index + 1), self.part(index), &fresh))
    }

    fn compare_meaning(&self, index: usize) -> Result<(), Difference> {
        let twin = &self.twin.axes[index];
        if decode(self.part(index)).as_ref() == Ok(twin) {
            return Ok(());
        }
        Err(differ(format!("part {}", index + 1), hex(self.part(index)), hex(&encode(twin))))
    }

    /// All parts by their meaning.
    pub fn compare_all(&self) -> Result<(), Difference> {
        (0..AXES).try_for_each(|index| self.compare_meaning(index))
    }

    /// All but what the call may change is as it was.
    fn compare_rest(&self, call: &Call, number: u8) -> Result<(), Difference> {
        let own = own(call, number);
        same_bytes("memory before the part", &self.memory[..own.start], &self.before[..own.start])?;
        same_bytes("memory after the part", &self.memory[own.end..], &self.before[own.end..])
    }

    /// What the call may have changed becomes what was, for the next.
    fn keep(&mut self, call: &Call, number: u8) {
        let own = own(call, number);
        self.before[own.clone()].copy_from_slice(&self.memory[own]);
    }
}

/// What of the memory is the call's to change.
fn own(call: &Call, number: u8) -> Range<usize> {
    match (call, call.owner()) {
        (Call::Fresh, _) if number == 0 => GUARD..GUARD + STATION,
        (Call::List(_), _) => 0..0,
        (_, Some(owner)) => GUARD + owner * PART..GUARD + (owner + 1) * PART,
        _ => 0..0,
    }
}

fn part_of(memory: &[u8], index: usize) -> &[u8; PART] {
    memory[GUARD + index * PART..].first_chunk().expect("16 parts and a guard")
}

fn same_answer(what: &str, ours: &Answer, wanted: &Answer) -> Result<(), Difference> {
    if ours == wanted {
        return Ok(());
    }
    Err(differ(what, format!("{ours:?}"), format!("{wanted:?}")))
}

fn same_bytes(what: &str, ours: &[u8], wanted: &[u8]) -> Result<(), Difference> {
    match ours.iter().zip(wanted).position(|(ours, wanted)| ours != wanted) {
        _ if ours == wanted => Ok(()),
        at => Err(differ(format!("{what}, byte {at:?}"), hex(ours), hex(wanted))),
    }
}

/// Bytes in hex.
pub fn hex(bytes: &[u8]) -> String {
    bytes.iter().map(|byte| format!("{byte:02X}")).collect()
}
