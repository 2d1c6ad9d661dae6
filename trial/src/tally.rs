//! What a run of calls has reached.

use crate::blocks::Kind;
use crate::checks::Checks;
use crate::counts::{named, names, place, unmet, Counts, Worked};
use crate::fills::Fills;
use crate::kept::Kept;
use crate::merged::Merged;
use std::fmt::{self, Display, Formatter};
use tools::journal::Inputs;
use tools::sending::Sending;
use twin::{Axis, State};

/// How the memory was lent to a call.
#[derive(Clone, Copy, Debug, PartialEq, Eq)]
pub enum Setting {
    /// As the calls before left it.
    Left,
    /// With one byte of the owner's part altered.
    Altered,
    /// With one byte of another part altered.
    AlteredElsewhere,
    /// With a made-up part for the owner.
    Planted,
    /// Of another size.
    Resized,
    /// Not at all, since a check takes none.
    Unlent,
}

const SETTINGS: [(Setting, &str); 6] = [
    (Setting::Left, "as left by the calls before"),
    (Setting::Altered, "a byte of the own part altered"),
    (Setting::AlteredElsewhere, "a byte of another part altered"),
    (Setting::Planted, "a made-up own part"),
    (Setting::Resized, "of another size"),
    (Setting::Unlent, "none at all"),
];
const KINDS: [(Kind, &str); 4] =
    [(Kind::Request, "request"), (Kind::Change, "change"), (Kind::Read, "read"), (Kind::Free, "any bytes")];
/// Refusal numbers with which a cycle and a frame can be answered, 0 for none.
const CYCLE_NUMBERS: [u8; 4] = [0, 1, 2, 12];
const FRAME_NUMBERS: [u8; 13] = [0, 1, 2, 3, 4, 5, 6, 7, 8, 9, 10, 11, 15];
/// Transitions of document 01's table.
const STEPS: [(State, &[State]); 6] = [
    (State::S1, &[State::S2]),
    (State::S2, &[State::S1, State::S3]),
    (State::S3, &[State::S1, State::S2, State::S4]),
    (State::S4, &[State::S1, State::S52, State::S51, State::S3]),
    (State::S51, &[State::S1, State::S52, State::S4, State::S2]),
    (State::S52, &[State::S1]),
];
/// What can happen in an accepted cycle beside its transition.
const EVENTS: [&str; 8] = [
    "acknowledge",
    "bit 7 held at a fault",
    "bit 7 rising beside a fault code",
    "fault in another state than S1",
    "ninth code dropped",
    "counter from 65535 to 0",
    "last word and setpoint used again",
    "effective setpoint held",
];

/// The counts of a run.
#[derive(Default)]
pub struct Tally {
    /// All calls.
    pub calls: u64,
    fresh: u64,
    cycles: u64,
    /// By kind, those sent alone and those of merged calls.
    alone: [u64; KINDS.len()],
    in_merged: [u64; KINDS.len()],
    settings: [u64; SETTINGS.len()],
    cycle_numbers: Counts,
    frame_numbers: Counts,
    states: [u64; 6],
    steps: [[u64; 6]; 6],
    events: [u64; EVENTS.len()],
    /// What frames sent alone came to.
    pub worked: Worked,
    /// What was met of fill bytes: in parts by all calls, else by frames sent alone.
    pub fills: Fills,
    /// What was met of merged calls.
    pub merged: Merged,
    /// What was met of old settings.
    pub kept: Kept,
    /// What was met of checks.
    pub checks: Checks,
}

impl Tally {
    /// A call in this setting.
    pub fn setting(&mut self, setting: Setting) {
        self.calls += 1;
        self.settings[place(setting, &SETTINGS)] += 1;
    }

    /// A fresh station was asked for.
    pub fn fresh(&mut self) {
        self.fresh += 1;
    }

    /// A cycle was answered with this number.
    pub fn cycle(&mut self, number: u8) {
        self.cycles += 1;
        self.cycle_numbers.add(number);
    }

    /// A cycle with these inputs was accepted.
    pub fn step(&mut self, before: &Axis, after: &Axis, inputs: &Inputs) {
        self.states[after.state as usize] += 1;
        self.steps[before.state as usize][after.state as usize] += 1;
        let present = |word: u16, bit: u32| word >> bit & 1 == 1;
        let (was, is) = (present(before.last_word, 7), present(after.last_word, 7));
        let same_faults = before.situations == after.situations;
        let hold = (after.last_word >> 4) & 7 == 0b101 && after.effective != 0;
        let events = [
            before.faulted() && !after.faulted(),
            before.faulted() && was && is && inputs.fault == 0,
            before.faulted() && !was && is && inputs.fault != 0,
            !before.faulted() && after.faulted() && before.state != State::S1,
            inputs.fault != 0 && same_faults && !after.situations[0].contains(&inputs.fault),
            before.fault_counter == 65535 && after.fault_counter == 0,
            !present(inputs.stw1, 10) && inputs.stw1 != before.last_word,
            after.state == State::S4 && hold,
        ];
        for (count, happened) in self.events.iter_mut().zip(events) {
            *count += u64::from(happened);
        }
    }

    /// A frame of this kind was sent.
    pub fn sent(&mut self, sending: Sending, kind: Kind) {
        let kinds = match sending {
            Sending::Alone => &mut self.alone,
            Sending::Merged => &mut self.in_merged,
        };
        kinds[place(kind, &KINDS)] += 1;
    }

    /// A frame sent alone was answered with this number.
    pub fn frame(&mut self, number: u8) {
        self.frame_numbers.add(number);
    }

    /// What no call has reached.
    pub fn missing(&self) -> Vec<String> {
        let mut missing = Vec::new();
        missing.extend(self.cycle_numbers.unmet(&CYCLE_NUMBERS).map(|number| format!("cycle with number {number}")));
        missing.extend(self.frame_numbers.unmet(&FRAME_NUMBERS).map(|number| format!("frame with number {number}")));
        missing.extend(self.worked.missing());
        for (from, tos) in STEPS {
            let never = |to: State| self.steps[from as usize][to as usize] == 0;
            missing.extend(tos.iter().filter(|to| never(**to)).map(|to| format!("{from:?} to {to:?}")));
            missing.extend(never(from).then(|| format!("{from:?} kept")));
        }
        missing.extend(unmet(&self.events, &EVENTS).map(String::from));
        missing.extend(unmet(&self.settings, &names(&SETTINGS)).map(|name| format!("memory {name}")));
        missing.extend(self.fills.missing());
        missing.extend(self.merged.missing());
        missing.extend(self.kept.missing());
        missing.extend(self.checks.missing());
        missing
    }
}

impl Display for Tally {
    fn fmt(&self, f: &mut Formatter) -> fmt::Result {
        let [alone, merged] = [self.alone, self.in_merged].map(|kinds| named(&kinds, &names(&KINDS)));
        let Tally { cycles, fresh, .. } = self;
        let checks = self.settings[place(Setting::Unlent, &SETTINGS)];
        let (lists, backs) = self.kept.calls();
        write!(f, "calls      cycle {cycles}, frame: {alone}, merged call: {merged}, list {lists}, ")?;
        writeln!(f, "going back {backs}, fresh {fresh}, check {checks}")?;
        writeln!(f, "memory     {}", named(&self.settings, &names(&SETTINGS)))?;
        writeln!(f, "cycles     by number (0 accepted): {}", self.cycle_numbers.list(&CYCLE_NUMBERS))?;
        writeln!(f, "frames     by number (0 accepted): {}", self.frame_numbers.list(&FRAME_NUMBERS))?;
        let reached = |times: &[u64; 6]| {
            let reached = State::ALL.iter().zip(times).filter(|(_, times)| **times > 0);
            reached.map(|(state, times)| format!("{state:?} {times}")).collect::<Vec<_>>().join(", ")
        };
        writeln!(f, "states     {}", reached(&self.states))?;
        for (from, row) in State::ALL.iter().zip(&self.steps) {
            writeln!(f, "           from {:3} to {}", format!("{from:?}"), reached(row))?;
        }
        writeln!(f, "events     {}", named(&self.events, &EVENTS))?;
        for (name, counts) in self.worked.lines() {
            writeln!(f, "{name:10} {counts}")?;
        }
        write!(f, "{}{}{}{}", self.fills, self.merged, self.kept, self.checks)
    }
}
