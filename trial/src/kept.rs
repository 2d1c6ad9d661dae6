//! Old settings: the versions that farms ask for, and what a run of calls has met of them.

use crate::counts::{named, place_among, unmet, Counts, PLACES};
use crate::meaning::{decode, encode, PART, VERSIONS};
use crate::random::Random;
use std::fmt::{self, Display, Formatter};
use tools::sending::{Sending, WRITE};
use twin::{well_formed, Axis, Framed, Listed, Returned, State, Versions, KEPT};

/// Refusal numbers with which a list and a going back can be answered, 0 for none.
const LIST_NUMBERS: [u8; 3] = [0, 1, 2];
const BACK_NUMBERS: [u8; 5] = [0, 1, 2, 14, 15];
/// How many a list tells of.
const LISTED: [&str; 3] = ["none", "some", "16"];
/// What a version that is not kept is.
const UNKEPT: [&str; 7] = [
    "any where none is",
    "0",
    "the last that was dropped",
    "the next to come",
    "over 65535, its low half kept",
    "over 65535, its low half not kept",
    "another",
];
/// What there is to meet in a going back that was done.
const BACK: [&str; 5] = [
    "the oldest of 16",
    "while a response waits",
    "in another state than S1",
    "settings as they are",
    "all settings read after it",
];
/// What takes a version.
const TAKEN_BY: [&str; 3] = ["frame", "merged call", "going back"];
/// What there is to meet in taking one.
const TAKEN: [&str; 5] =
    ["the first", "one dropped", "from the last slot to the first", "number 65535", "no setting became another"];
/// What there is to meet where the last number is 65535.
const USED_UP: [&str; 9] = [
    "frame with 15",
    "merged call with 15",
    "going back with 15",
    "going back with 14",
    "frame with 11",
    "read answered",
    "read answered by a merged call",
    "failing change answered",
    "failing change answered by a merged call",
];
/// Where what is outside its limits stands, in a part that is well-formed but for its versions.
const ILL_FORMED: [&str; 2] = ["in a version", "in a slot that holds none"];

/// A version to go back to: often one that is kept; beside these; and such as a silent conversion would make one of them.
pub fn version(random: &mut Random, versions: &Versions) -> u32 {
    let (oldest, last) = (u32::from(versions.dropped) + 1, u32::from(versions.last()));
    let kept = oldest + random.below(versions.kept.len().max(1)) as u32;
    match random.below(20) {
        0..=6 => kept,
        7..=9 => oldest,
        10 | 11 => last,
        12 => oldest - 1,
        13 => last + 1,
        14 => 0,
        15 => random.pick(&[65535, 65536, u32::MAX]),
        16 | 17 => kept + 65536 * random.pick(&[1, 2, 0x8000, 0xFFFF]),
        18 => random.word().into(),
        _ => random.draw() as u32,
    }
}

/// A going back that was made.
pub struct Made<'a> {
    /// The farm's part before and after, if there is such a farm.
    pub parts: Option<(&'a Axis, &'a Axis)>,
    /// The version that was asked for.
    pub version: u32,
    /// The answer.
    pub returned: Returned,
    /// Whether the settings were read after it by the library's own calls.
    pub read: bool,
}

/// The counts of a run.
#[derive(Default)]
pub struct Kept {
    lists: Counts,
    listed: [u64; LISTED.len()],
    backs: Counts,
    /// Goings back that were done, by the place of the version among those that were kept.
    places: [u64; PLACES.len()],
    back: [u64; BACK.len()],
    unkept: [u64; UNKEPT.len()],
    taken_by: [u64; TAKEN_BY.len()],
    taken: [u64; TAKEN.len()],
    used_up: [u64; USED_UP.len()],
    ill_formed: [u64; ILL_FORMED.len()],
}

impl Kept {
    /// Lists and goings back that were made.
    pub fn calls(&self) -> (u64, u64) {
        (self.lists.total(), self.backs.total())
    }

    /// A list was answered so.
    pub fn listed(&mut self, listed: &Listed) {
        self.lists.add(listed.number);
        if listed.number == 0 {
            self.listed[usize::from(listed.kept > 0) + usize::from(listed.kept == KEPT as u16)] += 1;
        }
    }

    /// A going back was made.
    pub fn returned(&mut self, made: &Made) {
        let number = made.returned.number;
        self.backs.add(number);
        let Some((before, after)) = made.parts else { return };
        match number {
            0 => self.went_back(made, before, after),
            14 => self.unkept[unkept(made.version, &before.versions)] += 1,
            _ => {}
        }
        if before.versions.last() == u16::MAX {
            met(&mut self.used_up[2..4], &[number == 15, number == 14]);
        }
    }

    fn went_back(&mut self, made: &Made, before: &Axis, after: &Axis) {
        let (count, at) =
            (before.versions.kept.len(), made.version as usize - 1 - usize::from(before.versions.dropped));
        self.places[place_among(at, count)] += 1;
        let back = [
            at == 0 && count == KEPT,
            before.waiting.is_some(),
            before.state != State::S1,
            before.settings == after.settings,
            made.read,
        ];
        met(&mut self.back, &back);
        self.took(2, before, after);
    }

    /// A frame was answered so, by the owner of a part that was and is so.
    pub fn framed(&mut self, sending: Sending, frame: &[u8], framed: &Framed, before: &Axis, after: &Axis) {
        let merged = sending == Sending::Merged;
        let Framed { number, stored, .. } = *framed;
        if stored > 0 {
            self.took(usize::from(merged), before, after);
        }
        if before.versions.last() < u16::MAX {
            return;
        }
        let asked = match frame {
            [WRITE, _, _, _, _, identifier, ..] if number == 0 => *identifier,
            _ => 0,
        };
        met(&mut self.used_up[..2], &[!merged && number == 15, merged && number == 15]);
        let answered = [asked == 1 && !merged, asked == 1 && merged, asked == 2 && !merged, asked == 2 && merged];
        met(&mut self.used_up[4..], &[&[number == 11], &answered[..]].concat());
    }

    /// A call of this sort took a version.
    fn took(&mut self, by: usize, before: &Axis, after: &Axis) {
        self.taken_by[by] += 1;
        let (old, new) = (before.versions.last(), after.versions.last());
        let taken = [
            new == 1,
            before.versions.kept.len() == KEPT,
            old > 0 && usize::from(old) % KEPT == 0,
            new == u16::MAX,
            before.settings == after.settings,
        ];
        met(&mut self.taken, &taken);
    }

    /// A call of this axis was refused with 2 for what stands in its part.
    pub fn ill_formed(&mut self, part: &[u8; PART], axis: u8) {
        let mut without = *part;
        without[VERSIONS..].copy_from_slice(&encode(&Axis::fresh())[VERSIONS..]);
        if decode(&without).is_ok_and(|part| well_formed(&part, axis)) {
            self.ill_formed[usize::from(decode(part).is_err())] += 1;
        }
    }

    /// What no call has met.
    pub fn missing(&self) -> Vec<String> {
        let numbers = |what, counts: &Counts, numbers: &[u8]| -> Vec<String> {
            counts.unmet(numbers).map(|number| format!("{what} with number {number}")).collect()
        };
        let mut missing = numbers("list", &self.lists, &LIST_NUMBERS);
        missing.extend(numbers("going back", &self.backs, &BACK_NUMBERS));
        for (what, counts, names) in self.named() {
            missing.extend(unmet(counts, names).map(|name| format!("{what}: {name}")));
        }
        missing.iter().map(|what| format!("old settings: {what}")).collect()
    }

    /// What is counted by name.
    fn named(&self) -> [(&'static str, &[u64], &[&'static str]); 8] {
        [
            ("listed", &self.listed, &LISTED),
            ("going back to", &self.places, &PLACES),
            ("going back done", &self.back, &BACK),
            ("version not kept", &self.unkept, &UNKEPT),
            ("version taken by", &self.taken_by, &TAKEN_BY),
            ("version taken", &self.taken, &TAKEN),
            ("numbers used up", &self.used_up, &USED_UP),
            ("outside its limits", &self.ill_formed, &ILL_FORMED),
        ]
    }
}

/// Adds one to each count of what was met.
fn met(counts: &mut [u64], met: &[bool]) {
    counts.iter_mut().zip(met).for_each(|(count, met)| *count += u64::from(*met));
}

/// Why a version is not kept.
fn unkept(version: u32, versions: &Versions) -> usize {
    let (oldest, last) = (u32::from(versions.dropped) + 1, u32::from(versions.last()));
    match version {
        _ if versions.kept.is_empty() => 0,
        0 => 1,
        _ if version == oldest - 1 => 2,
        _ if version > 65535 => 4 + usize::from(!(oldest..=last).contains(&(version & 0xFFFF))),
        _ if version == last + 1 => 3,
        _ => 6,
    }
}

impl Display for Kept {
    fn fmt(&self, f: &mut Formatter) -> fmt::Result {
        let (lists, backs) = (self.lists.list(&LIST_NUMBERS), self.backs.list(&BACK_NUMBERS));
        writeln!(f, "settings   lists by number (0 accepted): {lists}; goings back: {backs}")?;
        for (what, counts, names) in self.named() {
            writeln!(f, "           {what}: {}", named(counts, names))?;
        }
        Ok(())
    }
}

#[cfg(test)]
mod tests {
    use super::*;
    use crate::meaning::{put_slot, Field};
    use twin::{Settings, Station};

    /// A write of 0 to 9900 of axis 2.
    const STORES: [u8; 18] = [0x5F, 0, 47, 14, 7, 2, 2, 1, 0x10, 1, 0x26, 0xAC, 0, 0, 0x42, 1, 0, 0];

    /// Farm 2's station with this number used last.
    fn used(last: u16) -> Station {
        let mut station = Station::fresh();
        let kept = last.min(16);
        let settings = (0..kept).map(|p9900| Settings { p9900, ..Settings::fresh() }).collect();
        station.axes[1].versions = Versions { dropped: last - kept, kept: settings };
        station
    }

    fn go_back(kept: &mut Kept, station: &mut Station, version: u32) -> u8 {
        let before = station.axes[1].clone();
        let returned = station.go_back(2, version);
        let parts = Some((&before, &station.axes[1]));
        kept.returned(&Made { parts, version, returned, read: false });
        returned.number
    }

    fn send(kept: &mut Kept, station: &mut Station, sending: Sending, frame: &[u8]) -> u8 {
        let before = station.axes[1].clone();
        let framed = sending.twins(station, 2, frame, &mut [0; 244]);
        kept.framed(sending, frame, &framed, &before, &station.axes[1]);
        framed.number
    }

    #[test]
    fn lists() {
        let mut kept = Kept::default();
        for last in [0, 1, 15, 16, 17] {
            kept.listed(&used(last).versions(2));
        }
        kept.listed(&used(3).versions(17));
        assert_eq!((kept.listed, kept.calls()), ([1, 2, 2], (6, 0)));
        assert_eq!(kept.lists.list(&LIST_NUMBERS), "0: 5, 1: 1, 2: 0");
    }

    #[test]
    fn goings_back() {
        let (mut kept, mut station) = (Kept::default(), used(32));
        station.axes[1].state = State::S4;
        assert_eq!(go_back(&mut kept, &mut station, 17), 0);
        assert_eq!((kept.places, kept.back), ([0, 1, 0, 0], [1, 0, 1, 1, 0]), "version 17 is as the settings are");
        assert_eq!((kept.taken_by, kept.taken), ([0, 0, 1], [0, 1, 1, 0, 1]), "version 33 stands in the first slot");
        assert_eq!(go_back(&mut kept, &mut station, 20), 0);
        assert_eq!((kept.places, kept.taken), ([0, 1, 1, 0], [0, 2, 1, 0, 1]));
        let mut station = used(65534);
        send(&mut kept, &mut station, Sending::Alone, &[0x5F, 0, 47, 10, 7, 1, 2, 1, 0x10, 1, 0x26, 0xAC, 0, 0]);
        assert_eq!(go_back(&mut kept, &mut station, 65534), 0);
        assert_eq!((kept.places, kept.back[1], kept.taken[3]), ([0, 1, 1, 1], 1, 1));
        assert_eq!(go_back(&mut kept, &mut station, 65534), 15);
        assert_eq!(go_back(&mut kept, &mut station, 65519), 14);
        assert_eq!((kept.used_up, kept.unkept), ([0, 0, 1, 1, 0, 0, 0, 0, 0], [0, 0, 1, 0, 0, 0, 0]));
    }

    #[test]
    fn why_a_version_is_not_kept() {
        let of = |last, version| unkept(version, &used(last).axes[1].versions);
        assert_eq!([of(0, 0), of(0, 1), of(0, 65537)], [0; 3]);
        assert_eq!([of(5, 0), of(40, 0), of(40, 24), of(40, 41), of(40, 65536)], [1, 1, 2, 3, 5]);
        assert_eq!([of(40, 65536 + 25), of(40, 65536 + 40), of(40, 65536 + 41), of(65535, 65536)], [4, 4, 5, 5]);
        assert_eq!([of(40, 23), of(40, 42), of(40, 65535)], [6; 3]);
    }

    #[test]
    fn frames() {
        let (mut kept, mut station) = (Kept::default(), used(0));
        assert_eq!(send(&mut kept, &mut station, Sending::Alone, &STORES), 0);
        assert_eq!((kept.taken_by, kept.taken, kept.used_up), ([1, 0, 0], [1, 0, 0, 0, 1], [0; 9]));
        let mut station = used(65535);
        let [mut reads, mut fails, mut denied] = [STORES; 3];
        (reads[3], reads[5]) = (10, 1);
        fails[10] = 0;
        denied[6] = 3;
        for sending in [Sending::Alone, Sending::Merged] {
            assert_eq!(send(&mut kept, &mut station, sending, &STORES), 15);
            assert_eq!(send(&mut kept, &mut station, sending, &denied), 11);
            for frame in [&reads[..14], &fails] {
                assert_eq!(send(&mut kept, &mut station, sending, frame), 0);
                send(&mut kept, &mut station, Sending::Alone, &[0x5E, 0, 47, 240]);
            }
        }
        assert_eq!((kept.taken_by, kept.used_up), ([1, 0, 0], [1, 1, 0, 0, 2, 1, 1, 1, 1]));
    }

    #[test]
    fn versions_outside_their_limits() {
        let counted = |part: &[u8; PART]| {
            let mut kept = Kept::default();
            kept.ill_formed(part, 2);
            kept.ill_formed
        };
        let mut part = encode(&used(3).axes[1]);
        let over = Settings { p30002: 16385, ..Settings::fresh() };
        put_slot(&mut part, 2, &over);
        assert_eq!(counted(&part), [1, 0]);
        put_slot(&mut part, 2, &Settings::fresh());
        put_slot(&mut part, 3, &over);
        assert_eq!(counted(&part), [0, 1]);
        part[crate::meaning::place(Field::P930)] = 1;
        assert_eq!(counted(&part), [0, 0], "the part has another fault");
    }
}
