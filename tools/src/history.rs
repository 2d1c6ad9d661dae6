//! The history of a farm's settings, as far as it is kept when a journal has been played, told for people.
//!
//! All settings, as they are right after each record that makes a version, are remembered as long as the library's list has the
//! number. Going back to each version would show the same, but not once the numbers are used up.

use crate::command::{Length, NO_CLOCK};
use crate::journal::Record;
use crate::played::Played;
use crate::sending::Sending;
use crate::settings::elements;
use std::fmt::{self, Display, Formatter};

/// The parameters that are settings, as the two lines of a version show them.
const SETTINGS: [&[u16]; 2] = [&[9900, 9901, 10111], &[30001, 30002, 30003, 30004]];
/// Between the parameters of a line, and before them.
const GAP: &str = "   ";

/// What made a version.
#[derive(Clone, Copy, Debug, PartialEq, Eq)]
enum Maker {
    /// A frame, sent so.
    Frame(Sending),
    /// Going back to this version.
    GoBack(u16),
}

impl Maker {
    /// None for a cycle, which stores nothing.
    fn of(record: &Record) -> Option<Maker> {
        match record {
            Record::Cycle(..) => None,
            Record::Frame(_, sending, _) => Some(Maker::Frame(*sending)),
            Record::GoBack(_, version) => Some(Maker::GoBack(*version)),
        }
    }
}

impl Display for Maker {
    fn fmt(&self, f: &mut Formatter) -> fmt::Result {
        match self {
            Maker::Frame(sending) => write!(f, "a {sending}"),
            Maker::GoBack(version) => write!(f, "back to version {version}"),
        }
    }
}

/// A version, and the record that made it.
#[derive(Clone, Debug)]
struct Version {
    number: u16,
    record: u64,
    maker: Maker,
    /// All elements, in the order of `SETTINGS`.
    settings: Vec<i32>,
}

/// The versions of a farm that are kept after the records so far.
#[derive(Clone, Debug)]
pub struct History {
    farm: u8,
    versions: Vec<Version>,
}

impl History {
    /// That of a farm before the first record.
    pub fn new(farm: u8) -> History {
        History { farm, versions: Vec::new() }
    }

    /// Takes what came of the next record; other farms' are passed over.
    pub fn add(&mut self, played: &Played) {
        let (Some(after), Some(maker)) = (&played.after, Maker::of(&played.record)) else { return };
        // The last number stays where elements that are no settings are stored.
        if played.record.owner() == self.farm && after.last != self.made() {
            let settings = after.settings.clone();
            self.keep(Version { number: after.last, record: played.place, maker, settings }, after.oldest);
        }
    }

    /// Adds a version, after which this is the oldest that is kept.
    fn keep(&mut self, version: Version, oldest: u16) {
        self.versions.push(version);
        self.versions.retain(|version| version.number >= oldest);
    }

    /// How many versions were made: the last number.
    fn made(&self) -> u16 {
        self.versions.last().map_or(0, |version| version.number)
    }

    /// The list, under the name of its journal, of which so much was played.
    pub fn lines(&self, journal: &str, length: Length) -> Vec<String> {
        let mut lines = vec![format!("Farm {}, {journal}: {}", self.farm, self.said())];
        lines.extend(self.table());
        lines.push(format!("{} kept of {} made in {length}. {NO_CLOCK}", self.versions.len(), self.made()));
        lines
    }

    /// What the list is, in words.
    fn said(&self) -> String {
        match self.versions.as_slice() {
            [] => "no version is kept. No setting was stored, so all are those of a fresh station.".to_string(),
            [only] => format!("version {} is kept.", only.number),
            [oldest, .., last] => format!(
                "versions {} to {} are kept. * marks a value that differs from the one above.",
                oldest.number, last.number
            ),
        }
    }

    /// Two lines of each version: on the left what it is, on the right its settings.
    fn table(&self) -> Vec<String> {
        let names: Vec<String> = self.versions.iter().flat_map(|version| self.name(version)).collect();
        let width = names.iter().map(String::len).max().unwrap_or(0);
        let settings = self.told().into_iter().flat_map(settings_lines);
        names.iter().zip(settings).map(|(name, settings)| format!("{name:width$}{GAP}{settings}")).collect()
    }

    fn name(&self, version: &Version) -> [String; 2] {
        let Version { number, record, maker, .. } = version;
        let last = if *number == self.made() { ", the last" } else { "" };
        [format!("version {number}{last}"), format!("  record {record}, {maker}")]
    }

    /// The values of each version, each as wide as the widest of its element. The first version is marked nowhere.
    fn told(&self) -> Vec<Vec<String>> {
        let above = self.versions.first().into_iter().chain(&self.versions);
        let versions = self.versions.iter().zip(above);
        let marked: Vec<_> = versions.map(|(version, above)| marked(&version.settings, &above.settings)).collect();
        let width = |element: usize| marked.iter().map(|values| values[element].len()).max().unwrap_or(0);
        let aligned = |(element, value): (usize, &String)| format!("{value:>0$}", width(element));
        marked.iter().map(|values| values.iter().enumerate().map(aligned).collect()).collect()
    }
}

/// The values, with a mark at those that are not as above.
fn marked(values: &[i32], above: &[i32]) -> Vec<String> {
    let mark = |(value, above)| if value == above { "" } else { "*" };
    values.iter().zip(above).map(|both| format!("{}{}", mark(both), both.0)).collect()
}

/// The lines of a version's settings, whose values these are.
fn settings_lines(values: Vec<String>) -> [String; 2] {
    let mut values = values.into_iter();
    let mut parameter = |pnu: &u16| {
        let values: Vec<_> = values.by_ref().take(elements(*pnu).into()).collect();
        format!("{pnu} {}", values.join(" "))
    };
    SETTINGS.map(|pnus| pnus.iter().map(&mut parameter).collect::<Vec<_>>().join(GAP))
}

#[cfg(test)]
mod tests {
    use super::*;
    use crate::journal::Inputs;
    use crate::played::made_up::{but, FRESH};
    use crate::settings;

    /// So many whole records.
    fn length(records: u64) -> Length {
        Length { records, bad: false }
    }

    fn history(made: &[(Maker, &[(usize, i32)])]) -> History {
        let mut history = History::new(16);
        for (number, (maker, others)) in (1..).zip(made) {
            let record = 10 * u64::from(number);
            history.keep(Version { number, record, maker: *maker, settings: but(others) }, 1);
        }
        history
    }

    #[test]
    fn a_list_with_every_maker() {
        let (alone, merged) = (Maker::Frame(Sending::Alone), Maker::Frame(Sending::Merged));
        let changed = [(0, 65535), (12, 500), (16, -100_000)];
        let history = history(&[(alone, &[(12, 2500)]), (merged, &changed), (Maker::GoBack(2), &changed)]);
        let lines = [
            "Farm 16, a.journal: versions 1 to 3 are kept. * marks a value that differs from the one above.",
            "version 1                        9900      0   9901 0 0 0 0 0 0 0 0   10111 1500",
            "  record 10, a frame             30001 0 0 2500 0   30002 164   30003 16384   30004        0 0",
            "version 2                        9900 *65535   9901 0 0 0 0 0 0 0 0   10111 1500",
            "  record 20, a merged call       30001 0 0 *500 0   30002 164   30003 16384   30004 *-100000 0",
            "version 3, the last              9900  65535   9901 0 0 0 0 0 0 0 0   10111 1500",
            "  record 30, back to version 2   30001 0 0  500 0   30002 164   30003 16384   30004  -100000 0",
            "3 kept of 3 made in 41 records. A journal has no clock: it counts records, the lines of its replay.",
        ];
        assert_eq!(history.lines("a.journal", length(41)), lines);
    }

    #[test]
    fn one_version_or_none() {
        let one = history(&[(Maker::Frame(Sending::Alone), &[])]).lines("standard input", length(1));
        assert_eq!((one.len(), one[0].as_str()), (4, "Farm 16, standard input: version 1 is kept."));
        assert!(one[1].starts_with("version 1, the last ") && !one[2].contains('*'));
        assert!(one[3].starts_with("1 kept of 1 made in 1 record. "));
        let none = history(&[]).lines("a.journal", length(0));
        assert!(none[0].starts_with("Farm 16, a.journal: no version is kept. "));
        assert!(none[1].starts_with("0 kept of 0 made in 0 records. "));
        assert_eq!(none.len(), 2);
    }

    #[test]
    fn a_bad_record_is_told() {
        let bad = Length { records: 7, bad: true };
        assert!(history(&[]).lines("a.journal", bad)[1].contains(" made in the 7 records before a bad one. "));
    }

    #[test]
    fn what_the_list_has_no_more_is_forgotten() {
        let mut history = history(&[(Maker::GoBack(1), &[][..]); 16]);
        history.keep(Version { number: 17, record: 9, maker: Maker::GoBack(1), settings: but(&[]) }, 2);
        assert_eq!((history.versions.len(), history.versions[0].number, history.made()), (16, 2, 17));
        assert!(history.lines("a.journal", length(9))[33].starts_with("16 kept of 17 made in 9 records. "));
    }

    #[test]
    fn records_and_their_makers() {
        let inputs = Inputs { flags: 0, stw1: 0, nsoll: 0, nist: 0, fault: 0 };
        let cycle = Record::Cycle(3, inputs);
        assert_eq!((cycle.owner(), Maker::of(&cycle)), (3, None));
        let frame = Record::Frame(4, Sending::Merged, Vec::new());
        assert_eq!((frame.owner(), Maker::of(&frame)), (4, Some(Maker::Frame(Sending::Merged))));
        let back = Record::GoBack(5, 6);
        assert_eq!((back.owner(), Maker::of(&back)), (5, Some(Maker::GoBack(6))));
    }

    #[test]
    fn the_settings_are_what_can_be_written() {
        assert_eq!(SETTINGS.concat(), settings::parameters().collect::<Vec<_>>());
        assert_eq!(settings::all().len(), FRESH.len());
    }
}
