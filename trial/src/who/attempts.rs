//! The lines of `who`, read: each attempt to change something, as it is told.

use std::fmt::{self, Display, Formatter};
use std::str::FromStr;
use tools::words::counted;

const UNREADABLE: &str = "a change that is not readable";

/// A line but the last.
#[derive(Clone, Debug, PartialEq, Eq)]
#[allow(missing_docs)]
pub struct Attempt {
    pub record: u64,
    pub farm: u8,
    pub axis: u8,
    pub told: Told,
}

/// What became of an attempt.
#[derive(Clone, Debug, PartialEq, Eq)]
pub enum Told {
    /// The element of this name was stored; by a going back to a version, it came out different.
    #[allow(missing_docs)]
    Set { name: String, old: i64, new: i64, back: Option<u16> },
    /// A going back to this version was done, and no element came out different.
    Same(u16),
    /// Nothing was stored.
    Not(Tried, Why),
}

/// What was tried.
#[derive(Clone, Debug, PartialEq, Eq)]
pub enum Tried {
    /// These values, as they are written, for what has this name.
    #[allow(missing_docs)]
    Values { name: String, values: String },
    /// A block that is not readable.
    Unreadable,
    /// A going back to this version.
    Back(u16),
}

/// Why something was not stored. Which words say so is not judged.
#[derive(Clone, Copy, Debug, PartialEq, Eq)]
pub enum Why {
    /// The call was refused with this number.
    Refused(u8),
    /// The address failed with this error word.
    Error(u16),
}

impl Attempt {
    /// What a line says; none where it has the shape of no attempt.
    pub fn of(line: &str) -> Option<Attempt> {
        let (record, rest) = line.strip_prefix("record ")?.split_once(": farm ")?;
        let (farm, rest) = rest.split_once(' ')?;
        let (axis, told) = if let Some(rest) = rest.strip_prefix("set axis ") {
            rest.split_once(", ").and_then(|(axis, rest)| Some((axis, set(rest)?)))?
        } else if let Some(rest) = rest.strip_prefix("tried axis ") {
            rest.split_once(", ").and_then(|(axis, rest)| Some((axis, not(rest)?)))?
        } else {
            let (version, rest) = rest.strip_prefix("went back to version ")?.split_once(" on axis ")?;
            (rest.strip_suffix(": nothing different")?, Told::Same(number(version)?))
        };
        Some(Attempt { record: number(record)?, farm: number(farm)?, axis: number(axis)?, told })
    }
}

/// A number in the one way to write it.
pub fn number<T: FromStr + Display>(text: &str) -> Option<T> {
    text.parse().ok().filter(|number: &T| number.to_string() == text)
}

fn set(text: &str) -> Option<Told> {
    let (name, values) = text.split_once(": ")?;
    let (values, back) = match values.split_once(", back to version ") {
        Some((values, version)) => (values, Some(number(version)?)),
        None => (values, None),
    };
    let (old, new) = values.split_once(" -> ")?;
    Some(Told::Set { name: name.to_string(), old: number(old)?, new: number(new)?, back })
}

fn not(text: &str) -> Option<Told> {
    let (text, why) = text.strip_suffix(')')?.rsplit_once(" (")?;
    let (what, words) = text.split_once(": ")?;
    let tried = match what.strip_prefix("back to version ") {
        Some(version) => Tried::Back(number(version)?),
        None if what == UNREADABLE => Tried::Unreadable,
        None => {
            // Where no value was sent, nothing need stand for the values.
            let (name, values) = what.split_once(" = ").unwrap_or((what, ""));
            Tried::Values { name: name.to_string(), values: values.to_string() }
        }
    };
    (!words.is_empty()).then_some(Told::Not(tried, why_of(why)?))
}

fn why_of(text: &str) -> Option<Why> {
    match text.strip_prefix("error ") {
        Some(word) => {
            let error = u16::from_str_radix(word, 16).ok().map(Why::Error);
            error.filter(|error| error.to_string() == text)
        }
        None => number(text).map(Why::Refused),
    }
}

/// The last line, behind so many lines of what was set and of what was not.
pub fn last_line(set: u64, not: u64, records: u64) -> String {
    let records = counted(records, "record");
    format!("{set} set, {not} not, in {records}. A journal has no clock: it counts records, the lines of its replay.")
}

impl Display for Attempt {
    /// The line, with dots where any words may stand.
    fn fmt(&self, f: &mut Formatter) -> fmt::Result {
        let Attempt { record, farm, axis, told } = self;
        write!(f, "record {record}: farm {farm} ")?;
        match told {
            Told::Set { name, old, new, back } => {
                write!(f, "set axis {axis}, {name}: {old} -> {new}")?;
                back.map_or(Ok(()), |version| write!(f, ", back to version {version}"))
            }
            Told::Same(version) => write!(f, "went back to version {version} on axis {axis}: nothing different"),
            Told::Not(tried, why) => write!(f, "tried axis {axis}, {tried}: ... ({why})"),
        }
    }
}

impl Display for Tried {
    fn fmt(&self, f: &mut Formatter) -> fmt::Result {
        match self {
            Tried::Values { name, values } => write!(f, "{name} = {values}"),
            Tried::Unreadable => f.write_str(UNREADABLE),
            Tried::Back(version) => write!(f, "back to version {version}"),
        }
    }
}

impl Display for Why {
    fn fmt(&self, f: &mut Formatter) -> fmt::Result {
        match self {
            Why::Refused(number) => write!(f, "{number}"),
            Why::Error(word) => write!(f, "error {word:02X}"),
        }
    }
}

#[cfg(test)]
mod tests {
    use super::*;

    /// Every shape, with dots for the words that are not judged.
    const LINES: [&str; 10] = [
        "record 1: farm 2 set axis 2, PNU 30001[0]: 0 -> 1000",
        "record 18446744073709551615: farm 16 set axis 16, PNU 9900: 65535 -> 65535",
        "record 9: farm 2 set axis 2, PNU 30004[1]: -100000 -> 0, back to version 65535",
        "record 9: farm 2 went back to version 3 on axis 2: nothing different",
        "record 7: farm 2 tried axis 1, PNU 30001[0] = 1000: ... (11)",
        "record 7: farm 2 tried axis 2, PNU 30001[0..1] = 1 -2: ... (error 18)",
        "record 7: farm 2 tried axis 2, description of PNU 9900 = 1: ... (error 09)",
        "record 7: farm 255 tried axis 0, a change that is not readable: ... (1)",
        "record 7: farm 0 tried axis 0, back to version 0: ... (1)",
        "record 7: farm 2 tried axis 2, PNU 9900 = : ... (error 18)",
    ];

    #[test]
    fn every_shape_is_read_whole() {
        for line in LINES {
            assert_eq!(Attempt::of(line).map(|attempt| attempt.to_string()).as_deref(), Some(line));
        }
        let told = |line| Attempt::of(line).map(|attempt| attempt.told);
        assert_eq!(told(LINES[3]), Some(Told::Same(3)));
        assert_eq!(told(LINES[7]), Some(Told::Not(Tried::Unreadable, Why::Refused(1))));
        assert_eq!(told(LINES[8]), Some(Told::Not(Tried::Back(0), Why::Refused(1))));
        let tried = Tried::Values { name: "PNU 30001[0..1]".to_string(), values: "1 -2".to_string() };
        assert_eq!(told(LINES[5]), Some(Told::Not(tried, Why::Error(0x18))));
    }

    #[test]
    fn the_words_are_free_and_may_have_signs() {
        let line = LINES[4].replace("...", "outside: its limits (0 = least), see 3 -> 4");
        assert_eq!(Attempt::of(&line), Attempt::of(LINES[4]));
        assert_eq!(Attempt::of(&LINES[9].replace(" = ", "")), Attempt::of(LINES[9]), "no values, and nothing for them");
    }

    #[test]
    fn other_shapes_are_none() {
        let others = [
            ("record 1", "record 01"),
            ("record 1", "record -1"),
            ("record 1", "Record 1"),
            ("farm 2", "farm 256"),
            ("axis 2", "axis +2"),
            ("set", "sets"),
            (" -> ", " to "),
            ("1000", "1000 "),
            ("1000", "1E3"),
            ("1000", "1000, back to version 65536"),
            ("1000", "1000, back to version 3, the last"),
        ];
        for (from, to) in others {
            assert_eq!(Attempt::of(&LINES[0].replacen(from, to, 1)), None, "{to} for {from}");
        }
        for why in ["error 2", "error 018", "error 0f", "error", "011", "256", "x", ""] {
            assert_eq!(Attempt::of(&LINES[4].replace("(11)", &format!("({why})"))), None, "{why}");
        }
        assert_eq!(Attempt::of(&LINES[4].replace("...", "")), None, "no words");
        assert_eq!(Attempt::of(&LINES[3].replace("different", "else")), None);
        assert_eq!(Attempt::of(&last_line(1, 2, 3)), None);
    }

    #[test]
    fn the_last_line_counts() {
        assert!(last_line(5, 0, 1).starts_with("5 set, 0 not, in 1 record. A journal has no clock: "));
        assert!(last_line(0, 7, 2).starts_with("0 set, 7 not, in 2 records. "));
    }
}
