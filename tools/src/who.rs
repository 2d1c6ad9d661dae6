//! `who`: plays a journal and tells every attempt to change something, a line each. What an attempt is, is said in `attempts`.

use crate::attempts::{Attempt, Element, Held, Outcome, Target};
use crate::command::{self, Ended, Journal, Output, NO_CLOCK};
use crate::layout::Values;
use crate::names::{self, UNREADABLE};
use crate::notation;
use crate::played::Played;
use crate::words::counted;
use std::ffi::{OsStr, OsString};

/// What is asked for: any of it may be left open.
#[derive(Clone, Copy, Debug, Default, PartialEq, Eq)]
struct Wanted {
    axis: Option<u8>,
    pnu: Option<u16>,
    index: Option<u16>,
}

/// The command, given a journal and, if they are wanted, an axis, a PNU and an index.
pub fn run(arguments: &[OsString]) -> Result<Ended, String> {
    let Some((journal, wanted)) = arguments.split_first().filter(|(_, wanted)| wanted.len() <= 3) else {
        return Err("takes a journal and, if you like, an axis, a PNU and an index".to_string());
    };
    let wanted = Wanted::read(wanted)?;
    let journal = Journal::open(journal)?;
    let name = journal.name.clone();
    let (mut output, mut held, mut told) = (Output::new(), None, Told::default());
    let length = command::play(journal, &mut output, |player, played, output| {
        let held = held.get_or_insert_with(|| Held::fresh(&player.fresh));
        let attempts = held.attempts(played, wanted.pnu.is_some());
        let attempts = attempts.map_err(|wrong| format!("{name}: record {}: {wrong}", played.place))?;
        attempts.iter().filter(|attempt| wanted.is_met(attempt)).try_for_each(|attempt| {
            told.count(attempt);
            output.line(line(played, attempt))
        })
    })?;
    output.line(format_args!("{told}, in {length}. {NO_CLOCK}"))?;
    output.flush()?;
    Ok(length.ended(&name))
}

impl Wanted {
    /// What the arguments ask for.
    fn read(typed: &[OsString]) -> Result<Wanted, String> {
        let number = |at: usize, what: &str, most: u16| match typed.get(at) {
            None => Ok(None),
            Some(typed) => number_of(typed, most)
                .map(Some)
                .ok_or_else(|| format!("'{}' is no {what}: a request can name 0 to {most}", typed.to_string_lossy())),
        };
        let axis = number(0, "axis", u8::MAX.into())?.map(|axis| axis as u8);
        Ok(Wanted { axis, pnu: number(1, "PNU", u16::MAX)?, index: number(2, "index", u16::MAX)? })
    }

    /// Whether an element of the axis is asked for.
    fn has(&self, pnu: u16, index: u32) -> bool {
        self.pnu.is_none_or(|wanted| wanted == pnu) && self.index.is_none_or(|wanted| u32::from(wanted) == index)
    }

    /// Whether an attempt is asked for. One at a version is at every element; one that is not readable is at none.
    fn is_met(&self, attempt: &Attempt) -> bool {
        let is_there = match &attempt.target {
            Target::Element(element, _) => self.has(element.pnu, element.index),
            Target::Address(address, _) => {
                let first = u32::from(address.sub_index);
                (first..first + u32::from(address.elements.max(1))).any(|index| self.has(address.pnu, index))
            }
            Target::Unreadable(_) => self.pnu.is_none(),
            Target::Version(_) => true,
        };
        is_there && self.axis.is_none_or(|axis| axis == attempt.axis)
    }
}

fn number_of(typed: &OsStr, most: u16) -> Option<u16> {
    typed.to_str()?.parse().ok().filter(|number| *number <= most)
}

/// How many attempts were told.
#[derive(Clone, Copy, Debug, Default)]
struct Told {
    set: u64,
    not: u64,
}

impl Told {
    fn count(&mut self, attempt: &Attempt) {
        match attempt.outcome {
            Outcome::Set(..) | Outcome::Same => self.set += 1,
            _ => self.not += 1,
        }
    }
}

impl std::fmt::Display for Told {
    fn fmt(&self, f: &mut std::fmt::Formatter) -> std::fmt::Result {
        write!(f, "{} set, {} not", self.set, self.not)
    }
}

/// The line of an attempt.
fn line(played: &Played, attempt: &Attempt) -> String {
    let Attempt { axis, target, outcome } = attempt;
    let who = format!("record {}: farm {}", played.place, played.record.owner());
    match (target, outcome) {
        (Target::Element(element, new), Outcome::Set(old, back)) => {
            let back = back.map(|version| format!(", back to version {version}")).unwrap_or_default();
            format!("{who} set axis {axis}, {}: {old} -> {new}{back}", named(element))
        }
        (Target::Version(version), Outcome::Same) => {
            format!("{who} went back to version {version} on axis {axis}: nothing different")
        }
        _ => format!("{who} tried axis {axis}, {}: {}", asked(target), why(target, outcome)),
    }
}

/// An element by its parameter and index.
fn named(element: &Element) -> String {
    let Element { attribute, pnu, index } = *element;
    format!("{}PNU {}", of_attribute(attribute), notation::element(pnu, index))
}

/// An attribute that is not the value, of which nothing can be changed.
fn of_attribute(attribute: u8) -> String {
    notation::attribute(attribute).map_or(String::new(), |name| format!("{name} of "))
}

/// What was asked for and not stored.
fn asked(target: &Target) -> String {
    match target {
        Target::Element(element, value) => format!("{} = {value}", named(element)),
        Target::Address(address, values) => {
            let elements = notation::elements(address.pnu, address.sub_index, address.elements);
            format!("{}PNU {elements} = {}", of_attribute(address.attribute), few(address.pnu, values))
        }
        Target::Unreadable(_) => "a change that is not readable".to_string(),
        Target::Version(version) => format!("back to version {version}"),
    }
}

/// The values of an address that has another number of them, as far as they are told.
fn few(pnu: u16, values: &Values) -> String {
    const FEW: usize = 8;
    let numbers = values.values.iter().map(|bits| notation::number(pnu, values.size, *bits).to_string());
    let told = numbers.take(FEW).collect::<Vec<_>>().join(" ");
    match values.values.len() {
        0 => "none".to_string(),
        count if count > FEW => format!("{told} .. ({})", counted(count, "value")),
        _ => told,
    }
}

/// Why it was not stored.
fn why(target: &Target, outcome: &Outcome) -> String {
    match (outcome, target) {
        (Outcome::Refused(number @ UNREADABLE), Target::Unreadable(fault)) => format!("{fault} ({number})"),
        (Outcome::Refused(number), _) => format!("{} ({number})", names::refusal(*number, false)),
        (Outcome::Failed(error), _) => format!("{} (error {error:02X})", names::error(*error)),
        (Outcome::Outside(low, high), _) => format!("outside its limits, {low} to {high} (error 02)"),
        (Outcome::Beside(first), _) => format!("not stored, as {} is outside its limits (error 02)", named(first)),
        (Outcome::Set(..) | Outcome::Same, _) => "stored".to_string(),
    }
}

#[cfg(test)]
mod tests {
    use super::*;
    use crate::played::made_up::{but, frame, going_back, leaving, FRESH};
    use crate::sending::Sending;

    fn wanted(typed: &[&str]) -> Result<Wanted, String> {
        Wanted::read(&typed.iter().map(OsString::from).collect::<Vec<_>>())
    }

    /// The lines of records on one station, without their place.
    fn told(records: &[Played], typed: &[&str]) -> Vec<String> {
        let (mut held, wanted) = (Held::fresh(&FRESH), wanted(typed).unwrap());
        let mut lines = Vec::new();
        for played in records {
            let attempts = held.attempts(played, wanted.pnu.is_some()).unwrap();
            lines.extend(attempts.iter().filter(|attempt| wanted.is_met(attempt)).map(|attempt| line(played, attempt)));
        }
        lines.iter().map(|line| line.strip_prefix("record 7: farm ").unwrap().to_string()).collect()
    }

    /// A frame with a change of axis 1 that has these addresses and values.
    fn change(count: u8, rest: &str) -> String {
        format!("5F 00 2F 00 07 02 01 {count:02X} {rest}")
    }

    /// Marks 1000 and 2000; they again, the second first; and then the offset -20.
    fn stored() -> Vec<Played> {
        let marks = change(1, "10 02 75 31 00 00 42 02 03 E8 07 D0");
        let twice = change(2, "10 01 75 31 00 01 10 01 75 31 00 01 42 01 00 05 42 01 07 D0");
        let offset = change(1, "10 01 75 34 00 00 43 01 FF FF FF EC");
        let all = "5E 00 2F 04 07 02 01 01";
        let marked = but(&[(10, 1000), (11, 2000)]);
        vec![
            leaving(frame(1, Sending::Alone, &marks, (0, 2, "5F 00 2F 10"), all), &marked),
            leaving(frame(1, Sending::Merged, &twice, (0, 2, "5E 00 2F 04 07 02 01 02"), ""), &marked),
            leaving(frame(1, Sending::Merged, &offset, (0, 1, all), ""), &but(&[(10, 1000), (11, 2000), (16, -20)])),
        ]
    }

    #[test]
    fn what_was_stored_is_told_with_what_was_there() {
        let lines = [
            "1 set axis 1, PNU 30001[0]: 0 -> 1000",
            "1 set axis 1, PNU 30001[1]: 0 -> 2000",
            "1 set axis 1, PNU 30001[1]: 2000 -> 5",
            "1 set axis 1, PNU 30001[1]: 5 -> 2000",
            "1 set axis 1, PNU 30004[0]: 0 -> -20",
        ];
        assert_eq!(told(&stored(), &[]), lines);
        assert_eq!(told(&stored(), &["1", "30001", "1"]), lines[1..4]);
        assert_eq!(told(&stored(), &["1", "30004"]), lines[4..]);
        assert_eq!(told(&stored(), &["2"]), [""; 0]);
    }

    #[test]
    fn goings_back_tell_what_came_out_different() {
        let back = leaving(going_back(1, 1, (0, 18, 3)), &but(&[(9, 1450), (11, 2000)]));
        let again = leaving(going_back(1, 3, (0, 18, 4)), &but(&[(9, 1450), (11, 2000)]));
        let records = [stored(), vec![back, again, going_back(1, 9, (14, 0, 0)), going_back(0, 1, (1, 0, 0))]].concat();
        let lines = [
            "1 set axis 1, PNU 10111: 1500 -> 1450, back to version 1",
            "1 set axis 1, PNU 30001[0]: 1000 -> 0, back to version 1",
            "1 set axis 1, PNU 30004[0]: -20 -> 0, back to version 1",
            "1 went back to version 3 on axis 1: nothing different",
            "1 tried axis 1, back to version 9: version is not kept (14)",
            "0 tried axis 0, back to version 1: no such farm or axis (1)",
        ];
        assert_eq!(told(&records, &[])[5..], lines);
        let second =
            [1, 3].map(|version| format!("1 set axis 1, PNU 30001[1]: 2000 -> 2000, back to version {version}"));
        assert_eq!(told(&records, &["1", "30001", "1"])[3..], [&second[..], &[lines[4].to_string()]].concat());
        assert_eq!(told(&records, &["1", "30001", "4"]), lines[4..5]);
    }

    #[test]
    fn what_was_not_stored_is_told_with_why() {
        let failed = |rest: &str, error: u8| {
            let response = format!("5E 00 2F 08 07 82 01 01 44 01 00 {error:02X}");
            let lines = told(&[frame(1, Sending::Merged, &change(1, rest), (0, 0, &response), "")], &[]);
            lines.iter().map(|line| line.strip_prefix("1 tried axis 1, ").unwrap().to_string()).collect::<Vec<_>>()
        };
        let beside = "not stored, as PNU 30001[1] is outside its limits (error 02)";
        assert_eq!(
            failed("10 03 75 31 00 00 42 03 03 E8 0B B9 FF FF", 2),
            [
                format!("PNU 30001[0] = 1000: {beside}"),
                "PNU 30001[1] = 3001: outside its limits, 0 to 3000 (error 02)".to_string(),
                "PNU 30001[2] = 65535: outside its limits, 0 to 3000 (error 02)".to_string(),
            ]
        );
        assert_eq!(failed("10 01 03 B0 00 00 42 01 00 00", 1), ["PNU 944 = 0: parameter is read only (error 01)"]);
        assert_eq!(failed("10 01 75 31 FF FF 42 01 00 01", 3), ["PNU 30001[65535] = 1: no such element (error 03)"]);
        assert_eq!(failed("30 01 75 31 00 00 42 01 00 01", 15), ["text of PNU 30001[0] = 1: no text (error 0F)"]);
        assert_eq!(
            failed("10 02 75 31 00 00 42 01 00 01", 24),
            ["PNU 30001[0..1] = 1: wrong number of values (error 18)"]
        );
        assert_eq!(failed("10 01 27 7F 00 00 42 00", 24), ["PNU 10111 = none: wrong number of values (error 18)"]);
        assert_eq!(
            failed("10 00 75 31 00 02 42 01 00 01", 22),
            ["PNU 30001[2;0] = 1: address is not permitted (error 16)"]
        );
        assert_eq!(
            failed("10 00 27 7F 00 00 42 01 00 00", 2),
            ["PNU 10111 = 0: outside its limits, 1 to 60000 (error 02)"]
        );
        let many = format!("10 01 27 7F 00 00 41 0A {}", "01 02 03 04 05 06 07 08 09 0A");
        assert_eq!(failed(&many, 5), ["PNU 10111 = 1 2 3 4 5 6 7 8 .. (10 values): wrong format (error 05)"]);
    }

    #[test]
    fn what_was_refused_is_told_with_its_number() {
        let marks = change(1, "10 02 75 31 00 00 42 02 03 E8 07 D0");
        let refused = |farm, sending, frame_, number| told(&[frame(farm, sending, frame_, (number, 0, ""), "")], &[]);
        let denied = "denied, not its axis (11)";
        assert_eq!(
            refused(2, Sending::Alone, &marks, 11),
            [
                format!("2 tried axis 1, PNU 30001[0] = 1000: {denied}"),
                format!("2 tried axis 1, PNU 30001[1] = 2000: {denied}"),
            ]
        );
        let waits = "1 tried axis 1, PNU 30001[0] = 1000: a response waits that was not fetched (8)";
        assert_eq!(refused(1, Sending::Merged, &marks, 8)[0], waits);
        let cut = "5F 00 2F 04 07 02 01 01";
        let unreadable = "1 tried axis 1, a change that is not readable";
        assert_eq!(
            refused(1, Sending::Alone, cut, 10),
            [format!("{unreadable}: it is cut where bytes 5 to 10 should be addresses (10)")]
        );
        assert_eq!(refused(1, Sending::Alone, cut, 5), [format!("{unreadable}: the frame's slot is not 0 (5)")]);
        for none in ["", "5F 00 2F 02 07 02", "5E 00 2F F0", "5F 00 2F 04 07 01 01 01", "5D 00 2F 04 07 02 01 01"] {
            assert_eq!(refused(1, Sending::Alone, none, 4), [""; 0], "{none}");
        }
    }

    #[test]
    fn what_the_library_does_not_hold_is_no_line() {
        let [marks, ..] = &stored()[..] else { panic!("nothing stored") };
        let wrong = |played: Played| Held::fresh(&FRESH).attempts(&played, false).unwrap_err();
        assert!(wrong(leaving(marks.clone(), &but(&[(10, 1000)]))).starts_with("the library holds other settings"));
        let read_only = change(1, "10 01 03 B0 00 00 42 01 00 00");
        let all = (0, 1, "5E 00 2F 04 07 02 01 01");
        assert!(wrong(frame(1, Sending::Merged, &read_only, all, "")).starts_with("the library stored something"));
        let counts = "the library counts 1 element stored, by its response 0 were";
        let failed = (0, 1, "5E 00 2F 08 07 82 01 01 44 01 00 01");
        assert_eq!(wrong(frame(1, Sending::Merged, &read_only, failed, "")), counts);
        let other = (0, 1, "5E 00 2F 0C 07 82 01 02 40 00 44 01 00 02");
        assert!(wrong(frame(1, Sending::Merged, &read_only, other, "")).starts_with("the library's response is none"));
    }

    #[test]
    fn what_is_asked_for() {
        assert_eq!(wanted(&[]), Ok(Wanted::default()));
        assert_eq!(wanted(&["255", "65535", "0"]), Ok(Wanted { axis: Some(255), pnu: Some(65535), index: Some(0) }));
        assert_eq!(wanted(&["256"]), Err("'256' is no axis: a request can name 0 to 255".to_string()));
        assert_eq!(wanted(&["1", "x"]), Err("'x' is no PNU: a request can name 0 to 65535".to_string()));
        assert_eq!(wanted(&["1", "2", "-1"]), Err("'-1' is no index: a request can name 0 to 65535".to_string()));
    }
}
