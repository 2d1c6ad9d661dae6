//! What a line of `who` must tell, and whether it does.

use super::attempts::{number, Attempt, Told, Tried, Why};
use std::fmt::{self, Display, Formatter};
use tools::layout::Values;
use twin::{Address, Parameter, Type};

/// Attribute of values.
const VALUE: u8 = 0x10;
/// So many values of an address must be told before the rest may be counted alone.
const SHOWN: usize = 8;

/// A line that must be there.
#[derive(Clone, Debug)]
#[allow(missing_docs)]
pub struct Due {
    pub record: u64,
    pub farm: u8,
    pub axis: u8,
    pub what: What,
}

/// What it must tell.
#[derive(Clone, Debug, PartialEq, Eq)]
pub enum What {
    /// This and nothing else.
    Told(Told),
    /// Values that were sent and not stored.
    Sent(Sent),
}

/// Values that were not stored: that of one element, or without an index those of an address that has another number
/// of elements.
#[derive(Clone, Debug, PartialEq, Eq)]
#[allow(missing_docs)]
pub struct Sent {
    pub address: Address,
    pub index: Option<u32>,
    pub values: Vec<Readings>,
    pub why: Why,
}

/// A value without its sign and with it; twice the same where its parameter says which is meant.
pub type Readings = [i64; 2];

impl Due {
    /// Whether this line tells it.
    pub fn is_told_by(&self, line: &str) -> bool {
        let Due { record, farm, axis, .. } = *self;
        Attempt::of(line).is_some_and(|told| {
            (told.record, told.farm, told.axis) == (record, farm, axis) && self.what.is_told_by(&told.told)
        })
    }
}

impl Display for Due {
    fn fmt(&self, f: &mut Formatter) -> fmt::Result {
        let Due { record, farm, axis, .. } = *self;
        let told = match &self.what {
            What::Told(told) => told.clone(),
            What::Sent(sent) => Told::Not(sent.tried(), sent.why),
        };
        Attempt { record, farm, axis, told }.fmt(f)
    }
}

impl What {
    /// Whether it is something that was done.
    pub fn is_done(&self) -> bool {
        matches!(self, What::Told(Told::Set { .. } | Told::Same(_)))
    }

    fn is_told_by(&self, told: &Told) -> bool {
        match (self, told) {
            (What::Told(due), told) => due == told,
            (What::Sent(sent), Told::Not(Tried::Values { name, values }, why)) => {
                sent.why == *why && sent.is_named(name) && sent.has_values(values)
            }
            _ => false,
        }
    }
}

impl Sent {
    /// An address may be named in any words with its number. Before an element words may stand only where its value is
    /// not meant, and behind it none.
    fn is_named(&self, name: &str) -> bool {
        let Address { attribute, pnu, .. } = self.address;
        let Some(named) = name.find("PNU ").map(|at| &name[at..]) else { return false };
        match self.index {
            Some(index) => {
                let is = |element: String| match named.strip_prefix(&element) {
                    Some(_) if attribute == VALUE => name == element,
                    rest => rest.is_some_and(str::is_empty),
                };
                is(element_name(pnu, index)) || is(indexed_name(pnu, index))
            }
            None => {
                let rest = named.strip_prefix(&format!("PNU {pnu}"));
                rest.is_some_and(|rest| !rest.starts_with(|next: char| next.is_ascii_digit()))
            }
        }
    }

    /// All values, or words that say that there is none. Of an address it may also be the first values, at least `SHOWN`,
    /// and words behind them with no other number than how many there are.
    fn has_values(&self, told: &str) -> bool {
        let values: Vec<i64> = told.split(' ').map_while(number).collect();
        let words = told.split(' ').skip(values.len()).collect::<Vec<_>>().join(" ");
        let is_read = |(readings, value): (&Readings, &i64)| readings.contains(value);
        let left = self.values.len().checked_sub(values.len());
        self.values.iter().zip(&values).all(is_read)
            && match left {
                Some(0) => numbers(&words).is_empty() && (words.is_empty() || values.is_empty()),
                Some(_) => {
                    self.index.is_none() && values.len() >= SHOWN && numbers(&words) == [self.values.len().to_string()]
                }
                None => false,
            }
    }

    fn tried(&self) -> Tried {
        let Address { elements, pnu, sub_index, .. } = self.address;
        let name = match self.index {
            Some(index) => element_name(pnu, index),
            None => format!("PNU {pnu}[{sub_index};{elements}]"),
        };
        let values: Vec<String> = self.values.iter().map(|[value, _]| value.to_string()).collect();
        Tried::Values { name, values: values.join(" ") }
    }
}

/// The numbers that stand in words.
fn numbers(words: &str) -> Vec<&str> {
    words.split(|any: char| !any.is_ascii_digit()).filter(|number| !number.is_empty()).collect()
}

/// How an element is named: a simple parameter without its index.
pub fn element_name(pnu: u16, index: u32) -> String {
    let is_simple = Parameter::find(pnu).is_some_and(|parameter| parameter.array_length().is_none());
    if is_simple && index == 0 {
        format!("PNU {pnu}")
    } else {
        indexed_name(pnu, index)
    }
}

fn indexed_name(pnu: u16, index: u32) -> String {
    format!("PNU {pnu}[{index}]")
}

/// The values that were sent to a parameter. Where their format is not its own, nothing says whether they have a sign.
pub fn readings(pnu: u16, sent: &Values) -> Vec<Readings> {
    let own = |kind: &Type| [kind.size_code(), kind.type_code()].contains(&sent.format);
    let kind = Parameter::find(pnu).map(Parameter::kind).filter(own);
    let above = 64 - 8 * sent.size;
    let read = |value: &u32| {
        let (unsigned, signed) = (i64::from(*value), i64::from(*value) << above >> above);
        match kind {
            Some(Type::I16 | Type::I32) => [signed; 2],
            Some(Type::U8 | Type::U16) => [unsigned; 2],
            None => [unsigned, signed],
        }
    };
    sent.values.iter().map(read).collect()
}

#[cfg(test)]
mod tests {
    use super::*;

    /// What must be told of values that were sent and failed with error 18.
    fn sent(address: Address, index: Option<u32>, values: &[Readings]) -> Due {
        let sent = Sent { address, index, values: values.to_vec(), why: Why::Error(0x18) };
        Due { record: 7, farm: 2, axis: 3, what: What::Sent(sent) }
    }

    fn assert_told(due: &Due, told: &[&str], untold: &[&str]) {
        let line = |text: &&str| format!("record 7: farm 2 tried axis 3, {text}: for this (error 18)");
        told.iter().for_each(|text| assert!(due.is_told_by(&line(text)), "{text} tells {due}"));
        untold.iter().for_each(|text| assert!(!due.is_told_by(&line(text)), "{text} does not tell {due}"));
        assert!(due.is_told_by(&due.to_string()), "{due} tells itself");
    }

    fn address(attribute: u8, pnu: u16) -> Address {
        Address { attribute, elements: 1, pnu, sub_index: 0 }
    }

    #[test]
    fn how_an_element_is_named() {
        let mark = sent(address(0x10, 30001), Some(2), &[[5, 5]]);
        let others =
            ["PNU 30001 = 5", "PNU 3000[2] = 5", "PNU 30001[0] = 5", "text of PNU 30001[2] = 5", "PNU 30001[2]"];
        assert_told(&mark, &["PNU 30001[2] = 5"], &others);
        let simple = sent(address(0x10, 9900), Some(0), &[[5, 5]]);
        assert_told(&simple, &["PNU 9900 = 5", "PNU 9900[0] = 5"], &["PNU 9900[1] = 5", "PNU 990 = 5", "9900 = 5"]);
        let text = sent(address(0x30, 30001), Some(2), &[[5, 5]]);
        let others = [
            "text of PNU 30001 = 5",
            "PNU 30001[2]0 = 5",
            "text = 5",
            "PNU 30001[2] = 5 6",
            "PNU 30001[2] by text = 5",
        ];
        assert_told(&text, &["text of PNU 30001[2] = 5", "PNU 30001[2] = 5"], &others);
    }

    #[test]
    fn how_an_address_is_named() {
        let address = Address { elements: 2, ..address(0x10, 3000) };
        let due = sent(address, None, &[[5, 5], [255, -1], [0, 0]]);
        let named = ["PNU 3000[0..1] = 5 255 0", "all of PNU 3000 = 5 -1 0"];
        assert_told(&due, &named, &["PNU 30001 = 5 255 0", "3000 = 5 255 0", "PNU 3000 = 5 255", "PNU 3000 = 5 254 0"]);
        let shortened = ["5 255 ..", "5 255 .. (3 values)", "5 .. (2 values)", "5 255 0 .. (3 values)", "5 255 0 1"];
        assert_told(&due, &[], &shortened.map(|values| format!("PNU 3000 = {values}")).each_ref().map(String::as_str));
        let many = sent(address, None, &[[5, 5]; 10]);
        let (seven, eight) = ("PNU 3000 = 5 5 5 5 5 5 5", "PNU 3000 = 5 5 5 5 5 5 5 5");
        let lines = |begin: &str, ends: [&str; 3]| ends.map(|end| format!("{begin}{end}"));
        let untold =
            [lines(seven, [" .. (10 values)", " 6 .. (10 values)", ""]), lines(eight, [" .. (9 values)", " ..", ""])]
                .concat();
        let untold: Vec<&str> = untold.iter().map(String::as_str).collect();
        assert_told(&many, &["PNU 3000 = 5 5 5 5 5 5 5 5 .. (10 values)"], &untold);
        let none = sent(address, None, &[]);
        assert_told(&none, &["PNU 3000[0..1] = ", "PNU 3000[0..1]", "PNU 3000 = nothing"], &["PNU 3000[0..1] = 0"]);
    }

    #[test]
    fn whose_attempt_and_why() {
        let line = "record 7: farm 2 tried axis 3, PNU 3[0] = 5: for this (error 18)";
        let due = sent(address(0x10, 3), Some(0), &[[5, 5]]);
        assert!(due.is_told_by(line));
        let others = [("d 7", "d 8"), ("farm 2", "farm 3"), ("axis 3", "axis 2"), ("18", "16"), ("error 18", "18")];
        for (from, to) in others {
            assert!(!due.is_told_by(&line.replace(from, to)), "{to} for {from}");
        }
    }

    #[test]
    fn signs_are_those_of_the_parameter() {
        let read = |pnu, format, size, value| readings(pnu, &Values { format, size, values: vec![value] })[0];
        assert_eq!(read(30004, 0x43, 4, 0xFFFF_FFFE), [-2, -2]);
        assert_eq!(read(30004, 4, 4, 7), [7, 7]);
        assert_eq!(read(10101, 3, 2, 0xFFFE), [-2, -2]);
        assert_eq!(read(9900, 6, 2, 0xFFFE), [0xFFFE, 0xFFFE]);
        assert_eq!(read(965, 0x41, 1, 0xFE), [0xFE, 0xFE]);
        assert_eq!(read(30004, 0x42, 2, 0xFFFE), [0xFFFE, -2], "a format that is not its own");
        assert_eq!(read(1, 0x43, 4, 0xFFFF_FFFE), [0xFFFF_FFFE, -2], "no parameter");
        assert_eq!(read(9900, 2, 1, 0x80), [0x80, -0x80]);
    }
}
