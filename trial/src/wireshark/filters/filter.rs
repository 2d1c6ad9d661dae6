//! A filter of Wireshark, as far as the README has them: fields, alone or compared with a number, joined by `&&`.
//!
//! A packet may have a field several times. Each part of a filter looks at all of them, and for itself: one address of
//! a request may have the number that is asked, and another the index.

use crate::wireshark::fields::{self, Field, IP_FROM, IP_TO};

/// A filter.
#[derive(Clone, Debug, PartialEq, Eq)]
pub(super) struct Filter(Vec<Part>);

/// A field that must be there, under one of these names, and with this number.
#[derive(Clone, Debug, PartialEq, Eq)]
struct Part {
    names: Vec<&'static str>,
    limit: Option<Limit>,
}

/// What a number must be.
#[derive(Clone, Copy, Debug, PartialEq, Eq)]
enum Limit {
    Equal(u32),
    Above(u32),
    AtMost(u32),
}

impl Filter {
    /// Reads a filter, or says what of it is not known here.
    pub(super) fn read(text: &str) -> Result<Filter, String> {
        text.split("&&").map(Part::read).collect::<Result<_, _>>().map(Filter)
    }

    /// Whether a packet with these fields matches.
    pub(super) fn matches(&self, packet: &[Field]) -> bool {
        self.0.iter().all(|part| packet.iter().any(|field| part.matches(field)))
    }

    /// The filters that ask a little less: one part without its number, or not at all where it has none.
    pub(super) fn weaker(&self) -> Vec<Filter> {
        (0..self.0.len()).map(|at| self.weaker_at(at)).collect()
    }

    fn weaker_at(&self, at: usize) -> Filter {
        let mut parts = self.0.clone();
        if parts[at].limit.take().is_none() {
            parts.remove(at);
        }
        Filter(parts)
    }
}

impl Part {
    fn read(text: &str) -> Result<Part, String> {
        let (name, limit) = match text.split_whitespace().collect::<Vec<_>>()[..] {
            [name] => (name, None),
            [name, relation, number] => (name, Some(Limit::read(relation, number)?)),
            _ => return Err(format!("neither a field nor a field and a number: {text}")),
        };
        Ok(Part { names: names(name)?, limit })
    }

    fn matches(&self, (name, number): &Field) -> bool {
        self.names.contains(name) && self.limit.is_none_or(|limit| limit.holds(*number))
    }
}

/// The fields that a name stands for.
fn names(name: &str) -> Result<Vec<&'static str>, String> {
    match name {
        "ip.addr" => Ok(vec![IP_FROM, IP_TO]),
        _ => fields::with_number(name).map(|known| vec![known]).ok_or(format!("not a field that is looked at: {name}")),
    }
}

impl Limit {
    fn read(relation: &str, number: &str) -> Result<Limit, String> {
        let number = fields::number(number).ok_or(format!("not a number: {number}"))?;
        match relation {
            "==" => Ok(Limit::Equal(number)),
            ">" => Ok(Limit::Above(number)),
            "<=" => Ok(Limit::AtMost(number)),
            _ => Err(format!("not a comparison that is known: {relation}")),
        }
    }

    fn holds(self, number: u32) -> bool {
        match self {
            Limit::Equal(wanted) => number == wanted,
            Limit::Above(least) => number > least,
            Limit::AtMost(most) => number <= most,
        }
    }
}

#[cfg(test)]
mod tests {
    use super::*;
    use crate::wireshark::fields::{DO, ERROR, PNU, SUB_INDEX};

    fn matches(filter: &str, packet: &[Field]) -> bool {
        Filter::read(filter).unwrap().matches(packet)
    }

    #[test]
    fn a_field_alone_or_with_a_number() {
        let packet = [(DO, 1), (PNU, 30001)];
        for (filter, wanted) in [
            (DO.to_string(), true),
            (ERROR.to_string(), false),
            (format!("{DO} == 1"), true),
            (format!("{DO} == 2"), false),
            (format!("{DO} == 0x01"), true),
            (format!("{DO} > 0"), true),
            (format!("{DO} > 1"), false),
            (format!("{PNU} <= 30001"), true),
            (format!("{PNU} <= 30000"), false),
            (format!("{ERROR} <= 1"), false),
        ] {
            assert_eq!(matches(&filter, &packet), wanted, "{filter}");
        }
    }

    #[test]
    fn an_address_of_either_end() {
        for (filter, wanted) in
            [("ip.addr == 10.47.1.2", true), ("ip.addr == 10.47.0.1", true), ("ip.addr == 1", false)]
        {
            assert_eq!(matches(filter, &[(IP_FROM, 0x0A2F_0102), (IP_TO, 0x0A2F_0001)]), wanted, "{filter}");
        }
    }

    #[test]
    fn each_part_looks_for_itself() {
        let both = format!("{PNU} == 30001 && {SUB_INDEX} == 1");
        assert!(matches(&both, &[(PNU, 30001), (SUB_INDEX, 1)]));
        assert!(matches(&both, &[(PNU, 30001), (SUB_INDEX, 0), (PNU, 30004), (SUB_INDEX, 1)]));
        assert!(!matches(&both, &[(PNU, 30001), (SUB_INDEX, 0)]));
        assert!(!matches(&both, &[(PNU, 30004), (SUB_INDEX, 1)]));
    }

    #[test]
    fn one_step_weaker() {
        let read = |text: String| Filter::read(&text).unwrap();
        let weaker = [read(format!("{PNU} && {ERROR}")), read(format!("{PNU} == 30001"))];
        assert_eq!(read(format!("{PNU} == 30001 && {ERROR}")).weaker(), weaker);
        assert!(Filter::read(ERROR).unwrap().weaker()[0].matches(&[]));
    }

    #[test]
    fn what_cannot_be_read() {
        for text in [
            "",
            "pn_io.nothing",
            "ip.src != 1",
            "ip.src == farm",
            "ip.src ==",
            "ip.src == 1 or ip.dst == 1",
            "ip.src &&",
        ] {
            assert!(Filter::read(text).is_err(), "{text}");
        }
    }
}
