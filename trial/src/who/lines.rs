//! The lines that `who` printed, held one after the other against those that are due.

use super::due::Due;
use std::fmt::Display;
use std::io::BufRead;

/// The lines, and how many were read.
pub struct Lines<R> {
    lines: R,
    read: u64,
}

impl<R: BufRead> Lines<R> {
    /// All lines of this.
    pub fn of(lines: R) -> Lines<R> {
        Lines { lines, read: 0 }
    }

    /// The next lines must be those that are due of a record.
    pub fn take(&mut self, due: &[Due]) -> Result<(), String> {
        due.iter().try_for_each(|due| self.take_one(due, |line| due.is_told_by(line)))
    }

    /// The last line must be this, and nothing may follow.
    pub fn take_last(&mut self, due: &str) -> Result<(), String> {
        self.take_one(due, |line| line == due)?;
        match self.next()? {
            Some(line) => Err(format!("line {} says\n  {line}\nbehind the last", self.read)),
            None => Ok(()),
        }
    }

    fn take_one(&mut self, due: impl Display, is_due: impl Fn(&str) -> bool) -> Result<(), String> {
        let line = self.next()?;
        match line.as_deref() {
            Some(line) if is_due(line) => Ok(()),
            line => {
                let says = line.unwrap_or("(there is none)");
                Err(format!("line {} says\n  {says}\nwhere by the library it is\n  {due}", self.read))
            }
        }
    }

    /// The next line; none at the end. One that does not end is marked, and so has no shape.
    fn next(&mut self) -> Result<Option<String>, String> {
        let mut line = String::new();
        self.read += 1;
        let bytes = self.lines.read_line(&mut line).map_err(|error| format!("line {}: {error}", self.read))?;
        Ok((bytes > 0).then(|| line.strip_suffix('\n').map_or_else(|| format!("{line} (cut)"), String::from)))
    }
}

#[cfg(test)]
mod tests {
    use super::*;
    use crate::who::attempts::{last_line, Told, Tried, Why};
    use crate::who::due::{Sent, What};
    use twin::Address;

    /// What is due of two records: an element set twice and one that failed, and a going back that was refused.
    fn due() -> [Vec<Due>; 2] {
        let due = |record, what| Due { record, farm: 2, axis: 2, what };
        let set = |old, new| What::Told(Told::Set { name: "PNU 30001[1]".to_string(), old, new, back: None });
        let address = Address { attribute: 0x10, elements: 1, pnu: 30002, sub_index: 0 };
        let sent = Sent { address, index: Some(0), values: vec![[7, 7]], why: Why::Error(0x02) };
        let back = What::Told(Told::Not(Tried::Back(5), Why::Refused(14)));
        [vec![due(3, set(0, 10)), due(3, set(10, 20)), due(3, What::Sent(sent))], vec![due(4, back)]]
    }

    const TOLD: [&str; 4] = [
        "record 3: farm 2 set axis 2, PNU 30001[1]: 0 -> 10",
        "record 3: farm 2 set axis 2, PNU 30001[1]: 10 -> 20",
        "record 3: farm 2 tried axis 2, PNU 30002 = 7: outside its limits (error 02)",
        "record 4: farm 2 tried axis 2, back to version 5: version is not kept (14)",
    ];

    fn told() -> Vec<String> {
        TOLD.iter().map(|line| line.to_string()).chain([last_line(2, 2, 4)]).collect()
    }

    fn judged(lines: &[String]) -> Result<(), String> {
        let text: String = lines.iter().map(|line| format!("{line}\n")).collect();
        let mut lines = Lines::of(text.as_bytes());
        due().iter().try_for_each(|due| lines.take(due))?;
        lines.take_last(&last_line(2, 2, 4))
    }

    /// The line at which these are found wrong.
    fn found(lines: &[String]) -> Option<usize> {
        let why = judged(lines).err()?;
        why.strip_prefix("line ").and_then(|why| why.split_once(' '))?.0.parse().ok()
    }

    #[test]
    fn right_lines_agree() {
        assert_eq!(judged(&told()), Ok(()));
    }

    #[test]
    fn a_line_that_says_something_else_is_found() {
        let wrong = [
            (1, ": 0", ": 1"),
            (1, "-> 10", "-> 11"),
            (2, "10 ->", "0 ->"),
            (2, "-> 20", "-> 20, back to version 1"),
            (2, "[1]", "[2]"),
            (3, "error 02", "error 03"),
            (3, "= 7", "= 8"),
            (3, "record 3", "record 4"),
            (4, "(14)", "(15)"),
            (4, "version 5", "version 6"),
            (4, "farm 2", "farm 3"),
            (5, "2 set", "3 set"),
            (5, "2 not", "1 not"),
            (5, "4 records", "3 records"),
        ];
        for (line, from, to) in wrong {
            let mut lines = told();
            lines[line - 1] = lines[line - 1].replacen(from, to, 1);
            assert_eq!(found(&lines), Some(line), "{to} for {from}");
        }
    }

    #[test]
    fn a_line_that_is_missing_too_many_or_out_of_its_place_is_found() {
        for line in 1..=5 {
            let mut lines = told();
            let taken = lines.remove(line - 1);
            assert_eq!(found(&lines), Some(line), "without line {line}");
            lines.splice(line - 1..line - 1, [taken.clone(), taken]);
            assert_eq!(found(&lines), Some(line + 1), "line {line} twice");
        }
        for line in 1..=4 {
            let mut lines = told();
            lines.swap(line - 1, line);
            assert_eq!(found(&lines), Some(line), "line {line} behind the next");
        }
    }

    #[test]
    fn a_last_line_that_is_cut_is_found() {
        let last = last_line(0, 0, 1);
        assert_eq!(Lines::of(format!("{last}\n").as_bytes()).take_last(&last), Ok(()));
        assert!(Lines::of(last.as_bytes()).take_last(&last).is_err());
    }

    #[test]
    fn what_is_said_of_a_disagreement() {
        let mut lines = told();
        lines[2] = lines[2].replace("02", "05");
        let says = format!("line 3 says\n  {}\nwhere by the library it is\n  ", lines[2]);
        let due = "record 3: farm 2 tried axis 2, PNU 30002 = 7: ... (error 02)";
        assert_eq!(judged(&lines), Err(says + due));
    }
}
