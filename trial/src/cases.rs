//! Written examples: the files of `examples/`, read.
//!
//! The files are plain text, described at their top; each was worked out by hand from the rules. A case is a block of lines
//! ended by a blank line. `#` starts a comment, and a line that begins with a space continues the line before it. The keys:
//!
//! - `case NAME` opens a case; `source`, `printed` and `note` are for the reader and are skipped;
//! - `cycle AXIS FLAGS STW1 NSOLL NIST FAULT -> STATE ZSW1 RPM`, or `-> x NUMBER` for a refused one;
//! - `frame FARM BYTES -> NUMBER STORED REPLY`; bytes in hex, `N*BYTES` repeats, `-` is none;
//! - `exchange FARM BYTES -> NUMBER STORED REPLY`, the merged call, in the same way;
//! - `versions FARM -> NUMBER OLDEST KEPT`, the list of the versions that are kept;
//! - `go_back FARM VERSION -> NUMBER STORED VERSION`, a going back, which answers the new version;
//! - `check BYTES : BYTES -> NUMBER`, a request block and a response block: 0 for yes, or the first check that failed;
//! - `reply N`: the reply memory of the frames and merged calls that follow has N bytes (244 at first);
//! - `memory N`: the memory lent from here on is N bytes longer than a station's (-1: one shorter);
//! - `fill K BYTE`: every byte of the K-th of the 16 equal parts becomes BYTE;
//! - `fresh -> NUMBER`: the station is made fresh again;
//! - `loop N` .. `end`: the steps between are played N times.

use crate::pair::hex;
use std::fmt;
use tools::face::{Listed, Returned};
use tools::sending::Sending;

/// Equal parts of a station's memory.
pub const PARTS: usize = 16;
/// Bytes behind the station's own, so that a memory too long can be lent and a stray write is seen.
pub const SPARE: usize = 64;

/// A case as written.
#[allow(missing_docs)]
pub struct Case {
    pub name: String,
    pub steps: Vec<Line>,
}

/// A step, the line it begins on and what that line asks.
#[allow(missing_docs)]
pub struct Line {
    pub number: usize,
    pub asked: String,
    pub step: Step,
}

/// A step.
#[allow(missing_docs)]
pub enum Step {
    Cycle { input: Cycle, wanted: CycleAnswer },
    Frame { farm: u32, sending: Sending, frame: Vec<u8>, wanted: FrameAnswer },
    Versions { farm: u32, wanted: Listed },
    GoBack { farm: u32, version: u32, wanted: Returned },
    Check { request: Vec<u8>, response: Vec<u8>, number: u8 },
    Fresh { number: u8 },
    Reply { size: usize },
    Memory { longer: isize },
    Fill { part: usize, byte: u8 },
    Loop { times: usize, body: Vec<Line> },
}

/// What a cycle is given.
#[allow(missing_docs)]
pub struct Cycle {
    pub axis: u32,
    pub flags: u32,
    pub stw1: u16,
    pub nsoll: i16,
    pub nist: i16,
    pub fault: u16,
}

/// What a cycle must answer.
#[allow(missing_docs)]
#[derive(PartialEq)]
pub struct CycleAnswer {
    pub rpm: i32,
    pub status: u16,
    pub state: u8,
    pub number: u8,
}

/// What a frame or a merged call must answer.
#[allow(missing_docs)]
#[derive(PartialEq)]
pub struct FrameAnswer {
    pub number: u8,
    pub stored: u16,
    pub reply: Vec<u8>,
}

impl fmt::Display for CycleAnswer {
    fn fmt(&self, f: &mut fmt::Formatter) -> fmt::Result {
        let CycleAnswer { rpm, status, state, number } = self;
        match (number, state, status, rpm) {
            (0, ..) => write!(f, "S{state} {status:04X} {rpm}"),
            (_, 0, 0, 0) => write!(f, "x {number}"),
            _ => write!(f, "x {number} with state {state}, status {status:04X}, rpm {rpm}"),
        }
    }
}

impl fmt::Display for FrameAnswer {
    fn fmt(&self, f: &mut fmt::Formatter) -> fmt::Result {
        write!(f, "{} {} {}", self.number, self.stored, hex_or_dash(&self.reply))
    }
}

/// Bytes in hex, `-` for none.
fn hex_or_dash(bytes: &[u8]) -> String {
    match bytes {
        [] => "-".to_string(),
        _ => hex(bytes),
    }
}

/// A line of text with its number, comments cut off and continuations joined.
pub fn logical_lines(text: &str) -> Vec<(usize, String)> {
    let mut lines: Vec<(usize, String)> = Vec::new();
    for (index, whole) in text.lines().enumerate() {
        let line = whole.split('#').next().unwrap_or("");
        let comment_only = line.trim().is_empty() && !whole.trim().is_empty();
        match lines.last_mut() {
            _ if comment_only => {}
            Some((_, before)) if line.starts_with(' ') && !line.trim().is_empty() => before.push_str(line.trim_end()),
            _ => lines.push((index + 1, line.trim_end().to_string())),
        }
    }
    lines
}

/// The cases of a file.
pub fn read_cases(text: &str) -> Result<Vec<Case>, String> {
    let mut cases = Vec::new();
    for block in logical_lines(text).split(|(_, line)| line.is_empty()) {
        if !block.is_empty() {
            cases.push(read_case(block)?);
        }
    }
    if cases.is_empty() {
        return Err("no case".to_string());
    }
    Ok(cases)
}

fn read_case(block: &[(usize, String)]) -> Result<Case, String> {
    let (number, head) = &block[0];
    let name = match head.split_once(' ') {
        Some(("case", name)) if !name.trim().is_empty() => name.trim().to_string(),
        _ => return Err(format!("line {number}: a case begins with \"case NAME\"")),
    };
    // The steps of the case, and of each loop that is open, innermost last.
    let mut open: Vec<(usize, Vec<Line>)> = vec![(1, Vec::new())];
    for (number, line) in &block[1..] {
        let fault = |why: String| format!("line {number}: {why}: {line}");
        let (key, rest) = line.split_once(' ').unwrap_or((line, ""));
        let step = match key {
            "source" | "printed" | "note" => continue,
            "loop" => {
                open.push((read_number(rest.trim()).map_err(fault)?, Vec::new()));
                continue;
            }
            "end" => match open.pop() {
                Some((times, body)) if !open.is_empty() => Step::Loop { times, body },
                _ => return Err(fault("no loop is open".to_string())),
            },
            _ => read_step(key, rest).map_err(fault)?,
        };
        if let Some((_, steps)) = open.last_mut() {
            let asked = line.split("->").next().unwrap_or("").trim().to_string();
            steps.push(Line { number: *number, asked, step });
        }
    }
    match (open.pop(), open.is_empty()) {
        (Some((_, steps)), true) if !steps.is_empty() => Ok(Case { name, steps }),
        (_, true) => Err(format!("line {number}: case {name} has no step")),
        _ => Err(format!("line {number}: a loop of case {name} has no end")),
    }
}

fn read_step(key: &str, rest: &str) -> Result<Step, String> {
    let words: Vec<&str> = rest.split_whitespace().collect();
    let arrow = words.iter().position(|word| *word == "->");
    let (asked, wanted) = match arrow {
        Some(at) => (&words[..at], &words[at + 1..]),
        None => (&words[..], &[][..]),
    };
    if arrow.is_some() != matches!(key, "cycle" | "frame" | "exchange" | "versions" | "go_back" | "check" | "fresh") {
        return Err("\"->\" is missing or out of place".to_string());
    }
    match (key, asked) {
        ("cycle", asked) => Ok(Step::Cycle { input: read_cycle(asked)?, wanted: read_cycle_answer(wanted)? }),
        ("frame", asked) => read_frame(Sending::Alone, asked, wanted),
        ("exchange", asked) => read_frame(Sending::Merged, asked, wanted),
        ("versions", [farm]) => Ok(Step::Versions { farm: read_number(farm)?, wanted: read_listed(wanted)? }),
        ("go_back", [farm, version]) => {
            let (farm, version) = (read_number(farm)?, read_number(version)?);
            Ok(Step::GoBack { farm, version, wanted: read_returned(wanted)? })
        }
        ("check", asked) => read_check(asked, wanted),
        ("fresh", []) => Ok(Step::Fresh { number: read_only_number(wanted)? }),
        ("reply", [size]) => Ok(Step::Reply { size: read_number(size)? }),
        ("memory", [longer]) => match read_number::<isize>(longer)? {
            longer if longer.unsigned_abs() <= SPARE => Ok(Step::Memory { longer }),
            _ => Err(format!("at most {SPARE} bytes more or less")),
        },
        ("fill", [part, byte]) => match (read_number(part)?, read_bytes(&[byte])?.as_slice()) {
            (part @ 1..=PARTS, [byte]) => Ok(Step::Fill { part, byte: *byte }),
            _ => Err("expected a part and a byte".to_string()),
        },
        _ => Err("unknown key or wrong number of fields".to_string()),
    }
}

fn read_frame(sending: Sending, asked: &[&str], wanted: &[&str]) -> Result<Step, String> {
    let [farm, frame @ ..] = asked else { return Err("expected a farm and its frame".to_string()) };
    let (farm, frame) = (read_number(farm)?, read_bytes(frame)?);
    Ok(Step::Frame { farm, sending, frame, wanted: read_frame_answer(wanted)? })
}

fn read_check(asked: &[&str], wanted: &[&str]) -> Result<Step, String> {
    let blocks: Vec<&[&str]> = asked.split(|word| *word == ":").collect();
    let [request, response] = blocks.as_slice() else {
        return Err("expected a request block, \":\" and a response block".to_string());
    };
    let (request, response) = (read_bytes(request)?, read_bytes(response)?);
    Ok(Step::Check { request, response, number: read_only_number(wanted)? })
}

fn read_cycle(words: &[&str]) -> Result<Cycle, String> {
    let [axis, flags, stw1, nsoll, nist, fault] = words else {
        return Err("expected axis, flags, STW1, NSOLL_A, NIST_A and fault".to_string());
    };
    Ok(Cycle {
        axis: read_number(axis)?,
        flags: read_number(flags)?,
        stw1: read_word(stw1)?,
        nsoll: read_number(nsoll)?,
        nist: read_number(nist)?,
        fault: read_word(fault)?,
    })
}

fn read_cycle_answer(words: &[&str]) -> Result<CycleAnswer, String> {
    match words {
        ["x", number] => match read_number(number)? {
            0 => Err("a refusal has a number".to_string()),
            number => Ok(CycleAnswer { rpm: 0, status: 0, state: 0, number }),
        },
        [state, status, rpm] => {
            let state = match *state {
                "S1" => 1,
                "S2" => 2,
                "S3" => 3,
                "S4" => 4,
                "S51" => 51,
                "S52" => 52,
                _ => return Err(format!("no state: {state}")),
            };
            Ok(CycleAnswer { rpm: read_number(rpm)?, status: read_word(status)?, state, number: 0 })
        }
        _ => Err("expected STATE ZSW1 RPM or x NUMBER".to_string()),
    }
}

fn read_frame_answer(words: &[&str]) -> Result<FrameAnswer, String> {
    match words {
        [number, stored, reply @ ..] => {
            Ok(FrameAnswer { number: read_number(number)?, stored: read_number(stored)?, reply: read_bytes(reply)? })
        }
        _ => Err("expected NUMBER STORED REPLY".to_string()),
    }
}

fn read_listed(words: &[&str]) -> Result<Listed, String> {
    let [number, oldest, kept] = words else { return Err("expected NUMBER OLDEST KEPT".to_string()) };
    Ok(Listed { number: read_number(number)?, oldest: read_number(oldest)?, kept: read_number(kept)? })
}

fn read_returned(words: &[&str]) -> Result<Returned, String> {
    let [number, stored, version] = words else { return Err("expected NUMBER STORED VERSION".to_string()) };
    Ok(Returned { number: read_number(number)?, stored: read_number(stored)?, version: read_number(version)? })
}

fn read_only_number(words: &[&str]) -> Result<u8, String> {
    match words {
        [number] => read_number(number),
        _ => Err("expected one number".to_string()),
    }
}

fn read_number<N: std::str::FromStr>(word: &str) -> Result<N, String> {
    word.parse().map_err(|_| format!("no number, or out of its range: {word:?}"))
}

/// Exactly four hex digits.
fn read_word(word: &str) -> Result<u16, String> {
    match read_bytes(&[word])?.as_slice() {
        [high, low] => Ok(u16::from_be_bytes([*high, *low])),
        _ => Err(format!("no word of four hex digits: {word}")),
    }
}

/// Groups of hex digits, `N*GROUP`, or `-` alone for no byte.
pub fn read_bytes(words: &[&str]) -> Result<Vec<u8>, String> {
    let mut bytes = Vec::new();
    match words {
        [] => return Err("bytes are missing (\"-\" for none)".to_string()),
        ["-"] => return Ok(bytes),
        _ => {}
    }
    for word in words {
        let (times, group) = match word.split_once('*') {
            Some((times, group)) => (read_number(times)?, group),
            None => (1usize, *word),
        };
        let group = read_group(group).ok_or(format!("no hex bytes: {word}"))?;
        bytes.extend(group.repeat(times));
    }
    Ok(bytes)
}

fn read_group(group: &str) -> Option<Vec<u8>> {
    let digits: Option<Vec<u8>> = group.chars().map(|digit| digit.to_digit(16).map(|digit| digit as u8)).collect();
    match digits?.as_slice() {
        [] => None,
        digits if digits.len() % 2 == 1 => None,
        digits => Some(digits.chunks(2).map(|pair| pair[0] * 16 + pair[1]).collect()),
    }
}

#[cfg(test)]
mod tests {
    use super::*;

    #[test]
    fn a_frame_and_a_merged_call() {
        let text = "case both\nframe 1 5E002F F0 -> 8 0 DE80B500\nexchange 17 2*5E 00 -> 1 0 -\n";
        let cases = read_cases(text).unwrap();
        let told = |line: &Line| match &line.step {
            Step::Frame { farm, sending, frame, wanted } => (*farm, *sending, frame.clone(), wanted.to_string()),
            _ => panic!("line {}", line.number),
        };
        let read: Vec<_> = cases[0].steps.iter().map(told).collect();
        let frame = (1, Sending::Alone, vec![0x5E, 0, 0x2F, 0xF0], "8 0 DE80B500".to_string());
        let merged = (17, Sending::Merged, vec![0x5E, 0x5E, 0], "1 0 -".to_string());
        assert_eq!(read, [frame, merged]);
    }

    #[test]
    fn merged_calls_that_are_cut() {
        for line in ["exchange 1 5F002F00", "exchange 1 -> 4 0 -", "exchange -> 4 0 -", "exchange 1 5F -> 4 0"] {
            assert!(read_cases(&format!("case cut\n{line}\n")).is_err(), "{line}");
        }
    }

    #[test]
    fn lists_and_goings_back() {
        let text = "case old\nversions 16 -> 0 2 16\ngo_back 1 65537 -> 14 0 0\n";
        let cases = read_cases(text).unwrap();
        let told = |line: &Line| match &line.step {
            Step::Versions { farm, wanted } => (*farm, 0, wanted.to_string()),
            Step::GoBack { farm, version, wanted } => (*farm, *version, wanted.to_string()),
            _ => panic!("line {}", line.number),
        };
        let read: Vec<_> = cases[0].steps.iter().map(told).collect();
        assert_eq!(read, [(16, 0, "0 2 16".to_string()), (1, 65537, "14 0 0".to_string())]);
    }

    #[test]
    fn lists_and_goings_back_that_are_cut() {
        let lists =
            ["versions -> 0 1 0", "versions 1", "versions 1 -> 0 1", "versions 1 1 -> 0 1 0", "versions 1 -> 0 1 0 0"];
        let backs = ["go_back 1 -> 14 0 0", "go_back 1 1", "go_back 1 1 -> 14", "go_back 1 4294967296 -> 14 0 0"];
        for line in lists.into_iter().chain(backs) {
            assert!(read_cases(&format!("case cut\n{line}\n")).is_err(), "{line}");
        }
    }

    #[test]
    fn checks() {
        let text = "case checks\ncheck 0101 2*02 : 0181 -> 3\ncheck - : - -> 1\n";
        let cases = read_cases(text).unwrap();
        let told = |line: &Line| match &line.step {
            Step::Check { request, response, number } => (request.clone(), response.clone(), *number),
            _ => panic!("line {}", line.number),
        };
        let read: Vec<_> = cases[0].steps.iter().map(told).collect();
        assert_eq!(read, [(vec![1, 1, 2, 2], vec![1, 0x81], 3), (vec![], vec![], 1)]);
    }

    #[test]
    fn checks_that_are_cut() {
        let lines =
            ["01 : 02", "01 02 -> 0", "01:02 -> 0", ": 02 -> 0", "01 : -> 0", "01 : 02 : 03 -> 0", "01 : 02 ->"];
        for line in lines.into_iter().chain(["01 : 02 -> 0 0", "-> 0"]) {
            assert!(read_cases(&format!("case cut\ncheck {line}\n")).is_err(), "{line}");
        }
    }
}
