//! Plays written examples on the station and compares every answer, and what the checker says of written pairs of blocks.
//!
//! Usage: `play-examples FILE...`; what the files hold is said in `cases.rs`.
//!
//! Beyond the written answers these hold for every step: bytes of the reply memory past the reply stay as they were,
//! a refusal leaves the whole memory as it was, and so does a list, an answered call changes the caller's part alone, a
//! refused cycle answers zeros, and a merged call comes to the same as the library's own write and fetch in turn, reply and
//! memory included. And every response that the station gave, by a fetch or a merged call, passes the checker for its request.

#![forbid(unsafe_code)]

use std::collections::{HashMap, HashSet};
use std::process::ExitCode;
use std::{env, fmt, fs};

use tools::face::{self, Cycled, Framed, Returned};
use tools::sending::{Sending, WRITE};
use trial::cases::{read_cases, Case, Cycle, CycleAnswer, FrameAnswer, Line, Step, PARTS, SPARE};
use trial::pair::hex;
use trial::turns::in_turn;

const SPARE_BYTE: u8 = 0x5A;
const REPLY_BYTE: u8 = 0xA5;
const REPLY_SIZE: usize = 244;

/// A failure: the step, what was expected and what came.
struct Failure {
    line: usize,
    asked: String,
    expected: String,
    got: String,
}

/// The memory a case is played on.
struct Bench {
    memory: Vec<u8>,
    size: usize,
    lent: usize,
    reply_size: usize,
    /// Of each farm, the request whose response waits.
    asked: HashMap<u32, Vec<u8>>,
    /// Responses that were held against their requests.
    checked: usize,
}

impl Bench {
    fn new(size: usize) -> Bench {
        let memory = vec![SPARE_BYTE; size + SPARE];
        Bench { memory, size, lent: size, reply_size: REPLY_SIZE, asked: HashMap::new(), checked: 0 }
    }

    fn play(&mut self, steps: &[Line]) -> Result<(), Failure> {
        for Line { number, asked, step } in steps {
            if let Step::Loop { times, body } = step {
                for _ in 0..*times {
                    self.play(body)?;
                }
            } else {
                self.step(step).map_err(|(expected, got)| Failure {
                    line: *number,
                    asked: asked.clone(),
                    expected,
                    got,
                })?;
            }
        }
        Ok(())
    }

    fn step(&mut self, step: &Step) -> Result<(), (String, String)> {
        let before = self.memory.clone();
        match step {
            Step::Cycle { input, wanted } => {
                let Cycle { axis, flags, stw1, nsoll, nist, fault } = *input;
                let Cycled { rpm, status, state, number } =
                    face::cycle(&mut self.memory[..self.lent], axis, flags, stw1, nsoll, nist, fault);
                compare(wanted, &CycleAnswer { rpm, status, state, number })?;
                self.untouched(&before, number, axis)
            }
            Step::Frame { farm, sending, frame, wanted } => {
                let number = self.frame(|station, reply| sending.ours(station, *farm, frame, reply), wanted)?;
                self.untouched(&before, number, *farm)?;
                self.same_in_turn(before, step)?;
                self.own_response(step)
            }
            Step::Versions { farm, wanted } => {
                compare(wanted, &face::versions(&self.memory[..self.lent], *farm))?;
                self.same(&before, 0..self.memory.len())
            }
            Step::GoBack { farm, version, wanted } => self.go_back(&before, *farm, *version, wanted),
            Step::Check { request, response, number } => compare(number, &face::check(request, response)),
            Step::Fresh { number } => self.fresh(&before, *number),
            Step::Reply { size } => {
                self.reply_size = *size;
                Ok(())
            }
            Step::Memory { longer } => {
                self.lent = self.size.saturating_add_signed(*longer);
                Ok(())
            }
            Step::Fill { part, byte } => {
                let part_size = self.size / PARTS;
                self.memory[(part - 1) * part_size..part * part_size].fill(*byte);
                Ok(())
            }
            Step::Loop { .. } => Ok(()),
        }
    }

    fn go_back(&mut self, before: &[u8], farm: u32, version: u32, wanted: &Returned) -> Result<(), (String, String)> {
        let returned = face::go_back(&mut self.memory[..self.lent], farm, version);
        compare(wanted, &returned)?;
        self.untouched(before, returned.number, farm)
    }

    /// Asks for a fresh station, which leaves what stands behind it, and all where it is refused.
    fn fresh(&mut self, before: &[u8], wanted: u8) -> Result<(), (String, String)> {
        let got = face::fresh(&mut self.memory[..self.lent]);
        compare(&wanted, &got)?;
        let start = if got == 0 { self.size } else { 0 };
        self.same(before, start..self.memory.len())
    }

    /// Sends a frame with a station and a reply memory: what is wrong with its answer or its reply; else its number.
    fn frame(
        &mut self,
        send: impl Fn(&mut [u8], &mut [u8]) -> Framed,
        wanted: &FrameAnswer,
    ) -> Result<u8, (String, String)> {
        let mut reply = vec![REPLY_BYTE; self.reply_size];
        let Framed { length, stored, number } = send(&mut self.memory[..self.lent], &mut reply);
        let length = usize::from(length);
        if length > reply.len() {
            return Err((wanted.to_string(), format!("{number} {stored} and a length of {length}")));
        }
        let past = reply.split_off(length);
        compare(wanted, &FrameAnswer { number, stored, reply })?;
        if past.iter().any(|byte| *byte != REPLY_BYTE) {
            return Err(("the reply memory past the reply untouched".to_string(), hex(&past)));
        }
        Ok(number)
    }

    /// On the memory before a merged call, the library's own calls in turn answer the same and leave the same.
    fn same_in_turn(&self, before: Vec<u8>, step: &Step) -> Result<(), (String, String)> {
        let Step::Frame { farm, sending: Sending::Merged, frame, wanted } = step else { return Ok(()) };
        let mut other = Bench { memory: before, asked: HashMap::new(), ..*self };
        let done = other.frame(|station, reply| in_turn(station, *farm, frame, reply), wanted);
        done.and_then(|_| self.same(&other.memory, 0..self.memory.len()))
            .map_err(|(expected, got)| (format!("beside two calls in turn {expected}"), got))
    }

    /// A response that the station gave passes for its request: the merged call's own, or what the farm wrote last.
    fn own_response(&mut self, step: &Step) -> Result<(), (String, String)> {
        let Step::Frame { farm, sending, frame, wanted } = step else { return Ok(()) };
        let (0, [function, _, _, _, block @ ..]) = (wanted.number, frame.as_slice()) else { return Ok(()) };
        let request = match (sending, *function) {
            (Sending::Merged, _) => block.to_vec(),
            (Sending::Alone, WRITE) => {
                self.asked.insert(*farm, block.to_vec());
                return Ok(());
            }
            (Sending::Alone, _) => self.asked.remove(farm).unwrap_or_default(),
        };
        self.checked += 1;
        compare(&0, &face::check(&request, wanted.reply.get(4..).unwrap_or_default()))
            .map_err(|(expected, got)| (format!("from the checker {expected}"), got))
    }

    /// A refusal changes nothing; an answered call changes the caller's part alone.
    fn untouched(&self, before: &[u8], number: u8, caller: u32) -> Result<(), (String, String)> {
        let part_size = self.size / PARTS;
        match (number, caller as usize) {
            (0, part @ 1..=PARTS) => {
                self.same(before, 0..(part - 1) * part_size)?;
                self.same(before, part * part_size..self.memory.len())
            }
            _ => self.same(before, 0..self.memory.len()),
        }
    }

    fn same(&self, before: &[u8], mut range: std::ops::Range<usize>) -> Result<(), (String, String)> {
        match range.find(|at| before[*at] != self.memory[*at]) {
            None => Ok(()),
            Some(at) => {
                Err((format!("memory byte {at} left at {:02X}", before[at]), format!("{:02X}", self.memory[at])))
            }
        }
    }
}

fn compare<A: PartialEq + fmt::Display>(wanted: &A, got: &A) -> Result<(), (String, String)> {
    match wanted == got {
        true => Ok(()),
        false => Err((wanted.to_string(), got.to_string())),
    }
}

/// Plays a case: how many responses were checked.
fn play_case(case: &Case, size: usize) -> Result<usize, Failure> {
    let mut bench = Bench::new(size);
    let start = Line { number: 0, asked: "fresh".to_string(), step: Step::Fresh { number: 0 } };
    bench.play(&[start])?;
    bench.play(&case.steps)?;
    Ok(bench.checked)
}

/// What the files came to.
#[derive(Default)]
struct Tally {
    names: HashSet<String>,
    played: usize,
    checked: usize,
    failed: usize,
    unread: usize,
}

impl Tally {
    fn file(&mut self, file: &str, size: usize) {
        match fs::read_to_string(file).map_err(|error| error.to_string()).and_then(|text| read_cases(&text)) {
            Ok(cases) => cases.iter().for_each(|case| self.case(file, case, size)),
            Err(why) => {
                println!("{file}: {why}");
                self.unread += 1;
            }
        }
    }

    fn case(&mut self, file: &str, case: &Case, size: usize) {
        self.played += 1;
        if !self.names.insert(case.name.clone()) {
            println!("{file}: case {}: the name stands twice", case.name);
            self.failed += 1;
            return;
        }
        match play_case(case, size) {
            Ok(checked) => self.checked += checked,
            Err(Failure { line, asked, expected, got }) => {
                println!("{file}: case {}, line {line}, {asked}: expected {expected}, got {got}", case.name);
                self.failed += 1;
            }
        }
    }
}

fn main() -> ExitCode {
    let files: Vec<String> = env::args().skip(1).collect();
    let size = face::size();
    if files.is_empty() || size == 0 || size % PARTS != 0 {
        eprintln!("usage: play-examples FILE... (a station has {size} bytes, which must be 16 equal parts)");
        return ExitCode::FAILURE;
    }
    let mut tally = Tally::default();
    for file in &files {
        tally.file(file, size);
    }
    let Tally { played, checked, failed, unread, .. } = tally;
    println!("{played} examples, {failed} failed; {checked} responses of the station checked for their requests");
    match failed + unread {
        0 => ExitCode::SUCCESS,
        _ => ExitCode::FAILURE,
    }
}
