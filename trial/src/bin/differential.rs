//! Drives the library and its twin with the same calls and stops at the first difference.

#![forbid(unsafe_code)]
#![deny(warnings)]

use std::process::ExitCode;
use std::time::{Duration, Instant};
use tools::layout::HEADER;
use tools::progress::Progress;
use tools::sending::{Sending, READ};
use trial::blocks::{self, Kind};
use trial::checks::{Check, Own};
use trial::kept;
use trial::meaning::{field_at, response_of, PART, STATION, VERSIONS};
use trial::merged;
use trial::pair::{hex, Answer, Call, Difference, Pair, GUARD, REPLY_MAX};
use trial::parts;
use trial::random::Random;
use trial::tally::{Setting, Tally};
use trial::words;
use twin::{well_formed, Axis, Framed, AXES};

const USAGE: &str = "usage: differential [--calls N] [--seed S] [--minutes M]";
const CALLS: u64 = 1_000_000;
const SEED: u64 = 1;
/// All parts are compared after so many calls.
const ALL_PARTS: u64 = 1000;
/// A run of so many calls that misses something the tally asks for has failed too.
const REACHES_ALL: u64 = 200_000;
/// One in so many merged calls and goings back is judged by other calls of the library too.
const ONE_JUDGED_OF: usize = 4;
/// Farms, axes and thus owners that do not exist, some of which a silent conversion would make exist.
const NOBODY: [u32; 10] = [0, 17, 18, 255, 256, 257, 272, 0x0001_0001, 0x8000_0001, u32::MAX];

fn main() -> ExitCode {
    let options = match Options::from_arguments() {
        Ok(options) => options,
        Err(wrong) => {
            eprintln!("{wrong}\n{USAGE}");
            return ExitCode::from(2);
        }
    };
    println!("seed {}", options.seed);
    match run(&options) {
        Ok(tally) => finish(&tally),
        Err(found) => {
            println!("{found}\nseed {}", options.seed);
            ExitCode::FAILURE
        }
    }
}

fn finish(tally: &Tally) -> ExitCode {
    print!("{tally}");
    let missing = tally.missing();
    if !missing.is_empty() {
        println!("not met    {}", missing.join(", "));
    }
    println!("{} calls, 0 disagreements", tally.calls);
    if missing.is_empty() || tally.calls < REACHES_ALL {
        return ExitCode::SUCCESS;
    }
    println!("failed: so many calls should have met all");
    ExitCode::FAILURE
}

struct Options {
    calls: u64,
    seed: u64,
    time: Option<Duration>,
}

impl Options {
    fn from_arguments() -> Result<Options, String> {
        let mut options = Options { calls: CALLS, seed: SEED, time: None };
        let mut arguments = std::env::args().skip(1);
        while let Some(name) = arguments.next() {
            let value = arguments.next().ok_or(format!("{name} wants a value"))?;
            let wrong = |_| format!("{name} {value} is no number");
            match name.as_str() {
                "--calls" => options.calls = value.parse().map_err(wrong)?,
                "--seed" => options.seed = value.parse().map_err(wrong)?,
                "--minutes" => options.time = Some(Duration::from_secs(60 * value.parse::<u64>().map_err(wrong)?)),
                _ => return Err(format!("{name} is no option")),
            }
        }
        Ok(options)
    }
}

/// Calls until the count or the time is reached.
fn run(options: &Options) -> Result<Tally, String> {
    let mut trial = Trial {
        random: Random::new(options.seed),
        pair: Pair::fresh().map_err(|difference| format!("disagreement at the first fresh station: {difference:?}"))?,
        tally: Tally::default(),
        own: Own::default(),
        altered: 0,
        altered_versions: 0,
    };
    let start = Instant::now();
    let mut progress = Progress::new();
    loop {
        let calls = trial.tally.calls;
        match options.time {
            None if calls >= options.calls => break,
            Some(time) if calls % ALL_PARTS == 0 && start.elapsed() >= time => break,
            _ => {}
        }
        trial.step()?;
        if calls % ALL_PARTS == 0 {
            progress.tell(|| format!("{} s, {calls} calls", start.elapsed().as_secs()));
        }
    }
    Ok(trial.tally)
}

/// A call that was answered as it should be.
struct Done {
    call: Call,
    answer: Answer,
    /// The owner's part before it.
    before: Option<Axis>,
    /// Bytes that the station was lent as.
    bytes: usize,
    kind: Kind,
    /// Whether other calls of the library were made beside it: those that it stands for, or reads of what it left.
    judged: bool,
}

/// A run under way.
struct Trial {
    random: Random,
    pair: Pair,
    tally: Tally,
    own: Own,
    altered: usize,
    altered_versions: usize,
}

impl Trial {
    /// One call, in one of the settings.
    fn step(&mut self) -> Result<(), String> {
        let index = self.random.below(AXES);
        match self.random.below(1000) {
            0..=149 => self.altered(index)?,
            150..=199 => self.altered_version(index)?,
            200..=219 => self.altered_elsewhere(index)?,
            220..=269 => self.planted(index)?,
            270..=279 => self.resized(index)?,
            280 if self.random.one_in(50) => self.call(Call::Fresh, STATION, Setting::Left, Kind::Free)?,
            281..=370 => self.check()?,
            _ => {
                let (call, kind) = self.make_call(index);
                self.call(call, STATION, Setting::Left, kind)?;
            }
        }
        if self.tally.calls % ALL_PARTS == 0 {
            self.pair.compare_all().map_err(|difference| format!("disagreement: {difference:?}"))?;
        }
        Ok(())
    }

    /// A byte of a part before its versions: each in turn, until every one has held every other value, and between times any
    /// one something near.
    fn altered(&mut self, index: usize) -> Result<(), String> {
        let part = *self.pair.part(index);
        if self.random.one_in(3) {
            let place = self.random.below(VERSIONS);
            let byte = self.other_byte(part[place]);
            return self.altered_to(index, place, byte);
        }
        let (place, more) = (self.altered % VERSIONS, self.altered / VERSIONS % 255);
        self.altered += 1;
        self.altered_to(index, place, part[place].wrapping_add(1 + more as u8))
    }

    /// A byte of the versions, each in turn: something near.
    fn altered_version(&mut self, index: usize) -> Result<(), String> {
        let place = VERSIONS + self.altered_versions % (PART - VERSIONS);
        self.altered_versions += 1;
        let byte = self.other_byte(self.pair.part(index)[place]);
        self.altered_to(index, place, byte)
    }

    /// A byte of a part holds something else for one call, and is then put back.
    fn altered_to(&mut self, index: usize, place: usize, byte: u8) -> Result<(), String> {
        let kept = *self.pair.part(index);
        let mut part = kept;
        part[place] = byte;
        self.pair.put(index, &part);
        let (call, kind) = self.make_call(index);
        let done = self.call(call, STATION, Setting::Altered, kind);
        self.pair.put(index, &kept);
        done.map_err(|found| format!("{found}\naltered: {:?} of the part was {:02X}", field_at(place), kept[place]))
    }

    /// A neighbour, a bit's worth of difference, or any other byte.
    fn other_byte(&mut self, byte: u8) -> u8 {
        match self.random.below(4) {
            0 => byte.wrapping_add(1),
            1 => byte.wrapping_sub(1),
            2 => byte ^ 1 << self.random.below(8),
            _ => byte ^ (1 + self.random.below(255) as u8),
        }
    }

    /// What another's part holds is nothing to the caller.
    fn altered_elsewhere(&mut self, index: usize) -> Result<(), String> {
        let other = (index + 1 + self.random.below(AXES - 1)) % AXES;
        let kept = *self.pair.part(other);
        let mut part = kept;
        let place = self.random.below(PART);
        part[place] = self.other_byte(kept[place]);
        self.pair.put(other, &part);
        let (call, kind) = self.make_call(index);
        let done = self.call(call, STATION, Setting::AlteredElsewhere, kind);
        self.pair.put(other, &kept);
        done
    }

    /// A made-up part stays if it is well-formed.
    fn planted(&mut self, index: usize) -> Result<(), String> {
        let kept = *self.pair.part(index);
        let part = parts::part(&mut self.random, index as u8 + 1);
        self.pair.put(index, &part);
        let stays = trial::meaning::decode(&part).is_ok_and(|axis| well_formed(&axis, index as u8 + 1));
        let (call, kind) = self.make_call(index);
        self.call(call, STATION, Setting::Planted, kind)?;
        if !stays {
            self.pair.put(index, &kept);
        }
        Ok(())
    }

    fn resized(&mut self, index: usize) -> Result<(), String> {
        let sizes = [STATION - 1, STATION + 1, STATION - PART, STATION + PART, PART, 0, 1, STATION + GUARD];
        let bytes = self.random.pick(&sizes);
        let (mut call, kind) = if self.random.one_in(4) { (Call::Fresh, Kind::Free) } else { self.make_call(index) };
        if let (true, Some(number)) = (self.random.one_in(8), call.caller()) {
            *number = self.random.pick(&NOBODY);
        }
        self.call(call, bytes, Setting::Resized, kind)
    }

    /// A check knows no station, so that it is lent none.
    fn check(&mut self) -> Result<(), String> {
        let check = Check::make(&mut self.random, &mut self.own);
        self.call(Call::Check(check), 0, Setting::Unlent, Kind::Free)
    }

    /// A call of the owner of this part, or seldom of nobody.
    fn make_call(&mut self, index: usize) -> (Call, Kind) {
        let random = &mut self.random;
        let number = if random.one_in(150) { random.pick(&NOBODY) } else { index as u32 + 1 };
        let part = self.pair.axis(index);
        if random.percent(40) {
            return (Call::Cycle(number, words::inputs(random, part)), Kind::Free);
        }
        if random.percent(4) {
            return (Call::List(number), Kind::Free);
        }
        if random.percent(12) {
            return (Call::GoBack(number, kept::version(random, &part.versions)), Kind::Free);
        }
        let waiting = part.waiting.as_ref().map(|waiting| waiting.length);
        let (sending, kind, frame) = blocks::frame(random, index as u8 + 1, waiting);
        let reply = match random.below(40) {
            0 => 243,
            1 => random.pick(&[0, 0, 1, 4, 240, 242]),
            2 => random.below(REPLY_MAX),
            3..=12 => 300,
            _ => 244,
        };
        (Call::Frame(number, sending, frame, reply), kind)
    }

    fn call(&mut self, call: Call, bytes: usize, setting: Setting, kind: Kind) -> Result<(), String> {
        let before = call.owner().map(|owner| self.pair.axis(owner).clone());
        let pattern = self.random.byte();
        let judged =
            matches!(call, Call::Frame(_, Sending::Merged, ..) | Call::GoBack(..)) && self.random.one_in(ONE_JUDGED_OF);
        let made = match call {
            Call::Frame(..) if judged => self.pair.call_and_in_turn(&call, bytes, pattern),
            Call::GoBack(..) if judged => self.pair.call_and_read(&call, bytes, pattern),
            _ => self.pair.call(&call, bytes, pattern),
        };
        let answer = made.map_err(|difference| self.told(&call, bytes, setting, &difference))?;
        self.tally.setting(setting);
        self.count(&Done { call, answer, before, bytes, kind, judged });
        Ok(())
    }

    fn count(&mut self, done: &Done) {
        let sender = done.call.owner().zip(done.before.as_ref());
        if let (2, Some((owner, before))) = (done.answer.number(), sender) {
            self.count_ill_formed(owner, before, done.bytes);
        }
        match (&done.call, done.answer) {
            (Call::Cycle(_, inputs), Answer::Cycle(cycled)) => {
                self.tally.cycle(cycled.number);
                if let (0, Some((owner, before))) = (cycled.number, sender) {
                    self.tally.step(before, self.pair.axis(owner), inputs);
                }
            }
            (Call::Frame(_, sending, frame, _), Answer::Frame(framed)) => {
                self.tally.sent(*sending, done.kind);
                if let Some((owner, before)) = sender {
                    self.tally.kept.framed(*sending, frame, &framed, before, self.pair.axis(owner));
                }
                match sending {
                    Sending::Alone => self.count_frame(sender, frame, framed),
                    Sending::Merged => {
                        let (bytes, in_turn) = (done.bytes, done.judged);
                        let reply = &self.pair.reply()[..framed.length.into()];
                        self.tally.merged.count(&merged::Made { sender, bytes, frame, framed, reply, in_turn });
                        if framed.number == 0 {
                            self.own.merged(&frame[HEADER..], &reply[HEADER..]);
                        }
                    }
                }
            }
            (Call::List(_), Answer::List(listed)) => self.tally.kept.listed(&listed),
            (Call::GoBack(_, version), Answer::GoBack(returned)) => {
                let parts = sender.map(|(owner, before)| (before, self.pair.axis(owner)));
                let (version, read) = (*version, done.judged);
                self.tally.kept.returned(&kept::Made { parts, version, returned, read });
            }
            (Call::Check(check), Answer::Check(number)) => self.tally.checks.count(check, number),
            _ => self.tally.fresh(),
        }
    }

    /// A part that was refused with 2, in so many bytes of memory.
    fn count_ill_formed(&mut self, owner: usize, before: &Axis, bytes: usize) {
        self.tally.fills.ill_formed(before, owner as u8 + 1);
        if bytes == STATION {
            self.tally.kept.ill_formed(self.pair.part(owner), owner as u8 + 1);
        }
    }

    /// A frame sent alone by the owner of a part that was so before, or by nobody.
    fn count_frame(&mut self, sender: Option<(usize, &Axis)>, frame: &[u8], framed: Framed) {
        let tally = &mut self.tally;
        tally.frame(framed.number);
        let Some((owner, before)) = sender else { return };
        match (framed.number, frame) {
            (10, [_, _, _, _, block @ ..]) => tally.fills.refused(block),
            (0, [READ, ..]) => {
                tally.fills.fetched(response_of(before));
                tally.merged.fetched(owner, response_of(before));
                self.own.fetched(owner, response_of(before));
            }
            (0, [_, _, _, _, block @ ..]) => {
                let response = response_of(self.pair.axis(owner));
                tally.worked.count(block, response, framed.stored);
                tally.fills.worked(block, response);
                self.own.written(owner, block, response);
            }
            _ => {}
        }
    }

    /// All that is needed to see the difference again.
    fn told(&self, call: &Call, bytes: usize, setting: Setting, difference: &Difference) -> String {
        let Difference { what, ours, wanted } = difference;
        let part = call.owner().map_or(String::new(), |owner| {
            format!("\npart before  {}\npart after   {}", hex(self.pair.part_before(owner)), hex(self.pair.part(owner)))
        });
        format!(
            "disagreement: {what}\ncall {} in memory {setting:?}, {bytes} bytes\n{call}\nours    {ours}\nwanted  {wanted}{part}",
            self.tally.calls
        )
    }
}
