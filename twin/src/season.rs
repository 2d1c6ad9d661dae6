//! The season report: ten counts for each farm over a journal's history.

use crate::axis::{State, Station, AXES};
use crate::cycle::Ran;
use crate::frame::{Framed, REPLY_MIN};
use crate::record::{Journal, Next, Record};
use crate::versions::Returned;
use std::io::{self, BufWriter, Read, Write};

/// Counts of one farm.
pub const COUNTS: usize = 10;

/// One farm's counts in the order of its line; the first six are the cycles that ended in each state.
pub type Counts = [u64; COUNTS];

/// Every farm's counts; farm k's are `[k - 1]`.
pub type Totals = [Counts; AXES];

const ENTRIES: usize = 6;
const ACKNOWLEDGED: usize = 7;
const DENIED: usize = 8;
const STORED: usize = 9;

const FOREIGN_AXIS: u8 = 11;
const FULL: u8 = 13;

/// Why a report ended.
enum End {
    Whole,
    Bad,
    Refused(u8),
}

/// Runs a fresh station over a journal and writes its report. Only trouble with input or output is an error, and an
/// input in trouble gets no report: its totals would be those of another journal.
pub fn report(input: impl Read, output: impl Write) -> io::Result<()> {
    report_from([[0; COUNTS]; AXES], input, output)
}

/// The report of a journal that goes on from these totals.
pub(crate) fn report_from(mut totals: Totals, input: impl Read, output: impl Write) -> io::Result<()> {
    let end = run(&mut Journal::new(input), &mut totals)?;
    let mut output = BufWriter::new(output);
    write_totals(&mut output, &totals)?;
    match end {
        End::Whole => {}
        End::Bad => writeln!(output, "bad")?,
        End::Refused(number) => writeln!(output, "x {number}")?,
    }
    output.flush()
}

fn run(journal: &mut Journal<impl Read>, totals: &mut Totals) -> io::Result<End> {
    let mut station = Station::fresh();
    loop {
        match journal.next_record()? {
            Next::Record(record) => {
                if let Err(number) = count(&mut station, totals, &record) {
                    return Ok(End::Refused(number));
                }
            }
            Next::Bad => return Ok(End::Bad),
            Next::End => return Ok(End::Whole),
        }
    }
}

fn write_totals(output: &mut impl Write, totals: &Totals) -> io::Result<()> {
    for (farm, counts) in (1..).zip(totals) {
        write!(output, "r {farm}")?;
        for count in counts {
            write!(output, " {count}")?;
        }
        writeln!(output)?;
    }
    Ok(())
}

/// Makes a record's call and adds its counts; 13 where one of them would reach 2^64, and then none is added.
pub fn count(station: &mut Station, totals: &mut Totals, record: &Record) -> Result<(), u8> {
    match *record {
        Record::Cycle { axis, flags, stw1, nsoll, nist, fault } => {
            match station.run(axis.into(), flags.into(), stw1, nsoll, nist, fault) {
                Ok(ran) => add(totals, axis, &cycle_counts(&ran)),
                Err(_) => Ok(()),
            }
        }
        Record::Frame { farm, frame } => {
            let framed = station.frame(farm.into(), frame, &mut [0; REPLY_MIN]);
            add(totals, farm, &frame_counts(&framed))
        }
        Record::Exchange { farm, frame } => {
            let framed = station.exchange(farm.into(), frame, &mut [0; REPLY_MIN]);
            add(totals, farm, &frame_counts(&framed))
        }
        Record::GoBack { farm, version } => {
            let returned = station.go_back(farm.into(), version.into());
            add(totals, farm, &return_counts(&returned))
        }
    }
}

/// What an accepted cycle counts.
fn cycle_counts(ran: &Ran) -> Counts {
    let mut counts = [0; COUNTS];
    counts[state_count(ran.to)] = 1;
    counts[ENTRIES] = u64::from(ran.to == State::S4 && ran.from != State::S4);
    counts[ACKNOWLEDGED] = u64::from(ran.acknowledged);
    counts
}

fn state_count(state: State) -> usize {
    match state {
        State::S1 => 0,
        State::S2 => 1,
        State::S3 => 2,
        State::S4 => 3,
        State::S51 => 4,
        State::S52 => 5,
    }
}

/// What a frame or a merged call counts, refused or not.
fn frame_counts(framed: &Framed) -> Counts {
    let mut counts = [0; COUNTS];
    counts[DENIED] = u64::from(framed.number == FOREIGN_AXIS);
    counts[STORED] = framed.stored.into();
    counts
}

/// What a going back counts; a refused one has stored nothing.
fn return_counts(returned: &Returned) -> Counts {
    let mut counts = [0; COUNTS];
    counts[STORED] = returned.stored.into();
    counts
}

/// Adds to one farm's counts, all or none; whoever is no farm has no counts.
fn add(totals: &mut Totals, farm: u8, more: &Counts) -> Result<(), u8> {
    let Some(counts) = usize::from(farm).checked_sub(1).and_then(|index| totals.get_mut(index)) else { return Ok(()) };
    let mut sums = *counts;
    for (sum, more) in sums.iter_mut().zip(more) {
        *sum = sum.checked_add(*more).ok_or(FULL)?;
    }
    *counts = sums;
    Ok(())
}
