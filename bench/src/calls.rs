//! The rows of calls: the three sides in one program.

use crate::measure::{answers, run, started};
use crate::outside::Started;
use crate::rows::{in_one_call, in_two_calls, rows, Row, MERGED};
use crate::sides::{Ours, Plain, Side, Twin};
use crate::table::{both, least, less, line, saved, slope, Figures, SIDES};
use std::error::Error;
use std::io;
use std::time::Instant;

/// Nanoseconds of a batch: so long that the clock does not count, so short that many go by without the machine turning to others.
const BATCH: f64 = 2e6;
/// Batches of each side; the best of them counts, since what disturbs a batch can only make it longer.
const ROUNDS: usize = 100;
/// Passes over a row's calls while instructions are counted; they are the same in each, so a few do.
const COUNTED_PASSES: usize = 50;

/// A row with what a unit of it costs.
struct Measured<'a> {
    row: &'a Row,
    time: Figures,
    count: Figures,
}

/// Measures every row and prints its line, then the rows together, how the cost grows with the addresses and what the merged call
/// saves. Where the merged call costs more instead, or a row of ours more instructions than plain C's, it is the caller's to tell once
/// the table is whole.
pub fn measure(counter: &str) -> Result<Result<(), String>, Box<dyn Error>> {
    let rows = rows();
    for row in &rows {
        alike(row).map_err(|why| format!("{}: {why}", row.name))?;
    }
    let mut measured = Vec::new();
    for (row, time) in rows.iter().zip(timed(&rows)) {
        let count = counted(counter, row)?;
        line(&row.name, time.map(Some), count.map(Some));
        measured.push(Measured { row, time, count });
    }
    together(&measured);
    growth(&measured);
    let savings = MERGED.map(|what| saving(&measured, what));
    let judged = savings.into_iter().chain(measured.iter().map(no_dearer));
    let failures: Vec<String> = judged.filter_map(Result::err).collect();
    Ok(if failures.is_empty() { Ok(()) } else { Err(failures.join("; ")) })
}

/// One call of each row.
fn together(measured: &[Measured]) {
    let sum = |cost: fn(&Measured) -> Figures| measured.iter().map(cost).fold([0.0; SIDES.len()], both);
    line("all rows together", sum(|one| one.time).map(Some), sum(|one| one.count).map(Some));
}

/// A row of ours takes no more instructions than plain C's. So no sum of rows does.
fn no_dearer(one: &Measured) -> Result<(), String> {
    let [ours, _, plain] = one.count;
    match ours <= plain {
        true => Ok(()),
        false => Err(format!("{}: ours takes {ours} instructions, plain C {plain}", one.row.name)),
    }
}

fn growth(measured: &[Measured]) {
    let points = |cost: fn(&Measured) -> Figures| -> Vec<(f64, Figures)> {
        measured.iter().filter_map(|one| Some((one.row.addresses? as f64, cost(one)))).collect()
    };
    line("each further address read", slope(&points(|one| one.time)), slope(&points(|one| one.count)));
}

/// What the merged call saves of the write and the fetch. To save less than nothing is a failure of ours, and so is a row that is
/// missing.
fn saving(measured: &[Measured], what: &str) -> Result<(), String> {
    let find = |name: String| measured.iter().find(|one| one.row.name == name).ok_or(format!("no row '{name}'"));
    let (two, one) = (find(in_two_calls(what))?, find(in_one_call(what))?);
    let (time, count) = (less(two.time, one.time), less(two.count, one.count));
    saved(&format!("merging saves, {what}"), time.map(Some), count.map(Some));
    match count[0] {
        ours if ours >= 0.0 => Ok(()),
        ours => Err(format!("{what}: our merged call takes {} instructions more than write and fetch", -ours)),
    }
}

/// All three answer alike, with the row's number, and a later pass as the first one.
fn alike(row: &Row) -> Result<(), String> {
    let (ours, twin, plain) = (answers::<Ours>(row, 3), answers::<Twin>(row, 3), answers::<Plain>(row, 3));
    for (i, answer) in ours.iter().enumerate() {
        if *answer != twin[i] || *answer != plain[i] {
            return Err(format!("call {i}: ours {answer:?}, twin {:?}, C {:?}", twin[i], plain[i]));
        }
        if answer.number() != row.number {
            return Err(format!("call {i} has number {}", answer.number()));
        }
    }
    let (first, later) = ours[row.start.len()..].split_at(row.calls.len());
    match later.chunks(first.len()).all(|pass| pass == first) {
        true => Ok(()),
        false => Err("the calls do not end where they began".into()),
    }
}

/// One row, and the least that each side has taken.
struct Timed<'a> {
    row: &'a Row,
    passes: usize,
    best: Figures,
}

/// Each round takes every row and every side once, so that a slow spell of the machine falls on all of them.
fn timed(rows: &[Row]) -> Vec<Figures> {
    let mut all: Vec<Timed> = rows.iter().map(Timed::new).collect();
    for _ in 0..ROUNDS {
        all.iter_mut().for_each(Timed::round);
    }
    all.iter().map(Timed::costs).collect()
}

impl Timed<'_> {
    fn new(row: &Row) -> Timed<'_> {
        let mut timed = Timed { row, passes: 1, best: [f64::INFINITY; SIDES.len()] };
        while 2 * timed.passes <= row.most_passes() && timed.shortest() < BATCH {
            timed.passes *= 2;
        }
        timed
    }

    fn shortest(&self) -> f64 {
        self.batches().into_iter().fold(f64::INFINITY, f64::min)
    }

    /// Nanoseconds of a batch of each side.
    fn batches(&self) -> Figures {
        let (row, passes) = (self.row, self.passes);
        [time::<Ours>(row, passes), time::<Twin>(row, passes), time::<Plain>(row, passes)]
    }

    fn round(&mut self) {
        let batches = self.batches();
        self.best = least(self.best, batches);
    }

    fn costs(&self) -> Figures {
        self.best.map(|nanoseconds| nanoseconds / (self.passes * self.row.units) as f64)
    }
}

/// On a station of its own, since versions are numbered for as long as a station lives.
fn time<S: Side>(row: &Row, passes: usize) -> f64 {
    let mut side = started::<S>(row);
    let begin = Instant::now();
    run(&mut side, row, passes);
    begin.elapsed().as_nanos() as f64
}

fn counted(counter: &str, row: &Row) -> io::Result<Figures> {
    let [ours, twin, plain] = SIDES.map(|side| instructions(counter, row, side));
    Ok([ours?, twin?, plain?])
}

/// Instructions of one unit of the row, by this program under a counter: what twice the passes take more.
fn instructions(counter: &str, row: &Row, side: &str) -> io::Result<f64> {
    let program = std::env::current_exe()?;
    let count = |passes: usize| {
        let arguments = ["pass", &row.name, side, &passes.to_string()];
        Started::new(counter, &program.to_string_lossy(), &arguments).count("/dev/null")
    };
    Ok((count(2 * COUNTED_PASSES)? - count(COUNTED_PASSES)?) / (COUNTED_PASSES * row.units) as f64)
}

/// What is counted: the row of this name by one side.
pub fn pass(name: &str, side: &str, passes: &str) -> Result<(), Box<dyn Error>> {
    let rows = rows();
    let row = rows.iter().find(|row| row.name == name).ok_or("no such row")?;
    let passes = passes.parse()?;
    match SIDES.iter().position(|known| *known == side) {
        Some(0) => run(&mut started::<Ours>(row), row, passes),
        Some(1) => run(&mut started::<Twin>(row), row, passes),
        Some(2) => run(&mut started::<Plain>(row), row, passes),
        _ => return Err("no such side".into()),
    }
    Ok(())
}
