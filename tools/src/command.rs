//! What all commands share: their exit status, the journal that they are given, the lines that they print, and how far they are.

use crate::played::{Next, Played, Player};
use crate::progress::Progress;
use crate::text;
use crate::words::counted;
use std::ffi::OsStr;
use std::fmt::{self, Display, Formatter};
use std::fs::File;
use std::io::{self, BufReader, BufWriter, Read, Seek, StdoutLock, Write};
use std::path::Path;
use std::process::Stdio;

/// How a command ended, where there was no trouble with a file, which is a message and exit status 2.
#[derive(Clone, Copy, Debug, PartialEq, Eq)]
pub enum Ended {
    /// Exit status 0.
    Good,
    /// Exit status 1: something was found wrong, and was told.
    Bad,
}

/// Says something on standard error. Where nobody hears it, nothing else is lost.
pub fn say(words: impl Display) {
    let _ = write!(io::stderr(), "{words}");
}

/// Why something failed, in the system's words and without its number.
pub fn reason(error: &io::Error) -> String {
    let words = error.to_string();
    match words.find(" (os error") {
        Some(end) => words[..end].to_string(),
        None => words,
    }
}

/// Why something of this name failed.
pub fn trouble(name: &str) -> impl Fn(io::Error) -> String + '_ {
    move |error| format!("{name}: {}", reason(&error))
}

/// A file to be read, which is told of as it was typed; `-` is standard input.
pub struct Journal {
    /// Its name.
    pub name: String,
    /// The file, for the program that reads it.
    pub stdio: Stdio,
    /// Its bytes, where it is a file that has them all.
    pub bytes: Option<u64>,
}

impl Journal {
    /// Opens it. A file that begins as a text does is refused: who wrote one by hand should hear more than that record 1 is bad.
    pub fn open(typed: &OsStr) -> Result<Journal, String> {
        let (name, mut file, bytes) = opened(typed, || None, Some)?;
        if bytes.is_some() && file.as_mut().is_some_and(begins_as_text) {
            return Err(format!("{name}: it begins as a text does; './llinkhiro journal' makes a journal of a text"));
        }
        Ok(Journal { name, stdio: file.map_or_else(Stdio::inherit, Stdio::from), bytes })
    }
}

/// Whether a file begins as a text does; it is left where it begins.
fn begins_as_text(file: &mut File) -> bool {
    let mut first = [0];
    let is_text = matches!(file.read(&mut first), Ok(1)) && text::is_text(&first);
    file.rewind().is_ok() && is_text
}

/// A file that is read here, named in the same way.
pub struct Source {
    /// Its name.
    pub name: String,
    /// What is in it.
    pub input: BufReader<Box<dyn Read>>,
    /// Its bytes, where it is a file that has them all.
    pub bytes: Option<u64>,
}

impl Source {
    /// Opens it.
    pub fn open(typed: &OsStr) -> Result<Source, String> {
        let standard_input = || -> Box<dyn Read> { Box::new(io::stdin()) };
        let (name, input, bytes) = opened(typed, standard_input, |file| Box::new(file))?;
        Ok(Source { name, input: BufReader::with_capacity(1 << 16, input), bytes })
    }
}

/// The name of a file, what is made of it or of standard input, and its bytes, where it is a file that has them all.
fn opened<T>(
    typed: &OsStr,
    standard_input: impl FnOnce() -> T,
    made_of: impl FnOnce(File) -> T,
) -> Result<(String, T, Option<u64>), String> {
    if typed == "-" {
        return Ok(("standard input".to_string(), standard_input(), None));
    }
    let name = Path::new(typed).display().to_string();
    let opened = File::open(typed).and_then(|file| file.metadata().map(|found| (file, found)));
    match opened {
        Ok((_, found)) if found.is_dir() => Err(format!("{name}: Is a directory")),
        Ok((file, found)) => Ok((name, made_of(file), found.is_file().then_some(found.len()))),
        Err(error) => Err(trouble(&name)(error)),
    }
}

/// Standard output. What is written waits until it is much, or until more of the journal is waited for.
pub struct Output(BufWriter<StdoutLock<'static>>);

impl Output {
    /// Standard output of this program.
    pub fn new() -> Output {
        Output(BufWriter::with_capacity(1 << 16, io::stdout().lock()))
    }

    /// Writes a line.
    pub fn line(&mut self, line: impl Display) -> Result<(), String> {
        writeln!(self.0, "{line}").map_err(lost)
    }

    /// Writes bytes.
    pub fn bytes(&mut self, bytes: &[u8]) -> Result<(), String> {
        self.0.write_all(bytes).map_err(lost)
    }

    /// Writes what still waits.
    pub fn flush(&mut self) -> Result<(), String> {
        self.0.flush().map_err(lost)
    }
}

impl Default for Output {
    fn default() -> Output {
        Output::new()
    }
}

fn lost(error: io::Error) -> String {
    trouble("standard output")(error)
}

/// What is said under what is told of a journal.
pub const NO_CLOCK: &str = "A journal has no clock: it counts records, the lines of its replay.";

/// How much of a journal was played.
#[derive(Clone, Copy, Debug, PartialEq, Eq)]
pub struct Length {
    /// The whole records.
    pub records: u64,
    /// Whether something followed them that is no record.
    pub bad: bool,
}

impl Length {
    /// Says of a bad record which it is.
    pub fn ended(self, name: &str) -> Ended {
        if !self.bad {
            return Ended::Good;
        }
        say(format_args!("{name}: record {} is bad\n", self.records + 1));
        Ended::Bad
    }
}

impl Display for Length {
    fn fmt(&self, f: &mut Formatter) -> fmt::Result {
        let records = counted(self.records, "record");
        match self.bad {
            true => write!(f, "the {records} before a bad one"),
            false => f.write_str(&records),
        }
    }
}

/// Plays a journal to its end, or to a bad record, and gives each record to `tell` with what came of it. Before more of the journal is
/// waited for, all that was told is written.
pub fn play(
    journal: Journal,
    output: &mut Output,
    mut tell: impl FnMut(&Player, &Played, &mut Output) -> Result<(), String>,
) -> Result<Length, String> {
    let name = journal.name.clone();
    let mut far = Far::new(&name, journal.bytes);
    let mut player = Player::start(journal)?;
    let mut length = Length { records: 0, bad: false };
    loop {
        match player.advance().map_err(trouble(&name))? {
            Next::Played(played) => {
                length.records += 1;
                far.step(played.record.length());
                tell(&player, &played, output)?;
            }
            next => {
                length.bad = matches!(next, Next::Bad);
                return Ok(length);
            }
        }
        if player.is_caught_up() {
            output.flush()?;
        }
    }
}

/// How far a long file is, told in a line of its own.
pub struct Far {
    name: String,
    bytes: Option<u64>,
    done: u64,
    steps: u64,
    progress: Progress,
}

impl Far {
    /// Steps between two looks at the clock.
    const LOOK: u64 = 1 << 12;

    /// At the begin of a file of this name, and of so many bytes, if that is known.
    pub fn new(name: &str, bytes: Option<u64>) -> Far {
        Far { name: name.to_string(), bytes, done: 0, steps: 0, progress: Progress::beside_output() }
    }

    /// So many bytes more are done.
    pub fn step(&mut self, bytes: usize) {
        self.done += bytes as u64;
        self.steps += 1;
        if self.steps % Far::LOOK == 0 {
            self.progress.tell(|| progress_of(&self.name, self.done, self.bytes));
        }
    }
}

/// How much of a file is done, in words.
fn progress_of(name: &str, done: u64, bytes: Option<u64>) -> String {
    match bytes.filter(|bytes| *bytes > 0) {
        Some(all) => format!("{name}: {} % of {} MB", 100 * done / all, all / 1_000_000),
        None => format!("{name}: {} MB", done / 1_000_000),
    }
}
