//! Programs that are started to be timed or counted.

use std::fmt::Display;
use std::fs::File;
use std::io::{self, Error};
use std::process::{Command, ExitStatus, Stdio};
use std::time::Instant;

/// The words that start a program, the program and its arguments.
pub struct Started(Vec<String>);

impl Started {
    pub fn new(by: &str, program: &str, arguments: &[&str]) -> Started {
        let words = by.split_whitespace().chain([program]).chain(arguments.iter().copied());
        Started(words.map(str::to_string).collect())
    }

    fn command(&self, input: &str) -> io::Result<Command> {
        let mut command = Command::new(&self.0[0]);
        let input = File::open(input).map_err(|error| Error::other(format!("{input}: {error}")))?;
        command.args(&self.0[1..]).stdin(input);
        Ok(command)
    }

    fn failed(&self, why: impl Display) -> Error {
        Error::other(format!("{}: {why}", self.0.join(" ")))
    }

    fn ended(&self, status: ExitStatus) -> io::Result<()> {
        match status.success() {
            true => Ok(()),
            false => Err(self.failed(status)),
        }
    }

    /// What it writes on this input.
    pub fn output(&self, input: &str) -> io::Result<Vec<u8>> {
        let output = self.command(input)?.stderr(Stdio::inherit()).output().map_err(|error| self.failed(error))?;
        self.ended(output.status)?;
        Ok(output.stdout)
    }

    /// Nanoseconds from its start to its end.
    pub fn time(&self, input: &str) -> io::Result<f64> {
        let mut command = self.command(input)?;
        let begin = Instant::now();
        let status = command.stdout(Stdio::null()).status().map_err(|error| self.failed(error))?;
        let time = begin.elapsed().as_nanos() as f64;
        self.ended(status)?;
        Ok(time)
    }

    /// The instructions that a counter reports at its end: the number after `Collected :`.
    pub fn count(&self, input: &str) -> io::Result<f64> {
        let output = self.command(input)?.output().map_err(|error| self.failed(error))?;
        self.ended(output.status)?;
        let said = String::from_utf8_lossy(&output.stderr);
        let after = said.rsplit_once("Collected :").map(|(_, after)| after);
        let number = after.and_then(|after| after.split_whitespace().next()?.parse().ok());
        number.ok_or_else(|| self.failed(format!("counted nothing: {said}")))
    }
}
