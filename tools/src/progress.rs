//! How far long work is: a line on a terminal, written over and over and taken away at the end. None goes into a pipe.

use crate::command::say;
use std::io::{self, IsTerminal};
use std::time::{Duration, Instant};

/// The line.
pub struct Progress {
    /// When it is written next; never where nobody sees it.
    next: Option<Instant>,
    shown: bool,
}

impl Progress {
    const STEP: Duration = Duration::from_millis(500);

    /// The line of work that has only just begun.
    pub fn new() -> Progress {
        Progress { next: io::stderr().is_terminal().then(|| Instant::now() + Progress::STEP), shown: false }
    }

    /// That of work whose lines on standard output are to be seen by themselves.
    pub fn beside_output() -> Progress {
        match io::stdout().is_terminal() {
            true => Progress { next: None, shown: false },
            false => Progress::new(),
        }
    }

    /// Writes the line, if it is time.
    pub fn tell(&mut self, line: impl FnOnce() -> String) {
        if self.next.is_some_and(|next| Instant::now() >= next) {
            say(format_args!("\r{}\x1B[K", line()));
            self.shown = true;
            self.next = Some(Instant::now() + Progress::STEP);
        }
    }
}

impl Default for Progress {
    fn default() -> Progress {
        Progress::new()
    }
}

impl Drop for Progress {
    fn drop(&mut self) {
        if self.shown {
            say("\r\x1B[K");
        }
    }
}
