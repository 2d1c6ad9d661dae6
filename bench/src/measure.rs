//! Makes a row's calls of one side, for their answers or for what they cost.

use crate::rows::{Call, Row};
use crate::sides::Side;
use std::hint::black_box;
use twin::{Cycled, Framed, Listed, Returned, REPLY_MIN};

/// What one call answered; the whole reply memory is part of it.
#[derive(Debug, PartialEq, Eq)]
pub enum Answer {
    Cycle(Cycled),
    Frame(Framed, Vec<u8>),
    Versions(Listed),
    /// Its new number is told as the first pass would have it.
    GoBack(Returned),
    Check(u8),
}

impl Answer {
    pub fn number(&self) -> u8 {
        match self {
            Answer::Cycle(cycled) => cycled.number,
            Answer::Frame(framed, _) => framed.number,
            Answer::Versions(listed) => listed.number,
            Answer::GoBack(returned) => returned.number,
            Answer::Check(number) => *number,
        }
    }
}

/// The answers of the row's start and of some passes over its calls.
pub fn answers<S: Side>(row: &Row, passes: usize) -> Vec<Answer> {
    let mut side = S::fresh();
    let start = row.start.iter().map(|call| (call, 0));
    let calls = (0..passes).flat_map(|pass| row.calls.iter().map(move |call| (call, pass * row.versions())));
    start.chain(calls).map(|(call, taken)| answer(&mut side, call, taken as u16)).collect()
}

/// The answer of a call, before which so many versions were taken by earlier passes.
fn answer<S: Side>(side: &mut S, call: &Call, taken: u16) -> Answer {
    match call {
        Call::Cycle(cycle) => Answer::Cycle(side.cycle(cycle).into()),
        Call::Frame { farm, frame } => framed(|reply| side.frame(*farm, frame, reply)),
        Call::Exchange { farm, frame } => framed(|reply| side.exchange(*farm, frame, reply)),
        Call::Versions { farm } => Answer::Versions(side.versions(*farm).into()),
        Call::GoBack { farm, version } => {
            let returned: Returned = side.go_back(*farm, version + u32::from(taken)).into();
            Answer::GoBack(Returned { version: returned.version.wrapping_sub(taken), ..returned })
        }
        Call::Check { request, response } => Answer::Check(S::check(request, response)),
    }
}

/// The answer of a call that replies.
fn framed<F: Into<Framed>>(call: impl FnOnce(&mut [u8]) -> F) -> Answer {
    let mut reply = vec![0xA5; REPLY_MIN];
    let framed = call(&mut reply).into();
    Answer::Frame(framed, reply)
}

/// A side where the row's calls begin.
pub fn started<S: Side>(row: &Row) -> S {
    let mut side = S::fresh();
    for call in &row.start {
        answer(&mut side, call, 0);
    }
    side
}

/// Passes over the row's calls, on a side where they begin; the reply memory is not cleared between them.
pub fn run<S: Side>(side: &mut S, row: &Row, passes: usize) {
    let mut reply = [0; REPLY_MIN];
    let (versions, mut taken) = (row.versions() as u32, 0);
    for _ in 0..passes {
        for call in &row.calls {
            match black_box(call) {
                Call::Cycle(cycle) => {
                    black_box(side.cycle(cycle));
                }
                Call::Frame { farm, frame } => {
                    black_box(side.frame(*farm, frame, black_box(&mut reply)));
                }
                Call::Exchange { farm, frame } => {
                    black_box(side.exchange(*farm, frame, black_box(&mut reply)));
                }
                Call::Versions { farm } => {
                    black_box(side.versions(*farm));
                }
                Call::GoBack { farm, version } => {
                    black_box(side.go_back(*farm, version + taken));
                }
                Call::Check { request, response } => {
                    black_box(S::check(request, response));
                }
            }
        }
        taken += versions;
    }
}
