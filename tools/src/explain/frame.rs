//! A frame or a merged call in words.

use super::refused;
use crate::faults;
use crate::hex;
use crate::layout::{Block, Side, Values, CHANGE, HEADER};
use crate::names::{self, UNREADABLE};
use crate::notation;
use crate::played::Framed;
use crate::sending::{request_in, Sending, FETCH, INDEX, READ};
use crate::words::counted;
use twin::Address;

/// The request of a farm whose response waits: a fetch names no address, and its response is told with these.
#[derive(Clone, Default)]
pub(super) struct Waiting(Option<Block>);

impl Waiting {
    /// A frame with its answer.
    pub(super) fn told(&mut self, sending: Sending, frame: &[u8], framed: &Framed) -> String {
        let asked = request_in(frame);
        let sent = sent(sending, frame, asked.as_ref());
        let answer = match framed.number {
            0 => self.done(sending, asked, framed),
            number => frame_refused(number, frame),
        };
        format!("{sent} -> {answer}")
    }

    /// The answer to a frame that was done: a write with this request, or a fetch.
    fn done(&mut self, sending: Sending, asked: Option<Block>, framed: &Framed) -> String {
        let stored = counted(framed.stored, "element");
        match (sending, asked) {
            (Sending::Merged, Some(asked)) if asked.identifier == CHANGE => changed(&framed.reply, &asked, &stored),
            (Sending::Merged, asked) => response(&framed.reply, asked.as_ref()),
            (Sending::Alone, None) => response(&framed.reply, self.0.take().as_ref()),
            (Sending::Alone, Some(asked)) => {
                let changes = asked.identifier == CHANGE;
                self.0 = Some(asked);
                if changes {
                    format!("acknowledged, {stored} stored")
                } else {
                    "acknowledged".to_string()
                }
            }
        }
    }
}

/// Why a frame was refused; of a block that is not readable, where.
fn frame_refused(number: u8, frame: &[u8]) -> String {
    match faults::fault(Side::Request, frame.get(HEADER..).unwrap_or_default()) {
        Some(fault) if number == UNREADABLE => {
            format!("refused: {}, {fault} ({number})", names::refusal(number, false))
        }
        _ => refused(number, frame.first() == Some(&READ)),
    }
}

/// What a farm sent, in words.
fn sent(sending: Sending, frame: &[u8], asked: Option<&Block>) -> String {
    let what = match (frame, asked) {
        (_, Some(block)) => notation::request(block),
        ([], _) => "a frame of no bytes".to_string(),
        _ => format!("{} ({})", hex::cut(&hex::digits_of(frame)), counted(frame.len(), "byte")),
    };
    match (sending, frame) {
        (Sending::Merged, _) => format!("makes the merged call, {what}"),
        (Sending::Alone, frame) if *frame == FETCH => "fetches".to_string(),
        (Sending::Alone, [READ, 0, INDEX, most]) => format!("fetches at most {}", counted(*most, "byte")),
        (Sending::Alone, _) => format!("sends {what}"),
    }
}

/// A reply with the response to a change, of which so much was stored.
fn changed(reply: &[u8], asked: &Block, stored: &str) -> String {
    let all = reply.get(HEADER..).and_then(Block::of_response).is_some_and(|block| block.identifier == CHANGE);
    match all {
        true => format!("answered: all {stored} stored"),
        false => format!("{}; {stored} stored", response(reply, Some(asked))),
    }
}

/// A reply with a response block, in the words of the request that it answers.
fn response(reply: &[u8], asked: Option<&Block>) -> String {
    let block = reply.get(HEADER..).and_then(Block::of_response);
    let (Some(block), Some(asked)) = (block, asked) else { return format!("answered: {}", hex::digits_of(reply)) };
    if block.identifier == CHANGE {
        return "answered: all stored".to_string();
    }
    let told = |(address, values): (&Address, &Values)| {
        let named = notation::address(address);
        match values.error_word() {
            Some(error) => format!("{named}: {} (error {error:02X})", names::error(error)),
            None if values.holds_values() => format!("{named} = {}", notation::values(address.pnu, values)),
            None => format!("{named}: stored"),
        }
    };
    let told: Vec<String> = asked.addresses.iter().zip(&block.values).map(told).collect();
    format!("answered: {}", told.join(", "))
}

#[cfg(test)]
mod tests {
    use super::*;
    use crate::explain::tests::told;
    use crate::played::made_up::frame;

    #[test]
    fn a_response_is_told_with_what_was_asked() {
        let read = "5F 00 2F 10 07 01 01 02 10 04 75 31 00 00 10 01 00 05 00 00";
        let values = "5E 00 2F 12 07 81 01 02 42 04 00 01 00 02 00 03 00 04 44 01 00 00";
        let lines = told(vec![
            frame(1, Sending::Alone, read, (0, 0, "5F 00 2F 10"), values),
            frame(2, Sending::Alone, "5E 00 2F F0", (8, 0, "DE 80 B5 00"), ""),
            frame(1, Sending::Alone, "5E 00 2F 03", (9, 0, "DE 80 B7 00"), ""),
            frame(1, Sending::Alone, "5E 00 2F 12", (0, 0, values), ""),
            frame(1, Sending::Merged, read, (0, 0, values), ""),
        ]);
        let asked = "read 07 axis 1: 30001[0..3], 5[0]";
        let answered = "answered: 30001[0..3] = 1 2 3 4, 5[0]: no such parameter (error 00)";
        assert_eq!(
            lines,
            [
                format!("farm 1 sends {asked} -> acknowledged"),
                "farm 2 fetches -> refused: no response waits (8)".to_string(),
                "farm 1 fetches at most 3 bytes -> refused: response is longer than wanted (9)".to_string(),
                format!("farm 1 fetches at most 18 bytes -> {answered}"),
                format!("farm 1 makes the merged call, {asked} -> {answered}"),
            ]
        );
    }

    #[test]
    fn changes_and_what_was_stored() {
        let change = "5F 00 2F 18 07 02 01 02 10 01 75 31 00 02 10 01 27 7F 00 00 42 01 09 C4 42 01 00 00";
        let failed = "5E 00 2F 0A 07 82 01 02 40 00 44 01 00 02";
        let lines = told(vec![
            frame(1, Sending::Alone, change, (0, 1, "5F 00 2F 18"), failed),
            frame(1, Sending::Alone, "5E 00 2F F0", (0, 0, failed), ""),
            frame(1, Sending::Merged, change, (0, 2, "5E 00 2F 04 07 02 01 02"), ""),
            frame(1, Sending::Merged, change, (0, 1, failed), ""),
            frame(1, Sending::Merged, change, (11, 0, "DF 80 B6 00"), ""),
            frame(1, Sending::Alone, change, (0, 2, "5F 00 2F 18"), ""),
            frame(1, Sending::Alone, "5E 00 2F F0", (0, 0, "5E 00 2F 04 07 02 01 02"), ""),
        ]);
        let asked = "change 07 axis 1: 30001[2] = 2500, 10111 = 0";
        let answered = "answered: 30001[2]: stored, 10111: outside its limits (error 02)";
        assert_eq!(
            lines,
            [
                format!("farm 1 sends {asked} -> acknowledged, 1 element stored"),
                format!("farm 1 fetches -> {answered}"),
                format!("farm 1 makes the merged call, {asked} -> answered: all 2 elements stored"),
                format!("farm 1 makes the merged call, {asked} -> {answered}; 1 element stored"),
                format!("farm 1 makes the merged call, {asked} -> refused: denied, not its axis (11)"),
                format!("farm 1 sends {asked} -> acknowledged, 2 elements stored"),
                "farm 1 fetches -> answered: all stored".to_string(),
            ]
        );
    }

    #[test]
    fn frames_that_are_none() {
        let long = format!("5F 00 29 {}", "AB ".repeat(40));
        let lines = told(vec![
            frame(3, Sending::Alone, "", (4, 0, ""), ""),
            frame(3, Sending::Merged, "5E 00 2F F0", (4, 0, ""), ""),
            frame(3, Sending::Alone, &long, (6, 0, "DF 80 B0 00"), ""),
            frame(3, Sending::Alone, "5F 00 2F 02 07 02", (10, 0, "DF 80 B8 00"), ""),
        ]);
        let hex = "AB".repeat(17);
        assert_eq!(
            lines,
            [
                "farm 3 sends a frame of no bytes -> refused: not a frame to be taken here (4)".to_string(),
                "farm 3 makes the merged call, 5E002FF0 (4 bytes) -> refused: not a frame to be taken here (4)"
                    .to_string(),
                format!("farm 3 sends 5F0029{hex}.. (43 bytes) -> refused: the frame's index is not 47 (6)"),
                "farm 3 sends 5F002F020702 (6 bytes) -> refused: block is not readable, it is under 4 bytes (10)"
                    .to_string(),
            ]
        );
    }
}
