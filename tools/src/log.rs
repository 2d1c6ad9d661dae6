//! Logs of frames that were sent to a partner and of its answers, read and checked.
//!
//! A log is two texts of frames in hex, a frame a line; blank lines, all that follows a `#`, commas and a 0x before a word are
//! passed over. The frames of the first text were sent, and the k-th frame of the second answers the k-th of the first:
//!
//! | sent | answer | |
//! |---|---|---|
//! | write: 5F, slot, 2F, length, block | acknowledgement: 5F, slot, 2F, length | the write's block waits for its response |
//! | write | response: 5E, slot, 2F, length, block | checked against the write's block |
//! | read: 5E, slot, 2F, most bytes wanted | response | checked against the block that waits, which waits no more |
//! | any | refusal: DF (of a write) or DE (of a read), 80, code, 00 | told; what waits goes on waiting |
//!
//! A log is of one farm: a fetch names no axis, and is taken for that of the last write that was acknowledged. A write that is
//! acknowledged and gets no response, or none before another takes its place, is counted in the last line and is no no.
//!
//! What is sent may have any slot, as other makers have others, and its answer has the same. An acknowledgement has the length
//! of its write, and a response no more bytes than its read wants. Everything else is a wrong frame, which is told as a no in
//! words of its own. After an acknowledgement of another slot or length the write's block waits all the same, so that its
//! response is checked; after a response of another slot or too long it waits no more.

use crate::hex::{bytes, words};
use crate::line::BYTE_ORDER_MARK;
use crate::sending::{FAILED, INDEX, READ, WRITE};
use crate::verdict::{verdict, Verdict};
use crate::words::counted;
use std::fmt::{self, Display, Formatter};

const READ_REFUSED: u8 = READ | FAILED;
const WRITE_REFUSED: u8 = WRITE | FAILED;

/// The frames of a text, each with its line, and the name by which they are told of.
#[derive(Clone, Debug, PartialEq, Eq)]
pub struct Frames {
    name: String,
    frames: Vec<(usize, Vec<u8>)>,
}

impl Frames {
    /// Reads a text of at least one frame.
    pub fn read(name: String, text: &str) -> Result<Frames, String> {
        let mut frames = Vec::new();
        let text = text.strip_prefix(BYTE_ORDER_MARK).unwrap_or(text);
        for (line, whole) in (1..).zip(text.lines()) {
            let hex = whole.split('#').next().unwrap_or("");
            if words(hex).next().is_some() {
                frames.push((line, bytes(hex).map_err(|wrong| format!("{name}:{line}: {wrong}"))?));
            }
        }
        match frames.is_empty() {
            true => Err(format!("{name}: there is no frame in it")),
            false => Ok(Frames { name, frames }),
        }
    }

    /// What is wrong where another text has fewer frames.
    fn as_many(&self, other: &Frames) -> Result<(), String> {
        let many = other.frames.len();
        match self.frames.get(many) {
            Some((line, _)) => {
                Err(format!("{}:{line}: this is frame {}, and {} has {many}", self.name, many + 1, other.name))
            }
            None => Ok(()),
        }
    }
}

/// Frames that were sent, and as many that answered them.
#[derive(Clone, Debug, PartialEq, Eq)]
pub struct Log {
    sent: Frames,
    answers: Frames,
}

/// What is said of a log, a line for each response, refusal and wrong frame and one for their numbers.
#[derive(Clone, Debug, PartialEq, Eq)]
pub struct Findings {
    /// The lines.
    pub lines: Vec<String>,
    /// Whether none of them is a no.
    pub good: bool,
}

impl Log {
    /// A log of these frames, of which there must be as many on both sides.
    pub fn new(sent: Frames, answers: Frames) -> Result<Log, String> {
        sent.as_many(&answers)?;
        answers.as_many(&sent)?;
        Ok(Log { sent, answers })
    }

    /// Holds each answer against what was sent, by a call that checks a request block and a response block.
    pub fn check(&self, check: impl Fn(&[u8], &[u8]) -> u8) -> Findings {
        let mut exchanges = Exchanges { check, waiting: None, unanswered: 0 };
        let mut tally = Tally::default();
        let mut lines = Vec::new();
        for ((sent_line, sent), (line, answer)) in self.sent.frames.iter().zip(&self.answers.frames) {
            let said = exchanges.next(sent, answer);
            tally.count(&said);
            match said {
                Ok(None) => {}
                Ok(Some(verdict)) => lines.push(format!("{}:{line}: {verdict}", self.answers.name)),
                Err(Wrong::Answer(words)) => lines.push(format!("{}:{line}: no: {words}", self.answers.name)),
                Err(Wrong::Sent(words)) => lines.push(format!("{}:{sent_line}: no: {words}", self.sent.name)),
            }
        }
        lines.push(format!("{tally}, {} without a response", counted(exchanges.all_unanswered(), "write")));
        Findings { lines, good: tally.no + tally.wrong == 0 }
    }
}

/// What is wrong with a frame, on this side of the log.
enum Wrong {
    Sent(String),
    Answer(String),
}

/// What is said of an answer, none for an acknowledgement.
type Said = Result<Option<Verdict>, Wrong>;

#[derive(Default)]
struct Tally {
    yes: usize,
    no: usize,
    refused: usize,
    wrong: usize,
}

impl Tally {
    fn count(&mut self, said: &Said) {
        match said {
            Ok(None) => {}
            Ok(Some(Verdict::Yes)) => self.yes += 1,
            Ok(Some(Verdict::No(_))) => self.no += 1,
            Ok(Some(Verdict::Refused(_))) => self.refused += 1,
            Err(_) => self.wrong += 1,
        }
    }
}

impl Display for Tally {
    fn fmt(&self, f: &mut Formatter) -> fmt::Result {
        let Tally { yes, no, refused, wrong } = self;
        let (responses, wrong) = (counted(yes + no, "response"), counted(*wrong, "wrong frame"));
        write!(f, "{responses} checked: {yes} yes, {no} no; {refused} refused, {wrong}")
    }
}

/// A frame that was sent; a read wants so many bytes at most.
enum Sent<'a> {
    Write(&'a [u8]),
    Read(u8),
}

/// A frame that answers another and is no refusal.
enum Answer<'a> {
    Acknowledgement(u8),
    Response(&'a [u8]),
}

/// The exchanges of a log in their order.
struct Exchanges<'a, C> {
    check: C,
    /// The block of the last write that was acknowledged and not fetched.
    waiting: Option<&'a [u8]>,
    /// How many such writes have lost their place to another.
    unanswered: usize,
}

impl<'a, C: Fn(&[u8], &[u8]) -> u8> Exchanges<'a, C> {
    fn next(&mut self, sent: &'a [u8], answer: &[u8]) -> Said {
        // A refusal answers wrong frames too, and rightly.
        if let [READ_REFUSED | WRITE_REFUSED, ..] = answer {
            return refusal(sent, answer).map(Some).map_err(Wrong::Answer);
        }
        let (slot, answer) = read_answer(answer).map_err(Wrong::Answer)?;
        let (sent_slot, sent) = read_sent(sent).map_err(Wrong::Sent)?;
        let said = self.answered(sent, answer);
        same_slot(sent_slot, slot).and(said).map_err(Wrong::Answer)
    }

    fn answered(&mut self, sent: Sent<'a>, answer: Answer) -> Result<Option<Verdict>, String> {
        match (sent, answer) {
            (Sent::Write(block), Answer::Acknowledgement(length)) => {
                self.unanswered += usize::from(self.waiting.replace(block).is_some());
                acknowledged(block, length).map(|()| None)
            }
            (Sent::Read(_), Answer::Acknowledgement(_)) => {
                Err("an acknowledgement answers a write, and a read was sent".to_string())
            }
            (Sent::Write(request), Answer::Response(response)) => Ok(Some(self.verdict(request, response))),
            (Sent::Read(wanted), Answer::Response(response)) => match self.waiting.take() {
                Some(request) => wanted_so_many(wanted, response).map(|()| Some(self.verdict(request, response))),
                None => {
                    Err("a response answers a write, and none waits for its response; a log is of one farm".to_string())
                }
            },
        }
    }

    /// How many writes were acknowledged and got no response.
    fn all_unanswered(&self) -> usize {
        self.unanswered + usize::from(self.waiting.is_some())
    }

    fn verdict(&self, request: &[u8], response: &[u8]) -> Verdict {
        verdict((self.check)(request, response), request, response)
    }
}

fn refusal(sent: &[u8], answer: &[u8]) -> Result<Verdict, String> {
    match (sent, answer) {
        ([function, ..], [first, 0x80, code, 0]) if *function == first & !FAILED => Ok(Verdict::Refused(*code)),
        (_, [READ_REFUSED, 0x80, _, 0]) => Err("DE refuses a read, and none was sent".to_string()),
        (_, [WRITE_REFUSED, 0x80, _, 0]) => Err("DF refuses a write, and none was sent".to_string()),
        _ => Err("a refusal is DE or DF, 80, a code and 00".to_string()),
    }
}

fn acknowledged(block: &[u8], length: u8) -> Result<(), String> {
    match block.len() == usize::from(length) {
        true => Ok(()),
        false => Err(format!(
            "the acknowledgement's length byte says {}, the write's {}",
            counted(length, "byte"),
            block.len()
        )),
    }
}

fn wanted_so_many(wanted: u8, response: &[u8]) -> Result<(), String> {
    match response.len() <= usize::from(wanted) {
        true => Ok(()),
        false => {
            Err(format!("the response has {}, and the read wanted at most {wanted}", counted(response.len(), "byte")))
        }
    }
}

fn same_slot(sent: u8, answered: u8) -> Result<(), String> {
    match sent == answered {
        true => Ok(()),
        false => Err(format!("the answer's slot is {answered:02X}, and {sent:02X} was sent")),
    }
}

/// The slot of a frame that was sent, and the frame.
fn read_sent(frame: &[u8]) -> Result<(u8, Sent<'_>), String> {
    let (slot, sent) = match parted(frame, "a frame that is sent begins with 5E or 5F")? {
        (WRITE, slot, length, block) => (slot, Sent::Write(whole(length, block)?)),
        (_, slot, wanted, []) => (slot, Sent::Read(wanted)),
        _ => return Err(format!("a read has 4 bytes, and this {}", frame.len())),
    };
    Ok((slot, sent))
}

/// The slot of an answer, and the answer.
fn read_answer(frame: &[u8]) -> Result<(u8, Answer<'_>), String> {
    let (slot, answer) = match parted(frame, "an answer begins with 5E, 5F, DE or DF")? {
        (READ, slot, length, block) => (slot, Answer::Response(whole(length, block)?)),
        (_, slot, length, []) => (slot, Answer::Acknowledgement(length)),
        _ => return Err(format!("an acknowledgement has 4 bytes, and this {}", frame.len())),
    };
    Ok((slot, answer))
}

/// The function byte, 5E or 5F, the slot, the length byte and what follows it, in a frame of index 47.
fn parted<'a>(frame: &'a [u8], beginning: &str) -> Result<(u8, u8, u8, &'a [u8]), String> {
    match frame {
        [] | [_] | [_, _] | [_, _, _] => Err(format!("a frame has at least 4 bytes, and this {}", frame.len())),
        [function @ (READ | WRITE), slot, INDEX, length, rest @ ..] => Ok((*function, *slot, *length, rest)),
        [READ | WRITE, _, index, ..] => Err(format!("the index is {index:02X}, and not 2F")),
        [first, ..] => Err(format!("{beginning}, and this with {first:02X}")),
    }
}

/// The block behind a length byte that counts it.
fn whole(length: u8, block: &[u8]) -> Result<&[u8], String> {
    match block.len() == usize::from(length) {
        true => Ok(block),
        false => Err(format!("the length byte says {}, and {} follow", counted(length, "byte"), block.len())),
    }
}

#[cfg(test)]
mod tests {
    use super::*;

    /// Document 01's change of two marks, and its response.
    const WRITE_OF_MARKS: &str = "5F 00 2F 10 07 02 01 01 10 02 75 31 00 00 42 02 03 E8 0B B9";
    const RESPONSE: &str = "5E 00 2F 08 07 82 01 01 44 01 00 02";
    const ACKNOWLEDGEMENT: &str = "5F 00 2F 10";
    const FETCH: &str = "5E 00 2F F0";

    fn frames(name: &str, text: &str) -> Result<Frames, String> {
        Frames::read(name.to_string(), text)
    }

    #[test]
    fn texts_of_frames() {
        let text = "# a log\r\n\n5F002F00  # a write\n \n  5E 00 2F F0\n";
        let read = frames("log", text).unwrap();
        assert_eq!(read.frames, [(3, vec![0x5F, 0, 0x2F, 0]), (5, vec![0x5E, 0, 0x2F, 0xF0])]);
        let marked = frames("log", "\u{FEFF}0x5F,0x00\n , \n5E # a \u{FEFF}\n").unwrap();
        assert_eq!(marked.frames, [(1, vec![0x5F, 0]), (3, vec![0x5E])]);
        assert_eq!(frames("log", "5F\n\u{FEFF}5E\n"), Err("log:2: '\u{FEFF}5E' is no hex".to_string()));
        assert_eq!(frames("log", "5E 00 2F F0, a read\n"), Err("log:1: 'read' is no hex".to_string()));
        assert_eq!(frames("log", "5F\nfetch\n"), Err("log:2: 'fetch' is no hex".to_string()));
        assert_eq!(frames("log", "\n5F0\n"), Err("log:2: '5F0' has an odd number of hex digits (3)".to_string()));
        assert_eq!(frames("log", "# 5F\n"), Err("log: there is no frame in it".to_string()));
        let (two, three) = (frames("two", "5F\n5E\n").unwrap(), frames("three", "5F\n5E\n\n5E\n").unwrap());
        let wrong = Err("three:4: this is frame 3, and two has 2".to_string());
        assert_eq!(Log::new(two.clone(), three.clone()), wrong);
        assert_eq!(Log::new(three, two), wrong);
    }

    /// What is said of frames that were sent, from line 2 on, and of their answers, with the twin as the checker.
    fn checked(exchanges: &[(&str, &str)]) -> Findings {
        let (sent, answers): (Vec<_>, Vec<_>) = exchanges.iter().copied().unzip();
        let (sent, answers) = (format!("# sent\n{}", sent.join("\n")), answers.join("\n"));
        Log::new(frames("sent", &sent).unwrap(), frames("back", &answers).unwrap()).unwrap().check(twin::check)
    }

    #[test]
    fn a_log_of_writes_and_fetches() {
        let found = checked(&[
            (WRITE_OF_MARKS, ACKNOWLEDGEMENT),
            (FETCH, RESPONSE),
            (WRITE_OF_MARKS, "DF 80 B6 00"),
            (WRITE_OF_MARKS, RESPONSE),
            (WRITE_OF_MARKS, "5E 00 2F 04 08 02 01 01"),
        ]);
        let lines = [
            "back:2: yes",
            "back:3: refused with code B6",
            "back:4: yes",
            "back:5: no: check 3, the response's reference is 08, the request's 07",
            "3 responses checked: 2 yes, 1 no; 1 refused, 0 wrong frames, 0 writes without a response",
        ];
        assert_eq!((found.lines, found.good), (lines.map(String::from).to_vec(), false));
    }

    #[test]
    fn what_a_response_answers() {
        let (write, other) = ("5F 00 2F 0A 08 01 01 01 10 01 03 A2 00 00", "5E 00 2F 08 08 01 01 01 42 01 00 01");
        let acknowledgement = "5F 00 2F 0A";
        let found = checked(&[
            (WRITE_OF_MARKS, ACKNOWLEDGEMENT),
            // Refusals, and a response beside its own write, leave what waits.
            (FETCH, "DE 80 B7 00"),
            (write, "DF 80 B5 00"),
            (write, other),
            (FETCH, RESPONSE),
            // Of two writes the last one is fetched, once.
            (WRITE_OF_MARKS, ACKNOWLEDGEMENT),
            (write, acknowledgement),
            (FETCH, other),
            (FETCH, RESPONSE),
        ]);
        let lines = [
            "back:2: refused with code B7",
            "back:3: refused with code B5",
            "back:4: yes",
            "back:5: yes",
            "back:8: yes",
            "back:9: no: a response answers a write, and none waits for its response; a log is of one farm",
            "3 responses checked: 3 yes, 0 no; 2 refused, 1 wrong frame, 1 write without a response",
        ];
        assert_eq!((found.lines, found.good), (lines.map(String::from).to_vec(), false));
    }

    #[test]
    fn nothing_but_refusals_and_acknowledgements_is_no_no() {
        let found =
            checked(&[(WRITE_OF_MARKS, ACKNOWLEDGEMENT), ("5F 01 2F 00", "DF 80 B2 00"), (FETCH, "DE 80 B5 00")]);
        let last =
            "0 responses checked: 0 yes, 0 no; 2 refused, 0 wrong frames, 1 write without a response".to_string();
        assert_eq!((found.lines.last(), found.good), (Some(&last), true));
    }

    #[test]
    fn writes_without_a_response() {
        let written = (WRITE_OF_MARKS, ACKNOWLEDGEMENT);
        let unanswered = |exchanges: &[(&str, &str)]| {
            let found = checked(exchanges);
            found.lines.last().unwrap().rsplit(", ").next().unwrap().to_string()
        };
        assert_eq!(unanswered(&[written, (FETCH, RESPONSE)]), "0 writes without a response");
        assert_eq!(unanswered(&[written, (FETCH, RESPONSE), written]), "1 write without a response");
        assert_eq!(unanswered(&[written, written, (FETCH, RESPONSE)]), "1 write without a response");
        assert_eq!(unanswered(&[written, written, (FETCH, "DE 80 B5 00")]), "2 writes without a response");
        assert_eq!(unanswered(&[written, (WRITE_OF_MARKS, RESPONSE)]), "1 write without a response");
        assert_eq!(unanswered(&[(WRITE_OF_MARKS, "DF 80 B5 00")]), "0 writes without a response");
    }

    #[test]
    fn a_conversation_of_another_slot() {
        // Document 002's, by a write and a fetch and by a write beside its response; then answers of other slots.
        let (write, acknowledgement) = ("5F 01 2F 0A 01 01 01 01 10 01 00 10 00 48", "5F 01 2F 0A");
        let (fetch, response) = ("5E 01 2F F0", "5E 01 2F 08 01 01 01 01 42 01 05 64");
        let found = checked(&[
            (write, acknowledgement),
            (fetch, response),
            (write, response),
            (write, "5F 00 2F 0A"),
            (fetch, "5E 02 2F 08 01 01 01 01 42 01 05 64"),
            (fetch, response),
        ]);
        let lines = [
            "back:2: yes",
            "back:3: yes",
            "back:4: no: the answer's slot is 00, and 01 was sent",
            "back:5: no: the answer's slot is 02, and 01 was sent",
            "back:6: no: a response answers a write, and none waits for its response; a log is of one farm",
            "2 responses checked: 2 yes, 0 no; 0 refused, 3 wrong frames, 0 writes without a response",
        ];
        assert_eq!((found.lines, found.good), (lines.map(String::from).to_vec(), false));
    }

    #[test]
    fn a_response_that_is_longer_than_wanted() {
        let read = |wanted: &str| {
            let found = checked(&[(WRITE_OF_MARKS, ACKNOWLEDGEMENT), (&format!("5E 00 2F {wanted}"), RESPONSE)]);
            (found.lines, found.good)
        };
        let wrong = [
            "back:2: no: the response has 8 bytes, and the read wanted at most 7",
            "0 responses checked: 0 yes, 0 no; 0 refused, 1 wrong frame, 0 writes without a response",
        ];
        assert_eq!(read("07"), (wrong.map(String::from).to_vec(), false));
        assert_eq!((read("08").0[0].as_str(), read("08").1), ("back:2: yes", true));
    }

    /// A wrong frame, after which so many writes have no response.
    fn wrong_after(sent: &str, answer: &str, words: &str, writes: &str) {
        let found = checked(&[(sent, answer)]);
        let last = format!("0 responses checked: 0 yes, 0 no; 0 refused, 1 wrong frame, {writes} without a response");
        assert_eq!((found.lines, found.good), (vec![words.to_string(), last], false));
    }

    fn wrong(sent: &str, answer: &str, words: &str) {
        wrong_after(sent, answer, words, "0 writes");
    }

    #[test]
    fn wrong_answers() {
        wrong(WRITE_OF_MARKS, "5E 00 2F", "back:1: no: a frame has at least 4 bytes, and this 3");
        let beginning = "an answer begins with 5E, 5F, DE or DF, and this with 07";
        wrong(WRITE_OF_MARKS, "07 82 01 01 44 01 00 02", &format!("back:1: no: {beginning}"));
        wrong(WRITE_OF_MARKS, "5E 01 2F 00", "back:1: no: the answer's slot is 01, and 00 was sent");
        wrong(WRITE_OF_MARKS, "5F 00 2E 10", "back:1: no: the index is 2E, and not 2F");
        wrong(WRITE_OF_MARKS, "5E 00 2F 05 07 02 01 01", "back:1: no: the length byte says 5 bytes, and 4 follow");
        wrong(WRITE_OF_MARKS, "5F 00 2F 10 07 02", "back:1: no: an acknowledgement has 4 bytes, and this 6");
        let length = "back:1: no: the acknowledgement's length byte says 14 bytes, the write's 16";
        wrong_after(WRITE_OF_MARKS, "5F 00 2F 0E", length, "1 write");
        wrong(FETCH, ACKNOWLEDGEMENT, "back:1: no: an acknowledgement answers a write, and a read was sent");
        let none_waits = "a response answers a write, and none waits for its response; a log is of one farm";
        wrong(FETCH, RESPONSE, &format!("back:1: no: {none_waits}"));
    }

    #[test]
    fn wrong_refusals() {
        wrong(WRITE_OF_MARKS, "DE 80 B6 00", "back:1: no: DE refuses a read, and none was sent");
        wrong(FETCH, "DF 80 B5 00", "back:1: no: DF refuses a write, and none was sent");
        wrong("DF 80 B5 00", "DF 80 B5 00", "back:1: no: DF refuses a write, and none was sent");
        for refusal in ["DF", "DF 80 B6", "DF 81 B6 00", "DF 80 B6 01", "DF 80 B6 00 00"] {
            wrong(WRITE_OF_MARKS, refusal, "back:1: no: a refusal is DE or DF, 80, a code and 00");
        }
    }

    #[test]
    fn wrong_frames_that_were_sent() {
        wrong("5F", ACKNOWLEDGEMENT, "sent:2: no: a frame has at least 4 bytes, and this 1");
        let beginning = "a frame that is sent begins with 5E or 5F, and this with DE";
        wrong("DE 80 B5 00", RESPONSE, &format!("sent:2: no: {beginning}"));
        wrong("5E 02 2E F0", RESPONSE, "sent:2: no: the index is 2E, and not 2F");
        wrong("5F 00 30 00", "5F 00 2F 00", "sent:2: no: the index is 30, and not 2F");
        wrong("5F 00 2F 01", "5F 00 2F 01", "sent:2: no: the length byte says 1 byte, and 0 follow");
        wrong(RESPONSE, RESPONSE, "sent:2: no: a read has 4 bytes, and this 12");
    }

    #[test]
    fn the_response_after_a_wrong_acknowledgement_is_checked() {
        let found = checked(&[(WRITE_OF_MARKS, "5F 00 2F 0E"), (FETCH, RESPONSE)]);
        assert_eq!((found.lines[1].as_str(), found.good), ("back:2: yes", false));
    }
}
