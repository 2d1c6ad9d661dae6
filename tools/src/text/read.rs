//! Reads a journal that is written as text.

use crate::hex;
use crate::journal::{Inputs, Record, FRAME_ROOM};
use crate::line::{Line, Mistake, Word, BYTE_ORDER_MARK};
use crate::notation;
use crate::sending::{Sending, FETCH, INDEX, WRITE};

/// A text of which some lines are read, and the journal that they are.
#[derive(Default)]
pub struct Text {
    journal: Vec<u8>,
    lines: usize,
    /// Whether what is no record has begun.
    is_bad: bool,
}

impl Text {
    /// The journal of all lines that are read.
    pub fn journal(&self) -> &[u8] {
        &self.journal
    }

    /// Reads one more line, whose end may be part of it. What is wrong is told with line and column.
    pub fn read(&mut self, line: &[u8]) -> Result<(), String> {
        self.lines += 1;
        let (text, strange) = decoded(line);
        let text = if self.lines == 1 { text.strip_prefix(BYTE_ORDER_MARK).unwrap_or(text) } else { text };
        match strange {
            Some(byte) => Err(format!("{}: byte {byte:02X} is no UTF-8", text.chars().count() + 1)),
            None => self.add(Line::new(text)).map_err(|mistake| mistake.in_line(text)),
        }
        .map_err(|wrong| format!("{}:{wrong}", self.lines))
    }

    fn add(&mut self, mut line: Line) -> Result<(), Mistake> {
        let first = line.word();
        match first.letters {
            "" => {}
            "bad" => {
                self.is_bad = true;
                self.journal.extend(bad(&mut line)?);
            }
            _ if self.is_bad => return Err(first.is_wrong("follows what is bad, which ends a journal")),
            _ => self.journal.extend(record(first, &mut line)?.bytes()),
        }
        line.end()
    }
}

/// A line as text, up to a byte that is none.
fn decoded(line: &[u8]) -> (&str, Option<&u8>) {
    line.utf8_chunks().next().map_or(("", None), |chunk| (chunk.valid(), chunk.invalid().first()))
}

/// Bytes that are no record. Nothing tests that they are none: what stands here is written.
fn bad(line: &mut Line) -> Result<Vec<u8>, Mistake> {
    match line.peek() {
        word if word.is_end() => Err(word.is_not("what is bad", "bytes in hex")),
        _ => line.bytes(usize::MAX),
    }
}

/// The record of this name.
fn record(name: Word, line: &mut Line) -> Result<Record, Mistake> {
    match name.letters {
        "cycle" => cycle(line),
        "frame" => Ok(Record::Frame(farm(line)?, Sending::Alone, frame(line)?)),
        "merged" => Ok(Record::Frame(farm(line)?, Sending::Merged, frame(line)?)),
        "back" => Ok(Record::GoBack(farm(line)?, line.number("the version", 0..=u16::MAX)?)),
        _ => Err(name.is_not("the first word", "'cycle', 'frame', 'merged', 'back' or 'bad'")),
    }
}

fn farm(line: &mut Line) -> Result<u8, Mistake> {
    line.number("the farm", 0..=u8::MAX)
}

fn cycle(line: &mut Line) -> Result<Record, Mistake> {
    let axis = line.number("the axis", 0..=u8::MAX)?;
    let word = line.word();
    let stw1 = hex::number(word.letters, 4).ok_or_else(|| word.is_not("the control word", "4 hex digits"))?;
    let mut inputs = Inputs { flags: 0, stw1, nsoll: 0, nist: 0, fault: 0 };
    let mut said: Vec<&str> = Vec::new();
    while !line.peek().is_end() {
        let part = line.word();
        if said.iter().any(|before| is_same(before, part.letters)) {
            return Err(part.is_wrong("says again what stands before it"));
        }
        input(part, line, &mut inputs)?;
        said.push(part.letters);
    }
    Ok(Record::Cycle(axis, inputs))
}

/// Reads an input of a cycle, after its name.
fn input(name: Word, line: &mut Line, inputs: &mut Inputs) -> Result<(), Mistake> {
    match name.letters {
        "setpoint" => inputs.nsoll = line.number("the setpoint", i16::MIN..=i16::MAX)?,
        "actual" => inputs.nist = line.number("the actual speed", i16::MIN..=i16::MAX)?,
        "fault" => inputs.fault = line.number("the fault code", 0..=u16::MAX)?,
        "standstill" => inputs.flags |= 1,
        "warning" => inputs.flags |= 2,
        "flags" => inputs.flags = line.number("the flags byte", 0..=255)?,
        _ => {
            let inputs = "'setpoint', 'actual', 'fault', 'standstill', 'warning' or 'flags'";
            return Err(name.is_not("what follows", inputs));
        }
    }
    Ok(())
}

/// Whether two inputs are the same. All flags together are the same as each.
fn is_same(one: &str, other: &str) -> bool {
    let has_flags = |word| matches!(word, "standstill" | "warning" | "flags");
    one == other || (has_flags(one) && has_flags(other) && [one, other].contains(&"flags"))
}

fn frame(line: &mut Line) -> Result<Vec<u8>, Mistake> {
    let what = line.peek();
    match what.letters {
        "read" | "change" => {
            let block = notation::read(line)?.bytes();
            Ok([&[WRITE, 0, INDEX, block.len() as u8], block.as_slice()].concat())
        }
        "fetch" => line.need("fetch").and_then(|()| fetch(line)),
        "hex" => line.need("hex").and_then(|()| line.bytes(FRAME_ROOM)),
        _ => Err(what.is_not("a frame", "'read', 'change', 'fetch' or 'hex'")),
    }
}

/// The read that wants so many bytes, or any response.
fn fetch(line: &mut Line) -> Result<Vec<u8>, Mistake> {
    let mut frame = FETCH;
    if !line.peek().is_end() {
        frame[3] = line.number("the most bytes wanted", 0..=u8::MAX)?;
    }
    Ok(frame.to_vec())
}

#[cfg(test)]
mod tests {
    use super::*;

    fn journal(text: &[u8]) -> Result<Vec<u8>, String> {
        let mut read = Text::default();
        text.split_inclusive(|byte| *byte == b'\n').try_for_each(|line| read.read(line))?;
        Ok(read.journal().to_vec())
    }

    fn wrong(text: &str) -> String {
        journal(text.as_bytes()).expect_err(text)
    }

    fn record(kind: u8, farm: u8, frame: &[u8]) -> Vec<u8> {
        let mut record = [&[kind, farm, frame.len() as u8], frame].concat();
        record.resize(247, 0);
        record
    }

    /// That a line is these bytes, with a comment and strange space too.
    fn assert_is(line: &str, bytes: &[u8]) {
        let spaced = format!(" \t{}\u{A0} # {line}\r\n\r\n#", line.replace(' ', "\t "));
        for text in [line, &spaced, &format!("\u{FEFF}{line}#\u{E9}\n")] {
            assert_eq!(journal(text.as_bytes()).as_deref(), Ok(bytes), "{text:?}");
        }
    }

    #[test]
    fn every_cycle() {
        assert_is("cycle 1 047E", &[1, 1, 0, 4, 0x7E, 0, 0, 0, 0, 0, 0]);
        assert_is("cycle 0 0x0ab0", &[1, 0, 0, 0x0A, 0xB0, 0, 0, 0, 0, 0, 0]);
        let all = "cycle 2 0001 warning fault 9 actual -5 setpoint 8192 standstill";
        assert_is(all, &[1, 2, 3, 0, 1, 0x20, 0, 0xFF, 0xFB, 0, 9]);
        let most = "cycle 255 FFFF setpoint -32768 actual 32767 fault 65535 flags 255";
        assert_is(most, &[1, 255, 255, 255, 255, 0x80, 0, 0x7F, 0xFF, 255, 255]);
        assert_is("cycle 1 0000 setpoint 0 actual 0 fault 0 flags 0", &[1, 1, 0, 0, 0, 0, 0, 0, 0, 0, 0]);
    }

    #[test]
    fn every_frame() {
        assert_is("frame 1 fetch", &record(2, 1, &[0x5E, 0, 0x2F, 0xF0]));
        assert_is("merged 16 fetch 0", &record(3, 16, &[0x5E, 0, 0x2F, 0]));
        let read = [0x5F, 0, 0x2F, 10, 7, 1, 1, 1, 0x10, 1, 0x03, 0xB0, 0, 0];
        assert_is("merged 1 read 07 axis 1: 944", &record(3, 1, &read));
        let change = [0x5F, 0, 0x2F, 14, 7, 2, 1, 1, 0x10, 1, 0x27, 0x7F, 0, 0, 0x42, 1, 0x05, 0xAA];
        assert_is("frame 0 change 07 axis 1: 10111 = 1450", &record(2, 0, &change));
        assert_is("frame 255 hex", &record(2, 255, &[]));
        assert_is("merged 2 hex 5F 00,0x2f 1007", &record(3, 2, &[0x5F, 0, 0x2F, 0x10, 7]));
        assert_is(&format!("frame 1 hex{}", " FF".repeat(244)), &record(2, 1, &[0xFF; 244]));
    }

    #[test]
    fn every_other_line() {
        assert_is("back 1 2", &[4, 1, 0, 2]);
        assert_is("back 255 65535", &[4, 255, 255, 255]);
        assert_is("bad 05 0001", &[5, 0, 1]);
        assert_is("bad 04 01 00 02", &[4, 1, 0, 2]);
    }

    #[test]
    fn lines_follow_each_other() {
        assert_eq!(
            journal(b"\n# Two.\nback 1 2\n  \nback 2 1\nbad 04\n# The rest.\n\nbad 01 02\n"),
            Ok(vec![4, 1, 0, 2, 4, 2, 0, 1, 4, 1, 2])
        );
        assert_eq!(
            (journal(b""), journal(b"# Nothing."), journal("\u{FEFF}".as_bytes())),
            (Ok(vec![]), Ok(vec![]), Ok(vec![]))
        );
    }

    #[test]
    fn mistakes_in_cycles() {
        assert_eq!(wrong("cycle"), "1:6: the axis is missing, a number from 0 to 255");
        assert_eq!(wrong("cycle 256 047E"), "1:7: the axis is a number from 0 to 255, and not '256'");
        assert_eq!(wrong("cycle 1"), "1:8: the control word is missing, 4 hex digits");
        for word in ["47E", "0047E", "047G", "-47E", "setpoint"] {
            assert_eq!(
                wrong(&format!("cycle 1 {word}")),
                format!("1:9: the control word is 4 hex digits, and not '{word}'")
            );
        }
        let setpoint = "the setpoint is a number from -32768 to 32767, and not";
        assert_eq!(wrong("cycle 1 047E setpoint 40000"), format!("1:23: {setpoint} '40000'"));
        assert_eq!(wrong("cycle 1 047E setpoint -32769"), format!("1:23: {setpoint} '-32769'"));
        assert_eq!(wrong("cycle 1 047E setpoint"), "1:22: the setpoint is missing, a number from -32768 to 32767");
        let actual = "the actual speed is a number from -32768 to 32767, and not '1.5'";
        assert_eq!(wrong("cycle 1 047E actual 1.5"), format!("1:21: {actual}"));
        let inputs = "'setpoint', 'actual', 'fault', 'standstill', 'warning' or 'flags'";
        assert_eq!(wrong("cycle 1 047E 5 x"), format!("1:14: what follows is {inputs}, and not '5'"));
        assert_eq!(wrong("cycle 1 047E fault -1"), "1:20: the fault code is a number from 0 to 65535, and not '-1'");
        assert_eq!(wrong("cycle 1 047E flags 256"), "1:20: the flags byte is a number from 0 to 255, and not '256'");
    }

    #[test]
    fn what_is_said_twice() {
        for (text, again) in [
            ("setpoint 1 setpoint", "1:25: 'setpoint'"),
            ("actual 1 fault 2 actual", "1:31: 'actual'"),
            ("fault 1 fault", "1:22: 'fault'"),
            ("standstill standstill", "1:25: 'standstill'"),
            ("warning standstill warning", "1:33: 'warning'"),
            ("flags 1 standstill", "1:22: 'standstill'"),
            ("flags 1 warning", "1:22: 'warning'"),
            ("warning flags 2", "1:22: 'flags'"),
            ("flags 1 flags 1", "1:22: 'flags'"),
        ] {
            assert_eq!(wrong(&format!("cycle 1 047E {text} 1")), format!("{again} says again what stands before it"));
        }
    }

    #[test]
    fn mistakes_in_frames() {
        assert_eq!(wrong("frame fetch"), "1:7: the farm is a number from 0 to 255, and not 'fetch'");
        assert_eq!(wrong("merged 1"), "1:9: a frame is missing, 'read', 'change', 'fetch' or 'hex'");
        assert_eq!(wrong("merged 1 write"), "1:10: a frame is 'read', 'change', 'fetch' or 'hex', and not 'write'");
        assert_eq!(wrong("frame 1 fetch 256"), "1:15: the most bytes wanted is a number from 0 to 255, and not '256'");
        assert_eq!(wrong("frame 1 fetch 240 5"), "1:19: '5' is left over");
        assert_eq!(wrong("frame 1 hex 5F 0"), "1:16: '0' has an odd number of hex digits (1)");
        assert_eq!(wrong("frame 1 hex 5F ..\n"), "1:16: '..' is no hex");
        let long = format!("frame 1 hex{}", " FF".repeat(245));
        assert_eq!(wrong(&long), "1:745: 'FF' is too much: there is room for 244 bytes");
        assert_eq!(wrong("frame 1 read 07 axis 1: 944 = 5"), "1:29: '=' is left over");
        assert_eq!(wrong("merged 1 change 07 axis 1: 944"), "1:31: '=' is missing");
    }

    #[test]
    fn mistakes_in_other_lines() {
        let words = "'cycle', 'frame', 'merged', 'back' or 'bad'";
        assert_eq!(wrong("back 1 2\n\n  Back 1 2"), format!("3:3: the first word is {words}, and not 'Back'"));
        assert_eq!(wrong("\u{FEFF}:"), format!("1:1: the first word is {words}, and not ':'"));
        assert_eq!(wrong("back 1 65536"), "1:8: the version is a number from 0 to 65535, and not '65536'");
        assert_eq!(wrong("back 1"), "1:7: the version is missing, a number from 0 to 65535");
        assert_eq!(wrong("back 1 2 3 # 4"), "1:10: '3' is left over");
        assert_eq!(wrong("bad # 05"), "1:4: what is bad is missing, bytes in hex");
        assert_eq!(wrong("bad 05 0g"), "1:8: '0g' is no hex");
        assert_eq!(wrong("bad 05\n# More.\n back 1 2"), "3:2: 'back' follows what is bad, which ends a journal");
        assert_eq!(wrong("back 1 x\nback x"), "1:8: the version is a number from 0 to 65535, and not 'x'");
    }

    #[test]
    fn text_that_is_no_utf_8() {
        let wrong = |text: &[u8]| journal(text).unwrap_err();
        assert_eq!(wrong(b"back 1 2\n# \xC3\xA9 \xE9 and so on\n"), "2:5: byte E9 is no UTF-8");
        assert_eq!(wrong(b"\xEF\xBB\xBFback \xFF"), "1:6: byte FF is no UTF-8");
        assert_eq!(wrong(b"back x\n\xFF"), "1:6: the farm is a number from 0 to 255, and not 'x'");
    }
}
