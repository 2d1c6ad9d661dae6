//! `journal`: a journal as text, a record a line, and such a text as a journal.
//!
//! Text is made as the journal comes (`write`). A journal is made when all of its text was read (`read`), so that a mistake in it
//! leaves nothing behind.

#[cfg(test)]
mod made;
pub mod read;
pub mod write;

use crate::command::{trouble, Ended, Far, Output, Source};
use crate::line::BYTE_ORDER_MARK;
use read::Text;
use std::ffi::OsString;
use std::io::BufRead;
use write::Lines;

/// What is made of a file.
enum Way {
    ToText,
    ToBytes,
}

/// The command, given a file and, before it, which way to go; without that it is seen from the file.
pub fn run(arguments: &[OsString]) -> Result<Ended, String> {
    let (way, file) = match arguments {
        [file] => (None, file),
        [option, file] if option == "--text" => (Some(Way::ToText), file),
        [option, file] if option == "--bytes" => (Some(Way::ToBytes), file),
        _ => return Err("takes a file, and before it --text or --bytes, if you like".to_string()),
    };
    let mut source = Source::open(file)?;
    let begin = source.input.fill_buf().map_err(trouble(&source.name))?;
    match way.unwrap_or_else(|| if is_text(begin) { Way::ToBytes } else { Way::ToText }) {
        Way::ToText => to_text(source),
        Way::ToBytes => to_bytes(source),
    }
}

/// Whether a file that begins so is a text. A journal begins with a small number; a damaged one that begins like text needs the option.
pub fn is_text(begin: &[u8]) -> bool {
    let mark = BYTE_ORDER_MARK.to_string();
    let is_of_text = |byte: &u8| byte.is_ascii_graphic() || byte.is_ascii_whitespace();
    begin.starts_with(mark.as_bytes()) || begin.first().is_some_and(is_of_text)
}

/// Writes a journal as text; all lines so far, before more of the journal is waited for.
fn to_text(source: Source) -> Result<Ended, String> {
    let (mut output, mut far) = (Output::new(), Far::new(&source.name, source.bytes));
    let mut lines = Lines::new(source.input);
    while let Some(line) = lines.next_line().map_err(trouble(&source.name))? {
        output.line(&line.text)?;
        far.step(line.bytes);
        if lines.may_wait() {
            output.flush()?;
        }
    }
    output.flush()?;
    // Its line on the terminal goes before another comes.
    drop(far);
    Ok(lines.length().ended(&source.name))
}

/// Writes the journal of a text, if there is no mistake in it.
fn to_bytes(mut source: Source) -> Result<Ended, String> {
    let (mut text, mut far) = (Text::default(), Far::new(&source.name, source.bytes));
    let mut line = Vec::new();
    while source.input.read_until(b'\n', &mut line).map_err(trouble(&source.name))? > 0 {
        text.read(&line).map_err(|wrong| format!("{}:{wrong}", source.name))?;
        far.step(line.len());
        line.clear();
    }
    let mut output = Output::new();
    output.bytes(text.journal())?;
    output.flush().map(|()| Ended::Good)
}

#[cfg(test)]
mod tests {
    use super::made::Random;
    use super::*;
    use crate::layout::Block;
    use std::io::BufReader;

    /// The lines of a journal, and how many records and bytes they tell.
    fn text(journal: &[u8]) -> (String, u64, usize) {
        let mut lines = Lines::new(BufReader::with_capacity(300, journal));
        let (mut text, mut bytes) = (String::new(), 0);
        while let Some(line) = lines.next_line().unwrap() {
            text += &format!("{}\n", line.text);
            bytes += line.bytes;
        }
        assert_eq!(lines.length().bad, text.contains("bad"));
        (text, lines.length().records, bytes)
    }

    fn journal(text: &str) -> Result<Vec<u8>, String> {
        let mut read = Text::default();
        text.split_inclusive('\n').try_for_each(|line| read.read(line.as_bytes()))?;
        Ok(read.journal().to_vec())
    }

    fn assert_there_and_back(bytes: &[u8]) {
        let (text, _, told) = text(bytes);
        assert_eq!((journal(&text), told), (Ok(bytes.to_vec()), bytes.len()), "{text}");
    }

    #[test]
    fn the_journal_of_document_01() {
        let worked = include_bytes!("../../crates/replay/stdin");
        let lines = "\
cycle 1 047E
cycle 1 047F
cycle 1 047F setpoint 8192
cycle 1 047D
frame 1 change 07 axis 1: 30001[0..1] = 1000 3001
frame 1 fetch
frame 2 change 07 axis 1: 30001[0..1] = 1000 3001
";
        assert_eq!(text(worked), (lines.to_string(), 7, worked.len()));
        assert_eq!(journal(lines), Ok(worked.to_vec()));
        (0..worked.len()).for_each(|end| assert_there_and_back(&worked[..end]));
    }

    #[test]
    fn there_and_back_of_records() {
        let mut random = Random::new(1);
        for _ in 0..20_000 {
            let record = random.record();
            let (line, records, _) = text(&record.bytes());
            assert_eq!((records, line.lines().count()), (1, 1), "{line}");
            assert_there_and_back(&record.bytes());
        }
    }

    #[test]
    fn there_and_back_of_every_request_is_in_words() {
        let mut random = Random::new(2);
        for _ in 0..20_000 {
            let frame = random.write();
            let block = Block::of_request(&frame[4..]).expect("readable");
            let record = crate::journal::Record::Frame(1, crate::sending::Sending::Alone, frame);
            let what = if block.identifier == 0x02 { "change" } else { "read" };
            let start = format!("frame 1 {what} {:02X} axis {}: ", block.reference, block.axis);
            assert!(text(&record.bytes()).0.starts_with(&start));
            assert_there_and_back(&record.bytes());
        }
    }

    #[test]
    fn there_and_back_of_any_bytes() {
        let mut random = Random::new(3);
        for _ in 0..5_000 {
            let (records, rest) = (random.below(4), random.below(300));
            let mut bytes: Vec<u8> = (0..records).flat_map(|_| random.record().bytes()).collect();
            let tail = random.bytes(rest);
            assert_there_and_back(&tail);
            bytes.extend(&tail);
            assert_there_and_back(&bytes);
            let (at, byte) = (random.below(bytes.len() + 1), random.below(6) as u8);
            bytes.truncate(at);
            assert_there_and_back(&bytes);
            bytes.insert(at / 2, byte);
            assert_there_and_back(&bytes);
        }
    }

    #[test]
    fn which_way_is_seen_from_the_begin() {
        for begin in ["cycle", "#", " ", "\t", "\n", "\r\n", "\u{FEFF}bad", "~"] {
            assert!(is_text(begin.as_bytes()), "{begin}");
        }
        for begin in [&[][..], &[0], &[1], &[2], &[3], &[4], &[5], &[0x7F], &[0x80], &[0xEF, 0xBB, 0x00], &[0xFF]] {
            assert!(!is_text(begin), "{begin:02X?}");
        }
    }

    #[test]
    fn what_is_typed_wrongly() {
        let typed = |words: &[&str]| run(&words.iter().map(OsString::from).collect::<Vec<_>>());
        let said = "takes a file, and before it --text or --bytes, if you like";
        for words in [&[][..], &["--hex", "none"], &["none", "--text"], &["--text", "--bytes", "none"]] {
            assert_eq!(typed(words), Err(said.to_string()));
        }
        for words in [&["/none/x"][..], &["--text", "/none/x"], &["--bytes", "/none/x"]] {
            assert_eq!(typed(words), Err("/none/x: No such file or directory".to_string()));
        }
        assert_eq!(typed(&["/"]), Err("/: Is a directory".to_string()));
    }
}
