//! A line of a text that people write: its words one after the other, and what is wrong in it.

use crate::hex;
use std::fmt::Display;
use std::ops::RangeInclusive;

/// What some editors put before a text.
pub const BYTE_ORDER_MARK: char = '\u{FEFF}';

/// Signs that are words by themselves, with or without space around them.
const SIGNS: [char; 6] = [':', ',', '=', '[', ']', ';'];

/// What is wrong, and how many bytes of its line stand before it.
#[derive(Clone, Debug, PartialEq, Eq)]
pub struct Mistake {
    at: usize,
    what: String,
}

impl Mistake {
    /// Its column in a line, from 1 and in characters, and what it is.
    pub fn in_line(&self, line: &str) -> String {
        format!("{}: {}", line[..self.at].chars().count() + 1, shown(&self.what))
    }
}

/// A text without signs that would steer the terminal on which it is told.
fn shown(text: &str) -> String {
    let letter = |c: char| if c.is_control() { c.escape_default().to_string() } else { c.to_string() };
    text.chars().map(letter).collect()
}

/// A word, and how many bytes of its line stand before it. At the end of a line it has no letters.
#[derive(Clone, Copy, Debug, PartialEq, Eq)]
pub struct Word<'a> {
    /// Its letters.
    pub letters: &'a str,
    at: usize,
}

impl Word<'_> {
    /// Whether the line ends here.
    pub fn is_end(&self) -> bool {
        self.letters.is_empty()
    }

    /// What is wrong with this word.
    pub fn mistake(&self, what: impl Into<String>) -> Mistake {
        Mistake { at: self.at, what: what.into() }
    }

    /// What is wrong with this word, which is told first.
    pub fn is_wrong(&self, why: &str) -> Mistake {
        self.mistake(format!("'{}' {why}", hex::cut(self.letters)))
    }

    /// That something of this form should be here.
    pub fn is_not(&self, what: &str, form: &str) -> Mistake {
        match self.is_end() {
            true => self.mistake(format!("{what} is missing, {form}")),
            false => self.mistake(format!("{what} is {form}, and not '{}'", hex::cut(self.letters))),
        }
    }
}

/// A line that is being read.
#[derive(Clone, Debug)]
pub struct Line<'a> {
    /// All but its comment.
    text: &'a str,
    /// Where the last word ended.
    at: usize,
}

impl<'a> Line<'a> {
    /// A line of which nothing is read yet. A `#` begins a comment.
    pub fn new(line: &'a str) -> Line<'a> {
        Line { text: line.split('#').next().unwrap_or(""), at: 0 }
    }

    /// The next word, which stays the next.
    pub fn peek(&self) -> Word<'a> {
        let rest = self.text[self.at..].trim_start();
        match first_length(rest) {
            0 => Word { letters: "", at: self.at },
            length => Word { letters: &rest[..length], at: self.text.len() - rest.len() },
        }
    }

    /// The next word.
    pub fn word(&mut self) -> Word<'a> {
        let word = self.peek();
        self.at = word.at + word.letters.len();
        word
    }

    /// Whether the next word is this one, which is then read.
    pub fn has(&mut self, letters: &str) -> bool {
        let is_next = self.peek().letters == letters;
        if is_next {
            self.word();
        }
        is_next
    }

    /// Reads this word, which must be the next.
    pub fn need(&mut self, letters: &str) -> Result<(), Mistake> {
        let word = self.word();
        match word.letters == letters {
            true => Ok(()),
            false if word.is_end() => Err(word.mistake(format!("'{letters}' is missing"))),
            false => Err(word.mistake(format!("'{letters}' is missing before '{}'", hex::cut(word.letters)))),
        }
    }

    /// That the line ends here.
    pub fn end(&self) -> Result<(), Mistake> {
        match self.peek() {
            word if word.is_end() => Ok(()),
            word => Err(word.is_wrong("is left over")),
        }
    }

    /// Reads a number in decimal.
    pub fn number<T>(&mut self, what: &str, range: RangeInclusive<T>) -> Result<T, Mistake>
    where
        T: TryFrom<i64> + PartialOrd + Display,
    {
        let word = self.word();
        let number = decimal(word.letters).and_then(|number| number.try_into().ok());
        number.filter(|number| range.contains(number)).ok_or_else(|| {
            let form = format!("a number from {} to {}", range.start(), range.end());
            word.is_not(what, &form)
        })
    }

    /// Reads bytes in hex up to the end of the line, at most so many; commas between them are passed over.
    pub fn bytes(&mut self, most: usize) -> Result<Vec<u8>, Mistake> {
        let mut bytes = Vec::new();
        while !self.peek().is_end() {
            let word = self.word();
            match hex::number(word.letters, 2) {
                Some(byte) => bytes.push(byte as u8),
                None => bytes.extend(hex::bytes(word.letters).map_err(|wrong| word.mistake(wrong))?),
            }
            if bytes.len() > most {
                return Err(word.is_wrong(&format!("is too much: there is room for {most} bytes")));
            }
        }
        Ok(bytes)
    }
}

/// Bytes of the word with which a text begins, which is no space: a sign, two dots or more, or what comes before these and space.
fn first_length(text: &str) -> usize {
    if text.starts_with("..") {
        return text.len() - text.trim_start_matches('.').len();
    }
    match text.find(|c: char| c.is_whitespace() || SIGNS.contains(&c)).unwrap_or(text.len()) {
        0 => text.len().min(1),
        end if text[..end].contains('.') => text[..end].find("..").unwrap_or(end),
        end => end,
    }
}

/// The number that a word is: digits, and a minus before them where it is negative.
fn decimal(letters: &str) -> Option<i64> {
    let digits = letters.strip_prefix('-').unwrap_or(letters);
    let is_decimal = digits.bytes().all(|digit| digit.is_ascii_digit());
    is_decimal.then(|| letters.parse().ok()).flatten()
}

#[cfg(test)]
mod tests {
    use super::*;

    fn words(text: &str) -> Vec<(&str, usize)> {
        let mut line = Line::new(text);
        std::iter::from_fn(|| Some(line.word()).filter(|word| !word.is_end()))
            .map(|word| (word.letters, word.at))
            .collect()
    }

    /// What is wrong, with its column.
    fn wrong<T: std::fmt::Debug>(text: &str, read: impl FnOnce(&mut Line) -> Result<T, Mistake>) -> String {
        read(&mut Line::new(text)).unwrap_err().in_line(text)
    }

    #[test]
    fn words_and_signs() {
        assert_eq!(words("a bc\t-5\u{A0}d\r"), [("a", 0), ("bc", 2), ("-5", 5), ("d", 9)]);
        assert_eq!(
            words(" 7[0..12]=3,x:"),
            words(" 7 [ 0 .. 12 ] = 3 , x :")
                .iter()
                .zip([1, 2, 3, 4, 6, 8, 9, 10, 11, 12, 13])
                .map(|((word, _), at)| (*word, at))
                .collect::<Vec<_>>()
        );
        assert_eq!(words("a;b#c d"), [("a", 0), (";", 1), ("b", 2)]);
        assert_eq!((words(""), words(" \t\r"), words("# a"), words("...")), (vec![], vec![], vec![], vec![("...", 0)]));
        assert_eq!(
            words("1.5 .5 5. 0..1.5...x"),
            [("1.5", 0), (".5", 4), ("5.", 7), ("0", 10), ("..", 11), ("1.5", 13), ("...", 16), ("x", 19)]
        );
    }

    #[test]
    fn a_word_is_read_once_and_looked_at_often() {
        let mut line = Line::new("axis 1 2");
        assert_eq!(
            (line.peek().letters, line.peek().letters, line.has("x"), line.has("axis")),
            ("axis", "axis", false, true)
        );
        assert_eq!((line.need("1"), line.word().letters, line.word().letters, line.end()), (Ok(()), "2", "", Ok(())));
    }

    #[test]
    fn numbers_in_their_range() {
        let number = |text: &str| Line::new(text).number("it", -8..=8).ok();
        assert_eq!(["-8", "8", "0", "-0", "007"].map(number), [Some(-8), Some(8), Some(0), Some(0), Some(7)]);
        for text in
            ["9", "-9", "99999999999999999999", "+1", "-", "--1", "1-", "x", "0x1", "1e1", "\u{0661}", ":", "1\u{E9}"]
        {
            let said = format!("1: it is a number from -8 to 8, and not '{text}'");
            assert_eq!(wrong(text, |line| line.number("it", -8..=8)), said);
        }
        assert_eq!(wrong("x", |line| line.number("it", 0..=u8::MAX)), "1: it is a number from 0 to 255, and not 'x'");
        assert_eq!(wrong("  # 5", |line| line.number("it", 1..=2)), "1: it is missing, a number from 1 to 2");
    }

    #[test]
    fn bytes_in_hex() {
        let bytes = |text: &str, most| Line::new(text).bytes(most).unwrap();
        assert_eq!(bytes("5F 00 0x2f,0X0A 0102, 0x0304", 8), [0x5F, 0, 0x2F, 0x0A, 1, 2, 3, 4]);
        assert_eq!(bytes("", 0), []);
        assert_eq!(wrong("01 02 0304", |line| line.bytes(3)), "7: '0304' is too much: there is room for 3 bytes");
        assert_eq!(wrong("01 234", |line| line.bytes(9)), "4: '234' has an odd number of hex digits (3)");
        assert_eq!(wrong("01 02:", |line| line.bytes(9)), "6: ':' is no hex");
        assert_eq!(wrong("\u{E9}\u{E9} ", |line| line.bytes(9)), "1: '\u{E9}\u{E9}' is no hex");
    }

    #[test]
    fn a_message_steers_no_terminal() {
        let said = "1: 'x' is missing before '\\u{1b}c\\u{0}\u{E9}'";
        assert_eq!(wrong("\u{1B}c\0\u{E9} y", |line| line.need("x")), said);
    }

    #[test]
    fn columns_are_characters() {
        assert_eq!(wrong("\u{A0}\u{A0}x y", |line| line.need("y")), "3: 'y' is missing before 'x'");
        assert_eq!(wrong("x  # y", |line| line.need("x").and(line.need("y"))), "2: 'y' is missing");
        assert_eq!(wrong("x\t\u{E9} y", |line| line.need("x").and(line.end())), "3: '\u{E9}' is left over");
    }
}
