//! Bytes in hex, as people type them.

/// The words of a text, apart by space and commas.
pub fn words(text: &str) -> impl Iterator<Item = &str> {
    text.split(|between: char| between.is_whitespace() || between == ',').filter(|word| !word.is_empty())
}

/// The digits of a word in hex, without the 0x that may stand before them; none where it is something else.
fn digits(word: &str) -> Option<&str> {
    let digits = word.strip_prefix("0x").or(word.strip_prefix("0X")).unwrap_or(word);
    (!digits.is_empty() && digits.bytes().all(|digit| digit.is_ascii_hexdigit())).then_some(digits)
}

/// Whether every word of a text is in hex.
pub fn is_hex(text: &str) -> bool {
    words(text).all(|word| digits(word).is_some())
}

/// The bytes of a text of words in hex, or the first word that is none.
pub fn bytes(text: &str) -> Result<Vec<u8>, String> {
    let digits = |word| digits(word).ok_or_else(|| format!("'{}' is no hex", cut(word)));
    let groups: Vec<&str> = words(text).map(digits).collect::<Result<_, _>>()?;
    match groups.iter().find(|group| group.len() % 2 == 1) {
        Some(odd) => Err(format!("'{}' has an odd number of hex digits ({})", cut(odd), odd.len())),
        None => Ok(groups.concat().as_bytes().chunks(2).map(byte).collect()),
    }
}

/// The number that a word of exactly so many digits is.
pub fn number(word: &str, count: usize) -> Option<u16> {
    digits(word).filter(|digits| digits.len() == count).and_then(|digits| u16::from_str_radix(digits, 16).ok())
}

/// The byte that two digits are.
fn byte(digits: &[u8]) -> u8 {
    digits.iter().fold(0, |high, digit| high << 4 | (*digit as char).to_digit(16).unwrap_or(0) as u8)
}

/// Bytes as hex digits.
pub fn digits_of(bytes: &[u8]) -> String {
    bytes.iter().map(|byte| format!("{byte:02X}")).collect()
}

/// Bytes as words of two digits, a space before each.
pub fn spaced(bytes: &[u8]) -> String {
    const DIGITS: [char; 16] = ['0', '1', '2', '3', '4', '5', '6', '7', '8', '9', 'A', 'B', 'C', 'D', 'E', 'F'];
    let word = |byte: &u8| [' ', DIGITS[usize::from(byte >> 4)], DIGITS[usize::from(byte & 0x0F)]];
    bytes.iter().flat_map(word).collect()
}

/// As much of a text as a message names of it.
pub fn cut(text: &str) -> String {
    const NAMED: usize = 40;
    match text.char_indices().nth(NAMED) {
        Some((end, _)) => format!("{}..", &text[..end]),
        None => text.to_string(),
    }
}

#[cfg(test)]
mod tests {
    use super::*;

    #[test]
    fn hex_and_what_is_none() {
        for text in ["5f00 2F\t0a", "0x5F 0x00 0X2f 0x0A", "0x5F,0x00,0x2F,0x0A", "5F, 00 ,2F,,0A,", " 0x5F002F0A "] {
            assert_eq!((is_hex(text), bytes(text)), (true, Ok(vec![0x5F, 0, 0x2F, 0x0A])), "{text}");
        }
        let odd = |digits: &str, count| Err(format!("'{digits}' has an odd number of hex digits ({count})"));
        assert_eq!(bytes("01 234"), odd("234", 3));
        assert_eq!(bytes("0 1"), odd("0", 1));
        assert_eq!(bytes("0x5, 0x00"), odd("5", 1));
        assert_eq!(bytes(&"0".repeat(41)), odd(&format!("{}..", "0".repeat(40)), 41));
        for word in ["-", "0x", "0x0x01", "2*01", "01;", "log", "\u{0661}"] {
            for text in [word.to_string(), format!("07 {word} gh"), format!("0,{word},-")] {
                assert_eq!((is_hex(&text), bytes(&text)), (false, Err(format!("'{word}' is no hex"))));
            }
        }
        assert_eq!(bytes(&"\u{E9}".repeat(41)), Err(format!("'{}..' is no hex", "\u{E9}".repeat(40))));
        assert_eq!(bytes(&"\u{E9}".repeat(40)), Err(format!("'{}' is no hex", "\u{E9}".repeat(40))));
    }

    #[test]
    fn numbers_of_so_many_digits() {
        assert_eq!([number("07", 2), number("0xfF", 2), number("047E", 4)], [Some(7), Some(0xFF), Some(0x047E)]);
        for (word, count) in [("7", 2), ("007", 2), ("0x7", 2), ("0x", 2), ("+7", 2), ("", 2), ("47E", 4), ("0047E", 4)]
        {
            assert_eq!(number(word, count), None, "{word}");
        }
    }

    #[test]
    fn bytes_apart() {
        assert_eq!((spaced(&[]), spaced(&[0x5F, 0, 0xA9])), (String::new(), " 5F 00 A9".to_string()));
        let all: Vec<u8> = (0..=255).collect();
        assert_eq!(spaced(&all).replace(' ', ""), digits_of(&all));
    }
}
