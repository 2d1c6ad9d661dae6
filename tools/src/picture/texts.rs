//! Texts in an SVG: what XML cannot hold, how wide they may get, and where a long one is cut.

/// What stands for a character that cannot be shown.
const REPLACED: char = '\u{fffd}';

/// A text as it can be shown: no characters that XML cannot hold, that steer a terminal, or that turn the direction of others.
pub fn shown(text: &str) -> String {
    let unseen = |of: char| {
        of.is_control() || matches!(of, '\u{202a}'..='\u{202e}' | '\u{2066}'..='\u{2069}' | '\u{fffe}' | '\u{ffff}')
    };
    text.chars().map(|of| if unseen(of) { REPLACED } else { of }).collect()
}

/// A text for XML, in an element or an attribute.
pub fn escaped(text: &str) -> String {
    let mut escaped = String::with_capacity(text.len());
    for of in text.chars() {
        match of {
            '&' => escaped.push_str("&amp;"),
            '<' => escaped.push_str("&lt;"),
            '>' => escaped.push_str("&gt;"),
            '"' => escaped.push_str("&quot;"),
            '\'' => escaped.push_str("&#39;"),
            of => escaped.push(of),
        }
    }
    escaped
}

/// How wide a text may get in any usual font, in hundredths of the font's size. Measured on a wide one, DejaVu Sans Bold.
pub fn width(text: &str) -> u32 {
    text.chars().map(width_of).sum()
}

fn width_of(of: char) -> u32 {
    match of {
        ' ' | '\u{a0}' | 'i' | 'j' | 'l' => 35,
        '.' | ',' | ':' | ';' | '\'' | '|' | '/' => 40,
        'f' | 'r' | 't' | '-' | '!' | '(' | ')' | '[' | ']' | '_' => 50,
        '⁰'..='⁹' | '¹' | '²' | '³' => 44,
        'M' | 'w' | '%' | '@' => 100,
        'W' | 'm' => 110,
        'a' | 'c' | 'e' | 'k' | 'o' | 's' | 'v' | 'x' | 'y' | 'z' => 69,
        'a'..='z' | '0'..='9' => 72,
        'A'..='Z' | '!'..='~' => 87,
        '\u{1f000}'.. => 140,
        _ => 105,
    }
}

/// A text in lines that are at most so wide, cut after so many of them.
pub fn lines(text: &str, widest: u32, most: usize) -> Vec<String> {
    let mut rest = text.trim();
    let mut lines = Vec::new();
    while !rest.is_empty() && lines.len() < most {
        let line = fitting(rest, widest);
        let left = rest[line.len()..].trim_start();
        let is_cut = lines.len() + 1 == most && !left.is_empty();
        lines.push(if is_cut { cut(rest, widest) } else { line.trim_end().to_string() });
        rest = left;
    }
    lines
}

/// The beginning of a text that is at most so wide. If more follows it ends at its last space, unless it were then half empty.
fn fitting(text: &str, widest: u32) -> &str {
    let beginning = within(text, widest);
    let is_all = beginning.len() == text.len() || text[beginning.len()..].starts_with(' ');
    match beginning.rfind(' ') {
        Some(space) if !is_all && 2 * width(&beginning[..space]) >= widest => &beginning[..space],
        _ => beginning,
    }
}

/// As much of a text as goes before a sign that says that there is more.
fn cut(text: &str, widest: u32) -> String {
    format!("{}…", within(text, widest - width("…")).trim_end())
}

/// As many characters as fit.
fn within(text: &str, widest: u32) -> &str {
    let ends = text.char_indices().map(|(at, of)| at + of.len_utf8());
    let end = ends.take_while(|end| width(&text[..*end]) <= widest).last();
    &text[..end.unwrap_or(0)]
}

#[cfg(test)]
mod tests {
    use super::*;

    #[test]
    fn what_xml_cannot_hold() {
        assert_eq!(shown("a\0b\nc\u{7f}\u{85}\u{ffff}\u{202e}é漢🌾"), "a�b�c����é漢🌾");
        assert_eq!(escaped("<a b=\"c\">&'x'"), "&lt;a b=&quot;c&quot;&gt;&amp;&#39;x&#39;");
    }

    #[test]
    fn lines_end_at_spaces_and_after_the_last_there_is_a_sign() {
        let ten = width("0123456789");
        assert_eq!(lines("012345678 abc", ten, 2), ["012345678", "abc"]);
        assert_eq!(lines("0123456789 abc", ten, 2), ["0123456789", "abc"]);
        assert_eq!(lines("01234 56789 abc", ten, 2), ["01234", "56789 abc"]);
        assert_eq!(lines("0123456789012345678901", ten, 2), ["0123456789", "01234567…"]);
        assert_eq!(lines("0123456789 0123 456789", ten, 2), ["0123456789", "0123 4567…"]);
        assert_eq!(lines("0 1234567890", ten, 2), ["0 12345678", "90"]);
        assert_eq!(lines(" ", ten, 2), [""; 0]);
    }

    #[test]
    fn no_line_is_wider_than_allowed() {
        let widest = width("0123456789");
        for text in ["漢".repeat(99), "🌾 ".repeat(99), "WiW i".repeat(99), "é".repeat(3)] {
            let lines = lines(&text, widest, 3);
            assert!(lines.len() <= 3 && lines.iter().all(|line| width(line) <= widest), "{lines:?}");
        }
    }
}
