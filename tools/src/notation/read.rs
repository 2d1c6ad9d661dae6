//! Reads a request block that is written in words.

use super::{number, own_format, ATTRIBUTES};
use crate::hex;
use crate::layout::{Block, Values, CHANGE, VALUE};
use crate::line::{Line, Mistake, Word};
use std::ops::RangeInclusive;
use twin::block::format_size;
use twin::{Address, Parameter, BLOCK_MAX};

const PARAMETERS_MAX: usize = 39;
/// Identifier of a request that is no change.
const READ: u8 = 0x01;

/// Reads a block from `read` or `change` on. It is readable, and ends before a word that does not belong to it.
pub fn read(line: &mut Line) -> Result<Block, Mistake> {
    let word = line.word();
    let identifier = match word.letters {
        "read" => READ,
        "change" => CHANGE,
        _ => return Err(word.is_not("a block", "'read' or 'change'")),
    };
    let reference = hex_byte(line, "the reference", "2 hex digits from 01 to FF", |reference| reference > 0)?;
    line.need("axis")?;
    let axis = line.number("the axis", 0..=u8::MAX)?;
    line.need(":")?;
    let mut block = Block { reference, identifier, axis, count: 0, addresses: Vec::new(), values: Vec::new() };
    parameter(line, &mut block)?;
    while line.has(",") {
        parameter(line, &mut block)?;
    }
    Ok(block)
}

/// Reads one more parameter of a block, with its values in a change.
fn parameter(line: &mut Line, block: &mut Block) -> Result<(), Mistake> {
    let first = line.peek();
    if block.addresses.len() == PARAMETERS_MAX && !first.is_end() {
        return Err(first.is_wrong(&format!("is too much: a block has at most {PARAMETERS_MAX} parameters")));
    }
    let address = address(line)?;
    block.addresses.push(address);
    block.count += 1;
    if block.identifier == CHANGE {
        line.need("=")?;
        let room = BLOCK_MAX.saturating_sub(block.length());
        block.values.push(values(line, address.pnu, room)?);
    }
    Ok(())
}

fn address(line: &mut Line) -> Result<Address, Mistake> {
    let attribute = attribute(line)?;
    let word = line.peek();
    let pnu = line.number("the parameter", 0..=u16::MAX)?;
    let (sub_index, elements) = if line.has("[") { elements(line)? } else { only(word, pnu)? };
    Ok(Address { attribute, elements, pnu, sub_index })
}

/// What is asked of a parameter: its value, where nothing is said.
fn attribute(line: &mut Line) -> Result<u8, Mistake> {
    if line.has("attribute") {
        return hex_byte(line, "the attribute", "2 hex digits", |_| true);
    }
    let named = ATTRIBUTES.iter().find(|(_, name)| line.has(name));
    Ok(named.map_or(VALUE, |(attribute, _)| *attribute))
}

/// The sub-index and number of elements of a parameter without brackets, which has only one.
fn only(word: Word, pnu: u16) -> Result<(u16, u8), Mistake> {
    match Parameter::find(pnu).and_then(Parameter::array_length) {
        None => Ok((0, 1)),
        Some(length) => {
            let elements = format!("{pnu}[0] to {pnu}[{}]", length - 1);
            Err(word.is_wrong(&format!("is an array: name an element, {elements}")))
        }
    }
}

/// The first sub-index between brackets and the number of elements: `0`, `0..3` or `0;4`.
fn elements(line: &mut Line) -> Result<(u16, u8), Mistake> {
    let first = line.number("the index", 0..=u16::MAX)?;
    let elements = if line.has("..") {
        let last = line.number("the last index", first..=first.saturating_add(254))?;
        (last - first + 1) as u8
    } else if line.has(";") {
        line.number("the number of elements", 0..=u8::MAX)?
    } else {
        1
    };
    line.need("]").map(|()| (first, elements))
}

/// The values of a parameter, up to a comma or to the end of the line, where there is room for so many bytes.
fn values(line: &mut Line, pnu: u16, room: usize) -> Result<Values, Mistake> {
    let format = format(line, pnu)?;
    let size = format_size(format).unwrap_or(1);
    let mut values = Values { format, size, values: Vec::new() };
    let first = line.peek();
    if line.has("none") {
        return in_room(first, &values, room).map(|()| values);
    }
    let (what, range) = (format!("a value of {pnu}"), range(pnu, size));
    loop {
        let word = line.peek();
        values.values.push(line.number(&what, range.clone())? as u32 & mask(size));
        in_room(word, &values, room)?;
        if matches!(line.peek().letters, "" | ",") {
            return Ok(values);
        }
    }
}

/// That there is room for these values, of which a word is the last.
fn in_room(last: Word, values: &Values, room: usize) -> Result<(), Mistake> {
    match values.length() <= room {
        true => Ok(()),
        false => Err(last.is_wrong(&format!("is too much: a block has room for {BLOCK_MAX} bytes"))),
    }
}

fn format(line: &mut Line, pnu: u16) -> Result<u8, Mistake> {
    match line.has("format") {
        true => hex_byte(line, "the format", "one of 02 to 07 and 41 to 43", |format| format_size(format).is_some()),
        false => Ok(own_format(pnu)),
    }
}

/// The low bits of a value of so many bytes.
fn mask(size: usize) -> u32 {
    u32::MAX >> (32 - 8 * size)
}

/// The numbers that so many bytes can be to a parameter.
fn range(pnu: u16, size: usize) -> RangeInclusive<i64> {
    let (highest, half) = (mask(size), mask(size) / 2);
    match number(pnu, size, half + 1) {
        lowest @ ..0 => lowest..=half.into(),
        _ => 0..=highest.into(),
    }
}

fn hex_byte(line: &mut Line, what: &str, form: &str, is_good: impl Fn(u8) -> bool) -> Result<u8, Mistake> {
    let word = line.word();
    let byte = hex::number(word.letters, 2).map(|byte| byte as u8);
    byte.filter(|byte| is_good(*byte)).ok_or_else(|| word.is_not(what, form))
}

#[cfg(test)]
mod tests {
    use super::super::request;
    use super::*;

    /// The bytes of a block in words, or what is wrong.
    fn bytes(text: &str) -> Result<Vec<u8>, String> {
        let mut line = Line::new(text);
        let block = read(&mut line).and_then(|block| line.end().map(|()| block));
        block.map(|block| block.bytes()).map_err(|mistake| mistake.in_line(text))
    }

    fn wrong(text: &str) -> String {
        bytes(text).expect_err(text)
    }

    #[test]
    fn every_form_of_an_address() {
        for (text, address) in [
            ("944", [0x10, 1, 0x03, 0xB0, 0, 0]),
            ("944[1]", [0x10, 1, 0x03, 0xB0, 0, 1]),
            ("947[8..15]", [0x10, 8, 0x03, 0xB3, 0, 8]),
            ("7[1..255]", [0x10, 255, 0, 7, 0, 1]),
            ("65535[65281..65535]", [0x10, 255, 0xFF, 0xFF, 0xFF, 0x01]),
            ("947[65535;2]", [0x10, 2, 0x03, 0xB3, 0xFF, 0xFF]),
            ("0[0;0]", [0x10, 0, 0, 0, 0, 0]),
            ("description 944", [0x20, 1, 0x03, 0xB0, 0, 0]),
            ("text 947[0]", [0x30, 1, 0x03, 0xB3, 0, 0]),
            ("attribute AB 7[0..254]", [0xAB, 255, 0, 7, 0, 0]),
        ] {
            let (text, all) = (format!("read 0A axis 255: {text}"), [&[10, 1, 255, 1], &address[..]].concat());
            assert_eq!(bytes(&text), Ok(all.clone()));
            assert_eq!(Block::of_request(&all).map(|block| request(&block)), Some(text));
        }
    }

    #[test]
    fn every_form_of_values() {
        for (text, pnu, values) in [
            ("0 65535", 30001, &[0x42, 2, 0, 0, 0xFF, 0xFF][..]),
            ("-32768 32767 -1", 10101, &[0x42, 3, 0x80, 0, 0x7F, 0xFF, 0xFF, 0xFF]),
            ("3", 965, &[0x41, 1, 3, 0]),
            ("3 255", 965, &[0x41, 2, 3, 255]),
            ("-2147483648 2147483647", 30004, &[0x43, 2, 0x80, 0, 0, 0, 0x7F, 0xFF, 0xFF, 0xFF]),
            ("65535", 7, &[0x42, 1, 0xFF, 0xFF]),
            ("none", 965, &[0x41, 0]),
            ("format 43 none", 7, &[0x43, 0]),
            ("format 02 128 127 0", 7, &[0x02, 3, 0x80, 0x7F, 0, 0]),
            ("format 03 -32768", 10101, &[0x03, 1, 0x80, 0]),
            ("format 04 -1", 30004, &[0x04, 1, 0xFF, 0xFF, 0xFF, 0xFF]),
            ("format 05 255", 10101, &[0x05, 1, 0xFF, 0]),
            ("format 06 65535", 30001, &[0x06, 1, 0xFF, 0xFF]),
            ("format 07 4294967295", 7, &[0x07, 1, 0xFF, 0xFF, 0xFF, 0xFF]),
            ("format 41 128", 30004, &[0x41, 1, 0x80, 0]),
            ("format 43 4294967295", 10101, &[0x43, 1, 0xFF, 0xFF, 0xFF, 0xFF]),
        ] {
            let text = format!("change FF axis 0: {pnu}[3..6] = {text}");
            let [high, low] = u16::to_be_bytes(pnu);
            let all = [&[255, 2, 0, 1, 0x10, 4, high, low, 0, 3], values].concat();
            assert_eq!(bytes(&text), Ok(all.clone()));
            assert_eq!(Block::of_request(&all).map(|block| request(&block)), Some(text));
        }
    }

    #[test]
    fn the_block_that_is_read_is_that_of_its_bytes() {
        let text = "change 07 axis 1: 10101 = -1, text 965[0..1] = format 05 255 0 7, 30004[1] = -20";
        let block = read(&mut Line::new(text)).unwrap();
        assert_eq!(Block::of_request(&block.bytes()), Some(block));
    }

    #[test]
    fn what_is_read_and_never_written() {
        for (text, written) in [
            ("read 0x0a axis 01:944,947 [ 0 .. 7 ] , 7", "read 0A axis 1: 944, 947[0..7], 7[0]"),
            ("read 07 axis 1 : attribute 10 947[3..3]", "read 07 axis 1: 947[3]"),
            ("read 07 axis 1: attribute 20 944[0;1]", "read 07 axis 1: description 944"),
            ("change 07 axis 1: 944=5,965[0]=format 0x41 -0", "change 07 axis 1: 944 = 5, 965[0] = 0"),
        ] {
            assert_eq!(bytes(text), bytes(written));
            assert_eq!(
                bytes(text).ok().and_then(|bytes| Block::of_request(&bytes)).map(|block| request(&block)).as_deref(),
                Some(written)
            );
        }
    }

    #[test]
    fn mistakes_before_the_parameters() {
        assert_eq!(wrong("write 07"), "1: a block is 'read' or 'change', and not 'write'");
        for reference in ["0", "00", "7", "007", "G7", "-7", "axis"] {
            let said = format!("6: the reference is 2 hex digits from 01 to FF, and not '{reference}'");
            assert_eq!(wrong(&format!("read {reference} axis 1: 944")), said);
        }
        assert_eq!(wrong("read"), "5: the reference is missing, 2 hex digits from 01 to FF");
        assert_eq!(wrong("read 07 1: 944"), "9: 'axis' is missing before '1'");
        assert_eq!(wrong("read 07 axis 256: 944"), "14: the axis is a number from 0 to 255, and not '256'");
        assert_eq!(wrong("read 07 axis 1 944"), "16: ':' is missing before '944'");
        assert_eq!(wrong("read 07 axis 1: # 944"), "16: the parameter is missing, a number from 0 to 65535");
    }

    #[test]
    fn mistakes_in_addresses() {
        let read = |text: &str| wrong(&format!("read 07 axis 1: 930, {text}"));
        assert_eq!(read("65536"), "22: the parameter is a number from 0 to 65535, and not '65536'");
        assert_eq!(read(""), "21: the parameter is missing, a number from 0 to 65535");
        assert_eq!(read("930 944"), "26: '944' is left over");
        assert_eq!(read("30001"), "22: '30001' is an array: name an element, 30001[0] to 30001[3]");
        assert_eq!(read("947[]"), "26: the index is a number from 0 to 65535, and not ']'");
        assert_eq!(read("947[65536]"), "26: the index is a number from 0 to 65535, and not '65536'");
        assert_eq!(read("947[3..2]"), "29: the last index is a number from 3 to 257, and not '2'");
        assert_eq!(read("947[3..258]"), "29: the last index is a number from 3 to 257, and not '258'");
        assert_eq!(read("947[65535..65536]"), "33: the last index is a number from 65535 to 65535, and not '65536'");
        assert_eq!(read("947[0;256]"), "28: the number of elements is a number from 0 to 255, and not '256'");
        assert_eq!(read("947[0...1]"), "27: ']' is missing before '...'");
        assert_eq!(read("947[0"), "27: ']' is missing");
        assert_eq!(read("attribute 1 930"), "32: the attribute is 2 hex digits, and not '1'");
        assert_eq!(read("value 930"), "22: the parameter is a number from 0 to 65535, and not 'value'");
        assert_eq!(read("930 = 5"), "26: '=' is left over");
    }

    #[test]
    fn mistakes_in_values() {
        let change = |text: &str| wrong(&format!("change 07 axis 1: 930 = 5, {text}"));
        assert_eq!(change("930"), "31: '=' is missing");
        assert_eq!(change("930 5"), "32: '=' is missing before '5'");
        assert_eq!(change("930 ="), "33: a value of 930 is missing, a number from 0 to 65535");
        assert_eq!(change("930 = , 944"), "34: a value of 930 is a number from 0 to 65535, and not ','");
        assert_eq!(change("930 = 5 65536"), "36: a value of 930 is a number from 0 to 65535, and not '65536'");
        assert_eq!(change("930 = -1"), "34: a value of 930 is a number from 0 to 65535, and not '-1'");
        assert_eq!(change("10101 = 32768"), "36: a value of 10101 is a number from -32768 to 32767, and not '32768'");
        assert_eq!(change("965[0] = 256"), "37: a value of 965 is a number from 0 to 255, and not '256'");
        assert_eq!(change("930 = none 5"), "39: '5' is left over");
        assert_eq!(change("930 = 5 none"), "36: a value of 930 is a number from 0 to 65535, and not 'none'");
        assert_eq!(change("930 = 5, "), "36: the parameter is missing, a number from 0 to 65535");
        for format in ["01", "08", "40", "44", "6", "x"] {
            let said = format!("41: the format is one of 02 to 07 and 41 to 43, and not '{format}'");
            assert_eq!(change(&format!("930 = format {format} 5")), said);
        }
        assert_eq!(change("930 = format 02 256"), "44: a value of 930 is a number from 0 to 255, and not '256'");
        let signed = "a value of 30004 is a number from -2147483648 to 2147483647, and not '2147483648'";
        assert_eq!(change("30004[0] = 2147483648"), format!("39: {signed}"));
    }

    #[test]
    fn a_block_that_is_too_long() {
        let read = |count| format!("read 07 axis 1: {}", vec!["930"; count].join(", "));
        assert_eq!(bytes(&read(39)).map(|bytes| bytes.len()), Ok(238));
        assert_eq!(wrong(&format!("{},", read(39))), "211: the parameter is missing, a number from 0 to 65535");
        assert_eq!(wrong(&read(40)), "212: '930' is too much: a block has at most 39 parameters");
        let change = |values| format!("change 07 axis 1: 930 = {}", vec!["0"; values].join(" "));
        assert_eq!(bytes(&change(114)).map(|bytes| bytes.len()), Ok(240));
        assert_eq!(wrong(&change(115)), "253: '0' is too much: a block has room for 240 bytes");
        assert_eq!(wrong(&format!("{} x", change(115))), wrong(&change(115)), "the first mistake is told");
        let filled = |values| change(values).replace("930 =", "930 = format 05");
        assert_eq!(bytes(&filled(227)).map(|bytes| bytes.len()), Ok(240));
        assert_eq!(wrong(&filled(229)), "491: '0' is too much: a block has room for 240 bytes");
        let none = |count| format!("change 07 axis 1: {}", vec!["930 = none"; count].join(", "));
        assert_eq!(bytes(&none(29)).map(|bytes| bytes.len()), Ok(236));
        assert_eq!(wrong(&none(30)), "373: 'none' is too much: a block has room for 240 bytes");
    }
}
