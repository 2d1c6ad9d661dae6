//! Why a block is not readable, in a phrase: the first thing on a walk over its bytes that is not as document 01 lays it out,
//! with the fill byte of document 02. Bytes are counted from 1.

use crate::layout::{Side, ADDRESS, BYTE_FORMATS, HEADER};
use crate::words::counted;
use twin::block::{format_size, FORMAT_ERROR, FORMAT_ZERO};
use twin::BLOCK_MAX;

/// Why a block of this side is not readable; none where it is.
pub fn fault(side: Side, block: &[u8]) -> Option<String> {
    walk(side, block).err()
}

fn walk(side: Side, block: &[u8]) -> Result<(), String> {
    let (identifier, count) = header(side, block)?;
    let mut walk = Walk { side, identifier, block, passed: HEADER };
    if side == Side::Request {
        walk.pass(ADDRESS * usize::from(count), "addresses")?;
    }
    let value_blocks = match (side, identifier) {
        (Side::Request, 0x01) | (Side::Response, 0x02) => 0,
        _ => count,
    };
    let mut errors = 0;
    for _ in 0..value_blocks {
        errors += usize::from(walk.value_block()? == FORMAT_ERROR);
    }
    match (block.len() - walk.passed, identifier) {
        (0, 0x81 | 0x82) if errors == 0 => Err(format!("the identifier is {identifier:02X}, and no block is an error")),
        (0, _) => Ok(()),
        (left, _) => Err(format!("{} left over behind byte {}", counted(left, "byte"), walk.passed)),
    }
}

/// The identifier and the number of parameters.
fn header(side: Side, block: &[u8]) -> Result<(u8, u8), String> {
    let [reference, identifier, _, count, ..] = *block else { return Err(format!("it is under {HEADER} bytes")) };
    let wrong = match (side, identifier) {
        _ if block.len() > BLOCK_MAX => format!("it is over {BLOCK_MAX} bytes"),
        _ if reference == 0 => "the reference is 00".to_string(),
        (Side::Request, 0 | 0x03..) => format!("the identifier is {identifier:02X}, and not 01 or 02"),
        (Side::Response, 0 | 0x03..=0x80 | 0x83..) => {
            format!("the identifier is {identifier:02X}, and not 01, 02, 81 or 82")
        }
        _ if !(1..=39).contains(&count) => format!("the number of parameters is {count}, and not 1 to 39"),
        _ => return Ok((identifier, count)),
    };
    Err(wrong)
}

/// A walk over a block, behind its header.
struct Walk<'a> {
    side: Side,
    identifier: u8,
    block: &'a [u8],
    passed: usize,
}

impl Walk<'_> {
    /// Passes over a value block, of this format.
    fn value_block(&mut self) -> Result<u8, String> {
        let format = self.byte("a format")?;
        let Some(size) = self.size_of(format) else {
            return Err(format!(
                "{format:02X} at byte {} is no format for identifier {:02X}",
                self.passed, self.identifier
            ));
        };
        let count = self.byte("a number of values")?;
        if !self.may_count(format, count) {
            return Err(format!("{count} at byte {} is no number of values for format {format:02X}", self.passed));
        }
        self.pass(size * usize::from(count), "values")?;
        if BYTE_FORMATS.contains(&format) && count % 2 == 1 {
            self.fill()?;
        }
        Ok(format)
    }

    /// Bytes of a value; none where the format may not stand here.
    fn size_of(&self, format: u8) -> Option<usize> {
        match (self.side, self.identifier, format) {
            (Side::Response, 0x82, FORMAT_ZERO) => Some(0),
            (Side::Response, 0x81 | 0x82, FORMAT_ERROR) => Some(2),
            (Side::Response, 0x82, _) | (Side::Response, _, 2..=7) => None,
            _ => format_size(format),
        }
    }

    fn may_count(&self, format: u8, count: u8) -> bool {
        match (self.side, format) {
            (Side::Request, _) => true,
            (Side::Response, FORMAT_ZERO) => count == 0,
            (Side::Response, FORMAT_ERROR) => count == 1,
            (Side::Response, _) => count > 0,
        }
    }

    fn fill(&mut self) -> Result<(), String> {
        const FILL: &str = "the fill byte 00 of an odd number of byte values";
        match self.byte(FILL)? {
            0 => Ok(()),
            other => Err(format!("byte {} should be {FILL}, and is {other:02X}", self.passed)),
        }
    }

    /// The next byte, which should be this.
    fn byte(&mut self, what: &str) -> Result<u8, String> {
        let Some(byte) = self.block.get(self.passed) else {
            return Err(format!("it is cut where byte {} should be {what}", self.passed + 1));
        };
        self.passed += 1;
        Ok(*byte)
    }

    /// Passes over so many bytes, which should be these.
    fn pass(&mut self, bytes: usize, what: &str) -> Result<(), String> {
        let passed = self.passed + bytes;
        if passed > self.block.len() {
            return Err(format!("it is cut where bytes {} to {passed} should be {what}", self.passed + 1));
        }
        self.passed = passed;
        Ok(())
    }
}

#[cfg(test)]
mod tests {
    use super::*;
    use crate::hex;

    fn of(side: Side, block: &str) -> String {
        fault(side, &hex::bytes(block).unwrap()).unwrap_or("readable".to_string())
    }

    #[test]
    fn headers() {
        for side in [Side::Request, Side::Response] {
            assert_eq!(of(side, ""), "it is under 4 bytes");
            assert_eq!(of(side, "07 01 01"), "it is under 4 bytes");
            assert_eq!(of(side, &"00".repeat(241)), "it is over 240 bytes");
            assert_eq!(of(side, &"00".repeat(240)), "the reference is 00");
            assert_eq!(of(side, "07 01 01 00"), "the number of parameters is 0, and not 1 to 39");
            assert_eq!(of(side, "07 02 01 28"), "the number of parameters is 40, and not 1 to 39");
        }
        for identifier in ["00", "03", "80", "81", "82", "83", "FF"] {
            let said = of(Side::Request, &format!("07 {identifier} 01 01"));
            assert_eq!(said, format!("the identifier is {identifier}, and not 01 or 02"));
        }
        for identifier in ["00", "03", "80", "83", "FF"] {
            let said = of(Side::Response, &format!("07 {identifier} 01 01"));
            assert_eq!(said, format!("the identifier is {identifier}, and not 01, 02, 81 or 82"));
        }
    }

    #[test]
    fn requests() {
        let request = |hex: &str| of(Side::Request, hex);
        assert_eq!(request("07 01 01 01 10 01 03 A2 00 00"), "readable");
        assert_eq!(request("07 01 01 02 10 01 03 A2 00 00"), "it is cut where bytes 5 to 16 should be addresses");
        assert_eq!(request("07 01 01 01 10 01 03 A2 00 00 42"), "1 byte left over behind byte 10");
        assert_eq!(request("07 01 01 01 10 01 03 A2 00 00 42 00"), "2 bytes left over behind byte 10");
        let change = |values: &str| request(&format!("07 02 01 01 10 01 26 AC 00 00 {values}"));
        assert_eq!(change("07 00"), "readable");
        assert_eq!(change("05 01 03 00"), "readable");
        assert_eq!(change(""), "it is cut where byte 11 should be a format");
        assert_eq!(change("42"), "it is cut where byte 12 should be a number of values");
        assert_eq!(change("42 01 00"), "it is cut where bytes 13 to 14 should be values");
        assert_eq!(change("42 01 00 01 00 00"), "2 bytes left over behind byte 14");
        for format in ["00", "01", "08", "40", "44"] {
            assert_eq!(change(&format!("{format} 00")), format!("{format} at byte 11 is no format for identifier 02"));
        }
    }

    #[test]
    fn responses() {
        let response = |hex: &str| of(Side::Response, hex);
        assert_eq!(response("07 01 01 01 42 01 00 01"), "readable");
        assert_eq!(response("07 02 01 27"), "readable");
        assert_eq!(response("07 02 01 01 42 01 00 01"), "4 bytes left over behind byte 4");
        assert_eq!(response("07 01 01 02 42 01 00 01"), "it is cut where byte 9 should be a format");
        assert_eq!(response("07 01 01 02 42"), "it is cut where byte 6 should be a number of values");
        assert_eq!(response("07 01 01 02 43 02 00 01"), "it is cut where bytes 7 to 14 should be values");
        assert_eq!(response("07 81 01 01 44 01 00"), "it is cut where bytes 7 to 8 should be values");
        for (identifier, format) in [("01", "06"), ("01", "40"), ("01", "44"), ("81", "40"), ("82", "42"), ("82", "05")]
        {
            let said = response(&format!("07 {identifier} 01 01 {format} 00"));
            assert_eq!(said, format!("{format} at byte 5 is no format for identifier {identifier}"));
        }
        for (format, count) in [("41", "0"), ("42", "0"), ("43", "0"), ("44", "0"), ("44", "2")] {
            let said = response(&format!("07 81 01 01 {format} 0{count}"));
            assert_eq!(said, format!("{count} at byte 6 is no number of values for format {format}"));
        }
        assert_eq!(response("07 82 01 01 40 01"), "1 at byte 6 is no number of values for format 40");
        assert_eq!(response("07 81 01 01 42 01 00 01"), "the identifier is 81, and no block is an error");
        assert_eq!(response("07 82 01 02 40 00 40 00"), "the identifier is 82, and no block is an error");
        assert_eq!(response("07 82 01 02 40 00 44 01 00 02"), "readable");
    }

    #[test]
    fn fill_bytes() {
        let response = |values: &str| of(Side::Response, &format!("07 01 01 02 42 01 00 01 {values}"));
        let fill = "byte 12 should be the fill byte 00 of an odd number of byte values";
        assert_eq!(response("41 01 03 00"), "readable");
        assert_eq!(response("41 01 03"), format!("it is cut where {fill}"));
        assert_eq!(response("41 01 03 29"), format!("{fill}, and is 29"));
        assert_eq!(response("41 02 03 29 00"), "1 byte left over behind byte 12");
        for format in ["41", "02", "05"] {
            let change = of(Side::Request, &format!("07 02 01 01 10 01 03 C5 00 00 {format} 03 03 29 03 29"));
            assert_eq!(change, "byte 16 should be the fill byte 00 of an odd number of byte values, and is 29");
        }
    }
}
